//! Every serial position with both bits in and a bit out behind every DMA length, and whole streams with a DMA length anywhere.

use crate::pair::Pair;
use compare::call::Call;
use compare::commands::{read_back, set_address, write_block, DMA_WORDS};
use compare::records::{positions, serial, with_acc, with_block, Chip};

pub fn compare(pair: &mut Pair) {
    pair.at("serial positions");
    pair.call(Call::Load { length: 8192, seed: 0x3C });
    for position in positions() {
        for (block, acc) in [(0, 0), (63, 1), (100, (1 << 63) + 1), (1023, u64::MAX)] {
            every_step(pair, with_acc(with_block(position, block), acc));
        }
    }
    for place in 0..68 {
        for block in [0, 64, 1023] {
            let mut chip = with_acc(with_block(serial(6, 1, 6, 0), block), 0xDEAD);
            chip[9] = place;
            every_step(pair, chip);
        }
    }
    pair.at("serial streams");
    for large in 0..2 {
        for command in [set_address(6, 36), set_address(14, 100), write_block(6, 36, !0xF0), write_block(14, 100, 0xA5 << 40)] {
            every_place(pair, large, &command);
        }
    }
}

fn every_step(pair: &mut Pair, chip: Chip) {
    for words in DMA_WORDS.map(Some).into_iter().chain([None]) {
        for step in [Call::BitIn(0), Call::BitIn(1), Call::BitOut] {
            pair.call(Call::Restore(chip));
            pair.calls(words.map(Call::Dma));
            pair.calls([step, Call::BitIn(1), Call::BitOut]);
        }
    }
}

fn every_place(pair: &mut Pair, large: u8, command: &[Call]) {
    for place in 0..=command.len() {
        for words in DMA_WORDS {
            pair.call(Call::Restore(serial(0, large, 0, 0)));
            let (before, behind) = command.split_at(place);
            pair.calls(before.iter().copied());
            pair.call(Call::Dma(words));
            pair.calls(behind.iter().copied());
            pair.calls(read_back());
        }
    }
}
