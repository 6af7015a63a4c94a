//! The serial EEPROM: whole commands at both widths, and the places at which a stream may turn.

use crate::list::List;
use compare::call::Call;
use compare::commands::*;
use compare::kind;
use compare::records::{serial, with_acc, with_block, Chip};

const WIDTHS: [(u8, u8); 6] = [(0, 0), (0, 1), (6, 0), (6, 1), (14, 0), (14, 1)];

pub fn commands(list: &mut List) {
    list.put(write_block(6, 36, 0x0123_4567_89AB_CDEF));
    list.put([Call::TakeFlag, Call::ChipState, Call::Export]);
    list.put(write_block(14, 100, 0xFEDC_BA98_7654_3210));
    list.put([Call::TakeFlag, Call::ChipState, Call::Export]);
    list.put(set_address(6, 36));
    list.put(read_back());
    // The upper four bits of an address do not count.
    list.put(set_address(14, 0x3C00 + 100));
    list.put(read_back());
}

/// The width by the chip's size alone.
pub fn unannounced(list: &mut List) {
    let width = if list.kind() == kind::EEPROM8K { 14 } else { 6 };
    let silent = |calls: Vec<Call>| calls.into_iter().filter(|call| !matches!(call, Call::Dma(_)));
    list.put(silent(write_block(width, 63, 0x8000_0000_0000_0001)));
    list.put([Call::TakeFlag, Call::ChipState]);
    list.put(silent(set_address(width, 63)));
    list.put(silent(read_back()));
}

/// The first and the last bit of each counted phase, with an acc that loses its highest bit.
pub fn ends_of_phases(list: &mut List) {
    for phase in 0..4 {
        bits(list, with_acc(serial(0, 0, phase, 0), 0x9234_5678_9ABC_DEF0));
    }
    for (width, large) in WIDTHS {
        let address = if (width, large) == (0, 0) || width == 6 { 6 } else { 14 };
        for (phase, length) in [(0, 2), (1, address), (2, address), (3, 64), (4, 1), (5, 1), (6, 1)] {
            let chip = with_block(serial(width, large, phase, length - 1), 77);
            for acc in [0x8000_0000_0000_0001, 0x1234_5678_9ABC_DEF0] {
                bits(list, with_acc(chip, acc));
            }
        }
    }
}

fn bits(list: &mut List, chip: Chip) {
    for value in [0xFFFE, 0x0001] {
        list.put([Call::Restore(chip), Call::BitIn(value), Call::ChipState]);
    }
}

/// A DMA length told in the middle of an address, and one bit behind it.
pub fn announced_late(list: &mut List) {
    for (phase, width, counts) in
        [(1, 14, &[0, 5, 6, 13][..]), (2, 6, &[0, 4, 5]), (2, 14, &[5, 12, 13]), (1, 0, &[5]), (3, 6, &[63])]
    {
        for count in counts {
            for words in [9, 17, 73, 81, 68] {
                let chip = with_acc(serial(width, 0, phase, *count), 0b1_1011);
                list.put([Call::Restore(chip), Call::Dma(words), Call::BitIn(1), Call::ChipState]);
            }
        }
    }
    // A file of 513 bytes makes the chip large, and so its addresses longer.
    list.put([Call::Restore(serial(0, 0, 1, 5)), Call::Load { length: 513, seed: 9 }]);
    list.put([Call::BitIn(1), Call::ChipState].into_iter().chain([Call::BitIn(0); 8]).chain([Call::ChipState]));
}

/// A bit out and a bit in at the places of Reading where something changes.
pub fn reading_left(list: &mut List) {
    list.put([Call::Load { length: 8192, seed: 0x5A }]);
    for place in [0, 3, 4, 5, 11, 12, 66, 67] {
        let mut chip = with_acc(with_block(serial(0, 1, 6, 0), 1023), 0xDEAD);
        chip[9] = place;
        list.put([Call::Restore(chip), Call::BitOut, Call::ChipState]);
        bits(list, chip);
    }
}

/// Reading on a kind without EEPROM, which only a restore begins.
pub fn reading_without_chip(list: &mut List) {
    list.put([Call::BitOut, Call::Dma(17), Call::ChipState, Call::Dma(9), Call::ChipState]);
    list.put([Call::Restore(with_block(serial(14, 1, 6, 0), 5)), Call::ChipState]);
    list.put([Call::BitOut; 67].into_iter().chain([Call::ChipState, Call::BitOut, Call::ChipState, Call::BitOut]));
}
