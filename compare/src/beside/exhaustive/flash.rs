//! Every flash state with every byte value, in both banks, with ID mode on and off.

use crate::pair::Pair;
use compare::call::Call;

const STATES: [u8; 8] = [0, 1, 2, 4, 5, 6, 7, 8];
const ADDRESSES: [u32; 4] = [0, 0x0E00_0FFF, 0x5555, 0xFFFF_FFFF];

pub fn compare(pair: &mut Pair) {
    for state in STATES {
        pair.at(&format!("flash state {state}"));
        for bank in 0..2 {
            for id_mode in 0..2 {
                let mut chip = [0; 18];
                chip[..3].copy_from_slice(&[state, bank, id_mode]);
                for address in ADDRESSES {
                    every_value(pair, chip, address);
                }
            }
        }
    }
}

fn every_value(pair: &mut Pair, chip: [u8; 18], address: u32) {
    let full = Call::Load { length: 0x2_0000, seed: address as u8 };
    pair.call(full);
    for value in 0..=255 {
        pair.calls([Call::Restore(chip), Call::Write(address, value), Call::Read(address), Call::Read(address ^ 1)]);
        if chip[0] == 8 && matches!(value, 0x10 | 0x30) {
            pair.calls([Call::TakeFlag, full]);
        }
    }
    pair.call(Call::TakeFlag);
}
