//! Stores at both ends of every stretch, where one tally changes by one or not at all; erases of every sector and of the chip; loads that end at and beside the end of
//! every stretch; blocks at both ends.

use crate::pair::Pair;
use compare::call::Call;
use compare::commands::{erase_chip, erase_sector, select_bank, write_block};
use compare::kind::{is_eeprom, is_flash, MEMORY};
use compare::memory::STRETCH;

const BANK: usize = 0x1_0000;

pub fn compare(pair: &mut Pair) {
    pair.at("stretches");
    pair.renew();
    let stretches = (0..MEMORY[usize::from(pair.kind())]).step_by(STRETCH);
    for start in stretches.clone() {
        for at in [start, start + STRETCH - 1] {
            // Blank, in use, another byte in use, the same again, blank, and in use for what comes next.
            for value in [0xFF, 0x00, 0x5A, 0x5A, 0xFF, 0x5A] {
                store(pair, at, value);
            }
        }
    }
    if is_flash(pair.kind()) {
        for start in stretches.clone().rev() {
            pair.calls(select_bank((start / BANK) as u8));
            pair.calls(erase_sector((start % BANK + 0x123) as u32));
            pair.calls(erase_sector((start % BANK) as u32));
        }
        pair.call(Call::Load { length: 0x2_0000, seed: 7 });
        pair.calls([erase_chip(), erase_chip()].concat());
    }
    if is_eeprom(pair.kind()) {
        for block in [0, 511, 512, 1023] {
            for data in [u64::MAX, 0x0123_4567_89AB_CDEF, !0xFF, 0, 0, u64::MAX] {
                pair.calls(write_block(14, block, data));
            }
        }
    }
    for (start, seed) in stretches.zip(1..) {
        let end = (start + STRETCH) as u32;
        pair.calls([end - 1, end, end + 1, 1].map(|length| Call::Load { length, seed }));
    }
}

/// A byte write. On flash it programs the byte, after a restore that puts the chip in front of that.
fn store(pair: &mut Pair, at: usize, value: u8) {
    let mut chip = [0; 18];
    if is_flash(pair.kind()) {
        chip[..2].copy_from_slice(&[4, (at / BANK) as u8]);
    }
    pair.calls([Call::Restore(chip), Call::Write((at % BANK) as u32, value)]);
}
