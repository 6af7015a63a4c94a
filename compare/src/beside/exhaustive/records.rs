//! Restores: every byte with every value, every two fields around their limits, and every serial position, each by 18 bytes and by 20.

use crate::pair::Pair;
use compare::call::Call;
use compare::records::{serial, with_acc, with_block, Chip, FIELDS};

pub fn compare(pair: &mut Pair) {
    pair.at("restores");
    for phase in 0..7 {
        let base = with_acc(with_block(serial(0, 0, phase, 0), 321), 0x0102_0304_0506_0708);
        every_byte(pair, &base);
        every_two_fields(pair, &base);
    }
    every_position(pair);
}

fn every_byte(pair: &mut Pair, base: &Chip) {
    for at in 0..base.len() {
        for value in 0..=255 {
            let mut chip = *base;
            chip[at] = value;
            by_both(pair, chip);
        }
    }
}

fn every_two_fields(pair: &mut Pair, base: &Chip) {
    for (number, first) in FIELDS.iter().enumerate() {
        for second in &FIELDS[number + 1..] {
            for a in first.limits {
                second.limits.iter().for_each(|b| by_both(pair, second.set(&first.set(base, *a), *b)));
            }
        }
    }
}

fn every_position(pair: &mut Pair) {
    for width in 0..16 {
        for large in 0..3 {
            for phase in 0..8 {
                (0..67).for_each(|count| by_both(pair, serial(width, large, phase, count)));
            }
        }
    }
}

/// The layouts take turns.
fn by_both(pair: &mut Pair, chip: Chip) {
    pair.calls([Call::Restore(chip); 2]);
}
