//! Time of the two answers from the tallies.

use super::{answered, row, used};
use crate::part::Part;
use compare::images::of_kind;
use compare::kind::{self, Kind, MEMORY};
use compare::original;
use std::hint::black_box;

const CALLS: u32 = 128;

/// The original has no such calls: beside the part stands a reading of its whole memory, up to the first stretch in use.
pub fn rows() {
    for (name, kind, in_use) in [
        ("Eeprom512", kind::EEPROM512, 0),
        ("Sram", kind::SRAM, 0),
        ("Flash128", kind::FLASH128, 0),
        ("Flash128, the last byte in use", kind::FLASH128, MEMORY[usize::from(kind::FLASH128)]),
    ] {
        let (cart, part) = loaded(kind, in_use);
        let is_blank = |part: &Part| used(answered(part.is_blank()));
        let first_in_use = |part: &Part| used(answered(part.first_in_use()));
        row(
            &format!("is it blank, {name}"),
            CALLS,
            || (0..CALLS).for_each(|_| used(original::is_blank(black_box(&cart)))),
            || (0..CALLS).for_each(|_| is_blank(black_box(&part))),
        );
        row(
            &format!("first stretch in use, {name}"),
            CALLS,
            || (0..CALLS).for_each(|_| used(original::first_in_use(black_box(&cart)))),
            || (0..CALLS).for_each(|_| first_in_use(black_box(&part))),
        );
    }
}

/// A cartridge on both sides. Of so many bytes of its memory the last one is in use.
fn loaded(kind: Kind, in_use: usize) -> (original::Cartridge, Part) {
    let image = of_kind(kind);
    let mut cart = original::open(&image).expect("an image of an allowed length");
    let (answer, mut part) = Part::open(&image, MEMORY[usize::from(kind)]);
    answered(answer);
    let mut file = vec![0xFF; in_use];
    file.last_mut().into_iter().for_each(|byte| *byte = 0);
    original::load_save(&mut cart, &file);
    answered(part.load_save(&file));
    (cart, part)
}
