//! Time per file and erase.

use super::placed::at_lines;
use super::{row, stored, used};
use crate::part::Part;
use compare::files::file;
use compare::images::of_kind;
use compare::kind::{self, MEMORY};
use compare::original;
use std::hint::black_box;

pub fn rows() {
    files();
    erases();
}

/// Cartridges of one side that take turns: in which pages a memory lies moves the time of a copy by some hundredths.
struct Turns<T> {
    all: Vec<T>,
    turn: usize,
}

impl<T> Turns<T> {
    const CARTRIDGES: usize = 5;
    /// Calls in one turn.
    const CALLS: u32 = 16;

    fn new() -> Self {
        Self { all: Vec::new(), turn: 0 }
    }

    fn each(&mut self, mut call: impl FnMut(&mut T)) {
        self.turn = (self.turn + 1) % Self::CARTRIDGES;
        let cartridge = &mut self.all[self.turn];
        (0..Self::CALLS).for_each(|_| call(black_box(cartridge)));
    }
}

/// Files of every length that an export has. Each is loaded once in front of its rows, so that both sides export it whole, and a load finds what it
/// brings. Other bytes are those of two files in turn, which differ in every place. The original has no import: it loads the bytes that are kept.
fn files() {
    for (name, kind, length) in [
        ("Sram", kind::SRAM, 32_768),
        ("Flash64", kind::FLASH64, 65_536),
        ("Flash128", kind::FLASH128, 131_072),
        ("Eeprom512", kind::EEPROM512, 512),
        ("Eeprom512", kind::EEPROM512, 8_192),
    ] {
        let image = of_kind(kind);
        let [file, other] = [3, 4].map(|seed| file(length, seed));
        let (mut carts, mut parts) = (Turns::new(), Turns::new());
        for _ in 0..Turns::<Part>::CARTRIDGES {
            let mut cart = at_lines(|| original::open(&image)).expect("an image of an allowed length");
            let (_, mut part) = at_lines(|| Part::open(&image, MEMORY[usize::from(kind)]));
            original::load_save(&mut cart, &file);
            part.load_save(&file);
            assert_eq!(original::save_data(&cart).as_ref(), Some(&file));
            assert_eq!(part.save_file(file.len()), file);
            carts.all.push(cart);
            parts.all.push(part);
        }
        row(
            &format!("load, {name}, {length} bytes"),
            Turns::<Part>::CALLS,
            || carts.each(|cart| original::load_save(cart, black_box(&file))),
            || parts.each(|part| used(stored(part.load_save(black_box(&file))))),
        );
        row(
            &format!("export, {name}, {length} bytes"),
            Turns::<Part>::CALLS,
            || carts.each(|cart| used(original::save_data(cart))),
            || parts.each(|part| used(part.save_file(black_box(file.len())))),
        );
        let in_turn = || [&other, &file].into_iter().cycle();
        let (mut to_carts, mut to_parts) = (in_turn(), in_turn());
        row(
            &format!("load, {name}, {length} bytes, other bytes"),
            Turns::<Part>::CALLS,
            || carts.each(|cart| original::load_save(cart, black_box(to_carts.next().expect("a file")))),
            || parts.each(|part| used(stored(part.load_save(black_box(to_parts.next().expect("a file")))))),
        );
        row(
            &format!("import, {name}, {length} bytes, other bytes"),
            Turns::<Part>::CALLS,
            || carts.each(|cart| original::load_save(cart, black_box(to_carts.next().expect("a file")))),
            || parts.each(|part| used(stored(part.import_save(black_box(to_parts.next().expect("a file")))))),
        );
    }
}

/// Of what is blank already, and of what is not: a byte is programmed in the sector, or a file is loaded.
fn erases() {
    const PROGRAM: [u8; 4] = [0xAA, 0x55, 0xA0, 0x12];
    const SECTOR: [u8; 6] = [0xAA, 0x55, 0x80, 0xAA, 0x55, 0x30];
    const CHIP: [u8; 6] = [0xAA, 0x55, 0x80, 0xAA, 0x55, 0x10];
    let file = file(0x2_0000, 3);
    for (name, loaded, values) in [
        ("sector erase, Flash128", false, SECTOR.to_vec()),
        ("program and sector erase, Flash128", false, [&PROGRAM[..], &SECTOR].concat()),
        ("chip erase, Flash128", false, CHIP.to_vec()),
        ("load and chip erase, Flash128", true, CHIP.to_vec()),
    ] {
        let image = of_kind(kind::FLASH128);
        let mut cart = original::open(&image).expect("an image of an allowed length");
        let (_, mut part) = Part::open(&image, MEMORY[usize::from(kind::FLASH128)]);
        row(
            name,
            1,
            || {
                if loaded {
                    original::load_save(&mut cart, black_box(&file));
                }
                values.iter().for_each(|value| original::save_write(&mut cart, 0x5555, *value));
            },
            || {
                if loaded {
                    used(stored(part.load_save(black_box(&file))));
                }
                values.iter().for_each(|value| used(stored(part.save_write(0x5555, *value))));
            },
        );
    }
}
