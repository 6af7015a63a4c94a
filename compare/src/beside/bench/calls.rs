//! Time per call.

use super::{answered, calls, row, stored, used, values, BATCH};
use crate::abi::{MACRONIX_128K, USUAL_PART};
use crate::part::Part;
use crate::part_image;
use compare::call::Call;
use compare::commands::{set_address, write_block};
use compare::images::{image, of_kind};
use compare::kind::{self, Kind, MEMORY};
use compare::original::{self, Cartridge};
use compare::records::{serial, state, with_acc, with_block, Chip, Layout, STATE_SIZE};
use std::hint::black_box;

pub fn rows() {
    reads();
    writes();
    bits();
    blocks();
    states();
    images();
}

/// A cartridge on both sides, with the chip record given.
fn open(kind: Kind, chip: Chip) -> (Cartridge, Part) {
    open_with(kind, USUAL_PART, chip)
}

/// The same with a flash part. The original has the usual one whatever is given.
fn open_with(kind: Kind, flash_part: u32, chip: Chip) -> (Cartridge, Part) {
    let image = of_kind(kind);
    let mut cart = original::open(&image).expect("an image of an allowed length");
    original::restore(&mut cart, &chip).expect("an allowed record");
    let (answer, mut part) = Part::open_with(&image, flash_part, MEMORY[usize::from(kind)]);
    answered(answer);
    answered(part.restore(&chip));
    (cart, part)
}

fn reads() {
    let mut id_mode = [0; 18];
    id_mode[2] = 1;
    for (name, kind, flash_part, chip) in [
        ("byte read, None", kind::NONE, USUAL_PART, [0; 18]),
        ("byte read, Sram", kind::SRAM, USUAL_PART, [0; 18]),
        ("byte read, Flash64", kind::FLASH64, USUAL_PART, [0; 18]),
        ("byte read, Flash128", kind::FLASH128, USUAL_PART, [0; 18]),
        ("byte read, Flash128, Macronix", kind::FLASH128, MACRONIX_128K, [0; 18]),
        ("byte read, Flash128 in ID mode", kind::FLASH128, USUAL_PART, id_mode),
        ("byte read, Flash128 in ID mode, Macronix", kind::FLASH128, MACRONIX_128K, id_mode),
        ("byte read, Eeprom512", kind::EEPROM512, USUAL_PART, [0; 18]),
    ] {
        let (cart, part) = open_with(kind, flash_part, chip);
        calls(name, |i| used(original::save_read(&cart, i * 37)), |i| used(answered(part.save_read(i * 37))));
    }
}

/// Byte writes at one place. Where a row does not say other byte, a byte that is stored is the one that is there.
fn writes() {
    const PROGRAM: &[u8] = &[0xAA, 0x55, 0xA0, 0x12];
    const PROGRAM_OTHER: &[u8] = &[0xAA, 0x55, 0xA0, 0x12, 0xAA, 0x55, 0xA0, 0x34];
    for (name, kind, flash_part, command) in [
        ("byte write, None", kind::NONE, USUAL_PART, &[0x12][..]),
        ("byte write, Sram", kind::SRAM, USUAL_PART, &[0x12]),
        ("byte write, Sram, other byte", kind::SRAM, USUAL_PART, &[0x12, 0x34]),
        ("byte write, Eeprom512", kind::EEPROM512, USUAL_PART, &[0x12]),
        ("byte write, Eeprom512, other byte", kind::EEPROM512, USUAL_PART, &[0x12, 0x34]),
        ("byte write, flash state 0", kind::FLASH128, USUAL_PART, &[0x12]),
        ("byte write, flash state 0, Macronix", kind::FLASH128, MACRONIX_128K, &[0x12]),
        ("byte write, flash states 0 1", kind::FLASH128, USUAL_PART, &[0xAA, 0x12]),
        ("byte write, flash states 0 1 2 (ID mode off)", kind::FLASH128, USUAL_PART, &[0xAA, 0x55, 0xF0]),
        ("byte write, flash states 0 1 2 4 (program)", kind::FLASH128, USUAL_PART, PROGRAM),
        ("byte write, flash states 0 1 2 4 (program), other byte", kind::FLASH128, USUAL_PART, PROGRAM_OTHER),
        ("byte write, flash states 0 1 2 4 (program), Macronix", kind::FLASH128, MACRONIX_128K, PROGRAM),
        ("byte write, flash states 0 1 2 5 (bank)", kind::FLASH128, USUAL_PART, &[0xAA, 0x55, 0xB0, 0x01]),
        ("byte write, flash states 0 1 2 6 7", kind::FLASH128, USUAL_PART, &[0xAA, 0x55, 0x80, 0xAA, 0x12]),
        ("byte write, flash states 0 1 2 6 7 8 (no erase)", kind::FLASH128, USUAL_PART, &[0xAA, 0x55, 0x80, 0xAA, 0x55, 0x12]),
    ] {
        let (mut cart, mut part) = open_with(kind, flash_part, [0; 18]);
        let commands = command.repeat(BATCH as usize / 8);
        values(
            name,
            &commands,
            |value| original::save_write(&mut cart, 0x5555, value),
            |value| used(stored(part.save_write(0x5555, value))),
        );
    }
}

const DATA: u64 = 0x0123_4567_89AB_CDEF;

/// The bits of a command, many times over, without its DMA length.
fn stream(command: Vec<Call>) -> Vec<u16> {
    let bit = |call: &Call| match call {
        Call::BitIn(value) => Some(*value),
        _ => None,
    };
    command.repeat(50).iter().filter_map(bit).collect()
}

fn bits() {
    let idle = serial(14, 1, 0, 0);
    for words in [17, 68] {
        let (mut cart, mut part) = open(kind::EEPROM512, idle);
        calls(
            &format!("DMA {words}"),
            |_| original::eeprom_begin_dma(&mut cart, black_box(words)),
            |_| used(answered(part.eeprom_begin_dma(black_box(words)))),
        );
    }
    for (name, command) in [
        ("serial bit in, writes of 81 bits", write_block(14, 100, DATA)),
        ("serial bit in, writes of 81 bits, other data", [DATA, !DATA].map(|data| write_block(14, 100, data)).concat()),
        ("serial bit in, addresses of 17 bits", set_address(14, 100)),
    ] {
        let (mut cart, mut part) = open(kind::EEPROM512, idle);
        values(
            name,
            &stream(command),
            |bit| original::eeprom_write(&mut cart, bit),
            |bit| used(stored(part.eeprom_write(bit))),
        );
    }
    let reading = with_block(serial(14, 1, 6, 0), 100);
    let (mut cart, mut part) = open(kind::EEPROM512, reading);
    row(
        "serial bit out, 68 after each restore",
        68,
        || {
            used(original::restore(&mut cart, &reading));
            (0..68).for_each(|_| used(original::eeprom_read(&mut cart)));
        },
        || {
            used(answered(part.restore(&reading)));
            (0..68).for_each(|_| used(answered(part.eeprom_read())));
        },
    );
    let (mut cart, mut part) = open(kind::EEPROM512, idle);
    calls("serial bit out, idle", |_| used(original::eeprom_read(&mut cart)), |_| used(answered(part.eeprom_read())));
}

/// The bit that stores a block, after a restore that puts the chip in front of it; the data of the last time, or other data.
fn blocks() {
    let before_last = |data| with_acc(with_block(serial(14, 1, 3, 63), 100), data >> 1);
    for (name, data) in [("same data", [DATA, DATA]), ("other data", [DATA, !DATA])] {
        let (mut cart, mut part) = open(kind::EEPROM512, before_last(DATA));
        let bits = data.map(|data| (before_last(data), (data & 1) as u16)).repeat(BATCH as usize / 16);
        values(
            &format!("restore and the bit that stores a block, {name}"),
            &bits,
            |(chip, bit)| {
                used(original::restore(&mut cart, &chip));
                original::eeprom_write(&mut cart, bit);
            },
            |(chip, bit)| {
                used(answered(part.restore(&chip)));
                used(stored(part.eeprom_write(bit)));
            },
        );
    }
}

/// The first version with states of 20 bytes. An earlier part takes and writes 18.
const LAYOUT_2_VERSION: u32 = 700;

/// The original's states have 18 bytes.
fn states() {
    let accepted = with_block(serial(14, 1, 3, 40), 100);
    let refused = serial(14, 1, 3, 64);
    let (mut cart, mut part) = open(kind::EEPROM512, accepted);
    let newest = if part_image::version() >= LAYOUT_2_VERSION { Layout::Two } else { Layout::One };
    for (name, chip, layout) in [
        ("restore, 18 bytes", accepted, Layout::One),
        ("restore, 20 bytes", accepted, newest),
        ("restore, 18 bytes, refused", refused, Layout::One),
        ("restore, 20 bytes, refused", refused, newest),
    ] {
        let state = state(&chip, true);
        let bytes = layout.of(&state);
        calls(name, |_| used(original::restore(&mut cart, black_box(&chip))), |_| used(part.restore(black_box(bytes)).refusal));
    }
    let mut place = [0; STATE_SIZE];
    calls("chip state", |_| used(original::chip_state(&cart)), |_| used(answered(part.chip_state_to(black_box(&mut place)))));
    calls("take the flag", |_| used(original::take_save_dirty(&mut cart)), |_| used(answered(part.take_save_dirty())));
    calls("window start", |_| used(original::eeprom_window_start(&cart)), |_| used(answered(part.eeprom_window_start())));
}

fn images() {
    let image = image(BATCH as usize, 7, 0xA0, b"POKEMON RUBY");
    let cart = original::open(&image).expect("an image of an allowed length");
    calls("image read, 8 bits", |i| used(original::read(&cart, i)), |i| used(answered(part_image::read(&image, i))));
    calls("image read, 16 bits", |i| used(original::read16(&cart, i)), |i| used(answered(part_image::read16(&image, i))));
    calls("image read, 32 bits", |i| used(original::read32(&cart, i)), |i| used(answered(part_image::read32(&image, i))));
    calls(
        "header check",
        |_| used(original::header_checksum(black_box(&image))),
        |_| used(answered(part_image::header_checksum(black_box(&image)))),
    );
    let mut title = [0; 36];
    calls(
        "title",
        |_| used(original::title(black_box(&image))),
        |_| used(answered(part_image::title(black_box(&image), black_box(&mut title)))),
    );
}
