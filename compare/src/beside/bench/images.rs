//! Time per image: opening, kind and CRC.

use super::{answered, is_wanted, long_row, row, used, FEW_TURNS, LONG_TURNS};
use crate::part::Part;
use crate::part_image;
use compare::images::{image, put, LARGEST, SMALLEST};
use compare::kind::MEMORY;
use compare::original;
use compare::random::Random;
use std::hint::black_box;

pub fn rows() {
    large();
    in_pieces();
    contents();
    small();
    crcs();
}

/// 32 MiB with the marker near the end, where most stand. The original's opening takes the CRC too. An image takes long to make, and is
/// made only if it is wanted.
fn large() {
    for (name, marker) in [("SRAM_V", "SRAM_V"), ("EEPROM_V", "EEPROM_V"), ("no marker", "")] {
        let rows = ["opening", "opening and CRC", "kind"].map(|what| format!("{what}, 32 MiB, {name}"));
        if !rows.iter().any(|row| is_wanted(row)) {
            continue;
        }
        let image = image(LARGEST, 7, LATE, marker.as_bytes());
        let memory = memory_of(&image);
        let [opening, opening_and_crc, kind] = &rows;
        long_row(opening, LONG_TURNS, || used(original::open(&image)), || used(opened(&image, memory)));
        long_row(
            opening_and_crc,
            LONG_TURNS,
            || used(original::open(&image)),
            || used((opened(&image, memory), answered(part_image::rom_crc(&image)))),
        );
        let whole = || used(original::detect_save_type(&image));
        long_row(kind, LONG_TURNS, whole, || used(answered(part_image::detect_save_type(&image))));
    }
}

/// Where a late marker stands in 32 MiB.
const LATE: usize = LARGEST - 64;

/// The kind by the matcher. The original has the whole image.
fn in_pieces() {
    let rows = [512, 32_768].map(|length| (length, format!("kind in pieces of {length} bytes, 32 MiB, no marker")));
    if !rows.iter().any(|(_, row)| is_wanted(row)) {
        return;
    }
    let image = image(LARGEST, 7, 0, b"");
    for (length, row) in rows {
        let whole = || used(original::detect_save_type(&image));
        long_row(&row, LONG_TURNS, whole, || used(kind_in_pieces(&image, length)));
    }
}

fn kind_in_pieces(image: &[u8], length: usize) -> u32 {
    let mut matcher = part_image::Matcher::start();
    image.chunks(length).for_each(|piece| used(answered(matcher.feed(piece))));
    answered(matcher.finish(&image[..SMALLEST], image.len()))
}

/// What 32 MiB hold decides how far a search gets at a time. The part passes over 32 bytes in which there is no `_V`.
const CONTENTS: [(&str, fn(&mut [u8])); 9] = [
    ("random bytes", random),
    ("zeros", |image| image.fill(0)),
    ("FFh", |image| image.fill(0xFF)),
    ("capital letters", |image| {
        random(image);
        image.iter_mut().for_each(|byte| *byte = b'A' + *byte % 26);
    }),
    ("_V repeated", |image| image.chunks_mut(2).for_each(|place| place.copy_from_slice(b"_V"))),
    ("a _V in every 32 bytes", |image| {
        image.fill(0);
        image.chunks_mut(32).for_each(|place| put(place, 0, b"_V"));
    }),
    ("random, FLASH_V", |image| with_late(image, b"FLASH_V")),
    ("random, FLASH512_V", |image| with_late(image, b"FLASH512_V")),
    ("random, FLASH1M_V", |image| with_late(image, b"FLASH1M_V")),
];

fn random(image: &mut [u8]) {
    let mut random = Random::new(7);
    image.chunks_mut(8).for_each(|place| place.copy_from_slice(&random.number().to_le_bytes()));
}

fn with_late(image: &mut [u8], marker: &[u8]) {
    random(image);
    put(image, LATE, marker);
}

/// One memory has all these images in turn.
fn contents() {
    let mut image = Vec::new();
    for (name, write) in CONTENTS {
        let row = format!("opening, 32 MiB, {name}");
        if is_wanted(&row) {
            image.resize(LARGEST, 0);
            write(&mut image);
            let memory = memory_of(&image);
            long_row(&row, FEW_TURNS, || used(original::open(&image)), || used(opened(&image, memory)));
        }
    }
}

/// Images without a marker: nothing of the time is for the erasing of a memory.
fn small() {
    for (length, calls) in [(SMALLEST, 256), (4_096, 16)] {
        let image = image(length, 7, 0, b"");
        assert_eq!(memory_of(&image), 0);
        row(
            &format!("opening, {length} bytes, no marker"),
            calls,
            || (0..calls).for_each(|_| used(original::open(black_box(&image)))),
            || (0..calls).for_each(|_| used(opened(black_box(&image), 0))),
        );
        row(
            &format!("kind, {length} bytes, no marker"),
            calls,
            || (0..calls).for_each(|_| used(original::detect_save_type(black_box(&image)))),
            || (0..calls).for_each(|_| used(answered(part_image::detect_save_type(black_box(&image))))),
        );
    }
}

fn crcs() {
    if is_wanted("CRC, 32 MiB") {
        let image = image(LARGEST, 7, 0, b"");
        long_row("CRC, 32 MiB", LONG_TURNS, || used(original::crc32(&image)), || used(part_image::rom_crc(&image)));
    }
    // The shortest image, in batches that take less than a round.
    const CALLS: u32 = 256;
    let image = image(SMALLEST, 7, 0, b"");
    row(
        "CRC, 192 bytes",
        CALLS,
        || (0..CALLS).for_each(|_| used(original::crc32(black_box(&image)))),
        || (0..CALLS).for_each(|_| used(answered(part_image::rom_crc(black_box(&image))))),
    );
}

fn memory_of(image: &[u8]) -> usize {
    MEMORY[usize::from(original::detect_save_type(image))]
}

fn opened(image: &[u8], memory: usize) -> Part {
    let (answer, part) = Part::open(image, memory);
    answered(answer);
    part
}
