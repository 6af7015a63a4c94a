//! What is asked of an image alone, and opening.

mod crcs;
mod searches;

use crate::abi::{NONE_IN_USE, RECORD_SIZE, USUAL_PART};
use crate::part::Part;
use crate::part_image as part;
use crate::run::Run;
use crate::side::{Answer, Side};
use compare::files::LENGTHS;
use compare::images::{image, put, LARGEST, LINE, SMALLEST};
use compare::kind::{self, MEMORY};
use compare::original as rust;
use compare::random::Random;
use compare::records::hex;
use compare::texts::TEXTS;

const TEXT_IMAGES: usize = 20_000;
const TITLES: usize = 1_000_000;

pub fn compare(run: &mut Run) {
    let random = &mut Random::new(run.seed);
    searches::compare(run, random);
    let before = (run.calls, run.seconds());
    short_images(run);
    texts(run, random);
    titles(run, random);
    large_images(run, random);
    crcs::compare(run, random);
    run.clear_line();
    println!("beside: images, {} calls, {:.1} s", run.calls - before.0, run.seconds() - before.1);
}

/// Below 192 bytes opening refuses, and no file fits.
fn short_images(run: &mut Run) {
    run.at("short images".into());
    for length in 0..SMALLEST {
        let image = image(length, 7, 0, b"SRAM_V");
        opening(run, &image);
        sizes(run, &image, &LENGTHS);
        searches::refused(run, &image);
    }
}

fn texts(run: &mut Run, random: &mut Random) {
    run.at("images with texts".into());
    for number in 0..TEXT_IMAGES {
        let text = TEXTS[number % TEXTS.len()];
        let length = SMALLEST + random.below(4_000) as usize;
        let offset = match random.below(6) {
            0 => 0xA0,
            1 => 0xAC,
            2 => 0,
            3 => length - text.len(),
            4 => length + 1 - text.len(),
            _ => random.below(length as u64) as usize,
        };
        let mut image = image(length, random.byte(), offset, text);
        if random.one_in(2) {
            put(&mut image, random.below(length as u64) as usize, random.pick(&TEXTS));
        }
        let length = random.pick(&LENGTHS);
        whole(run, random, &image, length);
    }
}

/// Bytes at which the well-formed sequences of UTF-8 begin, go on and end.
const TITLE_BYTES: [u8; 28] = [
    0, b'A', 0x7F, 0x80, 0x8F, 0x90, 0x9F, 0xA0, 0xBF, 0xC0, 0xC1, 0xC2, 0xDF, 0xE0, 0xE1, 0xEC, 0xED, 0xEE, 0xEF, 0xF0, 0xF1,
    0xF3, 0xF4, 0xF5, 0xF7, 0xF8, 0xFE, 0xFF,
];

fn titles(run: &mut Run, random: &mut Random) {
    run.at("titles".into());
    let mut image = image(SMALLEST, 0, 0, b"");
    for _ in 0..TITLES {
        for byte in &mut image[0xA0..0xB0] {
            *byte = if random.one_in(8) { random.byte() } else { random.pick(&TITLE_BYTES) };
        }
        header(run, &image);
    }
}

/// Around 16 and 32 MiB, with markers first, last and nowhere.
fn large_images(run: &mut Run, random: &mut Random) {
    let markers: [&[u8]; 3] = [b"EEPROM_V", b"SRAM_V", b""];
    for (number, length) in [LINE, LINE + 1, LARGEST, LARGEST + 1].into_iter().enumerate() {
        for marker in markers {
            run.at(format!("an image of {length} bytes"));
            let offset = if random.one_in(2) { 0 } else { length - marker.len() };
            let image = image(length, number as u8, offset, marker);
            if length > LARGEST {
                opening(run, &image);
                header(run, &image);
                sizes(run, &image, &[8192]);
                searches::refused(run, &image);
            } else {
                whole(run, random, &image, 8192);
            }
        }
    }
}

fn whole(run: &mut Run, random: &mut Random, image: &[u8], file: u32) {
    opening(run, image);
    header(run, image);
    sizes(run, image, &[file]);
    reads(run, random, image);
    searches::search(run, random, image);
    same(run, "rom_crc", rust::crc32(image), part::rom_crc(image));
}

fn opening(run: &mut Run, image: &[u8]) {
    let cart = match rust::open(image) {
        Ok(cart) => cart,
        Err(refusal) => {
            let (answer, part) = Part::open(image, 0);
            if *part.record() != [0; RECORD_SIZE] {
                run.differ(&format!("from_bytes: refused, it leaves the record {}", hex(part.record())));
            }
            return held(run, "from_bytes", Answer::refusal(refusal.into()), answer);
        }
    };
    let kind = rust::kind(&cart);
    let (answer, part) = Part::open(image, MEMORY[usize::from(kind)]);
    held(run, "from_bytes", Answer::value(0), answer);
    let mut record = Vec::from((image.len() as u32).to_le_bytes());
    record.extend([kind, 0]);
    record.extend(rust::chip_state(&cart));
    record.push(USUAL_PART as u8);
    if record != part.record() || cart.memory() != part.memory() {
        run.differ(&format!(
            "from_bytes: the record is {}, not {}, or the memory is not erased",
            hex(part.record()),
            hex(&record)
        ));
    }
    same(run, "memory_size", cart.memory().len() as u32, part::memory_size(kind));
    if part.tallies().iter().any(|tally| *tally != 0) {
        run.differ(&format!("from_bytes: the tallies are {:?}", part.tallies()));
    }
    same(run, "is_blank", 1, part.is_blank());
    same(run, "first_in_use", NONE_IN_USE, part.first_in_use());
    same(run, "uses_eeprom", rust::uses_eeprom(&cart).into(), part.uses_eeprom());
    same(run, "eeprom_window_start", rust::eeprom_window_start(&cart), part.eeprom_window_start());
    if kind == kind::NONE {
        same(run, "save_data", 0, part.save_data(&mut []));
    }
}

fn header(run: &mut Run, image: &[u8]) {
    same(run, "header_checksum", rust::header_checksum(image).into(), part::header_checksum(image));
    let title = rust::title(image);
    let mut destination = [0xA5; 40];
    same(run, "title", title.len() as u32, part::title(image, &mut destination));
    let (written, behind) = destination.split_at(title.len());
    if written != title.as_bytes() || behind.iter().any(|byte| *byte != 0xA5) {
        run.differ(&format!("title: the original's is {}; the part wrote {}", hex(title.as_bytes()), hex(&destination)));
    }
    let exact = &mut destination[..title.len()];
    same(run, "title", title.len() as u32, part::title(image, exact));
}

fn sizes(run: &mut Run, image: &[u8], lengths: &[u32]) {
    for length in lengths {
        let length = *length as usize;
        // Where no such file fits, the part keeps 0 bytes of it.
        let kept = rust::save_fit(image, length).unwrap_or(0);
        same(run, "save_fit", kept as u32, part::save_fit(image, length));
    }
    same(run, "save_size", rust::save_size(image) as u32, part::save_size(image));
}

/// Reads at the image's ends and anywhere, but where an address would wrap.
fn reads(run: &mut Run, random: &mut Random, image: &[u8]) {
    let cart = rust::open(image).expect("an image of an allowed length");
    let end = image.len() as u32;
    let inside = random.below(end.into()) as u32;
    let anywhere = random.number() as u32;
    for address in [0, inside, end - 4, end - 3, end - 2, end - 1, end, anywhere, u32::MAX - 3, u32::MAX - 1, u32::MAX] {
        same(run, "read", rust::read(&cart, address).into(), part::read(image, address));
        if address < u32::MAX {
            same(run, "read16", rust::read16(&cart, address).into(), part::read16(image, address));
        }
        if address < u32::MAX - 2 {
            same(run, "read32", rust::read32(&cart, address), part::read32(image, address));
        }
    }
}

/// Pieces of at most so many bytes, empty ones among them.
fn cut<'a>(random: &mut Random, mut bytes: &'a [u8], longest: usize) -> Vec<&'a [u8]> {
    let mut pieces = Vec::new();
    while !bytes.is_empty() {
        let length = random.below(longest as u64 + 1) as usize;
        let (piece, rest) = bytes.split_at(length.min(bytes.len()));
        pieces.push(piece);
        bytes = rest;
    }
    pieces
}

fn same(run: &mut Run, call: &str, expected: u32, answer: Answer) {
    held(run, call, Answer::value(expected), answer);
}

fn held(run: &mut Run, call: &str, expected: Answer, answer: Answer) {
    run.calls += 1;
    if expected != answer {
        run.differ(&format!("{call}: the original's answer is {expected}; the part's is {answer}"));
    }
}
