//! Random lists of calls: whole commands, broken ones, and single calls between them.

use crate::call::Call;
use crate::commands::*;
use crate::files;
use crate::kind::{is_eeprom, is_flash, Kind};
use crate::random::Random;
use crate::records;

/// A few calls that belong together.
pub fn story(random: &mut Random, kind: Kind) -> Vec<Call> {
    match random.below(16) {
        0..=7 if is_flash(kind) => perhaps_broken(flash_command(random), random),
        0..=7 if is_eeprom(kind) => perhaps_broken(serial_command(random), random),
        0..=8 => bytes(random),
        9 => perhaps_broken(flash_command(random), random),
        10 => perhaps_broken(serial_command(random), random),
        11 => stray_bits(random),
        12 => vec![Call::Dma(words(random))],
        13 => vec![Call::Restore(records::random(random))],
        14 => vec![Call::Restore(records::random_near(random)), Call::ChipState],
        _ => vec![file_or_flag(random)],
    }
}

fn perhaps_broken(calls: Vec<Call>, random: &mut Random) -> Vec<Call> {
    if random.one_in(4) {
        broken(calls, random)
    } else {
        calls
    }
}

pub fn address(random: &mut Random) -> u32 {
    match random.below(4) {
        0 => random.number() as u32,
        1 => 0x0E00_0000 + random.below(0x1_0000) as u32,
        2 => random.below(0x40) as u32,
        _ => random.pick(&[0x7FFF, 0x8000, 0xFFFF, 0x1_0000, 0x1_FFFF, 0x1FFF, 0x2000, 0x5555, 0x2AAA, u32::MAX]),
    }
}

fn value(random: &mut Random) -> u8 {
    match random.below(2) {
        0 => random.byte(),
        _ => random.pick(&[0xAA, 0x55, 0x90, 0xF0, 0xA0, 0xB0, 0x80, 0x30, 0x10]),
    }
}

pub fn words(random: &mut Random) -> u16 {
    match random.below(4) {
        0 => random.number() as u16,
        _ => random.pick(&[0, 1, 8, 9, 10, 16, 17, 18, 67, 68, 69, 72, 73, 74, 80, 81, 82]),
    }
}

fn bytes(random: &mut Random) -> Vec<Call> {
    let at = address(random);
    match random.below(4) {
        0 => vec![Call::Read(at)],
        1 => vec![Call::Write(at, value(random))],
        2 => vec![Call::Write(at, value(random)), Call::Read(at)],
        _ => vec![Call::Read(at), Call::Read(at ^ 1), Call::Read(at.wrapping_add(0x1_0000))],
    }
}

fn flash_command(random: &mut Random) -> Vec<Call> {
    let at = address(random);
    match random.below(16) {
        0 => erase_chip(),
        1..=3 => [erase_sector(at), vec![Call::Read(at)]].concat(),
        4..=6 => select_bank(random.byte()),
        7 => [id_mode_on(), vec![Call::Read(at), Call::Read(at ^ 1)]].concat(),
        8..=9 => id_mode_off(),
        _ => [program(at, random.byte()), vec![Call::Read(at)]].concat(),
    }
}

fn block(random: &mut Random) -> u64 {
    match random.below(3) {
        0 => random.below(1 << 14),
        1 => random.below(64),
        _ => random.pick(&[0, 36, 63, 64, 100, 1023, 1024, 1060]),
    }
}

fn serial_command(random: &mut Random) -> Vec<Call> {
    let (width, block) = (random.pick(&[6, 14]), block(random));
    let mut calls = match random.below(4) {
        0 => write_block(width, block, random.number()),
        1 => [write_block(width, block, random.number()), set_address(width, block), read_back()].concat(),
        2 => [set_address(width, block), read_back()].concat(),
        _ => [set_address(width, block), vec![Call::BitOut; random.below(68) as usize]].concat(),
    };
    // Only bit 0 of a value counts.
    for call in &mut calls {
        if let Call::BitIn(value) = call {
            *value |= random.number() as u16 & 0xFFFE;
        }
    }
    // Some hosts announce nothing.
    if random.one_in(8) {
        calls.retain(|call| !matches!(call, Call::Dma(_)));
    }
    calls
}

fn stray_bits(random: &mut Random) -> Vec<Call> {
    let number = random.below(20);
    let out = random.one_in(2);
    (0..number).map(|_| if out { Call::BitOut } else { Call::BitIn(random.number() as u16) }).collect()
}

fn file_or_flag(random: &mut Random) -> Call {
    match random.below(8) {
        0..=1 => Call::Load { length: files::random_length(random), seed: random.byte() },
        2..=3 => Call::Export,
        4..=5 => Call::TakeFlag,
        _ => Call::ChipState,
    }
}
