//! Whole commands of the chips as lists of calls, as GBATEK gives them, and ways to break one.

use crate::call::Call;
use crate::random::Random;

fn unlocked(command: u8) -> Vec<Call> {
    vec![Call::Write(0x5555, 0xAA), Call::Write(0x2AAA, 0x55), Call::Write(0x5555, command)]
}

pub fn id_mode_on() -> Vec<Call> {
    unlocked(0x90)
}

pub fn id_mode_off() -> Vec<Call> {
    unlocked(0xF0)
}

pub fn program(address: u32, value: u8) -> Vec<Call> {
    [unlocked(0xA0), vec![Call::Write(address, value)]].concat()
}

pub fn select_bank(value: u8) -> Vec<Call> {
    [unlocked(0xB0), vec![Call::Write(0, value)]].concat()
}

pub fn erase_chip() -> Vec<Call> {
    [unlocked(0x80), unlocked(0x10)].concat()
}

pub fn erase_sector(address: u32) -> Vec<Call> {
    let mut calls = [unlocked(0x80), unlocked(0x30)].concat();
    calls[5] = Call::Write(address, 0x30);
    calls
}

/// The lowest `width` bits of `number`, highest first.
fn bits(number: u64, width: u32) -> impl Iterator<Item = Call> {
    (0..width).rev().map(move |place| Call::BitIn((number >> place & 1) as u16))
}

/// The lengths of the serial commands, and of what comes back.
pub const DMA_WORDS: [u16; 5] = [9, 17, 73, 81, 68];

/// DMA 9 or 17: opcode 11, the address, and the end bit 0.
pub fn set_address(width: u32, block: u64) -> Vec<Call> {
    let mut calls = vec![Call::Dma(width as u16 + 3)];
    calls.extend(bits(0b11, 2).chain(bits(block, width)).chain(bits(0, 1)));
    calls
}

/// The 68 bits that come back.
pub fn read_back() -> Vec<Call> {
    let mut calls = vec![Call::BitOut; 69];
    calls[0] = Call::Dma(68);
    calls
}

/// DMA 73 or 81: opcode 10, the address, 64 bits of data, and the end bit 0.
pub fn write_block(width: u32, block: u64, data: u64) -> Vec<Call> {
    let mut calls = vec![Call::Dma(width as u16 + 67)];
    calls.extend(bits(0b10, 2).chain(bits(block, width)).chain(bits(data, 64)).chain(bits(0, 1)));
    calls
}

/// The command with one call left out, given twice, or replaced, or with its end cut off.
pub fn broken(mut calls: Vec<Call>, random: &mut Random) -> Vec<Call> {
    let at = random.below(calls.len() as u64) as usize;
    match random.below(4) {
        0 => drop(calls.remove(at)),
        1 => calls.insert(at, calls[at]),
        2 => calls[at] = other(calls[at], random),
        _ => calls.truncate(at),
    }
    calls
}

fn other(call: Call, random: &mut Random) -> Call {
    match call {
        Call::Write(address, _) => Call::Write(address, random.byte()),
        Call::BitIn(value) => Call::BitIn(value ^ 1),
        Call::Dma(_) => Call::Dma(random.pick(&[9, 17, 68, 73, 81])),
        _ => Call::TakeFlag,
    }
}
