//! Save files by length and seed, and the lengths at which something changes.

use crate::random::Random;

/// Byte i is (seed + 7 × i + i / 256) mod 256.
pub fn file(length: u32, seed: u8) -> Vec<u8> {
    (0..length).map(|i| (u32::from(seed) + 7 * i + i / 256) as u8).collect()
}

/// Every chip's size, without and with a footer of 16 bytes, and the lengths beside these.
pub const LENGTHS: [u32; 35] = [
    0, 1, 2, 255, 256, 0x1FF, 0x200, 0x201, 0x20F, 0x210, 0x211, 0x1FFF, 0x2000, 0x2001, 0x200F, 0x2010, 0x2011, 0x7FFF,
    0x8000, 0x8001, 0x800F, 0x8010, 0x8011, 0xFFFF, 0x1_0000, 0x1_0001, 0x1_000F, 0x1_0010, 0x1_0011, 0x1_FFFF, 0x2_0000,
    0x2_0001, 0x2_000F, 0x2_0010, 0x2_0011,
];

pub fn random_length(random: &mut Random) -> u32 {
    match random.below(3) {
        0 => random.below(0x2_0100) as u32,
        1 => random.below(600) as u32,
        _ => random.pick(&LENGTHS),
    }
}
