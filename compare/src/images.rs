//! Images by length, seed and one text, and an image for each kind.

use crate::kind::{self, Kind};

pub const SMALLEST: usize = 192;
pub const LINE: usize = 0x100_0000;
pub const LARGEST: usize = 0x200_0000;

/// Byte i is (seed × (i / 64 + 1) + 13 × i) mod 256; seed 0 gives zero bytes only. The text stands at the offset; what of it
/// would stand past the end falls away.
pub fn image(length: usize, seed: u8, offset: usize, text: &[u8]) -> Vec<u8> {
    let seed = usize::from(seed);
    let mut image = vec![0; length];
    if seed != 0 {
        for (i, byte) in image.iter_mut().enumerate() {
            *byte = (seed * (i / 64 + 1) + 13 * i) as u8;
        }
    }
    put(&mut image, offset, text);
    image
}

pub fn put(image: &mut [u8], offset: usize, text: &[u8]) {
    let Some(place) = image.get_mut(offset..) else { return };
    let kept = text.len().min(place.len());
    place[..kept].copy_from_slice(&text[..kept]);
}

/// The shortest length at which an image of the kind exists.
pub fn length_of(kind: Kind) -> usize {
    if kind == kind::EEPROM8K {
        LINE + 1
    } else {
        SMALLEST
    }
}

/// Zero bytes with the kind's marker.
pub fn of_kind(kind: Kind) -> Vec<u8> {
    let marker = ["", "SRAM_V", "FLASH_V", "FLASH1M_V", "EEPROM_V", "EEPROM_V"][usize::from(kind)];
    image(length_of(kind), 0, 0, marker.as_bytes())
}
