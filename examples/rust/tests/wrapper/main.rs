//! Tests of the wrapper's calls.

mod bytes;
mod changed;
mod files;
#[path = "../../examples/resume/game.rs"]
mod game;
mod images;
mod matchers;
mod parts;
mod serial;
mod states;
mod tallies;

use gbasave::Kind;

/// A marker for each kind except `Eeprom8k`, which takes an image above 16 MiB.
const MARKERS: [(Kind, &str); 5] = [
    (Kind::None, ""),
    (Kind::Sram, "SRAM_V"),
    (Kind::Flash64, "FLASH_V"),
    (Kind::Flash128, "FLASH1M_V"),
    (Kind::Eeprom512, "EEPROM_V"),
];

/// A small image of each kind except `Eeprom8k`.
fn images() -> impl Iterator<Item = (Kind, Vec<u8>)> {
    MARKERS.into_iter().map(|(kind, marker)| (kind, game::image("TEST", marker)))
}

/// The smallest image of kind `Eeprom8k`.
fn large_image() -> Vec<u8> {
    let mut image = game::image("TEST", "EEPROM_V");
    image.resize(0x100_0001, 0);
    image
}
