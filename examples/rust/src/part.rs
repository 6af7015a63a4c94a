//! Parts: flash chips by maker.

use std::fmt;

use crate::answer::value;
use crate::{raw, Kind, Refusal};

/// A flash chip of one maker, by its number. A game can read the chip's ID word, and some games save only on chips that they know.
/// The part has no other effect.
#[derive(Clone, Copy, Debug, Default, PartialEq, Eq, Hash)]
#[repr(u32)]
pub enum Part {
    /// The kind's usual chip: Panasonic for 64 KiB, Sanyo for 128 KiB. Kinds without flash have no other part.
    #[default]
    Usual,
    /// SST, 64 KiB.
    Sst64k,
    /// Macronix, 64 KiB.
    Macronix64k,
    /// Panasonic, 64 KiB.
    Panasonic64k,
    /// Sanyo, 128 KiB.
    Sanyo128k,
    /// Macronix, 128 KiB.
    Macronix128k,
}

impl Part {
    /// All parts, in the order of their numbers.
    pub const ALL: [Self; 6] =
        [Self::Usual, Self::Sst64k, Self::Macronix64k, Self::Panasonic64k, Self::Sanyo128k, Self::Macronix128k];

    /// Returns the part's number in `gbasave.h`.
    pub fn number(self) -> u32 {
        self as u32
    }

    /// Returns the part with this number, 0 to 5.
    pub fn of(number: u32) -> Option<Self> {
        Self::ALL.get(number as usize).copied()
    }

    /// Returns the ID word that a game reads in ID mode: the device in its high byte, the maker in its low byte. It is 0 for
    /// the usual part of a kind without flash. Refused: [`Refusal::Part`], if the part does not have the kind's size.
    pub fn id_word(self, kind: Kind) -> Result<u16, Refusal> {
        let word = value(|word| unsafe { raw::gbasave_id_word(self.number(), kind.number(), word) })?;
        Ok(word.try_into().expect("an ID word has 16 bits"))
    }

    /// Returns whether a cartridge of the kind can be opened with the part.
    pub fn fits(self, kind: Kind) -> bool {
        self.id_word(kind).is_ok()
    }

    /// Returns the text that `gbasave_part_text` has for it.
    pub fn text(self) -> &'static str {
        match self {
            Self::Usual => "the usual part",
            Self::Sst64k => "SST 64K",
            Self::Macronix64k => "Macronix 64K",
            Self::Panasonic64k => "Panasonic 64K",
            Self::Sanyo128k => "Sanyo 128K",
            Self::Macronix128k => "Macronix 128K",
        }
    }
}

impl fmt::Display for Part {
    fn fmt(&self, to: &mut fmt::Formatter) -> fmt::Result {
        to.write_str(self.text())
    }
}

#[cfg(test)]
mod tests {
    use super::Part;

    const HEADER: &str = include_str!(env!("GBASAVE_HEADER"));

    #[test]
    fn numbers_names_and_words_are_the_headers() {
        for (number, part) in (0..).zip(Part::ALL) {
            assert_eq!((part.number(), Part::of(number)), (number, Some(part)));
            let told = format!(" = {number}");
            let line = |line: &&str| line.trim().starts_with("GBASAVE_PART_") && line.trim_end_matches(',').ends_with(&told);
            let name = HEADER.lines().find(line).and_then(|line| line.trim().split(' ').next()).unwrap();
            assert_eq!(
                name.trim_start_matches("GBASAVE_PART_").replace('_', "").to_lowercase(),
                format!("{part:?}").to_lowercase()
            );
            assert!(HEADER.contains(&format!("case {name}: return \"{part}\";")));
        }
        assert_eq!(Part::of(6), None);
    }
}
