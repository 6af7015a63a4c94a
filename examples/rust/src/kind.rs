//! Kinds of backup chips.

use crate::{answer::value, raw};

/// The kind of a cartridge's backup chip, by its number.
#[derive(Clone, Copy, Debug, PartialEq, Eq, Hash)]
#[repr(u32)]
pub enum Kind {
    /// No backup chip.
    None,
    /// SRAM of 32 KiB.
    Sram,
    /// Flash of 64 KiB.
    Flash64,
    /// Flash of 128 KiB, in two banks.
    Flash128,
    /// A serial EEPROM of 512 bytes, or of 8 KiB once a game or a file shows it.
    Eeprom512,
    /// A serial EEPROM of 8 KiB.
    Eeprom8k,
}

impl Kind {
    /// All kinds, in the order of their numbers.
    pub const ALL: [Self; 6] = [Self::None, Self::Sram, Self::Flash64, Self::Flash128, Self::Eeprom512, Self::Eeprom8k];

    /// Returns the kind's number in `gbasave.h`.
    pub fn number(self) -> u32 {
        self as u32
    }

    /// Returns the kind with this number, 0 to 5.
    pub fn of(number: u32) -> Option<Self> {
        Self::ALL.get(number as usize).copied()
    }

    /// Returns the size of the kind's save memory in bytes.
    pub fn memory_size(self) -> usize {
        value(|size| unsafe { raw::gbasave_memory_size(self.number(), size) }).expect("every kind has a size") as usize
    }
}
