//! The six kinds by number.

use crate::original::cart::SaveType;

pub type Kind = u8;

pub const NONE: Kind = 0;
pub const SRAM: Kind = 1;
pub const FLASH64: Kind = 2;
pub const FLASH128: Kind = 3;
pub const EEPROM512: Kind = 4;
pub const EEPROM8K: Kind = 5;

pub const ALL: [Kind; 6] = [NONE, SRAM, FLASH64, FLASH128, EEPROM512, EEPROM8K];

pub const NAMES: [&str; 6] = ["None", "Sram", "Flash64", "Flash128", "Eeprom512", "Eeprom8k"];

/// Bytes of save memory by kind.
pub const MEMORY: [usize; 6] = [0, 0x8000, 0x1_0000, 0x2_0000, 0x2000, 0x2000];

pub fn number(kind: SaveType) -> Kind {
    match kind {
        SaveType::None => NONE,
        SaveType::Sram => SRAM,
        SaveType::Flash64 => FLASH64,
        SaveType::Flash128 => FLASH128,
        SaveType::Eeprom512 => EEPROM512,
        SaveType::Eeprom8k => EEPROM8K,
    }
}

pub fn is_flash(kind: Kind) -> bool {
    matches!(kind, FLASH64 | FLASH128)
}

pub fn is_eeprom(kind: Kind) -> bool {
    matches!(kind, EEPROM512 | EEPROM8K)
}
