//! The calls on a cartridge, as values.

use crate::files;
use crate::kind::{is_eeprom, Kind};
use crate::original::{self, Cartridge};
use crate::records::{hex, Chip};

#[derive(Clone, Copy)]
pub enum Call {
    Read(u32),
    Write(u32, u8),
    BitOut,
    BitIn(u16),
    Dma(u16),
    TakeFlag,
    ChipState,
    Load { length: u32, seed: u8 },
    Export,
    Restore(Chip),
}

impl Call {
    /// The refusal of a call outside the domain in which the original's answer counts: a bit for a chip that is not there, and
    /// a DMA length that the count has overtaken.
    pub fn refusal(&self, kind: Kind, chip: &Chip) -> Option<u8> {
        match self {
            Call::BitIn(_) if !is_eeprom(kind) => Some(4),
            Call::Dma(9 | 73) if matches!(chip[5], 1 | 2) && chip[6] >= 6 => Some(5),
            _ => None,
        }
    }

    pub fn outside(&self, kind: Kind, chip: &Chip) -> bool {
        self.refusal(kind, chip).is_some()
    }

    /// Whether the call answers how many bytes it changed.
    pub fn stores(&self) -> bool {
        matches!(self, Call::Write(..) | Call::BitIn(_) | Call::Load { .. })
    }

    /// The file that the call brings.
    pub fn file(&self) -> Vec<u8> {
        match *self {
            Call::Load { length, seed } => files::file(length, seed),
            _ => Vec::new(),
        }
    }

    /// The original's answer: a number, where the call has one, or its refusal. Chip record and export are asked for apart.
    pub fn put(&self, cart: &mut Cartridge, file: &[u8]) -> Result<Option<u16>, u8> {
        match *self {
            Call::Read(address) => return Ok(Some(original::save_read(cart, address).into())),
            Call::BitOut => return Ok(Some(original::eeprom_read(cart))),
            Call::TakeFlag => return Ok(Some(original::take_save_dirty(cart).into())),
            Call::Restore(chip) => original::restore(cart, &chip)?,
            Call::Write(address, value) => original::save_write(cart, address, value),
            Call::BitIn(value) => original::eeprom_write(cart, value),
            Call::Dma(words) => original::eeprom_begin_dma(cart, words),
            Call::Load { .. } => original::load_save(cart, file),
            Call::ChipState | Call::Export => {}
        }
        Ok(None)
    }

    /// The original's answer in the list of answers.
    pub fn answer(&self, cart: &mut Cartridge) -> String {
        match (self, self.put(cart, &self.file())) {
            (Call::ChipState, _) => format!("00{}", hex(&original::chip_state(cart))),
            (Call::Export, _) => match original::save_data(cart) {
                Some(file) => format!("00{:06X}{:08X}", file.len(), original::crc32(&file)),
                None => "0000000000000000".into(),
            },
            (_, Ok(Some(value))) => format!("00{value:02X}"),
            (_, Ok(None)) => "00".into(),
            (_, Err(refusal)) => format!("{refusal:02X}"),
        }
    }

    /// The call's frame in the list of answers.
    pub fn frame(&self) -> String {
        match self {
            Call::Read(address) => format!("01{address:08X}"),
            Call::Write(address, value) => format!("02{address:08X}{value:02X}"),
            Call::BitOut => "03".into(),
            Call::BitIn(value) => format!("04{value:04X}"),
            Call::Dma(words) => format!("05{words:04X}"),
            Call::TakeFlag => "06".into(),
            Call::ChipState => "07".into(),
            Call::Load { length, seed } => format!("08{length:06X}{seed:02X}"),
            Call::Export => "09".into(),
            Call::Restore(chip) => format!("0A{}", hex(chip)),
        }
    }
}
