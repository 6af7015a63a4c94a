//! The original module, its text unchanged, behind plain functions that are never inlined.

use crate::kind::{self, Kind};
use crate::memory;
use crate::records::Chip;

pub mod cart {
    include!(env!("CART_MODULE"));

    /// What the module keeps to itself and a comparison has to see.
    impl Cartridge {
        pub fn memory(&self) -> &[u8] {
            match self.save_type {
                SaveType::None => &[],
                SaveType::Sram => &self.sram,
                SaveType::Flash64 | SaveType::Flash128 => &self.flash,
                SaveType::Eeprom512 | SaveType::Eeprom8k => &self.eeprom,
            }
        }

        pub fn flag(&self) -> bool {
            self.save_dirty
        }
    }

    pub fn title_of(image: &[u8]) -> String {
        header_title(image)
    }

    pub fn kind_of(image: &[u8]) -> SaveType {
        detect_save_type(image, &header_title(image))
    }
}

pub use cart::Cartridge;

/// Opening; its only refusal is that of the image's length, number 1.
#[inline(never)]
pub fn open(image: &[u8]) -> Result<Cartridge, u8> {
    Cartridge::from_bytes(image).map_err(|_| 1)
}

pub fn kind(cart: &Cartridge) -> Kind {
    kind::number(cart.save_type())
}

#[inline(never)]
pub fn save_read(cart: &Cartridge, address: u32) -> u8 {
    cart.save_read(address)
}

#[inline(never)]
pub fn save_write(cart: &mut Cartridge, address: u32, value: u8) {
    cart.save_write(address, value)
}

#[inline(never)]
pub fn eeprom_begin_dma(cart: &mut Cartridge, words: u16) {
    cart.eeprom_begin_dma(words.into())
}

#[inline(never)]
pub fn eeprom_write(cart: &mut Cartridge, value: u16) {
    cart.eeprom_write(value)
}

#[inline(never)]
pub fn eeprom_read(cart: &mut Cartridge) -> u16 {
    cart.eeprom_read()
}

#[inline(never)]
pub fn load_save(cart: &mut Cartridge, file: &[u8]) {
    cart.load_save(file)
}

#[inline(never)]
pub fn save_data(cart: &Cartridge) -> Option<Vec<u8>> {
    cart.save_data()
}

/// The module has no such call: who wants to know reads the memory.
#[inline(never)]
pub fn is_blank(cart: &Cartridge) -> bool {
    memory::first_in_use(cart.memory()).is_none()
}

/// Nor this one.
#[inline(never)]
pub fn first_in_use(cart: &Cartridge) -> Option<usize> {
    memory::first_in_use(cart.memory())
}

#[inline(never)]
pub fn take_save_dirty(cart: &mut Cartridge) -> bool {
    cart.take_save_dirty()
}

#[inline(never)]
pub fn chip_state(cart: &Cartridge) -> Chip {
    cart.chip_state()
}

/// Restore; each of the module's messages has one refusal number.
#[inline(never)]
pub fn restore(cart: &mut Cartridge, chip: &Chip) -> Result<(), u8> {
    cart.restore_chip_state(chip).map_err(|message| match message {
        "EEPROM phase" => 7,
        "flash command state" => 8,
        "flash bank or flag" => 9,
        "EEPROM address width" => 10,
        "EEPROM serial state" => 11,
        "EEPROM count past its phase" => 12,
        other => unreachable!("a message without a number: {other}"),
    })
}

#[inline(never)]
pub fn uses_eeprom(cart: &Cartridge) -> bool {
    cart.uses_eeprom()
}

#[inline(never)]
pub fn eeprom_window_start(cart: &Cartridge) -> u32 {
    cart.eeprom_window_start()
}

#[inline(never)]
pub fn read(cart: &Cartridge, address: u32) -> u8 {
    cart.read(address)
}

#[inline(never)]
pub fn read16(cart: &Cartridge, address: u32) -> u16 {
    cart.read16(address)
}

#[inline(never)]
pub fn read32(cart: &Cartridge, address: u32) -> u32 {
    cart.read32(address)
}

/// The CRC that opening took.
pub fn rom_crc(cart: &Cartridge) -> u32 {
    cart.rom_crc()
}

#[inline(never)]
pub fn crc32(bytes: &[u8]) -> u32 {
    cart::crc32(bytes)
}

#[inline(never)]
pub fn header_checksum(image: &[u8]) -> u8 {
    cart::header_checksum(image)
}

#[inline(never)]
pub fn title(image: &[u8]) -> String {
    cart::title_of(image)
}

#[inline(never)]
pub fn detect_save_type(image: &[u8]) -> Kind {
    kind::number(cart::kind_of(image))
}

#[inline(never)]
pub fn save_fit(image: &[u8], length: usize) -> Option<usize> {
    cart::save_fit(image, length)
}

#[inline(never)]
pub fn save_size(image: &[u8]) -> usize {
    cart::save_size(image)
}
