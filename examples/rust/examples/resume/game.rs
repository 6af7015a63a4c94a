//! What games do to a cartridge: images with a marker, flash commands, serial commands with 14 address bits. A function that
//! writes returns how many bytes of the memory have changed.

use gbasave::{header_checksum, Cartridge, Refusal};

/// 1 0, 14 bits of address, 64 of data, the end bit.
pub const WRITE_BITS: usize = 81;
/// 1 1, 14 bits of address, the end bit.
pub const READ_BITS: usize = 17;

/// Makes an image of 1,024 bytes with a correct header and the marker at its end.
pub fn image(title: &str, marker: &str) -> Vec<u8> {
    let mut image = vec![0; 1024];
    image[0xA0..0xA0 + title.len()].copy_from_slice(title.as_bytes());
    image[0xB2] = 0x96;
    image[0xBC] = 1; // version
    image[0xBD] = header_checksum(&image).expect("the image is long enough");
    let place = image.len() - marker.len();
    image[place..].copy_from_slice(marker.as_bytes());
    image
}

fn flash_command(cart: &mut Cartridge, address: u32, command: u8) -> usize {
    cart.save_write(0x0E00_5555, 0xAA) + cart.save_write(0x0E00_2AAA, 0x55) + cart.save_write(address, command)
}

pub fn flash_id_mode(cart: &mut Cartridge, on: bool) {
    flash_command(cart, 0x0E00_5555, if on { 0x90 } else { 0xF0 });
}

/// The chip's ID word, as it is read in ID mode.
pub fn read_id_word(cart: &Cartridge) -> u16 {
    u16::from_le_bytes([cart.save_read(0x0E00_0000), cart.save_read(0x0E00_0001)])
}

/// The chip's ID word, with ID mode on for the reading only.
pub fn flash_id_word(cart: &mut Cartridge) -> u16 {
    flash_id_mode(cart, true);
    let word = read_id_word(cart);
    flash_id_mode(cart, false);
    word
}

pub fn flash_select_bank(cart: &mut Cartridge, bank: u8) {
    flash_command(cart, 0x0E00_5555, 0xB0);
    cart.save_write(0x0E00_0000, bank);
}

pub fn flash_program(cart: &mut Cartridge, address: u32, value: u8) -> usize {
    flash_command(cart, 0x0E00_5555, 0xA0) + cart.save_write(address, value)
}

pub fn flash_erase_sector(cart: &mut Cartridge, address: u32) -> usize {
    flash_command(cart, 0x0E00_5555, 0x80) + flash_command(cart, address, 0x30)
}

pub fn flash_erase_chip(cart: &mut Cartridge) -> usize {
    flash_command(cart, 0x0E00_5555, 0x80) + flash_command(cart, 0x0E00_5555, 0x10)
}

/// The lowest `width` bits of `number`, highest first.
fn bits(number: u64, width: u32) -> impl Iterator<Item = u16> {
    (0..width).rev().map(move |place| (number >> place & 1) as u16)
}

/// The bits of a write command. They are sent after a DMA length of `WRITE_BITS`.
pub fn write_bits(block: u64, data: u64) -> Vec<u16> {
    bits(0b10, 2).chain(bits(block, 14)).chain(bits(data, 64)).chain([0]).collect()
}

/// The bits of a read command. They are sent after a DMA length of `READ_BITS`.
pub fn read_bits(block: u64) -> Vec<u16> {
    bits(0b11, 2).chain(bits(block, 14)).chain([0]).collect()
}

pub fn send(cart: &mut Cartridge, bits: &[u16]) -> Result<usize, Refusal> {
    bits.iter().map(|&bit| cart.eeprom_write(bit)).sum()
}

pub fn write_block(cart: &mut Cartridge, block: u64, data: u64) -> Result<usize, Refusal> {
    cart.eeprom_begin_dma(WRITE_BITS as u32)?;
    send(cart, &write_bits(block, data))
}

pub fn read_block(cart: &mut Cartridge, block: u64) -> Result<u64, Refusal> {
    cart.eeprom_begin_dma(READ_BITS as u32)?;
    send(cart, &read_bits(block))?;
    cart.eeprom_begin_dma(68)?;
    // The first four bits are ignored: they are shifted out of the 64-bit number.
    Ok((0..68).fold(0, |data, _| data << 1 | u64::from(cart.eeprom_read())))
}
