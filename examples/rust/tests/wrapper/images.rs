use crate::{game, images, large_image};
use gbasave::*;

#[test]
fn kinds_and_sizes() {
    for (kind, image) in images().chain([(Kind::Eeprom8k, large_image())]) {
        assert_eq!(detect_save_type(&image), Ok(kind));
        assert_eq!(save_size(&image), kind.memory_size());
        let cart = Cartridge::open(&image).unwrap();
        assert_eq!(cart.kind(), kind);
        assert_eq!(cart.memory(), vec![0xFF; kind.memory_size()]);
        assert_eq!(cart.uses_eeprom(), matches!(kind, Kind::Eeprom512 | Kind::Eeprom8k));
        assert_eq!(cart.eeprom_window_start(), if kind == Kind::Eeprom8k { 0x0DFF_FF00 } else { 0x0D00_0000 });
    }
    assert_eq!(Kind::ALL.map(Kind::memory_size), [0, 0x8000, 0x1_0000, 0x2_0000, 0x2000, 0x2000]);
    assert_eq!((Kind::of(5), Kind::of(6)), (Some(Kind::Eeprom8k), None));
}

#[test]
fn reads_past_the_end_are_zeros() {
    let mut image = game::image("TEST", "");
    image[1020..].copy_from_slice(&[1, 2, 3, 4]);
    assert_eq!((read(&image, 1023), read(&image, 1024), read(&image, u32::MAX)), (Ok(4), Ok(0), Ok(0)));
    assert_eq!((read16(&image, 1022), read16(&image, 1023), read16(&image, u32::MAX)), (Ok(0x0403), Ok(4), Ok(0)));
    assert_eq!((read32(&image, 1020), read32(&image, 1022), read32(&image, u32::MAX)), (Ok(0x0403_0201), Ok(0x0403), Ok(0)));
}

#[test]
fn header_and_crc() {
    let image = vec![0; 192];
    assert_eq!((header_checksum(&image), header_checksum(&[1; 192])), (Ok(0xE7), Ok(0xCA)));
    let mut digits = vec![0; 192];
    digits[..9].copy_from_slice(b"123456789");
    assert_eq!(rom_crc(&digits), Ok(0xDEBA_69C3));
}

#[test]
fn crc_in_pieces() {
    let image: Vec<u8> = (0..100_000).map(|i| (i % 251) as u8).collect();
    for length in [1, 7, 512, 32_768, 40_000, 100_000] {
        let mut crc = Crc::start();
        crc.feed(&[]);
        image.chunks(length).for_each(|piece| crc.feed(piece));
        assert_eq!(Ok(crc.finish()), rom_crc(&image));
    }
    let mut crc = Crc::start();
    crc.feed(b"1234");
    assert_eq!(crc.clone().finish(), 0x9BE3_E0A3);
    crc.feed(b"56789");
    assert_eq!(crc.finish(), 0xCBF4_3926);
}

#[test]
fn titles() {
    assert_eq!(title(&game::image("TWELVE BYTES", "")).as_deref(), Ok("TWELVE BYTES"));
    assert_eq!(title(&[0; 192]).as_deref(), Ok(""));
    assert_eq!(title(&[0xC0; 192]), Ok("\u{FFFD}".repeat(12)));
}

#[test]
fn short_and_long_images() {
    for length in [0, 191, 0x200_0001] {
        let image = vec![0; length];
        assert_eq!(Cartridge::open(&image), Err(Refusal::ImageLength));
        assert_eq!(detect_save_type(&image), Err(Refusal::ImageLength));
        assert_eq!(search(&image), Err(Refusal::ImageLength));
        assert_eq!(read(&image, 0), Err(Refusal::ImageLength));
        assert_eq!(read16(&image, 0), Err(Refusal::ImageLength));
        assert_eq!(read32(&image, 0), Err(Refusal::ImageLength));
        assert_eq!(rom_crc(&image), Err(Refusal::ImageLength));
        assert_eq!(title(&image).is_err(), length < 192);
        assert_eq!(header_checksum(&image).is_err(), length < 192);
        assert_eq!((save_size(&image), save_fit(&image, 0)), (0, None));
    }
}
