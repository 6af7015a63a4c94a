use crate::{game, images, large_image};
use gbasave::{save_fit, Cartridge, Kind, Refusal};

#[test]
fn files_have_the_chips_size() {
    for (kind, image) in images().chain([(Kind::Eeprom8k, large_image())]) {
        let length = Cartridge::open(&image).unwrap().save_data().map(|file| file.len());
        let expected = [None, Some(0x8000), Some(0x1_0000), Some(0x2_0000), Some(512), Some(8192)];
        assert_eq!(length, expected[kind.number() as usize]);
    }
}

#[test]
fn import_keeps_what_save_fit_keeps() {
    let lengths = [0, 511, 512, 513, 528, 8192, 8208, 32767, 32768, 32784, 65536, 65552, 131072, 131088, 131089];
    for (kind, image) in images() {
        for length in lengths {
            let mut cart = Cartridge::open(&image).unwrap();
            let before = cart.clone();
            let file: Vec<u8> = (0..length).map(|i| (i * 7 + i / 256) as u8).collect();
            match save_fit(&image, length) {
                None => {
                    assert_eq!(cart.import_save(&file), Err(Refusal::FileLength));
                    assert_eq!(cart, before);
                }
                Some(kept) => {
                    assert_eq!(cart.import_save(&file).map(|imported| imported.kept), Ok(kept));
                    assert_eq!(cart.save_data().unwrap(), file[..kept]);
                    assert!(kind != Kind::None);
                }
            }
        }
    }
    assert_eq!(save_fit(&game::image("TEST", "SRAM_V"), 65552), Some(32768));
    assert_eq!(save_fit(&game::image("TEST", "SRAM_V"), 32783), None);
}

#[test]
fn a_load_takes_any_length() {
    let mut cart = Cartridge::open(&game::image("TEST", "EEPROM_V")).unwrap();
    cart.load_save(&[1; 512]);
    assert_eq!((cart.chip_state()[4], cart.save_data().unwrap().len()), (0, 512));
    cart.load_save(&[2; 513]);
    assert_eq!((cart.chip_state()[4], cart.save_data().unwrap().len()), (1, 8192));
    assert_eq!(cart.memory()[512..514], [2, 0xFF]);
    cart.load_save(&[3; 8193]);
    assert_eq!(cart.memory(), [3; 8192]);
    cart.load_save(&[]);
    assert_eq!(cart.memory(), [0xFF; 8192]);
    assert!(!cart.take_save_dirty());
}
