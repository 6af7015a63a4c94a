use crate::{game, images, large_image};
use gbasave::{save_fit, Cartridge, Imported, Kind, Refusal};

/// Makes a call that stores, and compares its number with a count over the memory before and after it.
fn counted(cart: &mut Cartridge, store: impl FnOnce(&mut Cartridge) -> usize) -> usize {
    let before = cart.memory().to_vec();
    let changed = store(cart);
    assert_eq!(changed, before.iter().zip(cart.memory()).filter(|(before, after)| before != after).count());
    changed
}

#[test]
fn bytes_on_every_kind() {
    for (kind, image) in images().chain([(Kind::Eeprom8k, large_image())]) {
        let mut cart = Cartridge::open(&image).unwrap();
        // An EEPROM kind stores such a byte and leaves the flag. Flash takes it as a step of a command.
        let stores = matches!(kind, Kind::Sram | Kind::Eeprom512 | Kind::Eeprom8k);
        for (byte, changed) in [(0xFF, 0), (0x5A, 1), (0x5A, 0), (0x5B, 1), (0xFF, 1)] {
            let expected = if stores { changed } else { 0 };
            assert_eq!(counted(&mut cart, |cart| cart.save_write(0x0E00_0010, byte)), expected, "{kind:?}");
            assert_eq!(cart.take_save_dirty(), kind == Kind::Sram);
        }
    }
}

#[test]
fn flash_programs_and_erases() {
    for (_, image) in images().filter(|(kind, _)| matches!(kind, Kind::Flash64 | Kind::Flash128)) {
        let mut cart = Cartridge::open(&image).unwrap();
        for (byte, changed) in [(0xFF, 0), (0x11, 1), (0x11, 0), (0xEE, 1)] {
            assert_eq!(counted(&mut cart, |cart| game::flash_program(cart, 0x0E00_2FFF, byte)), changed);
            assert!(cart.take_save_dirty());
        }
        game::flash_select_bank(&mut cart, 1);
        game::flash_program(&mut cart, 0x0E00_3000, 0x22);
        game::flash_program(&mut cart, 0x0E00_3FFF, 0x33);
        for changed in [2, 0] {
            assert_eq!(counted(&mut cart, |cart| game::flash_erase_sector(cart, 0x0E00_3ABC)), changed);
            assert!(cart.take_save_dirty());
        }
        let full = vec![0; cart.memory().len()];
        assert_eq!(counted(&mut cart, |cart| cart.load_save(&full)), full.len());
        assert_eq!(counted(&mut cart, |cart| game::flash_erase_sector(cart, 0x0E00_3ABC)), 4096);
        assert_eq!(counted(&mut cart, game::flash_erase_chip), full.len() - 4096);
        assert_eq!(counted(&mut cart, game::flash_erase_chip), 0);
        assert!(cart.take_save_dirty());
    }
}

#[test]
fn a_block_changes_with_its_last_data_bit() {
    let mut cart = Cartridge::open(&game::image("TEST", "EEPROM_V")).unwrap();
    for (data, changed) in
        [(u64::MAX, 0), (0x0123_4567_89AB_CDEF, 8), (0x0123_4567_89AB_CDEF, 0), (0x0123_4567_89AB_CDEE, 1), (u64::MAX, 8)]
    {
        cart.eeprom_begin_dma(81).unwrap();
        for (place, bit) in game::write_bits(100, data).into_iter().enumerate() {
            let expected = if place == 79 { changed } else { 0 };
            assert_eq!(counted(&mut cart, |cart| cart.eeprom_write(bit).unwrap()), expected);
        }
        assert!(cart.take_save_dirty());
    }
    assert_eq!(counted(&mut cart, |cart| game::send(cart, &game::read_bits(100)).unwrap()), 0);
    assert!(!cart.take_save_dirty());
}

#[test]
fn loads_and_imports_on_every_kind() {
    for (kind, image) in images().chain([(Kind::Eeprom8k, large_image())]) {
        for length in [0, 1, 511, 512, 513, 528, 8192, 8208, 32768, 32784, 65536, 131072, 131088] {
            let mut cart = Cartridge::open(&image).unwrap();
            let file: Vec<u8> = (0..length).map(|i| (i * 7 + i / 256) as u8).collect();
            let (used, room) = (|byte: &&u8| **byte != 0xFF, kind.memory_size().min(length));
            let loaded = file[..room].iter().filter(used).count();
            assert_eq!(counted(&mut cart, |cart| cart.load_save(&file)), loaded);
            assert_eq!(counted(&mut cart, |cart| cart.load_save(&file)), 0);
            assert_eq!(counted(&mut cart, |cart| cart.load_save(&[])), loaded);

            match save_fit(&image, length) {
                None => assert_eq!(cart.import_save(&file), Err(Refusal::FileLength)),
                Some(kept) => {
                    let changed = file[..kept].iter().filter(used).count();
                    for changed in [changed, 0] {
                        let before = cart.memory().to_vec();
                        assert_eq!(cart.import_save(&file), Ok(Imported { kept, changed }));
                        assert_eq!(changed == 0, cart.memory() == before);
                    }
                }
            }
            assert!(!cart.take_save_dirty());
        }
    }
}
