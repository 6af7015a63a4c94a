use crate::{game, images, large_image};
use gbasave::{Cartridge, Kind, SaveFile, STRETCH_SIZE};

/// Both answers are those of a reading of the whole memory.
fn compare(cart: &Cartridge) -> Option<usize> {
    let first = cart.memory().chunks(STRETCH_SIZE).position(|stretch| stretch.iter().any(|byte| *byte != 0xFF));
    assert_eq!((cart.first_in_use(), cart.is_blank()), (first, first.is_none()), "{:?}", cart.kind());
    first
}

/// Stores a byte by what the kind has for it.
fn store(cart: &mut Cartridge, at: usize, byte: u8) {
    match cart.kind() {
        Kind::Flash64 | Kind::Flash128 => {
            game::flash_select_bank(cart, (at >> 16) as u8);
            game::flash_program(cart, at as u32 & 0xFFFF, byte);
        }
        _ => drop(cart.save_write(at as u32, byte)),
    }
}

fn all_images() -> impl Iterator<Item = (Kind, Vec<u8>)> {
    images().chain([(Kind::Eeprom8k, large_image())])
}

#[test]
fn bytes_at_both_ends_of_every_stretch() {
    for (kind, image) in all_images() {
        let mut cart = Cartridge::open(&image).unwrap();
        assert_eq!(compare(&cart), None);
        let places = (0..kind.memory_size()).filter(|at| matches!(at % STRETCH_SIZE, 0 | 4095));
        for at in places.clone().rev() {
            for byte in [0xFF, 0x00, 0xFE, 0xFE] {
                store(&mut cart, at, byte);
                compare(&cart);
            }
            assert_eq!(compare(&cart), Some(at / STRETCH_SIZE));
        }
        for at in places {
            assert_eq!(compare(&cart), Some(at / STRETCH_SIZE));
            store(&mut cart, at, 0xFF);
            compare(&cart);
        }
        assert_eq!(compare(&cart), None);
    }
}

#[test]
fn sectors_and_the_chip() {
    for (kind, image) in images().filter(|(kind, _)| matches!(kind, Kind::Flash64 | Kind::Flash128)) {
        let mut cart = Cartridge::open(&image).unwrap();
        for stretch in 0..kind.memory_size() / STRETCH_SIZE {
            cart.load_save(&vec![0x5A; kind.memory_size()]);
            for erased in (0..stretch).rev() {
                game::flash_select_bank(&mut cart, (erased >> 4) as u8);
                game::flash_erase_sector(&mut cart, ((erased & 15) * STRETCH_SIZE) as u32 + 0xABC);
                compare(&cart);
            }
            assert_eq!(compare(&cart), Some(stretch));
        }
        game::flash_erase_chip(&mut cart);
        assert_eq!(compare(&cart), None);
    }
}

#[test]
fn blocks_of_both_stretches() {
    for (_, image) in all_images().filter(|(kind, _)| matches!(kind, Kind::Eeprom512 | Kind::Eeprom8k)) {
        let mut cart = Cartridge::open(&image).unwrap();
        for (block, first) in [(1023, 1), (512, 1), (511, 0), (0, 0)] {
            for data in [0x0123_4567_89AB_CDEF, 0xFFFF_FFFF_0000_FFFF, 0] {
                game::write_block(&mut cart, block, data).unwrap();
                assert_eq!(compare(&cart), Some(first));
            }
        }
        for (block, first) in [(0, Some(0)), (511, Some(1)), (512, Some(1)), (1023, None)] {
            game::write_block(&mut cart, block, u64::MAX).unwrap();
            assert_eq!(compare(&cart), first);
        }
    }
}

#[test]
fn loads_around_stretches() {
    for (kind, image) in all_images() {
        let mut cart = Cartridge::open(&image).unwrap();
        let size = kind.memory_size();
        let lengths = [0, 1, 100, 4095, 4096, 4097, 8191, 8192, 8193, size.saturating_sub(1), size, size + 1, 140_000];
        for length in lengths {
            // In use from its middle on, everywhere, and nowhere.
            let half = [vec![0xFF; length / 2], vec![0; length - length / 2]].concat();
            for file in [half, vec![0x5A; length], vec![0xFF; length]] {
                cart.load_save(&file);
                let first = file.iter().position(|byte| *byte != 0xFF).filter(|at| *at < size);
                assert_eq!(compare(&cart), first.map(|at| at / STRETCH_SIZE));
                let _ = cart.import_save(&file);
                compare(&cart);
            }
        }
    }
}

#[test]
fn states_carry_no_tallies() {
    for (kind, image) in all_images() {
        let mut cart = Cartridge::open(&image).unwrap();
        store(&mut cart, 0, 0x5A);
        let state = cart.state();
        let before = compare(&cart);
        assert_eq!(before, if kind == Kind::None { None } else { Some(0) });
        cart.load_save(&[]);
        assert_eq!(compare(&cart), None);
        for mut resumed in [Cartridge::open(&image).unwrap(), cart] {
            // Whatever chip record is restored in between, and what is refused.
            for phase in 0..8 {
                let mut chip = resumed.chip_state();
                chip[5] = phase;
                let _ = resumed.restore_chip_state(&chip);
                let _ = (resumed.import_save(&[0; 3]), resumed.eeprom_write(1));
                compare(&resumed);
            }
            resumed.resume(&state, SaveFile::AsItWas).unwrap();
            assert_eq!(compare(&resumed), before);
        }
    }
}
