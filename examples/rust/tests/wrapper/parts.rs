use crate::{game, images, large_image};
use gbasave::{Cartridge, Kind, NotResumed, Part, Refusal, SaveFile};

/// The ID word of a part on a kind, if it fits.
fn word(part: Part, kind: Kind) -> Option<u16> {
    match (part, kind) {
        (Part::Usual | Part::Panasonic64k, Kind::Flash64) => Some(0x1B32),
        (Part::Usual | Part::Sanyo128k, Kind::Flash128) => Some(0x1362),
        (Part::Usual, _) => Some(0),
        (Part::Sst64k, Kind::Flash64) => Some(0xD4BF),
        (Part::Macronix64k, Kind::Flash64) => Some(0x1CC2),
        (Part::Macronix128k, Kind::Flash128) => Some(0x09C2),
        _ => None,
    }
}

fn is_flash(kind: Kind) -> bool {
    matches!(kind, Kind::Flash64 | Kind::Flash128)
}

#[test]
fn id_words_of_every_part_and_kind() {
    for part in Part::ALL {
        for kind in Kind::ALL {
            assert_eq!(part.id_word(kind), word(part, kind).ok_or(Refusal::Part));
            assert_eq!(part.fits(kind), word(part, kind).is_some());
        }
    }
    assert_eq!(Part::default(), Part::Usual);
}

#[test]
fn every_part_opens_the_kinds_that_it_fits() {
    for (kind, image) in images().chain([(Kind::Eeprom8k, large_image())]) {
        for part in Part::ALL {
            match word(part, kind) {
                None => assert_eq!(Cartridge::open_with_part(&image, part), Err(Refusal::Part)),
                Some(word) => {
                    let mut cart = Cartridge::open_with_part(&image, part).unwrap();
                    assert_eq!((cart.part(), cart.kind(), cart.identity().part), (part, kind, part));
                    if is_flash(kind) {
                        assert_eq!(game::flash_id_word(&mut cart), word);
                    }
                }
            }
        }
        assert_eq!(Cartridge::open(&image), Cartridge::open_with_part(&image, Part::Usual));
    }
}

#[test]
fn the_images_length_is_asked_for_before_the_part() {
    assert_eq!(Cartridge::open_with_part(&[0; 191], Part::Sst64k), Err(Refusal::ImageLength));
    assert_eq!(Cartridge::open_with_part(&[0; 192], Part::Sst64k), Err(Refusal::Part));
}

/// Everything but ID mode is the same with every part, and no call changes the part.
#[test]
fn commands_do_the_same_with_every_part() {
    for (kind, image) in images().filter(|(kind, _)| is_flash(*kind)) {
        let file: Vec<u8> = (0..kind.memory_size()).map(|i| i as u8).collect();
        let played = |part| {
            let mut cart = Cartridge::open_with_part(&image, part).unwrap();
            cart.import_save(&file).unwrap();
            game::flash_select_bank(&mut cart, 1);
            game::flash_erase_sector(&mut cart, 0x0E00_3000);
            game::flash_program(&mut cart, 0x0E00_3000, 0x5A);
            let state = cart.state();
            cart.load_save(&[]);
            cart.restore_chip_state(&[0; 18]).unwrap();
            assert!(cart.take_save_dirty());
            assert_eq!(cart.part(), part);
            (state.file, state.chip)
        };
        let usual = played(Part::Usual);
        assert_eq!(usual.1[1], 1);
        Part::ALL.into_iter().filter(|part| part.fits(kind)).for_each(|part| assert_eq!(played(part), usual));
    }
}

#[test]
fn a_state_is_resumed_with_its_own_part_only() {
    for (kind, image) in images() {
        let parts = Part::ALL.into_iter().filter(|part| part.fits(kind));
        let carts: Vec<Cartridge> = parts.map(|part| Cartridge::open_with_part(&image, part).unwrap()).collect();
        for cart in &carts {
            let mut taken = cart.clone();
            game::flash_id_mode(&mut taken, true);
            for other in &carts {
                let (mut resumed, same) = (other.clone(), other.part() == cart.part());
                let expected = if same { Ok(()) } else { Err(NotResumed::OtherPart) };
                assert_eq!(resumed.resume(&taken.state(), SaveFile::AsItWas).map(drop), expected);
                assert!(same || resumed == *other);
                if same && is_flash(kind) {
                    assert_eq!(game::read_id_word(&resumed), word(cart.part(), kind).unwrap());
                }
            }
        }
    }
}

#[test]
fn another_cartridge_is_told_before_another_part() {
    let state = Cartridge::open_with_part(&game::image("TEST", "FLASH_V"), Part::Sst64k).unwrap().state();
    for (title, part, why) in [
        ("TEST", Part::Usual, NotResumed::OtherPart),
        ("OTHER", Part::Usual, NotResumed::OtherCartridge),
        ("OTHER", Part::Sst64k, NotResumed::OtherCartridge),
    ] {
        let mut cart = Cartridge::open_with_part(&game::image(title, "FLASH_V"), part).unwrap();
        assert_eq!(cart.resume(&state, SaveFile::AsItWas), Err(why));
    }
}
