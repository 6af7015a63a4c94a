use crate::{game, images};
use gbasave::{Cartridge, Kind, Refusal};

#[test]
fn a_block_reads_back() {
    let mut cart = Cartridge::open(&game::image("TEST", "EEPROM_V")).unwrap();
    assert_eq!(game::read_block(&mut cart, 100), Ok(u64::MAX));
    game::write_block(&mut cart, 100, 0x0123_4567_89AB_CDEF).unwrap();
    assert_eq!(cart.memory()[800..808], [0x01, 0x23, 0x45, 0x67, 0x89, 0xAB, 0xCD, 0xEF]);
    assert_eq!(game::read_block(&mut cart, 100), Ok(0x0123_4567_89AB_CDEF));
    assert!(cart.take_save_dirty());
    assert_eq!(cart.eeprom_read(), 1);
}

#[test]
fn bits_need_an_eeprom() {
    for (kind, image) in images() {
        let mut cart = Cartridge::open(&image).unwrap();
        let before = cart.clone();
        if kind != Kind::Eeprom512 {
            assert_eq!(cart.eeprom_write(1), Err(Refusal::NoEeprom));
            assert_eq!(cart.eeprom_read(), 1);
            assert_eq!(cart, before);
        }
    }
}

#[test]
fn a_dma_length_can_come_too_late() {
    for (bits, words, answer) in
        [(5, 9, Ok(())), (6, 9, Err(Refusal::DmaTooLate)), (6, 73, Err(Refusal::DmaTooLate)), (6, 17, Ok(()))]
    {
        let mut cart = Cartridge::open(&game::image("TEST", "EEPROM_V")).unwrap();
        cart.eeprom_begin_dma(81).unwrap();
        game::send(&mut cart, &game::write_bits(0, 0)[..2 + bits]).unwrap();
        let before = cart.clone();
        assert_eq!(cart.eeprom_begin_dma(words), answer);
        assert_eq!(answer.is_err() || words == 17, cart == before);
    }
}

#[test]
fn a_dma_length_tells_the_width_and_makes_no_chip_small() {
    let mut cart = Cartridge::open(&game::image("TEST", "EEPROM_V")).unwrap();
    for (words, told) in
        [(68, [0, 0]), (9, [6, 0]), (73, [6, 0]), (17, [14, 1]), (9, [6, 1]), (81, [14, 1]), (73, [6, 1]), (68, [6, 1])]
    {
        cart.eeprom_begin_dma(words).unwrap();
        assert_eq!(cart.chip_state()[3..5], told);
    }
}
