use crate::{game, images};
use gbasave::{Cartridge, Kind};

#[test]
fn sram_wraps_and_sets_the_flag() {
    let mut cart = Cartridge::open(&game::image("TEST", "SRAM_V")).unwrap();
    assert!(!cart.take_save_dirty());
    cart.save_write(0x0E00_8001, 0x5A);
    assert_eq!((cart.memory()[1], cart.save_read(0x0E00_0001)), (0x5A, 0x5A));
    assert!(cart.take_save_dirty());
    assert!(!cart.take_save_dirty());
}

#[test]
fn no_chip_reads_ff() {
    let mut cart = Cartridge::open(&game::image("TEST", "")).unwrap();
    cart.save_write(0x0E00_0000, 0x5A);
    assert_eq!((cart.save_read(0x0E00_0000), cart.take_save_dirty()), (0xFF, false));
}

#[test]
fn flash_commands() {
    for (kind, image) in images().filter(|(kind, _)| matches!(kind, Kind::Flash64 | Kind::Flash128)) {
        let mut cart = Cartridge::open(&image).unwrap();
        game::flash_id_mode(&mut cart, true);
        let id = [cart.save_read(0), cart.save_read(1)];
        assert_eq!(id, if kind == Kind::Flash64 { [0x32, 0x1B] } else { [0x62, 0x13] });
        game::flash_id_mode(&mut cart, false);
        assert!(!cart.take_save_dirty());

        game::flash_select_bank(&mut cart, 1);
        game::flash_program(&mut cart, 0x0E00_1FFF, 0x11);
        game::flash_program(&mut cart, 0x0E00_2000, 0x22);
        let bank = cart.memory().len() - 0x1_0000;
        assert_eq!(cart.memory()[bank + 0x1FFF..bank + 0x2001], [0x11, 0x22]);
        game::flash_erase_sector(&mut cart, 0x0E00_2ABC);
        assert_eq!(cart.memory()[bank + 0x1FFF..bank + 0x2001], [0x11, 0xFF]);
        assert!(cart.take_save_dirty());
    }
}
