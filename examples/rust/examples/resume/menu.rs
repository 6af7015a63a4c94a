//! A save menu that shows which cartridges are empty, without a reading of their memories.

use std::error::Error;

use crate::game::{self, image};
use gbasave::{Cartridge, Refusal, SaveFile, STRETCH_SIZE};

/// What the menu is spared: a reading of the memory, for the checks here.
fn read_whole(cart: &Cartridge) -> Option<usize> {
    cart.memory().iter().position(|byte| *byte != 0xFF).map(|at| at / STRETCH_SIZE)
}

/// Prints a line of the menu and checks it.
fn line(what: &str, cart: &Cartridge, first: Option<usize>) {
    match cart.first_in_use() {
        None => println!("  {what:24} empty"),
        Some(stretch) => println!("  {what:24} in use, first in stretch {stretch}, from {:05X}h on", stretch * STRETCH_SIZE),
    }
    assert_eq!((cart.first_in_use(), cart.is_blank()), (first, first.is_none()), "{what}");
    assert_eq!(read_whole(cart), first, "{what}");
}

fn opened(marker: &str) -> Result<Cartridge, Refusal> {
    Cartridge::open(&image("MENU STORY", marker))
}

fn games() -> Result<(), Refusal> {
    let mut sram = opened("SRAM_V")?;
    line("SRAM, fresh", &sram, None);
    sram.save_write(0x0E00_2010, 0x5A);
    sram.save_write(0x0E00_7FFF, 0x5A);
    line("SRAM, a game saved", &sram, Some(2));
    sram.save_write(0x0E00_2010, 0xFF);
    line("SRAM, in part cleared", &sram, Some(7));
    sram.save_write(0x0E00_7FFF, 0xFF);
    line("SRAM, all cleared", &sram, None);

    let mut flash = opened("FLASH1M_V")?;
    game::flash_select_bank(&mut flash, 1);
    for (address, byte) in [(0x0E00_3000, 0x11), (0x0E00_3FFF, 0x22), (0x0E00_4000, 0x33)] {
        game::flash_program(&mut flash, address, byte);
    }
    line("flash, bank 1 programmed", &flash, Some(16 + 3));
    game::flash_erase_sector(&mut flash, 0x0E00_3000);
    line("flash, a sector erased", &flash, Some(16 + 4));
    game::flash_erase_chip(&mut flash);
    line("flash, the chip erased", &flash, None);

    let mut eeprom = opened("EEPROM_V")?;
    game::write_block(&mut eeprom, 600, 0x0123_4567_89AB_CDEF)?;
    line("EEPROM, block 600", &eeprom, Some(1));
    game::write_block(&mut eeprom, 600, u64::MAX)?;
    line("EEPROM, all ones there", &eeprom, None);
    Ok(())
}

/// Files, and a state, which has no tallies: the load brings them, in the open cartridge and in a fresh one.
fn files_and_states() -> Result<(), Box<dyn Error>> {
    let mut sram = opened("SRAM_V")?;
    let mut file = vec![0xFF; sram.memory().len()];
    file[5000] = 0x5A;
    sram.import_save(&file)?;
    line("SRAM, a file imported", &sram, Some(1));
    assert_eq!(sram.load_save(&file[..100]), 1);
    line("SRAM, 100 FFh loaded", &sram, None);

    let mut flash = opened("FLASH_V")?;
    game::flash_program(&mut flash, 0x0E00_A123, 0x5A);
    let state = flash.state();
    game::flash_program(&mut flash, 0x0E00_0000, 0x5A);
    line("flash, played on", &flash, Some(0));
    flash.resume(&state, SaveFile::AsItWas)?;
    line("flash, a state resumed", &flash, Some(10));
    let mut fresh = opened("FLASH_V")?;
    fresh.resume(&state, SaveFile::AsItWas)?;
    line("the same, opened again", &fresh, Some(10));
    Ok(())
}

pub fn shown() -> Result<(), Box<dyn Error>> {
    println!("Save menu, without a reading of the memories");
    games()?;
    files_and_states()?;
    let mut none = opened("")?;
    line("no chip", &none, None);
    none.save_write(0x0E00_0000, 0x5A);
    line("no chip, written to", &none, None);
    Ok(())
}
