//! How many bytes a store changed, and a host that writes the file out when enough of them have.

use std::error::Error;

use crate::game::{self, image};
use gbasave::{Cartridge, Imported, Refusal, SaveFile};

const SAVE_PLACE: u32 = 0x0E00_0010;

/// How many bytes a store changed, and the changed flag after it.
type Stored = (usize, bool);

/// Prints two stores, the second right after the first, and checks them.
fn two_stores(what: &str, first: Stored, again: Stored, changed: [usize; 2], flag: bool) {
    println!("  {what:24} {} and flag {}, then {} and flag {}", first.0, u8::from(first.1), again.0, u8::from(again.1));
    assert_eq!([first, again], changed.map(|changed| (changed, flag)), "{what}");
}

/// What every kind of store changes.
fn numbers() -> Result<(), Refusal> {
    let mut sram = Cartridge::open(&image("SRAM NUMBERS", "SRAM_V"))?;
    let mut byte = || (sram.save_write(SAVE_PLACE, 0x5A), sram.take_save_dirty());
    two_stores("a byte, the same again", byte(), byte(), [1, 0], true);

    let mut flash = Cartridge::open(&image("FLASH NUMBER", "FLASH_V"))?;
    for (address, byte) in [(0x0E00_3000, 0x11), (0x0E00_3FFF, 0x22), (0x0E00_4000, 0x33)] {
        game::flash_program(&mut flash, address, byte);
    }
    let mut sector = || (game::flash_erase_sector(&mut flash, 0x0E00_3000), flash.take_save_dirty());
    two_stores("a sector, blank again", sector(), sector(), [2, 0], true);
    let mut chip = || (game::flash_erase_chip(&mut flash), flash.take_save_dirty());
    two_stores("the chip, blank again", chip(), chip(), [1, 0], true);

    let mut eeprom = Cartridge::open(&image("EEPROM NUMBE", "EEPROM_V"))?;
    let mut block = |data| Ok((game::write_block(&mut eeprom, 100, data)?, eeprom.take_save_dirty()));
    two_stores("a block, one bit of it", block(0x0123_4567_89AB_CDEF)?, block(0x0123_4567_89AB_CDEE)?, [8, 1], true);
    let mut byte = || (eeprom.save_write(SAVE_PLACE, 0x5A), eeprom.take_save_dirty());
    two_stores("a byte to an EEPROM", byte(), byte(), [1, 0], false);

    let mut sram = Cartridge::open(&image("SRAM NUMBERS", "SRAM_V"))?;
    let mut load = |file: &[u8]| (sram.load_save(file), sram.take_save_dirty());
    let file = [1, 2, 3, 0xFF, 5];
    two_stores("a load, the same again", load(&file), load(&file), [4, 0], false);
    two_stores("a load of no bytes", load(&[]), load(&[]), [4, 0], false);

    assert_eq!(sram.eeprom_write(1), Err(Refusal::NoEeprom));
    println!("  {:24} none", "a refused bit");
    Ok(())
}

/// Changed bytes after which the file is written out.
const BUDGET: usize = 12;
const SAVE_BYTES: usize = 8;

/// A host whose card is to be written to seldom.
struct Host {
    cart: Cartridge,
    /// The file as it was written out last.
    card: Vec<u8>,
    /// The sum of the numbers since then.
    unwritten: usize,
}

impl Host {
    fn write_out(&mut self) {
        self.card = self.cart.save_data().expect("SRAM has a file");
        self.unwritten = 0;
    }

    /// Adds the numbers of a frame. At its end the file is written out if the budget is reached. The flag is then taken too: it
    /// stands for what is now written out.
    fn end_frame(&mut self, changed: usize) {
        self.unwritten += changed;
        print!("{changed} changed, {} not written out", self.unwritten);
        if self.unwritten >= BUDGET {
            self.cart.take_save_dirty();
            self.write_out();
            print!(": the file is written");
        }
        println!();
    }

    /// At the end the flag decides, so that a rest below the budget is not lost. Returns whether the file was written.
    fn end_session(&mut self) -> bool {
        let flag = self.cart.take_save_dirty();
        if flag {
            self.write_out();
        }
        let written = if flag { "written" } else { "not written" };
        println!("  {:24} the flag is {}: the file is {written}", "the end", u8::from(flag));
        flag
    }

    /// The game's save: a name, the level, the gold and a check byte. The game stores all of it each time.
    fn save_game(&mut self, level: u8, gold: u16) -> usize {
        let [low, high] = gold.to_le_bytes();
        let check = level.wrapping_add(low).wrapping_add(high);
        let save: [u8; SAVE_BYTES] = [b'H', b'E', b'R', b'O', level, low, high, check];
        (SAVE_PLACE..).zip(save).map(|(address, byte)| self.cart.save_write(address, byte)).sum()
    }

    /// One frame in which the game saves.
    fn play(&mut self, frame: u32, level: u8, gold: u16, changed: usize, unwritten: usize) {
        let sum = self.save_game(level, gold);
        print!("  frame {frame:<18} {SAVE_BYTES} bytes stored, ");
        self.end_frame(sum);
        assert_eq!((sum, self.unwritten), (changed, unwritten));
        assert_eq!(self.card == self.cart.memory(), unwritten == 0, "the card has the save if no byte is unwritten");
    }
}

fn write_back() -> Result<(), Box<dyn Error>> {
    let image = image("BUDGET", "SRAM_V");
    let cart = Cartridge::open(&image)?;
    let mut host = Host { card: cart.memory().to_vec(), cart, unwritten: 0 };
    host.play(1, 1, 100, 8, 8);
    host.play(2, 1, 150, 2, 10);
    let state = host.cart.state();
    host.play(3, 1, 150, 0, 10);
    host.play(4, 2, 300, 4, 0);
    host.play(5, 2, 310, 2, 2);

    // A state that is resumed changes bytes too. The card has a later file: that of frame 4.
    let changed = host.cart.resume(&state, SaveFile::MayBeOther)?;
    print!("  {:24} ", "frame 2 resumed");
    host.end_frame(changed);
    assert_eq!((changed, host.unwritten), (4, 6), "level, gold and check byte change");
    assert!(host.end_session());
    assert_eq!(host.card, host.cart.memory());

    // The file comes from the card: what the import changes is written out already, and the sum starts at 0.
    let mut host = Host { cart: Cartridge::open(&image)?, unwritten: 0, ..host };
    let Imported { kept, changed } = host.cart.import_save(&host.card)?;
    println!("  {:24} {changed} changed by the import, {} not written out", "the next session", host.unwritten);
    assert_eq!((kept, changed), (host.card.len(), SAVE_BYTES));
    assert!(!host.end_session());
    Ok(())
}

pub fn shown() -> Result<(), Box<dyn Error>> {
    println!("Changed bytes");
    numbers()?;
    println!("Write-back: at the end of a frame the file is written if {BUDGET} bytes or more have changed");
    write_back()
}
