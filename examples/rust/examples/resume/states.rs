//! Where a state can be resumed, whether its file is then written out, and states of an older host.

use std::error::Error;

use crate::game::image;
use gbasave::{Cartridge, NotResumed, Refusal, SaveFile, State, CHIP_SIZE, STATE_FLAG, STATE_SIZE};

const PLACE: u32 = 0x0E00_0000;

/// Tries to resume a state that this cartridge must not take.
pub fn not_resumed(what: &str, cart: &mut Cartridge, state: &State, why: NotResumed) {
    let before = cart.clone();
    assert_eq!(cart.resume(state, SaveFile::MayBeOther), Err(why));
    assert!(*cart == before);
    println!("  {what:24} not resumed: {why}");
}

/// A host that writes out the save file only if the changed flag is 1.
struct Host {
    image: Vec<u8>,
    cart: Cartridge,
    /// The file as it was written out last.
    save_file: Vec<u8>,
}

impl Host {
    /// The console is switched off and on.
    fn switch_on(&mut self) -> Result<(), Refusal> {
        self.cart = Cartridge::open(&self.image)?;
        Ok(())
    }

    /// A game saves this byte.
    fn save(&mut self, byte: u8) {
        self.cart.save_write(PLACE, byte);
    }

    /// Returns whether the file was written out.
    fn flush(&mut self) -> bool {
        let changed = self.cart.take_save_dirty();
        if changed {
            self.save_file = self.cart.save_data().expect("SRAM has a file");
        }
        changed
    }

    /// Resumes the state, in which the game has saved 5Ah. The flag is then as given, and the host acts on it.
    fn resumed(&mut self, what: &str, state: &State, written_out: SaveFile, flag: bool) -> Result<(), NotResumed> {
        let changed = self.cart.resume(state, written_out)?;
        assert_eq!((self.cart.save_read(PLACE), changed), (0x5A, 1));
        assert_eq!((self.flush(), self.flush()), (flag, false), "{what}");
        assert_eq!(self.save_file, self.cart.memory());
        let with_flag = state.chip.len() == STATE_SIZE && written_out == SaveFile::AsItWas;
        let from = if with_flag { "from the state" } else { "set by the host" };
        let does = if flag { "is written" } else { "has it already" };
        println!("  {what:24} resumed; flag {}, {from}: the save file {does}", u8::from(flag));
        Ok(())
    }

    /// States of 20 bytes. The first is taken before the file is written out, the second after it.
    fn with_flag(&mut self) -> Result<(), Box<dyn Error>> {
        self.save(0x5A);
        let unwritten = self.cart.state();
        assert_eq!(unwritten.chip[STATE_FLAG], 1);

        // The console was switched off. The flag comes with the state.
        self.switch_on()?;
        self.resumed("in a fresh cartridge", &unwritten, SaveFile::AsItWas, true)?;
        let written = self.cart.state();
        assert_eq!(written.chip[STATE_FLAG], 0);
        self.switch_on()?;
        self.resumed("taken after the writing", &written, SaveFile::AsItWas, false)?;

        // In the open cartridge the flag is the state's too, whatever was played.
        self.save(0xA5);
        self.resumed("in the open cartridge", &written, SaveFile::AsItWas, false)?;

        // The game has saved since, and the host has written that out. The state's flag is still 0: now the host sets it.
        self.save(0xA5);
        assert!(self.flush());
        Ok(self.resumed("an older state", &written, SaveFile::MayBeOther, true)?)
    }

    /// States that an older host took: 18 bytes, without the flag.
    fn without_flag(&mut self) -> Result<(), Box<dyn Error>> {
        self.switch_on()?;
        self.save(0x5A);
        let mut old = self.cart.state();
        old.chip.truncate(CHIP_SIZE);
        self.switch_on()?;
        self.resumed("an old state, 18 bytes", &old, SaveFile::AsItWas, true)?;

        // Read into a cartridge whose flag is 0 or 1, and written back.
        let old: [u8; CHIP_SIZE] = [0, 0, 0, 14, 1, 3, 24, 100, 0, 0, 0x45, 0x23, 1, 0, 0, 0, 0, 0];
        for flag in [0, 1] {
            self.switch_on()?;
            if flag == 1 {
                self.save(0x5A);
            }
            self.cart.restore_chip_state(&old)?;
            let state = self.cart.chip_state();
            assert_eq!(state, [&old[..], &[flag, 2]].concat()[..]);
            let what = format!("18 bytes, flag {flag}");
            println!("  {what:24} written back as the same 18, then {:02X} {:02X}", state[18], state[19]);
        }
        Ok(())
    }

    fn elsewhere(&mut self) -> Result<(), Refusal> {
        let mut state = self.cart.state();
        for (what, marker) in [("in a flash cartridge", "FLASH_V"), ("in another SRAM one", "SRAM_V")] {
            let mut other = Cartridge::open(&image("OTHER STORY", marker))?;
            not_resumed(what, &mut other, &state, NotResumed::OtherCartridge);
        }
        self.save(0xA5);
        state.chip[5] = 7;
        not_resumed("a damaged state", &mut self.cart, &state, NotResumed::Refused(Refusal::StatePhase));
        Ok(())
    }
}

pub fn shown() -> Result<(), Box<dyn Error>> {
    println!("States");
    let image = image("STATE STORY", "SRAM_V");
    let cart = Cartridge::open(&image)?;
    let mut host = Host { image, save_file: cart.memory().to_vec(), cart };
    host.with_flag()?;
    host.without_flag()?;
    Ok(host.elsewhere()?)
}
