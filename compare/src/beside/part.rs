//! The part's side.

use crate::abi::*;
use crate::side::{Answer, Side};
use compare::call::Call;
use compare::memory::STRETCH;
use compare::records::{self, Chip, Layout, State, CHIP_SIZE, STATE_SIZE};

pub struct Part {
    record: Record,
    memory: Vec<u8>,
    tallies: Vec<u16>,
    file: Vec<u8>,
    /// The layout of the next restore that is put to both sides: they take turns.
    layout: Layout,
}

/// In places before a call. No call answers it.
const UNWRITTEN: u32 = 0xEEEE_EEEE;

/// The answer of a call that writes its value to a place.
pub fn answer(call: impl FnOnce(&mut u32) -> u32) -> Answer {
    let mut value = UNWRITTEN;
    match call(&mut value) {
        0 => Answer::value(value),
        refusal => Answer::refusal(refusal),
    }
}

/// The answer of a call that stores, and writes to a place how many bytes it changed. A refused call leaves the place.
fn stored(call: impl FnOnce(&mut u32) -> Answer) -> Answer {
    let mut changed = UNWRITTEN;
    let answer = call(&mut changed);
    if answer.refusal == 0 || changed != UNWRITTEN {
        answer.with_changed(changed)
    } else {
        answer
    }
}

impl Part {
    /// Opens an image, with the usual flash part and a memory of the given length.
    pub fn open(image: &[u8], length: usize) -> (Answer, Self) {
        Self::open_with(image, USUAL_PART, length)
    }

    /// Opens an image with a flash part. Record, memory and tallies hold what opening leaves nowhere.
    pub fn open_with(image: &[u8], flash_part: u32, length: usize) -> (Answer, Self) {
        let (mut record, mut memory, mut tallies) = ([0xEE; RECORD_SIZE], vec![0x5A; length], vec![0x5A5A; length / STRETCH]);
        let (from, size) = (image.as_ptr(), image.len());
        let (to, counts, count) = (memory.as_mut_ptr(), tallies.as_mut_ptr(), tallies.len());
        let refusal = unsafe { gbasave_from_bytes(&mut record, from, size, flash_part, to, length, counts, count) };
        (Answer::refusal(refusal), Self { record, memory, tallies, file: vec![0; length], layout: Layout::One })
    }

    pub fn record(&self) -> &Record {
        &self.record
    }

    pub fn tallies(&self) -> &[u16] {
        &self.tallies
    }

    pub fn save_read(&self, address: u32) -> Answer {
        answer(|value| unsafe { gbasave_save_read(&self.record, self.memory.as_ptr(), self.memory.len(), address, value) })
    }

    pub fn save_write(&mut self, address: u32, value: u8) -> Answer {
        let (memory, length) = (self.memory.as_mut_ptr(), self.memory.len());
        let (tallies, count) = (self.tallies.as_mut_ptr(), self.tallies.len());
        stored(|changed| {
            Answer::refusal(unsafe {
                gbasave_save_write(&mut self.record, memory, length, tallies, count, address, value, changed)
            })
        })
    }

    pub fn eeprom_begin_dma(&mut self, words: u16) -> Answer {
        Answer::refusal(unsafe { gbasave_eeprom_begin_dma(&mut self.record, words.into()) })
    }

    pub fn eeprom_write(&mut self, value: u16) -> Answer {
        let (memory, length) = (self.memory.as_mut_ptr(), self.memory.len());
        let (tallies, count) = (self.tallies.as_mut_ptr(), self.tallies.len());
        stored(|changed| {
            Answer::refusal(unsafe { gbasave_eeprom_write(&mut self.record, memory, length, tallies, count, value, changed) })
        })
    }

    pub fn eeprom_read(&mut self) -> Answer {
        let (memory, length) = (self.memory.as_ptr(), self.memory.len());
        answer(|bit| unsafe { gbasave_eeprom_read(&mut self.record, memory, length, bit) })
    }

    pub fn load_save(&mut self, file: &[u8]) -> Answer {
        let (memory, length) = (self.memory.as_mut_ptr(), self.memory.len());
        let (tallies, count) = (self.tallies.as_mut_ptr(), self.tallies.len());
        let (from, size) = (file.as_ptr(), file.len());
        stored(|changed| {
            Answer::refusal(unsafe { gbasave_load_save(&mut self.record, memory, length, tallies, count, from, size, changed) })
        })
    }

    pub fn import_save(&mut self, file: &[u8]) -> Answer {
        let (memory, length) = (self.memory.as_mut_ptr(), self.memory.len());
        let (tallies, count) = (self.tallies.as_mut_ptr(), self.tallies.len());
        let (from, size) = (file.as_ptr(), file.len());
        stored(|changed| {
            answer(|kept| unsafe {
                gbasave_import_save(&mut self.record, memory, length, tallies, count, from, size, kept, changed)
            })
        })
    }

    pub fn save_data(&self, destination: &mut [u8]) -> Answer {
        let (memory, length) = (self.memory.as_ptr(), self.memory.len());
        let (to, room) = (destination.as_mut_ptr(), destination.len());
        answer(|written| unsafe { gbasave_save_data(&self.record, memory, length, to, room, written) })
    }

    /// Export into new memory of that length, as the original does it.
    pub fn save_file(&self, room: usize) -> Vec<u8> {
        let (memory, length) = (self.memory.as_ptr(), self.memory.len());
        let mut file: Vec<u8> = Vec::with_capacity(room);
        let mut written = 0;
        unsafe {
            gbasave_save_data(&self.record, memory, length, file.as_mut_ptr(), room, &mut written);
            file.set_len(written as usize);
        }
        file
    }

    pub fn is_blank(&self) -> Answer {
        let (tallies, count) = (self.tallies.as_ptr(), self.tallies.len());
        answer(|blank| unsafe { gbasave_is_blank(&self.record, tallies, count, blank) })
    }

    pub fn first_in_use(&self) -> Answer {
        let (tallies, count) = (self.tallies.as_ptr(), self.tallies.len());
        answer(|stretch| unsafe { gbasave_first_in_use(&self.record, tallies, count, stretch) })
    }

    pub fn take_save_dirty(&mut self) -> Answer {
        answer(|flag| unsafe { gbasave_take_save_dirty(&mut self.record, flag) })
    }

    pub fn chip_state_to(&self, state: &mut State) -> Answer {
        Answer::refusal(unsafe { gbasave_chip_state(&self.record, state) })
    }

    /// The state, in a place that holds no byte of one before the call.
    pub fn state(&self) -> State {
        let mut state = [0xEE; STATE_SIZE];
        self.chip_state_to(&mut state);
        state
    }

    pub fn restore(&mut self, state: &[u8]) -> Answer {
        Answer::refusal(unsafe { gbasave_restore_chip_state(&mut self.record, state.as_ptr(), state.len()) })
    }

    /// Restores a chip record as the original does, which leaves the flag: by the 18 bytes alone, or by 20 with the flag that is there.
    fn restore_chip(&mut self, chip: &Chip) -> Answer {
        let layout = self.layout;
        self.layout = if layout == Layout::One { Layout::Two } else { Layout::One };
        self.restore(layout.of(&records::state(chip, self.flag())))
    }

    pub fn uses_eeprom(&self) -> Answer {
        answer(|value| unsafe { gbasave_uses_eeprom(&self.record, value) })
    }

    pub fn eeprom_window_start(&self) -> Answer {
        answer(|start| unsafe { gbasave_eeprom_window_start(&self.record, start) })
    }
}

impl Side for Part {
    fn call(&mut self, call: &Call, file: &[u8]) -> Answer {
        match *call {
            Call::Read(address) => self.save_read(address),
            Call::Write(address, value) => self.save_write(address, value),
            Call::BitOut => self.eeprom_read(),
            Call::BitIn(value) => self.eeprom_write(value),
            Call::Dma(words) => self.eeprom_begin_dma(words),
            Call::TakeFlag => self.take_save_dirty(),
            Call::Load { .. } => self.load_save(file),
            Call::Restore(chip) => self.restore_chip(&chip),
            Call::ChipState | Call::Export => Answer::value(0),
        }
    }

    fn import(&mut self, file: &[u8], _kept: usize) -> Answer {
        self.import_save(file)
    }

    fn chip_state(&self) -> Chip {
        let mut chip = [0; CHIP_SIZE];
        chip.copy_from_slice(&self.state()[..CHIP_SIZE]);
        chip
    }

    fn flag(&self) -> bool {
        self.record[FLAG] != 0
    }

    fn memory(&self) -> &[u8] {
        &self.memory
    }

    fn export(&mut self) -> Option<&[u8]> {
        let mut file = std::mem::take(&mut self.file);
        let answer = self.save_data(&mut file);
        self.file = file;
        match answer {
            Answer { refusal: 0, value, .. } if value > 0 => Some(&self.file[..value as usize]),
            _ => None,
        }
    }
}
