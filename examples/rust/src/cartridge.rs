//! A cartridge with its save memory.

use std::fmt;

use crate::answer::{accepted, sound, value};
use crate::raw::{self, Record, NONE_IN_USE, RECORD_FLAG, RECORD_IMAGE_LENGTH, RECORD_KIND, RECORD_PART, RECORD_SIZE};
use crate::raw::{STATE_SIZE, STRETCH_SIZE};
use crate::{rom_crc, save_size, ChipState, Identity, Kind, Part, Refusal};

/// A cartridge's backup chip: save memory, tallies of the memory, and record. The cartridge owns them all, so no call can get the
/// wrong ones, and the tallies are always those of the memory.
///
/// A method that stores returns how many bytes of the save memory have another value than before. A host with a write-back budget
/// adds these numbers up, and writes out the file when the sum reaches the budget. The number does not replace the changed flag:
/// storing the value that is already there returns 0 and sets the flag.
#[derive(Clone, PartialEq, Eq)]
pub struct Cartridge {
    record: Record,
    memory: Vec<u8>,
    /// For each stretch of the memory, how many of its bytes are not FFh.
    tallies: Vec<u16>,
    image_crc: u32,
}

/// What an import did.
#[derive(Clone, Copy, Debug, PartialEq, Eq, Hash)]
pub struct Imported {
    /// How many of the file's bytes were kept.
    pub kept: usize,
    /// How many bytes of the save memory have changed.
    pub changed: usize,
}

impl Cartridge {
    /// Opens a fresh cartridge with the usual part: finds the kind in the image, erases the memory, and takes the image's CRC to
    /// recognise the cartridge's states. Refused: [`Refusal::ImageLength`].
    pub fn open(image: &[u8]) -> Result<Self, Refusal> {
        Self::open_with_part(image, Part::Usual)
    }

    /// Opens a fresh cartridge for a game that looks for this part. Refused: [`Refusal::ImageLength`]; [`Refusal::Part`], if the
    /// part does not have the size of the image's kind.
    pub fn open_with_part(image: &[u8], part: Part) -> Result<Self, Refusal> {
        let image_crc = rom_crc(image)?;
        let size = save_size(image);
        let mut cart =
            Self { record: [0; RECORD_SIZE], memory: vec![0; size], tallies: vec![0; size / STRETCH_SIZE], image_crc };
        let (memory, tallies, count) = (cart.memory.as_mut_ptr(), cart.tallies.as_mut_ptr(), cart.tallies.len());
        let (from, length, part) = (image.as_ptr(), image.len(), part.number());
        accepted(unsafe { raw::gbasave_from_bytes(&mut cart.record, from, length, part, memory, size, tallies, count) })?;
        Ok(cart)
    }

    /// Returns the kind of the backup chip.
    pub fn kind(&self) -> Kind {
        Kind::of(self.record[RECORD_KIND].into()).expect("the record has a kind")
    }

    /// Returns the part with which the cartridge was opened.
    pub fn part(&self) -> Part {
        Part::of(self.record[RECORD_PART].into()).expect("the record has a part")
    }

    /// Returns what tells this cartridge from others, and its part. Its states carry the same.
    pub fn identity(&self) -> Identity {
        let image_length = self.record[RECORD_IMAGE_LENGTH].try_into().expect("a length has four bytes");
        Identity {
            kind: self.kind(),
            image_length: u32::from_le_bytes(image_length),
            image_crc: self.image_crc,
            part: self.part(),
        }
    }

    /// Returns the whole save memory.
    pub fn memory(&self) -> &[u8] {
        &self.memory
    }

    /// Returns the byte that a game reads at a bus address.
    pub fn save_read(&self, address: u32) -> u8 {
        let (memory, length) = (self.memory.as_ptr(), self.memory.len());
        sound(value(|value| unsafe { raw::gbasave_save_read(&self.record, memory, length, address, value) })) as u8
    }

    /// Writes a game's byte at a bus address: SRAM stores it, flash takes it as a step of a command. Returns how many bytes of the
    /// memory have changed: 1 at most, unless a sector or the whole chip is erased.
    pub fn save_write(&mut self, address: u32, byte: u8) -> usize {
        let (memory, length) = (self.memory.as_mut_ptr(), self.memory.len());
        let (tallies, count) = (self.tallies.as_mut_ptr(), self.tallies.len());
        sound(value(|changed| unsafe {
            raw::gbasave_save_write(&mut self.record, memory, length, tallies, count, address, byte, changed)
        })) as usize
    }

    /// Returns whether the game's halfwords in the EEPROM's window are for this cartridge.
    pub fn uses_eeprom(&self) -> bool {
        sound(value(|answer| unsafe { raw::gbasave_uses_eeprom(&self.record, answer) })) == 1
    }

    /// Returns the bus address at which the EEPROM begins.
    pub fn eeprom_window_start(&self) -> u32 {
        sound(value(|start| unsafe { raw::gbasave_eeprom_window_start(&self.record, start) }))
    }

    /// Announces the length of a DMA transfer before its first bit. Refused: [`Refusal::DmaTooLate`].
    pub fn eeprom_begin_dma(&mut self, words: u32) -> Result<(), Refusal> {
        accepted(unsafe { raw::gbasave_eeprom_begin_dma(&mut self.record, words) })
    }

    /// Takes bit 0 of a halfword. Returns how many bytes of the memory have changed: 8 at most with the last bit of a block, and 0
    /// with every other bit. Refused: [`Refusal::NoEeprom`].
    pub fn eeprom_write(&mut self, halfword: u16) -> Result<usize, Refusal> {
        let (memory, length) = (self.memory.as_mut_ptr(), self.memory.len());
        let (tallies, count) = (self.tallies.as_mut_ptr(), self.tallies.len());
        let changed = value(|changed| unsafe {
            raw::gbasave_eeprom_write(&mut self.record, memory, length, tallies, count, halfword, changed)
        })?;
        Ok(changed as usize)
    }

    /// Returns one bit, as a halfword.
    pub fn eeprom_read(&mut self) -> u16 {
        let (memory, length) = (self.memory.as_ptr(), self.memory.len());
        sound(value(|bit| unsafe { raw::gbasave_eeprom_read(&mut self.record, memory, length, bit) })) as u16
    }

    /// Returns the save file, if the kind has one.
    pub fn save_data(&self) -> Option<Vec<u8>> {
        let mut file = vec![0; self.memory.len()];
        let (memory, room, to) = (self.memory.as_ptr(), file.len(), file.as_mut_ptr());
        let length = sound(value(|length| unsafe { raw::gbasave_save_data(&self.record, memory, room, to, room, length) }));
        file.truncate(length as usize);
        (length > 0).then_some(file)
    }

    /// Imports a player's file. Returns how many bytes of it were kept, and how many bytes of the memory have changed. A footer of
    /// 16 bytes is not kept; a caller that wants it in later files appends it to them. Refused: [`Refusal::FileLength`].
    pub fn import_save(&mut self, file: &[u8]) -> Result<Imported, Refusal> {
        let (memory, length) = (self.memory.as_mut_ptr(), self.memory.len());
        let (tallies, count) = (self.tallies.as_mut_ptr(), self.tallies.len());
        let (from, size) = (file.as_ptr(), file.len());
        let mut changed = 0;
        let kept = value(|kept| unsafe {
            raw::gbasave_import_save(&mut self.record, memory, length, tallies, count, from, size, kept, &mut changed)
        })?;
        Ok(Imported { kept: kept as usize, changed: changed as usize })
    }

    /// Erases the memory and loads a file of any length. Bytes for which there is no room are ignored. Returns how many bytes of
    /// the memory have changed: 0 if it holds the same bytes as before.
    pub fn load_save(&mut self, file: &[u8]) -> usize {
        let (memory, length) = (self.memory.as_mut_ptr(), self.memory.len());
        let (tallies, count) = (self.tallies.as_mut_ptr(), self.tallies.len());
        let (from, size) = (file.as_ptr(), file.len());
        sound(value(|changed| unsafe {
            raw::gbasave_load_save(&mut self.record, memory, length, tallies, count, from, size, changed)
        })) as usize
    }

    /// Returns whether every byte of the memory is FFh, without a reading of the memory. A save menu shows such a cartridge as
    /// empty. A cartridge without a backup chip is blank.
    pub fn is_blank(&self) -> bool {
        let (tallies, count) = (self.tallies.as_ptr(), self.tallies.len());
        sound(value(|blank| unsafe { raw::gbasave_is_blank(&self.record, tallies, count, blank) })) == 1
    }

    /// Returns the number, from 0, of the first stretch of the memory that has a byte other than FFh, without a reading of the
    /// memory. A stretch is [`STRETCH_SIZE`] bytes. `None` means that the memory is blank.
    pub fn first_in_use(&self) -> Option<usize> {
        let (tallies, count) = (self.tallies.as_ptr(), self.tallies.len());
        let stretch = sound(value(|stretch| unsafe { raw::gbasave_first_in_use(&self.record, tallies, count, stretch) }));
        (stretch != NONE_IN_USE).then_some(stretch as usize)
    }

    /// Returns the changed flag and clears it: whether a write has stored anything, even what was there already, since the last
    /// call. If so, write out the file. Byte writes to an EEPROM kind, loads and imports do not set the flag.
    /// [`resume`](Self::resume) and [`restore_chip_state`](Self::restore_chip_state) say what they make of it.
    pub fn take_save_dirty(&mut self) -> bool {
        sound(value(|flag| unsafe { raw::gbasave_take_save_dirty(&mut self.record, flag) })) == 1
    }

    /// Sets the changed flag.
    pub(crate) fn set_save_dirty(&mut self) {
        self.record[RECORD_FLAG] = 1;
    }

    /// Returns the chip's state: the chip record, the changed flag at [`STATE_FLAG`](crate::STATE_FLAG), and the layout number 2.
    pub fn chip_state(&self) -> ChipState {
        let mut state = [0; STATE_SIZE];
        sound(accepted(unsafe { raw::gbasave_chip_state(&self.record, &mut state) }));
        state
    }

    /// Replaces the chip record and the changed flag by a state of 20 bytes, or only the chip record by the 18 bytes of an older
    /// version. The state may come from an untrusted source. Refused: [`Refusal::StateLength`] to [`Refusal::StateCount`],
    /// [`Refusal::StateLayout`], [`Refusal::StateFlag`].
    pub fn restore_chip_state(&mut self, state: &[u8]) -> Result<(), Refusal> {
        accepted(unsafe { raw::gbasave_restore_chip_state(&mut self.record, state.as_ptr(), state.len()) })
    }
}

impl fmt::Debug for Cartridge {
    fn fmt(&self, to: &mut fmt::Formatter) -> fmt::Result {
        let (kind, part) = (self.kind(), self.part());
        let mut cart = to.debug_struct("Cartridge");
        cart.field("kind", &kind).field("part", &part).field("record", &self.record).finish_non_exhaustive()
    }
}
