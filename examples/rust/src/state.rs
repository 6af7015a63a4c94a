//! States: the data that is kept of a cartridge to resume it later.

use std::{error, fmt};

use crate::raw::{CHIP_SIZE, STATE_SIZE};
use crate::{Cartridge, Kind, Part, Refusal};

/// A chip's state: the chip record, the changed flag, and the layout number 2.
pub type ChipState = [u8; STATE_SIZE];

/// What tells one cartridge from another, and the part with which it is opened.
#[derive(Clone, Copy, Debug, PartialEq, Eq, Hash)]
pub struct Identity {
    /// The kind of the backup chip.
    pub kind: Kind,
    /// The length of the image in bytes.
    pub image_length: u32,
    /// The CRC-32/IEEE of the image.
    pub image_crc: u32,
    /// The flash chip that the game finds. It is neither in the file nor in the chip's state.
    pub part: Part,
}

/// All that is needed, in addition to the image, to resume a cartridge.
#[derive(Clone, Debug, PartialEq, Eq)]
pub struct State {
    /// The cartridge that the state belongs to.
    pub cartridge: Identity,
    /// The save file, if the kind has one.
    pub file: Option<Vec<u8>>,
    /// The chip's state: a [`ChipState`], or the 18 bytes of a version before 0.7.0, which do not contain the changed flag.
    pub chip: Vec<u8>,
}

/// What a host knows about the save file that it has written out, when it resumes a state.
#[derive(Clone, Copy, Debug, PartialEq, Eq, Hash)]
pub enum SaveFile {
    /// It is the one of the moment when the state was taken.
    AsItWas,
    /// It may be another one: a later one, or another player's. A host that is not sure says this.
    MayBeOther,
}

/// Why a state is not resumed.
#[derive(Clone, Copy, Debug, PartialEq, Eq, Hash)]
pub enum NotResumed {
    /// The state belongs to another cartridge.
    OtherCartridge,
    /// The state was taken with another part. Open the cartridge with the state's part to resume it.
    OtherPart,
    /// The archive refuses the chip's state, as [`Cartridge::restore_chip_state`] says.
    Refused(Refusal),
}

impl Cartridge {
    /// Takes a state.
    pub fn state(&self) -> State {
        State { cartridge: self.identity(), file: self.save_data(), chip: self.chip_state().to_vec() }
    }

    /// Resumes a state in this cartridge, whatever was played on it. The cartridge has to be opened with the state's part. Returns
    /// how many bytes of the memory have changed. An error leaves the cartridge as it was.
    ///
    /// The changed flag comes with the state, and tells whether the file still has to be written out. If the state is of 18 bytes,
    /// or if the host's save file may be another one than when the state was taken, the file counts as changed: the next
    /// [`take_save_dirty`](Self::take_save_dirty) returns true.
    pub fn resume(&mut self, state: &State, written_out: SaveFile) -> Result<usize, NotResumed> {
        let cartridge = self.identity();
        if state.cartridge != cartridge {
            let other_part = Identity { part: cartridge.part, ..state.cartridge } == cartridge;
            return Err(if other_part { NotResumed::OtherPart } else { NotResumed::OtherCartridge });
        }
        // Before the load, so that a refused state changes nothing; after it, since the load may have made the chip large.
        self.restore_chip_state(&state.chip)?;
        let changed = state.file.as_ref().map_or(0, |file| self.load_save(file));
        self.restore_chip_state(&state.chip)?;
        // After the restore, which replaces the flag.
        if state.file.is_some() && (state.chip.len() == CHIP_SIZE || written_out == SaveFile::MayBeOther) {
            self.set_save_dirty();
        }
        Ok(changed)
    }
}

impl From<Refusal> for NotResumed {
    fn from(refusal: Refusal) -> Self {
        Self::Refused(refusal)
    }
}

impl fmt::Display for NotResumed {
    fn fmt(&self, to: &mut fmt::Formatter) -> fmt::Result {
        match self {
            Self::OtherCartridge => to.write_str("the state belongs to another cartridge"),
            Self::OtherPart => to.write_str("the state was taken with another part"),
            Self::Refused(refusal) => refusal.fmt(to),
        }
    }
}

impl error::Error for NotResumed {}
