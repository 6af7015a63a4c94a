//! What a run compares of a cartridge, whichever side plays it.

use compare::call::Call;
use compare::records::Chip;

#[derive(Clone, Copy, PartialEq)]
pub struct Answer {
    pub refusal: u32,
    pub value: u32,
    /// How many bytes of the save memory the call changed, if it is one that stores.
    pub changed: Option<u32>,
}

impl Answer {
    pub fn value(value: u32) -> Self {
        Self { refusal: 0, value, changed: None }
    }

    pub fn refusal(refusal: u32) -> Self {
        Self { refusal, value: 0, changed: None }
    }

    pub fn with_changed(self, changed: u32) -> Self {
        Self { changed: Some(changed), ..self }
    }
}

impl std::fmt::Display for Answer {
    fn fmt(&self, f: &mut std::fmt::Formatter) -> std::fmt::Result {
        match self.refusal {
            0 => write!(f, "accepted, {:X}h", self.value)?,
            refusal => write!(f, "refused, {refusal}")?,
        }
        match self.changed {
            Some(changed) => write!(f, ", {changed} bytes changed"),
            None => Ok(()),
        }
    }
}

pub trait Side {
    /// The call's answer. Load brings its file; chip record and file are asked for by themselves.
    fn call(&mut self, call: &Call, file: &[u8]) -> Answer;
    /// Takes in the file's kept part, whose length is known.
    fn import(&mut self, file: &[u8], kept: usize) -> Answer;
    fn chip_state(&self) -> Chip;
    fn flag(&self) -> bool;
    fn memory(&self) -> &[u8];
    /// The exported file, where there is one.
    fn export(&mut self) -> Option<&[u8]>;
}
