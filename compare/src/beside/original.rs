//! The original's side.

use crate::side::{Answer, Side};
use compare::call::Call;
use compare::original::{self, Cartridge};
use compare::records::Chip;

pub struct Original {
    cart: Cartridge,
    file: Vec<u8>,
}

impl Original {
    pub fn new(cart: Cartridge) -> Self {
        Self { cart, file: Vec::new() }
    }
}

impl Side for Original {
    fn call(&mut self, call: &Call, file: &[u8]) -> Answer {
        match call.put(&mut self.cart, file) {
            Ok(value) => Answer::value(value.unwrap_or(0).into()),
            Err(refusal) => Answer::refusal(refusal.into()),
        }
    }

    fn import(&mut self, file: &[u8], kept: usize) -> Answer {
        original::load_save(&mut self.cart, &file[..kept]);
        Answer::value(kept as u32)
    }

    fn chip_state(&self) -> Chip {
        original::chip_state(&self.cart)
    }

    fn flag(&self) -> bool {
        self.cart.flag()
    }

    fn memory(&self) -> &[u8] {
        self.cart.memory()
    }

    fn export(&mut self) -> Option<&[u8]> {
        self.file = original::save_data(&self.cart)?;
        Some(&self.file)
    }
}
