//! What the original answers to a list, as bytes.

use crate::call::Call;
use crate::items::{ending, Item};
use crate::original::{self, Cartridge};
use crate::records::state;

/// A refusal number or 0, and the bytes that stand behind it.
pub struct Answer {
    pub refusal: u8,
    pub bytes: Vec<u8>,
}

impl Item {
    /// The original's answer; a cut has none. The calls outside the domain get their refusal without the original.
    pub fn answer(&self, cart: &mut Cartridge) -> Option<Answer> {
        let answer = |refusal, bytes| Some(Answer { refusal, bytes });
        match self {
            Self::Call(call) => match call.refusal(original::kind(cart), &original::chip_state(cart)) {
                Some(refusal) => answer(refusal, Vec::new()),
                None => answer(0, answer_of(call, cart)),
            },
            Self::Load(file) => {
                original::load_save(cart, file);
                answer(0, Vec::new())
            }
            Self::Export(length) => {
                let file = original::save_data(cart).unwrap_or_default();
                let mut bytes = vec![0; 4 + *length as usize];
                if bytes.len() < 4 + file.len() {
                    return answer(13, bytes);
                }
                bytes[..4].copy_from_slice(&(file.len() as u32).to_be_bytes());
                bytes[4..4 + file.len()].copy_from_slice(&file);
                answer(0, bytes)
            }
            Self::Cut(_) => None,
        }
    }
}

/// The original's states have 18 bytes; its flag stands apart.
fn answer_of(call: &Call, cart: &mut Cartridge) -> Vec<u8> {
    match (call, call.put(cart, &[])) {
        (Call::ChipState, _) => state(&original::chip_state(cart), cart.flag()).to_vec(),
        (_, Ok(Some(value))) => vec![value as u8],
        _ => Vec::new(),
    }
}

/// A list's answers, behind them the file and the state at its end, and the save memory that it leaves.
pub struct Played {
    pub answers: Vec<u8>,
    pub memory: Vec<u8>,
}

/// `at_cut` is what a cut makes of a cartridge.
pub fn play(image: &[u8], list: &[Item], at_cut: fn(&[u8], Cartridge) -> Cartridge) -> Played {
    let mut cart = original::open(image).expect("an image of an allowed length");
    let mut answers = Vec::new();
    for item in list {
        match item.answer(&mut cart) {
            Some(answer) => put(answer, &mut answers),
            None => cart = at_cut(image, cart),
        }
    }
    for item in ending(cart.memory().len()) {
        put(item.answer(&mut cart).expect("no cut"), &mut answers);
    }
    Played { answers, memory: cart.memory().to_vec() }
}

fn put(answer: Answer, answers: &mut Vec<u8>) {
    answers.push(answer.refusal);
    answers.extend(answer.bytes);
}

pub fn uncut(image: &[u8], list: &[Item]) -> Played {
    play(image, list, |_, cart| cart)
}

/// A wrong cut, to see that it is found: the state is not restored.
pub fn cut_without_restore(image: &[u8], list: &[Item]) -> Played {
    play(image, list, |image, cart| loaded(image, &cart))
}

/// Another one: only the chip record is restored, and the flag is lost.
pub fn cut_without_flag(image: &[u8], list: &[Item]) -> Played {
    play(image, list, |image, cart| {
        let mut fresh = loaded(image, &cart);
        original::restore(&mut fresh, &original::chip_state(&cart)).expect("a state that was taken");
        fresh
    })
}

/// A fresh cartridge with the file of another one.
fn loaded(image: &[u8], cart: &Cartridge) -> Cartridge {
    let mut fresh = original::open(image).expect("an image of an allowed length");
    if let Some(file) = original::save_data(cart) {
        original::load_save(&mut fresh, &file);
    }
    fresh
}
