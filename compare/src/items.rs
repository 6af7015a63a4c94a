//! Lists of calls with cuts between them, as the replay reads them: an item is a frame of `carttrace` as bytes, or 08 for a load, 09
//! for an export, 0A for a cut.

use crate::call::Call;
use crate::files;
use crate::records::{hex, Layout, STATE_FLAG, STATE_SIZE};
use std::rc::Rc;

#[derive(Clone)]
pub enum Item {
    /// Any call but a load, an export and a restore.
    Call(Call),
    Load(Rc<[u8]>),
    /// Into a destination of so many zeros.
    Export(u32),
    /// The replay's cuts are all of layout 2.
    Cut(Layout),
}

/// Of a longer file a frame shows only the beginning.
const SHOWN: usize = 32;

impl Item {
    pub fn load(length: u32, seed: u8) -> Self {
        Self::Load(files::file(length, seed).into())
    }

    pub fn is_cut(&self) -> bool {
        matches!(self, Self::Cut(_))
    }

    pub fn is_byte_write(&self) -> bool {
        matches!(self, Self::Call(Call::Write(..)))
    }

    pub fn encode(&self, list: &mut Vec<u8>) {
        match self {
            Self::Call(call) => encode_call(call, list),
            Self::Load(file) => {
                tag_and_number(8, file.len() as u32, list);
                list.extend_from_slice(file);
            }
            Self::Export(length) => tag_and_number(9, *length, list),
            Self::Cut(_) => list.push(10),
        }
    }

    /// How many bytes the answer takes.
    pub fn room(&self) -> usize {
        match self {
            Self::Call(Call::Read(_) | Call::BitOut | Call::TakeFlag) => 2,
            Self::Call(Call::ChipState) => 1 + STATE_SIZE,
            Self::Call(_) | Self::Load(_) => 1,
            Self::Export(length) => 5 + *length as usize,
            Self::Cut(_) => 0,
        }
    }

    /// Where the answer has the flag.
    fn flag_place(&self) -> Option<usize> {
        match self {
            Self::Call(Call::TakeFlag) => Some(1),
            Self::Call(Call::ChipState) => Some(1 + STATE_FLAG),
            _ => None,
        }
    }

    pub fn frame(&self) -> String {
        match self {
            Self::Load(file) if file.len() > SHOWN => format!("08{:08X}{}...", file.len(), hex(&file[..SHOWN])),
            Self::Cut(Layout::One) => "0A, by 18 bytes".into(),
            _ => hex(&encoded(std::slice::from_ref(self))),
        }
    }
}

fn tag_and_number(tag: u8, number: u32, list: &mut Vec<u8>) {
    list.push(tag);
    list.extend(number.to_be_bytes());
}

fn encode_call(call: &Call, list: &mut Vec<u8>) {
    let halfword = |tag: u8, number: u16| [tag, (number >> 8) as u8, number as u8];
    match *call {
        Call::Read(address) => tag_and_number(1, address, list),
        Call::Write(address, value) => {
            tag_and_number(2, address, list);
            list.push(value);
        }
        Call::BitOut => list.push(3),
        Call::BitIn(value) => list.extend(halfword(4, value)),
        Call::Dma(words) => list.extend(halfword(5, words)),
        Call::TakeFlag => list.push(6),
        Call::ChipState => list.push(7),
        Call::Load { .. } | Call::Export | Call::Restore(_) => unreachable!("no call of a list"),
    }
}

pub fn encoded(list: &[Item]) -> Vec<u8> {
    let mut bytes = Vec::new();
    list.iter().for_each(|item| item.encode(&mut bytes));
    bytes
}

/// What is answered behind a list: the file, from a destination as long as the memory, and the state.
pub fn ending(memory: usize) -> [Item; 2] {
    [Item::Export(memory as u32), Item::Call(Call::ChipState)]
}

/// How many bytes a list's answers take, and behind them the file and the state.
pub fn room<'a>(list: impl IntoIterator<Item = &'a Item>, memory: usize) -> usize {
    let end: usize = ending(memory).iter().map(Item::room).sum();
    list.into_iter().map(Item::room).sum::<usize>() + end
}

/// Where these answers have the flag.
pub fn flag_places(list: &[Item], memory: usize) -> Vec<usize> {
    let (mut places, mut at) = (Vec::new(), 0);
    for item in list.iter().chain(&ending(memory)) {
        places.extend(item.flag_place().map(|place| at + place));
        at += item.room();
    }
    places
}

/// The list that the bytes are, where they are one.
pub fn list_of(mut bytes: &[u8]) -> Option<Vec<Item>> {
    let mut list = Vec::new();
    while !bytes.is_empty() {
        let (item, length) = first_of(bytes)?;
        list.push(item);
        bytes = &bytes[length..];
    }
    Some(list)
}

/// The item at the front, and how many bytes it takes.
pub fn first_of(bytes: &[u8]) -> Option<(Item, usize)> {
    let number = |width: usize| Some(bytes.get(1..=width)?.iter().fold(0, |number: u32, byte| number << 8 | u32::from(*byte)));
    Some(match bytes.first()? {
        1 => (Item::Call(Call::Read(number(4)?)), 5),
        2 => (Item::Call(Call::Write(number(4)?, *bytes.get(5)?)), 6),
        3 => (Item::Call(Call::BitOut), 1),
        4 => (Item::Call(Call::BitIn(number(2)? as u16)), 3),
        5 => (Item::Call(Call::Dma(number(2)? as u16)), 3),
        6 => (Item::Call(Call::TakeFlag), 1),
        7 => (Item::Call(Call::ChipState), 1),
        8 => {
            let end = 5 + number(4)? as usize;
            (Item::Load(bytes.get(5..end)?.into()), end)
        }
        9 => (Item::Export(number(4)?), 5),
        10 => (Item::Cut(Layout::Two), 1),
        _ => return None,
    })
}
