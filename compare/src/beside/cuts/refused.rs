//! What a replay refuses: bytes that are no list, byte writes to an EEPROM, images and buffers of a wrong length, flash parts of a wrong size. Nothing
//! is changed then.

use super::random::{list, with_random_cuts};
use super::replay::{Lengths, Replay};
use crate::abi::USUAL_PART;
use crate::random_lists::random_of;
use compare::call::Call;
use compare::images::{of_kind, LARGEST, SMALLEST};
use compare::items::{encoded, list_of, room, Item};
use compare::kind::{is_eeprom, Kind, EEPROM8K, FLASH128, FLASH64, MEMORY};
use compare::random::Random;
use compare::records::Layout;

/// Tries by kind; opening the last kind's image takes long.
const TRIES: [u64; 6] = [20_000, 8_000, 4_000, 2_000, 20_000, 8];
/// No output is longer.
const LONGEST: usize = 0x10_0000;

pub fn compare(replay: &mut Replay) {
    let image = of_kind(replay.kind());
    replay.at("refusals");
    if replay.kind() != EEPROM8K {
        cut_off(replay, &image);
    }
    let random = &mut random_of(replay.seed().rotate_left(8), replay.kind(), 0);
    for _ in 0..TRIES[usize::from(replay.kind())] {
        let bytes = perhaps_a_list(random, replay);
        let lengths = lengths(random, replay, &bytes);
        let image = if random.one_in(16) { &image[..random.pick(&[0, 1, SMALLEST - 1])] } else { &image };
        let flash_part = if random.one_in(8) { misfit(random, replay.kind()) } else { USUAL_PART };
        put(replay, image, flash_part, &bytes, lengths);
    }
    put(replay, &vec![0; LARGEST + 1], USUAL_PART, &[], Lengths { memory: 0, scratch: 0, out: 0 });
}

/// One of each item, its bytes cut off anywhere.
fn cut_off(replay: &mut Replay, image: &[u8]) {
    let calls = [Call::Read(1), Call::BitOut, Call::BitIn(1), Call::Dma(9), Call::TakeFlag, Call::ChipState];
    let list: Vec<Item> =
        calls.map(Item::Call).into_iter().chain([Item::Cut(Layout::Two), Item::Export(3), Item::load(5, 1)]).collect();
    let bytes = encoded(&list);
    let memory = replay.memory_length();
    for end in 0..bytes.len() {
        put(replay, image, USUAL_PART, &bytes[..end], Lengths { memory, scratch: memory, out: LONGEST });
    }
}

/// A flash part of another size than the kind's, or a number that names none.
fn misfit(random: &mut Random, kind: Kind) -> u32 {
    let other_size: &[u32] = match kind {
        FLASH64 => &[4, 5],
        FLASH128 => &[1, 2, 3],
        _ => &[1, 2, 3, 4, 5],
    };
    match random.below(2) {
        0 => random.pick(other_size),
        _ => random.pick(&[6, 7, 255, 256, 258, 0x8000_0000, u32::MAX]),
    }
}

/// A list with something wrong, or not.
fn perhaps_a_list(random: &mut Random, replay: &Replay) -> Vec<u8> {
    let length = random.below(40);
    let mut list = with_random_cuts(&list(random, replay.kind(), length), random, 4);
    if random.one_in(6) {
        list.insert(random.below(list.len() as u64 + 1) as usize, Item::Call(Call::Write(0x5555, 0xAA)));
    }
    let mut bytes = encoded(&list);
    let place = random.below(bytes.len() as u64 + 1) as usize;
    match random.below(8) {
        0 => bytes.truncate(place),
        1 => bytes.insert(place, random.byte()),
        2 => bytes.insert(place, random.below(12) as u8),
        3 if place < bytes.len() => bytes[place] = random.byte(),
        4 => bytes = (0..length).map(|_| random.below(12) as u8).collect(),
        _ => {}
    }
    bytes
}

fn lengths(random: &mut Random, replay: &Replay, bytes: &[u8]) -> Lengths {
    let right = replay.memory_length();
    let memory = if random.one_in(8) { random.pick(&[0, 1, right + 1, 0x2000, 0x8000, 0x1_0000]) } else { right };
    let scratch = if random.one_in(4) { random.pick(&[0, right.saturating_sub(1), right + 1]) } else { right };
    let (end, room) = (room(&[], right), list_of(bytes).map_or(100, |list| room(&list, right)));
    let out = random.pick(&[0, end - 1, room - 1, room - 1, room, room, room, room + 1]);
    Lengths { memory, scratch, out: out.min(LONGEST) }
}

/// Puts the bytes to the replay, which has to answer the number of the first question that is answered no. A flash part other than the usual one
/// does not fit.
fn put(replay: &mut Replay, image: &[u8], flash_part: u32, bytes: &[u8], lengths: Lengths) {
    let list = list_of(bytes);
    let number = match &list {
        _ if !(SMALLEST..=LARGEST).contains(&image.len()) => 1,
        _ if lengths.memory != MEMORY[usize::from(replay.kind())] => 3,
        _ if flash_part != USUAL_PART => 15,
        None => 255,
        Some(list) if is_eeprom(replay.kind()) && list.iter().any(Item::is_byte_write) => 254,
        Some(list) if lengths.scratch < lengths.memory || lengths.out < room(list, lengths.memory) => 13,
        Some(list) => {
            let uncut = replay.uncut(list);
            return replay.list(list, &uncut);
        }
    };
    replay.refused(image, flash_part, bytes, lengths, number);
}
