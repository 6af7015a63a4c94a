//! Random lists, each with several cuts of its own.

use super::replay::Replay;
use super::{with_cuts, with_layouts};
use crate::random_lists::random_of;
use compare::call::Call;
use compare::items::Item;
use compare::kind::{is_eeprom, Kind, EEPROM8K, MEMORY};
use compare::lists;
use compare::random::Random;
use compare::records::Layout;

/// Lists by kind.
const LISTS: [u64; 6] = [500, 300, 150, 100, 1_000, 5];
/// Calls of a list, at least and at most.
const CALLS: (u64, u64) = (200, 1_200);
/// One cut in so many calls. Opening a large image takes long.
const DENSITIES: [u64; 5] = [1, 4, 16, 64, 256];
const LARGE_IMAGE: [u64; 1] = [256];

pub fn compare(replay: &mut Replay) {
    let kind = replay.kind();
    let densities = if kind == EEPROM8K { &LARGE_IMAGE[..] } else { &DENSITIES };
    for number in 0..LISTS[usize::from(kind)] {
        replay.at(&format!("random list {number}"));
        let random = &mut random_of(!replay.seed(), kind, number);
        let length = CALLS.0 + random.below(CALLS.1 - CALLS.0);
        let list = list(random, kind, length);
        let uncut = replay.uncut(&list);
        for density in densities {
            let list = with_random_cuts(&list, random, *density);
            replay.list(&list, &uncut);
            replay.by_calls(&list, &uncut);
            replay.by_calls(&with_layouts(&list, || random.pick(&[Layout::One, Layout::Two])), &uncut);
        }
    }
}

pub fn with_random_cuts(list: &[Item], random: &mut Random, density: u64) -> Vec<Item> {
    with_cuts(list, |_| cuts(random, density))
}

fn cuts(random: &mut Random, density: u64) -> usize {
    match (random.one_in(density), random.one_in(8)) {
        (false, _) => 0,
        (true, false) => 1,
        (true, true) => 2 + random.below(3) as usize,
    }
}

/// A list of so many calls, or a few more.
pub fn list(random: &mut Random, kind: Kind, length: u64) -> Vec<Item> {
    let mut list = Vec::new();
    while (list.len() as u64) < length {
        for call in lists::story(random, kind) {
            list.extend(item(call, random, kind));
        }
    }
    list
}

/// The call as an item. No list has restores, or byte writes to an EEPROM.
fn item(call: Call, random: &mut Random, kind: Kind) -> Option<Item> {
    match call {
        Call::Write(..) if is_eeprom(kind) => None,
        Call::Restore(_) => None,
        Call::Load { length, seed } => Some(Item::load(length, seed)),
        Call::Export => Some(Item::Export(destination(random, MEMORY[usize::from(kind)] as u32))),
        call => Some(Item::Call(call)),
    }
}

fn destination(random: &mut Random, memory: u32) -> u32 {
    match random.below(4) {
        0 => random.below(600) as u32,
        1 => random.pick(&[0, 511, 512, 513, memory.saturating_sub(1)]),
        _ => memory + random.pick(&[0, 0, 1, 16]),
    }
}
