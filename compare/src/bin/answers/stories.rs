//! The stories of the list. Each begins with a fresh cartridge and ends with flag, chip record and export.

mod bytes;
mod flash;
mod loads;
mod restores;
mod serial;

use crate::list::List;
use compare::call::Call;
use compare::kind::{self, Kind};
use compare::lists;
use compare::random::Random;

const RANDOM_CALLS: usize = 200;

pub fn lines(random: &mut Random) -> String {
    let mut lines = story(kind::EEPROM512, |list| list.put([Call::Dma(9), Call::BitOut]));
    for kind in kind::ALL {
        lines += &story(kind, bytes::addresses);
        lines += &story(kind, loads::around_sizes);
        lines += &story(kind, |list| random_calls(list, random));
    }
    for kind in [kind::FLASH64, kind::FLASH128] {
        lines += &story(kind, flash::commands);
        lines += &story(kind, |list| flash::steps(list, random));
        lines += &story(kind, |list| flash::broken_commands(list, random));
    }
    for kind in [kind::EEPROM512, kind::EEPROM8K] {
        lines += &story(kind, serial::commands);
        lines += &story(kind, serial::unannounced);
        lines += &story(kind, serial::reading_left);
    }
    lines += &story(kind::EEPROM512, serial::ends_of_phases);
    lines += &story(kind::EEPROM8K, serial::announced_late);
    for kind in [kind::NONE, kind::SRAM, kind::FLASH64] {
        lines += &story(kind, serial::reading_without_chip);
    }
    lines += &story(kind::EEPROM512, restores::fields);
    lines += &story(kind::FLASH128, |list| restores::pairs(list, random));
    lines
}

fn story(kind: Kind, tell: impl FnOnce(&mut List)) -> String {
    let mut list = List::open(kind);
    tell(&mut list);
    list.put([Call::TakeFlag, Call::TakeFlag, Call::ChipState, Call::Export]);
    list.into_lines()
}

fn random_calls(list: &mut List, random: &mut Random) {
    let mut calls = Vec::new();
    while calls.len() < RANDOM_CALLS {
        calls.extend(lists::story(random, list.kind()));
    }
    list.put(calls);
}
