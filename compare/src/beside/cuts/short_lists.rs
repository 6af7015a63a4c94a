//! Whole commands, loads in the middle of one, and exports, as short lists of calls.

use compare::call::Call;
use compare::commands::*;
use compare::files::LENGTHS;
use compare::items::Item;
use compare::kind::{is_eeprom, Kind, EEPROM8K, MEMORY};

type Named = (String, Vec<Item>);

const DATA: u64 = 0xA5_0F_C3_81_7E_3C_F0_5A;

pub fn short_lists(kind: Kind) -> Vec<Named> {
    let mut lists = serial_lists();
    if kind == EEPROM8K {
        lists.truncate(2);
        lists.push(load_list(kind, 0x200, 7));
        lists.push(export_list(kind));
        return lists;
    }
    if !is_eeprom(kind) {
        lists.extend(byte_lists());
    }
    lists.extend(LENGTHS.into_iter().zip(1..).map(|(length, seed)| load_list(kind, length, seed)));
    lists.push(export_list(kind));
    lists
}

fn items(calls: impl IntoIterator<Item = Call>) -> Vec<Item> {
    calls.into_iter().map(Item::Call).collect()
}

/// Writes and what comes back, at both widths; the last begin with a large chip.
fn serial_lists() -> Vec<Named> {
    let mut lists = Vec::new();
    for load in [None, Some(Item::load(0x2000, 3))] {
        for (width, block) in [(14, 100), (6, 36), (14, 1023), (6, 63)] {
            let calls = [write_block(width, block, DATA), set_address(width, block), read_back()].concat();
            let list = load.iter().cloned().chain(items(calls)).collect();
            lists.push((format!("{} bits written and read", width + 67), list));
        }
    }
    lists
}

/// A command with a DMA length told anywhere in it, on a small and on a large chip.
pub fn dma_lists() -> impl Iterator<Item = Named> {
    let commands = [
        ("9 bits", set_address(6, 36)),
        ("17 bits", set_address(14, 100)),
        ("73 bits", [write_block(6, 36, DATA), set_address(6, 36)].concat()),
        ("81 bits", [write_block(14, 100, DATA), set_address(14, 100)].concat()),
    ];
    commands.into_iter().flat_map(|(name, command)| {
        let every = (0..=command.len()).flat_map(move |place| DMA_WORDS.map(|words| (place, words)));
        every.flat_map(move |(place, words)| {
            let mut calls = command.clone();
            calls.insert(place, Call::Dma(words));
            let list = items(calls.into_iter().chain(read_back()));
            let large = [vec![Item::load(0x201, 5)], list.clone()].concat();
            [list, large].map(|list| (format!("DMA {words} in {name}"), list))
        })
    })
}

fn byte_lists() -> Vec<Named> {
    let reads = |at: u32| vec![Call::Read(at), Call::Read(at ^ 1), Call::Read(at ^ 0x1000)];
    let filled = [program(0x1234, 0x5A), select_bank(1), program(0x1234, 0xC3), program(0x8001, 0)].concat();
    let commands = [
        ("program", [program(0x0E00_2345, 0x3C), reads(0x2345), program(0x2345, 0xC3), reads(0x2345)].concat()),
        ("sector erase", [erase_sector(0x0E00_1FFF), reads(0x1234)].concat()),
        ("chip erase", [erase_chip(), reads(0x1234)].concat()),
        ("ID", [id_mode_on(), reads(0), program(0, 0x11), reads(0), id_mode_off(), reads(0)].concat()),
        ("bank", [select_bank(0), reads(0x1234), select_bank(1), reads(0x1234), select_bank(0xFF), reads(0x1234)].concat()),
    ];
    commands
        .into_iter()
        .map(|(name, command)| {
            let end = vec![Call::TakeFlag, Call::ChipState];
            (name.into(), items([filled.clone(), command, end].concat()))
        })
        .collect()
}

/// A load in the middle of a command, and what the chip then has.
fn load_list(kind: Kind, length: u32, seed: u8) -> Named {
    let (mut first, then) = if is_eeprom(kind) {
        (write_block(6, 21, DATA), [set_address(6, 21), read_back()].concat())
    } else {
        ([select_bank(1), program(0x7FFF, 0x96)].concat(), vec![Call::Read(0x7FFF), Call::Read(0x7FFE)])
    };
    let second = first.split_off(first.len() / 2 + 2);
    let ends = [0x1FF, 0x200, 0x1FFF, 0xFFFF].map(Call::Read);
    let mut list = items(first);
    list.push(Item::load(length, seed));
    list.extend(items(second.into_iter().chain(then).chain(ends).chain([Call::TakeFlag, Call::ChipState])));
    list.push(Item::Export(MEMORY[usize::from(kind)] as u32));
    (format!("a load of {length} bytes in a command"), list)
}

/// Exports into short, exact and longer destinations, before and behind a load and a DMA length that makes the chip large.
fn export_list(kind: Kind) -> Named {
    let size = MEMORY[usize::from(kind)] as u32;
    let lengths = [0, 1, 511, 512, 513, size.saturating_sub(1), size, size + 1, size + 16];
    let mut list = Vec::new();
    for step in [Item::Call(Call::Dma(9)), Item::load(0x1FF, 11), Item::Call(Call::Dma(17)), Item::load(0x1_0001, 12)] {
        list.push(step);
        list.extend(lengths.map(Item::Export));
    }
    ("exports".into(), list)
}
