//! The flash chip: whole commands, broken ones, and every state with the values that count.

use crate::list::List;
use compare::call::Call;
use compare::commands::*;
use compare::lists;
use compare::random::Random;

/// Writes that mark both banks' sectors, so that an erased place shows.
fn programs(list: &mut List, seed: u8) {
    for (address, value) in [0, 0xFFF, 0x1000, 0x8123, 0xF000, 0xFFFF].into_iter().zip(seed..) {
        list.put(program(address, value));
        list.put([Call::Read(address)]);
    }
}

pub fn commands(list: &mut List) {
    for bank in [0, 1, 2, 3, 0xFF, 0xFE] {
        list.put(select_bank(bank));
        list.put([Call::ChipState]);
        programs(list, bank);
    }
    list.put([Call::TakeFlag, Call::Export]);
    list.put(id_mode_on());
    list.put([0, 1, 0x1234, 0x1235, u32::MAX].map(Call::Read));
    // ID mode stays on, and commands go on in it.
    list.put(program(0x2345, 0x42));
    list.put([Call::Read(0x2345), Call::ChipState]);
    list.put(id_mode_off());
    list.put([Call::Read(0x2345)]);
    // A byte that was not erased takes the value as it is.
    list.put(program(0x2345, 0xBD));
    list.put([Call::Read(0x2345), Call::TakeFlag]);
    for bank in [0, 1] {
        list.put(select_bank(bank));
        for address in [0xFFF, 0xF000] {
            list.put(erase_sector(address));
            list.put([Call::Read(0), Call::Read(0xFFF), Call::Read(0x1000), Call::Read(0xF000), Call::Read(0xFFFF)]);
            list.put([Call::TakeFlag, Call::Export]);
        }
        programs(list, 0x30 + bank);
    }
    list.put(erase_chip());
    list.put([Call::ChipState, Call::Read(0x8123), Call::Export]);
    list.put(select_bank(0));
    programs(list, 0x70);
    // Without the second unlocking nothing is erased.
    list.put([0xAA, 0x55, 0x80, 0x30].map(|value| Call::Write(0x1000, value)));
    list.put([Call::Read(0x1000), Call::ChipState]);
}

pub fn steps(list: &mut List, random: &mut Random) {
    const VALUES: [u8; 12] = [0x00, 0x10, 0x30, 0x55, 0x80, 0x90, 0xA0, 0xAA, 0xB0, 0xF0, 0xFF, 0x01];
    for state in [0, 1, 2, 4, 5, 6, 7, 8] {
        list.put([Call::Load { length: 0x2_0000, seed: random.byte() }]);
        for value in VALUES {
            let mut chip = [0; 18];
            chip[0] = state;
            chip[1] = random.below(2) as u8;
            chip[2] = random.below(2) as u8;
            list.put([Call::Restore(chip), Call::Write(lists::address(random), value), Call::ChipState]);
        }
        list.put([Call::TakeFlag, Call::Export]);
    }
}

pub fn broken_commands(list: &mut List, random: &mut Random) {
    list.put([Call::Load { length: 0x2_0000, seed: 0x77 }]);
    for _ in 0..6 {
        let at = lists::address(random);
        for command in [program(at, random.byte()), erase_sector(at), erase_chip(), id_mode_on(), id_mode_off()] {
            list.put(broken(command, random));
            list.put([Call::Read(at), Call::ChipState]);
        }
        list.put(broken(select_bank(random.byte()), random));
        list.put([Call::TakeFlag, Call::Export]);
    }
}
