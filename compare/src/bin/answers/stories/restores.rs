//! Restores: every field around its limits in every phase, and two fields at once.

use crate::list::List;
use compare::call::Call;
use compare::random::Random;
use compare::records::{random_near, serial, with_acc, with_block, FIELDS};

pub fn fields(list: &mut List) {
    for phase in 0..7 {
        let base = with_acc(with_block(serial(0, 0, phase, 0), 321), 0x0102_0304_0506_0708);
        for field in &FIELDS {
            list.put(field.limits.iter().map(|value| Call::Restore(field.set(&base, *value))));
            list.put([Call::ChipState]);
        }
    }
}

pub fn pairs(list: &mut List, random: &mut Random) {
    for _ in 0..200 {
        let near = random_near(random);
        let field = &FIELDS[random.below(FIELDS.len() as u64) as usize];
        list.put([Call::Restore(field.set(&near, random.pick(field.limits))), Call::ChipState]);
    }
}
