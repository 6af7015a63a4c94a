//! Loads, imports and exports around every size.

use crate::pair::Pair;
use compare::call::Call;
use compare::files::LENGTHS;

pub fn compare(pair: &mut Pair) {
    pair.at("files");
    for large in 0..2 {
        let mut chip = [0; 18];
        chip[4] = large;
        for (length, seed) in LENGTHS.into_iter().zip(1..) {
            pair.calls([Call::Restore(chip), Call::Write(7, seed), Call::Load { length, seed }, Call::Export, Call::TakeFlag]);
        }
        for (fit, seed) in pair.fits().to_vec().into_iter().zip(101..) {
            pair.call(Call::Restore(chip));
            pair.import(fit, seed);
        }
    }
}
