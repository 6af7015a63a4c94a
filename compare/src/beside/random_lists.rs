//! Random lists of calls.

use crate::pair::Pair;
use compare::kind::Kind;
use compare::lists;
use compare::random::Random;

/// Calls in all, by kind: the fewer, the more memory there is to compare after each.
const CALLS: [u64; 6] = [1_000_000, 800_000, 700_000, 500_000, 4_000_000, 4_000_000];
const CALLS_OF_A_LIST: u64 = 4_000;

pub fn compare(pair: &mut Pair) {
    let kind = pair.kind();
    for list in 0..CALLS[usize::from(kind)] / CALLS_OF_A_LIST {
        pair.at(&format!("random list {list}"));
        pair.renew();
        one_list(pair, list);
    }
}

fn one_list(pair: &mut Pair, list: u64) {
    let kind = pair.kind();
    let random = &mut random_of(pair.seed(), kind, list);
    let end = pair.count() + CALLS_OF_A_LIST;
    while pair.count() < end {
        if random.one_in(200) && !pair.fits().is_empty() {
            let fit = random.pick(pair.fits());
            pair.import(fit, random.byte());
        }
        pair.calls(lists::story(random, kind));
    }
}

/// Each list has numbers of its own.
pub fn random_of(seed: u64, kind: Kind, list: u64) -> Random {
    let mut random = Random::new(seed ^ (u64::from(kind) << 56) ^ (list << 32));
    Random::new(random.number())
}
