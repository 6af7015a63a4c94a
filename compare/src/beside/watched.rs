//! What the original does not tell, by readings of its memory: how many bytes a call changed, the tally of each stretch, and the first stretch in use.

use crate::run::Fault;
use compare::memory::{first_in_use, tallies, used, STRETCH};

pub struct Watched {
    fault: Fault,
    /// The memory after the last call that stores. No other call changes it; if one did, the next count would show it.
    before: Vec<u8>,
    tallies: Vec<u16>,
    first: Option<usize>,
}

impl Watched {
    pub fn new(memory: &[u8], fault: Fault) -> Self {
        Self { fault, before: memory.to_vec(), tallies: tallies(memory), first: first_in_use(memory) }
    }

    pub fn tallies(&self) -> &[u16] {
        &self.tallies
    }

    /// The first stretch in use, or with the fault the wrong number.
    pub fn first_in_use(&self) -> Option<usize> {
        match self.fault {
            Fault::Stretches => self.first.map(|stretch| stretch + 1),
            _ => self.first,
        }
    }

    /// After a call that stores: how many bytes have changed. It looks at the whole memory. Most calls leave most of it, and equal bytes are compared many at
    /// a time; a stretch that has changed is counted anew.
    pub fn changed(&mut self, memory: &[u8]) -> u32 {
        let mut changed = 0;
        for ((before, now), tally) in self.before.chunks_mut(STRETCH).zip(memory.chunks(STRETCH)).zip(&mut self.tallies) {
            if before != now {
                let others = before.iter().zip(now).filter(|(before, now)| before != now).count();
                *tally = match self.fault {
                    Fault::Tallies => tally.wrapping_add(others as u16),
                    _ => used(now) as u16,
                };
                before.copy_from_slice(now);
                changed += others;
            }
        }
        if changed > 0 {
            self.first = first_in_use(memory);
        }
        changed as u32
    }

    /// Counts all stretches anew.
    pub fn count(&mut self, memory: &[u8]) {
        if self.fault != Fault::Tallies {
            self.tallies = tallies(memory);
            self.first = first_in_use(memory);
        }
    }
}
