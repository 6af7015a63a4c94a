//! Where a run stands, what it has counted, and how it ends at a difference.

use std::io::{stderr, IsTerminal, Write};
use std::time::Instant;

#[derive(Clone, Copy, PartialEq)]
pub enum Fault {
    None,
    /// The original's load clears the flag.
    Rust,
    /// The part's DMA 9 clears large.
    Part,
    /// The replay's cuts restore nothing.
    Replay,
    /// A byte that is stored in SRAM counts as changed, also if it was there already.
    Count,
    /// The part's matcher forgets the last bytes between two pieces.
    Pieces,
    /// The whole image is handed to the matcher, also if there is an SRAM_V in it.
    Handed,
    /// Every byte that a store changes counts as one more in use, also if it was in use before.
    Tallies,
    /// Stretches are numbered from 1.
    Stretches,
    /// No state has the flag.
    Flag,
    /// The replay's cuts lose the flag.
    LostFlag,
    /// The flag is compared too where a cut carries 18 bytes.
    Old,
}

impl Fault {
    /// Whether a search of an image has the fault. No cartridge has it then.
    pub fn is_of_searches(self) -> bool {
        matches!(self, Self::Pieces | Self::Handed)
    }

    /// Whether only cut runs have the fault.
    pub fn is_of_cuts(self) -> bool {
        matches!(self, Self::Replay | Self::LostFlag | Self::Old)
    }
}

pub struct Run {
    pub seed: u64,
    pub fault: Fault,
    pub calls: u64,
    pub cuts: u64,
    place: String,
    terminal: bool,
    started: Instant,
}

impl Run {
    pub fn new(seed: u64, fault: Fault) -> Self {
        let terminal = stderr().is_terminal();
        Self { seed, fault, calls: 0, cuts: 0, place: String::new(), terminal, started: Instant::now() }
    }

    pub fn seconds(&self) -> f64 {
        self.started.elapsed().as_secs_f64()
    }

    /// Names what is compared from here on; shown on a terminal.
    pub fn at(&mut self, place: String) {
        self.place = place;
        if self.terminal {
            let _ = write!(stderr(), "\r{:6.1} s {:>12} calls  {:<48}", self.seconds(), self.calls, self.place);
        }
    }

    pub fn clear_line(&self) {
        if self.terminal {
            let _ = write!(stderr(), "\r{:80}\r", "");
        }
    }

    pub fn differ(&self, difference: &str) -> ! {
        self.clear_line();
        eprintln!("beside: the original and the part differ (seed {:X})", self.seed);
        eprintln!("  in {}, call {} of the run", self.place, self.calls);
        eprintln!("  {difference}");
        std::process::exit(1);
    }
}
