//! A cartridge on both sides. After every call answer, chip record, flag, save memory and exported file are compared. The original's states have no
//! flag and no layout number: those bytes of the part's are compared with the flag in the record and with 2. The original does not
//! tell how many bytes a call changed, and has no tallies: after every call that stores, its memory is compared with a copy from before, byte by byte, and
//! what has changed is counted.

use crate::abi::{CHIP, FLAG, NONE_IN_USE, PART, USUAL_PART};
use crate::original::Original;
use crate::part::Part;
use crate::run::{Fault, Run};
use crate::side::{Answer, Side};
use crate::watched::Watched;
use compare::call::Call;
use compare::files;
use compare::kind::{Kind, MEMORY, NAMES, SRAM};
use compare::original as rust;
use compare::records::{hex, state, Chip, State};

const RECENT: usize = 12;
/// Calls between two counts of all stretches.
const COUNT: u64 = 256;

pub struct Pair<'a> {
    run: &'a mut Run,
    kind: Kind,
    original: Original,
    part: Part,
    fresh: Chip,
    /// The first five bytes of the part's record, which no call changes: image length and kind. The last one, the flash part, stays too.
    identity: [u8; 5],
    /// The lengths that import takes, with what it keeps of them.
    fits: Vec<(u32, usize)>,
    recent: [Option<Call>; RECENT],
    watched: Watched,
}

impl<'a> Pair<'a> {
    pub fn open(image: &[u8], run: &'a mut Run) -> Self {
        let cart = rust::open(image).expect("an image of an allowed length");
        let kind = rust::kind(&cart);
        let (answer, part) = Part::open(image, MEMORY[usize::from(kind)]);
        let [a, b, c, d] = (image.len() as u32).to_le_bytes();
        let kept = |length: u32| rust::save_fit(image, length as usize).map(|kept| (length, kept));
        let mut pair = Self {
            watched: Watched::new(cart.memory(), run.fault),
            run,
            kind,
            fresh: rust::chip_state(&cart),
            original: Original::new(cart),
            part,
            identity: [a, b, c, d, kind],
            fits: files::LENGTHS.into_iter().filter_map(kept).collect(),
            recent: [None; RECENT],
        };
        pair.compare([Answer::value(0), answer], || "opening".into());
        pair
    }

    /// Names what is compared from here on.
    pub fn at(&mut self, place: &str) {
        self.run.at(format!("{}, {place}", NAMES[usize::from(self.kind)]));
    }

    pub fn seed(&self) -> u64 {
        self.run.seed
    }

    pub fn count(&self) -> u64 {
        self.run.calls
    }

    pub fn kind(&self) -> Kind {
        self.kind
    }

    pub fn fits(&self) -> &[(u32, usize)] {
        &self.fits
    }

    /// As fresh as after opening.
    pub fn renew(&mut self) {
        self.calls([Call::Load { length: 0, seed: 0 }, Call::Restore(self.fresh), Call::TakeFlag]);
        self.recent = [None; RECENT];
    }

    /// Puts the call to both sides, unless it is outside the domain.
    pub fn call(&mut self, call: Call) {
        if call.outside(self.kind, &self.original.chip_state()) {
            return;
        }
        self.recent.rotate_left(1);
        self.recent[RECENT - 1] = Some(call);
        let file = call.file();
        let mut answers = [self.original.call(&call, &file), self.part.call(&call, &file)];
        if call.stores() {
            answers[0] = answers[0].with_changed(self.changed(&call));
        }
        self.seed_fault(&call);
        self.compare(answers, || call.frame());
        if let Call::Export = call {
            self.compare_destination();
        }
    }

    pub fn calls(&mut self, calls: impl IntoIterator<Item = Call>) {
        calls.into_iter().for_each(|call| self.call(call));
    }

    /// Import, which for the original is a load of what is kept.
    pub fn import(&mut self, (length, kept): (u32, usize), seed: u8) {
        let file = files::file(length, seed);
        let mut answers = [self.original.import(&file, kept), self.part.import(&file, kept)];
        answers[0] = answers[0].with_changed(self.watched.changed(self.original.memory()));
        self.compare(answers, || format!("import of {length} bytes with seed {seed}"));
    }

    /// How many bytes of the original's memory the call changed, or with the fault one wrong number.
    fn changed(&mut self, call: &Call) -> u32 {
        let changed = self.watched.changed(self.original.memory());
        match (self.run.fault, call) {
            (Fault::Count, Call::Write(..)) if self.kind == SRAM => 1,
            _ => changed,
        }
    }

    fn seed_fault(&mut self, call: &Call) {
        match (self.run.fault, call) {
            (Fault::Rust, Call::Load { .. }) => drop(self.original.call(&Call::TakeFlag, &[])),
            (Fault::Part, Call::Dma(9)) => {
                let mut chip = self.part.chip_state();
                chip[4] = 0;
                self.part.call(&Call::Restore(chip), &[]);
            }
            _ => {}
        }
    }

    /// Export into a longer destination, whose bytes behind the file keep their values.
    fn compare_destination(&mut self) {
        let mut expected = vec![0xA5; self.part.memory().len() + 16];
        let mut destination = expected.clone();
        let file = self.original.export().unwrap_or(&[]);
        expected[..file.len()].copy_from_slice(file);
        let answers = [Answer::value(file.len() as u32), self.part.save_data(&mut destination)];
        self.compare(answers, || "export".into());
        if expected != destination {
            self.run.differ(&places("destination of an export", &expected, &destination));
        }
    }

    fn compare(&mut self, answers: [Answer; 2], call: impl FnOnce() -> String) {
        self.run.calls += 1;
        if self.run.calls % COUNT == 0 {
            self.watched.count(self.original.memory());
        }
        if let Some(difference) = self.difference(answers) {
            let before: Vec<String> = self.recent.iter().flatten().map(Call::frame).collect();
            self.run.differ(&format!("{}: {difference}\n  the last calls: {}", call(), before.join(" ")));
        }
    }

    fn difference(&mut self, [original, part]: [Answer; 2]) -> Option<String> {
        if original != part {
            return Some(format!("the original's answer is {original}; the part's is {part}"));
        }
        let chips = [self.original.chip_state(), self.part.chip_state()];
        if chips[0] != chips[1] {
            return Some(format!("the original's chip record is {}; the part's is {}", hex(&chips[0]), hex(&chips[1])));
        }
        let flags = [self.original.flag(), self.part.flag()];
        if flags[0] != flags[1] {
            return Some(format!("the original's flag is {}; the part's is {}", flags[0], flags[1]));
        }
        let record = self.part.record();
        if record[..5] != self.identity || record[FLAG] > 1 || record[CHIP] != chips[1] || u32::from(record[PART]) != USUAL_PART
        {
            return Some(format!("the part's record is {}", hex(record)));
        }
        if self.part.state() != self.state(&chips[1], flags[1]) {
            return Some(format!("the part's state is {}, its record {}", hex(&self.part.state()), hex(record)));
        }
        if self.original.memory() != self.part.memory() {
            return Some(places("save memory", self.original.memory(), self.part.memory()));
        }
        if let Some(difference) = self.other_tallies() {
            return Some(difference);
        }
        match (self.original.export(), self.part.export()) {
            (None, None) => None,
            (Some(original), Some(part)) if original == part => None,
            (Some(original), Some(part)) => Some(places("exported file", original, part)),
            (original, _) => Some(format!("a file from the {} alone", if original.is_some() { "original" } else { "part" })),
        }
    }

    /// What the part's state has to be, or with the fault a wrong one.
    fn state(&self, chip: &Chip, flag: bool) -> State {
        state(chip, flag && self.run.fault != Fault::Flag)
    }

    /// The part's tallies, and its two answers from them, beside what is in the original's memory.
    fn other_tallies(&self) -> Option<String> {
        let (original, part) = (self.watched.tallies(), self.part.tallies());
        if original != part {
            return Some(format!(
                "the stretches of the original have {original:?} bytes in use; the part's tallies are {part:?}"
            ));
        }
        let first = self.watched.first_in_use();
        let expected = [u32::from(first.is_none()), first.map_or(NONE_IN_USE, |stretch| stretch as u32)].map(Answer::value);
        let answers = [self.part.is_blank(), self.part.first_in_use()];
        let names = ["is it blank", "the first stretch in use"];
        let mut all = names.into_iter().zip(expected).zip(answers);
        all.find(|((_, expected), answer)| expected != answer).map(|((name, expected), answer)| {
            format!("{name}: in the original's memory it is {expected}; the part's answer is {answer}")
        })
    }
}

/// Where two pieces of bytes first differ.
fn places(name: &str, original: &[u8], part: &[u8]) -> String {
    match original.iter().zip(part).position(|(a, b)| a != b) {
        Some(at) => format!("{name} at {at:X}h: the original has {:02X}, the part {:02X}", original[at], part[at]),
        None => format!("{name}: the original has {} bytes, the part {}", original.len(), part.len()),
    }
}
