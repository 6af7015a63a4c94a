//! The replay's side of a list: what it is lent, what it leaves there, and the original's answers beside it. The part's own calls can have the list too.

use super::calls::Cartridge;
use crate::abi::{gbasave_replay, USUAL_PART};
use crate::run::{Fault, Run};
use compare::items::{encoded, flag_places, Item};
use compare::kind::{Kind, MEMORY, NAMES};
use compare::memory::tallies;
use compare::played::{cut_without_flag, cut_without_restore, uncut, Played};
use compare::records::Layout;
use std::time::{Duration, Instant};

/// Scratch and output have fewer bytes than this that no answer needs, or none.
const SPARE: usize = 3;
/// What stands in the buffers before a replay.
const IN_MEMORY: u8 = 0x5A;
const IN_SCRATCH: u8 = 0xC3;
const IN_OUT: u8 = 0xA5;
/// How long a list that differs is made shorter.
const SHORTENING: Duration = Duration::from_secs(5);

/// How much the replay is lent.
#[derive(Clone, Copy)]
pub struct Lengths {
    pub memory: usize,
    pub scratch: usize,
    pub out: usize,
}

/// Who has the list with its cuts.
#[derive(Clone, Copy)]
enum Player {
    Replay,
    Calls,
}

pub struct Replay<'a> {
    run: &'a mut Run,
    image: Vec<u8>,
    kind: Kind,
    memory: Vec<u8>,
    scratch: Vec<u8>,
    out: Vec<u8>,
}

impl<'a> Replay<'a> {
    pub fn new(image: Vec<u8>, kind: Kind, run: &'a mut Run) -> Self {
        Self { run, image, kind, memory: Vec::new(), scratch: Vec::new(), out: Vec::new() }
    }

    pub fn at(&mut self, place: &str) {
        self.run.at(format!("{} cut, {place}", NAMES[usize::from(self.kind)]));
    }

    pub fn seed(&self) -> u64 {
        self.run.seed
    }

    pub fn kind(&self) -> Kind {
        self.kind
    }

    pub fn memory_length(&self) -> usize {
        MEMORY[usize::from(self.kind)]
    }

    /// What the original makes of the list without its cuts.
    pub fn uncut(&self, list: &[Item]) -> Played {
        uncut(&self.image, list)
    }

    /// Puts a list with cuts to the replay.
    pub fn list(&mut self, list: &[Item], uncut: &Played) {
        self.put(Player::Replay, list, uncut);
    }

    /// Makes the part's own calls of a list with cuts, which may carry 18 bytes.
    pub fn by_calls(&mut self, list: &[Item], uncut: &Played) {
        self.put(Player::Calls, list, uncut);
    }

    fn put(&mut self, player: Player, list: &[Item], uncut: &Played) {
        let cuts = list.iter().filter(|item| item.is_cut()).count();
        self.run.calls += (list.len() - cuts) as u64;
        self.run.cuts += cuts as u64;
        if self.difference(player, list, uncut).is_some() {
            self.differ(player, list);
        }
    }

    /// Puts any bytes to the replay, with any flash part. It has to refuse them with this number and leave all as it was.
    pub fn refused(&mut self, image: &[u8], flash_part: u32, bytes: &[u8], lengths: Lengths, number: u32) {
        self.run.calls += 1;
        self.lend(lengths);
        let refusal = replay(image, flash_part, bytes, &mut self.memory, &mut self.scratch, &mut self.out);
        if refusal != number {
            self.run.differ(&format!("the replay has to refuse with {number} and answers {refusal}\n{}", bytes_shown(bytes)));
        }
        for (name, buffer, value) in
            [("memory", &self.memory, IN_MEMORY), ("scratch", &self.scratch, IN_SCRATCH), ("output", &self.out, IN_OUT)]
        {
            if !holds_only(buffer, value) {
                self.run.differ(&format!("the replay refuses with {number} and changes the {name}\n{}", bytes_shown(bytes)));
            }
        }
    }

    fn lend(&mut self, lengths: Lengths) {
        for (buffer, length, value) in [
            (&mut self.memory, lengths.memory, IN_MEMORY),
            (&mut self.scratch, lengths.scratch, IN_SCRATCH),
            (&mut self.out, lengths.out, IN_OUT),
        ] {
            buffer.clear();
            buffer.resize(length, value);
        }
    }

    /// The replay, or with a fault a wrong one that stands in for it.
    fn replayed(&mut self, list: &[Item]) -> u32 {
        let played = match self.run.fault {
            Fault::Replay => cut_without_restore(&self.image, list),
            Fault::LostFlag => cut_without_flag(&self.image, list),
            _ => return replay(&self.image, USUAL_PART, &encoded(list), &mut self.memory, &mut self.scratch, &mut self.out),
        };
        self.memory.copy_from_slice(&played.memory);
        self.scratch.fill(0);
        self.out[..played.answers.len()].copy_from_slice(&played.answers);
        0
    }

    fn difference(&mut self, player: Player, list: &[Item], uncut: &Played) -> Option<String> {
        match player {
            Player::Replay => self.replay_differs(list, uncut),
            Player::Calls => self.calls_differ(list, uncut),
        }
    }

    fn replay_differs(&mut self, list: &[Item], uncut: &Played) -> Option<String> {
        let (memory, end, spare) = (self.memory_length(), uncut.answers.len(), list.len() % SPARE);
        self.lend(Lengths { memory, scratch: memory + spare, out: end + spare });
        let refusal = self.replayed(list);
        if refusal != 0 {
            return Some(format!("the replay refuses with {refusal}"));
        }
        let (answers, behind) = self.out.split_at(end);
        if answers != uncut.answers {
            return Some(answer_that_differs(list, &uncut.answers, answers));
        }
        if !holds_only(behind, IN_OUT) {
            return Some("the replay writes behind the answers".into());
        }
        if self.memory != uncut.memory {
            return Some("the save memory at the end is another".into());
        }
        (!holds_only(&self.scratch, 0)).then(|| "the scratch is not left all zeros".into())
    }

    /// Where all cuts carry 20 bytes, all is compared; where one carries 18, the flag is left out, everywhere.
    fn calls_differ(&self, list: &[Item], uncut: &Played) -> Option<String> {
        let (mut cut, cut_tallies) = match Cartridge::open(&self.image, self.memory_length()).played(list) {
            Ok(played) => played,
            Err(wrong) => return Some(wrong.into()),
        };
        let is_old = |item: &Item| matches!(item, Item::Cut(Layout::One));
        if list.iter().any(is_old) && self.run.fault != Fault::Old {
            flag_places(list, self.memory_length()).into_iter().for_each(|place| cut.answers[place] = uncut.answers[place]);
        }
        if cut.answers != uncut.answers {
            return Some(answer_that_differs(list, &uncut.answers, &cut.answers));
        }
        if cut.memory != uncut.memory {
            return Some("the save memory at the end is another".into());
        }
        (cut_tallies != tallies(&uncut.memory)).then(|| "the tallies at the end are others".into())
    }

    fn differ(&mut self, player: Player, list: &[Item]) -> ! {
        let list = self.shortened(player, list.to_vec());
        let uncut = self.uncut(&list);
        let difference = self.difference(player, &list, &uncut).expect("a list that differs");
        let frames: Vec<String> = list.iter().map(|item| format!("\n    {}", item.frame())).collect();
        self.run.differ(&format!("{difference}\n  the list, made shorter:{}", frames.concat()));
    }

    /// Leaves out what the difference does not need.
    fn shortened(&mut self, player: Player, mut list: Vec<Item>) -> Vec<Item> {
        let end = Instant::now() + SHORTENING;
        let mut size = list.len();
        while size > 0 {
            let mut at = 0;
            while at < list.len() && Instant::now() < end {
                let mut shorter = list.clone();
                shorter.drain(at..list.len().min(at + size));
                let uncut = self.uncut(&shorter);
                if self.difference(player, &shorter, &uncut).is_some() {
                    list = shorter;
                } else {
                    at += size;
                }
            }
            size /= 2;
        }
        list
    }
}

fn replay(image: &[u8], flash_part: u32, list: &[u8], memory: &mut [u8], scratch: &mut [u8], out: &mut [u8]) -> u32 {
    unsafe {
        gbasave_replay(
            image.as_ptr(),
            image.len(),
            flash_part,
            list.as_ptr(),
            list.len(),
            memory.as_mut_ptr(),
            memory.len(),
            scratch.as_mut_ptr(),
            scratch.len(),
            out.as_mut_ptr(),
            out.len(),
        )
    }
}

/// Without an early end, which would be slower.
fn holds_only(bytes: &[u8], value: u8) -> bool {
    bytes.iter().fold(0, |seen, byte| seen | (byte ^ value)) == 0
}

fn bytes_shown(bytes: &[u8]) -> String {
    let shown = &bytes[..bytes.len().min(1000)];
    format!("  the list's bytes ({}): {}", bytes.len(), compare::records::hex(shown))
}

/// Whose answer differs first, and how.
fn answer_that_differs(list: &[Item], original: &[u8], cut: &[u8]) -> String {
    let at = original.iter().zip(cut).position(|(a, b)| a != b).expect("a byte that differs");
    let values = format!("uncut the original has {:02X}, cut the part {:02X}", original[at], cut[at]);
    let mut end = 0;
    for (number, item) in list.iter().enumerate() {
        let start = end;
        end += item.room();
        if at < end {
            return format!("line {}, {}, byte {} of the answer: {values}", number + 1, item.frame(), at - start);
        }
    }
    format!("byte {} behind the last answer: {values}", at - end)
}
