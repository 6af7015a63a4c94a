//! The part's own calls on a list, with cuts made of them: a file and a state are taken, and a fresh cartridge goes on from them. At each cut the open cartridge
//! resumes the state too, and is compared with the fresh one.

use crate::abi::FLAG;
use crate::part::Part;
use crate::side::{Answer, Side};
use compare::call::Call;
use compare::items::{ending, Item};
use compare::played::Played;
use compare::records::{Layout, State, STATE_FLAG};

/// What is played on the open cartridge before it resumes: all of it has to be forgotten but for the flag.
const PLAYED_ON: [Call; 4] = [Call::Dma(17), Call::BitIn(1), Call::Write(0x5555, 0xAA), Call::Write(0x1FFF, 0x5A)];

/// A cartridge, and its answers as the replay gives them.
pub struct Cartridge<'a> {
    image: &'a [u8],
    memory: usize,
    part: Part,
    answers: Vec<u8>,
    /// What is wrong with a cut, if anything is.
    wrong: Option<&'static str>,
}

impl<'a> Cartridge<'a> {
    pub fn open(image: &'a [u8], memory: usize) -> Self {
        let (_, part) = Part::open(image, memory);
        Self { image, memory, part, answers: Vec::new(), wrong: None }
    }

    /// Plays the list and its end. Answers what it leaves, and the tallies, or what is wrong with a cut.
    pub fn played(mut self, list: &[Item]) -> Result<(Played, Vec<u16>), &'static str> {
        list.iter().chain(&ending(self.memory)).for_each(|item| self.play(item));
        let (memory, tallies) = (self.part.memory().to_vec(), self.part.tallies().to_vec());
        self.wrong.map_or(Ok((Played { answers: self.answers, memory }, tallies)), Err)
    }

    fn play(&mut self, item: &Item) {
        match item {
            Item::Call(Call::ChipState) => {
                self.answers.push(0);
                self.answers.extend(self.part.state());
            }
            Item::Call(call) => {
                let answer = self.part.call(call, &[]);
                self.put(answer);
                if matches!(call, Call::Read(_) | Call::BitOut | Call::TakeFlag) {
                    self.answers.push(answer.value as u8);
                }
            }
            Item::Load(file) => {
                let answer = self.part.load_save(file);
                self.put(answer);
            }
            Item::Export(length) => {
                let mut destination = vec![0; *length as usize];
                let answer = self.part.save_data(&mut destination);
                self.put(answer);
                self.answers.extend(answer.value.to_be_bytes());
                self.answers.extend(destination);
            }
            Item::Cut(layout) => self.cut(*layout),
        }
    }

    fn put(&mut self, answer: Answer) {
        self.answers.push(answer.refusal as u8);
    }

    fn cut(&mut self, layout: Layout) {
        let mut file = vec![0; self.memory];
        let exported = self.part.save_data(&mut file);
        file.truncate(exported.value as usize);
        let state = self.part.state();

        let (opened, fresh) = Part::open(self.image, self.memory);
        let mut open = std::mem::replace(&mut self.part, fresh);
        let steps = [exported, opened, resume(&mut self.part, &file, layout.of(&state))];
        if steps.iter().any(|answer| answer.refusal != 0) {
            self.wrong = Some("a step of a cut is refused");
        }
        if !self.resumes_alike(&mut open, &file, &state, layout) {
            self.wrong = Some("the open cartridge resumes in another way than the fresh one");
        }
    }

    /// Whether the open cartridge, whatever is played on it, comes out as the fresh one. 18 bytes leave each its own flag: that of the fresh one is 0.
    fn resumes_alike(&self, open: &mut Part, file: &[u8], state: &State, layout: Layout) -> bool {
        for call in &PLAYED_ON {
            open.call(call, &[]);
        }
        let flags = match layout {
            Layout::One => [0, open.record()[FLAG]],
            Layout::Two => [state[STATE_FLAG]; 2],
        };
        let answer = resume(open, file, layout.of(state));
        let mut records = [*self.part.record(), *open.record()];
        let left = records.each_mut().map(|record| std::mem::take(&mut record[FLAG]));
        let same = self.part.memory() == open.memory() && self.part.tallies() == open.tallies();
        answer.refusal == 0 && left == flags && records[0] == records[1] && same
    }
}

/// Loads the file, if there is one, and restores.
fn resume(part: &mut Part, file: &[u8], state: &[u8]) -> Answer {
    if !file.is_empty() {
        part.load_save(file);
    }
    part.restore(state)
}
