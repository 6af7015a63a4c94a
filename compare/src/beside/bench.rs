//! The benchmark. Each link of the driver times the rows, both sides in alternating rounds. Another program of the same driver
//! tells them when, and makes the table.

mod bytes;
mod calls;
mod images;
mod link;
mod placed;
mod stretches;
pub mod table;

use crate::side::Answer;
use link::{Row, Times};
use std::hint::black_box;
use std::sync::OnceLock;
use std::time::Instant;

/// Calls between two looks at the clock.
const BATCH: u32 = 4096;
const ROUND_SECONDS: f64 = 0.0005;
/// Rounds in a turn, and turns. Turns are short and many: for tenths of a second the machine may be slow, and every link is to see the
/// same of that.
const ROUNDS: u32 = 5;
const TURNS: u32 = 41;
/// Turns of one round at work that takes longer than a round; fewer where there are many such rows.
const LONG_TURNS: u32 = 5;
const FEW_TURNS: u32 = 3;

/// The rows that are timed have this in their names.
static WANTED: OnceLock<String> = OnceLock::new();

/// Comes to each row in turn, and times it whenever it is told to.
pub fn rows(wanted: &str) {
    WANTED.get_or_init(|| wanted.into());
    calls::rows();
    images::rows();
    bytes::rows();
    stretches::rows();
}

/// A row of calls, each given a number of its own.
fn calls(name: &str, mut original: impl FnMut(u32), mut part: impl FnMut(u32)) {
    let original = || (0..BATCH).for_each(|number| original(black_box(number)));
    let part = || (0..BATCH).for_each(|number| part(black_box(number)));
    row(name, BATCH, original, part);
}

/// A row of calls, each given one of the values in turn.
fn values<T: Copy>(name: &str, values: &[T], mut original: impl FnMut(T), mut part: impl FnMut(T)) {
    let original = || values.iter().for_each(|value| original(black_box(*value)));
    let part = || values.iter().for_each(|value| part(black_box(*value)));
    row(name, values.len() as u32, original, part);
}

/// A row. Each side's batch does the same `units` pieces of work, and takes less than a round. Of three tries the shortest says how many
/// batches a round has: a try may be interrupted.
fn row(name: &str, units: u32, mut original: impl FnMut(), mut part: impl FnMut()) {
    if is_wanted(name) {
        let mut batch = || seconds(1, &mut original).max(seconds(1, &mut part));
        let batches = (ROUND_SECONDS / batch().min(batch()).min(batch())).ceil() as u32;
        turns(Row { name: name.into(), turns: TURNS }, ROUNDS, batches, units, original, part);
    }
}

/// A row of one piece of work, which takes longer than a round.
fn long_row(name: &str, row_turns: u32, original: impl FnMut(), part: impl FnMut()) {
    if is_wanted(name) {
        turns(Row { name: name.into(), turns: row_turns }, 1, 1, 1, original, part);
    }
}

fn is_wanted(name: &str) -> bool {
    WANTED.get().is_some_and(|wanted| name.contains(wanted))
}

/// Times the row whenever it is told to.
fn turns(row: Row, rounds: u32, batches: u32, units: u32, mut original: impl FnMut(), mut part: impl FnMut()) {
    link::ready(&row);
    while link::told_to_time() {
        let mut times = [Vec::new(), Vec::new()];
        for _ in 0..rounds {
            times[0].push(seconds(batches, &mut original));
            times[1].push(seconds(batches, &mut part));
        }
        let [original, part] = times.map(|times| median(times) / f64::from(batches) / f64::from(units));
        link::tell(&Times { original, part });
    }
}

fn seconds(batches: u32, batch: &mut impl FnMut()) -> f64 {
    let start = Instant::now();
    (0..batches).for_each(|_| batch());
    start.elapsed().as_secs_f64()
}

fn median(mut times: Vec<f64>) -> f64 {
    times.sort_by(f64::total_cmp);
    times[times.len() / 2]
}

/// The value of a call that has to be accepted, as a host takes it: what is refused by mistake would be timed for nothing.
fn answered(answer: Answer) -> u32 {
    if answer.refusal != 0 {
        refused(answer.refusal);
    }
    answer.value
}

/// How many bytes a call changed that has to be accepted, as a host with a budget takes it.
fn stored(answer: Answer) -> u32 {
    answered(answer);
    answer.changed.unwrap_or_default()
}

#[cold]
#[inline(never)]
fn refused(refusal: u32) -> ! {
    panic!("a call that is timed was refused, {refusal}")
}

/// Keeps an answer from being optimized away.
fn used<T>(answer: T) {
    let _ = black_box(answer);
}
