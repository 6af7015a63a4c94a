//! The original uncut beside the replay cut and beside the part's own calls cut: the same list of calls, and cuts between them for these two.

mod calls;
mod places;
mod random;
mod refused;
mod replay;
mod short_lists;

use crate::run::Run;
use compare::images::of_kind;
use compare::items::Item;
use compare::kind::{Kind, NAMES};
use compare::records::Layout;
use replay::Replay;

pub fn compare(run: &mut Run, kind: Kind) {
    let before = (run.calls, run.cuts, run.seconds());
    let replay = &mut Replay::new(of_kind(kind), kind, run);
    places::compare(replay);
    random::compare(replay);
    refused::compare(replay);
    run.clear_line();
    let (calls, cuts, seconds) = (run.calls - before.0, run.cuts - before.1, run.seconds() - before.2);
    println!("beside: {} cut, {calls} calls, {cuts} cuts, {seconds:.1} s", NAMES[usize::from(kind)]);
}

/// The list with so many cuts in front of each item, and behind the last.
fn with_cuts(list: &[Item], mut cuts: impl FnMut(usize) -> usize) -> Vec<Item> {
    let mut cut = Vec::with_capacity(2 * list.len());
    for place in 0..=list.len() {
        cut.extend(std::iter::repeat(Item::Cut(Layout::Two)).take(cuts(place)));
        cut.extend(list.get(place).cloned());
    }
    cut
}

/// The list with other layouts of its cuts.
fn with_layouts(list: &[Item], mut layout: impl FnMut() -> Layout) -> Vec<Item> {
    list.iter().map(|item| if item.is_cut() { Item::Cut(layout()) } else { item.clone() }).collect()
}
