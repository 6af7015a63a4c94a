//! Short lists with cuts at every place.

use super::replay::Replay;
use super::short_lists::{dma_lists, short_lists};
use super::{with_cuts, with_layouts};
use compare::items::Item;
use compare::kind;
use compare::records::Layout;

/// How many calls stand between two cuts where opening takes long.
const FAR: usize = 32;

pub fn compare(replay: &mut Replay) {
    for (name, list) in short_lists(replay.kind()) {
        replay.at(&name);
        if replay.kind() == kind::EEPROM8K {
            few_places(replay, &list);
        } else {
            every_place(replay, &list);
        }
    }
    if replay.kind() == kind::EEPROM512 {
        for (name, list) in dma_lists() {
            replay.at(&name);
            one_cut(replay, &list, 1);
            both_in_turn(replay, &list);
        }
    }
}

fn every_place(replay: &mut Replay, list: &[Item]) {
    one_cut(replay, list, 1);
    one_cut(replay, list, 3);
    cut_at_the_end(replay, list);
    let uncut = replay.uncut(list);
    for number in 0..3 {
        replay.list(&with_cuts(list, |_| number), &uncut);
    }
    one_cut_by_calls(replay, list);
    both_in_turn(replay, list);
}

/// One cut at each place in turn, or so many in a row.
fn one_cut(replay: &mut Replay, list: &[Item], number: usize) {
    let uncut = replay.uncut(list);
    for cut in 0..=list.len() {
        replay.list(&with_cuts(list, |place| if place == cut { number } else { 0 }), &uncut);
    }
}

/// One cut of the part's own calls at each place in turn, by 20 bytes and by 18.
fn one_cut_by_calls(replay: &mut Replay, list: &[Item]) {
    let uncut = replay.uncut(list);
    for cut in 0..=list.len() {
        let list = with_cuts(list, |place| usize::from(place == cut));
        replay.by_calls(&list, &uncut);
        replay.by_calls(&with_layouts(&list, || Layout::One), &uncut);
    }
}

/// A cut of the part's own calls at every place, by 20 bytes and by 18 in turn, and by 20 alone.
fn both_in_turn(replay: &mut Replay, list: &[Item]) {
    let uncut = replay.uncut(list);
    let list = with_cuts(list, |_| 1);
    let mut layouts = [Layout::Two, Layout::One].into_iter().cycle();
    replay.by_calls(&list, &uncut);
    replay.by_calls(&with_layouts(&list, || layouts.next().expect("no end")), &uncut);
}

/// A cut, and no call behind it: file and state are compared there.
fn cut_at_the_end(replay: &mut Replay, list: &[Item]) {
    for end in 0..=list.len() {
        let list = &list[..end];
        let uncut = replay.uncut(list);
        replay.list(&with_cuts(list, |place| usize::from(place == end)), &uncut);
    }
}

fn few_places(replay: &mut Replay, list: &[Item]) {
    let uncut = replay.uncut(list);
    let list = with_cuts(list, |place| usize::from(place % FAR == FAR / 2));
    replay.list(&list, &uncut);
    replay.by_calls(&list, &uncut);
    replay.by_calls(&with_layouts(&list, || Layout::One), &uncut);
}
