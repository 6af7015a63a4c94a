//! The table over all links of the driver, which take turns at each row.

use super::link::{Link, Row, Times};
use super::median;
use std::io::{stderr, IsTerminal};

/// Programs are the links with the part's archive and, after the word --before, those with an earlier one.
pub fn print(wanted: &str, programs: &[&str]) {
    let start = |programs: &[&str]| programs.iter().map(|program| Link::start(program, wanted)).collect();
    let mut archives = programs.split(|word| *word == "--before").map(start);
    let mut parts: Vec<Link> = archives.next().unwrap_or_default();
    let mut befores: Vec<Link> = archives.next().unwrap_or_default();
    print_head(!befores.is_empty());
    while let Some(row) = parts.first().and_then(Link::row).cloned() {
        print_row(&row, &mut parts, &mut befores);
        parts.iter_mut().chain(&mut befores).for_each(Link::go_on);
    }
    parts.into_iter().chain(befores).for_each(Link::end);
}

fn print_head(before: bool) {
    let (names, bars) = if before { (" before | part/before |", "---:|---:|") } else { ("", "") };
    println!("| what | the original | the part | ratio | least | largest |{names}");
    println!("|---|---:|---:|---:|---:|---:|{bars}");
}

fn print_row(row: &Row, parts: &mut [Link], befores: &mut [Link]) {
    for turn in 1..=row.turns {
        progress(&format!("{}, turn {turn} of {}", row.name, row.turns));
        for (link, part) in parts.iter_mut().enumerate() {
            part.time(row);
            if let Some(before) = befores.get_mut(link) {
                before.time(row);
            }
        }
    }
    progress("");
    let part: Vec<Times> = parts.iter().map(Link::times).collect();
    println!("| {} |{}{}", row.name, cells(&part), before_cells(&part, befores));
}

/// The medians over the links and their ratio, and the least and the largest ratio of one link.
fn cells(times: &[Times]) -> String {
    let (original, part) = (median(times.iter().map(|times| times.original).collect()), median_part(times));
    let ratios = || times.iter().map(|times| times.part / times.original);
    let (least, largest) = (ratios().fold(f64::INFINITY, f64::min), ratios().fold(0.0, f64::max));
    format!(" {} | {} | {:.2} | {least:.2} | {largest:.2} |", length(original), length(part), part / original)
}

/// The earlier part's median, and the part's ratio to it.
fn before_cells(part: &[Times], befores: &[Link]) -> String {
    if befores.is_empty() {
        return String::new();
    }
    let before: Vec<Times> = befores.iter().map(Link::times).collect();
    let (part, before) = (median_part(part), median_part(&before));
    format!(" {} | {:.2} |", length(before), part / before)
}

fn median_part(times: &[Times]) -> f64 {
    median(times.iter().map(|times| times.part).collect())
}

fn length(seconds: f64) -> String {
    match seconds {
        s if s < 1e-6 => format!("{:.2} ns", s * 1e9),
        s if s < 1e-3 => format!("{:.2} µs", s * 1e6),
        s => format!("{:.2} ms", s * 1e3),
    }
}

/// Shown on a terminal only; an empty text clears the line.
fn progress(text: &str) {
    if stderr().is_terminal() {
        eprint!("\r{text:79}\r");
    }
}
