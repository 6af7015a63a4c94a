//! Runs the original and the part beside each other and compares them.

mod abi;
mod bench;
mod cuts;
mod exhaustive;
mod images;
mod original;
mod pair;
mod part;
mod part_image;
mod random_lists;
mod run;
mod side;
mod watched;

use compare::images::of_kind;
use compare::kind;
use pair::Pair;
use run::{Fault, Run};

const USAGE: &str = "usage: beside [--seed HEX] [--fault rust | part | replay | count | pieces | handed | tallies | stretches | flag | lost | old]
       beside bench WORDS LINK... [--before LINK...]
       beside rows WORDS";

/// The C main function: it is not cargo but `compare/link` that makes a program of the driver.
#[no_mangle]
extern "C" fn main() -> i32 {
    let words: Vec<String> = std::env::args().skip(1).collect();
    let words: Vec<&str> = words.iter().map(String::as_str).collect();
    match words[..] {
        ["bench", wanted, ref links @ ..] => bench::table::print(wanted, links),
        ["rows", wanted] => bench::rows(wanted),
        _ => beside(arguments(&words)),
    }
    0
}

fn beside(mut run: Run) {
    println!("beside: seed {:X}", run.seed);
    if !run.fault.is_of_searches() {
        for kind in kind::ALL {
            if !run.fault.is_of_cuts() {
                cartridges(&mut run, kind);
            }
            cuts::compare(&mut run, kind);
        }
    }
    images::compare(&mut run);
    run.clear_line();
    println!("beside: no difference in {} calls with {} cuts, {:.0} s", run.calls, run.cuts, run.seconds());
}

fn arguments(words: &[&str]) -> Run {
    let (mut seed, mut fault) = (1, Fault::None);
    for pair in words.chunks(2) {
        match pair {
            ["--seed", digits] => seed = u64::from_str_radix(digits, 16).unwrap_or_else(|_| usage()),
            ["--fault", "rust"] => fault = Fault::Rust,
            ["--fault", "part"] => fault = Fault::Part,
            ["--fault", "replay"] => fault = Fault::Replay,
            ["--fault", "count"] => fault = Fault::Count,
            ["--fault", "pieces"] => fault = Fault::Pieces,
            ["--fault", "handed"] => fault = Fault::Handed,
            ["--fault", "tallies"] => fault = Fault::Tallies,
            ["--fault", "stretches"] => fault = Fault::Stretches,
            ["--fault", "flag"] => fault = Fault::Flag,
            ["--fault", "lost"] => fault = Fault::LostFlag,
            ["--fault", "old"] => fault = Fault::Old,
            _ => usage(),
        }
    }
    Run::new(seed, fault)
}

fn usage() -> ! {
    eprintln!("{USAGE}");
    std::process::exit(2)
}

fn cartridges(run: &mut Run, kind: kind::Kind) {
    let name = kind::NAMES[usize::from(kind)];
    let before = (run.calls, run.seconds());
    run.at(format!("{name}, opening"));
    let pair = &mut Pair::open(&of_kind(kind), run);
    on_a_small_stack(|| exhaustive::files::compare(pair));
    exhaustive::stretches::compare(pair);
    exhaustive::records::compare(pair);
    if kind::is_flash(kind) {
        exhaustive::flash::compare(pair);
    }
    if kind::is_eeprom(kind) {
        exhaustive::serial::compare(pair);
    }
    random_lists::compare(pair);
    run.clear_line();
    println!("beside: {name}, {} calls, {:.1} s", run.calls - before.0, run.seconds() - before.1);
}

/// The header says that a call takes a few KiB of stack. The calls on files are those that could take more: they copy by way of an array, which the compiler
/// is to leave out.
fn on_a_small_stack(calls: impl FnOnce() + Send) {
    std::thread::scope(|scope| {
        let thread = std::thread::Builder::new().stack_size(32 << 10).spawn_scoped(scope, calls);
        thread.expect("a thread").join().expect("calls that end")
    });
}
