//! Links of the driver take turns. Each runs by itself. It writes a row for which all is ready, and waits for a line: at `time` it times
//! the row and writes the two times, at `next` it goes on to the next row.

use super::median;
use std::io::{stdin, BufRead, BufReader, Lines, Write};
use std::process::{exit, Child, ChildStdin, ChildStdout, Command, Stdio};

#[derive(Clone, PartialEq)]
pub struct Row {
    pub name: String,
    /// How many turns it takes.
    pub turns: u32,
}

/// Seconds for one piece of a row's work.
pub struct Times {
    pub original: f64,
    pub part: f64,
}

/// In a link: all is ready for the row.
pub fn ready(row: &Row) {
    println!("{} {}", row.turns, row.name);
}

/// In a link: waits to be told, and ends the program if nobody is left to tell it.
pub fn told_to_time() -> bool {
    let mut line = String::new();
    match stdin().read_line(&mut line) {
        Ok(1..) => line == "time\n",
        _ => exit(1),
    }
}

/// In a link: what it took.
pub fn tell(times: &Times) {
    println!("{:e} {:e}", times.original, times.part);
}

/// A link, seen from the program that makes the table.
pub struct Link {
    process: Child,
    input: ChildStdin,
    output: Lines<BufReader<ChildStdout>>,
    row: Option<Row>,
    /// What it took for the row, turn by turn.
    turns: Vec<Times>,
}

impl Link {
    pub fn start(program: &str, wanted: &str) -> Self {
        let mut command = Command::new(program);
        command.args(["rows", wanted]).stdin(Stdio::piped()).stdout(Stdio::piped());
        let mut process = command.spawn().unwrap_or_else(|error| failed(&format!("{program}: {error}")));
        let input = process.stdin.take().expect("a pipe");
        let output = BufReader::new(process.stdout.take().expect("a pipe")).lines();
        let mut link = Self { process, input, output, row: None, turns: Vec::new() };
        link.row = link.answer(row);
        link
    }

    fn answer<T>(&mut self, read: fn(&str) -> Option<T>) -> Option<T> {
        read(&self.output.next()?.ok()?)
    }

    /// The row that is ready; none at the end.
    pub fn row(&self) -> Option<&Row> {
        self.row.as_ref()
    }

    /// One more turn at the row, which has to be the one that is ready.
    pub fn time(&mut self, row: &Row) {
        if self.row() != Some(row) {
            failed(&format!("a link is not ready for the row {}", row.name));
        }
        match writeln!(self.input, "time").ok().and_then(|()| self.answer(times)) {
            Some(times) => self.turns.push(times),
            None => failed(&format!("a link does not time the row {}", row.name)),
        }
    }

    /// The medians over its turns.
    pub fn times(&self) -> Times {
        let median_of = |side: fn(&Times) -> f64| median(self.turns.iter().map(side).collect());
        Times { original: median_of(|times| times.original), part: median_of(|times| times.part) }
    }

    /// Goes on to the next row, and waits until that is ready: no link makes anything ready while another one times.
    pub fn go_on(&mut self) {
        self.turns.clear();
        self.row = writeln!(self.input, "next").ok().and_then(|()| self.answer(row));
    }

    /// A link that waits for another turn ends with status 1: nobody is left to tell it.
    pub fn end(self) {
        let Self { mut process, input, .. } = self;
        drop(input);
        if !process.wait().is_ok_and(|status| status.success()) {
            failed("a link does not come to its end");
        }
    }
}

fn row(line: &str) -> Option<Row> {
    let (turns, name) = line.split_once(' ')?;
    Some(Row { name: name.into(), turns: turns.parse().ok()? })
}

fn times(line: &str) -> Option<Times> {
    let (original, part) = line.split_once(' ')?;
    Some(Times { original: original.parse().ok()?, part: part.parse().ok()? })
}

fn failed(why: &str) -> ! {
    eprintln!("bench: {why}");
    exit(1)
}
