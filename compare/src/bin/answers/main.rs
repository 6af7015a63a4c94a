//! Writes the list of the original's answers to standard output. One word: the seed of its random parts, in hexadecimal.

mod image_lines;
mod list;
mod stories;

use compare::random::Random;

const SEED: u64 = 1;

fn main() {
    match std::env::args().nth(1).as_deref() {
        None => write_list(SEED),
        Some(word) => match u64::from_str_radix(word, 16) {
            Ok(seed) => write_list(seed),
            Err(_) => {
                eprintln!("answers: no seed in hexadecimal: {word}");
                std::process::exit(2);
            }
        },
    }
}

fn write_list(seed: u64) {
    let random = &mut Random::new(seed);
    print!("{}{}", stories::lines(random), image_lines::lines(random));
}
