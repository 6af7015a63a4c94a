//! The CRC of whole images, and of bytes that come in pieces. The part goes through 32,768 bytes at a time, in eight lanes of 4,096.

use super::{cut, held, same};
use crate::part_image as part;
use crate::run::Run;
use crate::side::Answer;
use compare::images::{LARGEST, SMALLEST};
use compare::original as rust;
use compare::random::Random;

/// Every length up to this one.
const SHORT: usize = 200;
const LANE: usize = 4_096;
/// Five blocks, and every lane's end in them.
const LANES: usize = 40;
const IMAGES: u32 = 24;

pub fn compare(run: &mut Run, random: &mut Random) {
    let bytes = random_bytes(random, LARGEST + 8);
    run.at("the check value of the CRC".into());
    same(run, "crc_feed", 0xCBF4_3926, part::crc_of_pieces([&b"123456789"[..]]));
    for length in 0..=SHORT {
        at_each_offset(run, random, &bytes, length, 16);
    }
    for end in (1..=LANES).map(|lane| lane * LANE) {
        for length in [end - 1, end, end + 1, end + 4] {
            at_each_offset(run, random, &bytes, length, 3 * LANE);
        }
    }
    for _ in 0..IMAGES {
        let length = SMALLEST + random.below((LARGEST - SMALLEST + 1) as u64) as usize;
        let offset = random.below(8) as usize;
        let longest = random.pick(&[512, LANE, 8 * LANE, 40_000, 1 << 20]);
        crc(run, random, &bytes[offset..offset + length], longest);
    }
}

fn random_bytes(random: &mut Random, length: usize) -> Vec<u8> {
    let mut bytes = vec![0; length];
    for place in bytes.chunks_mut(8) {
        place.copy_from_slice(&random.number().to_le_bytes()[..place.len()]);
    }
    bytes
}

fn at_each_offset(run: &mut Run, random: &mut Random, bytes: &[u8], length: usize, longest: usize) {
    for offset in 0..8 {
        crc(run, random, &bytes[offset..offset + length], longest);
    }
}

/// The whole, the whole as one piece, and cut into pieces. Question 1 is asked of the whole alone.
fn crc(run: &mut Run, random: &mut Random, bytes: &[u8], longest: usize) {
    run.at(format!("the CRC of {} bytes", bytes.len()));
    let expected = rust::crc32(bytes);
    let whole = if bytes.len() < SMALLEST { Answer::refusal(1) } else { Answer::value(expected) };
    held(run, "rom_crc", whole, part::rom_crc(bytes));
    same(run, "crc_feed, one piece", expected, part::crc_of_pieces([bytes]));
    same(run, "crc_feed", expected, part::crc_of_pieces(cut(random, bytes, longest)));
}
