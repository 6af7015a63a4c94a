//! The kind by one reading of the image: the whole search, and the matcher, which gets the image in pieces. The kind is the
//! original's. How many bytes are handed over and the matcher's bytes are found here by plain searches.

use super::{cut, held, same};
use crate::abi;
use crate::part_image as part;
use crate::run::{Fault, Run};
use crate::side::Answer;
use compare::images::{put, LARGEST, SMALLEST};
use compare::original as rust;
use compare::random::Random;
use compare::records::hex;

const SRAM: &[u8] = b"SRAM_V";
const MARKERS: [&[u8]; 5] = [SRAM, b"FLASH_V", b"FLASH512_V", b"FLASH1M_V", b"EEPROM_V"];
const CODES: [&[u8]; 6] = [b"GBXP", b"GBXJ", b"GBXE", b"GB4P", b"GB4J", b"GB4E"];
const CODE: std::ops::Range<usize> = 0xAC..0xB0;
const TITLE: usize = 0xA0;
const RUBY: &[u8] = b"POKEMON RUBY";

/// Texts that hold a marker after its own beginning or another's, several markers, or nearly one.
const TRAPS: [&[u8]; 20] = [
    b"FLASRAM_V",
    b"FLASHSRAM_V",
    b"EEPROSRAM_V",
    b"SSRAM_V",
    b"SRAM_SRAM_V",
    b"SRAMSRAM_V",
    b"SRAM__V",
    b"SRAM_VV",
    b"SRAM_W",
    b"FLASH1FLASH_V",
    b"FLASH512FLASH_V",
    b"FLASHFLASH_V",
    b"FLASH51FLASH512_V",
    b"FLASH512_FLASH512_V",
    b"FLASH1FLASH1M_V",
    b"FLASH1M_FLASH1M_V",
    b"EEEPROM_V",
    b"EEPROM_EEPROM_V",
    b"EEPROM_VFLASH1M_VFLASH512_VFLASH_V",
    b"_V_V_V_V",
];

/// The part passes over 32 bytes in which there is no `_V`, and else steps over one: lengths and places with every remainder.
const LENGTHS: std::ops::RangeInclusive<usize> = SMALLEST..=SMALLEST + 66;
const FIRST_PLACES: usize = 70;
const FILLERS: [u8; 5] = [0, b'_', b'V', b'S', 0xFF];
const LONGER: usize = 1_100;
/// The markers' letters.
const LETTERS: &[u8] = b"SRAM_VFLH512EPO";
const LETTER_IMAGES: u32 = 8_000;
const LONGEST_OF_LETTERS: usize = 2_000;
/// Longer images are not fed byte by byte.
const LONGEST_BY_BYTES: usize = 4_200;

pub fn compare(run: &mut Run, random: &mut Random) {
    let before = (run.calls, run.seconds());
    traps(run, random);
    places(run, random);
    orders(run, random);
    headers(run, random);
    letters(run, random);
    run.clear_line();
    println!("beside: searches, {} calls, {:.1} s", run.calls - before.0, run.seconds() - before.1);
}

/// Texts at the front, at the end and one byte short there, and cut in two at every place.
fn traps(run: &mut Run, random: &mut Random) {
    for text in TRAPS.into_iter().chain(MARKERS) {
        run.at(format!("searches for {}", String::from_utf8_lossy(text)));
        for length in LENGTHS {
            let end = length - text.len();
            let short = text.len() - 1;
            for (place, text) in [(0, text), (0, &text[1..]), (end, text), (end + 1, &text[..short]), (end, &text[..short])] {
                search(run, random, &image(length, 0, place, text));
            }
        }
        for place in 0..=FIRST_PLACES {
            let image = image(SMALLEST, random.pick(&FILLERS), place, text);
            search(run, random, &image);
            in_two(run, &image, place..=place + text.len());
        }
    }
}

/// A marker at every place, also cut off by the image's end.
fn places(run: &mut Run, random: &mut Random) {
    for length in LENGTHS.chain([LONGER]) {
        run.at(format!("searches of {length} bytes"));
        for marker in MARKERS {
            for place in 0..length {
                let image = image(length, random.pick(&FILLERS), place, marker);
                search(run, random, &image);
            }
        }
    }
}

/// Some or all of the markers, in every order.
fn orders(run: &mut Run, random: &mut Random) {
    run.at("searches for several markers".into());
    let mut orders: Vec<Vec<&[u8]>> = vec![Vec::new()];
    while let Some(order) = orders.pop() {
        for longest_gap in [0, 3, 40] {
            let mut image = vec![0; SMALLEST + random.below(200) as usize];
            let mut place = random.below(longest_gap + 1) as usize;
            for marker in &order {
                put(&mut image, place, marker);
                place += marker.len() + random.below(longest_gap + 1) as usize;
            }
            search(run, random, &image);
        }
        let others = MARKERS.into_iter().filter(|marker| !order.contains(marker));
        orders.extend(others.map(|marker| order.iter().copied().chain([marker]).collect()));
    }
}

/// Game codes and the title, with every marker before and after them. The last two codes are none that decide.
fn headers(run: &mut Run, random: &mut Random) {
    run.at("searches with game codes".into());
    for code in CODES.into_iter().chain([&b"GBXX"[..], b"AXVE"]) {
        for marker in MARKERS.into_iter().chain([&b""[..]]) {
            for title in [RUBY, b"POKEMON RUBX", b""] {
                for place in [0, TITLE - marker.len(), CODE.end, 200, 300 - marker.len()] {
                    let mut image = image(300, 0, place, marker);
                    put(&mut image, TITLE, title);
                    put(&mut image, CODE.start, code);
                    search(run, random, &image);
                }
            }
        }
    }
}

/// Random images of the markers' letters, with whole and damaged markers in them.
fn letters(run: &mut Run, random: &mut Random) {
    run.at("searches of letters".into());
    for _ in 0..LETTER_IMAGES {
        let length = SMALLEST + random.below((LONGEST_OF_LETTERS - SMALLEST + 1) as u64) as usize;
        let mut image: Vec<u8> = (0..length).map(|_| random.pick(LETTERS)).collect();
        // The markers that decide first are left out of some images: they would hide the others.
        let markers = &MARKERS[random.below(5) as usize..];
        for _ in 0..random.below(8) {
            let mut text = random.pick(markers).to_vec();
            if random.one_in(2) {
                let place = random.below(text.len() as u64) as usize;
                text[place] = random.pick(LETTERS);
            }
            put(&mut image, random.below(length as u64) as usize, &text);
        }
        if random.one_in(16) {
            put(&mut image, CODE.start, random.pick(&CODES));
        }
        search(run, random, &image);
    }
}

fn image(length: usize, filler: u8, place: usize, text: &[u8]) -> Vec<u8> {
    let mut image = vec![filler; length];
    put(&mut image, place, text);
    image
}

/// What is expected of an image.
struct Expected<'a> {
    image: &'a [u8],
    kind: u32,
    /// The place just after the first SRAM_V.
    sram_end: Option<usize>,
    matcher: abi::Matcher,
}

impl<'a> Expected<'a> {
    fn of(image: &'a [u8]) -> Self {
        let kind = rust::detect_save_type(image).into();
        Self { image, kind, sram_end: sram_end(image), matcher: matcher_after(image) }
    }

    /// "0 where the game code decides, else the place just behind the first SRAM_V where there is one, and otherwise the image
    /// length"
    fn handed(&self, fault: Fault) -> usize {
        match self.sram_end {
            _ if CODES.contains(&&self.image[CODE]) => 0,
            Some(end) if fault != Fault::Handed => end,
            _ => self.image.len(),
        }
    }
}

fn sram_end(bytes: &[u8]) -> Option<usize> {
    bytes.windows(SRAM.len()).position(|window| window == SRAM).map(|place| place + SRAM.len())
}

/// A matcher that was fed these bytes: what it has seen, up to the first SRAM_V, and the last nine, newest first.
fn matcher_after(bytes: &[u8]) -> abi::Matcher {
    let fed = &bytes[..sram_end(bytes).unwrap_or(bytes.len())];
    let [sram, flash, flash512, flash1m, eeprom] =
        MARKERS.map(|marker| u8::from(fed.windows(marker.len()).any(|window| window == marker)));
    let mut matcher = [0; abi::MATCHER_SIZE];
    let (seen, last) = matcher.split_at_mut(4);
    seen.copy_from_slice(&[sram, flash | flash512, flash1m, eeprom]);
    last.iter_mut().zip(fed.iter().rev()).for_each(|(place, byte)| *place = *byte);
    matcher
}

/// The whole image, and the matcher with the image in one piece, in pieces and byte by byte.
pub fn search(run: &mut Run, random: &mut Random, image: &[u8]) {
    let expected = &Expected::of(image);
    same(run, "detect_save_type", expected.kind, part::detect_save_type(image));
    let (kind, handed) = part::search(image);
    same(run, "search, the kind", expected.kind, kind);
    same(run, "search, the bytes handed over", expected.handed(run.fault) as u32, handed);
    feed(run, expected, [image]);
    let longest = random.pick(&[8, 40, 100, 600, image.len()]);
    feed(run, expected, cut(random, image, longest));
    if image.len() <= LONGEST_BY_BYTES {
        feed(run, expected, image.chunks(1));
    }
}

/// The image in two pieces, cut at each of these places. Between the two, the matcher is as after the first one alone.
fn in_two(run: &mut Run, image: &[u8], places: std::ops::RangeInclusive<usize>) {
    let expected = &Expected::of(image);
    for place in places.filter(|place| *place <= image.len()) {
        let (first, second) = image.split_at(place);
        let mut matcher = part::Matcher::start();
        run.calls += 1;
        matcher.feed(first);
        compare_bytes(run, "after the first of two pieces", matcher_after(first), &matcher);
        feed(run, expected, [first, second]);
    }
}

/// Feeds the pieces. After each, whether SRAM_V is in the bytes so far is compared, and at the end the matcher and the kind.
fn feed<'a>(run: &mut Run, expected: &Expected, pieces: impl IntoIterator<Item = &'a [u8]>) {
    let mut matcher = part::Matcher::start();
    let mut fed = 0;
    for piece in pieces {
        if run.fault == Fault::Pieces {
            matcher.0[4..].fill(0);
        }
        fed += piece.len();
        let done = expected.sram_end.is_some_and(|end| end <= fed);
        same(run, "matcher_feed, done", done.into(), matcher.feed(piece));
    }
    let (header, length) = (&expected.image[..SMALLEST], expected.image.len());
    same(run, "matcher_finish", expected.kind, matcher.finish(header, length));
    same(run, "matcher_finish, a longer header", expected.kind, matcher.finish(expected.image, length));
    compare_bytes(run, "at the end", expected.matcher, &matcher);
}

fn compare_bytes(run: &Run, when: &str, expected: abi::Matcher, matcher: &part::Matcher) {
    if expected != matcher.0 {
        run.differ(&format!("the matcher {when}: expected is {}; the part's is {}", hex(&expected), hex(&matcher.0)));
    }
}

/// An image that is too short or too long: question 1.
pub fn refused(run: &mut Run, image: &[u8]) {
    let (kind, handed) = part::search(image);
    held(run, "search", Answer::refusal(1), kind);
    held(run, "search", Answer::refusal(1), handed);
    held(run, "detect_save_type", Answer::refusal(1), part::detect_save_type(image));
    let mut matcher = part::Matcher::start();
    same(run, "matcher_feed, done", sram_end(image).is_some().into(), matcher.feed(image));
    held(run, "matcher_finish", Answer::refusal(1), matcher.finish(image, image.len()));
    held(run, "matcher_finish, the longest header", Answer::refusal(1), matcher.finish(&[0; SMALLEST - 1], LARGEST));
}
