//! Prints what `carttrace`, or `cuttrace`, has to print for each file that an argument names, as the original answers. The calls
//! outside the domain get their refusal without it.

use compare::call::Call;
use compare::images;
use compare::items::{first_of, room, Item};
use compare::kind::{self, is_eeprom, Kind, MEMORY};
use compare::original::{self, Cartridge};
use compare::records::hex;

/// Bytes that `cuttrace` has for the answers of a trace.
const ANSWERS: usize = 0x4_0000;

fn main() {
    let mut words = std::env::args().skip(1);
    let run = match words.next().as_deref() {
        Some("carttrace") => carttrace,
        Some("cuttrace") => cuttrace,
        _ => fail("usage: cases carttrace | cuttrace FILE ..."),
    };
    for name in words {
        match std::fs::read(&name) {
            Ok(text) => print!("== {name}\n{}", trace(&text, run)),
            Err(error) => fail(&format!("cases: {name}: {error}")),
        }
    }
}

fn fail(message: &str) -> ! {
    eprintln!("{message}");
    std::process::exit(2)
}

fn trace(text: &[u8], run: fn(Kind, &[&[u8]]) -> String) -> String {
    let lines: Vec<&[u8]> =
        text.split_inclusive(|c| *c == b'\n').map(|line| line.strip_suffix(b"\n").unwrap_or(line)).collect();
    let Some((first, lines)) = lines.split_first() else { return String::new() };
    match kind_of(first) {
        Some(kind) => run(kind, lines),
        None => "FF\n".into(),
    }
}

/// Line 1; it has no Flash128.
fn kind_of(line: &[u8]) -> Option<Kind> {
    match line {
        b"00" => Some(kind::NONE),
        b"01" => Some(kind::SRAM),
        b"02" => Some(kind::FLASH64),
        b"04" => Some(kind::EEPROM512),
        b"05" => Some(kind::EEPROM8K),
        _ => None,
    }
}

fn open(kind: Kind) -> Cartridge {
    let cart = original::open(&images::of_kind(kind)).expect("an image of an allowed length");
    assert_eq!(original::kind(&cart), kind);
    cart
}

fn carttrace(kind: Kind, lines: &[&[u8]]) -> String {
    let cart = &mut open(kind);
    let answers: String = lines.iter().map(|line| line_answer(line, kind, cart)).collect();
    "00\n".to_string() + &answers
}

fn line_answer(line: &[u8], kind: Kind, cart: &mut Cartridge) -> String {
    match item_of(line) {
        Some(Item::Call(call)) => call_answer(&call, kind, cart),
        _ => "FF\n".into(),
    }
}

/// What both programs print for a call.
fn call_answer(call: &Call, kind: Kind, cart: &mut Cartridge) -> String {
    match call.refusal(kind, &original::chip_state(cart)) {
        Some(number) => format!("{number:02X}\n"),
        None => call.answer(cart) + "\n",
    }
}

/// The whole trace is refused, or run without its cuts.
fn cuttrace(kind: Kind, lines: &[&[u8]]) -> String {
    let items: Vec<Option<Item>> = lines.iter().map(|line| item_of(line)).collect();
    if is_eeprom(kind) && items.iter().flatten().any(Item::is_byte_write) {
        return "FE\n".into();
    }
    if room(items.iter().flatten(), MEMORY[usize::from(kind)]) > ANSWERS {
        return "0D\n".into();
    }
    let cart = &mut open(kind);
    let answers: String = items.iter().map(|item| item_answer(item.as_ref(), kind, cart)).collect();
    let file = original::save_data(cart).unwrap_or_default();
    format!("00\n{answers}00{}\n00{}\n", hex(&file), hex(&original::chip_state(cart)))
}

/// Loads and exports have lines of their own; a cut prints none.
fn item_answer(item: Option<&Item>, kind: Kind, cart: &mut Cartridge) -> String {
    match item {
        None => "FF\n".into(),
        Some(Item::Call(call)) => call_answer(call, kind, cart),
        Some(item) => match item.answer(cart) {
            None => String::new(),
            Some(answer) if answer.refusal == 0 => format!("00{}\n", hex(&answer.bytes)),
            Some(answer) => format!("{:02X}\n", answer.refusal),
        },
    }
}

/// The item that a line is, and nothing behind it.
fn item_of(line: &[u8]) -> Option<Item> {
    let bytes: Vec<u8> = line.chunks(2).map(byte_of).collect::<Option<_>>()?;
    first_of(&bytes).filter(|(_, length)| *length == bytes.len()).map(|(item, _)| item)
}

fn byte_of(digits: &[u8]) -> Option<u8> {
    let digit = |c: &u8| if c.is_ascii_lowercase() { None } else { char::from(*c).to_digit(16) };
    match digits {
        [high, low] => Some((digit(high)? << 4 | digit(low)?) as u8),
        _ => None,
    }
}
