//! The lines about images and kinds, each of which stands alone.

use compare::files::LENGTHS;
use compare::images::{self, image, SMALLEST};
use compare::kind;
use compare::original;
use compare::random::Random;
use compare::records::hex;
use compare::texts::TEXTS;

pub fn lines(random: &mut Random) -> String {
    let mut lines = String::new();
    for kind in kind::ALL {
        let image = images::of_kind(kind);
        for length in LENGTHS {
            let answer = match original::save_fit(&image, length as usize) {
                Some(kept) => format!("00{kept:08X}"),
                None => "0E".into(),
            };
            lines += &format!("0C{kind:02X}{length:08X} {answer}\n");
        }
        lines += &format!("0D{kind:02X} 00{:08X}\n", original::save_size(&image));
    }
    for length in [0, 1, 0xAC, 0xBD, 0xBF] {
        lines += &image_line(length, 0x11, 0, b"");
    }
    for text in TEXTS {
        // In the header, first and last in the image, and with its last byte cut off.
        lines += &image_line(SMALLEST, 0, 0xA0, text);
        lines += &image_line(SMALLEST, random.byte(), 0xAC, text);
        let length = 193 + random.below(3900) as usize;
        lines += &image_line(length, random.byte(), 0, text);
        lines += &image_line(length, random.byte(), length - text.len(), text);
        lines += &image_line(length, 0, (length + 1 - text.len()).min(length), text);
    }
    lines
}

fn image_line(length: usize, seed: u8, offset: usize, text: &[u8]) -> String {
    let image = image(length, seed, offset, text);
    format!("10{length:08X}{seed:02X}{offset:08X}{} {}\n", hex(text), answer(&image))
}

fn answer(image: &[u8]) -> String {
    let cart = match original::open(image) {
        Ok(cart) => cart,
        Err(refusal) => return format!("{refusal:02X}"),
    };
    let title = cart.title();
    assert_eq!(title, original::title(image));
    assert_eq!(original::kind(&cart), original::detect_save_type(image));
    format!(
        "00{:02X}{:02X}{:08X}{:08X}{:08X}{:02X}{}",
        original::kind(&cart),
        original::header_checksum(image),
        original::rom_crc(&cart),
        original::save_size(image),
        original::eeprom_window_start(&cart),
        title.len(),
        hex(title.as_bytes()),
    )
}
