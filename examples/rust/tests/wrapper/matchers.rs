use crate::{game, images, large_image};
use gbasave::*;

/// Feeds pieces of so many bytes, with an empty one before each. Returns the matcher, and how many bytes were fed when it first
/// needed no more.
fn fed(image: &[u8], length: usize) -> (Matcher, Option<usize>) {
    let (mut matcher, mut at, mut end) = (Matcher::new(), 0, None);
    for piece in image.chunks(length) {
        assert_eq!(matcher.feed(&[]), end.is_some());
        let done = matcher.feed(piece);
        at += piece.len();
        end = end.or(done.then_some(at));
        assert_eq!(done, end.is_some(), "once done, it stays so");
    }
    (matcher, end)
}

/// The kind of the whole image is that of its pieces. The pieces end the search in the one that the whole search ends in.
fn compare(image: &[u8], kind: Kind, handed: usize) {
    assert_eq!(search(image), Ok(Found { kind, handed }));
    assert_eq!(detect_save_type(image), Ok(kind));
    let whole = fed(image, image.len()).0;
    for length in [1, 5, 31, 32, 33, 512] {
        let (matcher, end) = fed(image, length);
        assert_eq!(matcher, whole);
        assert_eq!(matcher.finish(&image[..192], image.len()), Ok(kind));
        assert_eq!(matcher.finish(image, image.len()), Ok(kind));
        if let (Kind::Sram, 1.., Some(end)) = (kind, handed, end) {
            assert_eq!(end, handed.next_multiple_of(length).min(image.len()));
        }
    }
}

#[test]
fn kinds_in_pieces() {
    for (kind, image) in images() {
        compare(&image, kind, image.len());
    }
    for text in ["FLASRAM_V", "SRAM_SRAM_V", "FLASH_VSRAM_V"] {
        let image = game::image("TEST", text);
        compare(&image, Kind::Sram, image.len());
    }
    for (text, kind) in [("EEEPROM_V", Kind::Eeprom512), ("FLASH1FLASH_V", Kind::Flash64), ("SRAM_", Kind::None)] {
        compare(&game::image("TEST", text), kind, 1024);
    }
}

#[test]
fn markers_at_every_place() {
    for (marker, kind) in [("SRAM_V", Kind::Sram), ("FLASH512_V", Kind::Flash64), ("FLASH1M_V", Kind::Flash128)] {
        for place in 192..=300 - marker.len() {
            let mut image = vec![0; 300];
            image[place..][..marker.len()].copy_from_slice(marker.as_bytes());
            compare(&image, kind, if kind == Kind::Sram { place + marker.len() } else { 300 });
        }
    }
}

#[test]
fn headers_decide() {
    let mut image = game::image("POKEMON RUBY", "");
    compare(&image, Kind::Flash128, 1024);
    image[1000..1006].copy_from_slice(b"SRAM_V");
    compare(&image, Kind::Sram, 1006);
    for (code, kind) in [(b"GBXP", Kind::Sram), (b"GB4E", Kind::Flash128)] {
        image[0xAC..0xB0].copy_from_slice(code);
        compare(&image, kind, 0);
    }
}

#[test]
fn large_images_in_pieces() {
    let image = large_image();
    assert_eq!(search(&image), Ok(Found { kind: Kind::Eeprom8k, handed: image.len() }));
    let matcher = fed(&image, 32_768).0;
    for (length, kind) in [(0x100_0000, Kind::Eeprom512), (0x100_0001, Kind::Eeprom8k), (0x200_0000, Kind::Eeprom8k)] {
        assert_eq!(matcher.finish(&image[..192], length), Ok(kind));
    }
}

#[test]
fn matchers_are_stored() {
    let mut image = vec![0; 1024];
    image[507..513].copy_from_slice(b"SRAM_V");
    let mut matcher = Matcher::default();
    assert!(!matcher.feed(&image[..512]));
    let stored = matcher.to_bytes();
    assert_eq!(&stored, b"\0\0\0\0_MARS\0\0\0\0");
    let mut again = Matcher::from_bytes(stored).unwrap();
    assert!(again.feed(&image[512..]));
    assert_eq!(again.to_bytes(), *b"\x01\0\0\0V_MARS\0\0\0");
    assert!(again.feed(b"and more changes nothing"));
    assert_eq!(again.to_bytes(), *b"\x01\0\0\0V_MARS\0\0\0");
}

#[test]
fn foreign_bytes_are_refused() {
    for place in 0..13 {
        for byte in [0, 1, 2, 0xFF] {
            let mut bytes = [0; 13];
            bytes[place] = byte;
            let expected = if place < 4 && byte > 1 { Err(Refusal::Record) } else { Ok(bytes) };
            assert_eq!(Matcher::from_bytes(bytes).map(|matcher| matcher.to_bytes()), expected);
        }
    }
}

#[test]
fn short_headers_and_lengths() {
    let matcher = Matcher::new();
    let header = [0; 193];
    for (header, length) in
        [(&header[..0], 192), (&header[..191], 192), (&header[..192], 191), (&header, 0x200_0001), (&header, usize::MAX)]
    {
        assert_eq!(matcher.finish(header, length), Err(Refusal::ImageLength));
    }
    assert_eq!(matcher.finish(&header[..192], 192), Ok(Kind::None));
    assert_eq!(matcher.finish(&header, 0x200_0000), Ok(Kind::None));
}
