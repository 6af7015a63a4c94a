//! The part's calls on an image or a kind alone, and its version.

use crate::abi::{self, *};
use crate::part::answer;
use crate::side::Answer;
use compare::kind::Kind;

pub fn read(image: &[u8], address: u32) -> Answer {
    answer(|value| unsafe { gbasave_read(image.as_ptr(), image.len(), address, value) })
}

pub fn read16(image: &[u8], address: u32) -> Answer {
    answer(|value| unsafe { gbasave_read16(image.as_ptr(), image.len(), address, value) })
}

pub fn read32(image: &[u8], address: u32) -> Answer {
    answer(|value| unsafe { gbasave_read32(image.as_ptr(), image.len(), address, value) })
}

pub fn header_checksum(image: &[u8]) -> Answer {
    answer(|value| unsafe { gbasave_header_checksum(image.as_ptr(), image.len(), value) })
}

pub fn title(image: &[u8], destination: &mut [u8]) -> Answer {
    let (to, room) = (destination.as_mut_ptr(), destination.len());
    answer(|length| unsafe { gbasave_title(image.as_ptr(), image.len(), to, room, length) })
}

pub fn rom_crc(image: &[u8]) -> Answer {
    answer(|value| unsafe { gbasave_rom_crc(image.as_ptr(), image.len(), value) })
}

/// The CRC by pieces: start, feed each, finish.
pub fn crc_of_pieces<'a>(pieces: impl IntoIterator<Item = &'a [u8]>) -> Answer {
    answer(|crc| unsafe {
        let mut refusal = gbasave_crc_start(crc);
        for piece in pieces {
            refusal |= gbasave_crc_feed(crc, piece.as_ptr(), piece.len());
        }
        refusal | gbasave_crc_finish(crc)
    })
}

pub fn detect_save_type(image: &[u8]) -> Answer {
    answer(|kind| unsafe { gbasave_detect_save_type(image.as_ptr(), image.len(), kind) })
}

/// The kind, and how many bytes were handed to the matcher.
pub fn search(image: &[u8]) -> (Answer, Answer) {
    let mut kind = Answer::refusal(0);
    let handed = answer(|handed| {
        kind = answer(|kind| unsafe { gbasave_search(image.as_ptr(), image.len(), kind, handed) });
        kind.refusal
    });
    (kind, handed)
}

/// A search in pieces.
pub struct Matcher(pub abi::Matcher);

impl Matcher {
    /// The bytes before are none of a matcher.
    pub fn start() -> Self {
        let mut bytes = [0xEE; MATCHER_SIZE];
        let refusal = unsafe { gbasave_matcher_start(&mut bytes) };
        assert_eq!(refusal, 0, "a start asks nothing");
        Self(bytes)
    }

    pub fn feed(&mut self, piece: &[u8]) -> Answer {
        answer(|done| unsafe { gbasave_matcher_feed(&mut self.0, piece.as_ptr(), piece.len(), done) })
    }

    pub fn finish(&self, header: &[u8], image_length: usize) -> Answer {
        answer(|kind| unsafe { gbasave_matcher_finish(&self.0, header.as_ptr(), header.len(), image_length, kind) })
    }
}

pub fn save_fit(image: &[u8], length: usize) -> Answer {
    answer(|kept| unsafe { gbasave_save_fit(image.as_ptr(), image.len(), length, kept) })
}

pub fn save_size(image: &[u8]) -> Answer {
    answer(|size| unsafe { gbasave_save_size(image.as_ptr(), image.len(), size) })
}

pub fn memory_size(kind: Kind) -> Answer {
    answer(|size| unsafe { gbasave_memory_size(kind.into(), size) })
}

pub fn version() -> u32 {
    unsafe { gbasave_version() }
}
