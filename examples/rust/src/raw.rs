//! The calls of the archive. Each but `gbasave_version` returns 0 or the number of a refusal. A buffer is a pointer and a length.
//!
//! `gbasave.h` says what the caller has to ensure: no pointer is NULL, except of an empty buffer; buffers are as long as their
//! lengths say; no two objects overlap; and nothing else writes to them during the call. Rust's borrows ensure all of this.

use std::ops::Range;

pub const RECORD_SIZE: usize = 25;
pub const MATCHER_SIZE: usize = 13;
/// The size of a chip's state in bytes: the chip record, the changed flag, and the layout number 2.
pub const STATE_SIZE: usize = 20;
/// The size of the chip record in bytes, with which a state begins. The states of versions before 0.7.0 are the chip record alone.
pub const CHIP_SIZE: usize = 18;
pub const TITLE_SIZE: usize = 36;
/// The size of a stretch of the save memory in bytes.
pub const STRETCH_SIZE: usize = 4096;
/// What `gbasave_first_in_use` writes if no stretch is in use.
pub const NONE_IN_USE: u32 = u32::MAX;

/// The length of the image in the record, low byte first.
pub const RECORD_IMAGE_LENGTH: Range<usize> = 0..4;
/// The offset of the kind in the record.
pub const RECORD_KIND: usize = 4;
/// The offset of the changed flag in the record.
pub const RECORD_FLAG: usize = 5;
/// The offset of the part in the record.
pub const RECORD_PART: usize = 24;
/// The offset of the changed flag in a state.
pub const STATE_FLAG: usize = 18;
/// The offset of the layout number in a state.
pub const STATE_LAYOUT: usize = 19;

pub type Record = [u8; RECORD_SIZE];
pub type Matcher = [u8; MATCHER_SIZE];

#[link(name = "gbasave", kind = "static")]
extern "C" {
    pub fn gbasave_version() -> u32;
    pub fn gbasave_detect_save_type(image: *const u8, image_length: usize, kind: &mut u32) -> u32;
    pub fn gbasave_search(image: *const u8, image_length: usize, kind: &mut u32, handed: &mut u32) -> u32;
    pub fn gbasave_save_size(image: *const u8, image_length: usize, size: &mut u32) -> u32;
    pub fn gbasave_save_fit(image: *const u8, image_length: usize, file_length: usize, kept: &mut u32) -> u32;
    pub fn gbasave_memory_size(kind: u32, size: &mut u32) -> u32;
    pub fn gbasave_read(image: *const u8, image_length: usize, address: u32, value: &mut u32) -> u32;
    pub fn gbasave_read16(image: *const u8, image_length: usize, address: u32, value: &mut u32) -> u32;
    pub fn gbasave_read32(image: *const u8, image_length: usize, address: u32, value: &mut u32) -> u32;
    pub fn gbasave_header_checksum(image: *const u8, image_length: usize, value: &mut u32) -> u32;
    pub fn gbasave_title(
        image: *const u8,
        image_length: usize,
        destination: *mut u8,
        destination_length: usize,
        length: &mut u32,
    ) -> u32;
    pub fn gbasave_rom_crc(image: *const u8, image_length: usize, value: &mut u32) -> u32;
    pub fn gbasave_crc_start(crc: &mut u32) -> u32;
    pub fn gbasave_crc_feed(crc: &mut u32, piece: *const u8, piece_length: usize) -> u32;
    pub fn gbasave_crc_finish(crc: &mut u32) -> u32;
    pub fn gbasave_matcher_start(matcher: &mut Matcher) -> u32;
    pub fn gbasave_matcher_feed(matcher: &mut Matcher, piece: *const u8, piece_length: usize, done: &mut u32) -> u32;
    pub fn gbasave_matcher_finish(
        matcher: &Matcher,
        header: *const u8,
        header_length: usize,
        image_length: usize,
        kind: &mut u32,
    ) -> u32;
    pub fn gbasave_id_word(part: u32, kind: u32, word: &mut u32) -> u32;
    pub fn gbasave_from_bytes(
        record: &mut Record,
        image: *const u8,
        image_length: usize,
        part: u32,
        memory: *mut u8,
        memory_length: usize,
        tallies: *mut u16,
        tally_count: usize,
    ) -> u32;
    pub fn gbasave_save_read(record: &Record, memory: *const u8, memory_length: usize, address: u32, value: &mut u32) -> u32;
    pub fn gbasave_save_write(
        record: &mut Record,
        memory: *mut u8,
        memory_length: usize,
        tallies: *mut u16,
        tally_count: usize,
        address: u32,
        value: u8,
        changed: &mut u32,
    ) -> u32;
    pub fn gbasave_uses_eeprom(record: &Record, answer: &mut u32) -> u32;
    pub fn gbasave_eeprom_window_start(record: &Record, start: &mut u32) -> u32;
    pub fn gbasave_eeprom_begin_dma(record: &mut Record, words: u32) -> u32;
    pub fn gbasave_eeprom_write(
        record: &mut Record,
        memory: *mut u8,
        memory_length: usize,
        tallies: *mut u16,
        tally_count: usize,
        value: u16,
        changed: &mut u32,
    ) -> u32;
    pub fn gbasave_eeprom_read(record: &mut Record, memory: *const u8, memory_length: usize, bit: &mut u32) -> u32;
    pub fn gbasave_save_data(
        record: &Record,
        memory: *const u8,
        memory_length: usize,
        destination: *mut u8,
        destination_length: usize,
        length: &mut u32,
    ) -> u32;
    pub fn gbasave_import_save(
        record: &mut Record,
        memory: *mut u8,
        memory_length: usize,
        tallies: *mut u16,
        tally_count: usize,
        file: *const u8,
        file_length: usize,
        kept: &mut u32,
        changed: &mut u32,
    ) -> u32;
    pub fn gbasave_load_save(
        record: &mut Record,
        memory: *mut u8,
        memory_length: usize,
        tallies: *mut u16,
        tally_count: usize,
        file: *const u8,
        file_length: usize,
        changed: &mut u32,
    ) -> u32;
    pub fn gbasave_take_save_dirty(record: &mut Record, flag: &mut u32) -> u32;
    pub fn gbasave_is_blank(record: &Record, tallies: *const u16, tally_count: usize, blank: &mut u32) -> u32;
    pub fn gbasave_first_in_use(record: &Record, tallies: *const u16, tally_count: usize, stretch: &mut u32) -> u32;
    pub fn gbasave_chip_state(record: &Record, state: &mut [u8; STATE_SIZE]) -> u32;
    pub fn gbasave_restore_chip_state(record: &mut Record, state: *const u8, state_length: usize) -> u32;
}

#[cfg(test)]
mod tests {
    use super::*;

    const HEADER: &str = include_str!(env!("GBASAVE_HEADER"));

    #[test]
    fn sizes_are_the_headers() {
        for (name, size) in [
            ("RECORD_SIZE", RECORD_SIZE.to_string()),
            ("MATCHER_SIZE", MATCHER_SIZE.to_string()),
            ("STATE_SIZE", STATE_SIZE.to_string()),
            ("CHIP_SIZE", CHIP_SIZE.to_string()),
            ("STATE_FLAG", STATE_FLAG.to_string()),
            ("STATE_LAYOUT", STATE_LAYOUT.to_string()),
            ("TITLE_SIZE", TITLE_SIZE.to_string()),
            ("STRETCH_SIZE", STRETCH_SIZE.to_string()),
            ("NONE_IN_USE", format!("{NONE_IN_USE:#X}")),
        ] {
            let defined = format!("#define GBASAVE_{name} {size}");
            assert!(HEADER.lines().any(|line| line.split(" /*").next().unwrap().trim() == defined), "{defined}");
        }
    }
}
