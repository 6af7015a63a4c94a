//! The part's calls as the archives have them; `compare/link` links those. Each answers 0 or a refusal number; a slice is a
//! pointer and a length.

use compare::records::State;

pub const RECORD_SIZE: usize = 25;
pub type Record = [u8; RECORD_SIZE];

pub const MATCHER_SIZE: usize = 13;
pub type Matcher = [u8; MATCHER_SIZE];

/// The places of the flag, of the chip record and of the part in the record. (A part is a maker's flash chip here.)
pub const FLAG: usize = 5;
pub const CHIP: std::ops::Range<usize> = 6..24;
pub const PART: usize = 24;

/// What the call for the first stretch in use answers if there is none.
pub const NONE_IN_USE: u32 = u32::MAX;

/// The part of all runs beside the original, which has no other.
pub const USUAL_PART: u32 = 0;
pub const MACRONIX_128K: u32 = 5;

extern "C" {
    pub fn gbasave_from_bytes(
        record: &mut Record,
        image: *const u8,
        image_len: usize,
        part: u32,
        memory: *mut u8,
        memory_len: usize,
        tallies: *mut u16,
        tally_count: usize,
    ) -> u32;
    pub fn gbasave_save_write(
        record: &mut Record,
        memory: *mut u8,
        memory_len: usize,
        tallies: *mut u16,
        tally_count: usize,
        address: u32,
        value: u8,
        changed: &mut u32,
    ) -> u32;
    pub fn gbasave_eeprom_write(
        record: &mut Record,
        memory: *mut u8,
        memory_len: usize,
        tallies: *mut u16,
        tally_count: usize,
        value: u16,
        changed: &mut u32,
    ) -> u32;
    pub fn gbasave_load_save(
        record: &mut Record,
        memory: *mut u8,
        memory_len: usize,
        tallies: *mut u16,
        tally_count: usize,
        file: *const u8,
        file_len: usize,
        changed: &mut u32,
    ) -> u32;
    pub fn gbasave_import_save(
        record: &mut Record,
        memory: *mut u8,
        memory_len: usize,
        tallies: *mut u16,
        tally_count: usize,
        file: *const u8,
        file_len: usize,
        kept: &mut u32,
        changed: &mut u32,
    ) -> u32;
    pub fn gbasave_save_read(record: &Record, memory: *const u8, memory_len: usize, address: u32, value: &mut u32) -> u32;
    pub fn gbasave_eeprom_begin_dma(record: &mut Record, words: u32) -> u32;
    pub fn gbasave_eeprom_read(record: &mut Record, memory: *const u8, memory_len: usize, bit: &mut u32) -> u32;
    pub fn gbasave_save_data(
        record: &Record,
        memory: *const u8,
        memory_len: usize,
        destination: *mut u8,
        destination_len: usize,
        length: &mut u32,
    ) -> u32;
    /// A part of version 0.6.0, which the benchmark times, writes only the first 18 bytes.
    pub fn gbasave_chip_state(record: &Record, state: &mut State) -> u32;
    pub fn gbasave_restore_chip_state(record: &mut Record, state: *const u8, length: usize) -> u32;
    pub fn gbasave_take_save_dirty(record: &mut Record, flag: &mut u32) -> u32;
    pub fn gbasave_is_blank(record: &Record, tallies: *const u16, tally_count: usize, blank: &mut u32) -> u32;
    pub fn gbasave_first_in_use(record: &Record, tallies: *const u16, tally_count: usize, stretch: &mut u32) -> u32;
    pub fn gbasave_uses_eeprom(record: &Record, answer: &mut u32) -> u32;
    pub fn gbasave_eeprom_window_start(record: &Record, start: &mut u32) -> u32;
    pub fn gbasave_read(image: *const u8, image_len: usize, address: u32, value: &mut u32) -> u32;
    pub fn gbasave_read16(image: *const u8, image_len: usize, address: u32, value: &mut u32) -> u32;
    pub fn gbasave_read32(image: *const u8, image_len: usize, address: u32, value: &mut u32) -> u32;
    pub fn gbasave_header_checksum(image: *const u8, image_len: usize, value: &mut u32) -> u32;
    pub fn gbasave_title(
        image: *const u8,
        image_len: usize,
        destination: *mut u8,
        destination_len: usize,
        length: &mut u32,
    ) -> u32;
    pub fn gbasave_rom_crc(image: *const u8, image_len: usize, value: &mut u32) -> u32;
    pub fn gbasave_crc_start(crc: &mut u32) -> u32;
    pub fn gbasave_crc_feed(crc: &mut u32, piece: *const u8, piece_len: usize) -> u32;
    pub fn gbasave_crc_finish(crc: &mut u32) -> u32;
    pub fn gbasave_detect_save_type(image: *const u8, image_len: usize, kind: &mut u32) -> u32;
    pub fn gbasave_search(image: *const u8, image_len: usize, kind: &mut u32, handed: &mut u32) -> u32;
    pub fn gbasave_matcher_start(matcher: &mut Matcher) -> u32;
    pub fn gbasave_matcher_feed(matcher: &mut Matcher, piece: *const u8, piece_len: usize, done: &mut u32) -> u32;
    pub fn gbasave_matcher_finish(
        matcher: &Matcher,
        header: *const u8,
        header_len: usize,
        image_len: usize,
        kind: &mut u32,
    ) -> u32;
    pub fn gbasave_save_fit(image: *const u8, image_len: usize, length: usize, kept: &mut u32) -> u32;
    pub fn gbasave_save_size(image: *const u8, image_len: usize, size: &mut u32) -> u32;
    pub fn gbasave_memory_size(kind: u32, size: &mut u32) -> u32;
    pub fn gbasave_version() -> u32;

    /// Runs a list of calls, with its cuts.
    pub fn gbasave_replay(
        image: *const u8,
        image_len: usize,
        part: u32,
        list: *const u8,
        list_len: usize,
        memory: *mut u8,
        memory_len: usize,
        scratch: *mut u8,
        scratch_len: usize,
        out: *mut u8,
        out_len: usize,
    ) -> u32;
}
