//! Calls that take only an image.

use crate::answer::value;
use crate::{raw, Kind, Refusal};

/// Reads the byte at an offset. Past the image it is 0.
pub fn read(image: &[u8], address: u32) -> Result<u8, Refusal> {
    value(|value| unsafe { raw::gbasave_read(image.as_ptr(), image.len(), address, value) }).map(|value| value as u8)
}

/// Reads two bytes from an offset on, low byte first. Bytes past the image are 0.
pub fn read16(image: &[u8], address: u32) -> Result<u16, Refusal> {
    value(|value| unsafe { raw::gbasave_read16(image.as_ptr(), image.len(), address, value) }).map(|value| value as u16)
}

/// Reads four bytes from an offset on, low byte first. Bytes past the image are 0.
pub fn read32(image: &[u8], address: u32) -> Result<u32, Refusal> {
    value(|value| unsafe { raw::gbasave_read32(image.as_ptr(), image.len(), address, value) })
}

/// Computes the header's complement check. A correct header has this value at BDh.
pub fn header_checksum(image: &[u8]) -> Result<u8, Refusal> {
    value(|value| unsafe { raw::gbasave_header_checksum(image.as_ptr(), image.len(), value) }).map(|value| value as u8)
}

/// Returns the header's title. Bytes that are not UTF-8 are replaced.
pub fn title(image: &[u8]) -> Result<String, Refusal> {
    let mut title = vec![0; raw::TITLE_SIZE];
    let (to, room) = (title.as_mut_ptr(), title.len());
    let length = value(|length| unsafe { raw::gbasave_title(image.as_ptr(), image.len(), to, room, length) })?;
    title.truncate(length as usize);
    Ok(String::from_utf8(title).expect("titles are well-formed"))
}

/// Computes the CRC-32/IEEE of the whole image.
pub fn rom_crc(image: &[u8]) -> Result<u32, Refusal> {
    value(|value| unsafe { raw::gbasave_rom_crc(image.as_ptr(), image.len(), value) })
}

/// Finds the kind of the image's backup chip.
pub fn detect_save_type(image: &[u8]) -> Result<Kind, Refusal> {
    let kind = value(|kind| unsafe { raw::gbasave_detect_save_type(image.as_ptr(), image.len(), kind) })?;
    Ok(Kind::of(kind).expect("a kind's number"))
}

/// What a search found, and how far it looked.
#[derive(Clone, Copy, Debug, PartialEq, Eq, Hash)]
pub struct Found {
    /// The kind of the image's backup chip.
    pub kind: Kind,
    /// How many of the image's bytes were handed over to find it, from the front: 0 if the game code decides; otherwise, if SRAM_V
    /// occurs, the offset just after the first one; otherwise the image's length.
    pub handed: usize,
}

/// Finds the kind as [`detect_save_type`] does, and tells how far it had to look.
pub fn search(image: &[u8]) -> Result<Found, Refusal> {
    let mut handed = 0;
    let kind = value(|kind| unsafe { raw::gbasave_search(image.as_ptr(), image.len(), kind, &mut handed) })?;
    Ok(Found { kind: Kind::of(kind).expect("a kind's number"), handed: handed as usize })
}

/// Returns the value of a call that asks no questions and so cannot be refused.
fn unasked(call: impl FnOnce(&mut u32) -> u32) -> usize {
    value(call).expect("no question is asked") as usize
}

/// Returns how many bytes import keeps of a save file of the given length, or `None` if the file cannot belong to this image.
pub fn save_fit(image: &[u8], length: usize) -> Option<usize> {
    let kept = unasked(|kept| unsafe { raw::gbasave_save_fit(image.as_ptr(), image.len(), length, kept) });
    (kept > 0).then_some(kept)
}

/// Returns the size of the image's save memory, or 0 if it has none. It is also the largest size that [`save_fit`] returns.
pub fn save_size(image: &[u8]) -> usize {
    unasked(|size| unsafe { raw::gbasave_save_size(image.as_ptr(), image.len(), size) })
}
