//! The CRC of an image that is read in pieces.

use crate::raw;

/// Computes the CRC-32/IEEE of an image that is read in pieces, as from a card. Fed all pieces in order and finished, it is what
/// [`rom_crc`](crate::rom_crc) returns for the whole.
#[derive(Clone, Debug)]
pub struct Crc(u32);

impl Crc {
    /// Begins with no piece.
    pub fn start() -> Self {
        let mut crc = 0;
        unsafe { raw::gbasave_crc_start(&mut crc) };
        Self(crc)
    }

    /// Takes the next piece. An empty one changes nothing.
    pub fn feed(&mut self, piece: &[u8]) {
        unsafe { raw::gbasave_crc_feed(&mut self.0, piece.as_ptr(), piece.len()) };
    }

    /// Returns the CRC of the pieces so far.
    pub fn finish(mut self) -> u32 {
        unsafe { raw::gbasave_crc_finish(&mut self.0) };
        self.0
    }
}
