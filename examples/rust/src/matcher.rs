//! The kind of an image that is read in pieces.

use crate::answer::value;
use crate::raw::{self, MATCHER_SIZE};
use crate::{Kind, Refusal};

/// Finds the kind of an image that is read in pieces, as from a card, without holding the image. Fed all pieces in order and
/// finished, it is what [`detect_save_type`](crate::detect_save_type) returns for the whole.
///
/// A matcher may be stored between two pieces, and taken up again by [`from_bytes`](Self::from_bytes).
#[derive(Clone, Debug, PartialEq, Eq)]
pub struct Matcher(raw::Matcher);

impl Matcher {
    /// Begins with no piece.
    pub fn new() -> Self {
        let mut matcher = [0; MATCHER_SIZE];
        unsafe { raw::gbasave_matcher_start(&mut matcher) };
        Self(matcher)
    }

    /// Takes up a stored matcher. The bytes may come from an untrusted source. Refused: [`Refusal::Record`], if they are not a
    /// matcher's.
    pub fn from_bytes(bytes: [u8; MATCHER_SIZE]) -> Result<Self, Refusal> {
        let mut matcher = bytes;
        // An empty piece changes nothing: it only asks the question.
        feed(&mut matcher, &[])?;
        Ok(Self(matcher))
    }

    /// Returns the bytes to be stored.
    pub fn to_bytes(&self) -> [u8; MATCHER_SIZE] {
        self.0
    }

    /// Takes the next piece. An empty one changes nothing. Returns whether the matcher needs no more pieces: SRAM_V has been seen,
    /// and feeding more changes nothing.
    pub fn feed(&mut self, piece: &[u8]) -> bool {
        feed(&mut self.0, piece).expect("the matcher's bytes are its own")
    }

    /// Returns the kind of the image whose pieces were fed. The header is the image's first 192 bytes; it may be longer. The
    /// image's length is that of the whole image, also if not all of it was fed. Refused: [`Refusal::ImageLength`], if the header
    /// is shorter or no image has this length.
    pub fn finish(&self, header: &[u8], image_length: usize) -> Result<Kind, Refusal> {
        let kind =
            value(|kind| unsafe { raw::gbasave_matcher_finish(&self.0, header.as_ptr(), header.len(), image_length, kind) })?;
        Ok(Kind::of(kind).expect("a kind's number"))
    }
}

impl Default for Matcher {
    fn default() -> Self {
        Self::new()
    }
}

fn feed(matcher: &mut raw::Matcher, piece: &[u8]) -> Result<bool, Refusal> {
    let done = value(|done| unsafe { raw::gbasave_matcher_feed(matcher, piece.as_ptr(), piece.len(), done) })?;
    Ok(done == 1)
}
