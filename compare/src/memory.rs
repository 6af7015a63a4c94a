//! What a reading of a whole save memory tells: how many bytes of each stretch are in use, and the first stretch that has any. A byte other
//! than FFh is in use.

/// Bytes of memory for which there is one tally.
pub const STRETCH: usize = 4096;

pub fn used(bytes: &[u8]) -> usize {
    bytes.iter().filter(|byte| **byte != 0xFF).count()
}

pub fn tallies(memory: &[u8]) -> Vec<u16> {
    memory.chunks(STRETCH).map(|stretch| used(stretch) as u16).collect()
}

/// Without an early end within the bytes, which would be slower.
fn is_blank(bytes: &[u8]) -> bool {
    bytes.iter().fold(0xFF, |all, byte| all & byte) == 0xFF
}

pub fn first_in_use(memory: &[u8]) -> Option<usize> {
    memory.chunks(STRETCH).position(|stretch| !is_blank(stretch))
}
