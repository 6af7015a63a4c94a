//! The return value of a call, as a `Result`.

use crate::Refusal;

/// 0 means accepted, every other number is a refusal.
pub fn accepted(answer: u32) -> Result<(), Refusal> {
    match answer {
        0 => Ok(()),
        number => Err(Refusal::of(number).expect("the archive belongs to this header")),
    }
}

/// Returns the value that the call writes to its out-parameter.
pub fn value(call: impl FnOnce(&mut u32) -> u32) -> Result<u32, Refusal> {
    let mut value = 0;
    accepted(call(&mut value))?;
    Ok(value)
}

/// Returns the value of a call that cannot be refused, since the cartridge owns its record, its memory and its tallies.
pub fn sound<T>(answer: Result<T, Refusal>) -> T {
    answer.expect("record, memory and tallies are the cartridge's own")
}
