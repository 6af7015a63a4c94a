//! Refusals.

use std::{error, fmt};

/// Why a call is refused, by the number that it returns. A refused call changes nothing.
#[derive(Clone, Copy, Debug, PartialEq, Eq, Hash)]
#[repr(u32)]
pub enum Refusal {
    /// The image has not 192 to 33,554,432 bytes.
    ImageLength = 1,
    /// The record is not valid, or the matcher.
    Record,
    /// The memory does not have its kind's length.
    MemoryLength,
    /// The kind has no EEPROM.
    NoEeprom,
    /// 6 or more bits of an address are in.
    DmaTooLate,
    /// The state has neither 18 nor 20 bytes.
    StateLength,
    /// The state's phase is not allowed.
    StatePhase,
    /// The state's flash state is not allowed.
    StateFlash,
    /// The state's bank, ID mode or large is neither 0 nor 1.
    StateSwitches,
    /// The state's DMA width is not allowed.
    StateWidth,
    /// The state's count, block or read place is out of range.
    StateRanges,
    /// The state's count is not allowed in its phase.
    StateCount,
    /// The destination is too short.
    DestinationLength,
    /// No file of the kind has this length.
    FileLength,
    /// The part does not have the kind's size.
    Part,
    /// The tallies are not as many as the kind has.
    TallyCount,
    /// The state's layout number is not 2.
    StateLayout,
    /// The state's changed flag is neither 0 nor 1.
    StateFlag,
}

impl Refusal {
    /// All refusals, in the order of their numbers.
    pub const ALL: [Self; 18] = [
        Self::ImageLength,
        Self::Record,
        Self::MemoryLength,
        Self::NoEeprom,
        Self::DmaTooLate,
        Self::StateLength,
        Self::StatePhase,
        Self::StateFlash,
        Self::StateSwitches,
        Self::StateWidth,
        Self::StateRanges,
        Self::StateCount,
        Self::DestinationLength,
        Self::FileLength,
        Self::Part,
        Self::TallyCount,
        Self::StateLayout,
        Self::StateFlag,
    ];

    /// Returns the refusal's number in `gbasave.h`.
    pub fn number(self) -> u32 {
        self as u32
    }

    /// Returns the refusal with this number, 1 to 18.
    pub fn of(number: u32) -> Option<Self> {
        Self::ALL.into_iter().find(|refusal| refusal.number() == number)
    }

    /// Returns the text that `gbasave_refusal_text` has for it.
    pub fn text(self) -> &'static str {
        match self {
            Self::ImageLength => "the image's length is not allowed",
            Self::Record => "this is no valid record, matcher or kind",
            Self::MemoryLength => "the save memory does not have its kind's length",
            Self::NoEeprom => "the cartridge has no EEPROM",
            Self::DmaTooLate => "the DMA length comes too late in an address",
            Self::StateLength => "the chip state is neither 18 nor 20 bytes long",
            Self::StatePhase => "the chip state's phase is not allowed",
            Self::StateFlash => "the chip state's flash state is not allowed",
            Self::StateSwitches => "the chip state's bank, ID mode or large is neither 0 nor 1",
            Self::StateWidth => "the chip state's DMA width is not allowed",
            Self::StateRanges => "the chip state's count, block or read place is out of range",
            Self::StateCount => "the chip state's count is not allowed in its phase",
            Self::DestinationLength => "the destination is too short",
            Self::FileLength => "no file of this kind has this length",
            Self::Part => "the part does not have the kind's size",
            Self::TallyCount => "the tallies are not as many as the kind has",
            Self::StateLayout => "the chip state's layout number is not 2",
            Self::StateFlag => "the chip state's changed flag is neither 0 nor 1",
        }
    }
}

impl fmt::Display for Refusal {
    fn fmt(&self, to: &mut fmt::Formatter) -> fmt::Result {
        to.write_str(self.text())
    }
}

impl error::Error for Refusal {}

#[cfg(test)]
mod tests {
    use super::Refusal;

    const HEADER: &str = include_str!(env!("GBASAVE_HEADER"));

    /// The header's name for a number, and its text for that name.
    fn in_header(number: u32) -> (&'static str, &'static str) {
        let told = format!(" = {number}");
        let line = |line: &&str| line.trim().starts_with("GBASAVE_REFUSED_") && line.trim_end_matches(',').ends_with(&told);
        let name = HEADER.lines().find(line).and_then(|line| line.trim().split(' ').next()).unwrap();
        let (_, rest) = HEADER.split_once(&format!("case {name}: return \"")).unwrap();
        (name, rest.split_once('"').unwrap().0)
    }

    #[test]
    fn numbers_names_and_words_are_the_headers() {
        for (number, refusal) in (1..).zip(Refusal::ALL) {
            assert_eq!(refusal.number(), number);
            assert_eq!(Refusal::of(number), Some(refusal));
            let (name, text) = in_header(number);
            assert_eq!(refusal.to_string(), text);
            assert_eq!(
                name.trim_start_matches("GBASAVE_REFUSED_").replace('_', "").to_lowercase(),
                format!("{refusal:?}").to_lowercase()
            );
        }
        assert_eq!((Refusal::of(0), Refusal::of(19)), (None, None));
    }
}
