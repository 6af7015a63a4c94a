//! Chip records: their fields, the values around each field's limits, and records that restore accepts; and states, which carry one.

use crate::random::Random;

pub const CHIP_SIZE: usize = 18;
pub type Chip = [u8; CHIP_SIZE];

/// A state of layout 2: the chip record, the changed flag, and the layout number.
pub const STATE_SIZE: usize = 20;
pub type State = [u8; STATE_SIZE];
pub const STATE_FLAG: usize = 18;

pub fn state(chip: &Chip, flag: bool) -> State {
    let mut state = [0; STATE_SIZE];
    state[..CHIP_SIZE].copy_from_slice(chip);
    state[CHIP_SIZE..].copy_from_slice(&[u8::from(flag), 2]);
    state
}

/// What of a state is restored: the 18 bytes of layout 1, or all 20.
#[derive(Clone, Copy, PartialEq)]
pub enum Layout {
    One,
    Two,
}

impl Layout {
    pub fn of(self, state: &State) -> &[u8] {
        match self {
            Self::One => &state[..CHIP_SIZE],
            Self::Two => state,
        }
    }
}

pub fn hex(bytes: &[u8]) -> String {
    bytes.iter().map(|byte| format!("{byte:02X}")).collect()
}

pub struct Field {
    at: usize,
    width: usize,
    /// The values around the field's limits, and some that pass only in some phases.
    pub limits: &'static [u64],
}

const fn field(at: usize, width: usize, limits: &'static [u64]) -> Field {
    Field { at, width, limits }
}

const BOOL: &[u64] = &[0, 1, 2, 255];

pub const FIELDS: [Field; 10] = [
    field(0, 1, &[0, 1, 2, 3, 4, 5, 6, 7, 8, 9, 255]),
    field(1, 1, BOOL),
    field(2, 1, BOOL),
    field(3, 1, &[0, 1, 5, 6, 7, 13, 14, 15, 255]),
    field(4, 1, BOOL),
    field(5, 1, &[0, 1, 2, 3, 4, 5, 6, 7, 8, 255]),
    field(6, 1, &[0, 1, 2, 5, 6, 7, 13, 14, 15, 63, 64, 65, 255]),
    field(7, 2, &[0, 1, 63, 64, 511, 512, 1023, 1024, 65_535]),
    field(9, 1, &[0, 3, 4, 66, 67, 68, 255]),
    field(10, 8, &[0, 1, 2, 3, 1 << 63, (1 << 63) + 1, u64::MAX]),
];

impl Field {
    pub fn set(&self, chip: &Chip, value: u64) -> Chip {
        let mut chip = *chip;
        chip[self.at..self.at + self.width].copy_from_slice(&value.to_le_bytes()[..self.width]);
        chip
    }
}

pub fn serial(width: u8, large: u8, phase: u8, count: u8) -> Chip {
    let mut chip = [0; 18];
    chip[3..7].copy_from_slice(&[width, large, phase, count]);
    chip
}

pub fn with_block(mut chip: Chip, block: u16) -> Chip {
    chip[7..9].copy_from_slice(&block.to_le_bytes());
    chip
}

pub fn with_acc(mut chip: Chip, acc: u64) -> Chip {
    chip[10..].copy_from_slice(&acc.to_le_bytes());
    chip
}

/// How many counts a phase has: its length, or 1 where nothing is counted.
fn counts(width: u8, large: u8, phase: u8) -> u8 {
    match (phase, width, large) {
        (0, _, _) => 2,
        (3, _, _) => 64,
        (1 | 2, 0, 0) => 6,
        (1 | 2, 0, _) => 14,
        (1 | 2, width, _) => width,
        _ => 1,
    }
}

/// Every allowed setting of width, large, phase and count, the other fields 0.
pub fn positions() -> Vec<Chip> {
    let mut all = Vec::new();
    for width in [0, 6, 14] {
        for large in [0, 1] {
            for phase in 0..7 {
                all.extend((0..counts(width, large, phase)).map(|count| serial(width, large, phase, count)));
            }
        }
    }
    all
}

/// A record that restore accepts.
pub fn random(random: &mut Random) -> Chip {
    let width = random.pick(&[0, 6, 14]);
    let large = random.below(2) as u8;
    let phase = random.below(7) as u8;
    let count = random.below(counts(width, large, phase).into()) as u8;
    let mut chip = serial(width, large, phase, count);
    chip[0] = random.pick(&[0, 0, 0, 1, 2, 4, 5, 6, 7, 8]);
    chip[1] = random.below(2) as u8;
    chip[2] = random.one_in(4) as u8;
    chip[9] = random.below(68) as u8;
    let acc = random.number() >> random.below(64);
    with_acc(with_block(chip, random.below(1024) as u16), acc)
}

/// A record that restore accepts, but for one field at a limit.
pub fn random_near(random: &mut Random) -> Chip {
    let chip = self::random(random);
    let field = &FIELDS[random.below(FIELDS.len() as u64) as usize];
    field.set(&chip, random.pick(field.limits))
}
