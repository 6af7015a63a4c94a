//! The parts of a run that leave nothing out.

pub mod files;
pub mod flash;
pub mod records;
pub mod serial;
pub mod stretches;
