//! The original cartridge module, and the calls, records, files and images that it is asked about.

pub mod call;
pub mod commands;
pub mod files;
pub mod images;
pub mod items;
pub mod kind;
pub mod lists;
pub mod memory;
pub mod original;
pub mod played;
pub mod random;
pub mod records;
pub mod texts;
