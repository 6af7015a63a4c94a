//! The backup chip of a Game Boy Advance cartridge (SRAM, flash, serial EEPROM): a safe wrapper of the calls in `gbasave.h`.
//! The comments there say in full what each call does.
//!
//! A [`Cartridge`] owns its save memory, the tallies of that memory, and its record. The image is borrowed only when the cartridge
//! is opened. So the refusals about record, memory and tallies cannot occur on a cartridge, and a call that has no other refusals
//! does not return a `Result`.
//!
//! ```
//! use gbasave::{Cartridge, Kind, SaveFile};
//!
//! let mut image = vec![0; 1024];
//! image[512..518].copy_from_slice(b"SRAM_V");
//! let mut cart = Cartridge::open(&image)?;
//! assert_eq!(cart.kind(), Kind::Sram);
//!
//! cart.save_write(0x0E00_0010, 0x5A);
//! let state = cart.state();
//!
//! // Later, perhaps in another process. An open cartridge of the same image and part is resumed in the same way. The host has
//! // written out no file since: whether it has to comes with the state.
//! let mut resumed = Cartridge::open(&image)?;
//! resumed.resume(&state, SaveFile::AsItWas)?;
//! assert_eq!(resumed.save_read(0x0E00_0010), 0x5A);
//! if resumed.take_save_dirty() {
//!     let file = resumed.save_data();
//!     // Write out the file.
//! #   assert_eq!(file.unwrap()[0x10], 0x5A);
//! }
//! # Ok::<(), Box<dyn std::error::Error>>(())
//! ```
//!
//! A method that stores returns how many bytes have changed. A host that is to write to its card seldom adds them up:
//!
//! ```
//! # use gbasave::Cartridge;
//! # let mut image = vec![0; 1024];
//! # image[512..518].copy_from_slice(b"SRAM_V");
//! # let mut cart = Cartridge::open(&image)?;
//! const BUDGET: usize = 4096;
//! let mut unwritten = 0;
//! unwritten += cart.save_write(0x0E00_0010, 0x5A);
//! unwritten += cart.save_write(0x0E00_0010, 0x5A); // the same byte again
//! assert_eq!(unwritten, 1);
//! if unwritten >= BUDGET {
//!     cart.take_save_dirty();
//!     // Write out the file.
//!     unwritten = 0;
//! }
//! # Ok::<(), gbasave::Refusal>(())
//! ```
//!
//! A save menu shows "empty" without a reading of the memory:
//!
//! ```
//! # use gbasave::{Cartridge, STRETCH_SIZE};
//! # let mut image = vec![0; 1024];
//! # image[512..518].copy_from_slice(b"SRAM_V");
//! let mut cart = Cartridge::open(&image)?;
//! assert!(cart.is_blank());
//! cart.save_write(0x0E00_2010, 0x5A);
//! assert_eq!(cart.first_in_use(), Some(0x2010 / STRETCH_SIZE));
//! cart.save_write(0x0E00_2010, 0xFF);
//! assert_eq!((cart.is_blank(), cart.first_in_use()), (true, None));
//! # Ok::<(), gbasave::Refusal>(())
//! ```
//!
//! Some games save only on one maker's flash chip. Such a game gets its [`Part`]:
//!
//! ```
//! use gbasave::{Cartridge, Part};
//!
//! let mut image = vec![0; 1024];
//! image[512..519].copy_from_slice(b"FLASH_V");
//! let mut cart = Cartridge::open_with_part(&image, Part::Macronix64k)?;
//! assert_eq!(cart.part().id_word(cart.kind())?, 0x1CC2);
//!
//! // The game turns ID mode on, and reads the maker and the device.
//! for (address, byte) in [(0x0E00_5555, 0xAA), (0x0E00_2AAA, 0x55), (0x0E00_5555, 0x90)] {
//!     cart.save_write(address, byte);
//! }
//! assert_eq!((cart.save_read(0x0E00_0000), cart.save_read(0x0E00_0001)), (0xC2, 0x1C));
//! # Ok::<(), gbasave::Refusal>(())
//! ```
//!
//! A host that reads an image from a card in blocks finds its kind with a [`Matcher`], and its CRC with a [`Crc`], without holding
//! the image:
//!
//! ```
//! use gbasave::{Crc, Kind, Matcher};
//!
//! let mut image = vec![0; 4096];
//! image[1019..1025].copy_from_slice(b"SRAM_V"); // over the boundary of two blocks
//! let (mut matcher, mut crc) = (Matcher::new(), Crc::start());
//! for block in image.chunks(512) {
//!     matcher.feed(block); // true if the kind needs no more blocks
//!     crc.feed(block);
//! }
//! assert_eq!(matcher.finish(&image[..192], image.len())?, Kind::Sram);
//! assert_eq!(crc.finish(), gbasave::rom_crc(&image)?);
//! # Ok::<(), gbasave::Refusal>(())
//! ```

#![deny(missing_docs)]

mod answer;
mod cartridge;
mod crc;
mod image;
mod kind;
mod matcher;
mod part;
mod raw;
mod refusal;
mod state;
mod version;

pub use cartridge::{Cartridge, Imported};
pub use crc::Crc;
pub use image::{detect_save_type, header_checksum, read, read16, read32, rom_crc, save_fit, save_size, search, title, Found};
pub use kind::Kind;
pub use matcher::Matcher;
pub use part::Part;
pub use raw::{CHIP_SIZE, STATE_FLAG, STATE_LAYOUT, STATE_SIZE, STRETCH_SIZE};
pub use refusal::Refusal;
pub use state::{ChipState, Identity, NotResumed, SaveFile, State};
pub use version::{version, VERSION};
