//! A small host. It opens images, saves on every chip, takes states in the middle of an 81-bit write and resumes them in a fresh
//! cartridge and in the open one. It writes the file out if the changed flag says so, which comes with a state. It gives a game the
//! flash chip that the game looks for. It writes the file out when enough bytes have changed. It shows in a save menu which
//! cartridges are empty. It finds the kind of images that it reads in blocks. A wrong answer ends the program.

mod budget;
mod game;
mod menu;
mod parts;
mod pieces;
mod refusals;
mod states;

use std::error::Error;

use game::{image, WRITE_BITS};
use gbasave::{detect_save_type, header_checksum, read, rom_crc, title, Cartridge, Imported, Kind, Refusal, SaveFile, State};

fn name(kind: Kind) -> &'static str {
    match kind {
        Kind::None => "none",
        Kind::Sram => "SRAM",
        Kind::Flash64 => "flash, 64 KiB",
        Kind::Flash128 => "flash, 128 KiB",
        Kind::Eeprom512 => "EEPROM, 512 bytes",
        Kind::Eeprom8k => "EEPROM, 8 KiB",
    }
}

fn describe(image: &[u8]) -> Result<(), Refusal> {
    let (check, kind) = (header_checksum(image)?, detect_save_type(image)?);
    let says = if check == read(image, 0xBD)? { "as in the header" } else { "but the header has another value" };
    let (title, length, crc) = (title(image)?, image.len(), rom_crc(image)?);
    println!("Image \"{title}\", {length} bytes, CRC {crc:08X}, header check {check:02X}, {says}");
    println!("  save chip: {}; save memory: {} bytes", name(kind), kind.memory_size());
    Ok(())
}

fn hex(bytes: &[u8]) -> String {
    let digits: Vec<String> = bytes.iter().map(|byte| format!("{byte:02X}")).collect();
    digits.join(" ")
}

fn sram_story() -> Result<(), Refusal> {
    let image = image("SRAM STORY", "SRAM_V");
    describe(&image)?;
    let mut cart = Cartridge::open(&image)?;
    assert!(!cart.take_save_dirty());
    for (address, &byte) in (0x0E00_0010..).zip(b"SAVE") {
        assert_eq!(cart.save_write(address, byte), 1);
        assert_eq!((cart.save_read(address), cart.save_read(address + 0x8000)), (byte, byte));
    }
    println!("  {:24} {}", "stored from 10h on", hex(&cart.memory()[0x10..0x15]));
    assert!(cart.take_save_dirty() && !cart.take_save_dirty());

    // Another cartridge imports the file, with a footer of 16 bytes that some programs add. The host keeps the footer.
    let mut file = cart.save_data().expect("SRAM has a file");
    file.extend([0xEE; 16]);
    let mut other = Cartridge::open(&image)?;
    let Imported { kept, changed } = other.import_save(&file)?;
    println!("  a file of {} bytes is imported elsewhere, {kept} kept, {changed} changed", file.len());
    assert_eq!(other.memory(), cart.memory());
    assert_eq!(changed, 4);
    let written = [other.save_data().expect("SRAM has a file"), file[kept..].to_vec()].concat();
    assert_eq!(written, file);
    Ok(())
}

fn flash_story() -> Result<(), Refusal> {
    let image = image("FLASH STORY", "FLASH1M_V");
    describe(&image)?;
    let mut cart = Cartridge::open(&image)?;
    game::flash_id_mode(&mut cart, true);
    let id = [cart.save_read(0x0E00_0000), cart.save_read(0x0E00_0001)];
    game::flash_id_mode(&mut cart, false);
    println!("  {:24} {}", "maker and device", hex(&id));
    assert_eq!(id, [0x62, 0x13]);

    assert_eq!(game::flash_program(&mut cart, 0x0E00_3000, 0x11), 1);
    game::flash_select_bank(&mut cart, 1);
    assert_eq!(game::flash_program(&mut cart, 0x0E00_3000, 0x22), 1);
    assert_eq!(game::flash_program(&mut cart, 0x0E00_4000, 0x33), 1);
    let show = |what, cart: &Cartridge| {
        let bytes = (cart.memory()[0x3000], cart.save_read(0x0E00_3000), cart.save_read(0x0E00_4000));
        println!("  {what:24} bank 0, 3000h: {:02X}; bank 1, 3000h: {:02X}, 4000h: {:02X}", bytes.0, bytes.1, bytes.2);
        bytes
    };
    assert_eq!(show("programmed", &cart), (0x11, 0x22, 0x33));
    assert_eq!(game::flash_erase_sector(&mut cart, 0x0E00_3000), 1);
    assert_eq!(show("bank 1, 3000h erased", &cart), (0x11, 0xFF, 0x33));
    Ok(())
}

const EARLIER: u64 = 0x1122_3344_5566_7788;
const DATA: u64 = 0x0123_4567_89AB_CDEF;

/// A state taken after so many bits of a write, and where it is resumed.
#[derive(Clone, Copy)]
enum Cut {
    Fresh(usize),
    Open(usize),
}

impl Cut {
    fn bits(self) -> usize {
        match self {
            Self::Fresh(bits) | Self::Open(bits) => bits,
        }
    }
}

/// Plays two writes. If there is a cut, it is in the second one.
fn played(image: &[u8], cut: Option<Cut>, shown: bool) -> Result<State, Box<dyn Error>> {
    let mut cart = Cartridge::open(image)?;
    game::write_block(&mut cart, 3, EARLIER)?;
    cart.eeprom_begin_dma(WRITE_BITS as u32)?;
    let bits = game::write_bits(100, DATA);
    let (before, after) = bits.split_at(cut.map_or(0, Cut::bits));
    let changed = game::send(&mut cart, before)?;
    if let Some(cut) = cut {
        let state = cart.state();
        if shown {
            let length = state.file.as_ref().map_or(0, Vec::len);
            println!("  after bit {}: a file of {length} bytes and the chip's state", cut.bits());
            println!("  {:24} {}", "", hex(&state.chip));
        }
        match cut {
            Cut::Fresh(_) => cart = Cartridge::open(image)?,
            // What is played on after the state was taken is forgotten.
            Cut::Open(_) => drop(game::write_block(&mut cart, 100, EARLIER)?),
        }
        cart.resume(&state, SaveFile::AsItWas)?;
        assert_eq!(cart.state(), state);
    }
    let changed = changed + game::send(&mut cart, after)?;
    assert_eq!(changed, 8, "the write changes the block's eight bytes, cut or uncut");

    let (earlier, data) = (game::read_block(&mut cart, 3)?, game::read_block(&mut cart, 100)?);
    let end = cart.state();
    if shown {
        let who = if cut.is_some() { "resumed" } else { "uncut" };
        println!("  {who:24} block 3: {earlier:016X}, block 100: {data:016X}");
        println!("  {:24} {}", format!("{who}, file from 320h"), hex(&end.file.as_ref().unwrap()[0x320..0x328]));
    }
    assert_eq!((earlier, data), (EARLIER, DATA));
    Ok(end)
}

fn eeprom_story() -> Result<(), Box<dyn Error>> {
    let image = image("EEPROM STORY", "EEPROM_V");
    describe(&image)?;
    let uncut = played(&image, None, true)?;
    assert!(played(&image, Some(Cut::Fresh(40)), true)? == uncut);
    for bits in 0..=WRITE_BITS {
        for cut in [Cut::Fresh(bits), Cut::Open(bits)] {
            assert!(played(&image, Some(cut), false)? == uncut, "cut after bit {bits}");
        }
    }
    println!("  cut after the DMA length and after each of the 81 bits: the same blocks, file, chip and flag,");
    println!("  resumed in a fresh cartridge or in the open one");
    Ok(())
}

fn main() -> Result<(), Box<dyn Error>> {
    assert_eq!(gbasave::version(), gbasave::VERSION, "the archive belongs to another header");
    println!("gbasave: the header and the archive have the same version");
    sram_story()?;
    flash_story()?;
    eeprom_story()?;
    states::shown()?;
    parts::shown()?;
    budget::shown()?;
    menu::shown()?;
    pieces::shown()?;
    Ok(refusals::shown()?)
}
