//! Kind and CRC of an image that is read from a card in blocks, without holding it.

use crate::name;
use gbasave::{detect_save_type, rom_crc, search, Crc, Found, Kind, Matcher, Refusal};

const BLOCK: usize = 512;
const LENGTH: usize = 4000;
const BLOCKS: usize = LENGTH.div_ceil(BLOCK);
const HEADER: usize = 192;

/// An image on a card, which is read from the front, block by block.
struct Card {
    image: Vec<u8>,
    /// How many blocks the host has read.
    read: usize,
}

impl Card {
    /// The next block; none at the image's end.
    fn next_block(&mut self) -> Option<&[u8]> {
        let block = self.image.chunks(BLOCK).nth(self.read)?;
        self.read += 1;
        Some(block)
    }
}

/// The kind alone: the host stops reading when the matcher needs no more blocks. It holds one block, and the header from the first.
fn kind_in_blocks(card: &mut Card) -> Result<Kind, Refusal> {
    let (mut matcher, mut header) = (Matcher::new(), Vec::new());
    while let Some(block) = card.next_block() {
        if header.is_empty() {
            header.extend_from_slice(&block[..HEADER]);
        }
        if matcher.feed(block) {
            break;
        }
    }
    matcher.finish(&header, card.image.len())
}

/// Kind and CRC. The CRC needs every block.
fn identify_in_blocks(image: &[u8]) -> Result<(Kind, u32), Refusal> {
    let (mut matcher, mut crc) = (Matcher::new(), Crc::start());
    for block in image.chunks(BLOCK) {
        matcher.feed(block);
        crc.feed(block);
    }
    Ok((matcher.finish(&image[..HEADER], image.len())?, crc.finish()))
}

/// An image with texts in it. A | in the name is where the second block ends and the third begins.
struct Story {
    what: &'static str,
    texts: &'static [(usize, &'static str)],
    kind: Kind,
    /// How many bytes the search of the whole image hands over.
    handed: usize,
}

const END: usize = 2 * BLOCK;
const CUT: Story = Story { what: "SRAM_|V", texts: &[(END - 5, "SRAM_V")], kind: Kind::Sram, handed: END + 1 };

const STORIES: [Story; 11] = [
    Story { what: "SRAM_V", texts: &[(600, "SRAM_V")], kind: Kind::Sram, handed: 606 },
    Story { what: "SRA|M_V", texts: &[(END - 3, "SRAM_V")], kind: Kind::Sram, handed: END + 3 },
    CUT,
    Story { what: "FLAS|H512_V", texts: &[(END - 4, "FLASH512_V")], kind: Kind::Flash64, handed: LENGTH },
    Story { what: "FLASH1M_|V", texts: &[(END - 8, "FLASH1M_V")], kind: Kind::Flash128, handed: LENGTH },
    Story { what: "FLASRAM_V", texts: &[(600, "FLASRAM_V")], kind: Kind::Sram, handed: 609 },
    Story { what: "EEPROM_V at the end", texts: &[(LENGTH - 8, "EEPROM_V")], kind: Kind::Eeprom512, handed: LENGTH },
    Story { what: "EEPROM_V, then SRAM_V", texts: &[(600, "EEPROM_V"), (3000, "SRAM_V")], kind: Kind::Sram, handed: 3006 },
    Story { what: "GB4E, then SRAM_V", texts: &[(0xAC, "GB4E"), (600, "SRAM_V")], kind: Kind::Flash128, handed: 0 },
    Story { what: "POKEMON RUBY, no marker", texts: &[(0xA0, "POKEMON RUBY")], kind: Kind::Flash128, handed: LENGTH },
    Story { what: "no marker", texts: &[], kind: Kind::None, handed: LENGTH },
];

impl Story {
    fn image(&self) -> Vec<u8> {
        let mut image = vec![0; LENGTH];
        for (place, text) in self.texts {
            image[*place..][..text.len()].copy_from_slice(text.as_bytes());
        }
        image
    }

    /// What the blocks and the whole image give.
    fn kinds(&self) -> Result<(), Refusal> {
        let mut card = Card { image: self.image(), read: 0 };
        let kind = kind_in_blocks(&mut card)?;
        let whole = search(&card.image)?;
        print!("  {:24} {} of {BLOCKS} blocks: {}; ", self.what, card.read, name(kind));
        println!("the whole image, {} bytes handed over: {}", whole.handed, name(whole.kind));
        assert_eq!((kind, whole), (self.kind, Found { kind: self.kind, handed: self.handed }));
        Ok(())
    }

    fn crcs(&self) -> Result<(), Refusal> {
        let image = self.image();
        let (in_blocks, whole) = (identify_in_blocks(&image)?, (detect_save_type(&image)?, rom_crc(&image)?));
        let text = |(kind, crc)| format!("{}, CRC {crc:08X}", name(kind));
        println!("  {:24} {BLOCKS} of {BLOCKS} blocks: {}; the whole image: {}", "CRC and kind", text(in_blocks), text(whole));
        assert_eq!(in_blocks, whole);
        Ok(())
    }

    /// A matcher may be stored between two blocks, as by a host that is switched off, and taken up again.
    fn stored(&self) -> Result<(), Refusal> {
        let image = self.image();
        let mut matcher = Matcher::new();
        assert!(!matcher.feed(&image[..END]), "no marker is complete");
        let stored = matcher.to_bytes();

        let mut again = Matcher::from_bytes(stored)?;
        assert!(again.feed(&image[END..][..BLOCK]), "SRAM_V is complete");
        let (kind, last) = (again.finish(&image[..HEADER], LENGTH)?, String::from_utf8_lossy(&stored[4..9]));
        println!("  {:24} stored with the last bytes, newest first, {last}; taken up again: {}", self.what, name(kind));
        assert_eq!(kind, self.kind);
        Ok(())
    }
}

pub fn shown() -> Result<(), Refusal> {
    println!("Images on a card, read in blocks of {BLOCK} bytes; a block ends at |");
    STORIES.iter().try_for_each(Story::kinds)?;
    STORIES[0].crcs()?;
    CUT.stored()?;
    let refusal = Matcher::from_bytes([0xEE; 13]).expect_err("these bytes are no matcher");
    println!("  {:24} refused, {}: {refusal}", "13 foreign bytes", refusal.number());
    assert_eq!(refusal, Refusal::Record);
    Ok(())
}
