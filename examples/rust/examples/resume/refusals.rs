//! Every refusal that can occur when a cartridge owns its record, its memory and its tallies.

use crate::game::{self, image, WRITE_BITS};
use gbasave::{Cartridge, Part, Refusal, STATE_FLAG, STATE_LAYOUT};

fn refused(refusal: Refusal, what: &str, answer: Result<(), Refusal>) {
    assert_eq!(answer, Err(refusal), "{what}");
    println!("  {:2}  {what:46} {refusal}", refusal.number());
}

/// States, in the order of the questions.
fn states(cart: &mut Cartridge) {
    let state = cart.chip_state();
    for length in [0, 17, 19, 21] {
        let longer = [&state[..], &[0]].concat();
        refused(Refusal::StateLength, &format!("a state of {length} bytes"), cart.restore_chip_state(&longer[..length]));
    }
    for (refusal, what, bytes) in [
        (Refusal::StateLayout, "a state with layout number 3", &[(STATE_LAYOUT, 3)][..]),
        (Refusal::StateLayout, "layout number 3, and phase 7", &[(STATE_LAYOUT, 3), (5, 7)]),
        (Refusal::StatePhase, "a state in phase 7", &[(5, 7)]),
        (Refusal::StateFlash, "a state with flash state 3", &[(0, 3)]),
        (Refusal::StateSwitches, "a state with bank 2", &[(1, 2)]),
        (Refusal::StateWidth, "a state with DMA width 7", &[(3, 7)]),
        (Refusal::StateRanges, "a state with read place 68", &[(9, 68)]),
        (Refusal::StateCount, "a state with 14 bits of a 14-bit address", &[(6, 14)]),
        (Refusal::StateCount, "14 bits of a 14-bit address, and flag 2", &[(6, 14), (STATE_FLAG, 2)]),
        // Its chip record is allowed, and another than the cartridge's: it is not taken over.
        (Refusal::StateFlag, "a state with changed flag 2", &[(1, 1), (STATE_FLAG, 2)]),
    ] {
        let mut other = state;
        bytes.iter().for_each(|&(place, value)| other[place] = value);
        refused(refusal, what, cart.restore_chip_state(&other));
    }
}

pub fn shown() -> Result<(), Refusal> {
    println!("Refusals; each leaves the cartridge as it was");
    refused(Refusal::ImageLength, "an image of 191 bytes", Cartridge::open(&[0; 191]).map(drop));

    let mut sram = Cartridge::open(&image("SRAM REFUSED", "SRAM_V"))?;
    let fresh = sram.clone();
    refused(Refusal::NoEeprom, "a serial bit to SRAM", sram.eeprom_write(1).map(drop));

    let mut cart = Cartridge::open(&image("EEPROM REFUS", "EEPROM_V"))?;
    cart.eeprom_begin_dma(WRITE_BITS as u32)?;
    game::send(&mut cart, &game::write_bits(100, 0)[..2 + 6])?;
    let before = cart.clone();
    refused(Refusal::DmaTooLate, "DMA 73 after six bits of an address", cart.eeprom_begin_dma(73));
    states(&mut cart);
    assert!(cart == before);

    refused(Refusal::FileLength, "an import of 32,767 bytes", sram.import_save(&[0; 32767]).map(drop));
    assert!(sram == fresh);

    let flash = image("FLASH REFUSE", "FLASH_V");
    let opened = Cartridge::open_with_part(&flash, Part::Sanyo128k);
    refused(Refusal::Part, "a 128K part on a flash of 64 KiB", opened.map(drop));
    Ok(())
}
