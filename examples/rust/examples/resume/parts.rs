//! Games that save only on one maker's flash chip.

use std::error::Error;

use crate::game::{self, image};
use crate::{name, states};
use gbasave::{Cartridge, NotResumed, Part, Refusal, SaveFile, State};

/// A game that saves only on one chip: what a host keeps in its list of such games, and the ID word that the game knows.
struct PickyGame {
    title: &'static str,
    marker: &'static str,
    part: Part,
    word: u16,
}

const GAMES: [PickyGame; 2] = [
    PickyGame { title: "PICKY 64K", marker: "FLASH512_V", part: Part::Macronix64k, word: 0x1CC2 },
    PickyGame { title: "PICKY 128K", marker: "FLASH1M_V", part: Part::Macronix128k, word: 0x09C2 },
];

const SAVE_PLACE: u32 = 0x0E00_0010;
const SAVED: u8 = 0x5A;

impl PickyGame {
    /// What the game does: it looks at the chip, and saves if it knows it.
    fn play(&self, cart: &mut Cartridge) -> Result<(), Refusal> {
        let found = game::flash_id_word(cart);
        assert_eq!(found, cart.part().id_word(cart.kind())?);
        let known = found == self.word;
        if known {
            game::flash_program(cart, SAVE_PLACE, SAVED);
        }
        let does = if known { "saves" } else { "does not save" };
        println!("  {:24} it finds {found:04X} and {does}", format!("with {}", cart.part()));
        assert_eq!(cart.take_save_dirty(), known);
        Ok(())
    }

    /// A state, taken in ID mode. The word is not in it: whoever resumes it opens the cartridge with the same part.
    fn resume(&self, image: &[u8], state: &State) -> Result<(), Box<dyn Error>> {
        let mut cart = Cartridge::open_with_part(image, state.cartridge.part)?;
        cart.resume(state, SaveFile::AsItWas)?;
        let found = game::read_id_word(&cart);
        assert_eq!(found, self.word);
        game::flash_id_mode(&mut cart, false);
        assert_eq!(cart.save_read(SAVE_PLACE), SAVED);
        println!("  {:24} still in ID mode; it finds {found:04X} and what it saved", "resumed, same part");

        let mut usual = Cartridge::open(image)?;
        states::not_resumed("resumed, usual part", &mut usual, state, NotResumed::OtherPart);
        Ok(())
    }

    fn story(&self, other_part: Part) -> Result<(), Box<dyn Error>> {
        let image = image(self.title, self.marker);
        let mut usual = Cartridge::open(&image)?;
        println!("  {:24} the game looks for {:04X}", name(usual.kind()), self.word);
        self.play(&mut usual)?;

        // A part that does not fit: the host says why it does not open the cartridge.
        let refusal = Cartridge::open_with_part(&image, other_part).expect_err("a part of another size");
        println!("  {:24} not opened, {}: {refusal}", format!("with {other_part}"), refusal.number());

        let mut cart = Cartridge::open_with_part(&image, self.part)?;
        self.play(&mut cart)?;
        game::flash_id_mode(&mut cart, true);
        self.resume(&image, &cart.state())
    }
}

pub fn shown() -> Result<(), Box<dyn Error>> {
    println!("Parts: games that save only on a Macronix chip");
    let [small, large] = &GAMES;
    small.story(large.part)?;
    large.story(small.part)
}
