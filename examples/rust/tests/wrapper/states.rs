use crate::{game, images};
use gbasave::{Cartridge, Kind, NotResumed, Refusal, SaveFile, State, CHIP_SIZE, STATE_FLAG, STATE_LAYOUT, STATE_SIZE};

/// A fresh cartridge of the image, into which the state is resumed.
fn resumed(image: &[u8], state: &State) -> Cartridge {
    let mut cart = Cartridge::open(image).unwrap();
    cart.resume(state, SaveFile::AsItWas).unwrap();
    cart
}

/// The state as a version before 0.7.0 took it.
fn old(state: &State) -> State {
    State { chip: state.chip[..CHIP_SIZE].to_vec(), ..state.clone() }
}

/// The state without the changed flag.
fn without_flag(mut state: State) -> State {
    state.chip[STATE_FLAG] = 0;
    state
}

#[test]
fn a_state_resumes_after_every_bit() {
    let image = game::image("TEST", "EEPROM_V");
    let bits = [game::write_bits(100, 0x0123_4567_89AB_CDEF), game::read_bits(100)].concat();
    let mut uncut = Cartridge::open(&image).unwrap();
    uncut.eeprom_begin_dma(81).unwrap();
    let mut cut = uncut.clone();
    for bit in bits {
        cut = resumed(&image, &cut.state());
        assert_eq!(uncut.eeprom_write(bit), cut.eeprom_write(bit));
        assert_eq!(uncut, cut);
    }
    for _ in 0..68 {
        cut = resumed(&image, &cut.state());
        assert_eq!(uncut.eeprom_read(), cut.eeprom_read());
        assert_eq!(uncut, cut);
    }
    assert!(uncut.take_save_dirty() && cut.take_save_dirty());
}

/// Where one state has 18 bytes, flags are left out from there on.
#[test]
fn an_old_state_resumes_after_every_bit() {
    let image = game::image("TEST", "EEPROM_V");
    let mut uncut = Cartridge::open(&image).unwrap();
    uncut.eeprom_begin_dma(81).unwrap();
    let mut cut = uncut.clone();
    for (place, bit) in game::write_bits(100, 0x0123_4567_89AB_CDEF).into_iter().enumerate() {
        let state = cut.state();
        cut = resumed(&image, &if place % 2 == 0 { old(&state) } else { state });
        assert_eq!(uncut.eeprom_write(bit), cut.eeprom_write(bit));
        assert_eq!(without_flag(uncut.state()), without_flag(cut.state()));
    }
}

/// Changes something on every kind that has a file. Returns how many bytes.
fn play(cart: &mut Cartridge) -> usize {
    match cart.kind() {
        Kind::None | Kind::Sram => cart.save_write(0x0E00_0010, 0x5A),
        Kind::Flash64 | Kind::Flash128 => game::flash_program(cart, 0x0E00_0010, 0x5A),
        Kind::Eeprom512 | Kind::Eeprom8k => game::write_block(cart, 100, 0x0123_4567_89AB_CDEF).unwrap(),
    }
}

/// A fresh cartridge, and open ones whose file was written out or not.
fn cartridges(image: &[u8]) -> [Cartridge; 3] {
    let fresh = Cartridge::open(image).unwrap();
    let mut unwritten = fresh.clone();
    play(&mut unwritten);
    let mut written = unwritten.clone();
    written.take_save_dirty();
    [fresh, written, unwritten]
}

#[test]
fn the_flag_comes_with_the_state() {
    for (kind, image) in images() {
        for taken in cartridges(&image) {
            let state = taken.state();
            let flag = state.chip[STATE_FLAG] == 1;
            for mut cart in cartridges(&image) {
                cart.resume(&state, SaveFile::AsItWas).unwrap();
                assert_eq!(cart, taken, "{kind:?}");
                assert_eq!((cart.take_save_dirty(), cart.take_save_dirty()), (flag, false));
            }
        }
    }
}

#[test]
fn a_resumed_file_counts_as_changed_if_the_save_file_may_be_another_or_the_state_is_old() {
    for (kind, image) in images() {
        for taken in cartridges(&image) {
            let state = taken.state();
            for (state, written_out) in
                [(&state, SaveFile::MayBeOther), (&old(&state), SaveFile::MayBeOther), (&old(&state), SaveFile::AsItWas)]
            {
                for mut cart in cartridges(&image) {
                    cart.resume(state, written_out).unwrap();
                    assert_eq!(without_flag(cart.state()), without_flag(taken.state()));
                    assert_eq!((cart.take_save_dirty(), cart.take_save_dirty()), (kind != Kind::None, false), "{kind:?}");
                    assert_eq!(cart.save_data(), state.file);
                }
            }
        }
    }
}

#[test]
fn a_resumed_state_says_how_many_bytes_changed() {
    for (kind, image) in images() {
        let mut cart = Cartridge::open(&image).unwrap();
        let fresh = cart.state();
        let changed = play(&mut cart);
        assert_eq!(changed, [0, 1, 1, 1, 8, 8][kind.number() as usize]);
        let played = cart.state();
        for (state, expected) in [(&played, 0), (&fresh, changed), (&fresh, 0), (&old(&played), changed)] {
            assert_eq!(cart.resume(state, SaveFile::AsItWas), Ok(expected), "{kind:?}");
        }
    }
}

#[test]
fn an_open_cartridge_resumes_as_a_fresh_one_does() {
    for (_, image) in images() {
        let mut cart = Cartridge::open(&image).unwrap();
        let fresh = cart.state();
        play(&mut cart);
        let played = cart.state();
        for state in [&fresh, &played] {
            for step in [&fresh, &played] {
                // Whatever is played, and in the middle of a flash or serial command.
                cart.resume(step, SaveFile::AsItWas).unwrap();
                play(&mut cart);
                cart.save_write(0x0E00_5555, 0xAA);
                let _ = (cart.eeprom_begin_dma(81), cart.eeprom_write(1));
                cart.resume(state, SaveFile::AsItWas).unwrap();
                assert_eq!(cart, resumed(&image, state));
            }
        }
    }
}

#[test]
fn the_chip_record_is_the_states_whatever_the_file() {
    let mut cart = Cartridge::open(&game::image("TEST", "EEPROM_V")).unwrap();
    let state = State { file: Some(vec![0; 8192]), ..cart.state() };
    cart.resume(&state, SaveFile::AsItWas).unwrap();
    assert_eq!((&cart.chip_state()[..], cart.memory()), (&state.chip[..], &[0; 8192][..]));
}

#[test]
fn the_state_of_another_cartridge_is_not_resumed() {
    let mut longer = game::image("TEST", "SRAM_V");
    longer.push(0);
    let others = images().chain([(Kind::Sram, game::image("OTHER", "SRAM_V")), (Kind::Sram, longer)]);
    let carts: Vec<Cartridge> = others.map(|(_, image)| Cartridge::open(&image).unwrap()).collect();
    for (i, cart) in carts.iter().enumerate() {
        for (j, other) in carts.iter().enumerate() {
            let (mut cart, before) = (cart.clone(), cart.clone());
            let expected = if i == j { Ok(0) } else { Err(NotResumed::OtherCartridge) };
            assert_eq!(cart.resume(&other.state(), SaveFile::AsItWas), expected);
            assert!(i == j || cart == before);
        }
    }
}

#[test]
fn a_refused_state_changes_nothing() {
    for (_, image) in images() {
        let mut cart = Cartridge::open(&image).unwrap();
        let state = cart.state();
        play(&mut cart);
        let before = cart.clone();
        for (place, value, refusal) in
            [(5, 7, Refusal::StatePhase), (STATE_LAYOUT, 1, Refusal::StateLayout), (STATE_FLAG, 2, Refusal::StateFlag)]
        {
            let mut state = state.clone();
            state.chip[place] = value;
            assert_eq!(cart.resume(&state, SaveFile::MayBeOther), Err(NotResumed::Refused(refusal)));
            assert_eq!(cart, before);
        }
    }
}

/// 20 bytes are written back unchanged, 18 as the first eighteen, with the flag of the cartridge.
#[test]
fn accepted_states_are_written_back() {
    for (_, image) in images() {
        for mut cart in cartridges(&image) {
            let mut state = cart.chip_state();
            state[..CHIP_SIZE].copy_from_slice(&[4, 1, 1, 14, 1, 3, 63, 255, 3, 67, 1, 2, 3, 4, 5, 6, 7, 8]);
            let before = cart.clone();
            assert_eq!(cart.restore_chip_state(&state[..CHIP_SIZE]), Ok(()));
            assert_eq!(cart.chip_state(), state);
            for flag in [0, 1] {
                state[STATE_FLAG] = flag;
                assert_eq!(cart.restore_chip_state(&state), Ok(()));
                assert_eq!(cart.chip_state(), state);
            }
            assert_eq!(cart.restore_chip_state(&before.chip_state()), Ok(()));
            assert_eq!(cart, before);
        }
    }
}

#[test]
fn untrusted_states_are_refused_by_the_first_question() {
    let mut cart = Cartridge::open(&game::image("TEST", "EEPROM_V")).unwrap();
    let before = cart.clone();
    let mut refused = |length: usize, bytes: &[(usize, u8)], refusal| {
        // Another chip record than the cartridge's: it is not taken over.
        let mut state = [0; STATE_SIZE];
        state[10] = 1;
        state[STATE_LAYOUT] = 2;
        bytes.iter().for_each(|&(place, value)| state[place] = value);
        assert_eq!(cart.restore_chip_state(&state[..length]), Err(refusal), "{length} bytes, {bytes:?}");
        assert_eq!(cart, before);
    };
    for length in [CHIP_SIZE, STATE_SIZE] {
        // What follows 18 bytes does not count, and the flag is asked about last.
        for flag in [1, 2] {
            refused(length, &[(5, 7), (0, 3), (STATE_FLAG, flag)], Refusal::StatePhase);
            refused(length, &[(0, 3), (1, 2), (STATE_FLAG, flag)], Refusal::StateFlash);
            refused(length, &[(4, 2), (3, 7), (STATE_FLAG, flag)], Refusal::StateSwitches);
            refused(length, &[(3, 7), (8, 4), (STATE_FLAG, flag)], Refusal::StateWidth);
            refused(length, &[(8, 4), (STATE_FLAG, flag)], Refusal::StateRanges);
            refused(length, &[(5, 3), (6, 65), (STATE_FLAG, flag)], Refusal::StateRanges);
            refused(length, &[(5, 3), (6, 64), (STATE_FLAG, flag)], Refusal::StateCount);
            refused(length, &[(5, 1), (6, 6), (STATE_FLAG, flag)], Refusal::StateCount);
        }
    }
    for layout in [0, 1, 3, 18, 255] {
        refused(STATE_SIZE, &[(STATE_LAYOUT, layout)], Refusal::StateLayout);
        refused(STATE_SIZE, &[(STATE_LAYOUT, layout), (5, 7), (STATE_FLAG, 2)], Refusal::StateLayout);
    }
    for flag in [2, 3, 255] {
        refused(STATE_SIZE, &[(STATE_FLAG, flag)], Refusal::StateFlag);
    }
    for length in (0..=40).filter(|length| ![CHIP_SIZE, STATE_SIZE].contains(length)) {
        assert_eq!(cart.restore_chip_state(&vec![2; length]), Err(Refusal::StateLength));
    }
    assert_eq!(cart, before);
}
