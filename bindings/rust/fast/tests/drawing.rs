//! The quick drawer held to the model.

mod common;

use common::{bank, lawful_state, quick, spoil, Random};
use model::ula::{colouring, Colouring};
use model::{ula_mode, Mode, State};
use std::collections::BTreeSet;

/// Draws with both and compares reply and dots; with the form that does not
/// judge, too, if the state is lawful.
fn compare(line: u32, ula: &[u8], tile: &[u8], state: &State, length: usize) -> u8 {
    let mut expected = vec![0xAAAA; length];
    let reply = model::draw(line, ula, tile, state, &mut expected);
    let lawful = model::lawful(state).then_some(fast::draw_lawful as Drawing);
    for draw in [fast::draw as Drawing].into_iter().chain(lawful) {
        let mut drawn = vec![0xAAAA; length];
        assert_eq!(draw(line, ula, tile, &quick(state), &mut drawn), reply);
        assert_eq!(drawn, expected, "line {line} of {state:?}");
    }
    reply
}

type Drawing = fn(u32, &[u8], &[u8], &fast::State, &mut [u16]) -> u8;

/// Leads a random state to one of the modes.
fn lead(random: &mut Random, state: &mut State, mode: u64) {
    state.ula_control &= 0x7F;
    state.layers &= 0x7F;
    state.peripheral |= 4;
    match mode {
        0 => state.timex &= 0xF8,
        1 => state.timex = state.timex & 0xF8 | 1,
        2 => state.timex = state.timex & 0xF8 | 2,
        3 => state.timex = state.timex & 0xF8 | 6,
        4 => {
            state.layers |= 0x80;
            state.tile_control &= 0x7F;
        }
        5 => state.ula_control |= 0x80,
        6 => state.timex = state.timex & 0xF8 | random.pick(&[3, 4, 5, 7]),
        _ => state.peripheral &= 0xFB,
    }
    if state.palette_control & 1 != 0 && !random.chance(20) {
        state.plus_on = false;
    }
}

/// What a drawing was about: mode, colours, tilemap on, stencil, reply.
type Case = (Mode, Colouring, bool, bool, u8);

fn case(state: &State, reply: u8) -> Case {
    let rule = colouring(state);
    let mode = ula_mode(state);
    (mode, rule, state.tilemap_on(), state.stencil(), reply)
}

/// Every mode was drawn in all colours, with and without tilemap and stencil;
/// LoRes is refused under a tilemap.
fn assert_all_seen(seen: &BTreeSet<Case>) {
    use Mode::{Lores, Off, One, Six, Two, Zero};
    for mode in [Zero, One, Two, Six, Lores, Off] {
        for rule in [Colouring::Plain, Colouring::UlaNext, Colouring::UlaPlus] {
            for flags in 0..4 {
                let (tilemap, stencil) = (flags & 1 != 0, flags & 2 != 0);
                let case = (mode, rule, tilemap, stencil, 0);
                let possible = mode != Lores || !tilemap;
                assert_eq!(seen.contains(&case), possible, "{case:?}");
            }
        }
    }
    for reply in [0, 5, 7, 8] {
        assert!(seen.iter().any(|case| case.4 == reply), "{reply}");
    }
}

#[test]
fn lines_of_every_mode() {
    let mut random = Random::new(1);
    let mut seen = BTreeSet::new();
    for round in 0..4_000 {
        let mut state = lawful_state(&mut random);
        lead(&mut random, &mut state, round % 8);
        let ula = bank(&mut random);
        let tile = bank(&mut random);
        for _ in 0..8 {
            let line = random.below(256) as u32;
            let reply = compare(line, &ula, &tile, &state, 640);
            seen.insert(case(&state, reply));
        }
    }
    assert_all_seen(&seen);
}

#[test]
fn states_at_random() {
    let mut random = Random::new(2);
    let mut seen = [0; 14];
    for _ in 0..2_000 {
        let mut state = lawful_state(&mut random);
        if random.chance(8) {
            spoil(&mut random, &mut state);
        }
        let ula = bank(&mut random);
        let line = random.pick(&[0, 31, 32, 127, 128, 223, 224, 255, 256, 1_000, u32::MAX]);
        seen[usize::from(compare(line, &ula, &ula, &state, 640))] += 1;
    }
    for reply in [0, 1, 4, 5, 6, 7, 8] {
        assert!(seen[reply] > 0, "{reply}");
    }
}

#[test]
fn lengths() {
    let mut random = Random::new(3);
    for _ in 0..300 {
        let mut state = lawful_state(&mut random);
        if random.chance(4) {
            spoil(&mut random, &mut state);
        }
        let mut ula = bank(&mut random);
        let mut tile = bank(&mut random);
        if random.chance(3) {
            ula.truncate(random.below(16_384) as usize);
        }
        if random.chance(3) {
            tile.push(0);
        }
        let length = random.pick(&[0, 1, 320, 639, 640, 641, 1_280]);
        compare(random.below(260) as u32, &ula, &tile, &state, length);
    }
}

#[test]
fn whole_screens() {
    let mut random = Random::new(4);
    for mode in [0, 1, 2, 3, 4, 5, 7] {
        for _ in 0..3 {
            let mut state = lawful_state(&mut random);
            lead(&mut random, &mut state, mode);
            let (ula, tile) = (bank(&mut random), bank(&mut random));
            for line in 0..256 {
                compare(line, &ula, &tile, &state, 640);
            }
        }
    }
}

/// What the benchmark takes it for: the other form leaves the judging out.
#[test]
fn only_one_form_judges() {
    let mut random = Random::new(5);
    let bank = bank(&mut random);
    for _ in 0..1_000 {
        let mut state = lawful_state(&mut random);
        spoil(&mut random, &mut state);
        let state = quick(&state);
        let mut line = [0; 640];
        assert_eq!(fast::draw(100, &bank, &bank, &state, &mut line), 4);
        assert_eq!(line, [0; 640]);
        assert_ne!(fast::draw_lawful(100, &bank, &bank, &state, &mut line), 4);
    }
}
