//! The jobs on lent layers.

use crate::calls::{draw_layers, lend, Banks, Layers};
use crate::jobs::{any_bank, any_dots, any_line, banks, perhaps_damaged, Done};
use crate::layers::{any_layers, layer2, layers, sprites, transparent, BAD, BAD_SPRITES};
use crate::lent::{same, same_items, Lent};
use crate::random::Random;
use crate::seen::Seen;
use crate::states::{any_record_of, lawful, lead, line, INK_MASKS, SETTINGS};
use model::layers::order;
use model::reply::BAD_DOT;
use model::{State, DOTS};
use narephon::{Reply, PRIORITY, TRANSPARENT};

/// A state in a setting and with bits 4-2 of $15, both told by the seed.
fn ordered(random: &mut Random, seed: u64) -> State {
    let mut state = lawful(random);
    lead(random, &mut state, seed);
    set_order(&mut state, seed / SETTINGS);
    state
}

fn set_order(state: &mut State, bits: u64) {
    let others = state.layers & 0b1110_0011;
    state.layers = others | ((bits % 8) as u8) << 2;
}

/// Lines of every setting in every order.
pub fn lines(seed: u64, seen: &mut Seen) -> Done {
    let mut random = Random::new(seed);
    let state = ordered(&mut random, seed);
    let mut record = lend(&any_record_of(&mut random, &state));
    let mut banks = banks(&mut random);
    for _ in 0..8 {
        let (mut layers, line) = (layers(&mut random), line(&mut random));
        draw_layers(&mut record, &mut banks, &mut layers, line, DOTS, seen)?;
    }
    Ok(())
}

/// The setting of mode 0 in plain colours, without a tilemap, which no reply refuses.
const PLAIN: u64 = 0;

/// A record in that setting, in the order that the seed tells.
fn drawable(random: &mut Random, seed: u64) -> Lent<u8> {
    let mut state = lawful(random);
    lead(random, &mut state, PLAIN);
    set_order(&mut state, seed % 6);
    lend(&any_record_of(random, &state))
}

/// Noise with one number replaced, in Layer 2's line or in the sprites'.
fn with_number(random: &mut Random, of_sprites: bool, place: usize, number: u16) -> Layers {
    let (mut layer2, mut sprites) = (layer2(random), sprites(random));
    let line = if of_sprites {
        &mut sprites
    } else {
        &mut layer2
    };
    line[place] = number;
    Layers::two(layer2, sprites)
}

/// One number that is not allowed, in a place of either line.
pub fn places(seed: u64, seen: &mut Seen) -> Done {
    let mut random = Random::new(seed);
    let mut record = drawable(&mut random, seed);
    let mut banks = banks(&mut random);
    let place = seed as usize % DOTS;
    for (of_sprites, numbers) in [(false, BAD), (true, BAD_SPRITES)] {
        for number in numbers {
            let mut layers = with_number(&mut random, of_sprites, place, number);
            let line = line(&mut random);
            let reply = draw_layers(&mut record, &mut banks, &mut layers, line, DOTS, seen)?;
            same("reply", reply, BAD_DOT)?;
        }
    }
    Ok(())
}

/// 256 numbers in either line, each in any place.
pub fn numbers(seed: u64, seen: &mut Seen) -> Done {
    let mut random = Random::new(seed);
    let mut record = drawable(&mut random, seed);
    let mut banks = banks(&mut random);
    for low in 0..=255 {
        let number = u16::from_be_bytes([seed as u8, low]);
        for of_sprites in [false, true] {
            let place = random.below(DOTS as u64) as usize;
            let mut layers = with_number(&mut random, of_sprites, place, number);
            let line = line(&mut random);
            draw_layers(&mut record, &mut banks, &mut layers, line, DOTS, seen)?;
        }
    }
    Ok(())
}

/// Several things wrong at once, so that the order of the replies shows.
pub fn refused(seed: u64, seen: &mut Seen) -> Done {
    let mut random = Random::new(seed);
    let mut record = lend(&perhaps_damaged(&mut random));
    let mut banks = Banks::two(any_bank(&mut random), any_bank(&mut random));
    for _ in 0..4 {
        let (line, length) = (any_line(&mut random), any_dots(&mut random));
        let mut layers = any_layers(&mut random);
        draw_layers(&mut record, &mut banks, &mut layers, line, length, seen)?;
    }
    Ok(())
}

/// What the library itself answers to a line, and the line.
type Answer = (Result<(), Reply>, Vec<u16>);

fn plain(record: &[u8], banks: &Banks, line: u32, length: usize) -> Answer {
    let (ula, tile) = banks.items();
    let mut dots = vec![0xAAAA; length];
    let answer = narephon::draw(record, ula, tile, line, &mut dots);
    (answer, dots)
}

fn layered(record: &[u8], banks: &Banks, layers: &Layers, line: u32, length: usize) -> Answer {
    let ((ula, tile), (layer2, sprites)) = (banks.items(), layers.items());
    let mut dots = vec![0xAAAA; length];
    let answer = narephon::draw_layers(record, ula, tile, layer2, sprites, line, &mut dots);
    (answer, dots)
}

/// The library held to itself: with both lines transparent it draws what it draws without them, but under bits that are no
/// order.
pub fn nothing_lent(seed: u64, _: &mut Seen) -> Done {
    let mut random = Random::new(seed);
    let state = ordered(&mut random, seed);
    let known = any_record_of(&mut random, &state);
    let any = perhaps_damaged(&mut random);
    let record = if random.one_in(4) { any } else { known };
    let good = banks(&mut random);
    let wrong = Banks::two(any_bank(&mut random), any_bank(&mut random));
    let banks = if random.one_in(8) { wrong } else { good };
    let none = Layers::one(transparent());
    let no_order = order(&model::read_record(&record).2).is_none();
    for _ in 0..4 {
        let (line, length) = (any_line(&mut random), any_dots(&mut random));
        let mut wanted = plain(&record, &banks, line, length);
        if wanted.0.is_ok() && no_order {
            wanted = (Err(Reply::NoOrder), vec![0xAAAA; length]);
        }
        let got = layered(&record, &banks, &none, line, length);
        same("reply with nothing lent", got.0, wanted.0)?;
        same_items("dots with nothing lent", &got.1, &wanted.1)?;
    }
    Ok(())
}

/// The library held to itself: the dots of ULA and tilemap before the fallback are told by drawing the line under two
/// fallbacks, which differ just where nothing else shows.
pub fn two_fallbacks(seed: u64, _: &mut Seen) -> Done {
    let mut random = Random::new(seed);
    let mut state = ordered(&mut random, seed);
    // Under mask 255 the fallback is a colour of paper and border as well.
    state.ink_mask = random.pick(&INK_MASKS[..7]);
    let record = any_record_of(&mut random, &state);
    let banks = banks(&mut random);
    for _ in 0..4 {
        let (layers, line) = (layers(&mut random), line(&mut random));
        let (answer, dots) = layered(&record, &banks, &layers, line, DOTS);
        let (reply, composed) = composed_line(&mut random, &record, &banks, line)?;
        if reply.is_err() || order(&state).is_none() {
            same("reply", answer, reply.and(Err(Reply::NoOrder)))?;
            continue;
        }
        same("reply", answer, Ok(()))?;
        let (layer2, sprites) = layers.items();
        let wanted: Vec<u16> = (0..DOTS)
            .map(|dot| topmost(&state, sprites[dot], layer2[dot], composed[dot]))
            .collect();
        same_items("dots", &dots, &wanted)?;
    }
    Ok(())
}

/// The line under two fallbacks: a dot that differs is transparent.
fn composed_line(
    random: &mut Random,
    record: &[u8],
    banks: &Banks,
    line: u32,
) -> Result<Answer, String> {
    let first = random.byte();
    let second = first ^ (1 + random.below(255) as u8);
    let mut record = narephon::load_record(record).map_err(|refusal| refusal.to_string())?;
    let [(reply, dots), (_, others)] = [first, second].map(|fallback| {
        let written = narephon::write_register(&mut record, 0x4A, fallback);
        assert_eq!(written, Ok(()), "$4A takes every byte");
        plain(&record, banks, line, DOTS)
    });
    let both = dots.into_iter().zip(others);
    let composed = both.map(|(dot, other)| if dot == other { dot } else { TRANSPARENT });
    Ok((reply, composed.collect()))
}

/// What shows of the three dots, by the numbers alone.
fn topmost(state: &State, sprite: u16, layer2: u16, ula: u16) -> u16 {
    if layer2 >= PRIORITY {
        return layer2 - PRIORITY;
    }
    let from_the_top = match state.layers & 0b0001_1100 {
        0b0_0000 => [sprite, layer2, ula],
        0b0_0100 => [layer2, sprite, ula],
        0b0_1000 => [sprite, ula, layer2],
        0b0_1100 => [layer2, ula, sprite],
        0b1_0000 => [ula, sprite, layer2],
        _ => [ula, layer2, sprite],
    };
    let mut dots = from_the_top.into_iter();
    let shown = dots.find(|&dot| dot != TRANSPARENT);
    shown.unwrap_or(model::widen(state.fallback))
}
