//! The stored record, written and read in one pass.

use crate::state::{
    base_fits, border_fits, colour_fits, control_fits, half_fits, lawful, offset_y_fits,
    select_fits, solid, tile_control_fits, tile_transparent_fits, tile_x_high_fits, turn_fits,
    ula_control_fits, State,
};

/// The bytes of a record, and of one of version 1.
pub const RECORD_LENGTH: usize = 2_152;
pub const OLD_RECORD_LENGTH: usize = 2_150;

/// The number of bytes following, high first, and the version.
const START: [u8; 3] = [8, 102, 2];
const OLD_START: [u8; 3] = [8, 100, 1];

/// The bytes from the clips on, which are the same in both versions.
const REST: usize = 2_129;

/// Where in the rest the held flag, the ULAplus switch and the palettes are.
const HELD: usize = 10;
const PLUS_ON: usize = 15;
const PALETTES: usize = 81;

type Bound = fn(u8) -> bool;

/// The bounds of $43 to $27, by their places. In version 1 the rest starts
/// before the last.
const REGISTERS: [(usize, Bound); 10] = [
    (6, control_fits),
    (8, solid),
    (10, tile_transparent_fits),
    (11, ula_control_fits),
    (12, tile_control_fits),
    (14, tile_x_high_fits),
    (17, base_fits),
    (18, base_fits),
    (20, offset_y_fits),
    (22, offset_y_fits),
];

/// Those of single bytes in the rest, by their places there.
const OTHERS: [(usize, Bound); 6] = [
    (8, turn_fits),
    (9, turn_fits),
    (HELD, flag_fits),
    (12, border_fits),
    (14, select_fits),
    (PLUS_ON, flag_fits),
];

fn flag_fits(value: u8) -> bool {
    value < 2
}

/// Writes the record of a state; a refusal leaves the target.
pub fn write_record(state: &State, target: &mut [u8]) -> u8 {
    let Ok(target) = <&mut [u8; RECORD_LENGTH]>::try_from(target) else {
        return 3;
    };
    if !lawful(state) {
        return 4;
    }
    target[..3].copy_from_slice(&START);
    target[3..23].copy_from_slice(&[
        state.transparent,
        state.layers,
        state.peripheral,
        state.palette_control,
        state.palette_index,
        state.ink_mask,
        state.fallback,
        state.tile_transparent,
        state.ula_control,
        state.tile_control,
        state.tile_attribute,
        state.tile_x_high,
        state.tile_x_low,
        state.tile_y,
        state.map_base,
        state.definition_base,
        state.lores_x,
        state.lores_y,
        state.ula_x,
        state.ula_y,
    ]);
    write_rest(state, target);
    0
}

/// From the clips on.
fn write_rest(state: &State, target: &mut [u8; RECORD_LENGTH]) {
    target[23..27].copy_from_slice(&state.ula_clip);
    target[27..31].copy_from_slice(&state.tile_clip);
    target[31..40].copy_from_slice(&[
        state.ula_turn,
        state.tile_turn,
        u8::from(state.held),
        state.half,
        state.border,
        state.timex,
        state.select,
        u8::from(state.plus_on),
        state.frame,
    ]);
    target[40..104].copy_from_slice(&state.plus);
    let colours = state.palettes.as_flattened();
    for (bytes, colour) in target[104..].chunks_exact_mut(2).zip(colours) {
        bytes.copy_from_slice(&colour.to_be_bytes());
    }
}

/// Reads a record of either version: 0, 0 and its state, or a refusal, the place
/// that it tells and the reset state.
pub fn read_record(bytes: &[u8]) -> (u8, usize, State) {
    if let Some((registers, scroll, rest)) = parts(bytes) {
        if flag_fits(rest[HELD]) && flag_fits(rest[PLUS_ON]) {
            let state = parse(registers, scroll, rest);
            if lawful(&state) {
                return (0, 0, state);
            }
        }
    }
    // What is wrong is asked only now, since it seldom is.
    let (reply, place) = check_record(bytes);
    (reply, place, State::reset())
}

/// The registers up to $33, the place of $26 and $27, and the rest. An old
/// record has $32 and $33 in that place (7.5).
fn parts(bytes: &[u8]) -> Option<(&[u8; 18], [u8; 2], &[u8; REST])> {
    let place = match (bytes.len(), bytes.first_chunk()?) {
        (RECORD_LENGTH, &START) => 21,
        (OLD_RECORD_LENGTH, &OLD_START) => 19,
        _ => return None,
    };
    let scroll = [bytes[place], bytes[place + 1]];
    Some((bytes[3..].first_chunk()?, scroll, bytes.last_chunk()?))
}

/// Judges a record of either version, and makes no state: 0 and 0, or a refusal
/// and the place that it tells.
pub fn check_record(bytes: &[u8]) -> (u8, usize) {
    let start = match bytes.len() {
        RECORD_LENGTH => START,
        OLD_RECORD_LENGTH => OLD_START,
        _ => return (16, 0),
    };
    if bytes[..2] != start[..2] {
        return (16, 0);
    }
    if bytes[2] != start[2] {
        return (17, 2);
    }
    let (front, rest) = bytes.split_at(bytes.len() - REST);
    let in_rest = || bad_byte(rest).or_else(|| bad_colour(rest));
    let bad = bad_register(front).or_else(|| in_rest().map(|place| front.len() + place));
    bad.map_or((0, 0), |place| (18, place))
}

/// The place of the first register out of its bounds.
fn bad_register(front: &[u8]) -> Option<usize> {
    let mut places = REGISTERS.iter();
    let bad = places.find(|(place, fits)| front.get(*place).is_some_and(|&byte| !fits(byte)));
    bad.map(|(place, _)| *place)
}

/// The place in the rest of the first single byte out of its bounds.
fn bad_byte(rest: &[u8]) -> Option<usize> {
    let bad = OTHERS.iter().find(|(place, fits)| !fits(rest[*place]));
    let half = !half_fits(rest[HELD] == 1, rest[HELD + 1]);
    let places = bad.map(|(place, _)| *place).into_iter();
    places.chain(half.then_some(HELD + 1)).min()
}

/// The place in the rest of the first colour out of its bounds. Which it is, is
/// asked only where one is.
fn bad_colour(rest: &[u8]) -> Option<usize> {
    let mut colours = rest[PALETTES..]
        .chunks_exact(2)
        .map(|pair| u16::from_be_bytes([pair[0], pair[1]]));
    if colour_fits(colours.clone().fold(0, |all, colour| all | colour)) {
        return None;
    }
    let bad = colours.position(|colour| !colour_fits(colour));
    bad.map(|index| PALETTES + 2 * index)
}

/// The four palettes.
fn parse_palettes(bytes: &[u8]) -> [[u16; 256]; 4] {
    let mut palettes = [[0; 256]; 4];
    let colours = palettes.as_flattened_mut();
    for (colour, pair) in colours.iter_mut().zip(bytes.chunks_exact(2)) {
        *colour = u16::from_be_bytes([pair[0], pair[1]]);
    }
    palettes
}

fn parse(registers: &[u8; 18], scroll: [u8; 2], rest: &[u8; REST]) -> State {
    let mut plus = [0; 64];
    plus.copy_from_slice(&rest[17..81]);
    State {
        transparent: registers[0],
        layers: registers[1],
        peripheral: registers[2],
        palette_control: registers[3],
        palette_index: registers[4],
        ink_mask: registers[5],
        fallback: registers[6],
        tile_transparent: registers[7],
        ula_control: registers[8],
        tile_control: registers[9],
        tile_attribute: registers[10],
        tile_x_high: registers[11],
        tile_x_low: registers[12],
        tile_y: registers[13],
        map_base: registers[14],
        definition_base: registers[15],
        lores_x: registers[16],
        lores_y: registers[17],
        ula_x: scroll[0],
        ula_y: scroll[1],
        ula_clip: [rest[0], rest[1], rest[2], rest[3]],
        tile_clip: [rest[4], rest[5], rest[6], rest[7]],
        ula_turn: rest[8],
        tile_turn: rest[9],
        held: rest[HELD] == 1,
        half: rest[HELD + 1],
        border: rest[12],
        timex: rest[13],
        select: rest[14],
        plus_on: rest[PLUS_ON] == 1,
        frame: rest[16],
        plus,
        palettes: parse_palettes(&rest[PALETTES..]),
    }
}
