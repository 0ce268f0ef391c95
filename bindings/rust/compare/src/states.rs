//! States made lawful by construction, their records, and records damaged.

use crate::random::Random;
use model::{State, OLD_RECORD_LENGTH, RECORD_LENGTH};

/// The record of a lawful state.
pub fn record_of(state: &State) -> Vec<u8> {
    let mut record = vec![0; RECORD_LENGTH];
    let reply = model::write_record(state, &mut record);
    assert_eq!(reply, 0, "the state is not lawful");
    record
}

/// The old record of a lawful state, which has no place for $26 and $27.
pub fn old_record_of(state: &State) -> Vec<u8> {
    let mut one_scroll = state.clone();
    (one_scroll.ula_x, one_scroll.ula_y) = (state.lores_x, state.lores_y);
    let mut old = vec![0; OLD_RECORD_LENGTH];
    let (reply, _) = model::move_back(&record_of(&one_scroll), &mut old);
    assert_eq!(reply, 0, "the state is not lawful");
    old
}

/// Its record, or one time in three the old one.
pub fn any_record_of(random: &mut Random, state: &State) -> Vec<u8> {
    if random.one_in(3) {
        old_record_of(state)
    } else {
        record_of(state)
    }
}

/// A lawful state with every field at random.
pub fn lawful(random: &mut Random) -> State {
    let mut state = State::reset();
    ula_fields(random, &mut state);
    tile_fields(random, &mut state);
    let written = random.pick(&[0x00, 0x40, 0x30, 0x70]);
    state.palette_control = written | random.byte() & 0x8F;
    let any = random.byte();
    state.palette_index = random.pick(&[0, 254, 255, any, any]);
    let held = random.one_in(2);
    hold(random, &mut state, held);
    state.ula_turn = random.below(4) as u8;
    state.tile_turn = random.below(4) as u8;
    state.select = random.below(128) as u8;
    state.plus_on = random.one_in(2);
    let any = random.byte();
    state.frame = random.pick(&[0, 15, 16, 254, 255, any, any, any]);
    state.fallback = random.byte();
    for byte in &mut state.plus {
        *byte = random.byte();
    }
    palettes(random, &mut state);
    assert!(model::lawful(&state));
    state
}

/// Sets or drops the half of a colour that $44 holds.
pub fn hold(random: &mut Random, state: &mut State, held: bool) {
    state.held = held;
    state.half = if held { random.byte() } else { 0 };
}

/// The masks that $42 takes.
pub const INK_MASKS: [u8; 8] = [1, 3, 7, 15, 31, 63, 127, 255];

fn ula_fields(random: &mut Random, state: &mut State) {
    state.peripheral = random.byte();
    state.layers = random.byte();
    state.timex = random.byte();
    state.border = random.below(8) as u8;
    scrolls(random, state);
    state.ink_mask = random.pick(&INK_MASKS);
    state.ula_control = random.byte() & 0xC1;
    state.ula_clip = clip(random, [0, 255, 0, 191]);
}

/// Two scrolls, of which either offset is the same in both every second time.
fn scrolls(random: &mut Random, state: &mut State) {
    (state.ula_x, state.ula_y) = offsets(random);
    let (x, y) = offsets(random);
    state.lores_x = random.pick(&[x, state.ula_x]);
    state.lores_y = random.pick(&[y, state.ula_y]);
}

fn offsets(random: &mut Random) -> (u8, u8) {
    let (x, y) = (random.byte(), random.below(192) as u8);
    let x = random.pick(&[0, 7, 8, 255, x, x]);
    let y = random.pick(&[0, 1, 191, y, y]);
    (x, y)
}

fn tile_fields(random: &mut Random, state: &mut State) {
    state.tile_control = random.byte() & 0xF0;
    state.tile_attribute = random.byte();
    state.tile_transparent = random.below(16) as u8;
    state.map_base = random.below(64) as u8;
    state.definition_base = random.below(64) as u8;
    let offset = random.below(1_024);
    tile_x(state, offset);
    let any = random.byte();
    state.tile_y = random.pick(&[0, 1, 191, 192, 255, any, any, any]);
    state.tile_clip = clip(random, [0, 159, 0, 255]);
}

fn tile_x(state: &mut State, offset: u64) {
    state.tile_x_high = (offset / 256) as u8;
    state.tile_x_low = (offset % 256) as u8;
}

/// The clip of a reset, one nearly as wide, or any: a clip at random is mostly empty.
fn clip(random: &mut Random, whole: [u8; 4]) -> [u8; 4] {
    match random.below(4) {
        0 | 1 => whole,
        2 => {
            let near = random.below(64) as u8;
            let far = random.below(64) as u8;
            [near, whole[1] - far, near / 2, whole[3] - far / 2]
        }
        _ => [0; 4].map(|_| random.byte()),
    }
}

/// Palettes of all colours or of few, so that $14 is often met.
fn palettes(random: &mut Random, state: &mut State) {
    let few = [0; 4].map(|_| random.below(512) as u16);
    let all = random.one_in(2);
    for colour in state.palettes.iter_mut().flatten() {
        *colour = if all {
            random.below(512) as u16
        } else {
            random.pick(&few)
        };
    }
    let register = state.plus[random.below(32) as usize];
    state.transparent = match random.below(4) {
        0 => (few[0] / 2) as u8,
        1 => (model::plus_colour(register) / 2) as u8,
        2 => state.fallback,
        _ => random.byte(),
    };
}

/// How many settings [`lead`] tells apart.
pub const SETTINGS: u64 = 8 * 3 * 9;

/// Leads a state to a mode, a colouring and a tilemap setting, all of them told by the setting's number; now and then
/// to one of the refusals beside it.
pub fn lead(random: &mut Random, state: &mut State, setting: u64) {
    lead_mode(random, state, setting % 8);
    let rule = setting / 8 % 3;
    state.palette_control = state.palette_control & 0xFE | u8::from(rule == 1);
    state.plus_on = rule == 2 || rule == 1 && random.one_in(16);
    lead_tiles(random, state, setting / 24 % 9);
    // Most LoRes lines go without a tilemap, for the two together are refused.
    if state.lores() && !random.one_in(8) {
        state.tile_control &= 0x7F;
    }
    assert!(model::lawful(state));
}

fn lead_mode(random: &mut Random, state: &mut State, mode: u64) {
    state.ula_control &= 0x7F;
    state.layers &= 0x7F;
    state.peripheral |= 4;
    state.timex &= 0xF8;
    match mode {
        0 => {}
        1 => state.timex |= 1,
        2 => state.timex |= 2,
        3 => state.timex |= 6,
        4 => {
            state.layers |= 0x80;
            state.timex |= random.byte() & 7;
        }
        5 => {
            state.ula_control |= 0x80;
            state.timex |= random.byte() & 7;
            state.layers |= if random.one_in(8) { 0x80 } else { 0 };
        }
        6 => state.timex |= random.pick(&[3, 4, 5, 7]),
        _ => {
            state.peripheral &= 0xFB;
            state.timex |= random.byte() & 7;
        }
    }
}

/// 0 is no tilemap; else columns, bytes of an entry and stencil.
fn lead_tiles(random: &mut Random, state: &mut State, tiles: u64) {
    if tiles == 0 {
        state.tile_control &= 0x7F;
        return;
    }
    let flags = tiles - 1;
    let width = if flags & 1 != 0 { 640 } else { 320 };
    let palette = state.tile_control & 0x10;
    let columns = if flags & 1 != 0 { 0x40 } else { 0 };
    let one_byte = if flags & 2 != 0 { 0x20 } else { 0 };
    state.tile_control = 0x80 | columns | one_byte | palette;
    state.ula_control = state.ula_control & 0xC0 | u8::from(flags & 4 != 0);
    let near = random.pick(&[0, 1, 7, 8, 9, width - 8, width - 1]);
    let offset = match random.below(16) {
        0 => random.pick(&[width, width + 1, 1_023]),
        1..=5 => near,
        _ => random.below(width),
    };
    tile_x(state, offset);
}

/// The ports that there are.
pub const PORTS: [u16; 4] = [0x00FE, 0x00FF, 0xBF3B, 0xFF3B];

/// A register number: mostly one that there is.
pub fn register(random: &mut Random) -> u8 {
    let known = [
        0x08, 0x14, 0x15, 0x1A, 0x1B, 0x1C, 0x26, 0x27, 0x2F, 0x30, 0x31, 0x32, 0x33, 0x40, 0x41,
        0x42, 0x43, 0x44, 0x4A, 0x4C, 0x68, 0x6B, 0x6C, 0x6E, 0x6F,
    ];
    match random.below(8) {
        0 => random.byte(),
        1 | 2 => random.pick(&[0x40, 0x41, 0x43, 0x44]),
        _ => random.pick(&known),
    }
}

/// A port number: mostly one that there is, or one byte of it wrong.
pub fn port(random: &mut Random) -> u16 {
    let known = random.pick(&PORTS);
    match random.below(8) {
        0 => random.number() as u16,
        1 => known & 0xFF00 | u16::from(random.byte()),
        2 => known & 0x00FF | u16::from(random.byte()) << 8,
        _ => known,
    }
}

/// A value for a register or a port: any, small, a mask, or beside a bound.
pub fn value(random: &mut Random) -> u8 {
    match random.below(4) {
        0 => random.below(4) as u8,
        1 => random.pick(&INK_MASKS),
        2 => random.pick(&[0, 2, 4, 5, 8, 16, 64, 128, 190, 191, 192, 254]),
        _ => random.byte(),
    }
}

/// The bytes of the palettes, which end a record.
pub const PALETTES: usize = 2_048;

/// How far from a record's end the held flag stands, in either version.
const HELD: usize = 2_119;

/// A field out of its bounds: its place, and a byte that it cannot have.
pub type Fault = (usize, u8);

/// Those of one byte in version 2: $43, $42, $4C, $68, $6B, $2F, $6E, $6F, $33, $27, both turns, the held flag, the held
/// byte, the border, $BF3B and ULAplus.
const FAULTS: [Fault; 17] = [
    (6, 0x10),
    (8, 5),
    (10, 16),
    (11, 0x02),
    (12, 0x81),
    (14, 4),
    (17, 64),
    (18, 64),
    (20, 192),
    (22, 192),
    (31, 4),
    (32, 4),
    (33, 2),
    (34, 1),
    (35, 8),
    (37, 128),
    (38, 2),
];

/// How many faults [`faults`] has of both versions: version 1 has no $27.
pub const ALL_FAULTS: u64 = 17 + 16 + 2 * 1_024;

/// A fault of each field that has a bound, from the front: in a record of so many bytes, of version 1 or 2.
pub fn faults(length: usize) -> Vec<Fault> {
    let mut faults: Vec<Fault> = match length {
        RECORD_LENGTH => FAULTS.to_vec(),
        // $27, at 22, is not there, and what follows it stands two places before.
        _ => {
            let others = FAULTS.into_iter().filter(|(place, _)| *place != 22);
            let moved = |place| if place < 22 { place } else { place - 2 };
            others.map(|(place, byte)| (moved(place), byte)).collect()
        }
    };
    faults.extend(
        (length - PALETTES..length)
            .step_by(2)
            .map(|place| (place, 2)),
    );
    faults
}

/// Puts a field out of its bounds. A held byte is, once none is held.
pub fn put_fault(record: &mut [u8], (place, byte): Fault) {
    let held = record.len() - HELD;
    if place == held + 1 && record[held] == 1 {
        record[held] = 0;
    }
    record[place] = byte;
}

/// Damages the record of a lawful state, of either version. What comes out may still be one.
pub fn damage(random: &mut Random, record: &mut Vec<u8>) {
    let length = record.len();
    match random.below(16) {
        0..=4 => spoil_byte(random, record),
        5 => {
            let place = random.below(length as u64) as usize;
            record[place] ^= 1 << random.below(8);
        }
        6 => {
            // A half that none holds.
            record[length - HELD] = 0;
            record[length - HELD + 1] = 1 + random.below(255) as u8;
        }
        7 => record.truncate(random.below(length as u64) as usize),
        8 => {
            let more = random.pick(&[1, 2, 3, 64, length]);
            record.extend(random.bytes(more));
        }
        9 => *record = random.bytes(length),
        10 => {
            let rest = random.bytes(length - 3);
            record[3..].copy_from_slice(&rest);
        }
        11 | 12 => damage_start(random, record),
        13 => {
            for _ in 0..1 + random.below(3) {
                put_fault(record, random.pick(&faults(length)));
            }
        }
        _ => {
            for _ in 0..random.below(5) {
                spoil_byte(random, record);
            }
        }
    }
}

/// Another number, version or both; the fields are now and then bad as well, so that the order shows.
fn damage_start(random: &mut Random, record: &mut Vec<u8>) {
    if random.one_in(2) {
        let fault = random.pick(&faults(record.len()));
        put_fault(record, fault);
    }
    let any = random.byte();
    match random.below(3) {
        0 => record[2] = random.pick(&[0, 1, 2, 3, 255, any]),
        1 => {
            let length = random.pick(&[2, 3, 2_149, 2_150, 2_151, 2_152, 2_153, 4_302]);
            record.resize(length, 0);
            state_number(record);
        }
        _ => {
            // The start of a version, or the version of one and the number of the other.
            let starts = [[8, 100, 1], [8, 102, 2], [8, 100, 2], [8, 102, 1]];
            record[..3].copy_from_slice(&random.pick(&starts));
        }
    }
}

/// Makes the first two of at least two bytes the number of those that follow.
pub fn state_number(record: &mut [u8]) {
    let following = (record.len() - 2) as u16;
    record[..2].copy_from_slice(&following.to_be_bytes());
}

/// Another byte in one place, mostly among the first, which have the most bounds, or in the high half of a colour.
fn spoil_byte(random: &mut Random, record: &mut [u8]) {
    let place = match random.below(4) {
        0 | 1 => random.below(42) as usize,
        2 => record.len() - PALETTES + 2 * random.below(1_024) as usize,
        _ => random.below(record.len() as u64) as usize,
    };
    record[place] = random.byte();
}

/// A bank of noise, or of few values.
pub fn bank(random: &mut Random) -> Vec<u8> {
    let few = [0; 4].map(|_| random.byte());
    if random.one_in(4) {
        return (0..16_384).map(|_| random.pick(&few)).collect();
    }
    random.bytes(16_384)
}

/// A line, in every second case beside the edges of screen and display.
pub fn line(random: &mut Random) -> u32 {
    let any = random.below(256) as u32;
    let edge = random.pick(&[0, 1, 31, 32, 33, 95, 96, 127, 128, 222, 223, 224, 254, 255]);
    random.pick(&[any, edge])
}
