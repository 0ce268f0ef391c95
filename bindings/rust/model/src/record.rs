//! The stored record in both of its versions: section 7.

use crate::fields::{colour_at, first_bad, says_yes};
use crate::reply::{
    Reply, BAD_FIELD, DONE, NOT_LAWFUL, PAIRS_DIFFER, WRONG_BUFFER, WRONG_COUNT, WRONG_VERSION,
};
use crate::state::{lawful, State};

/// Rule 7.4: the bytes of a record, which is one of version 2.
pub const RECORD_LENGTH: usize = 2_152;

/// Rule 7.4: the bytes of a record of version 1.
pub const OLD_RECORD_LENGTH: usize = 2_150;

/// Rule 7.1: the versions.
#[derive(Clone, Copy, Debug, PartialEq, Eq)]
pub(crate) enum Version {
    One,
    Two,
}

impl Version {
    /// Rule 7.1: the number that a record states, that of the bytes following it.
    fn following(self) -> u16 {
        match self {
            Version::One => 2_148,
            Version::Two => 2_150,
        }
    }

    fn number(self) -> u8 {
        match self {
            Version::One => 1,
            Version::Two => 2,
        }
    }

    /// Rule 7.1: the three bytes that a record starts with.
    pub(crate) fn start(self) -> [u8; 3] {
        let [high, low] = self.following().to_be_bytes();
        [high, low, self.number()]
    }
}

/// Rules 7.6 and 10.6: writes a record, of version 2 always, or refuses by 3, 4
/// in this order.
pub fn write_record(state: &State, target: &mut [u8]) -> Reply {
    if target.len() != RECORD_LENGTH {
        return WRONG_BUFFER;
    }
    if !lawful(state) {
        return NOT_LAWFUL;
    }
    target.copy_from_slice(&record_bytes(state, Version::Two));
    DONE
}

/// Rules 7.1 to 7.3: the bytes of the record in their order.
fn record_bytes(state: &State, version: Version) -> Vec<u8> {
    let mut bytes = Vec::new();
    bytes.extend(version.start());
    bytes.extend(register_bytes(state));
    if version == Version::Two {
        bytes.extend([state.ula_x, state.ula_y]);
    }
    bytes.extend(state.ula_clip);
    bytes.extend(state.tile_clip);
    bytes.extend([
        state.ula_turn,
        state.tile_turn,
        u8::from(state.held),
        state.half,
        state.border,
        state.timex,
        state.select,
        u8::from(state.plus_on),
        state.frame,
    ]);
    bytes.extend(state.plus);
    // 7.3: a colour has its high byte first.
    for colour in state.palettes.iter().flatten() {
        bytes.extend(colour.to_be_bytes());
    }
    bytes
}

/// Rule 7.2: the eighteen registers that both versions have, in their order.
fn register_bytes(state: &State) -> [u8; 18] {
    [
        state.transparent,
        state.layers,
        state.peripheral,
        state.palette_control,
        state.palette_index,
        state.ink_mask,
        state.fallback,
        state.tile_transparent,
        state.ula_control,
        state.tile_control,
        state.tile_attribute,
        state.tile_x_high,
        state.tile_x_low,
        state.tile_y,
        state.map_base,
        state.definition_base,
        state.lores_x,
        state.lores_y,
    ]
}

/// Rules 7.5 and 10.7: the state of a record of either version, or 16, 17, 18 in
/// this order and the reset state. Between them is the place that the refusal
/// tells, 0 where there is none.
pub fn read_record(bytes: &[u8]) -> (Reply, usize, State) {
    read_as(bytes, &[Version::One, Version::Two])
}

/// Rule 7.9: the same of version 1 alone.
pub fn read_old(bytes: &[u8]) -> (Reply, usize, State) {
    read_as(bytes, &[Version::One])
}

/// Rule 7.10: the same of version 2 alone, as a call that changes a record does.
pub fn read_new(bytes: &[u8]) -> (Reply, usize, State) {
    read_as(bytes, &[Version::Two])
}

/// Is it a record of version 2 of a lawful state?
pub(crate) fn is_new(bytes: &[u8]) -> bool {
    judged(bytes, &[Version::Two]).is_ok()
}

fn read_as(bytes: &[u8], taken: &[Version]) -> (Reply, usize, State) {
    match judged(bytes, taken) {
        Ok(version) => {
            let state = parse(bytes, version);
            // 3.31: every field keeps its bound.
            assert!(lawful(&state));
            (DONE, 0, state)
        }
        Err((reply, place)) => (reply, place, State::reset()),
    }
}

/// Rules 9.16 to 9.18 in this order: the version of a record that is taken, or a
/// refusal and its place.
fn judged(bytes: &[u8], taken: &[Version]) -> Result<Version, (Reply, usize)> {
    let version = counted(bytes).ok_or((WRONG_COUNT, 0))?;
    if bytes[2] != version.number() || !taken.contains(&version) {
        return Err((WRONG_VERSION, 2));
    }
    match first_bad(bytes, version) {
        Some(place) => Err((BAD_FIELD, place)),
        None => Ok(version),
    }
}

/// Rule 9.16: the version that has so many bytes, if they state how many they
/// are.
fn counted(bytes: &[u8]) -> Option<Version> {
    let stated = u16::from_be_bytes(*bytes.first_chunk()?);
    if usize::from(stated) != bytes.len() - 2 {
        return None;
    }
    let mut versions = [Version::One, Version::Two].into_iter();
    versions.find(|version| version.following() == stated)
}

/// Rules 7.7 and 10.12: the record of version 2 of the state in a record of
/// version 1, or 3, 16, 17, 18 in this order, and the place that is told.
pub fn move_up(old: &[u8], target: &mut [u8]) -> (Reply, usize) {
    if target.len() != RECORD_LENGTH {
        return (WRONG_BUFFER, 0);
    }
    let (known, place, state) = read_old(old);
    if known != DONE {
        return (known, place);
    }
    target.copy_from_slice(&record_bytes(&state, Version::Two));
    (DONE, 0)
}

/// Rules 7.8 and 10.12: the record of version 1 of the state in a record of
/// version 2, or 3, 16, 17, 18, 15 in this order, and the place that is told.
pub fn move_back(new: &[u8], target: &mut [u8]) -> (Reply, usize) {
    if target.len() != OLD_RECORD_LENGTH {
        return (WRONG_BUFFER, 0);
    }
    let (known, place, state) = read_new(new);
    if known != DONE {
        return (known, place);
    }
    if state.ula_x != state.lores_x || state.ula_y != state.lores_y {
        return (PAIRS_DIFFER, 0);
    }
    target.copy_from_slice(&record_bytes(&state, Version::One));
    (DONE, 0)
}

/// Rules 1.5 and 7.11: is what these bytes are read as written as the same
/// bytes, those of an old record once it is moved back?
pub fn writes_back(bytes: &[u8]) -> bool {
    let (known, _, state) = read_record(bytes);
    let mut written = vec![0; RECORD_LENGTH];
    if known != DONE || write_record(&state, &mut written) != DONE {
        return false;
    }
    if read_old(bytes).0 != DONE {
        return written == bytes;
    }
    let mut back = vec![0; OLD_RECORD_LENGTH];
    move_back(&written, &mut back).0 == DONE && back == bytes
}

/// The state in a record of a version.
fn parse(bytes: &[u8], version: Version) -> State {
    let mut state = State::reset();
    parse_registers(&bytes[3..21], &mut state);
    match version {
        // 7.5: as if the record were moved up.
        Version::One => {
            (state.ula_x, state.ula_y) = (state.lores_x, state.lores_y);
            parse_rest(&bytes[21..], &mut state);
        }
        Version::Two => {
            (state.ula_x, state.ula_y) = (bytes[21], bytes[22]);
            parse_rest(&bytes[23..], &mut state);
        }
    }
    state
}

/// The eighteen registers, in the order of [`register_bytes`].
fn parse_registers(bytes: &[u8], state: &mut State) {
    state.transparent = bytes[0];
    state.layers = bytes[1];
    state.peripheral = bytes[2];
    state.palette_control = bytes[3];
    state.palette_index = bytes[4];
    state.ink_mask = bytes[5];
    state.fallback = bytes[6];
    state.tile_transparent = bytes[7];
    state.ula_control = bytes[8];
    state.tile_control = bytes[9];
    state.tile_attribute = bytes[10];
    state.tile_x_high = bytes[11];
    state.tile_x_low = bytes[12];
    state.tile_y = bytes[13];
    state.map_base = bytes[14];
    state.definition_base = bytes[15];
    state.lores_x = bytes[16];
    state.lores_y = bytes[17];
}

/// From the clips on, where both versions have the same.
fn parse_rest(bytes: &[u8], state: &mut State) {
    state.ula_clip.copy_from_slice(&bytes[0..4]);
    state.tile_clip.copy_from_slice(&bytes[4..8]);
    state.ula_turn = bytes[8];
    state.tile_turn = bytes[9];
    state.held = says_yes(bytes[10]);
    state.half = bytes[11];
    state.border = bytes[12];
    state.timex = bytes[13];
    state.select = bytes[14];
    state.plus_on = says_yes(bytes[15]);
    state.frame = bytes[16];
    state.plus.copy_from_slice(&bytes[17..81]);
    for (index, colour) in state.palettes.iter_mut().flatten().enumerate() {
        *colour = colour_at(bytes, 81 + 2 * index);
    }
}
