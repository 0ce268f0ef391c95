//! Helpers of the tests.
#![allow(dead_code)]

use model::{draw, write_record, State, BANK_LENGTH, DOTS, RECORD_LENGTH};

/// A bank of zeros with some bytes set.
pub fn bank(bytes: &[(usize, u8)]) -> Vec<u8> {
    let mut bank = vec![0; BANK_LENGTH];
    for &(address, byte) in bytes {
        bank[address] = byte;
    }
    bank
}

/// The reset state with palettes that tell an index at sight: ULA first shows
/// the index itself, ULA second 256 more, tilemap first 511 less the index,
/// tilemap second 255 less the index. The fallback is $92, that is 293.
pub fn counting() -> State {
    let mut state = State::reset();
    for index in 0..256 {
        state.palettes[0][index] = index as u16;
        state.palettes[1][index] = 256 + index as u16;
        state.palettes[2][index] = 511 - index as u16;
        state.palettes[3][index] = 255 - index as u16;
    }
    state.fallback = 0x92;
    state
}

/// The fallback of [`counting`], widened.
pub const FALLBACK: u16 = 0x125;

/// The counting state in a Timex mode.
pub fn timex(value: u8) -> State {
    let mut state = counting();
    state.peripheral = 4;
    state.timex = value;
    state
}

/// A lawful state that every refusal but 6 fits: ULANext and ULAplus (7), no such
/// mode (5), X offset (8), and for lent layers no order (19).
pub fn all_at_once() -> State {
    let mut state = timex(7);
    state.layers = 0b0001_1000;
    state.palette_control = 1;
    state.plus_on = true;
    state.tile_control = 0x80;
    state.tile_x_high = 3;
    state
}

/// The record of a lawful state.
pub fn record_of(state: &State) -> Vec<u8> {
    let mut bytes = vec![0xAA; RECORD_LENGTH];
    assert_eq!(write_record(state, &mut bytes), 0);
    bytes
}

/// Version 1 of it by hand, which leaves $26 and $27 out.
pub fn old_record_of(state: &State) -> Vec<u8> {
    let mut bytes = record_of(state);
    bytes.drain(21..23);
    bytes[..3].copy_from_slice(&[8, 100, 1]);
    bytes
}

/// A line that must draw.
pub fn dots(line: u32, ula: &[u8], tile: &[u8], state: &State) -> [u16; DOTS] {
    let mut out = [0xAAAA; DOTS];
    assert_eq!(draw(line, ula, tile, state, &mut out), 0);
    assert!(out.iter().all(|&dot| dot <= 511));
    out
}

/// A line of the ULA alone.
pub fn ula_dots(line: u32, ula: &[u8], state: &State) -> [u16; DOTS] {
    dots(line, ula, &bank(&[]), state)
}

/// The reply of a drawing that must be refused and leave the line as it came.
pub fn refused(line: u32, ula: &[u8], tile: &[u8], state: &State, length: usize) -> u8 {
    let mut out = vec![0xAAAA; length];
    let reply = draw(line, ula, tile, state, &mut out);
    assert_ne!(reply, 0);
    assert!(out.iter().all(|&dot| dot == 0xAAAA));
    reply
}
