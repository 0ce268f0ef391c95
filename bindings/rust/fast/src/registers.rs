//! Register and port writes, in place.

use crate::state::{
    control_fits, lawful, offset_y_fits, palette_written, select_fits, solid, tile_control_fits,
    tile_transparent_fits, tile_x_high_fits, ula_control_fits, State,
};
use crate::widen;

/// Writes a register; a refusal leaves the state.
pub fn write_register(state: &mut State, number: u8, value: u8) -> u8 {
    if lawful(state) {
        write_register_lawful(state, number, value)
    } else {
        4
    }
}

/// Writes a register of a state that the caller knows is lawful, and leaves it
/// so: many writes need one judging.
pub fn write_register_lawful(state: &mut State, number: u8, value: u8) -> u8 {
    match number {
        0x08 => state.peripheral = value,
        0x14 => state.transparent = value,
        0x15 => state.layers = value,
        0x1A => write_clip(&mut state.ula_clip, &mut state.ula_turn, value),
        0x1B => write_clip(&mut state.tile_clip, &mut state.tile_turn, value),
        0x26 => state.ula_x = value,
        0x30 => state.tile_x_low = value,
        0x31 => state.tile_y = value,
        0x32 => state.lores_x = value,
        0x40 => {
            drop_half(state);
            state.palette_index = value;
        }
        0x41 => write_colour(state, widen(value)),
        0x44 => return write_half(state, value),
        0x4A => state.fallback = value,
        0x6C => state.tile_attribute = value,
        0x6E => state.map_base = value & 63,
        0x6F => state.definition_base = value & 63,
        _ => return write_bounded(state, number, value),
    }
    0
}

/// The registers that refuse values.
fn write_bounded(state: &mut State, number: u8, value: u8) -> u8 {
    match number {
        0x1C if value < 16 => {
            if value & 8 != 0 {
                state.tile_turn = 0;
            }
            if value & 4 != 0 {
                state.ula_turn = 0;
            }
        }
        0x27 if offset_y_fits(value) => state.ula_y = value,
        0x2F if tile_x_high_fits(value) => state.tile_x_high = value,
        0x33 if offset_y_fits(value) => state.lores_y = value,
        0x42 if solid(value) => state.ink_mask = value,
        0x43 if control_fits(value) => {
            drop_half(state);
            state.palette_control = value;
        }
        0x4C if tile_transparent_fits(value) => state.tile_transparent = value,
        0x68 if ula_control_fits(value) => state.ula_control = value,
        0x6B if tile_control_fits(value) => state.tile_control = value,
        0x1C | 0x27 | 0x2F | 0x33 | 0x42 | 0x43 | 0x4C | 0x68 | 0x6B => return 10,
        _ => return 9,
    }
    0
}

fn write_clip(clip: &mut [u8; 4], turn: &mut u8, value: u8) {
    clip[usize::from(*turn & 3)] = value;
    *turn = (*turn + 1) & 3;
}

fn drop_half(state: &mut State) {
    state.held = false;
    state.half = 0;
}

fn write_half(state: &mut State, value: u8) -> u8 {
    if !state.held {
        state.held = true;
        state.half = value;
    } else if value < 2 {
        let colour = u16::from(state.half) << 1 | u16::from(value);
        write_colour(state, colour);
    } else {
        return 10;
    }
    0
}

/// Stores a colour, drops a held half and moves the index on.
fn write_colour(state: &mut State, colour: u16) {
    drop_half(state);
    let palette = palette_written(state.palette_control) & 3;
    state.palettes[palette][usize::from(state.palette_index)] = colour;
    let step = u8::from(state.palette_control & 0x80 == 0);
    state.palette_index = state.palette_index.wrapping_add(step);
}

/// Writes a port; a refusal leaves the state.
pub fn write_port(state: &mut State, port: u16, value: u8) -> u8 {
    if lawful(state) {
        write_port_lawful(state, port, value)
    } else {
        4
    }
}

/// Writes a port of a state that the caller knows is lawful, and leaves it so.
pub fn write_port_lawful(state: &mut State, port: u16, value: u8) -> u8 {
    match port {
        0x00FE => state.border = value & 7,
        0x00FF => state.timex = value,
        0xBF3B if select_fits(value) => state.select = value,
        0xBF3B => return 10,
        0xFF3B if state.select < 64 => state.plus[usize::from(state.select)] = value,
        0xFF3B => state.plus_on = value & 1 != 0,
        _ => return 9,
    }
    0
}
