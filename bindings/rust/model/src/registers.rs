//! Register and port writes and reads.

use crate::colour::widen;
use crate::reply::{Reply, DONE, NOT_LAWFUL, NO_SUCH_REGISTER, OUT_OF_BOUNDS};
use crate::state::{
    bit, is_ink_mask, lawful, palette_written, select_in_bounds, tile_control_in_bounds,
    tile_transparent_in_bounds, tile_x_high_in_bounds, ula_control_in_bounds, y_offset_in_bounds,
    State,
};

/// Rule 3.25: port $FE, the border.
pub const BORDER_PORT: u16 = 0x00FE;
/// Rule 3.26: port $FF, the Timex mode.
pub const TIMEX_PORT: u16 = 0x00FF;
/// Rule 3.27: port $BF3B, which selects for port $FF3B.
pub const SELECT_PORT: u16 = 0xBF3B;
/// Rule 3.28: port $FF3B, a ULAplus register or the mode group.
pub const PLUS_PORT: u16 = 0xFF3B;

/// Has section 3 this register?
pub fn register_exists(number: u8) -> bool {
    matches!(
        number,
        0x08 | 0x14
            | 0x15
            | 0x1A
            | 0x1B
            | 0x1C
            | 0x26
            | 0x27
            | 0x2F
            | 0x30
            | 0x31
            | 0x32
            | 0x33
            | 0x40
            | 0x41
            | 0x42
            | 0x43
            | 0x44
            | 0x4A
            | 0x4C
            | 0x68
            | 0x6B
            | 0x6C
            | 0x6E
            | 0x6F
    )
}

/// Rule 10.2: writes a register, or refuses by 4, 9, 10 in this order.
pub fn write_register(state: &State, number: u8, value: u8) -> (Reply, State) {
    if !lawful(state) {
        return (NOT_LAWFUL, state.clone());
    }
    if !register_exists(number) {
        return (NO_SUCH_REGISTER, state.clone());
    }
    if !register_value_in_bounds(state, number, value) {
        return (OUT_OF_BOUNDS, state.clone());
    }
    (DONE, after_register_write(state, number, value))
}

/// May this value be written to this register? Registers to which section 3
/// gives no bounds take every byte.
fn register_value_in_bounds(state: &State, number: u8, value: u8) -> bool {
    match number {
        // 3.8: the upper half must be 0.
        0x1C => value / 16 == 0,
        0x2F => tile_x_high_in_bounds(value),
        0x27 | 0x33 => y_offset_in_bounds(value),
        0x42 => is_ink_mask(value),
        0x43 => palette_written(value).is_some(),
        // 3.12: the second write must be 0 or 1.
        0x44 => !state.held || value / 2 == 0,
        0x4C => tile_transparent_in_bounds(value),
        0x68 => ula_control_in_bounds(value),
        0x6B => tile_control_in_bounds(value),
        _ => true,
    }
}

/// The state after an accepted write.
fn after_register_write(state: &State, number: u8, value: u8) -> State {
    let mut after = state.clone();
    match number {
        0x08 => after.peripheral = value,
        0x14 => after.transparent = value,
        0x15 => after.layers = value,
        0x1A => write_clip(&mut after.ula_clip, &mut after.ula_turn, value),
        0x1B => write_clip(&mut after.tile_clip, &mut after.tile_turn, value),
        0x1C => restart_turns(&mut after, value),
        0x26 => after.ula_x = value,
        0x27 => after.ula_y = value,
        0x2F => after.tile_x_high = value,
        0x30 => after.tile_x_low = value,
        0x31 => after.tile_y = value,
        0x32 => after.lores_x = value,
        0x33 => after.lores_y = value,
        0x40..=0x44 => write_palette_register(&mut after, number, value),
        0x4A => after.fallback = value,
        0x4C => after.tile_transparent = value,
        0x68 => after.ula_control = value,
        0x6B => after.tile_control = value,
        0x6C => after.tile_attribute = value,
        // 3.24: the upper two bits are dropped.
        0x6E => after.map_base = value % 64,
        0x6F => after.definition_base = value % 64,
        _ => {}
    }
    after
}

/// Rule 3.7: writes the coordinate whose turn it is.
fn write_clip(clip: &mut [u8; 4], turn: &mut u8, value: u8) {
    clip[usize::from(*turn)] = value;
    *turn = if *turn == 3 { 0 } else { *turn + 1 };
}

/// Rule 3.8: a write of $1C.
fn restart_turns(state: &mut State, value: u8) {
    if bit(value, 3) {
        state.tile_turn = 0;
    }
    if bit(value, 2) {
        state.ula_turn = 0;
    }
}

/// Registers $40 to $44.
fn write_palette_register(state: &mut State, number: u8, value: u8) {
    match number {
        0x40 => {
            drop_half(state);
            state.palette_index = value;
        }
        0x41 => {
            drop_half(state);
            write_colour(state, widen(value));
        }
        0x42 => state.ink_mask = value,
        0x43 => {
            drop_half(state);
            state.palette_control = value;
        }
        _ => write_half(state, value),
    }
}

/// Rule 3.12: a write of $44. The second makes the colour first × 2 + second.
fn write_half(state: &mut State, value: u8) {
    if state.held {
        let colour = u16::from(state.half) * 2 + u16::from(value % 2);
        drop_half(state);
        write_colour(state, colour);
    } else {
        state.held = true;
        state.half = value;
    }
}

/// Rules 3.14 and 3.31: no half is held any more, and the held byte is 0.
fn drop_half(state: &mut State) {
    state.held = false;
    state.half = 0;
}

/// Rule 3.13: stores a colour and, unless $43 bit 7 is set, moves the index on.
fn write_colour(state: &mut State, colour: u16) {
    if let Some(palette) = palette_written(state.palette_control) {
        state.palettes[palette][usize::from(state.palette_index)] = colour;
    }
    if !bit(state.palette_control, 7) {
        state.palette_index = if state.palette_index == 255 {
            0
        } else {
            state.palette_index + 1
        };
    }
}

/// Rules 10.3 and 10.9: reads a register, or refuses by 4, 9 in this order and
/// gives 0.
pub fn read_register(state: &State, number: u8) -> (Reply, u8) {
    if !lawful(state) {
        return (NOT_LAWFUL, 0);
    }
    if !register_exists(number) {
        return (NO_SUCH_REGISTER, 0);
    }
    (DONE, register_value(state, number))
}

/// Rules 3.9, 3.15 and 3.29: what a register reads as.
fn register_value(state: &State, number: u8) -> u8 {
    match number {
        0x08 => state.peripheral,
        0x14 => state.transparent,
        0x15 => state.layers,
        0x1A => state.ula_clip[usize::from(state.ula_turn)],
        0x1B => state.tile_clip[usize::from(state.tile_turn)],
        // 3.9: both turns in one byte.
        0x1C => state.tile_turn * 64 + state.ula_turn,
        0x26 => state.ula_x,
        0x27 => state.ula_y,
        0x2F => state.tile_x_high,
        0x30 => state.tile_x_low,
        0x31 => state.tile_y,
        0x32 => state.lores_x,
        0x33 => state.lores_y,
        0x40 => state.palette_index,
        // 3.15, for $44 too: the index stays.
        0x41 => (colour_written(state) / 2) as u8,
        0x42 => state.ink_mask,
        0x43 => state.palette_control,
        0x44 => (colour_written(state) % 2) as u8,
        0x4A => state.fallback,
        0x4C => state.tile_transparent,
        0x68 => state.ula_control,
        0x6B => state.tile_control,
        0x6C => state.tile_attribute,
        0x6E => state.map_base,
        0x6F => state.definition_base,
        _ => 0,
    }
}

/// The colour at the index of the palette being written.
fn colour_written(state: &State) -> u16 {
    match palette_written(state.palette_control) {
        Some(palette) => state.palettes[palette][usize::from(state.palette_index)],
        None => 0,
    }
}

/// Rule 10.2: writes a port, or refuses by 4, 9, 10 in this order.
pub fn write_port(state: &State, port: u16, value: u8) -> (Reply, State) {
    let mut after = state.clone();
    if !lawful(state) {
        return (NOT_LAWFUL, after);
    }
    match port {
        BORDER_PORT => after.border = value % 8,
        TIMEX_PORT => after.timex = value,
        SELECT_PORT if !select_in_bounds(value) => return (OUT_OF_BOUNDS, after),
        SELECT_PORT => after.select = value,
        PLUS_PORT => write_plus(&mut after, value),
        _ => return (NO_SUCH_REGISTER, after),
    }
    (DONE, after)
}

/// Rule 3.27: is the mode group selected?
fn mode_group(state: &State) -> bool {
    state.select >= 64
}

/// Rule 3.28: a write of port $FF3B.
fn write_plus(state: &mut State, value: u8) {
    if mode_group(state) {
        state.plus_on = value % 2 == 1;
    } else {
        state.plus[usize::from(state.select)] = value;
    }
}

/// Rules 10.3 and 10.9: reads a port, or refuses by 4, 9 in this order and
/// gives 0.
pub fn read_port(state: &State, port: u16) -> (Reply, u8) {
    if !lawful(state) {
        return (NOT_LAWFUL, 0);
    }
    match port {
        TIMEX_PORT if state.timex_allowed() => (DONE, state.timex),
        // 3.28: bit 0, and zeros above it.
        PLUS_PORT if mode_group(state) => (DONE, u8::from(state.plus_on)),
        PLUS_PORT => (DONE, state.plus[usize::from(state.select)]),
        _ => (NO_SUCH_REGISTER, 0),
    }
}
