//! The state, its bounds, reset and the next frame.

use crate::reply::{Reply, DONE, NOT_LAWFUL};

/// Rule 3.1: the places of the four palettes in [`State::palettes`].
pub const ULA_FIRST: usize = 0;
pub const ULA_SECOND: usize = 1;
pub const TILEMAP_FIRST: usize = 2;
pub const TILEMAP_SECOND: usize = 3;

/// Rule 3.1: every register as its stored byte, the ports, the frame number,
/// the ULAplus registers and the four palettes. 3.3 to 3.28 say what each is.
#[derive(Clone, Debug, PartialEq, Eq)]
pub struct State {
    /// $08: Timex modes, by bit 2.
    pub peripheral: u8,
    /// $14: transparent colour.
    pub transparent: u8,
    /// $15: LoRes, by bit 7, and the order of the layers, by bits 4-2.
    pub layers: u8,
    /// $1A: ULA clip X1, X2, Y1, Y2.
    pub ula_clip: [u8; 4],
    /// $1B: tilemap clip X1, X2, Y1, Y2.
    pub tile_clip: [u8; 4],
    /// The coordinate of $1A next to be written.
    pub ula_turn: u8,
    /// The coordinate of $1B next to be written.
    pub tile_turn: u8,
    /// $2F: tilemap X offset, upper part.
    pub tile_x_high: u8,
    /// $30: tilemap X offset, lower part.
    pub tile_x_low: u8,
    /// $31: tilemap Y offset.
    pub tile_y: u8,
    /// $26: X offset of the ULA and its Timex modes.
    pub ula_x: u8,
    /// $27: Y offset of the ULA and its Timex modes.
    pub ula_y: u8,
    /// $32: LoRes X offset.
    pub lores_x: u8,
    /// $33: LoRes Y offset.
    pub lores_y: u8,
    /// $40: palette index.
    pub palette_index: u8,
    /// $42: ink mask.
    pub ink_mask: u8,
    /// $43: palette control.
    pub palette_control: u8,
    /// A first write of $44 waits for its second.
    pub held: bool,
    /// The first write of $44, 0 when none is held.
    pub half: u8,
    /// $4A: fallback.
    pub fallback: u8,
    /// $4C: tile transparency.
    pub tile_transparent: u8,
    /// $68: ULA control.
    pub ula_control: u8,
    /// $6B: tilemap control.
    pub tile_control: u8,
    /// $6C: default tilemap attribute.
    pub tile_attribute: u8,
    /// $6E: tilemap base address, in units of 256 bytes.
    pub map_base: u8,
    /// $6F: tile definitions base address, in units of 256 bytes.
    pub definition_base: u8,
    /// Port $FE: border.
    pub border: u8,
    /// Port $FF: Timex mode and colours.
    pub timex: u8,
    /// Port $BF3B: ULAplus register select.
    pub select: u8,
    /// Bit 0 of the ULAplus mode group.
    pub plus_on: bool,
    /// The frame number.
    pub frame: u8,
    /// The 64 ULAplus registers.
    pub plus: [u8; 64],
    /// The four palettes of 256 colours.
    pub palettes: [[u16; 256]; 4],
}

impl State {
    /// Rule 3.2: the state after a reset.
    pub fn reset() -> State {
        State {
            peripheral: 0,
            transparent: 0xE3,
            layers: 0,
            ula_clip: [0, 255, 0, 191],
            tile_clip: [0, 159, 0, 255],
            ula_turn: 0,
            tile_turn: 0,
            tile_x_high: 0,
            tile_x_low: 0,
            tile_y: 0,
            ula_x: 0,
            ula_y: 0,
            lores_x: 0,
            lores_y: 0,
            palette_index: 0,
            ink_mask: 15,
            palette_control: 0,
            held: false,
            half: 0,
            fallback: 0,
            tile_transparent: 15,
            ula_control: 0,
            tile_control: 0,
            tile_attribute: 0,
            map_base: 0,
            definition_base: 0,
            border: 0,
            timex: 0,
            select: 0,
            plus_on: false,
            frame: 0,
            plus: [0; 64],
            palettes: [[0; 256]; 4],
        }
    }

    /// Rule 3.3: are Timex modes allowed?
    pub fn timex_allowed(&self) -> bool {
        bit(self.peripheral, 2)
    }

    /// Rule 3.5: is LoRes on?
    pub fn lores(&self) -> bool {
        bit(self.layers, 7)
    }

    /// Rule 3.20: is the ULA on?
    pub fn ula_on(&self) -> bool {
        !bit(self.ula_control, 7)
    }

    /// Rule 3.20: is the stencil asked for?
    pub fn stencil(&self) -> bool {
        bit(self.ula_control, 0)
    }

    /// Rule 3.17: is ULANext on?
    pub fn ulanext(&self) -> bool {
        bit(self.palette_control, 0)
    }

    /// Rule 3.21: is the tilemap on?
    pub fn tilemap_on(&self) -> bool {
        bit(self.tile_control, 7)
    }

    /// Rule 3.21: the columns of the tilemap.
    pub fn columns(&self) -> u32 {
        if bit(self.tile_control, 6) {
            80
        } else {
            40
        }
    }

    /// Rule 3.21: has an entry one byte?
    pub fn one_byte_entries(&self) -> bool {
        bit(self.tile_control, 5)
    }

    /// Rule 3.23: the X offset of the tilemap.
    pub fn tile_x(&self) -> u32 {
        u32::from(self.tile_x_high) * 256 + u32::from(self.tile_x_low)
    }

    /// Rule 3.17: the ULA palette shown.
    pub fn ula_palette_shown(&self) -> &[u16; 256] {
        if bit(self.palette_control, 1) {
            &self.palettes[ULA_SECOND]
        } else {
            &self.palettes[ULA_FIRST]
        }
    }

    /// Rule 3.21: the tilemap palette shown.
    pub fn tile_palette_shown(&self) -> &[u16; 256] {
        if bit(self.tile_control, 4) {
            &self.palettes[TILEMAP_SECOND]
        } else {
            &self.palettes[TILEMAP_FIRST]
        }
    }
}

/// Bit `number` of a byte, 0 the lowest.
pub fn bit(value: u8, number: u32) -> bool {
    (value >> number) % 2 == 1
}

/// Rules 3.6 and 3.32: the bound of $33 and of $27.
pub fn y_offset_in_bounds(value: u8) -> bool {
    value <= 191
}

/// Rule 3.16: the values that $42 may have.
pub fn is_ink_mask(value: u8) -> bool {
    [1, 3, 7, 15, 31, 63, 127, 255].contains(&value)
}

/// Rule 3.17: the place of the palette that $43 lets be written, or none.
pub fn palette_written(control: u8) -> Option<usize> {
    match control / 16 % 8 {
        0b000 => Some(ULA_FIRST),
        0b100 => Some(ULA_SECOND),
        0b011 => Some(TILEMAP_FIRST),
        0b111 => Some(TILEMAP_SECOND),
        _ => None,
    }
}

/// Rule 3.19: the bound of $4C.
pub fn tile_transparent_in_bounds(value: u8) -> bool {
    value <= 15
}

/// Rule 3.20: the bits of $68 that must be 0.
pub fn ula_control_in_bounds(value: u8) -> bool {
    value & 0b0011_1110 == 0
}

/// Rule 3.21: the bits of $6B that must be 0.
pub fn tile_control_in_bounds(value: u8) -> bool {
    value & 0b0000_1111 == 0
}

/// Rule 3.23: the bound of $2F.
pub fn tile_x_high_in_bounds(value: u8) -> bool {
    value <= 3
}

/// Rules 3.24 and 3.31: the bound of $6E and of $6F as they are stored.
pub fn base_in_bounds(value: u8) -> bool {
    value < 64
}

/// Rule 3.27: the bound of port $BF3B.
pub fn select_in_bounds(value: u8) -> bool {
    value < 128
}

/// Rule 3.31: the bound of the border.
pub fn border_in_bounds(value: u8) -> bool {
    value <= 7
}

/// Rule 3.31: the bound of a clip's turn.
pub fn turn_in_bounds(value: u8) -> bool {
    value <= 3
}

/// Rule 3.31: the bound of the held byte, by whether a half is held.
pub fn half_in_bounds(held: bool, half: u8) -> bool {
    held || half == 0
}

/// Rule 3.31: the bound of a colour.
pub fn colour_in_bounds(colour: u16) -> bool {
    colour <= 511
}

/// Rule 3.31 for what has its bound in 3.6 to 3.27 or in 3.32.
fn registers_lawful(state: &State) -> bool {
    y_offset_in_bounds(state.ula_y)
        && y_offset_in_bounds(state.lores_y)
        && is_ink_mask(state.ink_mask)
        && palette_written(state.palette_control).is_some()
        && tile_transparent_in_bounds(state.tile_transparent)
        && ula_control_in_bounds(state.ula_control)
        && tile_control_in_bounds(state.tile_control)
        && tile_x_high_in_bounds(state.tile_x_high)
        && base_in_bounds(state.map_base)
        && base_in_bounds(state.definition_base)
        && select_in_bounds(state.select)
}

/// Rule 3.31: is the state lawful?
pub fn lawful(state: &State) -> bool {
    let mut colours = state.palettes.iter().flatten();
    registers_lawful(state)
        && border_in_bounds(state.border)
        && colours.all(|&colour| colour_in_bounds(colour))
        && turn_in_bounds(state.ula_turn)
        && turn_in_bounds(state.tile_turn)
        && half_in_bounds(state.held, state.half)
}

/// Rules 3.30 and 10.4: the next frame, or 4.
pub fn next_frame(state: &State) -> (Reply, State) {
    let mut after = state.clone();
    if !lawful(state) {
        return (NOT_LAWFUL, after);
    }
    after.frame = if state.frame == 255 {
        0
    } else {
        state.frame + 1
    };
    (DONE, after)
}
