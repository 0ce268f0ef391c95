//! The state and its bounds.

/// Every register as its stored byte, the ports, the frame number, the ULAplus
/// registers and the four palettes (ULA first and second, tilemap first and
/// second).
#[derive(Clone, Debug, PartialEq, Eq)]
pub struct State {
    /// $08.
    pub peripheral: u8,
    /// $14.
    pub transparent: u8,
    /// $15.
    pub layers: u8,
    /// $1A.
    pub ula_clip: [u8; 4],
    /// $1B.
    pub tile_clip: [u8; 4],
    /// The coordinate of $1A next to be written.
    pub ula_turn: u8,
    /// The coordinate of $1B next to be written.
    pub tile_turn: u8,
    /// $2F.
    pub tile_x_high: u8,
    /// $30.
    pub tile_x_low: u8,
    /// $31.
    pub tile_y: u8,
    /// $26.
    pub ula_x: u8,
    /// $27.
    pub ula_y: u8,
    /// $32.
    pub lores_x: u8,
    /// $33.
    pub lores_y: u8,
    /// $40.
    pub palette_index: u8,
    /// $42.
    pub ink_mask: u8,
    /// $43.
    pub palette_control: u8,
    /// A first write of $44 waits for its second.
    pub held: bool,
    /// The first write of $44, 0 when none is held.
    pub half: u8,
    /// $4A.
    pub fallback: u8,
    /// $4C.
    pub tile_transparent: u8,
    /// $68.
    pub ula_control: u8,
    /// $6B.
    pub tile_control: u8,
    /// $6C.
    pub tile_attribute: u8,
    /// $6E.
    pub map_base: u8,
    /// $6F.
    pub definition_base: u8,
    /// Port $FE.
    pub border: u8,
    /// Port $FF.
    pub timex: u8,
    /// Port $BF3B.
    pub select: u8,
    /// Bit 0 of the ULAplus mode group.
    pub plus_on: bool,
    /// The frame number.
    pub frame: u8,
    /// The ULAplus registers.
    pub plus: [u8; 64],
    /// The palettes.
    pub palettes: [[u16; 256]; 4],
}

impl State {
    /// The state after a reset.
    pub fn reset() -> State {
        State {
            peripheral: 0,
            transparent: 0xE3,
            layers: 0,
            ula_clip: [0, 255, 0, 191],
            tile_clip: [0, 159, 0, 255],
            ula_turn: 0,
            tile_turn: 0,
            tile_x_high: 0,
            tile_x_low: 0,
            tile_y: 0,
            ula_x: 0,
            ula_y: 0,
            lores_x: 0,
            lores_y: 0,
            palette_index: 0,
            ink_mask: 15,
            palette_control: 0,
            held: false,
            half: 0,
            fallback: 0,
            tile_transparent: 15,
            ula_control: 0,
            tile_control: 0,
            tile_attribute: 0,
            map_base: 0,
            definition_base: 0,
            border: 0,
            timex: 0,
            select: 0,
            plus_on: false,
            frame: 0,
            plus: [0; 64],
            palettes: [[0; 256]; 4],
        }
    }
}

/// Is this one of the solid masks 1, 3, 7, ... 255?
pub(crate) fn solid(mask: u8) -> bool {
    mask != 0 && mask & mask.wrapping_add(1) == 0
}

/// The palette that $43 bits 6-4 choose, 4 where they choose none.
pub(crate) fn palette_written(control: u8) -> usize {
    match control >> 4 & 7 {
        0 => 0,
        4 => 1,
        3 => 2,
        7 => 3,
        _ => 4,
    }
}

// Rule 3.31: the bounds of single fields.

pub(crate) fn control_fits(value: u8) -> bool {
    palette_written(value) < 4
}

pub(crate) fn offset_y_fits(value: u8) -> bool {
    value < 192
}

pub(crate) fn tile_transparent_fits(value: u8) -> bool {
    value < 16
}

pub(crate) fn ula_control_fits(value: u8) -> bool {
    value & 0x3E == 0
}

pub(crate) fn tile_control_fits(value: u8) -> bool {
    value & 0x0F == 0
}

pub(crate) fn tile_x_high_fits(value: u8) -> bool {
    value < 4
}

pub(crate) fn base_fits(value: u8) -> bool {
    value < 64
}

pub(crate) fn select_fits(value: u8) -> bool {
    value < 128
}

pub(crate) fn border_fits(value: u8) -> bool {
    value < 8
}

pub(crate) fn turn_fits(value: u8) -> bool {
    value < 4
}

pub(crate) fn half_fits(held: bool, half: u8) -> bool {
    held || half == 0
}

/// A colour, or several of them joined by OR.
pub(crate) fn colour_fits(colour: u16) -> bool {
    colour < 512
}

/// Rule 3.31: does every field keep its bounds?
pub fn lawful(state: &State) -> bool {
    let small = offset_y_fits(state.ula_y)
        && offset_y_fits(state.lores_y)
        && solid(state.ink_mask)
        && control_fits(state.palette_control)
        && tile_transparent_fits(state.tile_transparent)
        && ula_control_fits(state.ula_control)
        && tile_control_fits(state.tile_control)
        && tile_x_high_fits(state.tile_x_high)
        && base_fits(state.map_base)
        && base_fits(state.definition_base)
        && select_fits(state.select)
        && border_fits(state.border)
        && turn_fits(state.ula_turn)
        && turn_fits(state.tile_turn)
        && half_fits(state.held, state.half);
    small && colours_lawful(&state.palettes)
}

/// Colours keep their bound when their OR does.
fn colours_lawful(palettes: &[[u16; 256]; 4]) -> bool {
    let mut all = 0;
    for palette in palettes {
        for &colour in palette {
            all |= colour;
        }
    }
    colour_fits(all)
}
