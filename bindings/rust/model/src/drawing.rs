//! One line of 640 dots.

use crate::colour::widen;
use crate::reply::{
    Reply, DONE, LINE_ABOVE_255, LORES_AND_TILEMAP, NOT_LAWFUL, NO_SUCH_MODE, ULANEXT_AND_ULAPLUS,
    WRONG_BANK, WRONG_BUFFER, X_OFFSET_TOO_LARGE,
};
use crate::state::{lawful, State};
use crate::tilemap::{tile_dot, Layout};
use crate::ula::{ula_dot, ula_mode, Mode};
use crate::{BANK_LENGTH, DOTS};

/// Rules 1.2 and 1.3: draws one line, or refuses and leaves it.
pub fn draw(line: u32, ula: &[u8], tile: &[u8], state: &State, out: &mut [u16]) -> Reply {
    let reply = refusal(line, ula, tile, state, out);
    if reply != DONE {
        return reply;
    }
    for (dot, colour) in out.iter_mut().enumerate() {
        let composed = composed_dot(line, dot as u32, ula, tile, state);
        *colour = composed.unwrap_or(fallback(state));
    }
    DONE
}

/// Rule 10.1: the refusals of a drawing, in the order 1, 2, 3, 4, 6, 7, 5, 8.
fn refusal(line: u32, ula: &[u8], tile: &[u8], state: &State, out: &[u16]) -> Reply {
    match lengths_refusal(line, ula, tile, &[out]) {
        DONE => state_refusal(state),
        reply => reply,
    }
}

/// Rules 10.1 and 10.13: 1, 2, 3 in this order, 3 for each of the lines of dots.
pub fn lengths_refusal(line: u32, ula: &[u8], tile: &[u8], dots: &[&[u16]]) -> Reply {
    if line > 255 {
        return LINE_ABOVE_255;
    }
    if ula.len() != BANK_LENGTH || tile.len() != BANK_LENGTH {
        return WRONG_BANK;
    }
    if dots.iter().any(|dots| dots.len() != DOTS) {
        return WRONG_BUFFER;
    }
    DONE
}

/// Rules 10.1 and 10.13: 4, 6, 7, 5, 8 in this order.
pub(crate) fn state_refusal(state: &State) -> Reply {
    if !lawful(state) {
        return NOT_LAWFUL;
    }
    if state.lores() && state.tilemap_on() {
        return LORES_AND_TILEMAP;
    }
    if state.ulanext() && state.plus_on {
        return ULANEXT_AND_ULAPLUS;
    }
    if ula_mode(state) == Mode::NoMode {
        return NO_SUCH_MODE;
    }
    if state.tilemap_on() && state.tile_x() >= Layout::of(state).width() {
        return X_OFFSET_TOO_LARGE;
    }
    DONE
}

/// Rule 5.13: the colour where all is transparent.
pub(crate) fn fallback(state: &State) -> u16 {
    widen(state.fallback)
}

/// Rules 5.11 and 5.12: a dot of ULA and tilemap, none where it is transparent.
pub(crate) fn composed_dot(
    line: u32,
    dot: u32,
    ula: &[u8],
    tile: &[u8],
    state: &State,
) -> Option<u16> {
    let ula_colour = ula_dot(line, dot, ula, state);
    let tile_dot = tile_dot(line, dot, tile, state);
    let stencil = state.stencil() && state.ula_on() && state.tilemap_on();
    if stencil {
        stencilled(ula_colour, tile_dot.colour)
    } else if tile_dot.bit_8 {
        // 5.12: bit 8 puts the ULA over the tile.
        upper_or_lower(ula_colour, tile_dot.colour)
    } else {
        upper_or_lower(tile_dot.colour, ula_colour)
    }
}

/// Rule 5.11: both dots under the stencil.
fn stencilled(ula: Option<u16>, tile: Option<u16>) -> Option<u16> {
    match (ula, tile) {
        (Some(ula), Some(tile)) => Some(ula & tile),
        _ => None,
    }
}

/// Rule 5.12: both dots without the stencil.
fn upper_or_lower(upper: Option<u16>, lower: Option<u16>) -> Option<u16> {
    match upper {
        Some(colour) => Some(colour),
        None => lower,
    }
}
