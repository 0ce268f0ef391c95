//! ULA dots: section 4.

use crate::colour::{plus_colour, widen};
use crate::state::{bit, State};

/// What the ULA draws.
#[derive(Clone, Copy, Debug, PartialEq, Eq, Hash, PartialOrd, Ord)]
pub enum Mode {
    /// Timex mode 0: bitmap and attributes of the first page.
    Zero,
    /// Timex mode 1: bitmap and attributes of the second page.
    One,
    /// Timex mode 2: one attribute for each byte of the bitmap.
    Two,
    /// Timex mode 6: 512 dots in two colours.
    Six,
    /// LoRes: one palette index for each two by two pixels.
    Lores,
    /// The ULA is off.
    Off,
    /// Rule 4.2: a Timex value that names none.
    NoMode,
}

/// Rules 4.1 and 4.2, but a ULA that is off draws in no mode at all.
pub fn ula_mode(state: &State) -> Mode {
    if state.ula_on() {
        mode_kept(state)
    } else {
        Mode::Off
    }
}

/// Rules 4.1 and 4.2: LoRes, or else the Timex mode, whether the ULA is on or
/// off.
pub fn mode_kept(state: &State) -> Mode {
    if state.lores() {
        return Mode::Lores;
    }
    if !state.timex_allowed() {
        return Mode::Zero;
    }
    match state.timex % 8 {
        0 => Mode::Zero,
        1 => Mode::One,
        2 => Mode::Two,
        6 => Mode::Six,
        _ => Mode::NoMode,
    }
}

/// How attributes and border become colours.
#[derive(Clone, Copy, Debug, PartialEq, Eq, Hash, PartialOrd, Ord)]
pub enum Colouring {
    Plain,
    UlaNext,
    UlaPlus,
}

/// ULANext by $43 bit 0, ULAplus by its mode group; both at once is reply 7.
pub fn colouring(state: &State) -> Colouring {
    if state.ulanext() {
        Colouring::UlaNext
    } else if state.plus_on {
        Colouring::UlaPlus
    } else {
        Colouring::Plain
    }
}

/// Rule 4.4: the byte address of a row and a column.
pub fn byte_address(row: u32, column: u32) -> u32 {
    (row / 64) * 2048 + (row % 8) * 256 + (row / 8 % 8) * 32 + column
}

/// Rule 4.6: the attribute of mode 0.
pub fn attribute_address(row: u32, column: u32) -> u32 {
    0x1800 + (row / 8) * 32 + column
}

/// Rule 4.8: the attribute of mode 2.
pub fn high_colour_address(row: u32, column: u32) -> u32 {
    byte_address(row, column) + 0x2000
}

/// Rule 4.9: the byte of one of the 64 columns of mode 6.
pub fn high_resolution_address(row: u32, column: u32) -> u32 {
    byte_address(row, column / 2) + (column % 2) * 0x2000
}

/// Rule 4.11: the byte of LoRes. Row is y' div 2, column x' div 2.
pub fn lores_address(row: u32, column: u32) -> u32 {
    let address = row * 128 + column;
    if row >= 48 {
        address + 0x800
    } else {
        address
    }
}

/// Rule 4.3: x', by $26 in steps of 8.
pub fn scrolled_x(x: u32, ula_x: u8) -> u32 {
    (x + u32::from(ula_x / 8 * 8)) % 256
}

/// Rules 4.3 and 4.11: y', by $27, or by $33 in LoRes.
pub fn scrolled_y(y: u32, y_offset: u8) -> u32 {
    (y + u32::from(y_offset)) % 192
}

/// Rule 4.9: the dot that a dot of mode 6 reads.
pub fn scrolled_dot(dot: u32, ula_x: u8) -> u32 {
    (dot + 2 * u32::from(ula_x / 8 * 8)) % 512
}

/// Rule 4.11: x' of LoRes, by all of $32.
pub fn scrolled_lores_x(x: u32, lores_x: u8) -> u32 {
    (x + u32::from(lores_x)) % 256
}

/// Rule 4.10: the attribute of mode 6, in bits 01pppiii.
pub fn high_resolution_attribute(timex: u8) -> u8 {
    let ink = timex / 8 % 8;
    let paper = 7 - ink;
    64 + paper * 8 + ink
}

/// Rule 4.13: attribute bits 2-0.
fn ink_part(attribute: u8) -> u8 {
    attribute % 8
}

/// Rule 4.13: attribute bits 5-3.
fn paper_part(attribute: u8) -> u8 {
    attribute / 8 % 8
}

/// Rule 4.13: attribute bit 6.
fn bright_part(attribute: u8) -> u8 {
    attribute / 64 % 2
}

/// Rule 4.13: the index of ink, ink + 8 × bright.
pub fn plain_ink(attribute: u8) -> u8 {
    ink_part(attribute) + 8 * bright_part(attribute)
}

/// Rule 4.13: the index of paper, 16 + paper + 8 × bright.
pub fn plain_paper(attribute: u8) -> u8 {
    16 + paper_part(attribute) + 8 * bright_part(attribute)
}

/// Rule 4.14: are ink and paper swapped in this frame?
pub fn flashes(attribute: u8, frame: u8) -> bool {
    bit(attribute, 7) && frame / 16 % 2 == 1
}

/// Rule 4.15: the index of ink under ULANext.
pub fn next_ink(attribute: u8, mask: u8) -> u8 {
    attribute & mask
}

/// Rules 4.15 and 4.16: the attribute bits above the mask, or none under mask
/// 255.
fn next_paper_part(attribute: u8, mask: u8) -> Option<u8> {
    if mask == 255 {
        None
    } else {
        Some(attribute >> mask.count_ones())
    }
}

/// Rules 4.15 and 4.16: the index of paper under ULANext; none is the fallback.
pub fn next_paper(attribute: u8, mask: u8) -> Option<u8> {
    Some(128 + next_paper_part(attribute, mask)?)
}

/// Rules 4.16 and 4.18: the index of the border under ULANext, or the fallback.
pub fn next_border(border: u8, mask: u8) -> Option<u8> {
    if mask == 255 {
        None
    } else {
        Some(128 + border)
    }
}

/// Rules 4.16 and 4.19: the same in mode 6.
pub fn next_mode_6_border(attribute: u8, mask: u8) -> Option<u8> {
    Some(128 + next_paper_part(attribute, mask)? % 8)
}

/// Rule 4.17: the register of ink under ULAplus.
pub fn plus_ink(attribute: u8) -> u8 {
    (attribute / 64) * 16 + ink_part(attribute)
}

/// Rule 4.17: the register of paper under ULAplus.
pub fn plus_paper(attribute: u8) -> u8 {
    (attribute / 64) * 16 + 8 + paper_part(attribute)
}

/// A colour of the ULA palette shown.
fn palette_colour(state: &State, index: u8) -> u16 {
    state.ula_palette_shown()[usize::from(index)]
}

/// A colour of the ULA palette shown, or the fallback widened.
fn palette_colour_or_fallback(state: &State, index: Option<u8>) -> u16 {
    match index {
        Some(index) => palette_colour(state, index),
        None => widen(state.fallback),
    }
}

/// The colour of a ULAplus register.
fn plus_register_colour(state: &State, register: u8) -> u16 {
    plus_colour(state.plus[usize::from(register)])
}

/// The colour that an attribute's ink has.
fn ink_colour(state: &State, attribute: u8) -> u16 {
    match colouring(state) {
        Colouring::Plain => palette_colour(state, plain_ink(attribute)),
        Colouring::UlaNext => palette_colour(state, next_ink(attribute, state.ink_mask)),
        Colouring::UlaPlus => plus_register_colour(state, plus_ink(attribute)),
    }
}

/// The colour that an attribute's paper has.
fn paper_colour(state: &State, attribute: u8) -> u16 {
    match colouring(state) {
        Colouring::Plain => palette_colour(state, plain_paper(attribute)),
        Colouring::UlaNext => {
            palette_colour_or_fallback(state, next_paper(attribute, state.ink_mask))
        }
        Colouring::UlaPlus => plus_register_colour(state, plus_paper(attribute)),
    }
}

/// Rules 4.5 and 4.14: the colour of one bit of a bitmap. Only plain colours
/// flash.
fn bit_colour(state: &State, attribute: u8, set: bool) -> u16 {
    let swapped = colouring(state) == Colouring::Plain && flashes(attribute, state.frame);
    if set != swapped {
        ink_colour(state, attribute)
    } else {
        paper_colour(state, attribute)
    }
}

/// Rules 4.16, 4.18 and 4.19: the border colour, by port $FE or in mode 6 by
/// the paper.
pub fn border_colour(state: &State) -> u16 {
    if ula_mode(state) == Mode::Six {
        return mode_6_border_colour(state);
    }
    match colouring(state) {
        Colouring::Plain => palette_colour(state, 16 + state.border),
        Colouring::UlaNext => {
            palette_colour_or_fallback(state, next_border(state.border, state.ink_mask))
        }
        Colouring::UlaPlus => plus_register_colour(state, 8 + state.border),
    }
}

/// Rule 4.19: the border colour in mode 6.
fn mode_6_border_colour(state: &State) -> u16 {
    let attribute = high_resolution_attribute(state.timex);
    match colouring(state) {
        Colouring::UlaNext => {
            palette_colour_or_fallback(state, next_mode_6_border(attribute, state.ink_mask))
        }
        Colouring::Plain | Colouring::UlaPlus => paper_colour(state, attribute),
    }
}

/// Rule 4.5: the bit at a place, 0 the leftmost.
fn bitmap_bit(byte: u8, place: u32) -> bool {
    bit(byte, 7 - place)
}

/// A byte of the ULA bank.
fn fetch(bank: &[u8], address: u32) -> u8 {
    bank[address as usize]
}

/// Rules 4.6 to 4.8: the colour of display pixel (x, y) in modes 0, 1 and 2.
fn attribute_pixel(mode: Mode, x: u32, y: u32, bank: &[u8], state: &State) -> u16 {
    let across = scrolled_x(x, state.ula_x);
    let row = scrolled_y(y, state.ula_y);
    let column = across / 8;
    let (bitmap, attribute) = match mode {
        // 4.7: both on the second page.
        Mode::One => (
            byte_address(row, column) + 0x2000,
            attribute_address(row, column) + 0x2000,
        ),
        // 4.8: an attribute for each byte.
        Mode::Two => (byte_address(row, column), high_colour_address(row, column)),
        _ => (byte_address(row, column), attribute_address(row, column)),
    };
    let set = bitmap_bit(fetch(bank, bitmap), across % 8);
    bit_colour(state, fetch(bank, attribute), set)
}

/// The colour of display dot (dot, y), dot 0 to 511, in mode 6.
fn high_resolution_dot(dot: u32, y: u32, bank: &[u8], state: &State) -> u16 {
    let across = scrolled_dot(dot, state.ula_x);
    let row = scrolled_y(y, state.ula_y);
    let byte = fetch(bank, high_resolution_address(row, across / 8));
    let attribute = high_resolution_attribute(state.timex);
    bit_colour(state, attribute, bitmap_bit(byte, across % 8))
}

/// Rule 4.12: the colour of display pixel (x, y) in LoRes, whatever the
/// colouring.
fn lores_pixel(x: u32, y: u32, bank: &[u8], state: &State) -> u16 {
    let across = scrolled_lores_x(x, state.lores_x);
    let row = scrolled_y(y, state.lores_y);
    let index = fetch(bank, lores_address(row / 2, across / 2));
    palette_colour(state, index)
}

/// Rule 2.4: is this pixel in the display?
pub fn in_display(pixel: u32, line: u32) -> bool {
    (32..=287).contains(&pixel) && (32..=223).contains(&line)
}

/// Rule 4.21: is this pixel of the display in the ULA clip?
fn in_ula_clip(x: u32, y: u32, state: &State) -> bool {
    let [x1, x2, y1, y2] = state.ula_clip.map(u32::from);
    x1 <= x && x <= x2 && y1 <= y && y <= y2
}

/// The colour inside the display, transparency aside.
fn display_colour(line: u32, dot: u32, bank: &[u8], state: &State) -> u16 {
    let x = dot / 2 - 32;
    let y = line - 32;
    match ula_mode(state) {
        Mode::Lores => lores_pixel(x, y, bank, state),
        Mode::Six => high_resolution_dot(dot - 64, y, bank, state),
        mode => attribute_pixel(mode, x, y, bank, state),
    }
}

/// Rules 4.21 and 4.22: one ULA dot, none where it is transparent.
pub fn ula_dot(line: u32, dot: u32, bank: &[u8], state: &State) -> Option<u16> {
    if !state.ula_on() {
        return None;
    }
    let pixel = dot / 2;
    let colour = if in_display(pixel, line) {
        if !in_ula_clip(pixel - 32, line - 32, state) {
            return None;
        }
        display_colour(line, dot, bank, state)
    } else {
        border_colour(state)
    };
    if colour / 2 == u16::from(state.transparent) {
        None
    } else {
        Some(colour)
    }
}
