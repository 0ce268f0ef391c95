//! Tilemap dots: section 5.

use crate::state::{bit, State};

/// Where a tilemap lies in its bank and how it is laid out.
#[derive(Clone, Copy, Debug, PartialEq, Eq)]
pub struct Layout {
    /// 40 or 80.
    pub columns: u32,
    /// One byte an entry, the attribute from $6C.
    pub one_byte: bool,
    /// $6C.
    pub attribute: u8,
    /// The byte address of the map, $6E × 256.
    pub map_base: u32,
    /// The byte address of the definitions, $6F × 256.
    pub definition_base: u32,
    /// The X offset.
    pub x_offset: u32,
    /// $31.
    pub y_offset: u32,
    /// Is the ULA on?
    pub ula_on: bool,
}

impl Layout {
    /// The layout that a state draws.
    pub fn of(state: &State) -> Layout {
        Layout {
            columns: state.columns(),
            one_byte: state.one_byte_entries(),
            attribute: state.tile_attribute,
            map_base: u32::from(state.map_base) * 256,
            definition_base: u32::from(state.definition_base) * 256,
            x_offset: state.tile_x(),
            y_offset: u32::from(state.tile_y),
            ula_on: state.ula_on(),
        }
    }

    /// Rule 5.1: the width W.
    pub fn width(&self) -> u32 {
        self.columns * 8
    }
}

/// A map entry: its tile number byte, and the upper byte or $6C.
#[derive(Clone, Copy, Debug, PartialEq, Eq)]
pub struct Entry {
    pub number: u8,
    pub attribute: u8,
}

impl Entry {
    /// Rule 5.3: the palette offset.
    pub fn palette_offset(&self) -> u8 {
        self.attribute / 16
    }

    /// Rule 5.3: x mirror.
    pub fn x_mirror(&self) -> bool {
        bit(self.attribute, 3)
    }

    /// Rule 5.3: y mirror.
    pub fn y_mirror(&self) -> bool {
        bit(self.attribute, 2)
    }

    /// Rule 5.3: rotate.
    pub fn rotate(&self) -> bool {
        bit(self.attribute, 1)
    }

    /// Rule 5.3: bit 8 of the entry, for 5.5 and 5.12.
    pub fn bit_8(&self) -> bool {
        bit(self.attribute, 0)
    }

    /// Rule 5.5: the tile number.
    pub fn tile_number(&self, ula_on: bool) -> u32 {
        if self.bit_8() && !ula_on {
            256 + u32::from(self.number)
        } else {
            u32::from(self.number)
        }
    }
}

/// Rule 5.4: a byte of the tile bank.
fn fetch(bank: &[u8], address: u32) -> u8 {
    bank[(address % 16_384) as usize]
}

/// Rule 5.1: tx = (x + X offset) mod W.
fn map_x(layout: &Layout, x: u32) -> u32 {
    (x + layout.x_offset) % layout.width()
}

/// Rule 5.1: ty = (y + $31) mod 256.
fn map_y(layout: &Layout, y: u32) -> u32 {
    (y + layout.y_offset) % 256
}

/// Rules 5.2 and 5.3: the entry for x on line y. x is a dot in 80 columns, a
/// pixel in 40 (5.1).
pub fn tile_entry(bank: &[u8], layout: &Layout, x: u32, y: u32) -> Entry {
    let cell = (map_y(layout, y) / 8) * layout.columns + map_x(layout, x) / 8;
    if layout.one_byte {
        Entry {
            number: fetch(bank, layout.map_base + cell),
            attribute: layout.attribute,
        }
    } else {
        Entry {
            number: fetch(bank, layout.map_base + cell * 2),
            attribute: fetch(bank, layout.map_base + cell * 2 + 1),
        }
    }
}

/// Rule 5.7: the column and the row of the definition that a cell shows at
/// (x, y).
pub fn turned(x_mirror: bool, y_mirror: bool, rotate: bool, x: u32, y: u32) -> (u32, u32) {
    let a = if x_mirror != rotate { 7 - x } else { x };
    let b = if y_mirror { 7 - y } else { y };
    if rotate {
        (b, a)
    } else {
        (a, b)
    }
}

/// Rule 5.6: a pixel of the definition at `start`.
pub fn definition_pixel(bank: &[u8], start: u32, column: u32, row: u32) -> u8 {
    let byte = fetch(bank, start + row * 4 + column / 2);
    if column % 2 == 1 {
        byte % 16
    } else {
        byte / 16
    }
}

/// The pixel, 0 to 15, that an entry shows at x on line y.
fn tile_pixel(bank: &[u8], layout: &Layout, entry: Entry, x: u32, y: u32) -> u8 {
    let (column, row) = turned(
        entry.x_mirror(),
        entry.y_mirror(),
        entry.rotate(),
        map_x(layout, x) % 8,
        map_y(layout, y) % 8,
    );
    let start = layout.definition_base + entry.tile_number(layout.ula_on) * 32;
    definition_pixel(bank, start, column, row)
}

/// Rule 5.8: palette offset × 16 + pixel, whatever 5.9 makes of it. x is a dot
/// in 80 columns, a pixel in 40; the bank is 16,384 bytes.
pub fn tile_index(bank: &[u8], layout: &Layout, x: u32, y: u32) -> u8 {
    let entry = tile_entry(bank, layout, x, y);
    entry.palette_offset() * 16 + tile_pixel(bank, layout, entry, x, y)
}

/// Rule 5.10: is the pixel inside the tilemap clip?
fn in_tile_clip(pixel: u32, line: u32, state: &State) -> bool {
    let [x1, x2, y1, y2] = state.tile_clip.map(u32::from);
    let pair = pixel / 2;
    x1 <= pair && pair <= x2 && y1 <= line && line <= y2
}

/// A tilemap dot: its colour, none where it is transparent, and the entry's
/// bit 8.
#[derive(Clone, Copy, Debug, PartialEq, Eq)]
pub struct TileDot {
    pub colour: Option<u16>,
    pub bit_8: bool,
}

/// Rule 5.9: one tilemap dot.
pub fn tile_dot(line: u32, dot: u32, bank: &[u8], state: &State) -> TileDot {
    if !state.tilemap_on() {
        return TileDot {
            colour: None,
            bit_8: false,
        };
    }
    let layout = Layout::of(state);
    // 5.1: a dot or a pixel.
    let x = if layout.columns == 80 { dot } else { dot / 2 };
    let entry = tile_entry(bank, &layout, x, line);
    let pixel = tile_pixel(bank, &layout, entry, x, line);
    let index = tile_index(bank, &layout, x, line);
    let shown = pixel != state.tile_transparent && in_tile_clip(dot / 2, line, state);
    TileDot {
        colour: shown.then(|| state.tile_palette_shown()[usize::from(index)]),
        bit_8: entry.bit_8(),
    }
}
