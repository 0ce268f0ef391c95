//! One line, drawn by cells.

use crate::state::{lawful, State};
use crate::{plus_colour, widen, BANK_LENGTH, DOTS};

/// Marks a transparent dot.
const CLEAR: u16 = 0x8000;

/// Marks a tile dot that lies under the ULA.
const UNDER: u16 = 0x4000;

/// The nine bits of a colour.
const COLOUR: u16 = 0x01FF;

type Bank = [u8; BANK_LENGTH];
type Line = [u16; DOTS];

/// Rules 1.2 and 1.3: draws one line, or refuses and leaves it.
pub fn draw(line: u32, ula: &[u8], tile: &[u8], state: &State, out: &mut [u16]) -> u8 {
    match Lent::new(line, ula, tile, out) {
        Ok(_) if !lawful(state) => 4,
        Ok(lent) => lent.draw(state),
        Err(reply) => reply,
    }
}

/// Draws one line of a state that the caller knows is lawful, so that many
/// lines need one judging.
pub fn draw_lawful(line: u32, ula: &[u8], tile: &[u8], state: &State, out: &mut [u16]) -> u8 {
    match Lent::new(line, ula, tile, out) {
        Ok(lent) => lent.draw(state),
        Err(reply) => reply,
    }
}

/// What a line is drawn from and into besides its state, of the right lengths.
struct Lent<'a> {
    line: usize,
    ula: &'a Bank,
    tile: &'a Bank,
    out: &'a mut Line,
}

impl<'a> Lent<'a> {
    /// Rule 10.1: the refusals that go before those by the state, 1, 2, 3.
    fn new(line: u32, ula: &'a [u8], tile: &'a [u8], out: &'a mut [u16]) -> Result<Lent<'a>, u8> {
        if line > 255 {
            return Err(1);
        }
        let (Ok(ula), Ok(tile)) = (ula.try_into(), tile.try_into()) else {
            return Err(2);
        };
        let Ok(out) = out.try_into() else {
            return Err(3);
        };
        let line = line as usize;
        Ok(Lent {
            line,
            ula,
            tile,
            out,
        })
    }

    /// Draws by a lawful state, or refuses it.
    fn draw(self, state: &State) -> u8 {
        let reply = refusal(state);
        if reply != 0 {
            return reply;
        }
        let Lent {
            line,
            ula,
            tile,
            out,
        } = self;
        let fallback = widen(state.fallback);
        if state.ula_control & 0x80 != 0 {
            out.fill(CLEAR);
        } else {
            ula_line(line, ula, state, out);
        }
        if state.tile_control & 0x80 == 0 {
            for dot in out {
                *dot = if *dot & CLEAR == 0 { *dot } else { fallback };
            }
            return 0;
        }
        let mut tiles = [CLEAR; DOTS];
        tile_line(line, tile, state, &mut tiles);
        if state.ula_control & 0x81 == 1 {
            stencil(out, &tiles, fallback);
        } else {
            compose(out, &tiles, fallback);
        }
        0
    }
}

/// Rule 10.1: the refusals by a lawful state, 6, 7, 5, 8.
fn refusal(state: &State) -> u8 {
    let lores = state.layers & 0x80 != 0;
    let tilemap = state.tile_control & 0x80 != 0;
    let width = if state.tile_control & 0x40 != 0 {
        640
    } else {
        320
    };
    if lores && tilemap {
        6
    } else if state.plus_on && state.palette_control & 1 != 0 {
        7
    } else if state.ula_control & 0x80 == 0 && !lores && no_mode(timex_mode(state)) {
        5
    } else if tilemap && tile_offset(state) >= width {
        8
    } else {
        0
    }
}

fn timex_mode(state: &State) -> u8 {
    if state.peripheral & 4 != 0 {
        state.timex & 7
    } else {
        0
    }
}

fn no_mode(mode: u8) -> bool {
    !matches!(mode, 0 | 1 | 2 | 6)
}

fn tile_offset(state: &State) -> usize {
    usize::from(state.tile_x_high) << 8 | usize::from(state.tile_x_low)
}

/// How attributes become colours.
#[derive(Clone, Copy)]
enum Rule {
    Plain,
    Next,
    Plus,
}

/// What a line needs of the state to colour its cells.
struct Colours<'a> {
    rule: Rule,
    palette: &'a [u16; 256],
    plus: &'a [u8; 64],
    transparent: u16,
    /// 0x80 in the frames that flash.
    flash: u8,
    mask: u8,
    shift: u32,
    fallback: u16,
}

impl Colours<'_> {
    fn of(state: &State) -> Colours<'_> {
        Colours {
            rule: if state.palette_control & 1 != 0 {
                Rule::Next
            } else if state.plus_on {
                Rule::Plus
            } else {
                Rule::Plain
            },
            palette: &state.palettes[usize::from(state.palette_control >> 1 & 1)],
            plus: &state.plus,
            transparent: u16::from(state.transparent),
            flash: (state.frame & 0x10) << 3,
            mask: state.ink_mask,
            shift: state.ink_mask.count_ones(),
            fallback: widen(state.fallback),
        }
    }

    /// The colour, marked where it is transparent.
    fn marked(&self, colour: u16) -> u16 {
        if colour >> 1 == self.transparent {
            CLEAR
        } else {
            colour
        }
    }

    fn palette(&self, index: u8) -> u16 {
        self.marked(self.palette[usize::from(index)])
    }

    fn plus(&self, register: u8) -> u16 {
        self.marked(plus_colour(self.plus[usize::from(register & 63)]))
    }

    /// Index 128 and up under ULANext, the fallback under mask 255.
    fn paper_group(&self, part: u8) -> u16 {
        if self.mask == 255 {
            self.marked(self.fallback)
        } else {
            self.palette(128 | part)
        }
    }

    /// Rule 4.15: the attribute bits above the mask, 0 under mask 255.
    fn past_mask(&self, attribute: u8) -> u8 {
        (u32::from(attribute) >> self.shift) as u8
    }

    /// The colours of the bits 1 and 0 under an attribute.
    fn pair(&self, attribute: u8) -> (u16, u16) {
        let ink = attribute & 7;
        let paper = attribute >> 3 & 7;
        match self.rule {
            Rule::Plain => {
                let bright = attribute >> 3 & 8;
                let ink = self.palette(ink | bright);
                let paper = self.palette(16 | paper | bright);
                if attribute & self.flash != 0 {
                    (paper, ink)
                } else {
                    (ink, paper)
                }
            }
            Rule::Next => (
                self.palette(attribute & self.mask),
                self.paper_group(self.past_mask(attribute)),
            ),
            Rule::Plus => {
                let group = attribute >> 6 << 4;
                (self.plus(group | ink), self.plus(group | 8 | paper))
            }
        }
    }

    /// The border by port $FE.
    fn border(&self, border: u8) -> u16 {
        match self.rule {
            Rule::Plain => self.palette(16 | border),
            Rule::Next => self.paper_group(border),
            Rule::Plus => self.plus(8 | border),
        }
    }

    /// The border of mode 6.
    fn high_resolution_border(&self, attribute: u8) -> u16 {
        match self.rule {
            Rule::Next => self.paper_group(self.past_mask(attribute) & 7),
            _ => self.pair(attribute).1,
        }
    }
}

/// Draws the ULA's line, transparent dots marked.
fn ula_line(line: usize, bank: &Bank, state: &State, out: &mut Line) {
    let colours = Colours::of(state);
    let lores = state.layers & 0x80 != 0;
    let mode = timex_mode(state);
    let high = !lores && mode == 6;
    let attribute = 0x78 ^ ((state.timex >> 3 & 7) * 9);
    let border = if high {
        colours.high_resolution_border(attribute)
    } else {
        colours.border(state.border)
    };
    if !(32..224).contains(&line) {
        out.fill(border);
        return;
    }
    out[..64].fill(border);
    out[576..].fill(border);
    let display = &mut out[64..576];
    let y = line - 32;
    let [left, right, top, bottom] = state.ula_clip.map(usize::from);
    if y < top || y > bottom || left > right {
        display.fill(CLEAR);
        return;
    }
    let y_offset = if lores { state.lores_y } else { state.ula_y };
    let row = (y + usize::from(y_offset)) % 192;
    if lores {
        lores_row(bank, row, usize::from(state.lores_x), &colours, display);
    } else if high {
        high_row(bank, row, state.ula_x, colours.pair(attribute), display);
    } else {
        cell_row(bank, row, state.ula_x, mode, &colours, display);
    }
    display[..left * 2].fill(CLEAR);
    display[right * 2 + 2..].fill(CLEAR);
}

/// The address of a row of the bitmap.
fn row_address(row: usize) -> usize {
    (row & 0xC0) << 5 | (row & 7) << 8 | (row & 0x38) << 2
}

/// 32 bytes of a bank.
fn columns(bank: &Bank, start: usize) -> &[u8] {
    &bank[start..start + 32]
}

/// Modes 0, 1 and 2.
fn cell_row(bank: &Bank, row: usize, x: u8, mode: u8, colours: &Colours, out: &mut [u16]) {
    let address = row_address(row);
    let attributes = 0x1800 + (row >> 3) * 32;
    let (bytes, attributes) = match mode {
        0 => (address, attributes),
        1 => (address + 0x2000, attributes + 0x2000),
        _ => (address, address + 0x2000),
    };
    let bytes = columns(bank, bytes);
    let attributes = columns(bank, attributes);
    let first = usize::from(x >> 3);
    for (cell, dots) in out.chunks_exact_mut(16).enumerate() {
        let column = (cell + first) & 31;
        let (ink, paper) = colours.pair(attributes[column]);
        let byte = bytes[column];
        for (place, pair) in dots.chunks_exact_mut(2).enumerate() {
            let colour = if byte & 0x80 >> place != 0 {
                ink
            } else {
                paper
            };
            pair.fill(colour);
        }
    }
}

/// Mode 6.
fn high_row(bank: &Bank, row: usize, x: u8, pair: (u16, u16), out: &mut [u16]) {
    let address = row_address(row);
    let even = columns(bank, address);
    let odd = columns(bank, address + 0x2000);
    let first = usize::from(x >> 3);
    for (cell, dots) in out.chunks_exact_mut(16).enumerate() {
        let column = (cell + first) & 31;
        let bits = u16::from_be_bytes([even[column], odd[column]]);
        for (place, dot) in dots.iter_mut().enumerate() {
            *dot = if bits & 0x8000 >> place != 0 {
                pair.0
            } else {
                pair.1
            };
        }
    }
}

/// LoRes.
fn lores_row(bank: &Bank, row: usize, x: usize, colours: &Colours, out: &mut [u16]) {
    let row = row >> 1;
    let start = row * 128 + if row < 48 { 0 } else { 0x800 };
    let bytes = &bank[start..start + 128];
    let mut shown = [0; 128];
    for (colour, &index) in shown.iter_mut().zip(bytes) {
        *colour = colours.palette(index);
    }
    for (pixel, dots) in out.chunks_exact_mut(2).enumerate() {
        dots.fill(shown[((pixel + x) & 255) >> 1]);
    }
}

/// The eight pixels that a tile shows on a row of its cell, the leftmost in the
/// upper four bits.
fn tile_row(tile: &[u8; 32], attribute: u8, y: usize) -> u32 {
    let y = if attribute & 4 != 0 { 7 - y } else { y };
    let rotate = attribute & 2 != 0;
    let row = if rotate {
        tile_column(tile, y)
    } else {
        let start = y * 4;
        u32::from_be_bytes([
            tile[start],
            tile[start + 1],
            tile[start + 2],
            tile[start + 3],
        ])
    };
    if (attribute & 8 != 0) != rotate {
        reversed(row)
    } else {
        row
    }
}

/// A column of a tile, its top in the upper four bits.
fn tile_column(tile: &[u8; 32], x: usize) -> u32 {
    let shift = if x & 1 == 0 { 4 } else { 0 };
    let byte = x >> 1 & 3;
    let mut column = 0;
    for row in 0..8 {
        column = column << 4 | u32::from(tile[row * 4 + byte] >> shift & 15);
    }
    column
}

/// Eight pixels from right to left.
pub(crate) fn reversed(row: u32) -> u32 {
    let bytes = row.swap_bytes();
    (bytes >> 4 & 0x0F0F_0F0F) | (bytes & 0x0F0F_0F0F) << 4
}

/// The tilemap palette shown by palette offset and pixel, the transparent pixel
/// marked.
fn tile_colours(state: &State) -> [[u16; 16]; 16] {
    let palette = &state.palettes[2 + usize::from(state.tile_control >> 4 & 1)];
    let mut colours = [[0; 16]; 16];
    for (group, shown) in colours.iter_mut().zip(palette.chunks_exact(16)) {
        group.copy_from_slice(shown);
        group[usize::from(state.tile_transparent & 15)] = CLEAR;
    }
    colours
}

/// The tile number byte and the attribute of a cell of the map.
fn entry(bank: &Bank, state: &State, cell: usize) -> (u8, u8) {
    let base = usize::from(state.map_base) << 8;
    if state.tile_control & 0x20 != 0 {
        (bank[(base + cell) & 0x3FFF], state.tile_attribute)
    } else {
        let place = (base + cell * 2) & 0x3FFE;
        (bank[place], bank[place + 1])
    }
}

/// The line of the map in its own order, 40 or 80 cells of eight dots.
fn map_line(bank: &Bank, state: &State, ty: usize, cells: &mut [[u16; 8]]) {
    let first = (ty >> 3) * cells.len();
    let definitions = usize::from(state.definition_base) << 8;
    let upper = state.ula_control >> 7;
    let colours = tile_colours(state);
    let (tiles, _) = bank.as_chunks::<32>();
    for (column, dots) in cells.iter_mut().enumerate() {
        let (number, attribute) = entry(bank, state, first + column);
        let number = usize::from(attribute & upper) << 8 | usize::from(number);
        let tile = &tiles[(definitions / 32 + number) & 511];
        let row = tile_row(tile, attribute, ty & 7);
        let group = &colours[usize::from(attribute >> 4)];
        let under = u16::from(attribute & 1) * UNDER;
        for (place, dot) in dots.iter_mut().enumerate() {
            *dot = group[(row >> (28 - place * 4) & 15) as usize] | under;
        }
    }
}

/// Draws the tilemap's line, transparent dots marked.
fn tile_line(line: usize, bank: &Bank, state: &State, out: &mut Line) {
    let [left, right, top, bottom] = state.tile_clip.map(usize::from);
    if line < top || line > bottom || left > right || left >= 160 {
        return;
    }
    let ty = (line + usize::from(state.tile_y)) & 255;
    let offset = tile_offset(state);
    if state.tile_control & 0x40 != 0 {
        let mut cells = [[0; 8]; 80];
        map_line(bank, state, ty, &mut cells);
        let cells = cells.as_flattened();
        out[..640 - offset].copy_from_slice(&cells[offset..]);
        out[640 - offset..].copy_from_slice(&cells[..offset]);
    } else {
        let mut cells = [[0; 8]; 40];
        map_line(bank, state, ty, &mut cells);
        let (last, first) = cells.as_flattened().split_at(offset);
        let (upper, lower) = out.split_at_mut(640 - offset * 2);
        double(first, upper);
        double(last, lower);
    }
    out[..left * 4].fill(CLEAR);
    if right < 159 {
        out[right * 4 + 4..].fill(CLEAR);
    }
}

/// Each pixel as two dots.
fn double(pixels: &[u16], dots: &mut [u16]) {
    for (pair, &pixel) in dots.chunks_exact_mut(2).zip(pixels) {
        pair.fill(pixel);
    }
}

/// Rules 5.11 and 5.13: both dots under the stencil, or the fallback.
fn stencil(out: &mut Line, tiles: &Line, fallback: u16) {
    for (dot, &tile) in out.iter_mut().zip(tiles) {
        let clear = (*dot | tile) & CLEAR != 0;
        *dot = if clear {
            fallback
        } else {
            *dot & tile & COLOUR
        };
    }
}

/// Rules 5.12 and 5.13: both dots without the stencil, or the fallback.
fn compose(out: &mut Line, tiles: &Line, fallback: u16) {
    for (dot, &tile) in out.iter_mut().zip(tiles) {
        let ula = *dot;
        let ula_wins = tile & CLEAR != 0 || (tile & UNDER != 0 && ula & CLEAR == 0);
        let winner = if ula_wins { ula } else { tile & COLOUR };
        *dot = if winner & CLEAR != 0 {
            fallback
        } else {
            winner
        };
    }
}
