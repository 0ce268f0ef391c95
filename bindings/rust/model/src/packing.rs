//! The tile packer: section 8.

use crate::reply::{Reply, ALLOWED_OR_OFFSET, DONE, TOO_MANY_TILES, WRONG_BUFFER};
use crate::tilemap::{tile_index, turned, Layout};
use crate::BANK_LENGTH;

/// Rule 8.1: the bytes of a picture.
pub const PICTURE_LENGTH: usize = 40_960;
/// Rule 8.1: the bytes of a map.
pub const MAP_LENGTH: usize = 2_560;
/// Rule 8.1: the bytes of the definitions.
pub const DEFINITIONS_LENGTH: usize = 8_192;
/// Rules 8.2 and 8.5: the cells of a picture, the entries of a map.
pub const CELLS: usize = 1_280;
/// Eight bits of tile number.
pub const MOST_TILES: u32 = 256;

/// The 64 pixels of a cell, row by row.
pub type Cell = [[u8; 8]; 8];

/// Rule 8.1: pixel (x, y) of a picture.
pub fn picture_pixel(picture: &[u8], x: usize, y: usize) -> u8 {
    let byte = picture[y * 160 + x / 2];
    if x % 2 == 1 {
        byte % 16
    } else {
        byte / 16
    }
}

/// Rule 8.2: cell 0 to 1,279 of a picture, counted along its rows.
pub fn picture_cell(picture: &[u8], number: usize) -> Cell {
    let left = number % 40 * 8;
    let top = number / 40 * 8;
    let mut cell = [[0; 8]; 8];
    for (y, row) in cell.iter_mut().enumerate() {
        for (x, pixel) in row.iter_mut().enumerate() {
            *pixel = picture_pixel(picture, left + x, top + y);
        }
    }
    cell
}

/// Does a definition under turn 4 × x mirror + 2 × y mirror + rotate draw the
/// cell?
pub fn turn_draws(definition: &Cell, turn: u8, cell: &Cell) -> bool {
    let x_mirror = turn / 4 % 2 == 1;
    let y_mirror = turn / 2 % 2 == 1;
    let rotate = turn % 2 == 1;
    (0..8).all(|y| {
        (0..8).all(|x| {
            let (column, row) = turned(x_mirror, y_mirror, rotate, x, y);
            definition[row as usize][column as usize] == cell[y as usize][x as usize]
        })
    })
}

/// Rule 8.3: the least turn by which a definition draws the cell, none where no
/// turn does.
pub fn smallest_turn(definition: &Cell, cell: &Cell) -> Option<u8> {
    (0..8).find(|&turn| turn_draws(definition, turn, cell))
}

/// The first definition that can be turned into the cell, with its turn.
fn find(definitions: &[Cell], cell: &Cell) -> Option<(usize, u8)> {
    for (number, definition) in definitions.iter().enumerate() {
        if let Some(turn) = smallest_turn(definition, cell) {
            return Some((number, turn));
        }
    }
    None
}

/// A packing: the definitions and, for each cell, its tile number and turn.
struct Packed {
    definitions: Vec<Cell>,
    entries: Vec<(usize, u8)>,
}

/// Packs the cells, none where there are more than `allowed` definitions.
fn pack_cells(picture: &[u8], allowed: u32) -> Option<Packed> {
    let mut definitions = Vec::new();
    let mut entries = Vec::new();
    for number in 0..CELLS {
        let cell = picture_cell(picture, number);
        let entry = match find(&definitions, &cell) {
            Some(entry) => entry,
            None => {
                // 8.2: the cell is itself the next definition.
                definitions.push(cell);
                (definitions.len() - 1, 0)
            }
        };
        if definitions.len() > allowed as usize {
            return None;
        }
        entries.push(entry);
    }
    Some(Packed {
        definitions,
        entries,
    })
}

/// Rule 5.6: the 32 bytes of a definition.
fn definition_bytes(definition: &Cell) -> Vec<u8> {
    let mut bytes = Vec::new();
    for row in definition {
        for pair in row.chunks(2) {
            bytes.push(pair[0] * 16 + pair[1]);
        }
    }
    bytes
}

/// Rules 5.3 and 8.3: the two bytes of an entry.
fn entry_bytes(number: usize, turn: u8, offset: u32) -> [u8; 2] {
    [number as u8, offset as u8 * 16 + turn * 2]
}

/// Rule 10.5: packs a picture, or refuses by 3, 12, 11 in this order and counts
/// 0.
pub fn pack(
    picture: &[u8],
    allowed: u32,
    offset: u32,
    map: &mut [u8],
    definitions: &mut [u8],
) -> (Reply, u32) {
    if picture.len() != PICTURE_LENGTH
        || map.len() != MAP_LENGTH
        || definitions.len() != DEFINITIONS_LENGTH
    {
        return (WRONG_BUFFER, 0);
    }
    if allowed > MOST_TILES || offset > 15 {
        return (ALLOWED_OR_OFFSET, 0);
    }
    let Some(packed) = pack_cells(picture, allowed) else {
        return (TOO_MANY_TILES, 0);
    };
    for (cell, &(number, turn)) in packed.entries.iter().enumerate() {
        map[cell * 2..cell * 2 + 2].copy_from_slice(&entry_bytes(number, turn, offset));
    }
    // 8.4: what no definition fills is 0.
    definitions.fill(0);
    for (number, tile) in packed.definitions.iter().enumerate() {
        definitions[number * 32..number * 32 + 32].copy_from_slice(&definition_bytes(tile));
    }
    (DONE, tiles_named(map))
}

/// Rule 8.5: how many tiles a map names, by the low bytes of its entries.
pub fn tiles_named(map: &[u8]) -> u32 {
    (0..=255u8)
        .filter(|&number| map.iter().step_by(2).any(|&low| low == number))
        .count() as u32
}

/// Rule 8.8: the fewest tiles of a picture, one for each cell that no earlier
/// cell can be turned into. More than 256 cannot be named: 9.11.
pub fn fewest(picture: &[u8]) -> (Reply, u32) {
    if picture.len() != PICTURE_LENGTH {
        return (WRONG_BUFFER, 0);
    }
    let cells: Vec<Cell> = (0..CELLS).map(|n| picture_cell(picture, n)).collect();
    let mut count = 0;
    for (number, cell) in cells.iter().enumerate() {
        if find(&cells[..number], cell).is_none() {
            count += 1;
        }
    }
    if count > MOST_TILES {
        return (TOO_MANY_TILES, 0);
    }
    (DONE, count)
}

/// Rule 8.6: how many of the 81,920 pixels a map and its definitions draw
/// otherwise than palette offset × 16 + the picture's pixel, with the map at
/// the start of the bank and the definitions at $2000. Buffers of another
/// length draw none.
pub fn draws(map: &[u8], definitions: &[u8], offset: u32, picture: &[u8]) -> u32 {
    draws_at(map, definitions, offset, picture, 0, 0x2000)
}

/// The same with map and definitions at places that 8.7 allows.
pub fn draws_at(
    map: &[u8],
    definitions: &[u8],
    offset: u32,
    picture: &[u8],
    map_base: usize,
    definition_base: usize,
) -> u32 {
    if map.len() != MAP_LENGTH
        || definitions.len() != DEFINITIONS_LENGTH
        || picture.len() != PICTURE_LENGTH
    {
        return 81_920;
    }
    let mut bank = vec![0; BANK_LENGTH];
    bank[map_base..map_base + MAP_LENGTH].copy_from_slice(map);
    bank[definition_base..definition_base + DEFINITIONS_LENGTH].copy_from_slice(definitions);
    let layout = packed_layout(map_base as u32, definition_base as u32);
    let mut different = 0;
    for y in 0..256 {
        for x in 0..320 {
            let index = u64::from(tile_index(&bank, &layout, x, y));
            let pixel = u64::from(picture_pixel(picture, x as usize, y as usize));
            if index != u64::from(offset) * 16 + pixel {
                different += 1;
            }
        }
    }
    different
}

/// Rule 8.7: how a packing is set for drawing.
fn packed_layout(map_base: u32, definition_base: u32) -> Layout {
    Layout {
        columns: 40,
        one_byte: false,
        attribute: 0,
        map_base,
        definition_base,
        x_offset: 0,
        y_offset: 0,
        ula_on: true,
    }
}
