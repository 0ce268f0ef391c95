//! The tile packer. A cell is eight rows of eight pixels, four bits each.

use crate::draw::reversed;

const CELLS: usize = 1_280;
const COLUMNS: usize = 40;
const MOST_TILES: usize = 256;

type Picture = [u8; 40_960];
type Map = [u8; 2_560];
type Definitions = [u8; 8_192];
type Cell = [u32; 8];

/// What a packing has found so far.
struct Tiles {
    count: usize,
    /// The cells that a definition draws under turns 0 to 7.
    turns: Vec<[Cell; 8]>,
    /// The number of each definition that no turn changes.
    keys: [u64; MOST_TILES],
    /// Definitions by the low bits of their key, chained; 256 ends a chain.
    heads: [u16; BUCKETS],
    next: [u16; MOST_TILES],
}

const BUCKETS: usize = 1_024;
const NONE: u16 = 256;

/// The place of a cell: a tile number and a turn.
#[derive(Clone, Copy)]
struct Place {
    number: u8,
    turn: u8,
}

impl Tiles {
    fn new() -> Tiles {
        Tiles {
            count: 0,
            turns: Vec::with_capacity(MOST_TILES),
            keys: [0; MOST_TILES],
            heads: [NONE; BUCKETS],
            next: [NONE; MOST_TILES],
        }
    }

    /// The smallest turn under which a definition draws the cell.
    fn turn(&self, number: usize, cell: &Cell) -> Option<Place> {
        let turn = self.turns[number].iter().position(|drawn| drawn == cell)?;
        Some(Place {
            number: number as u8,
            turn: turn as u8,
        })
    }

    /// Looks among the definitions of the same key.
    fn find(&self, key: u64, cell: &Cell) -> Option<Place> {
        let mut number = usize::from(self.heads[bucket(key)]);
        while number < self.count {
            if self.keys[number] == key {
                if let Some(place) = self.turn(number, cell) {
                    return Some(place);
                }
            }
            number = usize::from(self.next[number]);
        }
        None
    }

    /// Looks among all definitions, and compares only those of the same key.
    fn find_marked(&self, key: u64, cell: &Cell) -> Option<Place> {
        let keys = &self.keys[..self.count];
        (0..keys.len())
            .filter(|&number| keys[number] == key)
            .find_map(|number| self.turn(number, cell))
    }

    /// Looks among all definitions.
    fn find_plain(&self, cell: &Cell) -> Option<Place> {
        (0..self.count).find_map(|number| self.turn(number, cell))
    }

    /// Makes the cell the next definition, unless `allowed` are there.
    fn add(&mut self, key: u64, cell: &Cell, allowed: usize) -> Option<Place> {
        let number = self.count;
        if number >= allowed {
            return None;
        }
        self.turns.push(all_turns(cell));
        self.keys[number] = key;
        self.next[number] = self.heads[bucket(key)];
        self.heads[bucket(key)] = number as u16;
        self.count += 1;
        Some(Place {
            number: number as u8,
            turn: 0,
        })
    }
}

fn bucket(key: u64) -> usize {
    (key >> 32) as usize % BUCKETS
}

/// Weights of a byte of two pixels in one corner of the cell: for each of four
/// rows and two bytes, with the pixel nearer the edge in the upper half.
static WEIGHTS: [[u64; 256]; 8] = weights();

/// A number for each pixel value of each of the ten orbits of pixels.
const fn pixel_weight(column: usize, row: usize, pixel: usize) -> u64 {
    let (low, high) = if column < row {
        (column, row)
    } else {
        (row, column)
    };
    let seed = (low * 4 + high) * 16 + pixel + 1;
    let mut value = (seed as u64).wrapping_mul(0x9E37_79B9_7F4A_7C15);
    value = (value ^ (value >> 30)).wrapping_mul(0xBF58_476D_1CE4_E5B9);
    value = (value ^ (value >> 27)).wrapping_mul(0x94D0_49BB_1331_11EB);
    value ^ (value >> 31)
}

const fn weights() -> [[u64; 256]; 8] {
    let mut table = [[0; 256]; 8];
    let mut place = 0;
    while place < 8 {
        let (row, column) = (place / 2, place % 2 * 2);
        let mut byte = 0;
        while byte < 256 {
            let outer = pixel_weight(column, row, byte / 16);
            let inner = pixel_weight(column + 1, row, byte % 16);
            table[place][byte] = outer.wrapping_add(inner);
            byte += 1;
        }
        place += 1;
    }
    table
}

/// A number that a cell keeps under all eight turns: the sum of the weights of
/// its pixels, each by its orbit.
fn key(cell: &Cell) -> u64 {
    let mut sum: u64 = 0;
    for row in 0..4 {
        let edge = &WEIGHTS[row * 2];
        let middle = &WEIGHTS[row * 2 + 1];
        for line in [cell[row], cell[7 - row]] {
            let [a, b, c, d] = line.to_be_bytes().map(usize::from);
            sum = sum
                .wrapping_add(edge[a])
                .wrapping_add(middle[b])
                .wrapping_add(middle[c >> 4 | (c & 15) << 4])
                .wrapping_add(edge[d >> 4 | (d & 15) << 4]);
        }
    }
    sum
}

/// Columns become rows.
fn transposed(cell: &Cell) -> Cell {
    let mut out = *cell;
    // Swaps the off-diagonal quarters of blocks of 8, then 4, then 2 pixels.
    for (distance, shift, mask) in [
        (4, 16, 0x0000_FFFF),
        (2, 8, 0x00FF_00FF),
        (1, 4, 0x0F0F_0F0F),
    ] {
        for row in 0..8 {
            if row & distance == 0 {
                let (upper, lower) = (out[row], out[row + distance]);
                let moved = (upper ^ lower >> shift) & mask;
                out[row] = upper ^ moved;
                out[row + distance] = lower ^ moved << shift;
            }
        }
    }
    out
}

/// The cells that a definition draws under 4 × x mirror + 2 × y mirror +
/// rotate.
fn all_turns(cell: &Cell) -> [Cell; 8] {
    let flipped = cell.map(reversed);
    let over = transposed(cell);
    let rotated = over.map(reversed);
    let upside_down = |cell: &Cell| {
        let mut out = *cell;
        out.reverse();
        out
    };
    [
        *cell,
        rotated,
        upside_down(cell),
        upside_down(&rotated),
        flipped,
        over,
        upside_down(&flipped),
        upside_down(&over),
    ]
}

/// A cell of the picture.
fn picture_cell(picture: &Picture, number: usize) -> Cell {
    let start = number / COLUMNS * 1_280 + number % COLUMNS * 4;
    std::array::from_fn(|row| {
        let place = start + row * 160;
        u32::from_be_bytes([
            picture[place],
            picture[place + 1],
            picture[place + 2],
            picture[place + 3],
        ])
    })
}

/// A cell's definition is looked for among those of its key.
pub const CHAINED: u8 = 0;
/// It is looked for among all, and those of another key are skipped.
pub const MARKED: u8 = 1;
/// It is looked for among all, and each is compared.
pub const PLAIN: u8 = 2;

/// The places of all cells, none where there are more than `allowed` tiles.
fn places<const HOW: u8>(picture: &Picture, allowed: usize) -> Option<(Tiles, [Place; CELLS])> {
    let mut tiles = Tiles::new();
    let mut places = [Place { number: 0, turn: 0 }; CELLS];
    for (number, place) in places.iter_mut().enumerate() {
        let cell = picture_cell(picture, number);
        let key = if HOW == PLAIN { 0 } else { key(&cell) };
        let found = match HOW {
            CHAINED => tiles.find(key, &cell),
            MARKED => tiles.find_marked(key, &cell),
            _ => tiles.find_plain(&cell),
        };
        *place = match found {
            Some(found) => found,
            None => tiles.add(key, &cell, allowed)?,
        };
    }
    Some((tiles, places))
}

/// Packs a picture, looking for definitions in one of the three ways: the
/// reply and the count of tiles. A refusal leaves map and definitions.
pub fn pack<const HOW: u8>(
    picture: &[u8],
    allowed: u32,
    offset: u32,
    map: &mut [u8],
    definitions: &mut [u8],
) -> (u8, u32) {
    let (Ok(picture), Ok(map), Ok(definitions)) = (
        <&Picture>::try_from(picture),
        <&mut Map>::try_from(map),
        <&mut Definitions>::try_from(definitions),
    ) else {
        return (3, 0);
    };
    if allowed > 256 || offset > 15 {
        return (12, 0);
    }
    let Some((tiles, places)) = places::<HOW>(picture, allowed as usize) else {
        return (11, 0);
    };
    for (entry, place) in map.chunks_exact_mut(2).zip(&places) {
        entry.copy_from_slice(&[place.number, (offset << 4) as u8 | place.turn << 1]);
    }
    definitions.fill(0);
    for (bytes, turns) in definitions.chunks_exact_mut(32).zip(&tiles.turns) {
        for (bytes, row) in bytes.chunks_exact_mut(4).zip(&turns[0]) {
            bytes.copy_from_slice(&row.to_be_bytes());
        }
    }
    (0, tiles.count as u32)
}

/// The fewest tiles that draw a picture; 11 where 256 are not enough.
pub fn fewest(picture: &[u8]) -> (u8, u32) {
    let Ok(picture) = <&Picture>::try_from(picture) else {
        return (3, 0);
    };
    match places::<CHAINED>(picture, MOST_TILES) {
        Some((tiles, _)) => (0, tiles.count as u32),
        None => (11, 0),
    }
}
