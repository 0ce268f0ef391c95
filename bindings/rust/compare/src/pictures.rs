//! Pictures made of turned cells.

use crate::random::Random;

/// Eight rows of eight pixels.
pub type Cell = [[u8; 8]; 8];

/// The bytes of a picture, and its cells.
const PICTURE: usize = 40_960;
const CELLS: usize = 1_280;

/// A cell of noise.
pub fn noise(random: &mut Random) -> Cell {
    [[0; 8]; 8].map(|row: [u8; 8]| row.map(|_| random.below(16) as u8))
}

/// A blank cell with a few dots, which is often the same as another one turned, or as itself turned.
pub fn sparse(random: &mut Random, dots: u64) -> Cell {
    let mut cell = [[0; 8]; 8];
    for _ in 0..dots {
        let (x, y) = (random.below(8) as usize, random.below(8) as usize);
        cell[y][x] = random.below(3) as u8;
    }
    cell
}

/// Cells that differ from one cell of noise, each in one pixel of its own or with a value of its own.
pub fn nearly_equal(random: &mut Random, classes: usize) -> Vec<Cell> {
    let base = noise(random);
    let mut changes: Vec<usize> = (0..64 * 15).collect();
    random.shuffle(&mut changes);
    let changed = |&change: &usize| {
        let mut cell = base;
        let (place, by) = (change / 15, change % 15 + 1);
        let pixel = &mut cell[place / 8][place % 8];
        *pixel = (*pixel + by as u8) % 16;
        cell
    };
    changes.iter().take(classes).map(changed).collect()
}

/// The pixels of one cell of noise in other orders.
pub fn reordered(random: &mut Random, classes: usize) -> Vec<Cell> {
    let mut cell = noise(random);
    let mut cells = Vec::new();
    for _ in 0..classes {
        random.shuffle(cell.as_flattened_mut());
        cells.push(cell);
    }
    cells
}

/// A picture in which each cell stands as often as the others, in any order, under any turn.
pub fn sheet(random: &mut Random, cells: &[Cell]) -> Vec<u8> {
    let mut order: Vec<usize> = (0..CELLS).map(|number| number % cells.len()).collect();
    random.shuffle(&mut order);
    let mut picture = vec![0; PICTURE];
    for (number, &kind) in order.iter().enumerate() {
        place(&mut picture, number, &cells[kind], random.below(8));
    }
    picture
}

/// Puts a cell into a picture under one of eight turns.
fn place(picture: &mut [u8], number: usize, cell: &Cell, turn: u64) {
    for y in 0..8 {
        for x in 0..8 {
            let across = if turn & 1 != 0 { 7 - x } else { x };
            let down = if turn & 2 != 0 { 7 - y } else { y };
            let pixel = if turn & 4 != 0 {
                cell[across][down]
            } else {
                cell[down][across]
            };
            let left = number % 40 * 8 + x;
            let byte = &mut picture[(number / 40 * 8 + y) * 160 + left / 2];
            *byte |= if left % 2 == 1 { pixel } else { pixel << 4 };
        }
    }
}

/// How many kinds of picture [`picture`] tells apart.
pub const KINDS: u64 = 10;

/// A picture of a kind: few classes or many, around the 256 that a map can name, alike or not.
pub fn picture(random: &mut Random, kind: u64) -> Vec<u8> {
    let cells: Vec<Cell> = match kind % KINDS {
        0 => vec![[[random.below(16) as u8; 8]; 8]],
        1 => vec![noise(random)],
        2 => (0..random.pick(&[2, 3, 17]))
            .map(|_| noise(random))
            .collect(),
        3 => (0..256).map(|_| noise(random)).collect(),
        4 => (0..257).map(|_| noise(random)).collect(),
        5 => nearly_equal(random, 100),
        6 => reordered(random, 60),
        7 => (0..300).map(|_| sparse(random, 2)).collect(),
        8 => (0..200).map(|_| sparse(random, 4)).collect(),
        _ => return random.bytes(PICTURE),
    };
    sheet(random, &cells)
}
