//! The tile packer.

use model::packing::{picture_cell, smallest_turn, tiles_named, Cell};
use model::{draws, draws_at, fewest, pack};
use std::collections::BTreeSet;

const PICTURE: usize = 40_960;

/// A picture of zeros with some pixels set.
fn picture(pixels: &[(usize, usize, u8)]) -> Vec<u8> {
    let mut picture = vec![0; PICTURE];
    for &(x, y, pixel) in pixels {
        let place = y * 160 + x / 2;
        picture[place] |= if x % 2 == 1 { pixel } else { pixel * 16 };
    }
    picture
}

/// A packing that must be accepted and draw its picture.
fn packed(picture: &[u8], allowed: u32, offset: u32) -> (u32, Vec<u8>, Vec<u8>) {
    let mut map = vec![0xAA; 2_560];
    let mut definitions = vec![0xAA; 8_192];
    let (reply, count) = pack(picture, allowed, offset, &mut map, &mut definitions);
    assert_eq!(reply, 0);
    assert_eq!(count, tiles_named(&map));
    assert_eq!(fewest(picture), (0, count));
    assert_eq!(draws(&map, &definitions, offset, picture), 0);
    assert!(definitions[count as usize * 32..].iter().all(|&b| b == 0));
    (count, map, definitions)
}

/// The reply of a packing that must be refused and leave its buffers.
fn refused(picture: &[u8], allowed: u32, offset: u32, map: usize, definitions: usize) -> u8 {
    let mut map = vec![0xAA; map];
    let mut definitions = vec![0xAA; definitions];
    let (reply, count) = pack(picture, allowed, offset, &mut map, &mut definitions);
    assert_ne!(reply, 0);
    assert_eq!(count, 0);
    assert!(map.iter().chain(&definitions).all(|&b| b == 0xAA));
    reply
}

#[test]
fn a_picture_of_zeros() {
    let (count, map, definitions) = packed(&picture(&[]), 1, 0);
    assert_eq!(count, 1);
    assert_eq!(map, [0; 2_560]);
    assert_eq!(definitions, [0; 8_192]);
}

#[test]
fn a_cell_and_its_eight_turns() {
    // The pixel beside the top left corner, in the places that the turns give
    // it, at cells 0 to 7.
    let places = [
        (1, 0),
        (7, 1),
        (1, 7),
        (7, 6),
        (6, 0),
        (0, 1),
        (6, 7),
        (0, 6),
    ];
    let pixels: Vec<_> = (0..8)
        .map(|n| (n * 8 + places[n].0, places[n].1, 9))
        .collect();
    let (count, map, definitions) = packed(&picture(&pixels), 256, 5);
    assert_eq!(count, 2);
    // Turn 4 × x mirror + 2 × y mirror + rotate stands in bits 11 to 9.
    let expected: Vec<u8> = (0..8).flat_map(|turn| [0, 0x50 + turn * 2]).collect();
    assert_eq!(map[..16], expected);
    // Then the empty cell, tile 1.
    assert_eq!(map[16..20], [1, 0x50, 1, 0x50]);
    assert_eq!(definitions[..2], [0x09, 0]);
}

#[test]
fn a_symmetric_cell_takes_the_smallest_turn() {
    // Two pixels of the left edge, then of the top edge, the right edge and the
    // bottom edge. The definition is its own y mirror; as rotate alone goes
    // clockwise, 1 draws the top edge, 4 the right edge and 3 the bottom edge.
    let pixels = [
        (0, 3, 1),
        (0, 4, 1),
        (8 + 3, 0, 1),
        (8 + 4, 0, 1),
        (16 + 7, 3, 1),
        (16 + 7, 4, 1),
        (24 + 3, 7, 1),
        (24 + 4, 7, 1),
    ];
    let (count, map, _) = packed(&picture(&pixels), 256, 0);
    assert_eq!(count, 2);
    assert_eq!(map[..8], [0, 0, 0, 2, 0, 8, 0, 6]);
}

/// Rule 8.2.
#[test]
fn cells_are_taken_row_by_row() {
    // Cell 39 is the right end of the first row, cell 40 the left end of the
    // second.
    let (count, map, definitions) = packed(&picture(&[(319, 7, 3), (0, 8, 4)]), 3, 0);
    assert_eq!(count, 3);
    assert_eq!(map[..2], [0, 0]);
    assert_eq!(map[78..84], [1, 0, 2, 0, 0, 0]);
    assert_eq!(definitions[63], 0x03);
    assert_eq!(definitions[64], 0x40);
}

#[test]
fn an_unused_definition_is_no_earlier_definition() {
    // The first cell is not empty; the empty cell after it is tile 1.
    let (count, map, _) = packed(&picture(&[(0, 0, 1)]), 2, 15);
    assert_eq!(count, 2);
    assert_eq!(map[..4], [0, 0xF0, 1, 0xF0]);
}

/// A picture whose first cells are `count` different tiles, up to 4,096, the
/// rest like the first: three pixels of different orbits.
fn different(count: usize) -> Vec<u8> {
    let mut pixels = Vec::new();
    for number in 0..count {
        let (x, y) = (number % 40 * 8, number / 40 * 8);
        pixels.push((x, y, (number % 16) as u8));
        pixels.push((x + 3, y + 3, (number / 16 % 16) as u8));
        pixels.push((x + 1, y + 1, (number / 256) as u8));
    }
    picture(&pixels)
}

#[test]
fn refused_for_size() {
    let (count, _, definitions) = packed(&different(256), 256, 0);
    assert_eq!(count, 256);
    assert_eq!(definitions[8_160], 0xF0);
    assert_eq!(refused(&different(257), 256, 0, 2_560, 8_192), 11);
    assert_eq!(fewest(&different(257)), (11, 0));
    assert_eq!(refused(&different(1_280), 256, 0, 2_560, 8_192), 11);
    assert_eq!(packed(&different(200), 200, 0).0, 200);
    assert_eq!(refused(&different(200), 199, 0, 2_560, 8_192), 11);
    assert_eq!(refused(&picture(&[]), 0, 0, 2_560, 8_192), 11);
}

#[test]
fn refusals_in_order() {
    let zero = picture(&[]);
    assert_eq!(refused(&zero, 257, 0, 2_560, 8_192), 12);
    assert_eq!(refused(&zero, u32::MAX, 0, 2_560, 8_192), 12);
    assert_eq!(refused(&zero, 256, 16, 2_560, 8_192), 12);
    assert_eq!(refused(&zero, 0, 16, 2_560, 8_192), 12);
    assert_eq!(refused(&zero[1..], 257, 16, 2_560, 8_192), 3);
    assert_eq!(refused(&zero, 257, 16, 2_559, 8_192), 3);
    assert_eq!(refused(&zero, 257, 16, 2_560, 8_193), 3);
    assert_eq!(refused(&[], 256, 0, 2_560, 8_192), 3);
    assert_eq!(fewest(&zero[1..]), (3, 0));
    assert_eq!(fewest(&[]), (3, 0));
}

#[test]
fn draws_counts_what_differs() {
    let zero = picture(&[]);
    let (_, mut map, mut definitions) = packed(&zero, 256, 3);
    assert_eq!(draws(&map, &definitions, 2, &zero), 81_920);
    assert_eq!(draws(&map, &definitions, 16, &zero), 81_920);
    map[0] = 9;
    assert_eq!(draws(&map, &definitions, 3, &zero), 0);
    definitions[9 * 32] = 0x10;
    assert_eq!(draws(&map, &definitions, 3, &zero), 1);
    // Bit 8 is no part of the number while the ULA is on.
    map[1] |= 1;
    assert_eq!(draws(&map, &definitions, 3, &zero), 1);
    assert_eq!(draws(&map[1..], &definitions, 3, &zero), 81_920);
}

#[test]
fn any_place_in_the_bank() {
    let sheet = different(256);
    let (_, map, definitions) = packed(&sheet, 256, 7);
    for (map_base, base) in [(0, 0x0A00), (0x3600, 0), (0x2000, 0), (0, 0x2000)] {
        assert_eq!(draws_at(&map, &definitions, 7, &sheet, map_base, base), 0);
    }
}

/// A small generator of pictures.
fn noise(seed: u64, colours: u64) -> Vec<u8> {
    let mut state = seed;
    let mut next = || {
        state ^= state << 13;
        state ^= state >> 7;
        state ^= state << 17;
        (state >> 20) % colours
    };
    // A cell has one pixel of noise in each quarter and zeros elsewhere.
    let mut pixels = Vec::new();
    for cell in 0..1_280 {
        for (x, y) in [(0, 0), (6, 1), (2, 5), (7, 7), (3, 4)] {
            pixels.push((cell % 40 * 8 + x, cell / 40 * 8 + y, next() as u8));
        }
    }
    picture(&pixels)
}

/// The least of a cell's eight turns.
fn least_turn(cell: &Cell) -> Cell {
    let flip = |cell: &Cell| cell.map(|row| [7, 6, 5, 4, 3, 2, 1, 0].map(|x: usize| row[x]));
    let transpose = |cell: &Cell| {
        let mut turned = [[0; 8]; 8];
        for y in 0..8 {
            for x in 0..8 {
                turned[y][x] = cell[x][y];
            }
        }
        turned
    };
    let mut turns = vec![*cell];
    for _ in 0..7 {
        let last = turns[turns.len() - 1];
        turns.push(if turns.len() % 2 == 1 {
            flip(&last)
        } else {
            transpose(&last)
        });
    }
    turns.into_iter().min().unwrap()
}

#[test]
fn the_fewest_is_the_number_of_classes() {
    for seed in 1..9 {
        let sheet = noise(seed, 2 + seed % 2);
        let classes: BTreeSet<Cell> = (0..1_280)
            .map(|number| least_turn(&picture_cell(&sheet, number)))
            .collect();
        assert_eq!(packed(&sheet, 256, 0).0 as usize, classes.len());
    }
}

#[test]
fn turns_make_a_group() {
    // A definition that a turn makes of another can be turned back.
    let sheet = noise(77, 16);
    for number in 0..40 {
        let cell = picture_cell(&sheet, number);
        let least = least_turn(&cell);
        assert!(smallest_turn(&cell, &least).is_some());
        assert!(smallest_turn(&least, &cell).is_some());
    }
}
