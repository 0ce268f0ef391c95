//! The quick packer held to the model.

mod common;

use common::Random;

/// Sets pixel (x, y).
fn set(picture: &mut [u8], x: usize, y: usize, pixel: u8) {
    let byte = &mut picture[y * 160 + x / 2];
    *byte = if x % 2 == 1 {
        *byte & 0xF0 | pixel
    } else {
        *byte & 0x0F | pixel << 4
    };
}

type Cell = [[u8; 8]; 8];

/// A cell with some pixels set.
fn cell(random: &mut Random, colours: u64, dots: u64) -> Cell {
    let mut cell = [[0; 8]; 8];
    for _ in 0..dots {
        let (x, y) = (random.below(8) as usize, random.below(8) as usize);
        cell[y][x] = random.below(colours) as u8;
    }
    cell
}

/// Puts a cell into a picture under one of eight turns.
fn place(picture: &mut [u8], number: usize, cell: &Cell, turn: u64) {
    for y in 0..8 {
        for x in 0..8 {
            let across = if turn & 1 != 0 { 7 - x } else { x };
            let down = if turn & 2 != 0 { 7 - y } else { y };
            let pixel = if turn & 4 != 0 {
                cell[across][down]
            } else {
                cell[down][across]
            };
            set(picture, number % 40 * 8 + x, number / 40 * 8 + y, pixel);
        }
    }
}

/// A picture of some kinds of cell, turned and placed at random.
fn sheet(random: &mut Random, kinds: u64, colours: u64, dots: u64) -> Vec<u8> {
    let kinds: Vec<Cell> = (0..kinds).map(|_| cell(random, colours, dots)).collect();
    let mut picture = vec![0; 40_960];
    for number in 0..1_280 {
        let kind = kinds[random.below(kinds.len() as u64) as usize];
        place(&mut picture, number, &kind, random.below(8));
    }
    picture
}

/// Packs with model and each of fast's ways and compares; the answer.
fn compare(picture: &[u8], allowed: u32, offset: u32, lengths: (usize, usize)) -> (u8, u32) {
    let mut map = vec![0xAA; lengths.0];
    let mut definitions = vec![0xAA; lengths.1];
    let ways = [
        fast::pack::<{ fast::CHAINED }>,
        fast::pack::<{ fast::MARKED }>,
        fast::pack::<{ fast::PLAIN }>,
    ];
    let before = (map.clone(), definitions.clone());
    let answer = model::pack(picture, allowed, offset, &mut map, &mut definitions);
    for way in ways {
        let (mut quick_map, mut quick_definitions) = before.clone();
        let quick = way(
            picture,
            allowed,
            offset,
            &mut quick_map,
            &mut quick_definitions,
        );
        assert_eq!(quick, answer);
        assert!(quick_map == map && quick_definitions == definitions);
    }
    if answer.0 == 0 {
        assert_eq!(model::draws(&map, &definitions, offset, picture), 0);
    }
    answer
}

#[test]
fn sheets_of_few_and_many_tiles() {
    let mut random = Random::new(21);
    let mut seen = [0; 14];
    for round in 0..60 {
        let kinds = random.pick(&[1, 2, 17, 100, 250, 256, 257, 400]);
        let colours = random.pick(&[2, 3, 16]);
        let dots = random.pick(&[2, 3, 5, 64]);
        let picture = sheet(&mut random, kinds, colours, dots);
        let allowed = random.pick(&[256, 256, 256, 255, 100, 16, 1, 0]);
        let offset = random.below(16) as u32;
        let (reply, _) = compare(&picture, allowed, offset, (2_560, 8_192));
        seen[usize::from(reply)] += 1;
        if round % 4 == 0 {
            assert_eq!(fast::fewest(&picture), model::fewest(&picture));
        }
    }
    assert!(seen[0] > 10 && seen[11] > 10);
}

#[test]
fn noise() {
    let mut random = Random::new(22);
    for _ in 0..4 {
        let picture: Vec<u8> = (0..40_960).map(|_| random.byte()).collect();
        assert_eq!(compare(&picture, 256, 0, (2_560, 8_192)), (11, 0));
        assert_eq!(fast::fewest(&picture), (11, 0));
    }
}

#[test]
fn the_bounds_of_a_sheet() {
    let mut random = Random::new(23);
    let picture = sheet(&mut random, 40, 16, 64);
    let (reply, count) = model::fewest(&picture);
    assert_eq!(reply, 0);
    assert_eq!(compare(&picture, count, 15, (2_560, 8_192)), (0, count));
    assert_eq!(compare(&picture, count - 1, 15, (2_560, 8_192)), (11, 0));
    assert_eq!(compare(&picture, 257, 0, (2_560, 8_192)), (12, 0));
    assert_eq!(compare(&picture, 0, 16, (2_560, 8_192)), (12, 0));
    assert_eq!(compare(&picture, 257, 16, (2_559, 8_192)), (3, 0));
    assert_eq!(compare(&picture, 256, 0, (2_560, 8_191)), (3, 0));
    assert_eq!(compare(&picture[1..], 256, 0, (2_560, 8_192)), (3, 0));
    assert_eq!(fast::fewest(&picture[1..]), (3, 0));
}
