//! The samples of section 11.

mod common;

use common::{bank, counting, refused, ula_dots};
use model::tilemap::turned;
use model::ula::{
    byte_address, high_colour_address, high_resolution_address, lores_address, next_ink,
    next_mode_6_border, next_paper,
};
use model::{pack, plus_colour, screen_value, widen, write_register, State};

/// Rules 11.1 and 11.2.
#[test]
fn addresses() {
    assert_eq!(byte_address(65, 0), 0x0900);
    assert_eq!(high_colour_address(65, 0), 0x2900);
    assert_eq!(byte_address(191, 31), 0x17FF);
    assert_eq!(high_resolution_address(0, 3), 0x2001);
    assert_eq!(lores_address(47, 127), 0x17FF);
    assert_eq!(lores_address(48, 0), 0x2000);
}

/// Rule 11.3.
#[test]
fn attribute_5c() {
    assert_eq!(next_ink(0x5C, 7), 4);
    assert_eq!(next_paper(0x5C, 7), Some(139));
    assert_eq!(next_mode_6_border(0x5C, 7), Some(131));
    assert_eq!(next_ink(0x5C, 15), 12);
    assert_eq!(next_paper(0x5C, 15), Some(133));
}

/// Rules 11.4 and 11.5.
#[test]
fn colours() {
    assert_eq!(widen(0xE3), 455);
    assert_eq!(widen(0x02), 5);
    assert_eq!(plus_colour(0x02), 4);
    assert_eq!(plus_colour(0x1C), 448);
    assert_eq!(screen_value(455), (0, 0xFF00FF));
    assert_eq!(screen_value(5), (0, 0x0000B5));
}

/// Where the definition's top left pixel shows.
fn top_left_shows_at(x_mirror: bool, y_mirror: bool, rotate: bool) -> (u32, u32) {
    let mut places = Vec::new();
    for y in 0..8 {
        for x in 0..8 {
            if turned(x_mirror, y_mirror, rotate, x, y) == (0, 0) {
                places.push((x, y));
            }
        }
    }
    assert_eq!(places.len(), 1);
    places[0]
}

/// Rule 11.6, and the turns that it leaves out.
#[test]
fn turns() {
    assert_eq!(top_left_shows_at(false, false, true), (7, 0));
    assert_eq!(top_left_shows_at(true, false, true), (0, 0));
    assert_eq!(top_left_shows_at(false, true, true), (7, 7));
    assert_eq!(top_left_shows_at(true, true, true), (0, 7));
    assert_eq!(top_left_shows_at(false, false, false), (0, 0));
    assert_eq!(top_left_shows_at(true, false, false), (7, 0));
    assert_eq!(top_left_shows_at(false, true, false), (0, 7));
    assert_eq!(top_left_shows_at(true, true, false), (7, 7));
}

/// Rule 11.7.
#[test]
fn x_offset_319_draws_and_320_is_refused() {
    let mut state = counting();
    state.tile_control = 0x80;
    state.tile_x_high = 1;
    state.tile_x_low = 63;
    common::dots(0, &bank(&[]), &bank(&[]), &state);
    state.tile_x_low = 64;
    assert_eq!(refused(0, &bank(&[]), &bank(&[]), &state, 640), 8);
}

/// Rule 11.7.
#[test]
fn mask_5_is_refused() {
    let state = State::reset();
    assert_eq!(write_register(&state, 0x42, 5), (10, state.clone()));
}

/// Rule 11.7.
#[test]
fn line_255_draws_and_256_is_refused() {
    let state = State::reset();
    assert_eq!(ula_dots(255, &bank(&[]), &state), [0; 640]);
    assert_eq!(refused(256, &bank(&[]), &bank(&[]), &state, 640), 1);
}

/// Rule 11.8.
#[test]
fn zero_pictures() {
    for (length, answer) in [(40_960, (0, 1)), (40_959, (3, 0)), (40_961, (3, 0))] {
        let picture = vec![0; length];
        let mut map = [0; 2_560];
        let mut definitions = [0; 8_192];
        assert_eq!(
            pack(&picture, 256, 0, &mut map, &mut definitions),
            answer,
            "{length}"
        );
    }
}
