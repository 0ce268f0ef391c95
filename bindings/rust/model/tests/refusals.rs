//! Drawing refusals and their order (10.1): 1, 2, 3, 4, 6, 7, 5, 8.

mod common;

use common::{all_at_once, bank, counting, dots, refused, timex};

#[test]
fn lengths() {
    let state = counting();
    let good = bank(&[]);
    for length in [0, 16_383, 16_385] {
        let bad = vec![0; length];
        assert_eq!(refused(0, &bad, &good, &state, 640), 2);
        assert_eq!(refused(0, &good, &bad, &state, 640), 2);
    }
    for length in [0, 320, 639, 641] {
        assert_eq!(refused(0, &good, &good, &state, length), 3);
    }
    assert_eq!(refused(256, &good, &good, &state, 640), 1);
    assert_eq!(refused(u32::MAX, &good, &good, &state, 640), 1);
}

#[test]
fn no_such_mode() {
    let good = bank(&[]);
    for value in [3, 4, 5, 7] {
        let mut state = timex(value);
        assert_eq!(refused(0, &good, &good, &state, 640), 5);
        state.ula_control = 0x80;
        dots(0, &good, &good, &state);
        state.ula_control = 0;
        state.layers = 0x80;
        dots(0, &good, &good, &state);
        state.layers = 0;
        state.peripheral = 0;
        dots(0, &good, &good, &state);
    }
}

#[test]
fn lores_and_tilemap() {
    let good = bank(&[]);
    let mut state = counting();
    state.layers = 0x80;
    state.tile_control = 0x80;
    assert_eq!(refused(0, &good, &good, &state, 640), 6);
    state.ula_control = 0x80;
    assert_eq!(refused(0, &good, &good, &state, 640), 6);
    state.tile_control = 0x70;
    dots(0, &good, &good, &state);
}

#[test]
fn ulanext_and_ulaplus() {
    let good = bank(&[]);
    let mut state = counting();
    state.palette_control = 1;
    state.plus_on = true;
    assert_eq!(refused(0, &good, &good, &state, 640), 7);
    state.ula_control = 0x80;
    assert_eq!(refused(0, &good, &good, &state, 640), 7);
    state.ula_control = 0;
    state.layers = 0x80;
    assert_eq!(refused(0, &good, &good, &state, 640), 7);
}

#[test]
fn not_lawful() {
    let good = bank(&[]);
    let mut state = counting();
    state.palettes[3][255] = 512;
    assert_eq!(refused(0, &good, &good, &state, 640), 4);
}

#[test]
fn the_order() {
    let good = bank(&[]);
    let bad = vec![0; 5];
    let mut state = all_at_once();
    state.border = 8;
    assert_eq!(refused(256, &bad, &bad, &state, 5), 1);
    assert_eq!(refused(255, &good, &bad, &state, 5), 2);
    assert_eq!(refused(255, &good, &good, &state, 5), 3);
    assert_eq!(refused(255, &good, &good, &state, 640), 4);
    state.border = 7;
    state.layers = 0x80;
    assert_eq!(refused(255, &good, &good, &state, 640), 6);
    state.layers = 0;
    assert_eq!(refused(255, &good, &good, &state, 640), 7);
    state.plus_on = false;
    assert_eq!(refused(255, &good, &good, &state, 640), 5);
    state.timex = 6;
    assert_eq!(refused(255, &good, &good, &state, 640), 8);
    state.tile_x_high = 0;
    dots(255, &good, &good, &state);
}
