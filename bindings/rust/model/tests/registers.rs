//! Register and port writes and reads, reset, lawfulness and the next frame.

use model::{
    lawful, next_frame, read_port, read_register, write_port, write_register, State, RECORD_LENGTH,
};

const REGISTERS: [u8; 25] = [
    0x08, 0x14, 0x15, 0x1A, 0x1B, 0x1C, 0x26, 0x27, 0x2F, 0x30, 0x31, 0x32, 0x33, 0x40, 0x41, 0x42,
    0x43, 0x44, 0x4A, 0x4C, 0x68, 0x6B, 0x6C, 0x6E, 0x6F,
];

/// The state after writes that must all be accepted.
fn written(writes: &[(u8, u8)]) -> State {
    continued(&State::reset(), writes)
}

fn continued(state: &State, writes: &[(u8, u8)]) -> State {
    let mut state = state.clone();
    for &(number, value) in writes {
        let (reply, after) = write_register(&state, number, value);
        assert_eq!(reply, 0, "${number:02X} {value}");
        assert!(lawful(&after));
        state = after;
    }
    state
}

fn value(state: &State, number: u8) -> u8 {
    let (reply, byte) = read_register(state, number);
    assert_eq!(reply, 0);
    byte
}

/// A write that must be refused 10 and hand the state back as it was.
fn out_of_bounds(state: &State, number: u8, value: u8) {
    assert_eq!(write_register(state, number, value), (10, state.clone()));
}

#[test]
fn reset_values() {
    let state = State::reset();
    assert!(lawful(&state));
    for number in REGISTERS {
        let expected = match number {
            0x14 => 0xE3,
            0x42 | 0x4C => 15,
            _ => 0,
        };
        assert_eq!(value(&state, number), expected, "${number:02X}");
    }
    assert_eq!(state.ula_clip, [0, 255, 0, 191]);
    assert_eq!(state.tile_clip, [0, 159, 0, 255]);
    assert_eq!(state.palettes, [[0; 256]; 4]);
    assert_eq!(state.plus, [0; 64]);
    assert_eq!((state.frame, state.border, state.timex), (0, 0, 0));
    assert_eq!((state.select, state.plus_on, state.held), (0, false, false));
}

#[test]
fn no_other_register_is_written_or_read() {
    let state = State::reset();
    for number in 0..=255 {
        if !REGISTERS.contains(&number) {
            assert_eq!(write_register(&state, number, 1), (9, state.clone()));
            assert_eq!(read_register(&state, number), (9, 0));
        }
    }
}

#[test]
fn which_values_a_register_takes() {
    let state = State::reset();
    for number in REGISTERS {
        for byte in 0..=255u8 {
            let taken = match number {
                0x1C => byte < 16,
                0x2F => byte < 4,
                0x27 | 0x33 => byte < 192,
                0x42 => [1, 3, 7, 15, 31, 63, 127, 255].contains(&byte),
                0x43 => [0x00, 0x40, 0x30, 0x70].contains(&(byte & 0x70)),
                0x4C => byte < 16,
                0x68 => byte & 0x3E == 0,
                0x6B => byte & 0x0F == 0,
                _ => true,
            };
            let (reply, after) = write_register(&state, number, byte);
            assert_eq!(reply, if taken { 0 } else { 10 }, "${number:02X} {byte}");
            assert!(taken || after == state);
            assert!(lawful(&after));
        }
    }
}

#[test]
fn plain_registers_read_what_was_written() {
    for number in [
        0x08, 0x14, 0x15, 0x26, 0x30, 0x31, 0x32, 0x40, 0x4A, 0x6C, 0x27, 0x2F, 0x33, 0x42, 0x43,
        0x4C, 0x68, 0x6B,
    ] {
        for byte in 0..=255 {
            let (reply, after) = write_register(&State::reset(), number, byte);
            if reply == 0 {
                assert_eq!(value(&after, number), byte);
            }
        }
    }
}

#[test]
fn bases_drop_bits_7_and_6() {
    for number in [0x6E, 0x6F] {
        for byte in 0..=255 {
            assert_eq!(value(&written(&[(number, byte)]), number), byte & 63);
        }
    }
}

#[test]
fn each_write_heeds_its_own_register_alone() {
    let state = written(&[
        (0x6E, 0xC1),
        (0x6F, 0x42),
        (0x2F, 3),
        (0x30, 4),
        (0x31, 255),
        (0x26, 200),
        (0x27, 191),
        (0x32, 201),
        (0x33, 190),
    ]);
    let mut expected = State::reset();
    expected.map_base = 1;
    expected.definition_base = 2;
    expected.tile_x_high = 3;
    expected.tile_x_low = 4;
    expected.tile_y = 255;
    (expected.ula_x, expected.ula_y) = (200, 191);
    (expected.lores_x, expected.lores_y) = (201, 190);
    assert_eq!(state, expected);
    assert_eq!(state.tile_x(), 772);
}

#[test]
fn clips_are_written_in_turn() {
    let state = written(&[(0x1A, 9), (0x1A, 8), (0x1A, 7)]);
    assert_eq!(state.ula_clip, [9, 8, 7, 191]);
    assert_eq!(value(&state, 0x1A), 191);
    assert_eq!(value(&state, 0x1C), 3);
    let state = continued(&state, &[(0x1A, 6), (0x1A, 5), (0x1B, 4), (0x1B, 3)]);
    assert_eq!(state.ula_clip, [5, 8, 7, 6]);
    assert_eq!(state.tile_clip, [4, 3, 0, 255]);
    assert_eq!(value(&state, 0x1A), 8);
    assert_eq!(value(&state, 0x1B), 0);
    assert_eq!(value(&state, 0x1C), 2 * 64 + 1);
}

#[test]
fn register_1c_restarts_turns() {
    let state = written(&[(0x1A, 1), (0x1B, 2), (0x1B, 3), (0x1B, 4)]);
    assert_eq!(value(&state, 0x1C), 3 * 64 + 1);
    assert_eq!(value(&continued(&state, &[(0x1C, 3)]), 0x1C), 3 * 64 + 1);
    assert_eq!(value(&continued(&state, &[(0x1C, 4)]), 0x1C), 3 * 64);
    assert_eq!(value(&continued(&state, &[(0x1C, 8)]), 0x1C), 1);
    assert_eq!(value(&continued(&state, &[(0x1C, 15)]), 0x1C), 0);
    out_of_bounds(&state, 0x1C, 16);
    out_of_bounds(&state, 0x1C, 0x8C);
    assert_eq!(continued(&state, &[(0x1C, 15)]).ula_clip, [1, 255, 0, 191]);
}

#[test]
fn register_41_widens_and_advances() {
    let state = written(&[(0x40, 254), (0x41, 0xE3), (0x41, 0x02), (0x41, 0x04)]);
    assert_eq!(state.palettes[0][254], 455);
    assert_eq!(state.palettes[0][255], 5);
    assert_eq!(state.palettes[0][0], 8);
    assert_eq!(state.palette_index, 1);
    let state = continued(&state, &[(0x40, 254)]);
    assert_eq!((value(&state, 0x41), value(&state, 0x44)), (0xE3, 1));
    assert_eq!(value(&state, 0x40), 254);
}

#[test]
fn the_four_palettes() {
    for (control, palette) in [(0x00, 0), (0x40, 1), (0x30, 2), (0x70, 3)] {
        let state = written(&[(0x43, control), (0x40, 7), (0x41, 0xFF)]);
        let mut expected = State::reset();
        expected.palette_control = control;
        expected.palette_index = 8;
        expected.palettes[palette][7] = 511;
        assert_eq!(state, expected);
        assert_eq!(value(&state, 0x41), 0);
        assert_eq!(value(&continued(&state, &[(0x40, 7)]), 0x41), 255);
        assert_eq!(value(&continued(&state, &[(0x40, 7)]), 0x44), 1);
    }
    for control in [0x10, 0x50, 0x20, 0x60] {
        out_of_bounds(&State::reset(), 0x43, control);
    }
}

#[test]
fn bit_7_of_43_holds_the_index() {
    let state = written(&[(0x43, 0x80), (0x41, 1), (0x41, 2), (0x44, 3), (0x44, 1)]);
    assert_eq!(state.palette_index, 0);
    assert_eq!(state.palettes[0][0], 7);
}

#[test]
fn register_44_takes_two_writes() {
    let state = written(&[(0x40, 255), (0x44, 0xE3)]);
    assert!(state.held);
    assert_eq!((state.half, state.palette_index), (0xE3, 255));
    assert_eq!(state.palettes, [[0; 256]; 4]);
    let state = continued(&state, &[(0x44, 0)]);
    assert_eq!((state.held, state.half, state.palette_index), (false, 0, 0));
    assert_eq!(state.palettes[0][255], 0x1C6);
    let state = continued(&state, &[(0x44, 0xFF), (0x44, 1)]);
    assert_eq!(state.palettes[0][0], 511);
    assert_eq!(state.palette_index, 1);
}

#[test]
fn a_held_half() {
    let held = written(&[(0x40, 5), (0x44, 0x81)]);
    // 3.14: three registers drop it.
    for (number, byte) in [(0x40, 5), (0x41, 0), (0x43, 0)] {
        let after = continued(&held, &[(number, byte)]);
        assert_eq!((after.held, after.half), (false, 0));
    }
    // $41 then writes its own colour, widened.
    let after = continued(&held, &[(0x41, 0x02)]);
    assert_eq!((after.palettes[0][5], after.palette_index), (5, 6));
    // Other writes keep it, and so does a refused one.
    for (number, byte) in [
        (0x42, 7),
        (0x14, 0),
        (0x4A, 1),
        (0x6E, 255),
        (0x26, 9),
        (0x27, 9),
    ] {
        let after = continued(&held, &[(number, byte)]);
        assert_eq!((after.held, after.half), (true, 0x81));
    }
    out_of_bounds(&held, 0x44, 2);
    out_of_bounds(&held, 0x44, 0x81);
    out_of_bounds(&held, 0x43, 0x10);
    out_of_bounds(&held, 0x27, 192);
    // Reads see the stored colour meanwhile.
    assert_eq!((value(&held, 0x41), value(&held, 0x44)), (0, 0));
}

#[test]
fn the_border_port() {
    let state = State::reset();
    let (reply, after) = write_port(&state, 0xFE, 0xFD);
    assert_eq!((reply, after.border), (0, 5));
    assert_eq!(read_port(&after, 0xFE), (9, 0));
}

#[test]
fn the_timex_port() {
    let (reply, after) = write_port(&State::reset(), 0xFF, 0xC7);
    assert_eq!((reply, after.timex), (0, 0xC7));
    assert_eq!(read_port(&after, 0xFF), (9, 0));
    let after = continued(&after, &[(0x08, 4)]);
    assert_eq!(read_port(&after, 0xFF), (0, 0xC7));
    let after = continued(&after, &[(0x08, 0xFB)]);
    assert_eq!(read_port(&after, 0xFF), (9, 0));
}

#[test]
fn the_ulaplus_ports() {
    let state = State::reset();
    let (reply, state) = write_port(&state, 0xBF3B, 63);
    assert_eq!((reply, state.select), (0, 63));
    assert_eq!(read_port(&state, 0xBF3B), (9, 0));
    let (reply, state) = write_port(&state, 0xFF3B, 0xFE);
    assert_eq!((reply, state.plus[63], state.plus_on), (0, 0xFE, false));
    assert_eq!(read_port(&state, 0xFF3B), (0, 0xFE));
    let (reply, state) = write_port(&state, 0xBF3B, 64);
    assert_eq!(reply, 0);
    assert_eq!(read_port(&state, 0xFF3B), (0, 0));
    let (reply, state) = write_port(&state, 0xFF3B, 0xFF);
    assert_eq!((reply, state.plus_on, state.plus[63]), (0, true, 0xFE));
    assert_eq!(read_port(&state, 0xFF3B), (0, 1));
    let (reply, state) = write_port(&state, 0xBF3B, 127);
    assert_eq!((reply, state.select), (0, 127));
    let (reply, off) = write_port(&state, 0xFF3B, 0xFE);
    assert_eq!((reply, off.plus_on), (0, false));
    assert_eq!(write_port(&state, 0xBF3B, 128), (10, state.clone()));
    assert_eq!(write_port(&state, 0xBF3B, 255), (10, state.clone()));
}

#[test]
fn no_other_port() {
    let state = continued(&State::reset(), &[(0x08, 4)]);
    for port in 0..=65_535 {
        let known = [0x00FE, 0x00FF, 0xBF3B, 0xFF3B].contains(&port);
        if port % 97 == 0 || port % 256 >= 0xFE || port % 256 == 0x3B {
            assert_eq!(write_port(&state, port, 1).0, if known { 0 } else { 9 });
            let readable = [0x00FF, 0xFF3B].contains(&port);
            assert_eq!(read_port(&state, port).0, if readable { 0 } else { 9 });
        }
    }
}

#[test]
fn frames() {
    let mut state = State::reset();
    for expected in (1..=255).chain([0, 1]) {
        let (reply, after) = next_frame(&state);
        assert_eq!((reply, after.frame), (0, expected));
        state = after;
    }
}

/// States with one field out of its bounds.
fn unlawful() -> Vec<State> {
    let changes: [fn(&mut State); 23] = [
        |s| s.ula_y = 192,
        |s| s.lores_y = 192,
        |s| s.ink_mask = 0,
        |s| s.ink_mask = 5,
        |s| s.palette_control = 0x10,
        |s| s.palette_control = 0xE3,
        |s| s.tile_transparent = 16,
        |s| s.ula_control = 2,
        |s| s.ula_control = 0x20,
        |s| s.tile_control = 1,
        |s| s.tile_control = 0x88,
        |s| s.tile_x_high = 4,
        |s| s.map_base = 64,
        |s| s.definition_base = 64,
        |s| s.select = 128,
        |s| s.border = 8,
        |s| s.palettes[0][0] = 512,
        |s| s.palettes[1][17] = 512,
        |s| s.palettes[2][200] = 65_535,
        |s| s.palettes[3][255] = 512,
        |s| s.ula_turn = 4,
        |s| s.tile_turn = 4,
        |s| s.half = 1,
    ];
    changes
        .iter()
        .map(|change| {
            let mut state = State::reset();
            change(&mut state);
            state
        })
        .collect()
}

#[test]
fn a_state_that_is_not_lawful_is_refused_everywhere() {
    for state in unlawful() {
        assert!(!lawful(&state));
        assert_eq!(next_frame(&state), (4, state.clone()));
        // 4 comes before 9 and 10.
        for (number, byte) in [(0x14, 0), (0x42, 5), (0x00, 0)] {
            assert_eq!(write_register(&state, number, byte), (4, state.clone()));
            assert_eq!(read_register(&state, number), (4, 0));
        }
        for (port, byte) in [(0xFE, 0), (0xBF3B, 255), (0x1234, 0)] {
            assert_eq!(write_port(&state, port, byte), (4, state.clone()));
            assert_eq!(read_port(&state, port), (4, 0));
        }
        let mut target = [0xAA; RECORD_LENGTH];
        assert_eq!(model::write_record(&state, &mut target), 4);
        assert_eq!(target, [0xAA; RECORD_LENGTH]);
        let mut short = [0xAA; RECORD_LENGTH - 1];
        assert_eq!(model::write_record(&state, &mut short), 3);
    }
}

#[test]
fn the_widest_lawful_state() {
    let mut state = State::reset();
    state.peripheral = 255;
    state.transparent = 255;
    state.layers = 255;
    state.ula_clip = [255; 4];
    state.tile_clip = [255; 4];
    state.ula_turn = 3;
    state.tile_turn = 3;
    state.tile_x_high = 3;
    state.tile_x_low = 255;
    state.tile_y = 255;
    (state.ula_x, state.ula_y) = (255, 191);
    (state.lores_x, state.lores_y) = (255, 191);
    state.palette_index = 255;
    state.ink_mask = 255;
    state.palette_control = 255;
    state.held = true;
    state.half = 255;
    state.fallback = 255;
    state.tile_transparent = 15;
    state.ula_control = 0xC1;
    state.tile_control = 0xF0;
    state.tile_attribute = 255;
    state.map_base = 63;
    state.definition_base = 63;
    state.border = 7;
    state.timex = 255;
    state.select = 127;
    state.plus_on = true;
    state.frame = 255;
    state.plus = [255; 64];
    state.palettes = [[511; 256]; 4];
    assert!(lawful(&state));
}
