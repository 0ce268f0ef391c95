//! ULA dots, hand-worked.

mod common;

use common::{bank, counting, old_record_of, timex, ula_dots, FALLBACK};
use model::ula::{high_resolution_attribute, next_ink, next_mode_6_border, next_paper};
use model::{read_record, ula_mode, Mode};

#[test]
fn mode_0_shows_bit_7_leftmost() {
    let mut state = counting();
    state.border = 5;
    // Bright, paper 2, ink 7: ink 15, paper 26.
    let ula = bank(&[(0, 0x81), (0x1800, 0x57)]);
    let dots = ula_dots(32, &ula, &state);
    assert_eq!(dots[..64], [21; 64]);
    assert_eq!(dots[64..66], [15; 2]);
    assert_eq!(dots[66..78], [26; 12]);
    assert_eq!(dots[78..80], [15; 2]);
    // Attribute 0 further on: paper 16.
    assert_eq!(dots[80..576], [16; 496]);
    assert_eq!(dots[576..], [21; 64]);
}

#[test]
fn the_border_lies_outside_lines_32_to_223() {
    let mut state = counting();
    state.border = 7;
    let ula = bank(&[]);
    for line in [0, 31, 224, 255] {
        assert_eq!(ula_dots(line, &ula, &state), [23; 640]);
    }
    for line in [32, 223] {
        assert_eq!(ula_dots(line, &ula, &state)[63..65], [23, 16]);
    }
}

#[test]
fn mode_0_rows() {
    let state = counting();
    // Row 65: byte $0900, attribute row 8.
    let ula = bank(&[(0x0900, 0x80), (0x1900, 0x0C)]);
    let dots = ula_dots(97, &ula, &state);
    assert_eq!(dots[64..68], [4, 4, 17, 17]);
    // Row 191, column 31: byte $17FF, attribute $1AFF.
    let ula = bank(&[(0x17FF, 0x01), (0x1AFF, 0x3F)]);
    let dots = ula_dots(223, &ula, &state);
    assert_eq!(
        dots[560..576],
        [23; 14].iter().chain(&[7; 2]).copied().collect::<Vec<_>>()[..]
    );
}

/// Rule 4.7.
#[test]
fn mode_1_lies_2000_further() {
    let ula = bank(&[(0, 0xFF), (0x2000, 0x80), (0x1800, 0x07), (0x3800, 0x0A)]);
    let dots = ula_dots(32, &ula, &timex(1));
    assert_eq!(dots[64..68], [2, 2, 17, 17]);
}

#[test]
fn mode_2_has_an_attribute_for_each_byte() {
    let ula = bank(&[(0x0900, 0x80), (0x2900, 0x0A), (0x1900, 0x07)]);
    let dots = ula_dots(97, &ula, &timex(2));
    assert_eq!(dots[64..68], [2, 2, 17, 17]);
}

#[test]
fn without_bit_2_of_08_the_mode_is_0() {
    let mut state = timex(6);
    assert_eq!(ula_mode(&state), Mode::Six);
    for peripheral in [0x00, 0xFB] {
        state.peripheral = peripheral;
        state.border = 3;
        assert_eq!(ula_mode(&state), Mode::Zero);
        let ula = bank(&[(0, 0x80), (0x1800, 0x0A)]);
        let dots = ula_dots(32, &ula, &state);
        assert_eq!(dots[63..68], [19, 2, 2, 17, 17]);
        // No mode by its number either, and still mode 0.
        state.timex = 5;
        assert_eq!(ula_dots(32, &ula, &state), dots);
        state.timex = 6;
    }
}

#[test]
fn the_modes() {
    let modes: Vec<Mode> = (0..8).map(|value| ula_mode(&timex(0xF8 + value))).collect();
    let none = Mode::NoMode;
    assert_eq!(
        modes,
        [
            Mode::Zero,
            Mode::One,
            Mode::Two,
            none,
            none,
            none,
            Mode::Six,
            none
        ]
    );
    let mut state = timex(6);
    state.layers = 0x80;
    assert_eq!(ula_mode(&state), Mode::Lores);
    state.ula_control = 0x80;
    assert_eq!(ula_mode(&state), Mode::Off);
}

#[test]
fn mode_6_reads_two_pages() {
    // Ink 4, paper 3, bright: ink 12, paper and border 27.
    let state = timex(0x26);
    let ula = bank(&[(0, 0x80), (0x2000, 0x40), (0x2001, 0x01)]);
    let dots = ula_dots(32, &ula, &state);
    let inks: Vec<usize> = (0..640).filter(|&dot| dots[dot] == 12).collect();
    // Columns 0, 1 and 3 of 64.
    assert_eq!(inks, [64, 64 + 9, 64 + 31]);
    assert_eq!(dots.iter().filter(|&&dot| dot == 27).count(), 637);
}

#[test]
fn the_mode_6_attribute() {
    assert_eq!(high_resolution_attribute(0x26), 0x5C);
    assert_eq!(high_resolution_attribute(0x06), 0x78);
    assert_eq!(high_resolution_attribute(0x3E), 0x47);
    assert_eq!(high_resolution_attribute(0xE6), 0x5C);
}

/// Ink dot, paper dot and border dot of mode 6 with attribute $5C.
fn mode_6_colours(change: fn(&mut model::State)) -> [u16; 3] {
    let mut state = timex(0x26);
    state.border = 6;
    for (register, byte) in state.plus.iter_mut().enumerate() {
        *byte = register as u8 * 4;
    }
    change(&mut state);
    let dots = ula_dots(32, &bank(&[(0, 0x80)]), &state);
    assert_eq!(ula_dots(0, &bank(&[]), &state), [dots[0]; 640]);
    [dots[64], dots[65], dots[63]]
}

#[test]
fn mode_6_colours_plain() {
    assert_eq!(mode_6_colours(|_| {}), [12, 27, 27]);
}

#[test]
fn mode_6_colours_under_ulanext() {
    fn masked(state: &mut model::State, mask: u8) {
        state.palette_control = 1;
        state.ink_mask = mask;
    }
    // $5C is 01011100.
    assert_eq!(mode_6_colours(|s| masked(s, 1)), [0, 128 + 46, 128 + 6]);
    assert_eq!(mode_6_colours(|s| masked(s, 3)), [0, 128 + 23, 128 + 7]);
    assert_eq!(mode_6_colours(|s| masked(s, 7)), [4, 139, 131]);
    assert_eq!(mode_6_colours(|s| masked(s, 15)), [12, 133, 133]);
    assert_eq!(mode_6_colours(|s| masked(s, 31)), [28, 130, 130]);
    assert_eq!(mode_6_colours(|s| masked(s, 63)), [28, 129, 129]);
    assert_eq!(mode_6_colours(|s| masked(s, 127)), [92, 128, 128]);
    assert_eq!(mode_6_colours(|s| masked(s, 255)), [92, FALLBACK, FALLBACK]);
}

#[test]
fn mode_6_colours_under_ulaplus() {
    // Registers 20, 27 and 27, which hold 80, 108 and 108.
    // 80 is 010 100 00: red 4, green 2. 108 is 011 011 00: red 3, green 3.
    assert_eq!(
        mode_6_colours(|s| s.plus_on = true),
        [4 * 64 + 2 * 8, 3 * 64 + 3 * 8, 3 * 64 + 3 * 8]
    );
}

#[test]
fn an_x_offset_of_13_moves_by_8_pixels() {
    let mut state = counting();
    state.ula_x = 13;
    // LoRes alone goes by these.
    (state.lores_x, state.lores_y) = (90, 77);
    // Column 1 comes first; column 0 comes last.
    let ula = bank(&[(1, 0x80), (0, 0x01), (0x1801, 0x05), (0x1800, 0x06)]);
    let dots = ula_dots(32, &ula, &state);
    assert_eq!(dots[64..67], [5, 5, 16]);
    assert_eq!(dots[572..576], [16, 16, 6, 6]);
}

#[test]
fn an_x_offset_of_13_moves_mode_6_by_16_dots() {
    let mut state = timex(0x26);
    state.ula_x = 13;
    (state.lores_x, state.lores_y) = (90, 77);
    let ula = bank(&[(1, 0x80), (0x2000, 0x01)]);
    let dots = ula_dots(32, &ula, &state);
    let inks: Vec<usize> = (0..640).filter(|&dot| dots[dot] == 12).collect();
    // Column 2 begins at dot 16, column 1 ends at dot 15, that is 511 of 512.
    assert_eq!(inks, [64, 64 + 511]);
}

#[test]
fn the_y_offset_wraps_at_192() {
    let mut state = counting();
    state.ula_y = 191;
    state.lores_y = 40;
    let ula = bank(&[(0, 0x80), (0x1800, 0x02)]);
    assert_eq!(ula_dots(33, &ula, &state)[64], 2);
    assert_eq!(ula_dots(32, &ula, &state)[64], 16);
    state.ula_y = 65;
    let ula = bank(&[(0x0900, 0x80), (0x1900, 0x03)]);
    assert_eq!(ula_dots(32, &ula, &state)[64], 3);
}

/// Row 65, column 1 comes to the display's corner in each mode with attributes.
#[test]
fn the_timex_modes_scroll_by_26_and_27() {
    for (mode, bitmap, attribute) in [
        (0, 0x0901, 0x1901),
        (1, 0x2901, 0x3901),
        (2, 0x0901, 0x2901),
    ] {
        let mut state = timex(mode);
        (state.ula_x, state.ula_y) = (13, 65);
        (state.lores_x, state.lores_y) = (90, 77);
        let ula = bank(&[(bitmap, 0x80), (attribute, 0x0A)]);
        let dots = ula_dots(32, &ula, &state);
        assert_eq!(dots[64..68], [2, 2, 17, 17], "{mode}");
    }
}

/// Rule 7.12: an old record scrolls each mode by $32 and $33, here by 13 and 65.
#[test]
fn an_old_record_draws_as_it_did() {
    let drawn = |mut state: model::State, bytes: &[(usize, u8)]| {
        (state.lores_x, state.lores_y) = (13, 65);
        // An old record has no place for these.
        (state.ula_x, state.ula_y) = (200, 100);
        let (reply, _, state) = read_record(&old_record_of(&state));
        assert_eq!(reply, 0);
        ula_dots(32, &bank(bytes), &state)[64..68].to_vec()
    };
    let mode_0 = drawn(counting(), &[(0x0901, 0x80), (0x1901, 0x0A)]);
    assert_eq!(mode_0, [2, 2, 17, 17]);
    // Ink 12, paper 27; bit 7 of column 2 of 64 is dot 16.
    assert_eq!(drawn(timex(0x26), &[(0x0901, 0xA0)]), [12, 27, 12, 27]);
    // Row 32 of bytes, 4,096 on; pixel 13 is in column 6, pixel 14 in column 7.
    let mut lores = counting();
    lores.layers = 0x80;
    assert_eq!(drawn(lores, &[(4_102, 60), (4_103, 70)]), [60, 60, 70, 70]);
}

#[test]
fn flash_changes_places_by_sixteen_frames() {
    let mut state = counting();
    // Flash, bright, paper 1, ink 2: ink 10, paper 25.
    let ula = bank(&[(0, 0x80), (0x1800, 0xCA)]);
    for frame in 0..=255u8 {
        state.frame = frame;
        let dots = ula_dots(32, &ula, &state);
        let swapped = frame & 16 != 0;
        assert_eq!(
            (dots[64], dots[66]),
            if swapped { (25, 10) } else { (10, 25) }
        );
        // Attribute 0 beside it does not flash.
        assert_eq!(dots[80], 16);
    }
}

#[test]
fn no_flash_under_ulanext_and_ulaplus() {
    let mut state = counting();
    state.frame = 16;
    state.palette_control = 1;
    state.ink_mask = 7;
    let ula = bank(&[(0, 0x80), (0x1800, 0xCA)]);
    let dots = ula_dots(32, &ula, &state);
    assert_eq!((dots[64], dots[66]), (2, 128 + 25));
    state.palette_control = 0;
    state.plus_on = true;
    // (3) × 16 + 2 is register 50, (3) × 16 + 8 + 1 is 57.
    state.plus[50] = 0x1C;
    state.plus[57] = 0xE0;
    let dots = ula_dots(32, &ula, &state);
    assert_eq!((dots[64], dots[66]), (448, 56));
}

#[test]
fn the_eight_masks() {
    let mut state = counting();
    state.palette_control = 1;
    state.border = 6;
    let ula = bank(&[(0, 0x80), (0x1800, 0xFF)]);
    let expected = [
        (1, 1, 255),
        (3, 3, 128 + 63),
        (7, 7, 128 + 31),
        (15, 15, 128 + 15),
        (31, 31, 128 + 7),
        (63, 63, 128 + 3),
        (127, 127, 128 + 1),
    ];
    for (mask, ink, paper) in expected {
        state.ink_mask = mask;
        let dots = ula_dots(32, &ula, &state);
        assert_eq!((dots[64], dots[66]), (ink, paper), "{mask}");
        assert_eq!(dots[0], 134);
    }
    assert_eq!(next_ink(0xA5, 63), 0x25);
    assert_eq!(next_paper(0xA5, 63), Some(130));
    assert_eq!(next_paper(0xA5, 127), Some(129));
    assert_eq!(next_mode_6_border(0xFF, 1), Some(135));
}

/// Rule 4.16.
#[test]
fn mask_255_gives_paper_and_border_the_fallback() {
    let mut state = counting();
    state.palette_control = 1;
    state.ink_mask = 255;
    let ula = bank(&[(0, 0x80), (0x1800, 0xFE)]);
    let dots = ula_dots(32, &ula, &state);
    assert_eq!((dots[64], dots[66], dots[0]), (0xFE, FALLBACK, FALLBACK));
    // An ordinary colour, transparent only where it equals $14: a tile below
    // it shows through then.
    state.tile_control = 0x80;
    state.tile_transparent = 1;
    let tile = bank(&[(1, 0x01)]);
    assert_eq!(common::dots(0, &ula, &tile, &state)[0], FALLBACK);
    state.transparent = 0x92;
    assert_eq!(common::dots(0, &ula, &tile, &state)[0], 511);
}

#[test]
fn ulaplus_colours() {
    let mut state = counting();
    state.plus_on = true;
    state.border = 7;
    // $4A is 01 001 010: ink register 16 + 2, paper register 16 + 8 + 1.
    state.plus[18] = 0x02;
    state.plus[25] = 0x01;
    state.plus[15] = 0xFC;
    let ula = bank(&[(0, 0x80), (0x1800, 0x4A)]);
    let dots = ula_dots(32, &ula, &state);
    assert_eq!((dots[64], dots[66], dots[0]), (4, 3, 504));
    // Register 8, paper 0 of attribute 0, is 0.
    assert_eq!(dots[80], 0);
}

#[test]
fn transparent_by_a_ulaplus_colour() {
    let mut state = counting();
    state.plus_on = true;
    state.plus[8] = 0x1C;
    let ula = bank(&[]);
    state.transparent = 0xE0;
    assert_eq!(ula_dots(32, &ula, &state), [FALLBACK; 640]);
    state.transparent = 0x1C;
    assert_eq!(ula_dots(32, &ula, &state), [448; 640]);
    // $02 is colour 4, half of it 2; by OR it would be 5, and half of it 2 too.
    state.plus[8] = 0x02;
    state.transparent = 2;
    assert_eq!(ula_dots(32, &ula, &state), [FALLBACK; 640]);
}

#[test]
fn transparent_ignores_the_lowest_bit() {
    let mut state = counting();
    state.transparent = 8;
    // Border 16 and 17 are both 8 × 2 + a bit.
    for (border, colour) in [(0, FALLBACK), (1, FALLBACK), (2, 18)] {
        state.border = border;
        assert_eq!(ula_dots(0, &bank(&[]), &state), [colour; 640]);
    }
}

#[test]
fn the_second_palette() {
    let mut state = counting();
    state.palette_control = 2;
    state.border = 1;
    let ula = bank(&[(0, 0x80), (0x1800, 0x02)]);
    let dots = ula_dots(32, &ula, &state);
    assert_eq!((dots[0], dots[64], dots[66]), (273, 258, 272));
    // Bits 6-4 choose what is written, not what is shown.
    state.palette_control = 0x40;
    assert_eq!(ula_dots(32, &ula, &state)[64], 2);
}

#[test]
fn a_ula_that_is_off_shows_the_fallback_on_the_border_too() {
    let mut state = timex(7);
    state.ula_control = 0x80;
    assert_eq!(ula_dots(0, &bank(&[]), &state), [FALLBACK; 640]);
    assert_eq!(ula_dots(100, &bank(&[]), &state), [FALLBACK; 640]);
}

#[test]
fn the_clip_has_both_ends_inside() {
    let mut state = counting();
    state.ula_clip = [2, 5, 1, 3];
    state.border = 1;
    let ula = bank(&[]);
    let dots = ula_dots(33, &ula, &state);
    assert_eq!(dots[..64], [17; 64]);
    assert_eq!(dots[64..68], [FALLBACK; 4]);
    assert_eq!(dots[68..76], [16; 8]);
    assert_eq!(dots[76..576], [FALLBACK; 500]);
    assert_eq!(dots[576..], [17; 64]);
    assert_eq!(ula_dots(35, &ula, &state), dots);
    for line in [32, 36] {
        let dots = ula_dots(line, &ula, &state);
        assert_eq!(dots[64..576], [FALLBACK; 512]);
        assert_eq!(dots[0], 17);
    }
    // X1 above X2 shows nothing; one pixel shows one pixel.
    state.ula_clip = [6, 5, 0, 191];
    assert_eq!(ula_dots(33, &ula, &state)[64..576], [FALLBACK; 512]);
    state.ula_clip = [255, 255, 191, 191];
    assert_eq!(
        ula_dots(223, &ula, &state)[572..577],
        [FALLBACK, FALLBACK, 16, 16, 17]
    );
}

#[test]
fn the_clip_counts_unscrolled_pixels_in_mode_6_too() {
    let mut state = timex(0x26);
    state.ula_x = 8;
    state.ula_clip = [1, 2, 0, 191];
    let ula = bank(&[(1, 0xFF)]);
    let dots = ula_dots(32, &ula, &state);
    assert_eq!(dots[64..66], [FALLBACK; 2]);
    assert_eq!(dots[66..70], [12; 4]);
    assert_eq!(dots[70..576], [FALLBACK; 506]);
}

#[test]
fn lores_addresses_on_the_line() {
    let mut state = counting();
    state.layers = 0x80;
    let ula = bank(&[
        (0x17FF, 200),
        (0x2000, 100),
        (0x2001, 101),
        (0x2FFF, 99),
        (0, 7),
    ]);
    let dots = ula_dots(32 + 96, &ula, &state);
    assert_eq!(dots[64..72], [100, 100, 100, 100, 101, 101, 101, 101]);
    assert_eq!(ula_dots(32 + 97, &ula, &state), dots);
    let dots = ula_dots(32 + 95, &ula, &state);
    assert_eq!(dots[571..576], [0, 200, 200, 200, 200]);
    let dots = ula_dots(223, &ula, &state);
    // Row 95: 95 × 128 + $800 is $3780.
    assert_eq!(dots[64..576], [0; 512]);
    assert_eq!(ula_dots(33, &ula, &state)[64..69], [7, 7, 7, 7, 0]);
}

#[test]
fn lores_scrolls_by_the_whole_offset() {
    let mut state = counting();
    state.layers = 0x80;
    (state.lores_x, state.lores_y) = (13, 191);
    // LoRes does not go by these.
    (state.ula_x, state.ula_y) = (90, 77);
    let ula = bank(&[(6, 60), (7, 70), (5, 50)]);
    // y = 1 reads row 0; x = 0 reads pixel 13, the right half of column 6.
    let dots = ula_dots(33, &ula, &state);
    assert_eq!(dots[64..72], [60, 60, 70, 70, 70, 70, 0, 0]);
    // x = 255 reads pixel 12, x = 254 and 253 pixels 11 and 10.
    assert_eq!(dots[568..576], [0, 0, 50, 50, 50, 50, 60, 60]);
}

#[test]
fn lores_under_ulaplus_and_ulanext() {
    let mut state = counting();
    state.layers = 0x80;
    state.palette_control = 2;
    state.border = 2;
    state.plus_on = true;
    state.plus[10] = 0x1C;
    let ula = bank(&[(0, 9)]);
    let dots = ula_dots(32, &ula, &state);
    assert_eq!((dots[63], dots[64]), (448, 265));
    state.plus_on = false;
    state.palette_control = 1;
    let dots = ula_dots(32, &ula, &state);
    assert_eq!((dots[63], dots[64]), (130, 9));
    state.ink_mask = 255;
    let dots = ula_dots(32, &ula, &state);
    assert_eq!((dots[63], dots[64]), (FALLBACK, 9));
}

#[test]
fn lores_under_clip_and_transparency() {
    let mut state = counting();
    state.layers = 0x80;
    state.ula_clip = [1, 2, 1, 191];
    state.transparent = 4;
    let ula = bank(&[(0, 8), (1, 10)]);
    assert_eq!(ula_dots(32, &ula, &state)[64..576], [FALLBACK; 512]);
    // Pixel 0 clipped, pixel 1 the transparent 8, pixel 2 shows 10, pixel 3 is
    // clipped.
    let dots = ula_dots(33, &ula, &state);
    assert_eq!(
        dots[64..72],
        [FALLBACK, FALLBACK, FALLBACK, FALLBACK, 10, 10, FALLBACK, FALLBACK]
    );
}

#[test]
fn lores_keeps_the_border_of_port_fe_whatever_the_timex_port() {
    let mut state = timex(0x26);
    state.layers = 0x80;
    state.border = 2;
    assert_eq!(ula_dots(0, &bank(&[]), &state), [18; 640]);
    state.timex = 5;
    assert_eq!(ula_dots(0, &bank(&[]), &state), [18; 640]);
}
