//! Tilemap dots and composing, hand-worked.

mod common;

use common::{bank, counting, dots, timex, FALLBACK};
use model::{tile_index, Layout, State};

/// The counting state with a tilemap over the ULA: map at 0, definitions at
/// $2000, tile transparency 15.
fn tiled(control: u8) -> State {
    let mut state = counting();
    state.tile_control = 0x80 | control;
    state.definition_base = 0x20;
    state
}

/// A definition whose row r holds pixels r, r, ... but the leftmost 14, at a
/// tile number, base $2000.
fn rows(bank: &mut [u8], number: usize) {
    for row in 0..8 {
        let start = 0x2000 + number * 32 + row * 4;
        bank[start..start + 4].fill(row as u8 * 17);
        bank[start] = 0xE0 + row as u8;
    }
}

#[test]
fn forty_columns_are_two_dots_a_pixel() {
    let mut tile = bank(&[(2, 1), (3, 0x30)]);
    rows(&mut tile, 1);
    let line = dots(3, &bank(&[]), &tile, &tiled(0));
    // Cell 0: tile 0, pixel 0 throughout, index 0.
    assert_eq!(line[..16], [511; 16]);
    // Cell 1: palette offset 3, pixel 14, then seven of 3.
    assert_eq!(line[16..18], [511 - 62; 2]);
    assert_eq!(line[18..32], [511 - 51; 14]);
    assert_eq!(line[32..640], [511; 608]);
}

#[test]
fn eighty_columns_are_one_dot_a_pixel() {
    let mut tile = bank(&[(2, 1), (3, 0x30), (160, 1), (161, 0)]);
    rows(&mut tile, 1);
    let line = dots(3, &bank(&[]), &tile, &tiled(0x40));
    assert_eq!(line[..8], [511; 8]);
    assert_eq!(line[8], 511 - 62);
    assert_eq!(line[9..16], [511 - 51; 7]);
    assert_eq!(line[16..640], [511; 624]);
    // Cell 80 begins the second row.
    let line = dots(8 + 5, &bank(&[]), &tile, &tiled(0x40));
    assert_eq!(line[..2], [511 - 14, 511 - 5]);
}

#[test]
fn one_byte_entries_take_6c() {
    let mut tile = bank(&[(1, 1), (40, 1)]);
    rows(&mut tile, 1);
    let mut state = tiled(0x20);
    state.tile_attribute = 0x50;
    let line = dots(2, &bank(&[]), &tile, &state);
    assert_eq!(line[..16], [511 - 80; 16]);
    assert_eq!(line[16..20], [511 - 94, 511 - 94, 511 - 82, 511 - 82]);
    let line = dots(8 + 2, &bank(&[]), &tile, &state);
    assert_eq!(line[..4], [511 - 94, 511 - 94, 511 - 82, 511 - 82]);
}

#[test]
fn the_second_tilemap_palette() {
    let line = dots(0, &bank(&[]), &bank(&[]), &tiled(0x10));
    assert_eq!(line, [255; 640]);
}

#[test]
fn an_31_of_255_shows_the_last_row_first() {
    let mut tile = bank(&[(31 * 80, 1)]);
    rows(&mut tile, 1);
    tile[0x2000..0x2020].fill(0x99);
    let mut state = tiled(0);
    state.tile_y = 255;
    // Line 0 is map line 255, row 7 of cell row 31.
    assert_eq!(
        dots(0, &bank(&[]), &tile, &state)[..3],
        [511 - 14, 511 - 14, 511 - 7]
    );
    // Line 1 is map line 0, tile 0.
    assert_eq!(dots(1, &bank(&[]), &tile, &state)[..3], [511 - 9; 3]);
    // Line 255 is map line 254, row 6.
    assert_eq!(
        dots(255, &bank(&[]), &tile, &state)[..3],
        [511 - 14, 511 - 14, 511 - 6]
    );
}

#[test]
fn the_x_offset_wraps_at_the_width() {
    // Cell 0 is tile 3, pixels 9; cell 39 is tile 1; cell 79 is tile 2, whose
    // first row ends in 13.
    let mut tile = bank(&[(0, 3), (78, 1), (158, 2)]);
    rows(&mut tile, 1);
    rows(&mut tile, 2);
    tile[0x2000 + 64 + 3] = 0x0D;
    tile[0x2060..0x2080].fill(0x99);
    let mut state = tiled(0);
    state.tile_x_high = 1;
    state.tile_x_low = 63;
    // Pixel 319 first: the last pixel of cell 39, then cell 0 again.
    let line = dots(1, &bank(&[]), &tile, &state);
    assert_eq!(line[..4], [511 - 1, 511 - 1, 511 - 9, 511 - 9]);
    assert_eq!(line[638..], [511 - 1; 2]);
    let mut state = tiled(0x40);
    state.tile_x_high = 2;
    state.tile_x_low = 127;
    // Dot 639 first: the last dot of cell 79.
    let line = dots(0, &bank(&[]), &tile, &state);
    assert_eq!(line[..3], [511 - 13, 511 - 9, 511 - 9]);
    state.tile_x_low = 128;
    assert_eq!(common::refused(0, &bank(&[]), &tile, &state, 640), 8);
}

#[test]
fn a_refused_offset_matters_only_with_the_tilemap_on() {
    let mut state = counting();
    state.tile_x_high = 3;
    state.tile_x_low = 255;
    dots(0, &bank(&[]), &bank(&[]), &state);
}

/// Pixel (column, row) of tile 1 set to 5 shows at this place of cell 0.
fn shown_at(attribute: u8, column: usize, row: usize) -> (usize, u32) {
    let mut tile = bank(&[(0, 1), (1, attribute)]);
    tile[0x2020 + row * 4 + column / 2] = if column % 2 == 1 { 0x05 } else { 0x50 };
    let mut found = Vec::new();
    for line in 0..8 {
        let colours = dots(line, &bank(&[]), &tile, &tiled(0));
        for pixel in 0..8 {
            assert_eq!(colours[pixel * 2], colours[pixel * 2 + 1]);
            if colours[pixel * 2] == 511 - 5 {
                found.push((pixel, line));
            }
        }
    }
    assert_eq!(found.len(), 1);
    found[0]
}

#[test]
fn the_eight_turns_of_a_pixel() {
    // Pixel (1, 0), beside the top left corner. Attribute bits: 8 x mirror,
    // 4 y mirror, 2 rotate.
    assert_eq!(shown_at(0, 1, 0), (1, 0));
    assert_eq!(shown_at(8, 1, 0), (6, 0));
    assert_eq!(shown_at(4, 1, 0), (1, 7));
    assert_eq!(shown_at(12, 1, 0), (6, 7));
    // Rotated clockwise: from the top edge to the right edge.
    assert_eq!(shown_at(2, 1, 0), (7, 1));
    assert_eq!(shown_at(2 + 8, 1, 0), (0, 1));
    assert_eq!(shown_at(2 + 4, 1, 0), (7, 6));
    assert_eq!(shown_at(2 + 12, 1, 0), (0, 6));
}

#[test]
fn bit_8_puts_the_ula_over_or_names_the_tile() {
    let ula = bank(&[(0, 0x80), (0x1800, 0x02)]);
    let mut tile = bank(&[(0, 1), (1, 0x01)]);
    // Definitions at $1000: tile 1 at $1020, tile 257 at $3020.
    tile[0x1020..0x1040].fill(0x66);
    tile[0x3020..0x3040].fill(0x77);
    let mut state = tiled(0);
    state.definition_base = 0x10;
    state.border = 3;
    // ULA on: upper, and opaque.
    assert_eq!(dots(0, &ula, &tile, &state)[0], 19);
    // Where the ULA is transparent the tile shows, and it is tile 1.
    state.transparent = 9;
    assert_eq!(dots(0, &ula, &tile, &state)[0], 511 - 6);
    // ULA off: tile 257.
    state.ula_control = 0x80;
    assert_eq!(dots(0, &ula, &tile, &state)[0], 511 - 7);
    // Bit 8 clear, ULA off: tile 1.
    tile[1] = 0;
    assert_eq!(dots(0, &ula, &tile, &state)[0], 511 - 6);
    // Bit 8 clear, ULA on: the tile is upper.
    state.ula_control = 0;
    state.transparent = 0;
    assert_eq!(dots(0, &ula, &tile, &state)[0], 511 - 6);
}

#[test]
fn bit_8_of_6c_with_one_byte_entries() {
    let mut tile = bank(&[(0, 1)]);
    tile[0x2020..0x2040].fill(0x66);
    // Definition 257 from $2000 lies at $4020, that is $0020.
    tile[0x0020..0x0040].fill(0x77);
    let mut state = tiled(0x20);
    state.tile_attribute = 0x01;
    assert_eq!(dots(0, &bank(&[]), &tile, &state)[0], 16);
    state.ula_control = 0x80;
    assert_eq!(dots(0, &bank(&[]), &tile, &state)[0], 511 - 7);
}

#[test]
fn a_transparent_tile_pixel_shows_the_ula() {
    let mut tile = bank(&[]);
    tile[0x2000] = 0xF0;
    let mut state = tiled(0);
    assert_eq!(dots(0, &bank(&[]), &tile, &state)[..4], [16, 16, 511, 511]);
    state.tile_transparent = 0;
    assert_eq!(dots(0, &bank(&[]), &tile, &state)[..4], [496, 496, 16, 16]);
    // Both transparent: the fallback.
    state.transparent = 8;
    assert_eq!(
        dots(0, &bank(&[]), &tile, &state)[..4],
        [496, 496, FALLBACK, FALLBACK]
    );
}

#[test]
fn tile_colours_are_not_compared_with_14() {
    let mut state = tiled(0);
    state.transparent = 255;
    assert_eq!(dots(0, &bank(&[]), &bank(&[]), &state), [511; 640]);
}

#[test]
fn transparency_is_by_pixel_and_not_by_index() {
    let mut tile = bank(&[(1, 0x40)]);
    tile[0x2000] = 0xF1;
    let line = dots(0, &bank(&[]), &tile, &tiled(0));
    assert_eq!(line[..4], [16, 16, 511 - 65, 511 - 65]);
}

/// Rule 5.10.
#[test]
fn the_clip_counts_pairs_of_pixels() {
    for control in [0x00, 0x40] {
        let mut state = tiled(control);
        state.tile_clip = [1, 2, 5, 6];
        state.tile_x_low = 3;
        let line = dots(5, &bank(&[]), &bank(&[]), &state);
        assert_eq!(line[..4], [16; 4]);
        assert_eq!(line[4..12], [511; 8]);
        assert_eq!(line[12..], [16; 628]);
        assert_eq!(dots(6, &bank(&[]), &bank(&[]), &state), line);
        assert_eq!(dots(4, &bank(&[]), &bank(&[]), &state), [16; 640]);
        assert_eq!(dots(7, &bank(&[]), &bank(&[]), &state), [16; 640]);
        state.tile_clip = [2, 1, 0, 255];
        assert_eq!(dots(5, &bank(&[]), &bank(&[]), &state), [16; 640]);
        state.tile_clip = [159, 255, 0, 255];
        let line = dots(5, &bank(&[]), &bank(&[]), &state);
        assert_eq!(line[635..], [16, 511, 511, 511, 511]);
    }
}

#[test]
fn stencil_is_the_and_of_both() {
    let mut tile = bank(&[]);
    tile[0x2000] = 0xF3;
    let mut state = tiled(0);
    state.ula_control = 1;
    state.palettes[0][16] = 0b101_110_011;
    state.palettes[2][3] = 0b110_011_110;
    state.palettes[2][0] = 0b000_010_000;
    let line = dots(0, &bank(&[]), &tile, &state);
    // Transparent tile pixel: the fallback, though the ULA has a colour.
    assert_eq!(line[..2], [FALLBACK; 2]);
    assert_eq!(line[2..4], [0b100_010_010; 2]);
    assert_eq!(line[4..6], [0b000_010_000; 2]);
    // A transparent ULA dot: the fallback, though the tile has a colour.
    state.transparent = 0b10_111_001;
    assert_eq!(dots(0, &bank(&[]), &tile, &state), [FALLBACK; 640]);
    state.transparent = 0xE3;
    // Bit 8 makes no difference.
    tile[1] = 1;
    assert_eq!(dots(0, &bank(&[]), &tile, &state)[..8], line[..8]);
}

#[test]
fn stencil_outside_a_clip_is_the_fallback() {
    let mut state = tiled(0);
    state.ula_control = 1;
    state.palettes[0][16] = 0x0F0;
    state.palettes[2][0] = 0x1FF;
    state.tile_clip = [0, 79, 0, 255];
    state.ula_clip = [10, 255, 0, 191];
    let line = dots(32, &bank(&[]), &bank(&[]), &state);
    assert_eq!(line[..64], [0x0F0; 64]);
    assert_eq!(line[64..84], [FALLBACK; 20]);
    assert_eq!(line[84..320], [0x0F0; 236]);
    assert_eq!(line[320..], [FALLBACK; 320]);
}

#[test]
fn stencil_wants_both_on() {
    let mut state = counting();
    state.ula_control = 1;
    assert_eq!(dots(0, &bank(&[]), &bank(&[]), &state), [16; 640]);
    let mut state = tiled(0);
    state.ula_control = 0x81;
    assert_eq!(dots(0, &bank(&[]), &bank(&[]), &state), [511; 640]);
}

#[test]
fn bit_6_of_68_changes_nothing() {
    let mut state = tiled(0);
    let line = dots(0, &bank(&[]), &bank(&[]), &state);
    state.ula_control = 0x40;
    assert_eq!(dots(0, &bank(&[]), &bank(&[]), &state), line);
}

#[test]
fn the_map_wraps_at_16384() {
    let mut tile = bank(&[(0x3FFE, 1), (0x3FFF, 0x20), (0x0000, 2), (0x0001, 0x30)]);
    tile[0x2020..0x2040].fill(0x44);
    tile[0x2040..0x2060].fill(0x55);
    let mut state = tiled(0);
    state.map_base = 0x3F;
    // Cell 127 is row 3, column 7; cell 128 is row 3, column 8.
    let line = dots(24, &bank(&[]), &tile, &state);
    assert_eq!(line[111..113], [511, 511 - 36]);
    assert_eq!(line[127..129], [511 - 36, 511 - 53]);
    // One byte an entry: cell 255 is row 6, column 15.
    let mut tile = bank(&[(0x3FFF, 1), (0x0000, 2)]);
    tile[0x2020..0x2040].fill(0x44);
    tile[0x2040..0x2060].fill(0x55);
    state.tile_control = 0xA0;
    let line = dots(48, &bank(&[]), &tile, &state);
    assert_eq!(line[239..241], [511, 511 - 4]);
    assert_eq!(line[255..257], [511 - 4, 511 - 5]);
}

#[test]
fn definitions_wrap_at_16384() {
    // Base $3F: definition 7 is the last before the end, 8 begins at 0.
    let mut tile = bank(&[(0x1000, 7), (0x1002, 8)]);
    tile[0x3FE0..0x4000].fill(0x44);
    tile[0x0000..0x0020].fill(0x55);
    let mut state = tiled(0);
    state.map_base = 0x10;
    state.definition_base = 0x3F;
    let line = dots(7, &bank(&[]), &tile, &state);
    assert_eq!(line[15..17], [511 - 4, 511 - 5]);
}

#[test]
fn ula_and_tile_banks_are_apart() {
    let ula = bank(&[(0, 0x80), (0x1800, 0x02)]);
    let mut tile = bank(&[]);
    tile[0x2000..0x2020].fill(0xFF);
    assert_eq!(dots(32, &ula, &tile, &tiled(0))[64..67], [2, 2, 16]);
}

#[test]
fn mode_6_under_tiles_of_eighty_columns() {
    let mut state = timex(0x26);
    state.tile_control = 0xC0;
    state.definition_base = 0x20;
    let ula = bank(&[(0, 0x55)]);
    let mut tile = bank(&[]);
    // Every other dot transparent.
    tile[0x2000..0x2020].fill(0xF1);
    let line = dots(32, &ula, &tile, &state);
    assert_eq!(line[62..70], [27, 510, 27, 510, 27, 510, 27, 510]);
}

/// Rule 8.6.
#[test]
fn tile_index_is_before_transparency_and_clip() {
    let mut tile = bank(&[(1, 0xA0)]);
    tile[0x2000] = 0xF1;
    let mut state = tiled(0);
    state.tile_clip = [0; 4];
    let layout = Layout::of(&state);
    assert_eq!(tile_index(&tile, &layout, 0, 0), 0xAF);
    assert_eq!(tile_index(&tile, &layout, 1, 0), 0xA1);
    assert_eq!(tile_index(&tile, &layout, 8, 0), 0x0F);
}
