//! Widening, ULAplus colours and screen values.

use model::colour::screen_part;
use model::{plus_colour, screen_value, widen};

/// Rule 3.11.
#[test]
fn the_ninth_bit_is_the_or_of_the_blue_bits() {
    assert_eq!(widen(0x00), 0);
    assert_eq!(widen(0x01), 3);
    assert_eq!(widen(0x02), 5);
    assert_eq!(widen(0x03), 7);
    assert_eq!(widen(0xFC), 504);
    assert_eq!(widen(0xFF), 511);
    for value in 0..=255 {
        assert_eq!(widen(value) / 2, u16::from(value));
    }
}

/// Rule 4.20.
#[test]
fn ulaplus_blue_is_bbb() {
    assert_eq!(plus_colour(0x00), 0);
    assert_eq!(plus_colour(0x01), 3);
    assert_eq!(plus_colour(0x02), 4);
    assert_eq!(plus_colour(0x03), 7);
    assert_eq!(plus_colour(0xE0), 56);
    assert_eq!(plus_colour(0xFF), 511);
    // GGG 5, RRR 3, Bb 10: red 3, green 5, blue 4.
    assert_eq!(plus_colour(0b1010_1110), 3 * 64 + 5 * 8 + 4);
}

#[test]
fn three_bit_parts() {
    let parts: Vec<u32> = (0..8).map(screen_part).collect();
    assert_eq!(parts, [0x00, 0x25, 0x4A, 0x6F, 0x90, 0xB5, 0xDA, 0xFF]);
}

#[test]
fn screen_values() {
    assert_eq!(screen_value(0), (0, 0));
    assert_eq!(screen_value(511), (0, 0xFFFFFF));
    assert_eq!(screen_value(64), (0, 0x250000));
    assert_eq!(screen_value(8), (0, 0x002500));
    assert_eq!(screen_value(1), (0, 0x000025));
    assert_eq!(screen_value(512), (10, 0));
    assert_eq!(screen_value(u32::MAX), (10, 0));
}
