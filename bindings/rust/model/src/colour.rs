//! Nine-bit colours (2.3), in bits RRRGGGBBB.

use crate::reply::{Reply, DONE, OUT_OF_BOUNDS};

/// Rule 3.11: an eight-bit colour with its ninth bit.
pub fn widen(value: u8) -> u16 {
    let upper_blue = (value / 2) % 2;
    let lower_blue = value % 2;
    u16::from(value) * 2 + u16::from(upper_blue | lower_blue)
}

/// Rule 4.20: the colour of a ULAplus byte, in bits GGGRRRBb.
pub fn plus_colour(value: u8) -> u16 {
    let green = u16::from(value / 32);
    let red = u16::from(value / 4 % 8);
    let upper_blue = u16::from(value / 2 % 2);
    let lower_blue = u16::from(value % 2);
    let blue = upper_blue * 4 + lower_blue * 2 + lower_blue;
    red * 64 + green * 8 + blue
}

/// Rule 6.1: three bits hml as the eight bits hmlhmlml.
pub fn screen_part(part: u32) -> u32 {
    let h = part / 4 % 2;
    let m = part / 2 % 2;
    let l = part % 2;
    h * 128 + m * 64 + l * 32 + h * 16 + m * 8 + l * 4 + m * 2 + l
}

/// Rules 6.2 and 10.8: the screen value of a colour, refused above 511.
pub fn screen_value(colour: u32) -> (Reply, u32) {
    if colour > 511 {
        return (OUT_OF_BOUNDS, 0);
    }
    let red = screen_part(colour / 64);
    let green = screen_part(colour / 8 % 8);
    let blue = screen_part(colour % 8);
    (DONE, red * 65_536 + green * 256 + blue)
}
