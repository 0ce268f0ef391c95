//! The fields of a record from its front to its end, each with its bound.

use crate::record::Version;
use crate::state::{
    base_in_bounds, border_in_bounds, colour_in_bounds, half_in_bounds, is_ink_mask,
    palette_written, select_in_bounds, tile_control_in_bounds, tile_transparent_in_bounds,
    tile_x_high_in_bounds, turn_in_bounds, ula_control_in_bounds, y_offset_in_bounds,
};

/// A field, and what it has to keep.
#[derive(Clone, Copy)]
enum Field {
    /// A byte with a bound of its own.
    Byte(fn(u8) -> bool),
    /// The held byte, whose bound goes by the byte before it.
    Half,
    /// Two bytes, high first.
    Colour,
}

impl Field {
    fn length(self) -> usize {
        match self {
            Field::Byte(_) | Field::Half => 1,
            Field::Colour => 2,
        }
    }

    /// Does the field that starts at a place of the record keep its bound?
    fn kept(self, bytes: &[u8], place: usize) -> bool {
        match self {
            Field::Byte(in_bounds) => in_bounds(bytes[place]),
            Field::Half => half_in_bounds(says_yes(bytes[place - 1]), bytes[place]),
            Field::Colour => colour_in_bounds(colour_at(bytes, place)),
        }
    }
}

/// Rule 9.18: the place of the first field that is out of its bound, or none.
pub(crate) fn first_bad(bytes: &[u8], version: Version) -> Option<usize> {
    let mut place = version.start().len();
    for field in fields(version) {
        if !field.kept(bytes, place) {
            return Some(place);
        }
        place += field.length();
    }
    None
}

/// Rule 7.3: the colour whose high byte is at a place.
pub(crate) fn colour_at(bytes: &[u8], place: usize) -> u16 {
    u16::from_be_bytes([bytes[place], bytes[place + 1]])
}

/// Rule 7.2: 1 says yes, and 0 no.
pub(crate) fn says_yes(value: u8) -> bool {
    value == 1
}

/// Rules 7.2 and 7.3: the fields behind the version, in their order.
fn fields(version: Version) -> Vec<Field> {
    let mut fields = registers();
    if version == Version::Two {
        // $26 and $27.
        fields.extend([any(), Field::Byte(y_offset_in_bounds)]);
    }
    // The two clips.
    fields.extend([any(); 8]);
    fields.extend([
        Field::Byte(turn_in_bounds),
        Field::Byte(turn_in_bounds),
        Field::Byte(yes_or_no),
        Field::Half,
        Field::Byte(border_in_bounds),
        any(),
        Field::Byte(select_in_bounds),
        Field::Byte(yes_or_no),
        any(),
    ]);
    // The ULAplus registers, and the palettes.
    fields.extend([any(); 64]);
    fields.extend([Field::Colour; 4 * 256]);
    fields
}

/// Rule 7.2: $14 to $33, which both versions have.
fn registers() -> Vec<Field> {
    vec![
        any(),
        any(),
        any(),
        Field::Byte(|control| palette_written(control).is_some()),
        any(),
        Field::Byte(is_ink_mask),
        any(),
        Field::Byte(tile_transparent_in_bounds),
        Field::Byte(ula_control_in_bounds),
        Field::Byte(tile_control_in_bounds),
        any(),
        Field::Byte(tile_x_high_in_bounds),
        any(),
        any(),
        Field::Byte(base_in_bounds),
        Field::Byte(base_in_bounds),
        any(),
        Field::Byte(y_offset_in_bounds),
    ]
}

/// A byte without a bound.
fn any() -> Field {
    Field::Byte(|_| true)
}

/// Rule 7.2: a byte that says yes or no says nothing else.
fn yes_or_no(value: u8) -> bool {
    value <= 1
}
