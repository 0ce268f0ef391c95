//! A ZX Spectrum Next line drawer, register write, stored record and tile
//! packer, written for speed: the state is read once a line, colours are
//! looked up once a cell. Numbers as 4.7 are those of docs/RULES.md.

mod draw;
mod pack;
mod record;
mod registers;
mod state;

pub use draw::{draw, draw_lawful};
pub use pack::{fewest, pack, CHAINED, MARKED, PLAIN};
pub use record::{check_record, read_record, write_record, OLD_RECORD_LENGTH, RECORD_LENGTH};
pub use registers::{write_port, write_port_lawful, write_register, write_register_lawful};
pub use state::{lawful, State};

/// The bytes of a bank.
pub const BANK_LENGTH: usize = 16_384;

/// The dots of a line.
pub const DOTS: usize = 640;

/// Rule 3.11: an eight-bit colour with its ninth bit.
fn widen(value: u8) -> u16 {
    let wide = u16::from(value);
    wide << 1 | (wide >> 1 | wide) & 1
}

/// Rule 4.20: the colour of a ULAplus byte, in bits GGGRRRBb.
fn plus_colour(value: u8) -> u16 {
    let wide = u16::from(value);
    (wide & 0x1C) << 4 | (wide & 0xE0) >> 2 | (wide & 3) << 1 | wide & 1
}
