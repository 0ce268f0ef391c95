//! A plain model of a ZX Spectrum Next line drawer: register file, one line
//! of 640 dots, trace, stored record, desk, screen files and tile packer.
//!
//! It is written from document 01, the scope paper, alone (with the tilemap
//! page where that paper leaves bits to it) and not from the Rattle code; screen
//! files are from their request and the page on ULAplus, the second scroll and
//! the second version of a record from theirs, what is wrong with a record from
//! its own, and lent layers, the desk and the trace from theirs. The comments cite
//! the rules by the numbers that docs/RULES.md gives them. A request that comes
//! later extends the model from its paper alone, before the code is looked at.
//!
//! Every rule is worked out for one dot, one cell or one register at a time;
//! nothing here is written for speed.

pub mod colour;
pub mod desk;
pub mod drawing;
mod fields;
pub mod layers;
pub mod packing;
pub mod record;
pub mod registers;
pub mod reply;
pub mod scr;
pub mod state;
pub mod sums;
pub mod tilemap;
pub mod trace;
pub mod ula;

pub use colour::{plus_colour, screen_value, widen};
pub use drawing::draw;
pub use layers::{draw_layers, LentLines};
pub use packing::{draws, draws_at, fewest, pack};
pub use record::{
    move_back, move_up, read_new, read_old, read_record, write_record, OLD_RECORD_LENGTH,
    RECORD_LENGTH,
};
pub use registers::{read_port, read_register, write_port, write_register};
pub use reply::Reply;
pub use scr::{read_scr, write_scr, SCREEN_LENGTH};
pub use state::{lawful, next_frame, State};
pub use tilemap::{tile_index, Layout};
pub use ula::{ula_mode, Mode};

/// Rule 2.5: the bytes of a bank.
pub const BANK_LENGTH: usize = 16_384;

/// Rule 2.2: the dots of a line.
pub const DOTS: usize = 640;
