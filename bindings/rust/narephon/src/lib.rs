//! Narephon from Rust: lines, registers, records, traces, desks, screen files and tile packing of ZX Spectrum Next screens.
//!
//! A member's whole video state is a record of [`RECORD`] bytes that the caller keeps and lends. Every call answers on
//! every input: `Ok`, or the [`Reply`] that refuses it and leaves every lent buffer as it was. Where several refusals
//! hold, the first in the order that a call names is given. The library keeps nothing between calls, so calls may run
//! side by side in threads.
//!
//! Records are made in version 2. One of version 1, which versions before 0.3.0 made, is an old record of [`OLD_RECORD`]
//! bytes: it lacks registers `0x26` and `0x27`, which scroll the ULA, and its `0x32` and `0x33` stand for them. A call that
//! only reads a record (`&[u8]`), but for the two moves, takes both versions. One that changes it (`&mut [u8]`) takes
//! version 2 alone, and an old record is [`Reply::WrongVersion`] there: [`load_record`] makes it new.
//!
//! Bytes that are no record are refused by 16, 17 or 18, in this order. [`check_record`], the moves and [`load_record`] tell
//! the place too, in a [`Refusal`].
//!
//! [`draw_traced`] and [`draw_carried`] draw by a trace, a recording of register and port writes from line to line, which
//! [`make_trace`] makes of its entries.
//!
//! A [`Desk`] keeps the records of up to [`SEATS`] members in one buffer, and its calls find one by the member's number.
//!
//! ```
//! let mut record = narephon::reset();
//! narephon::write_port(&mut record, 0x00FE, 2)?;
//! narephon::check_record(&record)?;
//! let bank = [0; narephon::BANK];
//! let mut dots = [0; narephon::DOTS];
//! narephon::draw(&record, &bank, &bank, 0, &mut dots)?;
//! let refused = narephon::write_register(&mut record, 0x42, 5).unwrap_err();
//! assert_eq!(refused.to_string(), "refused 10: the value is out of its bounds");
//! # Ok::<(), narephon::Reply>(())
//! ```
#![deny(missing_docs)]

mod desk;
// The numbers and buffers behind a refusal, which the wrappers do not show.
#[doc(hidden)]
pub mod raw;
mod reply;
mod trace;

pub use desk::Desk;
use reply::{answered, judged};
pub use reply::{Refusal, Reply};
pub use trace::{draw_carried, draw_traced, make_trace, Entry};

/// The version of this wrapper and of the library that it is delivered with.
pub const VERSION: &str = env!("CARGO_PKG_VERSION");

/// Bytes of a record.
pub const RECORD: usize = 2152;
/// Bytes of an old record, one of version 1.
pub const OLD_RECORD: usize = 2150;
/// Bytes of a bank.
pub const BANK: usize = 16384;
/// Dots of a line.
pub const DOTS: usize = 640;
/// Lines of a screen.
pub const LINES: usize = 256;
/// Dots of all of them.
pub const FRAME_DOTS: usize = 163_840;
/// Bytes of a picture: 256 rows of 160, two pixels a byte, the left one in the high half.
pub const PICTURE: usize = 40960;
/// Bytes of a map: 40 × 32 entries of two bytes, low first.
pub const MAP: usize = 2560;
/// Bytes of 256 definitions of 32 bytes.
pub const DEFINITIONS: usize = 8192;
/// Bytes of the longest screen file, and of the buffer that one is written into.
pub const SCREEN: usize = 12353;
/// Bytes of a desk.
pub const DESK: usize = 34480;
/// Seats of a desk.
pub const SEATS: usize = 16;

/// The number of a transparent dot in a line lent to [`draw_layers`].
pub const TRANSPARENT: u16 = 512;
/// What is added to the colour of a Layer 2 dot that has priority.
pub const PRIORITY: u16 = 1024;

/// The record of the reset state.
pub fn reset() -> [u8; RECORD] {
    let mut record = [0; RECORD];
    // SAFETY: the pointer and the length are those of one live buffer.
    let reply = unsafe { raw::narephon_reset(record.as_mut_ptr(), record.len()) };
    // A wrong length is all that it refuses.
    debug_assert_eq!(reply, 0);
    record
}

/// Are these bytes a record of a lawful state, of either version, and if not, what is wrong with them, and where? It changes
/// nothing; the other calls judge their record by themselves.
///
/// Refused by 16, 17 or 18, with the place.
///
/// ```
/// let mut record = narephon::reset();
/// // The border, which is at most 7.
/// record[35] = 8;
/// let refusal = narephon::check_record(&record).unwrap_err();
/// assert_eq!((refusal.reply, refusal.place), (narephon::Reply::BadField, Some(35)));
/// ```
pub fn check_record(record: &[u8]) -> Result<(), Refusal> {
    let mut place = 0;
    // SAFETY: as in `reset`; `place` is no part of the record.
    let reply = unsafe { raw::narephon_check_record(record.as_ptr(), record.len(), &mut place) };
    judged(reply, place, ())
}

/// An old record moved up: the record of version 2 of its state, `0x26` and `0x27` being its `0x32` and `0x33`, so that
/// every line is drawn as before.
///
/// Refused by 16, 17 or 18, with the place; a record of version 2 by 17.
pub fn move_up(record: &[u8]) -> Result<[u8; RECORD], Refusal> {
    let (mut target, mut place) = ([0; RECORD], 0);
    // SAFETY: each pointer and length are those of one live buffer, and target and place are borrowed alone.
    let reply = unsafe {
        raw::narephon_move_up(
            record.as_ptr(),
            record.len(),
            target.as_mut_ptr(),
            target.len(),
            &mut place,
        )
    };
    judged(reply, place, target)
}

/// A record of version 2 moved back: the old record of its state, which versions before 0.3.0 take. It has one while `0x26`
/// is `0x32` and `0x27` is `0x33`.
///
/// Refused by 16, 17 or 18, with the place, an old record by 17; or by 15, without one.
pub fn move_back(record: &[u8]) -> Result<[u8; OLD_RECORD], Refusal> {
    let (mut target, mut place) = ([0; OLD_RECORD], 0);
    // SAFETY: as in `move_up`.
    let reply = unsafe {
        raw::narephon_move_back(
            record.as_ptr(),
            record.len(),
            target.as_mut_ptr(),
            target.len(),
            &mut place,
        )
    };
    judged(reply, place, target)
}

/// A stored record, of either version, as one that every call takes: an old one moved up, one of version 2 as it is.
///
/// Refused as by [`check_record`].
///
/// ```
/// # let stored = narephon::move_back(&narephon::reset())?;
/// assert_eq!(stored.len(), narephon::OLD_RECORD);
/// let mut record = narephon::load_record(&stored)?;
/// narephon::write_register(&mut record, 0x26, 8)?;
/// assert_eq!(narephon::load_record(&record)?, record);
/// # Ok::<(), narephon::Reply>(())
/// ```
pub fn load_record(record: &[u8]) -> Result<[u8; RECORD], Refusal> {
    check_record(record)?;
    record.try_into().or_else(|_| move_up(record))
}

/// Moves the state in a record one frame on, from 255 to 0.
///
/// Refused by 16, 17 or 18, it leaves the record as it was.
pub fn next_frame(record: &mut [u8]) -> Result<(), Reply> {
    // SAFETY: as in `reset`.
    let reply = unsafe { raw::narephon_next_frame(record.as_mut_ptr(), record.len()) };
    answered(reply, ())
}

/// Writes a value to a register of the state in a record.
///
/// Refused by 16, 17, 18, 9 or 10, it leaves the record as it was, a half-sent colour still held.
pub fn write_register(record: &mut [u8], number: u8, value: u8) -> Result<(), Reply> {
    // SAFETY: as in `reset`.
    let reply =
        unsafe { raw::narephon_write_register(record.as_mut_ptr(), record.len(), number, value) };
    answered(reply, ())
}

/// Writes a value to a port of the state in a record: `0x00FE`, `0x00FF`, `0xBF3B` or `0xFF3B`.
///
/// Refused by 16, 17, 18, 9 or 10, it leaves the record as it was.
pub fn write_port(record: &mut [u8], port: u16, value: u8) -> Result<(), Reply> {
    // SAFETY: as in `reset`.
    let reply = unsafe { raw::narephon_write_port(record.as_mut_ptr(), record.len(), port, value) };
    answered(reply, ())
}

/// What a register of the state in a record reads as. A read moves nothing.
///
/// Refused by 16, 17, 18 or 9.
pub fn read_register(record: &[u8], number: u8) -> Result<u8, Reply> {
    let mut value = 0;
    // SAFETY: as in `reset`; `value` is no part of the record.
    let reply =
        unsafe { raw::narephon_read_register(record.as_ptr(), record.len(), number, &mut value) };
    answered(reply, value)
}

/// What a port of the state in a record reads as: `0xFF3B`, and `0x00FF` while register `0x08` bit 2 is set.
///
/// Refused by 16, 17, 18 or 9.
pub fn read_port(record: &[u8], port: u16) -> Result<u8, Reply> {
    let mut value = 0;
    // SAFETY: as in `read_register`.
    let reply = unsafe { raw::narephon_read_port(record.as_ptr(), record.len(), port, &mut value) };
    answered(reply, value)
}

/// Draws a line, 0 to 255, of the state in a record, as [`DOTS`] nine-bit colours in `dots`. The banks have [`BANK`] bytes
/// each and may be the same.
///
/// Refused by 1, 2, 3, 16, 17, 18, 6, 7, 5 or 8, it leaves `dots` as it was.
pub fn draw(
    record: &[u8],
    ula: &[u8],
    tile: &[u8],
    line: u32,
    dots: &mut [u16],
) -> Result<(), Reply> {
    // SAFETY: each pointer and length are those of one live buffer, and `dots` is borrowed alone.
    let reply = unsafe {
        raw::narephon_draw(
            record.as_ptr(),
            record.len(),
            ula.as_ptr(),
            ula.len(),
            tile.as_ptr(),
            tile.len(),
            line,
            dots.as_mut_ptr(),
            dots.len(),
        )
    };
    answered(reply, ())
}

/// Draws a line as [`draw`] does, with two finished lines of the caller's composed into it: Layer 2's and the sprites',
/// [`DOTS`] numbers each. A number is a colour, 0 to 511, or [`TRANSPARENT`]; in `layer2` also a colour + [`PRIORITY`].
///
/// Register `0x15` bits 4 to 2 are the order from the top, S the sprites, L Layer 2, U the ULA and the tilemap together: 000
/// SLU, 001 LSU, 010 SUL, 011 LUS, 100 USL, 101 ULS. The topmost dot that is not transparent shows, or the fallback colour
/// where there is none; a Layer 2 dot with priority shows in every order. Register `0x14` makes no dot of the two lines
/// transparent.
///
/// Refused by 1, 2, 3, 16, 17, 18, 6, 7, 5, 8, 19 or 20, it leaves `dots` as it was. Every number of the two lines is
/// judged, a hidden one too.
///
/// ```
/// use narephon::{DOTS, PRIORITY, TRANSPARENT};
/// let (record, bank) = (narephon::reset(), [0; narephon::BANK]);
/// let (mut layer2, mut sprites) = ([TRANSPARENT; DOTS], [TRANSPARENT; DOTS]);
/// (layer2[0], sprites[0]) = (7, 448);
/// (layer2[1], sprites[1]) = (7 + PRIORITY, 448);
/// let mut dots = [0; DOTS];
/// narephon::draw_layers(&record, &bank, &bank, &layer2, &sprites, 0, &mut dots)?;
/// // After a reset the sprites are the topmost layer.
/// assert_eq!(dots[..2], [448, 7]);
/// # Ok::<(), narephon::Reply>(())
/// ```
pub fn draw_layers(
    record: &[u8],
    ula: &[u8],
    tile: &[u8],
    layer2: &[u16],
    sprites: &[u16],
    line: u32,
    dots: &mut [u16],
) -> Result<(), Reply> {
    // SAFETY: as in `draw`.
    let reply = unsafe {
        raw::narephon_draw_layers(
            record.as_ptr(),
            record.len(),
            ula.as_ptr(),
            ula.len(),
            tile.as_ptr(),
            tile.len(),
            layer2.as_ptr(),
            layer2.len(),
            sprites.as_ptr(),
            sprites.len(),
            line,
            dots.as_mut_ptr(),
            dots.len(),
        )
    };
    answered(reply, ())
}

/// Reads a screen file (`.scr`) into a bank of [`BANK`] bytes and into the state in a record. What it gives is the part of
/// the file that holds its 64 ULAplus colours, empty where it has none.
///
/// The file's length tells its form: 6,912 bytes are mode 0, 12,288 mode 2, and 12,289 mode 6 with the byte of port `0x00FF`
/// at its end, whose low three bits are 6; each may have 64 colours behind it. Of the bank, bytes 0x0000 to 0x1AFF change in
/// mode 0, and 0x0000 to 0x17FF and 0x2000 to 0x37FF in the others. LoRes and ULANext go off, register `0x08` bit 2 is set,
/// and port `0x00FF` becomes 0, 2 or the file's byte. With colours ULAplus goes on and has them as its registers, without it
/// goes off. Nothing else changes.
///
/// Refused by 2, 16, 17, 18 or 14, it leaves record and bank as they were.
///
/// ```
/// let (mut record, mut bank) = (narephon::reset(), [0; narephon::BANK]);
/// let mut file = [0; 6976];
/// file[6912] = 28;
/// let colours = narephon::read_scr(&mut record, &mut bank, &file)?;
/// assert_eq!((colours.len(), colours[0]), (64, 28));
/// let mut written = [0; narephon::SCREEN];
/// assert_eq!(narephon::write_scr(&record, &bank, &mut written)?, file);
/// # Ok::<(), narephon::Reply>(())
/// ```
pub fn read_scr<'a>(record: &mut [u8], bank: &mut [u8], file: &'a [u8]) -> Result<&'a [u8], Reply> {
    let mut colours = 0;
    // SAFETY: each pointer and length are those of one live buffer, and those for writing are borrowed alone.
    let reply = unsafe {
        raw::narephon_read_scr(
            record.as_mut_ptr(),
            record.len(),
            bank.as_mut_ptr(),
            bank.len(),
            file.as_ptr(),
            file.len(),
            &mut colours,
        )
    };
    // No colours are at 0: a screen stands before them.
    let part = match colours {
        0 => &file[..0],
        place => &file[place as usize..],
    };
    answered(reply, part)
}

/// Writes the screen of the state in a record, with the bytes of a bank, as a screen file into the front of `file`, which
/// has [`SCREEN`] bytes, and gives that part of it. What is past it stays. The form is that of modes 0, 2 and 6 with LoRes
/// off; the ULAplus registers are its colours where ULAplus is on.
///
/// Refused by 2, 3, 16, 17, 18 or 14, it leaves `file` as it was.
pub fn write_scr<'a>(record: &[u8], bank: &[u8], file: &'a mut [u8]) -> Result<&'a [u8], Reply> {
    let mut length = 0;
    // SAFETY: as in `read_scr`.
    let reply = unsafe {
        raw::narephon_write_scr(
            record.as_ptr(),
            record.len(),
            bank.as_ptr(),
            bank.len(),
            file.as_mut_ptr(),
            file.len(),
            &mut length,
        )
    };
    answered(reply, &file[..length as usize])
}

/// A nine-bit colour, 0 to 511, as red × 65,536 + green × 256 + blue.
///
/// Refused by 10.
pub fn screen_value(colour: u32) -> Result<u32, Reply> {
    let mut value = 0;
    // SAFETY: `value` is live and borrowed alone.
    let reply = unsafe { raw::narephon_screen_value(colour, &mut value) };
    answered(reply, value)
}

/// Packs a picture into a map and definitions with the fewest tiles there can be, turns included, and says how many they
/// are. At most `allowed` are named, 256 or fewer; `offset` is the palette offset of every entry, 15 or less.
///
/// Refused by 3, 12 or 11, it leaves `map` and `definitions` as they were.
pub fn pack(
    picture: &[u8],
    allowed: u32,
    offset: u32,
    map: &mut [u8],
    definitions: &mut [u8],
) -> Result<u32, Reply> {
    let mut count = 0;
    // SAFETY: each pointer and length are those of one live buffer, and those for writing are borrowed alone.
    let reply = unsafe {
        raw::narephon_pack(
            picture.as_ptr(),
            picture.len(),
            allowed,
            offset,
            map.as_mut_ptr(),
            map.len(),
            definitions.as_mut_ptr(),
            definitions.len(),
            &mut count,
        )
    };
    answered(reply, count)
}

/// The fewest tiles that draw a picture: what [`pack`] counts with 256 allowed, without its buffers.
///
/// Refused by 3 or 11.
pub fn fewest(picture: &[u8]) -> Result<u32, Reply> {
    let mut count = 0;
    // SAFETY: the pointer and the length are those of one live buffer, and `count` is no part of it.
    let reply = unsafe { raw::narephon_fewest(picture.as_ptr(), picture.len(), &mut count) };
    answered(reply, count)
}
