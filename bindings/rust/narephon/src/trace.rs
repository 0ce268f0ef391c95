//! A trace: register and port writes, each stamped with the line that it comes at, and lines drawn by them.

use crate::reply::{answered, traced};
use crate::{raw, Refusal, Reply, LINES};

/// A write that a trace has: at a line, a value to a register or a port.
#[derive(Clone, Copy, Debug, PartialEq, Eq, Hash)]
pub enum Entry {
    /// What [`write_register`](crate::write_register) does.
    Register {
        /// The line from which on it counts.
        line: u8,
        /// The register's number.
        number: u8,
        /// What is written.
        value: u8,
    },
    /// What [`write_port`](crate::write_port) does.
    Port {
        /// The line from which on it counts.
        line: u8,
        /// `0x00FE`, `0x00FF`, `0xBF3B` or `0xFF3B`.
        port: u16,
        /// What is written.
        value: u8,
    },
}

/// The ports by the numbers that a trace has for them.
const PORTS: [u16; 4] = [0x00FE, 0x00FF, 0xBF3B, 0xFF3B];

impl Entry {
    /// Its four bytes: the line, the kind, the number and the value. None has another port.
    fn bytes(self) -> Option<[u8; 4]> {
        match self {
            Entry::Register {
                line,
                number,
                value,
            } => Some([line, 0, number, value]),
            Entry::Port { line, port, value } => {
                let number = PORTS.iter().position(|&known| known == port)?;
                Some([line, 1, number as u8, value])
            }
        }
    }
}

/// The bytes of a trace with these entries, in their order: the number of bytes following, high byte first; the version, 1;
/// and four bytes an entry. One without entries is `[0, 1, 1]`.
///
/// Refused by 25, where a port is none of the four, or the entries are more than 16,383, which is the most that the two bytes
/// of the number can tell. Lines that fall are left to the drawing, which refuses them by 26.
pub fn make_trace(entries: &[Entry]) -> Result<Vec<u8>, Reply> {
    let following = 1 + 4 * entries.len();
    let following = u16::try_from(following).map_err(|_| Reply::BadTrace)?;
    let mut trace = following.to_be_bytes().to_vec();
    trace.push(1);
    for entry in entries {
        trace.extend(entry.bytes().ok_or(Reply::BadTrace)?);
    }
    Ok(trace)
}

/// Draws a line as [`draw`](crate::draw) does, by the state that the one in the record becomes with every entry of a trace
/// stamped `line` or less, done in turn. The record is only read, so either version is taken.
///
/// Refused by 1, 2, 3, 16, 17, 18, 25 or 26, by an entry's 9 or 10, or by 6, 7, 5 or 8, it leaves `dots` as it was. All of the
/// trace is judged by 25 and 26 before an entry is tried. With 9 and 10 the refusal has the entry's place, counted from 0, and
/// entries after it are not tried; no other reply tells a place.
///
/// ```
/// use narephon::{Entry, Reply};
/// let (record, bank) = (narephon::reset(), [0; narephon::BANK]);
/// let mut dots = [0; narephon::DOTS];
/// // From line 8 on the border is red, which is colour 18; there is no register 0.
/// let trace = narephon::make_trace(&[
///     Entry::Register { line: 0, number: 0x40, value: 18 },
///     Entry::Register { line: 0, number: 0x41, value: 0xE0 },
///     Entry::Port { line: 8, port: 0x00FE, value: 2 },
///     Entry::Register { line: 20, number: 0x00, value: 0 },
/// ])?;
/// narephon::draw_traced(&record, &trace, &bank, &bank, 8, &mut dots)?;
/// assert_eq!(dots[0], 0o700);
/// let refusal = narephon::draw_traced(&record, &trace, &bank, &bank, 20, &mut dots).unwrap_err();
/// assert_eq!((refusal.reply, refusal.place), (Reply::NoRegister, Some(3)));
/// # Ok::<(), narephon::Reply>(())
/// ```
pub fn draw_traced(
    record: &[u8],
    trace: &[u8],
    ula: &[u8],
    tile: &[u8],
    line: u32,
    dots: &mut [u16],
) -> Result<(), Refusal> {
    let mut place = 0;
    // SAFETY: each pointer and length are those of one live buffer, and `dots` and `place` are borrowed alone.
    let reply = unsafe {
        raw::narephon_draw_traced(
            record.as_ptr(),
            record.len(),
            trace.as_ptr(),
            trace.len(),
            ula.as_ptr(),
            ula.len(),
            tile.as_ptr(),
            tile.len(),
            line,
            dots.as_mut_ptr(),
            dots.len(),
            &mut place,
        )
    };
    traced(reply, place)
}

/// Draws lines 0 to 255 into `dots`, [`FRAME_DOTS`](crate::FRAME_DOTS) of them, one line after the other with the state
/// carried along, so that each entry of the trace is done once. It gives the answer to each line: what [`draw_traced`] gives
/// for it, and its part of `dots` is what that draws.
///
/// Refused by 2, 3, 16, 17, 18, 25 or 26, it leaves `dots` as it was. A line that is refused, by 5, 6, 7, 8, 9 or 10, leaves
/// its part, and later ones are drawn; from a refused entry on, every line is refused by it. The record is judged once, before
/// any entry.
///
/// ```
/// let (record, bank) = (narephon::reset(), [0; narephon::BANK]);
/// let mut dots = vec![0; narephon::FRAME_DOTS];
/// let lines = narephon::draw_carried(&record, &narephon::make_trace(&[])?, &bank, &bank, &mut dots)?;
/// assert_eq!(lines, [Ok(()); narephon::LINES]);
/// # Ok::<(), narephon::Reply>(())
/// ```
pub fn draw_carried(
    record: &[u8],
    trace: &[u8],
    ula: &[u8],
    tile: &[u8],
    dots: &mut [u16],
) -> Result<[Result<(), Refusal>; LINES], Reply> {
    let (mut replies, mut places) = ([0; LINES], [0; LINES]);
    // SAFETY: as in `draw_traced`, of the three that are written.
    let reply = unsafe {
        raw::narephon_draw_carried(
            record.as_ptr(),
            record.len(),
            trace.as_ptr(),
            trace.len(),
            ula.as_ptr(),
            ula.len(),
            tile.as_ptr(),
            tile.len(),
            dots.as_mut_ptr(),
            dots.len(),
            replies.as_mut_ptr(),
            replies.len(),
            places.as_mut_ptr(),
            places.len(),
        )
    };
    answered(reply, ())?;
    let line = |line: usize| traced(replies[line], u32::from(places[line]));
    Ok(std::array::from_fn(line))
}
