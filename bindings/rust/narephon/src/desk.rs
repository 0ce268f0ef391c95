//! A desk: the records of many members in one buffer, each found by its member's number.

use crate::reply::answered;
use crate::{raw, Reply, DESK};

/// A desk of [`SEATS`](crate::SEATS) seats, each free or held by a member: a number of 16 bits, 0 among them. A held seat has
/// the member's record, and a call on the desk does with it what the call of that name does with a record lent by itself; no
/// other byte of the desk changes.
///
/// It owns its bytes, [`DESK`] of them, which may be stored and taken back: sixteen seats of 2,155 bytes, of which each is all
/// 0, or is 1, the number with its high byte first, and a record of version 2. Every call but [`Desk::start`] judges all of
/// them, and bytes that are no desk are [`Reply::BadDesk`]. A refusal leaves every byte.
///
/// ```
/// use narephon::{Desk, Reply};
/// let mut desk = Desk::new();
/// desk.open(7)?;
/// desk.open(8)?;
/// // Half of a nine-bit colour each, and the other half of one.
/// desk.write_register(7, 0x44, 0xE3)?;
/// desk.write_register(8, 0x44, 0x1C)?;
/// desk.write_register(8, 0x44, 1)?;
/// assert_eq!((desk.read_register(7, 0x40)?, desk.read_register(8, 0x40)?), (0, 1));
///
/// let stored = desk.into_bytes();
/// let mut desk = Desk::from_bytes(stored);
/// desk.close(7)?;
/// assert_eq!(desk.write_register(7, 0x44, 0), Err(Reply::NotOpen));
/// # Ok::<(), narephon::Reply>(())
/// ```
#[derive(Clone, Debug, PartialEq, Eq)]
pub struct Desk {
    bytes: Vec<u8>,
}

impl Default for Desk {
    fn default() -> Desk {
        Desk::new()
    }
}

impl Desk {
    /// A desk with every seat free.
    pub fn new() -> Desk {
        let mut desk = Desk::from_bytes(vec![0; DESK]);
        let started = desk.start();
        // A wrong length is all that it refuses.
        debug_assert_eq!(started, Ok(()));
        desk
    }

    /// Stored bytes, whatever they are: each call judges them.
    pub fn from_bytes(bytes: impl Into<Vec<u8>>) -> Desk {
        let bytes = bytes.into();
        Desk { bytes }
    }

    /// Its bytes, to be stored.
    pub fn as_bytes(&self) -> &[u8] {
        &self.bytes
    }

    /// The same, without the desk.
    pub fn into_bytes(self) -> Vec<u8> {
        self.bytes
    }

    /// A call that may change the bytes, lent as a pointer and their number.
    fn changing(&mut self, call: impl FnOnce(*mut u8, usize) -> u8) -> Result<(), Reply> {
        answered(call(self.bytes.as_mut_ptr(), self.bytes.len()), ())
    }

    /// A call that only reads them, into a value.
    fn reading(&self, call: impl FnOnce(*const u8, usize, *mut u8) -> u8) -> Result<u8, Reply> {
        let mut value = 0;
        let reply = call(self.bytes.as_ptr(), self.bytes.len(), &mut value);
        answered(reply, value)
    }

    /// Makes every seat free, whatever the bytes were.
    ///
    /// Refused by 3, where they are not [`DESK`] bytes.
    pub fn start(&mut self) -> Result<(), Reply> {
        // SAFETY: here and below, the pointer and the length are those of one live buffer.
        self.changing(|desk, length| unsafe { raw::narephon_desk_start(desk, length) })
    }

    /// Gives a member the first free seat, with the record of the reset state.
    ///
    /// Refused by 21, 22 or 24: a member who has a seat is 22 on a full desk too.
    pub fn open(&mut self, member: u16) -> Result<(), Reply> {
        // SAFETY: as in `start`.
        self.changing(|desk, length| unsafe { raw::narephon_desk_open(desk, length, member) })
    }

    /// Makes a member's seat free, and its bytes 0.
    ///
    /// Refused by 21 or 23.
    pub fn close(&mut self, member: u16) -> Result<(), Reply> {
        // SAFETY: as in `start`.
        self.changing(|desk, length| unsafe { raw::narephon_desk_close(desk, length, member) })
    }

    /// Moves a member's state one frame on, as [`next_frame`](crate::next_frame) does.
    ///
    /// Refused by 21 or 23.
    pub fn next_frame(&mut self, member: u16) -> Result<(), Reply> {
        // SAFETY: as in `start`.
        self.changing(|desk, length| unsafe { raw::narephon_desk_next_frame(desk, length, member) })
    }

    /// Writes a value to a register of a member's state, as [`write_register`](crate::write_register) does.
    ///
    /// Refused by 21, 23, 9 or 10, it leaves a half-sent colour held.
    pub fn write_register(&mut self, member: u16, number: u8, value: u8) -> Result<(), Reply> {
        // SAFETY: as in `start`.
        self.changing(|desk, length| unsafe {
            raw::narephon_desk_write_register(desk, length, member, number, value)
        })
    }

    /// Writes a value to a port of a member's state, as [`write_port`](crate::write_port) does.
    ///
    /// Refused by 21, 23, 9 or 10.
    pub fn write_port(&mut self, member: u16, port: u16, value: u8) -> Result<(), Reply> {
        // SAFETY: as in `start`.
        self.changing(|desk, length| unsafe {
            raw::narephon_desk_write_port(desk, length, member, port, value)
        })
    }

    /// Reads a register of a member's state, as [`read_register`](crate::read_register) does.
    ///
    /// Refused by 21, 23 or 9.
    pub fn read_register(&self, member: u16, number: u8) -> Result<u8, Reply> {
        // SAFETY: as in `start`; the value is no part of the desk.
        self.reading(|desk, length, value| unsafe {
            raw::narephon_desk_read_register(desk, length, member, number, value)
        })
    }

    /// Reads a port of a member's state, as [`read_port`](crate::read_port) does.
    ///
    /// Refused by 21, 23 or 9.
    pub fn read_port(&self, member: u16, port: u16) -> Result<u8, Reply> {
        // SAFETY: as in `read_register`.
        self.reading(|desk, length, value| unsafe {
            raw::narephon_desk_read_port(desk, length, member, port, value)
        })
    }

    /// Draws a line of a member's state, as [`draw`](crate::draw) does.
    ///
    /// Refused by 21, 23, 1, 2, 3, 6, 7, 5 or 8, it leaves `dots` as it was.
    pub fn draw(
        &self,
        member: u16,
        ula: &[u8],
        tile: &[u8],
        line: u32,
        dots: &mut [u16],
    ) -> Result<(), Reply> {
        // SAFETY: each pointer and length are those of one live buffer, and `dots` is borrowed alone.
        let reply = unsafe {
            raw::narephon_desk_draw(
                self.bytes.as_ptr(),
                self.bytes.len(),
                member,
                ula.as_ptr(),
                ula.len(),
                tile.as_ptr(),
                tile.len(),
                line,
                dots.as_mut_ptr(),
                dots.len(),
            )
        };
        answered(reply, ())
    }
}
