//! The desk, many members' records in one buffer: section 16.

use crate::record::{is_new, read_new, write_record, RECORD_LENGTH};
use crate::reply::{Reply, ALREADY_OPEN, BAD_DESK, DESK_FULL, DONE, NOT_OPEN, WRONG_BUFFER};
use crate::state::State;
use std::collections::BTreeSet;

/// Rule 16.1: the bytes of a desk.
pub const DESK_LENGTH: usize = 34_480;

/// Rule 16.1: the seats of a desk.
pub const SEATS: usize = 16;

/// Rule 16.1: the bytes of a seat.
pub const SEAT_LENGTH: usize = 2_155;

/// Rule 16.1: what a held seat has behind its first byte.
struct Held {
    member: u16,
    record: Vec<u8>,
}

/// A seat, none where it is free.
type Seat = Option<Held>;

/// Rule 16.3: the desk after start, or 3.
pub fn start(desk: &[u8]) -> (Reply, Vec<u8>) {
    if desk.len() != DESK_LENGTH {
        return (WRONG_BUFFER, desk.to_vec());
    }
    (DONE, vec![0; DESK_LENGTH])
}

/// Rules 16.4 and 10.14: the desk after open, or 21, 22, 24 in this order.
pub fn open(desk: &[u8], member: u16) -> (Reply, Vec<u8>) {
    answered(desk, opened(desk, member))
}

fn opened(desk: &[u8], member: u16) -> Result<Vec<u8>, Reply> {
    let mut seats = seats(desk)?;
    if seat_of(&seats, member).is_ok() {
        return Err(ALREADY_OPEN);
    }
    let free = seats.iter().position(|seat| seat.is_none());
    seats[free.ok_or(DESK_FULL)?] = Some(Held {
        member,
        record: record_of(&State::reset()),
    });
    Ok(desk_bytes(&seats))
}

/// Rules 16.5 and 10.14: the desk after close, or 21, 23 in this order.
pub fn close(desk: &[u8], member: u16) -> (Reply, Vec<u8>) {
    answered(desk, closed(desk, member))
}

fn closed(desk: &[u8], member: u16) -> Result<Vec<u8>, Reply> {
    let mut seats = seats(desk)?;
    let own = seat_of(&seats, member)?;
    seats[own] = None;
    Ok(desk_bytes(&seats))
}

/// Rules 16.6 and 10.14: the desk after the next frame, or 21, 23 in this order.
pub fn next_frame(desk: &[u8], member: u16) -> (Reply, Vec<u8>) {
    answered(desk, changed(desk, member, crate::next_frame))
}

/// Rules 16.6 and 10.14: the desk after a register is written, or 21, 23, 9, 10 in
/// this order.
pub fn write_register(desk: &[u8], member: u16, number: u8, value: u8) -> (Reply, Vec<u8>) {
    let write = |state: &State| crate::write_register(state, number, value);
    answered(desk, changed(desk, member, write))
}

/// Rules 16.6 and 10.14: the same of a port.
pub fn write_port(desk: &[u8], member: u16, port: u16, value: u8) -> (Reply, Vec<u8>) {
    let write = |state: &State| crate::write_port(state, port, value);
    answered(desk, changed(desk, member, write))
}

fn changed(
    desk: &[u8],
    member: u16,
    change: impl Fn(&State) -> (Reply, State),
) -> Result<Vec<u8>, Reply> {
    let mut seats = seats(desk)?;
    let own = seat_of(&seats, member)?;
    let (reply, after) = change(&state_in(&seats[own]));
    if reply != DONE {
        return Err(reply);
    }
    seats[own] = Some(Held {
        member,
        record: record_of(&after),
    });
    Ok(desk_bytes(&seats))
}

/// Rules 16.6 and 10.14: what a register reads as, or 21, 23, 9 in this order and 0.
pub fn read_register(desk: &[u8], member: u16, number: u8) -> (Reply, u8) {
    match state_of(desk, member) {
        Ok(state) => crate::read_register(&state, number),
        Err(reply) => (reply, 0),
    }
}

/// Rules 16.6 and 10.14: the same of a port.
pub fn read_port(desk: &[u8], member: u16, port: u16) -> (Reply, u8) {
    match state_of(desk, member) {
        Ok(state) => crate::read_port(&state, port),
        Err(reply) => (reply, 0),
    }
}

/// Rules 16.6 and 10.14: draws one line, or refuses by 21, 23, 1, 2, 3, 6, 7, 5, 8
/// in this order and leaves it.
pub fn draw(
    desk: &[u8],
    member: u16,
    line: u32,
    ula: &[u8],
    tile: &[u8],
    out: &mut [u16],
) -> Reply {
    match state_of(desk, member) {
        Ok(state) => crate::draw(line, ula, tile, &state, out),
        Err(reply) => reply,
    }
}

/// Rule 10.14: a refusal leaves every byte of the desk.
fn answered(desk: &[u8], after: Result<Vec<u8>, Reply>) -> (Reply, Vec<u8>) {
    match after {
        Ok(bytes) => (DONE, bytes),
        Err(reply) => (reply, desk.to_vec()),
    }
}

/// Rules 16.2 and 9.21: the seats of a well-formed desk, or 21.
fn seats(desk: &[u8]) -> Result<Vec<Seat>, Reply> {
    if desk.len() != DESK_LENGTH {
        return Err(BAD_DESK);
    }
    let mut seats = Vec::new();
    for bytes in desk.chunks(SEAT_LENGTH) {
        seats.push(seat(bytes)?);
    }
    let members = || seats.iter().flatten().map(|held| held.member);
    let different: BTreeSet<u16> = members().collect();
    if different.len() != members().count() {
        return Err(BAD_DESK);
    }
    Ok(seats)
}

/// Rule 16.2: one seat, or 21.
fn seat(bytes: &[u8]) -> Result<Seat, Reply> {
    if bytes.iter().all(|&byte| byte == 0) {
        return Ok(None);
    }
    let record = &bytes[3..];
    if bytes[0] != 1 || !is_new(record) {
        return Err(BAD_DESK);
    }
    Ok(Some(Held {
        member: u16::from_be_bytes([bytes[1], bytes[2]]),
        record: record.to_vec(),
    }))
}

/// Rule 9.23: which seat the member has, or 23.
fn seat_of(seats: &[Seat], member: u16) -> Result<usize, Reply> {
    let has = |seat: &Seat| seat.as_ref().is_some_and(|held| held.member == member);
    seats.iter().position(has).ok_or(NOT_OPEN)
}

/// The state of a member, or 21, 23 in this order.
fn state_of(desk: &[u8], member: u16) -> Result<State, Reply> {
    let seats = seats(desk)?;
    let own = seat_of(&seats, member)?;
    Ok(state_in(&seats[own]))
}

/// The state in a held seat of a well-formed desk.
fn state_in(seat: &Seat) -> State {
    let held = seat.as_ref().expect("a member's seat is held");
    let (reply, _, state) = read_new(&held.record);
    assert_eq!(reply, DONE);
    state
}

/// The record of a lawful state.
fn record_of(state: &State) -> Vec<u8> {
    let mut record = vec![0; RECORD_LENGTH];
    assert_eq!(write_record(state, &mut record), DONE);
    record
}

/// Rule 16.1: the bytes of a desk.
fn desk_bytes(seats: &[Seat]) -> Vec<u8> {
    let mut desk = Vec::new();
    for seat in seats {
        match seat {
            None => desk.extend([0; SEAT_LENGTH]),
            Some(held) => {
                desk.push(1);
                desk.extend(held.member.to_be_bytes());
                desk.extend(&held.record);
            }
        }
    }
    desk
}
