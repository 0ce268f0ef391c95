//! Desks of members with lawful states, and desks with one thing wrong.

use crate::random::Random;
use crate::states::{faults, lawful, lead, old_record_of, put_fault, record_of, SETTINGS};
use model::desk::{DESK_LENGTH, SEATS, SEAT_LENGTH};
use model::{State, RECORD_LENGTH};

/// Where the record stands in a seat.
const RECORD: usize = SEAT_LENGTH - RECORD_LENGTH;

/// More members than there are seats. Most numbers have the high byte or the low byte of another, or both exchanged.
pub const MEMBERS: [u16; 20] = [
    0, 0x0007, 0x0107, 0x0700, 0x0707, 0x0701, 0x0001, 0x0100, 0x0101, 0x00FF, 0xFF00, 0x07FF,
    0xFF07, 0x0080, 0x8000, 0x8080, 0x7FFF, 0xFF7F, 0xFFFE, 0xFFFF,
];

/// The first seat that is held by this number, in bytes that may be no desk.
pub fn seat_of(desk: &[u8], member: u16) -> Option<usize> {
    let [high, low] = member.to_be_bytes();
    let mut seats = desk.chunks_exact(SEAT_LENGTH);
    seats.position(|seat| seat[..RECORD] == [1, high, low])
}

/// The first seat whose held byte is 0, in such bytes.
pub fn free_seat(desk: &[u8]) -> Option<usize> {
    let mut seats = desk.chunks_exact(SEAT_LENGTH);
    seats.position(|seat| seat[0] == 0)
}

/// The bytes of a seat.
pub fn seat_bytes(seat: usize) -> std::ops::Range<usize> {
    seat * SEAT_LENGTH..(seat + 1) * SEAT_LENGTH
}

/// The bytes of the record in a seat.
pub fn record_bytes(seat: usize) -> std::ops::Range<usize> {
    seat * SEAT_LENGTH + RECORD..(seat + 1) * SEAT_LENGTH
}

/// The numbers that hold seats.
pub fn seated(desk: &[u8]) -> Vec<u16> {
    let held = desk.chunks_exact(SEAT_LENGTH).filter(|seat| seat[0] == 1);
    held.map(|seat| u16::from_be_bytes([seat[1], seat[2]]))
        .collect()
}

/// Which seats are held, by their bits: all, one, all but one, the first so many, or any.
pub fn any_seats(random: &mut Random) -> u16 {
    let any = random.number() as u16;
    let one = 1u16 << random.below(SEATS as u64);
    random.pick(&[0xFFFF, 0xFFFF, one, !one, one - 1, one - 1, any, any])
}

/// A lawful state, which mostly can be drawn.
fn state(random: &mut Random) -> State {
    let mut state = lawful(random);
    let setting = random.below(SETTINGS);
    lead(random, &mut state, setting);
    state
}

/// A desk with these seats held.
pub fn desk(random: &mut Random, held: u16) -> Vec<u8> {
    let mut members = MEMBERS;
    random.shuffle(&mut members);
    let mut desk = vec![0; DESK_LENGTH];
    for (seat, bytes) in desk.chunks_exact_mut(SEAT_LENGTH).enumerate() {
        if held >> seat & 1 == 1 {
            bytes[0] = 1;
            bytes[1..RECORD].copy_from_slice(&members[seat].to_be_bytes());
            bytes[RECORD..].copy_from_slice(&record_of(&state(random)));
        }
    }
    desk
}

/// A member who sits at the desk, or every second time anyone, whose number may be near one of theirs.
pub fn member(random: &mut Random, desk: &[u8]) -> u16 {
    let stranger = random.pick(&MEMBERS);
    let seated = seated(desk);
    if seated.is_empty() {
        return stranger;
    }
    let (member, any) = (random.pick(&seated), random.number() as u16);
    let near = member ^ 1 << random.below(16);
    random.pick(&[member, member, member, stranger, near, any])
}

/// What makes bytes no desk.
#[derive(Clone, Copy, Debug, PartialEq, Eq, PartialOrd, Ord)]
pub enum Damage {
    /// Too few or too many.
    Length,
    /// Above 1.
    HeldByte,
    /// A free seat that is not all 0.
    StrayByte,
    /// One number in two held seats.
    NumberTwice,
    /// A record of version 1, or its version alone.
    OldRecord,
    /// A record with a wrong number or version, or none.
    WrongStart,
    /// A record of an unlawful state.
    BadField,
}

pub const DAMAGES: [Damage; 7] = [
    Damage::Length,
    Damage::HeldByte,
    Damage::StrayByte,
    Damage::NumberTwice,
    Damage::OldRecord,
    Damage::WrongStart,
    Damage::BadField,
];

/// A desk with one thing wrong: in this seat, unless it is the length.
pub fn damaged(random: &mut Random, damage: Damage, seat: usize) -> Vec<u8> {
    let own = 1u16 << seat;
    let other = (seat + 1 + random.below(15) as usize) % SEATS;
    let held = match damage {
        Damage::NumberTwice => any_seats(random) | own | 1 << other,
        Damage::StrayByte if random.one_in(2) => any_seats(random) & !own,
        _ => any_seats(random) | own,
    };
    let mut desk = desk(random, held);
    if damage == Damage::Length {
        resize(random, &mut desk);
        return desk;
    }
    let number = desk[seat_bytes(other)][1..RECORD].to_vec();
    let bytes = &mut desk[seat_bytes(seat)];
    match damage {
        Damage::HeldByte => bytes[0] = random.pick(&[2, 3, 128, 129, 254, 255]),
        Damage::StrayByte => stray_byte(random, bytes),
        Damage::NumberTwice => bytes[1..RECORD].copy_from_slice(&number),
        _ => spoil_record(random, damage, &mut bytes[RECORD..]),
    }
    desk
}

/// Some seats more or fewer, or some bytes; those that are more are 0.
fn resize(random: &mut Random, desk: &mut Vec<u8>) {
    let any = random.below(DESK_LENGTH as u64) as usize;
    let seats = SEAT_LENGTH * random.below(SEATS as u64) as usize;
    let near = [DESK_LENGTH - 1, DESK_LENGTH + 1, 65_536 + DESK_LENGTH];
    let near = random.pick(&near);
    let more = DESK_LENGTH + SEAT_LENGTH;
    desk.resize(random.pick(&[0, 1, any, seats, near, near, more]), 0);
}

/// A byte anywhere in a free seat but at its front; of a held seat, which is free once its first byte is 0, all the others.
fn stray_byte(random: &mut Random, seat: &mut [u8]) {
    if seat[0] == 1 {
        seat[0] = 0;
        return;
    }
    let last = SEAT_LENGTH - 1;
    let any = 1 + random.below(last as u64) as usize;
    let place = random.pick(&[1, 2, 3, 4, 5, last, any, any]);
    seat[place] = 1 + random.below(255) as u8;
}

fn spoil_record(random: &mut Random, damage: Damage, record: &mut [u8]) {
    match damage {
        Damage::OldRecord if random.one_in(2) => record[2] = 1,
        Damage::OldRecord => {
            let old = old_record_of(&lawful(random));
            record[..old.len()].copy_from_slice(&old);
        }
        Damage::BadField => put_fault(record, random.pick(&faults(RECORD_LENGTH))),
        _ if random.one_in(4) => record.fill(0),
        _ if random.one_in(2) => record[2] = random.pick(&[0, 3, 255]),
        _ => record[random.below(2) as usize] ^= 1 << random.below(8),
    }
}
