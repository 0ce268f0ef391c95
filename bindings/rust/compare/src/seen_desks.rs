//! What came of the calls on desks: which reply came before another that held as well, in which seats calls were done, and
//! what desks were refused for.

use crate::desks::{free_seat, seat_of, Damage, DAMAGES};
use crate::seen::Call;
use model::desk::SEATS;
use model::reply::{ALREADY_OPEN, BAD_DESK, DESK_FULL, DONE, NOT_OPEN};
use std::collections::BTreeMap;
use std::fmt::Write;

/// The calls that find a member's seat, and which of their replies has to have come before which.
const BEFORE: [(Call, &[(u8, u8)]); 8] = [
    (Call::DeskOpen, &[(21, 22), (21, 24), (22, 24)]),
    (Call::DeskClose, &[(21, 23)]),
    (Call::DeskNextFrame, &[(21, 23)]),
    (Call::DeskWriteRegister, &WRITES),
    (Call::DeskWritePort, &WRITES),
    (Call::DeskReadRegister, &READS),
    (Call::DeskReadPort, &READS),
    (
        Call::DeskDraw,
        &[
            (21, 23),
            (21, 1),
            (21, 2),
            (21, 3),
            (23, 1),
            (23, 2),
            (23, 3),
        ],
    ),
];

const WRITES: [(u8, u8); 5] = [(21, 23), (21, 9), (21, 10), (23, 9), (23, 10)];
const READS: [(u8, u8); 3] = [(21, 23), (21, 9), (23, 9)];

/// What a call meets on a desk, or on bytes that are none.
#[derive(Clone, Copy)]
pub struct Met {
    pub member: u16,
    /// The member's seat.
    seat: Option<usize>,
    /// The first free seat.
    free: Option<usize>,
    /// What the call on a record refuses its arguments by in the reset state, which refuses nothing of its own.
    own: u8,
}

impl Met {
    pub fn before(desk: &[u8], member: u16, own: u8) -> Met {
        Met {
            member,
            seat: seat_of(desk, member),
            free: free_seat(desk),
            own,
        }
    }

    /// The replies that would come if the one that came did not hold.
    fn later(self, call: Call, reply: u8) -> Vec<u8> {
        let mut held = match call {
            Call::DeskOpen => vec![
                (self.seat.is_some(), ALREADY_OPEN),
                (self.free.is_none(), DESK_FULL),
            ],
            _ => vec![
                (self.seat.is_none(), NOT_OPEN),
                (self.own != DONE, self.own),
            ],
        };
        held.retain(|&(held, later)| held && later != reply);
        held.into_iter().map(|(_, later)| later).collect()
    }
}

#[derive(Default)]
pub struct Desks {
    before: BTreeMap<(Call, u8, u8), u64>,
    /// Calls that were done, by the seat.
    done: BTreeMap<(Call, usize), u64>,
    /// Desks that every call refused by 21, by what was wrong and in which seat.
    damaged: BTreeMap<(Damage, usize), u64>,
}

impl Desks {
    pub fn reply(&mut self, call: Call, met: Met, reply: u8) {
        if reply == DONE {
            let seat = met.seat.or(met.free).expect("a call is done in a seat");
            *self.done.entry((call, seat)).or_default() += 1;
        }
        if matches!(reply, BAD_DESK | ALREADY_OPEN | NOT_OPEN) {
            for later in met.later(call, reply) {
                *self.before.entry((call, reply, later)).or_default() += 1;
            }
        }
    }

    pub fn damaged(&mut self, damage: Damage, seat: usize) {
        *self.damaged.entry((damage, seat)).or_default() += 1;
    }

    pub fn add(&mut self, other: &Desks) {
        for (&key, count) in &other.before {
            *self.before.entry(key).or_default() += count;
        }
        for (&key, count) in &other.done {
            *self.done.entry(key).or_default() += count;
        }
        for (&key, count) in &other.damaged {
            *self.damaged.entry(key).or_default() += count;
        }
    }

    pub fn missing(&self) -> Vec<String> {
        let mut missing = Vec::new();
        for (call, pairs) in BEFORE {
            for &(first, later) in pairs {
                if !self.before.contains_key(&(call, first, later)) {
                    missing.push(format!("{call:?}: {first} before {later}"));
                }
            }
            for seat in (0..SEATS).filter(|&seat| !self.done.contains_key(&(call, seat))) {
                missing.push(format!("{call:?} done in seat {seat}"));
            }
        }
        for damage in DAMAGES {
            for seat in (0..SEATS).filter(|&seat| !self.damaged.contains_key(&(damage, seat))) {
                missing.push(format!("21 for {damage:?}, seat {seat}"));
            }
        }
        missing
    }

    pub fn report(&self) -> String {
        let mut text = String::from("calls on desks:\n");
        for (&(call, first, later), count) in &self.before {
            let _ = writeln!(text, "{call:?}, {first} before {later}: {count} calls");
        }
        for (call, _) in BEFORE {
            let counts = (0..SEATS).map(|seat| self.done.get(&(call, seat)).unwrap_or(&0));
            let counts: Vec<String> = counts.map(u64::to_string).collect();
            let _ = writeln!(text, "{call:?}, done by seat: {}", counts.join(" "));
        }
        for damage in DAMAGES {
            let seats = (0..SEATS).filter_map(|seat| self.damaged.get(&(damage, seat)));
            let desks: u64 = seats.sum();
            let _ = writeln!(text, "21 for {damage:?}: {desks} desks");
        }
        text
    }
}
