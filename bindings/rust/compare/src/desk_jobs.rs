//! The jobs on desks.

use crate::calls::{lend, Banks};
use crate::desk_calls::{
    close, draw, next_frame, open, read_port, read_register, start, write_port, write_register,
};
use crate::desks::{
    any_seats, damaged, desk, member, record_bytes, seat_bytes, seat_of, seated, DAMAGES,
};
use crate::jobs::{any_bank, any_dots, any_line, Done};
use crate::lent::{same, same_items};
use crate::random::Random;
use crate::seen::Seen;
use crate::states::{port, register, value};
use model::desk::SEATS;
use model::reply::BAD_DESK;
use narephon::{Desk, Reply};

/// How many damages there are, in how many seats.
pub const DAMAGED_SEATS: u64 = (DAMAGES.len() * SEATS) as u64;

/// Every call by a member, each on the same bytes, with arguments of which each is now and then wrong; the eight replies
/// without that of start.
fn every_call(
    random: &mut Random,
    bytes: &[u8],
    member: u16,
    seen: &mut Seen,
) -> Result<Vec<u8>, String> {
    let mut banks = Banks::two(any_bank(random), any_bank(random));
    let (line, length) = (any_line(random), any_dots(random));
    let (number, port, written) = (register(random), port(random), value(random));
    let mut lent = lend(bytes);
    let mut replies = vec![
        draw(&mut lent, member, &mut banks, line, length, seen)?,
        read_register(&mut lent, member, number, seen)?,
        read_port(&mut lent, member, port, seen)?,
    ];
    replies.push(open(&mut lent, member, seen)?);
    lent.set(bytes);
    replies.push(write_register(&mut lent, member, number, written, seen)?);
    lent.set(bytes);
    replies.push(write_port(&mut lent, member, port, written, seen)?);
    lent.set(bytes);
    replies.push(next_frame(&mut lent, member, seen)?);
    lent.set(bytes);
    replies.push(close(&mut lent, member, seen)?);
    start(&mut lent, seen)?;
    Ok(replies)
}

/// A desk with any seats held, which no call finds ill formed.
pub fn calls(seed: u64, seen: &mut Seen) -> Done {
    let mut random = Random::new(seed);
    let held = any_seats(&mut random);
    let bytes = desk(&mut random, held);
    for _ in 0..3 {
        let member = member(&mut random, &bytes);
        let replies = every_call(&mut random, &bytes, member, seen)?;
        same("a reply of 21", replies.contains(&BAD_DESK), false)?;
    }
    Ok(())
}

/// One thing wrong in one seat, both told by the seed: whoever calls, and with whatever, it is 21.
pub fn damages(seed: u64, seen: &mut Seen) -> Done {
    let mut random = Random::new(seed);
    let damage = DAMAGES[seed as usize % DAMAGES.len()];
    let seat = seed as usize / DAMAGES.len() % SEATS;
    let bytes = damaged(&mut random, damage, seat);
    let member = member(&mut random, &bytes);
    let replies = every_call(&mut random, &bytes, member, seen)?;
    same("replies", replies, vec![BAD_DESK; 8])?;
    seen.damaged_desk(damage, seat);
    Ok(())
}

/// The library held to itself: what a call on a desk answers and does to its member's record is what the call on a record
/// does, and no other byte of the desk changes.
pub fn as_on_a_record(seed: u64, _: &mut Seen) -> Done {
    let mut random = Random::new(seed);
    let held = any_seats(&mut random) | 1 << (seed % SEATS as u64);
    let mut desk = Desk::from_bytes(desk(&mut random, held));
    for _ in 0..8 {
        let member = random.pick(&seated(desk.as_bytes()));
        let (number, port, value) = (register(&mut random), port(&mut random), value(&mut random));
        changed_alike(
            &mut desk,
            member,
            |desk| desk.write_register(member, number, value),
            |record| narephon::write_register(record, number, value),
        )?;
        changed_alike(
            &mut desk,
            member,
            |desk| desk.write_port(member, port, value),
            |record| narephon::write_port(record, port, value),
        )?;
        changed_alike(
            &mut desk,
            member,
            |desk| desk.next_frame(member),
            narephon::next_frame,
        )?;
        read_alike(&mut random, &desk, member)?;
        drawn_alike(&mut random, &desk, member)?;
    }
    seats_alike(&mut random, &mut desk)
}

/// The record of a member who sits at the desk.
fn record_of(desk: &Desk, member: u16) -> &[u8] {
    let seat = seat_of(desk.as_bytes(), member).expect("the member is seated");
    &desk.as_bytes()[record_bytes(seat)]
}

fn changed_alike(
    desk: &mut Desk,
    member: u16,
    on_desk: impl Fn(&mut Desk) -> Result<(), Reply>,
    on_record: impl Fn(&mut [u8]) -> Result<(), Reply>,
) -> Done {
    let seat = seat_of(desk.as_bytes(), member).expect("the member is seated");
    let mut wanted = desk.as_bytes().to_vec();
    let answer = on_record(&mut wanted[record_bytes(seat)]);
    same("answer on a desk", on_desk(desk), answer)?;
    same_items("desk", desk.as_bytes(), &wanted)
}

fn read_alike(random: &mut Random, desk: &Desk, member: u16) -> Done {
    let record = record_of(desk, member);
    let (number, port) = (register(random), port(random));
    same(
        "register on a desk",
        desk.read_register(member, number),
        narephon::read_register(record, number),
    )?;
    same(
        "port on a desk",
        desk.read_port(member, port),
        narephon::read_port(record, port),
    )
}

fn drawn_alike(random: &mut Random, desk: &Desk, member: u16) -> Done {
    let record = record_of(desk, member);
    let (ula, tile) = (any_bank(random), any_bank(random));
    let (line, length) = (any_line(random), any_dots(random));
    let mut dots = vec![0xAAAA; length];
    let mut wanted = dots.clone();
    same(
        "line on a desk",
        desk.draw(member, &ula, &tile, line, &mut dots),
        narephon::draw(record, &ula, &tile, line, &mut wanted),
    )?;
    same_items("dots", &dots, &wanted)
}

/// A seat that is closed and opened again has the record of a reset.
fn seats_alike(random: &mut Random, desk: &mut Desk) -> Done {
    let member = random.pick(&seated(desk.as_bytes()));
    let seat = seat_of(desk.as_bytes(), member).expect("the member is seated");
    let mut wanted = desk.as_bytes().to_vec();
    wanted[seat_bytes(seat)].fill(0);
    same("answer to close", desk.close(member), Ok(()))?;
    same_items("closed desk", desk.as_bytes(), &wanted)?;
    same("answer to open", desk.open(member), Ok(()))?;
    same_items("reset", record_of(desk, member), &narephon::reset())
}
