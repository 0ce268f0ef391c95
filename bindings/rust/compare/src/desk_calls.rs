//! Each call on a desk beside the model.

use crate::calls::Banks;
use crate::compared::{changing, drawing, reading, Checked};
use crate::lent::{Lent, Part};
use crate::seen::{Call, Seen};
use crate::seen_desks::Met;
use model::drawing::lengths_refusal;
use model::reply::DONE;
use model::{desk, State};
use narephon::{raw, Desk, Reply};

/// A desk's call of the wrapper, on bytes that it hands back.
fn on_desk(
    bytes: &mut Vec<u8>,
    call: impl Fn(&mut Desk) -> Result<(), Reply>,
) -> Result<(), Reply> {
    let mut desk = Desk::from_bytes(std::mem::take(bytes));
    let answer = call(&mut desk);
    *bytes = desk.into_bytes();
    answer
}

/// Names the call in a difference, and counts it where there is none.
fn noted(call: Call, met: Met, checked: Checked, seen: &mut Seen) -> Checked {
    let reply = checked.map_err(|what| format!("{call:?} by {}: {what}", met.member))?;
    seen.on_desk(call, met, reply);
    Ok(reply)
}

/// Start, which wants a desk's length and nothing of its bytes.
pub fn start(desk: &mut Lent<u8>, seen: &mut Seen) -> Checked {
    let checked = changing(
        desk,
        desk::start,
        // SAFETY: here and below, each pointer and length are those of one live buffer.
        |desk, length| unsafe { raw::narephon_desk_start(desk, length) },
        |bytes| on_desk(bytes, Desk::start),
    );
    let reply = checked.map_err(|what| format!("DeskStart: {what}"))?;
    seen.reply(Call::DeskStart, reply);
    Ok(reply)
}

pub fn open(desk: &mut Lent<u8>, member: u16, seen: &mut Seen) -> Checked {
    let met = Met::before(desk.items(), member, DONE);
    let checked = changing(
        desk,
        |desk| desk::open(desk, member),
        |desk, length| unsafe { raw::narephon_desk_open(desk, length, member) },
        |bytes| on_desk(bytes, |desk| desk.open(member)),
    );
    noted(Call::DeskOpen, met, checked, seen)
}

pub fn close(desk: &mut Lent<u8>, member: u16, seen: &mut Seen) -> Checked {
    let met = Met::before(desk.items(), member, DONE);
    let checked = changing(
        desk,
        |desk| desk::close(desk, member),
        |desk, length| unsafe { raw::narephon_desk_close(desk, length, member) },
        |bytes| on_desk(bytes, |desk| desk.close(member)),
    );
    noted(Call::DeskClose, met, checked, seen)
}

pub fn next_frame(desk: &mut Lent<u8>, member: u16, seen: &mut Seen) -> Checked {
    let met = Met::before(desk.items(), member, DONE);
    let checked = changing(
        desk,
        |desk| desk::next_frame(desk, member),
        |desk, length| unsafe { raw::narephon_desk_next_frame(desk, length, member) },
        |bytes| on_desk(bytes, |desk| desk.next_frame(member)),
    );
    noted(Call::DeskNextFrame, met, checked, seen)
}

pub fn write_register(
    desk: &mut Lent<u8>,
    member: u16,
    number: u8,
    value: u8,
    seen: &mut Seen,
) -> Checked {
    let (own, _) = model::write_register(&State::reset(), number, value);
    let met = Met::before(desk.items(), member, own);
    let checked = changing(
        desk,
        |desk| desk::write_register(desk, member, number, value),
        |desk, length| unsafe {
            raw::narephon_desk_write_register(desk, length, member, number, value)
        },
        |bytes| on_desk(bytes, |desk| desk.write_register(member, number, value)),
    );
    let checked = checked.map_err(|what| format!("${number:02X}, {value}: {what}"));
    noted(Call::DeskWriteRegister, met, checked, seen)
}

pub fn write_port(
    desk: &mut Lent<u8>,
    member: u16,
    port: u16,
    value: u8,
    seen: &mut Seen,
) -> Checked {
    let (own, _) = model::write_port(&State::reset(), port, value);
    let met = Met::before(desk.items(), member, own);
    let checked = changing(
        desk,
        |desk| desk::write_port(desk, member, port, value),
        |desk, length| unsafe { raw::narephon_desk_write_port(desk, length, member, port, value) },
        |bytes| on_desk(bytes, |desk| desk.write_port(member, port, value)),
    );
    let checked = checked.map_err(|what| format!("${port:04X}, {value}: {what}"));
    noted(Call::DeskWritePort, met, checked, seen)
}

pub fn read_register(desk: &mut Lent<u8>, member: u16, number: u8, seen: &mut Seen) -> Checked {
    let (own, _) = model::read_register(&State::reset(), number);
    let met = Met::before(desk.items(), member, own);
    let checked = reading(
        desk,
        |desk| desk::read_register(desk, member, number),
        |desk, length, value| unsafe {
            raw::narephon_desk_read_register(desk, length, member, number, value)
        },
        |bytes| Desk::from_bytes(bytes).read_register(member, number),
    );
    let checked = checked.map_err(|what| format!("${number:02X}: {what}"));
    noted(Call::DeskReadRegister, met, checked, seen)
}

pub fn read_port(desk: &mut Lent<u8>, member: u16, port: u16, seen: &mut Seen) -> Checked {
    let (own, _) = model::read_port(&State::reset(), port);
    let met = Met::before(desk.items(), member, own);
    let checked = reading(
        desk,
        |desk| desk::read_port(desk, member, port),
        |desk, length, value| unsafe {
            raw::narephon_desk_read_port(desk, length, member, port, value)
        },
        |bytes| Desk::from_bytes(bytes).read_port(member, port),
    );
    let checked = checked.map_err(|what| format!("${port:04X}: {what}"));
    noted(Call::DeskReadPort, met, checked, seen)
}

/// A line of `length` dots.
pub fn draw(
    desk: &mut Lent<u8>,
    member: u16,
    banks: &mut Banks,
    line: u32,
    length: usize,
    seen: &mut Seen,
) -> Checked {
    let lent_banks = banks.lent();
    let (ula, tile) = banks.items();
    let own = lengths_refusal(line, ula, tile, &[&vec![0; length]]);
    let met = Met::before(desk.items(), member, own);
    let drawn = drawing(
        desk,
        length,
        |desk, dots| (desk::draw(desk, member, line, ula, tile, dots), ()),
        |desk, dots| raw_draw(desk, member, lent_banks, line, dots),
        |bytes, dots| Desk::from_bytes(bytes).draw(member, ula, tile, line, dots),
    );
    let checked = drawn.and_then(|(reply, ())| banks.check("bank").map(|()| reply));
    let checked = checked.map_err(|what| format!("line {line}: {what}"));
    noted(Call::DeskDraw, met, checked, seen)
}

fn raw_draw(
    (desk, desk_length): Part<u8>,
    member: u16,
    [(ula, ula_length), (tile, tile_length)]: [Part<u8>; 2],
    line: u32,
    (dots, length): Part<u16>,
) -> u8 {
    // SAFETY: as above; the banks, which may be one, are read only, and the dots overlap nothing.
    unsafe {
        raw::narephon_desk_draw(
            desk,
            desk_length,
            member,
            ula,
            ula_length,
            tile,
            tile_length,
            line,
            dots,
            length,
        )
    }
}
