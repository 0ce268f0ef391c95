//! Drawing by a recorded trace of register and port writes: section 17.

use crate::drawing::{draw, lengths_refusal};
use crate::record::read_record;
use crate::registers::{
    write_port, write_register, BORDER_PORT, PLUS_PORT, SELECT_PORT, TIMEX_PORT,
};
use crate::reply::{Reply, BAD_TRACE, DONE, LINES_FALL, NOT_LAWFUL, WRONG_BUFFER};
use crate::state::{lawful, State};
use crate::DOTS;

/// Rule 17.8: the lines that are drawn one after the other.
pub const LINES: usize = 256;

/// Rule 17.8: the dots of all of them.
pub const FRAME_DOTS: usize = 163_840;

/// Rule 17.1: the bytes of an entry.
const ENTRY: usize = 4;

/// A reply, and the place of a refused entry, 0 with every other reply.
pub type Told = (Reply, usize);

/// Rule 17.1: what an entry writes to.
enum Target {
    Register(u8),
    Port(u16),
}

/// Rule 17.1: an entry of a trace that is well formed.
struct Entry {
    line: u8,
    target: Target,
    byte: u8,
}

impl Entry {
    /// Rule 17.2: the entry of four bytes, or 25.
    fn of(bytes: &[u8]) -> Result<Entry, Reply> {
        let target = match (bytes[1], bytes[2]) {
            (0, number) => Target::Register(number),
            (1, 0) => Target::Port(BORDER_PORT),
            (1, 1) => Target::Port(TIMEX_PORT),
            (1, 2) => Target::Port(SELECT_PORT),
            (1, 3) => Target::Port(PLUS_PORT),
            _ => return Err(BAD_TRACE),
        };
        Ok(Entry {
            line: bytes[0],
            target,
            byte: bytes[3],
        })
    }

    /// Rule 17.4: the reply of the write and the state after it.
    fn write(&self, state: &State) -> (Reply, State) {
        match self.target {
            Target::Register(number) => write_register(state, number, self.byte),
            Target::Port(port) => write_port(state, port, self.byte),
        }
    }
}

/// Rules 17.1 to 17.3: the entries of a trace, or 25, 26 in this order. All of it is
/// judged by 25 first.
fn entries(trace: &[u8]) -> Result<Vec<Entry>, Reply> {
    let [high, low, version, rest @ ..] = trace else {
        return Err(BAD_TRACE);
    };
    let count = usize::from(u16::from_be_bytes([*high, *low]));
    if count != trace.len() - 2 || *version != 1 || rest.len() % ENTRY != 0 {
        return Err(BAD_TRACE);
    }
    let mut entries: Vec<Entry> = Vec::new();
    for bytes in rest.chunks(ENTRY) {
        entries.push(Entry::of(bytes)?);
    }
    if entries.windows(2).any(|pair| pair[1].line < pair[0].line) {
        return Err(LINES_FALL);
    }
    Ok(entries)
}

/// Rules 17.5 and 17.6: the state after every entry stamped with the line or less,
/// or the reply and the place of the first that is refused.
fn state_of(line: u32, entries: &[Entry], state: &State) -> Result<State, Told> {
    let mut state = state.clone();
    for (place, entry) in entries.iter().enumerate() {
        if u32::from(entry.line) > line {
            break;
        }
        let (reply, after) = entry.write(&state);
        if reply != DONE {
            return Err((reply, place));
        }
        state = after;
    }
    Ok(state)
}

/// What a line is drawn from, besides the state.
#[derive(Clone, Copy)]
pub struct Lent<'a> {
    pub trace: &'a [u8],
    pub ula: &'a [u8],
    pub tile: &'a [u8],
}

/// Rules 17.7 and 10.15: draws one line by a trace, or refuses by 1, 2, 3, 4, 25, 26,
/// an entry's 9 or 10, 6, 7, 5, 8 in this order and leaves it.
pub fn draw_traced(line: u32, lent: Lent, state: &State, out: &mut [u16]) -> Told {
    match lengths_refusal(line, lent.ula, lent.tile, &[out]) {
        DONE if !lawful(state) => (NOT_LAWFUL, 0),
        DONE => traced_line(line, lent, state, out),
        reply => (reply, 0),
    }
}

/// The same with a record lent for the state, of either version: 16, 17, 18 in the
/// place of 4.
pub fn lent_draw_traced(line: u32, lent: Lent, record: &[u8], out: &mut [u16]) -> Told {
    let (known, _, state) = read_record(record);
    match lengths_refusal(line, lent.ula, lent.tile, &[out]) {
        DONE if known != DONE => (known, 0),
        DONE => traced_line(line, lent, &state, out),
        reply => (reply, 0),
    }
}

/// Rule 10.15 from 25 on.
fn traced_line(line: u32, lent: Lent, state: &State, out: &mut [u16]) -> Told {
    let entries = match entries(lent.trace) {
        Ok(entries) => entries,
        Err(reply) => return (reply, 0),
    };
    match state_of(line, &entries, state) {
        Ok(state) => (draw(line, lent.ula, lent.tile, &state, out), 0),
        Err(refused) => refused,
    }
}

/// Rule 17.8: what all lines are drawn into, and what each is answered.
pub struct Frame<'a> {
    pub dots: &'a mut [u16],
    pub replies: &'a mut [u8],
    pub places: &'a mut [u16],
}

/// Rules 17.8, 17.9 and 10.16: draws lines 0 to 255, each as if it were asked for
/// alone, or refuses all of them by 2, 3, 4, 25, 26 in this order and leaves them.
pub fn draw_carried(lent: Lent, state: &State, frame: &mut Frame) -> Reply {
    match frame_refusal(lent, frame) {
        DONE if !lawful(state) => NOT_LAWFUL,
        DONE => carried_lines(lent, state, frame),
        reply => reply,
    }
}

/// The same with a record lent for the state, of either version: 16, 17, 18 in the
/// place of 4.
pub fn lent_draw_carried(lent: Lent, record: &[u8], frame: &mut Frame) -> Reply {
    let (known, _, state) = read_record(record);
    match frame_refusal(lent, frame) {
        DONE if known != DONE => known,
        DONE => carried_lines(lent, &state, frame),
        reply => reply,
    }
}

/// Rule 10.16: 2, 3 in this order.
fn frame_refusal(lent: Lent, frame: &Frame) -> Reply {
    let banks = lengths_refusal(0, lent.ula, lent.tile, &[]);
    if banks != DONE {
        return banks;
    }
    let answers = [frame.replies.len(), frame.places.len()];
    if frame.dots.len() != FRAME_DOTS || answers != [LINES, LINES] {
        return WRONG_BUFFER;
    }
    DONE
}

/// Rule 10.16 from 25 on.
fn carried_lines(lent: Lent, state: &State, frame: &mut Frame) -> Reply {
    if let Err(reply) = entries(lent.trace) {
        return reply;
    }
    for line in 0..LINES {
        let dots = &mut frame.dots[line * DOTS..][..DOTS];
        let (reply, place) = draw_traced(line as u32, lent, state, dots);
        frame.replies[line] = reply;
        // 17.1: a trace has less than 16,384 entries.
        frame.places[line] = place as u16;
    }
    DONE
}
