//! Both calls by a trace beside the model.

use crate::calls::{lend, Banks, Told};
use crate::compared::{drawing, number};
use crate::lent::{same, same_items, Lent, Part};
use crate::seen::{Call, Seen};
use crate::seen_traces::Met;
use model::reply::{DONE, NO_SUCH_REGISTER, OUT_OF_BOUNDS};
use model::trace::{self, Frame, LINES};
use narephon::{raw, Refusal};
use std::cell::Cell;

/// What a drawing by a trace is lent for reading.
pub struct Asked {
    pub record: Lent<u8>,
    pub banks: Banks,
    trace: Lent<u8>,
    /// The trace's bytes as they were lent.
    bytes: Vec<u8>,
}

impl Asked {
    pub fn new(record: &[u8], banks: Banks, trace: Vec<u8>) -> Asked {
        Asked {
            record: lend(record),
            banks,
            trace: lend(&trace),
            bytes: trace,
        }
    }

    pub fn trace(&self) -> &[u8] {
        &self.bytes
    }

    /// What the model draws from.
    fn lent(&self) -> trace::Lent<'_> {
        let (ula, tile) = self.banks.items();
        let trace = self.trace();
        trace::Lent { trace, ula, tile }
    }

    /// Is something wrong that refuses all lines, drawn into buffers of these lengths?
    pub fn refused_whole(&self, lengths: Lengths) -> bool {
        Met::frame(self.record.items(), self.lent(), lengths).holds()
    }

    /// Are trace and banks as they were?
    fn check(&self) -> Result<(), String> {
        self.trace.check("trace", &self.bytes)?;
        self.banks.check("bank")
    }
}

/// The place that the wrapper tells of a refused entry.
fn entry_place((reply, place): Told) -> Option<usize> {
    matches!(reply, NO_SUCH_REGISTER | OUT_OF_BOUNDS).then_some(place)
}

/// A line of `length` dots by a trace.
pub fn draw_traced(
    asked: &mut Asked,
    line: u32,
    length: usize,
    seen: &mut Seen,
) -> Result<Told, String> {
    let told = compared_line(asked, line, length).map_err(|what| format!("line {line}: {what}"))?;
    let met = Met::line(asked.record.items(), asked.lent(), line, length);
    seen.traced(Call::DrawTraced, asked.record.items(), met, told.0)?;
    if told.0 == DONE {
        seen.traced_line(asked.trace(), line);
    }
    Ok(told)
}

fn compared_line(asked: &mut Asked, line: u32, length: usize) -> Result<Told, String> {
    let [lent_ula, lent_tile] = asked.banks.lent();
    let lent_parts = [asked.trace.part(), lent_ula, lent_tile];
    let (set, told_by_wrapper) = (Cell::new(u32::MAX), Cell::new(None));
    let (ula, tile) = asked.banks.items();
    let bytes = &asked.bytes;
    let lent = trace::Lent {
        trace: bytes,
        ula,
        tile,
    };
    let told = drawing(
        &mut asked.record,
        length,
        |record, dots| trace::lent_draw_traced(line, lent, record, dots),
        |record, dots| raw_traced(record, lent_parts, line, dots, set.as_ptr()),
        |record, dots| {
            let answer = narephon::draw_traced(record, bytes, ula, tile, line, dots);
            answer.map_err(|refusal| {
                told_by_wrapper.set(refusal.place);
                refusal.reply
            })
        },
    )?;
    asked.check()?;
    same("place", set.get() as usize, told.1)?;
    same("wrapper's place", told_by_wrapper.get(), entry_place(told))?;
    Ok(told)
}

fn raw_traced(
    (record, record_length): Part<u8>,
    [(trace, trace_length), (ula, ula_length), (tile, tile_length)]: [Part<u8>; 3],
    line: u32,
    (dots, length): Part<u16>,
    place: *mut u32,
) -> u8 {
    // SAFETY: each pointer and length are those of one live buffer; the banks, which may be one, are read only, and dots and
    // place overlap nothing.
    unsafe {
        raw::narephon_draw_traced(
            record,
            record_length,
            trace,
            trace_length,
            ula,
            ula_length,
            tile,
            tile_length,
            line,
            dots,
            length,
            place,
        )
    }
}

/// How long the three buffers of a whole drawing are.
pub type Lengths = [usize; 3];

/// What a whole drawing writes.
pub struct Drawn {
    pub dots: Vec<u16>,
    pub replies: Vec<u8>,
    pub places: Vec<u16>,
}

impl Drawn {
    /// No colour, no reply and no place, so that what is left out is seen.
    fn marked([dots, replies, places]: Lengths) -> Drawn {
        Drawn {
            dots: vec![0xAAAA; dots],
            replies: vec![0xAA; replies],
            places: vec![0xAAAA; places],
        }
    }

    /// What a line was answered.
    pub fn told(&self, line: usize) -> Told {
        (self.replies[line], usize::from(self.places[line]))
    }
}

/// All lines by a trace, into buffers of these lengths: the reply, and what was written.
pub fn draw_carried(
    asked: &mut Asked,
    lengths: Lengths,
    seen: &mut Seen,
) -> Result<(u8, Drawn), String> {
    let (reply, drawn) =
        compared_frame(asked, lengths).map_err(|what| format!("draw_carried: {what}"))?;
    let met = Met::frame(asked.record.items(), asked.lent(), lengths);
    seen.traced(Call::DrawCarried, asked.record.items(), met, reply)?;
    seen.frame(reply, lengths, &drawn.replies)?;
    Ok((reply, drawn))
}

fn compared_frame(asked: &mut Asked, lengths: Lengths) -> Result<(u8, Drawn), String> {
    let before = asked.record.items().to_vec();
    let mut wanted = Drawn::marked(lengths);
    let mut frame = Frame {
        dots: &mut wanted.dots,
        replies: &mut wanted.replies,
        places: &mut wanted.places,
    };
    let reply = trace::lent_draw_carried(asked.lent(), &before, &mut frame);
    let blank = Drawn::marked(lengths);
    let mut dots = Lent::new(&blank.dots, 0x5A5A);
    let mut replies = Lent::new(&blank.replies, 0x5A);
    let mut places = Lent::new(&blank.places, 0x5A5A);
    let [ula, tile] = asked.banks.lent();
    let got = raw_carried(
        [asked.record.part(), asked.trace.part(), ula, tile],
        dots.part(),
        replies.part(),
        places.part(),
    );
    same("reply", got, reply)?;
    replies.check("replies", &wanted.replies)?;
    places.check("places", &wanted.places)?;
    dots.check("dots", &wanted.dots)?;
    asked.record.check("record", &before)?;
    asked.check()?;
    // The wrapper's answers have the right lengths always.
    if lengths[1..] == [LINES, LINES] {
        wrapped_frame(asked, blank, reply, &wanted)?;
    }
    Ok((reply, wanted))
}

fn raw_carried(
    [(record, record_length), (trace, trace_length), (ula, ula_length), (tile, tile_length)]: [Part<u8>;
        4],
    (dots, dots_length): Part<u16>,
    (replies, replies_length): Part<u8>,
    (places, places_length): Part<u16>,
) -> u8 {
    // SAFETY: as in `raw_traced`, of the three that are written.
    unsafe {
        raw::narephon_draw_carried(
            record,
            record_length,
            trace,
            trace_length,
            ula,
            ula_length,
            tile,
            tile_length,
            dots,
            dots_length,
            replies,
            replies_length,
            places,
            places_length,
        )
    }
}

fn wrapped_frame(asked: &Asked, mut blank: Drawn, reply: u8, wanted: &Drawn) -> Result<(), String> {
    let (ula, tile) = asked.banks.items();
    let record = asked.record.items();
    let answer = narephon::draw_carried(record, asked.trace(), ula, tile, &mut blank.dots);
    same("wrapper's reply", number(&answer), reply)?;
    same_items("wrapper's dots", &blank.dots, &wanted.dots)?;
    let Ok(lines) = answer else { return Ok(()) };
    for (line, answer) in lines.iter().enumerate() {
        same_line("wrapper's line", line, answer, wanted.told(line))?;
    }
    Ok(())
}

/// Is a line answered as it was told?
pub fn same_line(
    what: &str,
    line: usize,
    answer: &Result<(), Refusal>,
    wanted: Told,
) -> Result<(), String> {
    let got = match answer {
        Ok(()) => (DONE, None),
        Err(refusal) => (refusal.reply.number(), refusal.place),
    };
    let told = (wanted.0, entry_place(wanted));
    same(&format!("{what} {line}"), got, told)
}
