//! How often each reply, each kind of call, each place that is told, each kind of line, each order of layers and each case of a
//! desk and of a trace was reached.

use crate::calls::Told;
use crate::desks::Damage;
use crate::seen_desks::{Desks, Met};
use crate::seen_layers::{refused_for, Dots};
use crate::seen_traces::{self, Traces};
use crate::states::{faults, INK_MASKS, PALETTES};
use crate::trace_calls::Lengths;
use crate::traces::Damage as TraceDamage;
use model::layers::Stack;
use model::reply::{BAD_FIELD, DONE, WRONG_BUFFER, WRONG_COUNT, WRONG_VERSION};
use model::ula::{colouring, Colouring};
use model::{read_old, ula_mode, LentLines, Mode, State, OLD_RECORD_LENGTH, RECORD_LENGTH};
use std::collections::BTreeMap;
use std::fmt::Write;

/// The exported calls.
#[derive(Clone, Copy, Debug, PartialEq, Eq, PartialOrd, Ord)]
pub enum Call {
    Reset,
    CheckRecord,
    MoveUp,
    MoveBack,
    NextFrame,
    WriteRegister,
    WritePort,
    ReadRegister,
    ReadPort,
    Draw,
    DrawLayers,
    DrawTraced,
    DrawCarried,
    ReadScr,
    WriteScr,
    ScreenValue,
    Pack,
    Fewest,
    DeskStart,
    DeskOpen,
    DeskClose,
    DeskNextFrame,
    DeskWriteRegister,
    DeskWritePort,
    DeskReadRegister,
    DeskReadPort,
    DeskDraw,
}

/// The replies that each call can give. No call gives 4: an unlawful state can only come in a record, and such a record
/// is 18, on a desk 21.
pub const POSSIBLE: [(Call, &[u8]); 27] = [
    (Call::Reset, &[0, 3]),
    (Call::CheckRecord, &[0, 16, 17, 18]),
    (Call::MoveUp, &[0, 3, 16, 17, 18]),
    (Call::MoveBack, &[0, 3, 15, 16, 17, 18]),
    (Call::NextFrame, &[0, 16, 17, 18]),
    (Call::WriteRegister, &[0, 9, 10, 16, 17, 18]),
    (Call::WritePort, &[0, 9, 10, 16, 17, 18]),
    (Call::ReadRegister, &[0, 9, 16, 17, 18]),
    (Call::ReadPort, &[0, 9, 16, 17, 18]),
    (Call::Draw, &[0, 1, 2, 3, 5, 6, 7, 8, 16, 17, 18]),
    (
        Call::DrawLayers,
        &[0, 1, 2, 3, 5, 6, 7, 8, 16, 17, 18, 19, 20],
    ),
    (
        Call::DrawTraced,
        &[0, 1, 2, 3, 5, 6, 7, 8, 9, 10, 16, 17, 18, 25, 26],
    ),
    (Call::DrawCarried, &[0, 2, 3, 16, 17, 18, 25, 26]),
    (Call::ReadScr, &[0, 2, 14, 16, 17, 18]),
    (Call::WriteScr, &[0, 2, 3, 14, 16, 17, 18]),
    (Call::ScreenValue, &[0, 10]),
    (Call::Pack, &[0, 3, 11, 12]),
    (Call::Fewest, &[0, 3, 11]),
    (Call::DeskStart, &[0, 3]),
    (Call::DeskOpen, &[0, 21, 22, 24]),
    (Call::DeskClose, &[0, 21, 23]),
    (Call::DeskNextFrame, &[0, 21, 23]),
    (Call::DeskWriteRegister, &[0, 9, 10, 21, 23]),
    (Call::DeskWritePort, &[0, 9, 10, 21, 23]),
    (Call::DeskReadRegister, &[0, 9, 21, 23]),
    (Call::DeskReadPort, &[0, 9, 21, 23]),
    (Call::DeskDraw, &[0, 1, 2, 3, 5, 6, 7, 8, 21, 23]),
];

/// The replies are 0 to 26, but for 13, which is retired.
fn replies() -> impl Iterator<Item = u8> {
    (0..=26).filter(|&reply| reply != 13)
}

/// The calls that tell a place, each with the length of a record whose fields it judges.
const TELLING: [(Call, usize); 4] = [
    (Call::CheckRecord, RECORD_LENGTH),
    (Call::CheckRecord, OLD_RECORD_LENGTH),
    (Call::MoveUp, OLD_RECORD_LENGTH),
    (Call::MoveBack, RECORD_LENGTH),
];

/// The places that 18 has to be told at in a record of so many bytes: of every field of one byte that has a bound, and of
/// the first, the middle and the last colour of each palette.
fn places(length: usize) -> Vec<usize> {
    let palettes = length - PALETTES;
    let wanted = |&place: &usize| {
        place < palettes || [0, 128, 255].contains(&((place - palettes) / 2 % 256))
    };
    let places = faults(length).into_iter().map(|(place, _)| place);
    places.filter(wanted).collect()
}

/// Kinds of a call. Of a screen file: its form, by mode and colours, what a refusal by 14 was for, or what the state was
/// besides. Of an old record: that it was taken, or refused for its version. Of a record of version 2: why it was not
/// moved. Of bytes that are no record: what was wrong with their number or version. Of a line: that its mode was scrolled
/// otherwise than the others. Of lent layers: that one line was both, or what a refusal was for. Of all lines by a trace: which
/// buffer alone was wrong.
const KINDS: [(Call, &str); 73] = [
    (Call::CheckRecord, OLD),
    (Call::ReadRegister, OLD),
    (Call::ReadPort, OLD),
    (Call::Draw, OLD),
    (Call::DrawLayers, OLD),
    (Call::DrawTraced, OLD),
    (Call::DrawCarried, OLD),
    (Call::WriteScr, OLD),
    (Call::NextFrame, OLD_REFUSED),
    (Call::WriteRegister, OLD_REFUSED),
    (Call::WritePort, OLD_REFUSED),
    (Call::ReadScr, OLD_REFUSED),
    (Call::MoveBack, OLD_REFUSED),
    (Call::MoveUp, NEW_REFUSED),
    (Call::MoveBack, "15 for X"),
    (Call::MoveBack, "15 for Y"),
    (Call::MoveBack, "15 for both"),
    (Call::CheckRecord, NO_NUMBER),
    (Call::CheckRecord, NOT_COUNTED),
    (Call::CheckRecord, NO_RECORDS_NUMBER),
    (Call::CheckRecord, NO_VERSION),
    (Call::CheckRecord, OTHER_LENGTH),
    (Call::MoveUp, NO_NUMBER),
    (Call::MoveUp, NOT_COUNTED),
    (Call::MoveUp, NO_RECORDS_NUMBER),
    (Call::MoveUp, NO_VERSION),
    (Call::MoveUp, OTHER_LENGTH),
    (Call::MoveBack, NO_NUMBER),
    (Call::MoveBack, NOT_COUNTED),
    (Call::MoveBack, NO_RECORDS_NUMBER),
    (Call::MoveBack, NO_VERSION),
    (Call::MoveBack, OTHER_LENGTH),
    (Call::Draw, "mode 0 with two scrolls"),
    (Call::Draw, "mode 1 with two scrolls"),
    (Call::Draw, "mode 2 with two scrolls"),
    (Call::Draw, "mode 6 with two scrolls"),
    (Call::Draw, "LoRes with two scrolls"),
    (Call::DrawLayers, "one line as both"),
    (Call::DrawLayers, "3 for Layer 2 alone"),
    (Call::DrawLayers, "3 for the sprites alone"),
    (Call::DrawLayers, "3 for the line written alone"),
    (Call::DrawLayers, "19 for 110"),
    (Call::DrawLayers, "19 for 111"),
    (Call::DrawLayers, "19 before 20"),
    (Call::DrawLayers, "20 for Layer 2 alone"),
    (Call::DrawLayers, "20 for the sprites alone"),
    (Call::DrawLayers, "20 for a sprite's priority alone"),
    (Call::DrawLayers, "20 for what is hidden"),
    (Call::DrawCarried, "3 for the dots alone"),
    (Call::DrawCarried, "3 for the replies alone"),
    (Call::DrawCarried, "3 for the places alone"),
    (Call::ReadScr, "mode 0"),
    (Call::ReadScr, "mode 0 with colours"),
    (Call::ReadScr, "mode 2"),
    (Call::ReadScr, "mode 2 with colours"),
    (Call::ReadScr, "mode 6"),
    (Call::ReadScr, "mode 6 with colours"),
    (Call::ReadScr, "LoRes was on"),
    (Call::ReadScr, "ULANext was on"),
    (Call::ReadScr, "a half was held"),
    (Call::ReadScr, "14 for its length"),
    (Call::ReadScr, "14 for its port byte"),
    (Call::WriteScr, "mode 0"),
    (Call::WriteScr, "mode 0 with colours"),
    (Call::WriteScr, "mode 2"),
    (Call::WriteScr, "mode 2 with colours"),
    (Call::WriteScr, "mode 6"),
    (Call::WriteScr, "mode 6 with colours"),
    (Call::WriteScr, "ULANext was on"),
    (Call::WriteScr, "the ULA was off"),
    (Call::WriteScr, "14 for LoRes"),
    (Call::WriteScr, "14 for mode 1"),
    (Call::WriteScr, "14 for no mode"),
];

const OLD: &str = "an old record";
const OLD_REFUSED: &str = "17 for an old record";
const NEW_REFUSED: &str = "17 for a record of version 2";
const NO_NUMBER: &str = "16 for no number";
const NOT_COUNTED: &str = "16 for a number that does not count its bytes";
const NO_RECORDS_NUMBER: &str = "16 for a number that counts its bytes and is no record's";
const NO_VERSION: &str = "17 for a version that there is not";
const OTHER_LENGTH: &str = "17 for the version of the other length";

/// What was wrong with the start of bytes that were refused.
fn wrong_start(record: &[u8], reply: u8) -> Option<&'static str> {
    let number = record.first_chunk().map(|&bytes| u16::from_be_bytes(bytes));
    match (reply, number) {
        (WRONG_COUNT, None) => Some(NO_NUMBER),
        (WRONG_COUNT, Some(number)) if usize::from(number) + 2 == record.len() => {
            Some(NO_RECORDS_NUMBER)
        }
        (WRONG_COUNT, _) => Some(NOT_COUNTED),
        (WRONG_VERSION, _) => match (record.len(), record[2]) {
            (RECORD_LENGTH, 2) | (OLD_RECORD_LENGTH, 1) => None,
            (_, 1 | 2) => Some(OTHER_LENGTH),
            _ => Some(NO_VERSION),
        },
        _ => None,
    }
}

/// The form of a file that was read or written, by its length.
fn form(length: usize) -> &'static str {
    match length {
        6_912 => "mode 0",
        6_976 => "mode 0 with colours",
        12_288 => "mode 2",
        12_352 => "mode 2 with colours",
        12_289 => "mode 6",
        12_353 => "mode 6 with colours",
        _ => "no form",
    }
}

const MODES: [(Mode, &str); 6] = [
    (Mode::Zero, "0"),
    (Mode::One, "1"),
    (Mode::Two, "2"),
    (Mode::Six, "6"),
    (Mode::Lores, "LoRes"),
    (Mode::Off, "off"),
];

const COLOURINGS: [(Colouring, &str); 3] = [
    (Colouring::Plain, "plain"),
    (Colouring::UlaNext, "ULANext"),
    (Colouring::UlaPlus, "ULAplus"),
];

/// Columns (0 without a tilemap), one byte an entry, stencil.
type Tiles = (u32, bool, bool);

const TILES: [(Tiles, &str); 9] = [
    ((0, false, false), "none"),
    ((40, false, false), "40"),
    ((40, false, true), "40 s"),
    ((40, true, false), "40 b"),
    ((40, true, true), "40 bs"),
    ((80, false, false), "80"),
    ((80, false, true), "80 s"),
    ((80, true, false), "80 b"),
    ((80, true, true), "80 bs"),
];

fn tiles(state: &State) -> Tiles {
    if state.tilemap_on() {
        (state.columns(), state.one_byte_entries(), state.stencil())
    } else {
        (0, false, false)
    }
}

/// LoRes beside a tilemap is reply 6.
fn drawable(mode: Mode, tiles: Tiles) -> bool {
    mode != Mode::Lores || tiles.0 == 0
}

#[derive(Default)]
pub struct Seen {
    replies: BTreeMap<(Call, u8), u64>,
    lines: BTreeMap<(Mode, Colouring, Tiles), u64>,
    /// Lines in ULANext's colours, by the ink mask.
    masks: BTreeMap<u8, u64>,
    kinds: BTreeMap<(Call, &'static str), u64>,
    /// The places that 18 told, by the call and the record's length.
    places: BTreeMap<(Call, usize, usize), u64>,
    /// The dots of layered lines.
    dots: Dots,
    desks: Desks,
    traces: Traces,
}

impl Seen {
    pub fn reply(&mut self, call: Call, reply: u8) {
        *self.replies.entry((call, reply)).or_default() += 1;
    }

    /// The reply of a call that was lent a record.
    pub fn lent(&mut self, call: Call, record: &[u8], reply: u8) {
        self.reply(call, reply);
        if read_old(record).0 != DONE {
            return;
        }
        match reply {
            DONE => self.kind(call, OLD),
            WRONG_VERSION => self.kind(call, OLD_REFUSED),
            _ => {}
        }
    }

    /// What a call that was lent a record told of it.
    pub fn told(&mut self, call: Call, record: &[u8], (reply, place): Told) {
        self.lent(call, record, reply);
        if let Some(what) = wrong_start(record, reply) {
            self.kind(call, what);
        }
        if reply == BAD_FIELD {
            *self.places.entry((call, record.len(), place)).or_default() += 1;
        }
    }

    /// A record of version 2 that was not moved up for its version, or not moved back for its pairs.
    pub fn unmoved(&mut self, call: Call, state: &State) {
        let pairs = (state.ula_x == state.lores_x, state.ula_y == state.lores_y);
        let what = match (call, pairs) {
            (Call::MoveUp, _) => NEW_REFUSED,
            (_, (false, true)) => "15 for X",
            (_, (true, false)) => "15 for Y",
            _ => "15 for both",
        };
        self.kind(call, what);
    }

    /// A line that was drawn.
    pub fn line(&mut self, state: &State) {
        let kind = (ula_mode(state), colouring(state), tiles(state));
        *self.lines.entry(kind).or_default() += 1;
        if kind.1 == Colouring::UlaNext && !matches!(kind.0, Mode::Lores | Mode::Off) {
            *self.masks.entry(state.ink_mask).or_default() += 1;
        }
        if (state.ula_x, state.ula_y) == (state.lores_x, state.lores_y) {
            return;
        }
        let what = match kind.0 {
            Mode::Zero => "mode 0 with two scrolls",
            Mode::One => "mode 1 with two scrolls",
            Mode::Two => "mode 2 with two scrolls",
            Mode::Six => "mode 6 with two scrolls",
            Mode::Lores => "LoRes with two scrolls",
            Mode::Off | Mode::NoMode => return,
        };
        self.kind(Call::Draw, what);
    }

    fn kind(&mut self, call: Call, what: &'static str) {
        *self.kinds.entry((call, what)).or_default() += 1;
    }

    /// A file of so many bytes that was read, and the state before.
    pub fn screen_read(&mut self, state: &State, length: usize) {
        self.kind(Call::ReadScr, form(length));
        for (so, what) in [
            (state.lores(), "LoRes was on"),
            (state.ulanext(), "ULANext was on"),
            (state.held, "a half was held"),
        ] {
            if so {
                self.kind(Call::ReadScr, what);
            }
        }
    }

    /// A file of so many bytes that was refused by 14. One of the six lengths is refused for its port byte alone.
    pub fn screen_unread(&mut self, length: usize) {
        let what = match form(length) {
            "no form" => "14 for its length",
            _ => "14 for its port byte",
        };
        self.kind(Call::ReadScr, what);
    }

    /// A file of so many bytes that was written of a state.
    pub fn screen_written(&mut self, state: &State, length: usize) {
        self.kind(Call::WriteScr, form(length));
        if state.ulanext() {
            self.kind(Call::WriteScr, "ULANext was on");
        }
        if !state.ula_on() {
            self.kind(Call::WriteScr, "the ULA was off");
        }
    }

    /// A state that was refused by 14.
    pub fn screen_unwritten(&mut self, state: &State) {
        let what = match state.timex % 8 {
            _ if state.lores() => "14 for LoRes",
            1 => "14 for mode 1",
            _ => "14 for no mode",
        };
        self.kind(Call::WriteScr, what);
    }

    /// The dots of a layered line that was drawn, and whether one line was lent as both.
    pub fn layers_drawn(&mut self, state: &State, one: bool, dots: impl Iterator<Item = Stack>) {
        if one {
            self.kind(Call::DrawLayers, "one line as both");
        }
        self.dots.line(state, dots);
    }

    /// A layered line of so many dots that was refused.
    pub fn layers_refused(&mut self, reply: u8, state: &State, lent: LentLines, length: usize) {
        for what in refused_for(reply, state, lent, length) {
            self.kind(Call::DrawLayers, what);
        }
    }

    /// The reply of a call on a desk, and what it met there.
    pub fn on_desk(&mut self, call: Call, met: Met, reply: u8) {
        self.reply(call, reply);
        self.desks.reply(call, met, reply);
    }

    /// A desk that every call refused by 21, for one thing in a seat.
    pub fn damaged_desk(&mut self, damage: Damage, seat: usize) {
        self.desks.damaged(damage, seat);
    }

    /// The reply of a drawing by a trace, which is the first of those that hold.
    pub fn traced(
        &mut self,
        call: Call,
        record: &[u8],
        met: seen_traces::Met,
        reply: u8,
    ) -> Result<(), String> {
        self.lent(call, record, reply);
        self.traces.reply(call, met, reply)
    }

    /// A line that was drawn by a trace.
    pub fn traced_line(&mut self, trace: &[u8], line: u32) {
        self.traces.line(trace, line);
    }

    /// The replies of all lines, or a refusal of all by buffers of these lengths.
    pub fn frame(&mut self, reply: u8, lengths: Lengths, lines: &[u8]) -> Result<(), String> {
        match reply {
            DONE => self.traces.lines(lines)?,
            WRONG_BUFFER => {
                if let Some(what) = seen_traces::wrong_buffer(lengths) {
                    self.kind(Call::DrawCarried, what);
                }
            }
            _ => {}
        }
        Ok(())
    }

    /// A trace that both calls refused by 25, for one thing.
    pub fn damaged_trace(&mut self, damage: TraceDamage) {
        self.traces.damaged(damage);
    }

    pub fn add(&mut self, other: &Seen) {
        for (&key, count) in &other.replies {
            *self.replies.entry(key).or_default() += count;
        }
        for (&key, count) in &other.lines {
            *self.lines.entry(key).or_default() += count;
        }
        for (&key, count) in &other.masks {
            *self.masks.entry(key).or_default() += count;
        }
        for (&key, count) in &other.kinds {
            *self.kinds.entry(key).or_default() += count;
        }
        for (&key, count) in &other.places {
            *self.places.entry(key).or_default() += count;
        }
        self.dots.add(&other.dots);
        self.desks.add(&other.desks);
        self.traces.add(&other.traces);
    }

    fn calls_of(&self, kind: (Call, &'static str)) -> u64 {
        self.kinds.get(&kind).copied().unwrap_or(0)
    }

    pub fn replies_of(&self, call: Call, reply: u8) -> u64 {
        self.replies.get(&(call, reply)).copied().unwrap_or(0)
    }

    fn lines_under(&self, mask: u8) -> u64 {
        self.masks.get(&mask).copied().unwrap_or(0)
    }

    fn told_at(&self, call: Call, length: usize, place: usize) -> u64 {
        let key = (call, length, place);
        self.places.get(&key).copied().unwrap_or(0)
    }

    fn lines_where(&self, wanted: impl Fn(Mode, Colouring, Tiles) -> bool) -> u64 {
        let lines = self.lines.iter();
        lines
            .filter(|((mode, colouring, tiles), _)| wanted(*mode, *colouring, *tiles))
            .map(|(_, count)| count)
            .sum()
    }

    /// What should have been reached and was not.
    pub fn missing(&self) -> Vec<String> {
        let mut missing = Vec::new();
        for (call, replies) in POSSIBLE {
            for &reply in replies {
                if self.replies_of(call, reply) == 0 {
                    missing.push(format!("{call:?} reply {reply}"));
                }
            }
        }
        for (call, what) in KINDS {
            if self.calls_of((call, what)) == 0 {
                missing.push(format!("{call:?}: {what}"));
            }
        }
        for mask in INK_MASKS {
            if self.lines_under(mask) == 0 {
                missing.push(format!("ULANext, mask {mask}"));
            }
        }
        missing.extend(self.missing_places());
        missing.extend(self.missing_lines());
        missing.extend(self.dots.missing());
        missing.extend(self.desks.missing());
        missing.extend(self.traces.missing());
        missing
    }

    fn missing_places(&self) -> Vec<String> {
        let mut missing = Vec::new();
        for (call, length) in TELLING {
            for place in places(length) {
                if self.told_at(call, length, place) == 0 {
                    missing.push(format!("{call:?} of {length} bytes: 18 at {place}"));
                }
            }
        }
        missing
    }

    fn missing_lines(&self) -> Vec<String> {
        let mut missing = Vec::new();
        for (mode, mode_name) in MODES {
            for (rule, rule_name) in COLOURINGS {
                for (set, set_name) in TILES {
                    let lines = self.lines_where(|m, r, t| (m, r, t) == (mode, rule, set));
                    if lines == 0 && drawable(mode, set) {
                        missing.push(format!("mode {mode_name}, {rule_name}, tilemap {set_name}"));
                    }
                }
            }
        }
        missing
    }

    /// The counts as text.
    pub fn report(&self) -> String {
        let mut text = self.reply_report();
        for (call, what) in KINDS {
            let calls = self.calls_of((call, what));
            let _ = writeln!(text, "{call:?}, {what}: {calls} calls");
        }
        text += &self.place_report();
        for (mode, name) in MODES {
            let lines = self.lines_where(|m, _, _| m == mode);
            let _ = writeln!(text, "mode {name}: {lines} lines");
        }
        for (rule, name) in COLOURINGS {
            let lines = self.lines_where(|_, r, _| r == rule);
            let _ = writeln!(text, "{name}: {lines} lines");
        }
        for mask in INK_MASKS {
            let lines = self.lines_under(mask);
            let _ = writeln!(text, "ULANext, mask {mask}: {lines} lines");
        }
        text += &self.line_report();
        text + &self.dots.report() + &self.desks.report() + &self.traces.report()
    }

    fn place_report(&self) -> String {
        let mut text = String::new();
        for (call, length) in TELLING {
            let all = self.places.iter();
            let told = all.filter(|((by, of, _), _)| (*by, *of) == (call, length));
            let counts: Vec<u64> = told.map(|(_, count)| *count).collect();
            let (places, calls) = (counts.len(), counts.iter().sum::<u64>());
            let _ = writeln!(
                text,
                "{call:?} of {length} bytes, 18 told at {places} places: {calls} calls"
            );
        }
        text
    }

    fn reply_report(&self) -> String {
        let mut text = format!("calls by reply:\n{:<18}", "");
        for reply in replies() {
            let _ = write!(text, "{reply:>8}");
        }
        text.push('\n');
        for (call, _) in POSSIBLE {
            let _ = write!(text, "{:<18}", format!("{call:?}"));
            for reply in replies() {
                let _ = write!(text, "{:>8}", self.replies_of(call, reply));
            }
            text.push('\n');
        }
        let _ = write!(text, "{:<18}", "all");
        for reply in replies() {
            let all = POSSIBLE.map(|(call, _)| self.replies_of(call, reply));
            let _ = write!(text, "{:>8}", all.iter().sum::<u64>());
        }
        text + "\nreply 4 never comes: a record of an unlawful state is 18, on a desk 21\n"
    }

    fn line_report(&self) -> String {
        let mut text = String::from(
            "lines by tilemap columns (b: one byte an entry, s: stencil; LoRes beside a tilemap is reply 6):\n",
        );
        let _ = write!(text, "{:<14}", "");
        for (_, name) in TILES {
            let _ = write!(text, "{name:>8}");
        }
        text.push('\n');
        for (mode, mode_name) in MODES {
            for (rule, rule_name) in COLOURINGS {
                let _ = write!(text, "{:<14}", format!("{mode_name} {rule_name}"));
                for (set, _) in TILES {
                    let lines = self.lines_where(|m, r, t| (m, r, t) == (mode, rule, set));
                    let _ = write!(text, "{lines:>8}");
                }
                text.push('\n');
            }
        }
        text
    }
}
