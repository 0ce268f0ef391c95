//! What came of the drawings by a trace: which reply came before another that held as well, what lines among all were
//! answered, what was done by entries, and what traces were refused for.

use crate::lent::same;
use crate::seen::Call;
use crate::trace_calls::Lengths;
use crate::traces::{entries_of, written, Damage, Entry, DAMAGES};
use model::drawing::lengths_refusal;
use model::reply::{
    BAD_TRACE, DONE, LINES_FALL, LORES_AND_TILEMAP, NO_SUCH_MODE, ULANEXT_AND_ULAPLUS,
    WRONG_BUFFER, X_OFFSET_TOO_LARGE,
};
use model::trace::{Lent, FRAME_DOTS, LINES};
use model::{read_record, ula_mode, Layout, Mode, State, BANK_LENGTH, DOTS};
use std::collections::BTreeMap;
use std::fmt::Write;

/// The refusals of a line by a trace in their order; of those that stand together only one can come.
const LINE_ORDER: [&[u8]; 11] = [
    &[1],
    &[2],
    &[3],
    &[16, 17, 18],
    &[25],
    &[26],
    &[9, 10],
    &[6],
    &[7],
    &[5],
    &[8],
];

/// Those of all lines.
const FRAME_ORDER: [&[u8]; 5] = [&[2], &[3], &[16, 17, 18], &[25], &[26]];

/// What one of all lines can be answered: 4 is not among them, though the model judges its state at every line.
const ANSWERS: [u8; 7] = [0, 5, 6, 7, 8, 9, 10];

/// LoRes is on where 6 holds, and off where 5 does.
const APART: (u8, u8) = (6, 5);

/// Every two replies of an order of which the first has to have come before the other.
fn pairs(order: &[&[u8]]) -> Vec<(u8, u8)> {
    let mut pairs = Vec::new();
    for (place, firsts) in order.iter().enumerate() {
        for &first in *firsts {
            let later = order[place + 1..].iter().copied().flatten();
            pairs.extend(later.map(|&later| (first, later)));
        }
    }
    pairs.retain(|&pair| pair != APART);
    pairs
}

fn all_pairs() -> Vec<(Call, u8, u8)> {
    let orders = [
        (Call::DrawTraced, pairs(&LINE_ORDER)),
        (Call::DrawCarried, pairs(&FRAME_ORDER)),
    ];
    let of = |(call, pairs): (Call, Vec<(u8, u8)>)| {
        pairs
            .into_iter()
            .map(move |(first, later)| (call, first, later))
    };
    orders.into_iter().flat_map(of).collect()
}

/// The replies that hold, each judged as if those before it did not, in their order.
pub struct Met(Vec<u8>);

impl Met {
    /// Of a line of so many dots.
    pub fn line(record: &[u8], lent: Lent, line: u32, length: usize) -> Met {
        let mut held = Vec::new();
        let (good, right) = (vec![0; BANK_LENGTH], [0; DOTS]);
        held.push(lengths_refusal(line, &good, &good, &[&right]));
        held.push(lengths_refusal(0, lent.ula, lent.tile, &[&right]));
        held.push(lengths_refusal(0, &good, &good, &[&vec![0; length]]));
        // Of bytes that are no record this is the reset state.
        let (known, _, state) = read_record(record);
        held.push(known);
        held.extend(form(lent.trace));
        let (entry, after) = tried(&state, lent.trace, line.min(255));
        held.push(entry);
        held.extend(of_state(&after));
        Met::of(held)
    }

    /// Of all lines, into buffers of these lengths.
    pub fn frame(record: &[u8], lent: Lent, lengths: Lengths) -> Met {
        let mut held = vec![lengths_refusal(0, lent.ula, lent.tile, &[])];
        if lengths != [FRAME_DOTS, LINES, LINES] {
            held.push(WRONG_BUFFER);
        }
        held.push(read_record(record).0);
        held.extend(form(lent.trace));
        Met::of(held)
    }

    /// Does one hold?
    pub fn holds(&self) -> bool {
        !self.0.is_empty()
    }

    fn of(mut held: Vec<u8>) -> Met {
        held.retain(|&reply| reply != DONE);
        Met(held)
    }
}

/// 25 and 26 of any bytes.
fn form(trace: &[u8]) -> [u8; 2] {
    let [high, low, version, entries @ ..] = trace else {
        return [BAD_TRACE, DONE];
    };
    let counted = usize::from(u16::from_be_bytes([*high, *low])) + 2 == trace.len();
    let known = |[_, kind, number, _]: Entry| kind == 0 || kind == 1 && number < 4;
    let formed = counted && *version == 1 && entries.len() % 4 == 0 && entries_of(trace).all(known);
    let lines: Vec<u8> = entries_of(trace).map(|entry| entry[0]).collect();
    [
        if formed { DONE } else { BAD_TRACE },
        if lines.is_sorted() { DONE } else { LINES_FALL },
    ]
}

/// The reply of the first entry that is refused, of those stamped with the line or less, and the state before it. Entries that
/// cannot be tried are passed by.
fn tried(state: &State, trace: &[u8], line: u32) -> (u8, State) {
    let mut state = state.clone();
    for entry in entries_of(trace).filter(|entry| u32::from(entry[0]) <= line) {
        match written(&state, entry) {
            Some((DONE, after)) => state = after,
            Some((reply, _)) => return (reply, state),
            None => {}
        }
    }
    (DONE, state)
}

/// 6, 7, 5 and 8 of a state.
fn of_state(state: &State) -> [u8; 4] {
    let far = state.tile_x() >= Layout::of(state).width();
    let held = [
        (state.lores() && state.tilemap_on(), LORES_AND_TILEMAP),
        (state.ulanext() && state.plus_on, ULANEXT_AND_ULAPLUS),
        (ula_mode(state) == Mode::NoMode, NO_SUCH_MODE),
        (state.tilemap_on() && far, X_OFFSET_TOO_LARGE),
    ];
    held.map(|(held, reply)| if held { reply } else { DONE })
}

/// Which buffer of all lines has the wrong length, where it is one.
pub fn wrong_buffer(lengths: Lengths) -> Option<&'static str> {
    let [dots, replies, places] = lengths;
    match [dots != FRAME_DOTS, replies != LINES, places != LINES] {
        [true, false, false] => Some("3 for the dots alone"),
        [false, true, false] => Some("3 for the replies alone"),
        [false, false, true] => Some("3 for the places alone"),
        _ => None,
    }
}

/// A register's or a port's number, with its kind before it, as an entry has them.
type Written = (u8, u8);

/// What entries have to have written: every register and every port that there is.
fn all_written() -> Vec<Written> {
    let registers = (0..=255).filter(|&number| model::registers::register_exists(number));
    let registers = registers.map(|number| (0, number));
    registers.chain((0..4).map(|number| (1, number))).collect()
}

const OWN_LINE: &str = "an entry of the line itself";
const NEXT_LINE: &str = "an entry of the next line";
const NO_ENTRIES: &str = "no entries";
const STAMPS: [&str; 3] = [OWN_LINE, NEXT_LINE, NO_ENTRIES];

#[derive(Default)]
pub struct Traces {
    before: BTreeMap<(Call, u8, u8), u64>,
    /// All lines, by what each was answered.
    answers: BTreeMap<u8, u64>,
    /// Entries that were done for a line that was drawn.
    written: BTreeMap<Written, u64>,
    /// Lines that were drawn, by what stood in the trace.
    stamps: BTreeMap<&'static str, u64>,
    /// Traces that both calls refused by 25.
    damaged: BTreeMap<Damage, u64>,
}

/// Adds the counts of another worker.
fn add<K: Copy + Ord>(counts: &mut BTreeMap<K, u64>, others: &BTreeMap<K, u64>) {
    for (&key, count) in others {
        *counts.entry(key).or_default() += count;
    }
}

impl Traces {
    /// The reply of a call, which has to be the first that holds.
    pub fn reply(&mut self, call: Call, Met(held): Met, reply: u8) -> Result<(), String> {
        let first = held.first().copied().unwrap_or(DONE);
        same("the first that holds", reply, first)?;
        for &later in held.iter().skip(1) {
            *self.before.entry((call, reply, later)).or_default() += 1;
        }
        Ok(())
    }

    /// A line that was drawn by a trace.
    pub fn line(&mut self, trace: &[u8], line: u32) {
        for [stamp, kind, number, _] in entries_of(trace) {
            let stamp = u32::from(stamp);
            if stamp <= line {
                *self.written.entry((kind, number)).or_default() += 1;
            }
            if stamp == line {
                self.stamp(OWN_LINE);
            }
            if stamp == line + 1 {
                self.stamp(NEXT_LINE);
            }
        }
        if entries_of(trace).next().is_none() {
            self.stamp(NO_ENTRIES);
        }
    }

    fn stamp(&mut self, what: &'static str) {
        *self.stamps.entry(what).or_default() += 1;
    }

    /// What all lines were answered.
    pub fn lines(&mut self, replies: &[u8]) -> Result<(), String> {
        for &reply in replies {
            if !ANSWERS.contains(&reply) {
                return Err(format!("a line is answered {reply}"));
            }
            *self.answers.entry(reply).or_default() += 1;
        }
        Ok(())
    }

    pub fn damaged(&mut self, damage: Damage) {
        *self.damaged.entry(damage).or_default() += 1;
    }

    pub fn add(&mut self, other: &Traces) {
        add(&mut self.before, &other.before);
        add(&mut self.answers, &other.answers);
        add(&mut self.written, &other.written);
        add(&mut self.stamps, &other.stamps);
        add(&mut self.damaged, &other.damaged);
    }

    pub fn missing(&self) -> Vec<String> {
        let mut missing = Vec::new();
        for pair in all_pairs() {
            if !self.before.contains_key(&pair) {
                let (call, first, later) = pair;
                missing.push(format!("{call:?}: {first} before {later}"));
            }
        }
        for reply in ANSWERS {
            if !self.answers.contains_key(&reply) {
                missing.push(format!("DrawCarried: a line answered {reply}"));
            }
        }
        for (kind, number) in all_written() {
            if !self.written.contains_key(&(kind, number)) {
                missing.push(format!("an entry of kind {kind}, number ${number:02X}"));
            }
        }
        for what in STAMPS {
            if !self.stamps.contains_key(what) {
                missing.push(format!("DrawTraced: {what}"));
            }
        }
        for damage in DAMAGES {
            if !self.damaged.contains_key(&damage) {
                missing.push(format!("25 for {damage:?}"));
            }
        }
        missing
    }

    pub fn report(&self) -> String {
        let mut text = String::from("drawings by a trace:\n");
        for (call, first, later) in all_pairs() {
            let calls = self.before.get(&(call, first, later)).unwrap_or(&0);
            let _ = writeln!(text, "{call:?}, {first} before {later}: {calls} calls");
        }
        for (reply, lines) in &self.answers {
            let _ = writeln!(text, "DrawCarried, lines answered {reply}: {lines}");
        }
        let (kinds, entries) = (self.written.len(), self.written.values().sum::<u64>());
        let _ = writeln!(
            text,
            "entries done: {entries}, of {kinds} registers and ports"
        );
        for (what, lines) in &self.stamps {
            let _ = writeln!(text, "DrawTraced, {what}: {lines}");
        }
        for (damage, traces) in &self.damaged {
            let _ = writeln!(text, "25 for {damage:?}: {traces} traces");
        }
        text
    }
}
