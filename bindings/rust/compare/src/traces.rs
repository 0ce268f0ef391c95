//! Traces to draw by: writes that are taken, one that is not, lines that fall, and bytes that are no trace.

use crate::random::Random;
use crate::states::{line, register, state_number, value, PORTS};
use model::reply::DONE;
use model::State;

/// An entry: its line, kind, number and byte.
pub type Entry = [u8; 4];

/// How many entries a trace can have: 1 + 4 × 16,383 is the greatest number of bytes that its count can tell.
pub const MOST: usize = 16_383;

/// The bytes of a trace with these entries.
pub fn trace_of(entries: &[Entry]) -> Vec<u8> {
    let mut bytes = vec![0, 0, 1];
    bytes.extend(entries.iter().flatten());
    state_number(&mut bytes);
    bytes
}

/// The whole entries behind the first three of any bytes.
pub fn entries_of(trace: &[u8]) -> impl Iterator<Item = Entry> + '_ {
    let behind = trace.get(3..).unwrap_or(&[]);
    behind
        .chunks_exact(4)
        .map(|bytes| bytes.try_into().expect("four bytes"))
}

/// What the model makes of an entry's write; none of a kind or a port that there is not.
pub fn written(state: &State, [_, kind, number, byte]: Entry) -> Option<(u8, State)> {
    match kind {
        0 => Some(model::write_register(state, number, byte)),
        1 => {
            let port = PORTS.get(usize::from(number))?;
            Some(model::write_port(state, *port, byte))
        }
        _ => None,
    }
}

/// Writes that lead to refused lines and out of them: of port $FF, LoRes, the tilemap, its X offset, ULANext and ULAplus.
const LEADING: [[u8; 3]; 14] = [
    [0, 0x08, 4],
    [1, 1, 3],
    [1, 1, 6],
    [0, 0x15, 0x80],
    [0, 0x15, 0],
    [0, 0x6B, 0x80],
    [0, 0x6B, 0],
    [0, 0x2F, 2],
    [0, 0x2F, 0],
    [0, 0x43, 1],
    [0, 0x43, 0],
    [1, 2, 64],
    [1, 3, 1],
    [1, 3, 0],
];

/// A kind, a number and a byte, which may be refused.
fn write(random: &mut Random) -> [u8; 3] {
    match random.below(8) {
        0 | 1 => [1, random.below(4) as u8, value(random)],
        2 => random.pick(&LEADING),
        _ => [0, register(random), value(random)],
    }
}

/// So many entries, none of which is refused if the state is lawful.
pub fn taken(random: &mut Random, state: &State, count: usize) -> Vec<Entry> {
    let mut lines: Vec<u8> = (0..count).map(|_| line(random) as u8).collect();
    lines.sort_unstable();
    let mut state = state.clone();
    let mut entries = Vec::new();
    while entries.len() < count {
        let [kind, number, byte] = write(random);
        let entry = [lines[entries.len()], kind, number, byte];
        if let Some((DONE, after)) = written(&state, entry) {
            state = after;
            entries.push(entry);
        }
    }
    entries
}

/// A few entries, or many.
pub fn some(random: &mut Random, state: &State) -> Vec<Entry> {
    let count = random.pick(&[0, 1, 2, 5, 20, 20, 60, 200]);
    taken(random, state, count)
}

/// Writes that are refused in every state.
const REFUSED: [[u8; 3]; 6] = [
    [0, 0x00, 0],
    [0, 0xFF, 1],
    [0, 0x42, 5],
    [0, 0x2F, 4],
    [0, 0x33, 192],
    [1, 2, 128],
];

/// Puts an entry that is refused somewhere among others, on the line of the one before it.
pub fn put_refused(random: &mut Random, entries: &mut Vec<Entry>) {
    let place = random.below(entries.len() as u64 + 1) as usize;
    let before = place.checked_sub(1).map_or(0, |before| entries[before][0]);
    let [kind, number, byte] = random.pick(&REFUSED);
    entries.insert(place, [before, kind, number, byte]);
}

/// Makes lines fall: those of two entries exchanged, or two more entries where all have one line.
pub fn put_fall(random: &mut Random, entries: &mut Vec<Entry>) {
    let differ = |place: &usize| entries[*place][0] < entries[*place + 1][0];
    let rises: Vec<usize> = (0..entries.len().saturating_sub(1))
        .filter(differ)
        .collect();
    if rises.is_empty() {
        let high = 1 + random.below(255) as u8;
        entries.push([255, 1, 0, 1]);
        entries.push([high - 1, 1, 0, 2]);
        return;
    }
    let place = random.pick(&rises);
    let (low, high) = (entries[place][0], entries[place + 1][0]);
    (entries[place][0], entries[place + 1][0]) = (high, low);
}

/// What can be wrong with the form of a trace.
#[derive(Clone, Copy, Debug, PartialEq, Eq, PartialOrd, Ord)]
pub enum Damage {
    Short,
    Count,
    Version,
    Cut,
    Kind,
    Port,
}

pub const DAMAGES: [Damage; 6] = [
    Damage::Short,
    Damage::Count,
    Damage::Version,
    Damage::Cut,
    Damage::Kind,
    Damage::Port,
];

/// Puts one thing wrong into a trace.
pub fn damage(random: &mut Random, trace: &mut Vec<u8>, damage: Damage) {
    match damage {
        Damage::Short => {
            trace.truncate(random.below(3) as usize);
            // No bytes follow, and the count says so.
            if trace.len() == 2 && random.one_in(2) {
                state_number(trace);
            }
        }
        Damage::Count => match random.below(3) {
            0 => trace[random.below(2) as usize] ^= 1 << random.below(8),
            1 => trace.extend([0, 0, 0x14, 0]),
            // 65,536 bytes more, which two bytes do not tell.
            _ => trace.resize(trace.len() + 65_536, 0),
        },
        Damage::Version => trace[2] = random.pick(&[0, 2, 3, 129, 255]),
        Damage::Cut => {
            let more = 1 + random.below(3) as usize;
            trace.extend(random.bytes(more));
            state_number(trace);
        }
        Damage::Kind => {
            let place = any_entry(random, trace);
            trace[place + 1] = random.pick(&[2, 3, 128, 129, 255]);
        }
        Damage::Port => {
            let place = any_entry(random, trace);
            trace[place + 1] = 1;
            trace[place + 2] = random.pick(&[4, 5, 128, 0xFE, 255]);
        }
    }
}

/// Where an entry starts. One is put in where there is none.
fn any_entry(random: &mut Random, trace: &mut Vec<u8>) -> usize {
    if trace.len() < 7 {
        *trace = trace_of(&[[random.byte(), 0, 0x14, 7]]);
    }
    let entries = (trace.len() - 3) / 4;
    3 + 4 * random.below(entries as u64) as usize
}

/// A trace with which anything may be wrong, and several things at once.
pub fn any_trace(random: &mut Random, state: &State) -> Vec<u8> {
    let mut entries = some(random, state);
    if random.one_in(3) {
        put_refused(random, &mut entries);
    }
    if random.one_in(5) {
        put_fall(random, &mut entries);
    }
    let mut trace = trace_of(&entries);
    if random.one_in(5) {
        let what = random.pick(&DAMAGES);
        damage(random, &mut trace, what);
    }
    trace
}
