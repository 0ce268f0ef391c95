//! The jobs on traces.

use crate::calls::{Banks, Told};
use crate::jobs::{any_bank, any_dots, any_line, banks, length, perhaps_damaged, Done};
use crate::lent::{same, same_items};
use crate::random::Random;
use crate::seen::Seen;
use crate::states::{any_record_of, bank, lawful, lead, line};
use crate::trace_calls::{draw_carried, draw_traced, same_line, Asked, Lengths};
use crate::traces::{
    any_trace, damage, put_fall, put_refused, some, taken, trace_of, Entry, DAMAGES, MOST,
};
use model::reply::{BAD_TRACE, DONE, LINES_FALL};
use model::trace::{FRAME_DOTS, LINES};
use model::{read_record, State, DOTS};

/// The buffers of a whole drawing.
const WHOLE: Lengths = [FRAME_DOTS, LINES, LINES];

/// How many kinds of damage there are.
pub const DAMAGE_KINDS: u64 = DAMAGES.len() as u64;

/// A state in a setting that the seed tells.
fn setting(random: &mut Random, seed: u64) -> State {
    let mut state = lawful(random);
    lead(random, &mut state, seed);
    state
}

/// Its record, with banks and a trace.
fn asked(random: &mut Random, state: &State, entries: &[Entry]) -> Asked {
    let record = any_record_of(random, state);
    Asked::new(&record, banks(random), trace_of(entries))
}

/// Entries that are taken, and one time in four one that is not.
fn entries(random: &mut Random, state: &State) -> Vec<Entry> {
    let mut entries = some(random, state);
    if random.one_in(4) {
        put_refused(random, &mut entries);
    }
    entries
}

/// A line that an entry is stamped with, the one before or the one after it; or any.
fn near(random: &mut Random, entries: &[Entry]) -> u32 {
    let any = line(random);
    if entries.is_empty() || random.one_in(4) {
        return any;
    }
    let stamp = u32::from(random.pick(entries)[0]);
    random.pick(&[stamp.saturating_sub(1), stamp, stamp, (stamp + 1).min(255)])
}

/// Lines of every setting, by traces that are well formed.
pub fn lines(seed: u64, seen: &mut Seen) -> Done {
    let mut random = Random::new(seed);
    let state = setting(&mut random, seed);
    let entries = entries(&mut random, &state);
    let mut asked = asked(&mut random, &state, &entries);
    for _ in 0..4 {
        let line = near(&mut random, &entries);
        draw_traced(&mut asked, line, DOTS, seen)?;
    }
    Ok(())
}

/// All lines, and each of them alone; without entries, as they are drawn without a trace.
pub fn frames(seed: u64, seen: &mut Seen) -> Done {
    let mut random = Random::new(seed);
    // A step that shares no factor with the settings spreads the few rounds over them.
    let state = setting(&mut random, seed.wrapping_mul(5));
    let entries = entries(&mut random, &state);
    let mut asked = asked(&mut random, &state, &entries);
    let (reply, drawn) = draw_carried(&mut asked, WHOLE, seen)?;
    same("reply", reply, DONE)?;
    for (line, dots) in drawn.dots.chunks(DOTS).enumerate() {
        alone(&asked, line, drawn.told(line), dots)?;
        if entries.is_empty() {
            plain(&asked, line, drawn.told(line), dots)?;
        }
    }
    Ok(())
}

/// The library held to itself: a line asked for alone is as it was among all.
fn alone(asked: &Asked, line: usize, told: Told, wanted: &[u16]) -> Done {
    let (ula, tile) = asked.banks.items();
    let (record, trace) = (asked.record.items(), asked.trace());
    let mut dots = [0xAAAA; DOTS];
    let answer = narephon::draw_traced(record, trace, ula, tile, line as u32, &mut dots);
    same_line("alone, line", line, &answer, told)?;
    same_items("dots alone", &dots, wanted)
}

/// The library held to itself: a line without a trace.
fn plain(asked: &Asked, line: usize, (reply, _): Told, wanted: &[u16]) -> Done {
    let (ula, tile) = asked.banks.items();
    let mut dots = [0xAAAA; DOTS];
    let answer = narephon::draw(asked.record.items(), ula, tile, line as u32, &mut dots);
    same("plain reply", crate::compared::number(&answer), reply)?;
    same_items("plain dots", &dots, wanted)
}

/// The library held to itself, with many entries and without the model: all lines and each alone.
pub fn as_alone(seed: u64, _: &mut Seen) -> Done {
    let mut random = Random::new(seed);
    let state = setting(&mut random, seed.wrapping_mul(5));
    let count = random.pick(&[0, 1, 30, 256, 600]);
    let mut entries = taken(&mut random, &state, count);
    if random.one_in(3) {
        put_refused(&mut random, &mut entries);
    }
    let asked = asked(&mut random, &state, &entries);
    let (ula, tile) = asked.banks.items();
    let mut dots = vec![0xAAAA; FRAME_DOTS];
    let record = asked.record.items();
    let lines = narephon::draw_carried(record, asked.trace(), ula, tile, &mut dots);
    let lines = lines.map_err(|reply| reply.to_string())?;
    for (line, (answer, dots)) in lines.iter().zip(dots.chunks(DOTS)).enumerate() {
        let mut one = [0xAAAA; DOTS];
        let drawn = narephon::draw_traced(record, asked.trace(), ula, tile, line as u32, &mut one);
        same(&format!("line {line} among all"), *answer, drawn)?;
        same_items("dots among all", dots, &one)?;
    }
    Ok(())
}

/// As many entries as a trace can have, the last of which is refused or not.
pub fn longest(seed: u64, seen: &mut Seen) -> Done {
    let mut random = Random::new(seed);
    let state = setting(&mut random, 0);
    let mut entries = taken(&mut random, &state, MOST);
    if seed % 2 == 1 {
        entries[MOST - 1] = [entries[MOST - 1][0], 0, 0x00, 0];
    }
    let mut asked = asked(&mut random, &state, &entries);
    for line in [0, 128, 255] {
        draw_traced(&mut asked, line, DOTS, seen)?;
    }
    Ok(())
}

/// One thing wrong with the form of a trace, told by the seed: it is 25 for every line, wherever it stands, and where lines fall
/// too.
pub fn damages(seed: u64, seen: &mut Seen) -> Done {
    let mut random = Random::new(seed);
    let what = DAMAGES[(seed % DAMAGE_KINDS) as usize];
    let state = setting(&mut random, seed);
    let mut entries = entries(&mut random, &state);
    if random.one_in(4) {
        put_fall(&mut random, &mut entries);
    }
    let mut trace = trace_of(&entries);
    damage(&mut random, &mut trace, what);
    let record = any_record_of(&mut random, &state);
    let mut asked = Asked::new(&record, Banks::one(bank(&mut random)), trace);
    refused(&mut random, &mut asked, BAD_TRACE, seen)?;
    seen.damaged_trace(what);
    Ok(())
}

/// Lines that fall: 26 for every line.
pub fn falls(seed: u64, seen: &mut Seen) -> Done {
    let mut random = Random::new(seed);
    let state = setting(&mut random, seed);
    let mut entries = entries(&mut random, &state);
    put_fall(&mut random, &mut entries);
    let mut asked = asked(&mut random, &state, &entries);
    refused(&mut random, &mut asked, LINES_FALL, seen)
}

fn refused(random: &mut Random, asked: &mut Asked, reply: u8, seen: &mut Seen) -> Done {
    for line in [0, line(random), 255] {
        let told = draw_traced(asked, line, DOTS, seen)?;
        same("reply and place", told, (reply, 0))?;
    }
    same("reply", draw_carried(asked, WHOLE, seen)?.0, reply)
}

/// Several things wrong at once, so that the order of the replies shows.
pub fn refusals(seed: u64, seen: &mut Seen) -> Done {
    let mut random = Random::new(seed);
    let state = setting(&mut random, seed);
    let known = any_record_of(&mut random, &state);
    let mut other_version = known.clone();
    other_version[2] ^= 3;
    let any = perhaps_damaged(&mut random);
    let record = random
        .pick(&[&known, &known, &any, &any, &other_version])
        .clone();
    let trace = any_trace(&mut random, &read_record(&record).2);
    let banks = if random.one_in(2) {
        banks(&mut random)
    } else {
        Banks::two(any_bank(&mut random), any_bank(&mut random))
    };
    let mut asked = Asked::new(&record, banks, trace);
    for _ in 0..3 {
        let (line, length) = (any_line(&mut random), any_dots(&mut random));
        draw_traced(&mut asked, line, length, seen)?;
    }
    let lengths = WHOLE.map(|right| length(&mut random, right));
    // Lines that are drawn have jobs of their own, and take longer.
    if asked.refused_whole(lengths) {
        draw_carried(&mut asked, lengths, seen)?;
    }
    Ok(())
}
