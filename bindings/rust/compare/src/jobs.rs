//! The comparison's jobs. A job is so many rounds, and a round is told by its seed alone.

use crate::calls::{
    check_record, draw, draw_layers, fewest, lend, move_back, move_up, next_frame, pack, read_port,
    read_register, read_scr, reset, screen_value, write_port, write_register, write_scr, Banks,
    Packing,
};
use crate::desk_jobs;
use crate::fault_jobs;
use crate::layer_jobs;
use crate::layers::layers;
use crate::lent::{same, same_items, Lent};
use crate::move_jobs;
use crate::pictures;
use crate::random::Random;
use crate::screen_jobs;
use crate::screens::any_file;
use crate::seen::Seen;
use crate::states::{
    any_record_of, bank, damage, hold, lawful, lead, line, old_record_of, port, record_of,
    register, state_number, value, ALL_FAULTS, INK_MASKS, PALETTES, PORTS, SETTINGS,
};
use crate::trace_jobs;
use model::reply::DONE;
use model::{State, BANK_LENGTH, DOTS, OLD_RECORD_LENGTH, RECORD_LENGTH, SCREEN_LENGTH};

pub type Done = Result<(), String>;

pub struct Job {
    pub name: &'static str,
    pub rounds: u64,
    pub run: fn(u64, &mut Seen) -> Done,
}

/// Every job. Rounds of neighbouring seeds take register numbers, port numbers, bytes, lengths and settings in turn, so
/// the rounds of a job are multiples of those where each is to be met.
pub const JOBS: [Job; 35] = [
    Job {
        name: "packings",
        rounds: 12 * pictures::KINDS,
        run: packings,
    },
    Job {
        name: "registers",
        rounds: 2 * 256,
        run: registers,
    },
    Job {
        name: "ports",
        rounds: 256,
        run: ports,
    },
    Job {
        name: "scripts",
        rounds: 500,
        run: scripts,
    },
    Job {
        name: "damaged records",
        rounds: 12_000,
        run: damaged_records,
    },
    Job {
        name: "record bytes",
        rounds: RECORD_PLACES,
        run: record_bytes,
    },
    Job {
        name: "record lengths",
        rounds: 2 * 2_400,
        run: record_lengths,
    },
    Job {
        name: "told faults",
        rounds: ALL_FAULTS,
        run: fault_jobs::told,
    },
    Job {
        name: "moves",
        rounds: 3_000,
        run: move_jobs::moves,
    },
    Job {
        name: "lines",
        rounds: 32 * SETTINGS,
        run: lines,
    },
    Job {
        name: "whole screens",
        rounds: SETTINGS / 2,
        run: whole_screens,
    },
    Job {
        name: "ink masks",
        rounds: INK_MASKS.len() as u64,
        run: ink_masks,
    },
    Job {
        name: "refused lines",
        rounds: 8_000,
        run: refused_lines,
    },
    Job {
        name: "layered lines",
        rounds: 8 * SETTINGS,
        run: layer_jobs::lines,
    },
    Job {
        name: "lent places",
        rounds: DOTS as u64,
        run: layer_jobs::places,
    },
    Job {
        name: "lent numbers",
        rounds: 256,
        run: layer_jobs::numbers,
    },
    Job {
        name: "refused layers",
        rounds: 8_000,
        run: layer_jobs::refused,
    },
    Job {
        name: "nothing lent",
        rounds: 8 * SETTINGS,
        run: layer_jobs::nothing_lent,
    },
    Job {
        name: "layers above what two fallbacks tell",
        rounds: 8 * SETTINGS,
        run: layer_jobs::two_fallbacks,
    },
    Job {
        name: "screen values and packing bounds",
        rounds: 300,
        run: bounds,
    },
    Job {
        name: "screen files",
        rounds: 6 * 500,
        run: screen_jobs::files,
    },
    Job {
        name: "screen lengths",
        rounds: screen_jobs::FILE_LENGTHS,
        run: screen_jobs::lengths,
    },
    Job {
        name: "screen port bytes",
        rounds: 256,
        run: screen_jobs::port_bytes,
    },
    Job {
        name: "written screens",
        rounds: 16 * SETTINGS,
        run: screen_jobs::written,
    },
    Job {
        name: "refused screens",
        rounds: 8_000,
        run: screen_jobs::refused,
    },
    Job {
        name: "desks",
        rounds: 1_000,
        run: desk_jobs::calls,
    },
    Job {
        name: "damaged desks",
        rounds: 20 * desk_jobs::DAMAGED_SEATS,
        run: desk_jobs::damages,
    },
    Job {
        name: "desks as on a record",
        rounds: 1_000,
        run: desk_jobs::as_on_a_record,
    },
    Job {
        name: "traced lines",
        rounds: 16 * SETTINGS,
        run: trace_jobs::lines,
    },
    Job {
        name: "carried lines",
        rounds: SETTINGS,
        run: trace_jobs::frames,
    },
    Job {
        name: "carried lines as alone",
        rounds: SETTINGS,
        run: trace_jobs::as_alone,
    },
    Job {
        name: "longest traces",
        rounds: 4,
        run: trace_jobs::longest,
    },
    Job {
        name: "damaged traces",
        rounds: 100 * trace_jobs::DAMAGE_KINDS,
        run: trace_jobs::damages,
    },
    Job {
        name: "falling lines",
        rounds: 200,
        run: trace_jobs::falls,
    },
    Job {
        name: "refused traces",
        rounds: 16_000,
        run: trace_jobs::refusals,
    },
];

/// Each value into one register, from a state with a held half and, 256 seeds on, from one without, or the other way
/// about.
fn registers(seed: u64, seen: &mut Seen) -> Done {
    let mut random = Random::new(seed);
    let number = seed as u8;
    let mut state = lawful(&mut random);
    hold(&mut random, &mut state, seed / 256 % 2 == 1);
    let before = record_of(&state);
    let mut record = lend(&before);
    read_register(&mut record, number, seen)?;
    for value in 0..=255 {
        record.set(&before);
        if write_register(&mut record, number, value, seen)? == DONE {
            read_register(&mut record, number, seen)?;
        }
    }
    Ok(())
}

/// 256 port numbers once each, and the four that there are with many values.
fn ports(seed: u64, seen: &mut Seen) -> Done {
    let mut random = Random::new(seed);
    let before = record_of(&lawful(&mut random));
    let mut record = lend(&before);
    for low in 0..=255 {
        let port = u16::from(seed as u8) << 8 | low;
        record.set(&before);
        read_port(&mut record, port, seen)?;
        let value = value(&mut random);
        write_port(&mut record, port, value, seen)?;
    }
    for _ in 0..100 {
        let port = random.pick(&PORTS);
        let value = value(&mut random);
        write_port(&mut record, port, value, seen)?;
        read_port(&mut record, port, seen)?;
    }
    Ok(())
}

/// A short or long run of calls. Narephon's side keeps nothing but the record, the model's nothing but the state.
fn scripts(seed: u64, seen: &mut Seen) -> Done {
    let mut random = Random::new(seed);
    let steps = random.pick(&[1, 3, 10, 30, 100, 1_000]);
    let mut state = State::reset();
    let mut record = lend(&random.bytes(RECORD_LENGTH));
    reset(&mut record, seen)?;
    if random.one_in(2) {
        state = lawful(&mut random);
        record.set(&record_of(&state));
    }
    let mut banks = Banks::one(bank(&mut random));
    for step in 0..steps {
        let moved = script_step(&mut random, &mut record, &mut state, seen);
        let kept = moved.and_then(|()| {
            same_items("record kept", record.items(), &record_of(&state))?;
            if step % 16 == 0 {
                draw(&mut record, &mut banks, line(&mut random), DOTS, seen)?;
            }
            Ok(())
        });
        kept.map_err(|what| format!("step {step}: {what}"))?;
    }
    Ok(())
}

fn script_step(
    random: &mut Random,
    record: &mut Lent<u8>,
    state: &mut State,
    seen: &mut Seen,
) -> Done {
    let (number, port, value) = (register(random), port(random), value(random));
    let (reply, (wanted, after)) = match random.below(34) {
        0..=15 => (
            write_register(record, number, value, seen)?,
            model::write_register(state, number, value),
        ),
        16..=22 => (
            write_port(record, port, value, seen)?,
            model::write_port(state, port, value),
        ),
        23..=26 => (
            read_register(record, number, seen)?,
            (model::read_register(state, number).0, state.clone()),
        ),
        27 | 28 => (
            read_port(record, port, seen)?,
            (model::read_port(state, port).0, state.clone()),
        ),
        29 | 30 => (next_frame(record, seen)?, model::next_frame(state)),
        31 | 32 => screen_step(random, record, state, seen)?,
        _ if random.one_in(8) => (reset(record, seen)?, (DONE, State::reset())),
        _ => return Ok(()),
    };
    *state = after;
    same("reply to the state kept", reply, wanted)
}

/// A screen file read into the record and the state, or written of both; the reply, and what the model makes of the state.
fn screen_step(
    random: &mut Random,
    record: &mut Lent<u8>,
    state: &State,
    seen: &mut Seen,
) -> Result<(u8, (u8, State)), String> {
    let mut bytes = bank(random);
    let mut lent_bank = lend(&bytes);
    if random.one_in(2) {
        let (reply, _) = write_scr(record, &mut lent_bank, seen)?;
        let (wanted, _) = model::write_scr(state, &bytes, &mut [0; SCREEN_LENGTH]);
        return Ok((reply, (wanted, state.clone())));
    }
    let file = any_file(random);
    let reply = read_scr(record, &mut lent_bank, &file, seen)?;
    let (wanted, after, _) = model::read_scr(state, &mut bytes, &file);
    Ok((reply, (wanted, after)))
}

/// Every call on the same bytes, which may be no record.
fn every_call(random: &mut Random, bytes: &[u8], seen: &mut Seen) -> Done {
    let mut record = lend(bytes);
    check_record(&mut record, seen)?;
    read_register(&mut record, register(random), seen)?;
    read_port(&mut record, port(random), seen)?;
    next_frame(&mut record, seen)?;
    record.set(bytes);
    let (number, written) = (register(random), value(random));
    write_register(&mut record, number, written, seen)?;
    record.set(bytes);
    let (number, written) = (port(random), value(random));
    write_port(&mut record, number, written, seen)?;
    record.set(bytes);
    let mut banks = Banks::one(vec![random.byte(); BANK_LENGTH]);
    draw(&mut record, &mut banks, line(random), DOTS, seen)?;
    let (mut lent, line) = (layers(random), line(random));
    draw_layers(&mut record, &mut banks, &mut lent, line, DOTS, seen)?;
    let mut bank = lend(&vec![random.byte(); BANK_LENGTH]);
    write_scr(&mut record, &mut bank, seen)?;
    move_up(&mut record, RECORD_LENGTH, seen)?;
    move_back(&mut record, OLD_RECORD_LENGTH, seen)?;
    read_scr(&mut record, &mut bank, &any_file(random), seen)?;
    reset(&mut record, seen)?;
    Ok(())
}

/// A lawful record damaged.
fn damaged_records(seed: u64, seen: &mut Seen) -> Done {
    let mut random = Random::new(seed);
    let state = lawful(&mut random);
    let mut bytes = any_record_of(&mut random, &state);
    damage(&mut random, &mut bytes);
    every_call(&mut random, &bytes, seen)
}

/// How many places records of both versions have.
const RECORD_PLACES: u64 = (RECORD_LENGTH + OLD_RECORD_LENGTH) as u64;

/// One byte of a record replaced: before the palettes by each value, in a palette by some.
fn record_bytes(seed: u64, seen: &mut Seen) -> Done {
    let mut random = Random::new(seed);
    let state = lawful(&mut random);
    let (mut bytes, place) = match (seed % RECORD_PLACES) as usize {
        place @ 0..RECORD_LENGTH => (record_of(&state), place),
        place => (old_record_of(&state), place - RECORD_LENGTH),
    };
    let mut record = lend(&bytes);
    let (mut bank, file) = (lend(&bank(&mut random)), any_file(&mut random));
    let some = [0, 1, 2, 3, 127, 128, 254, 255];
    for byte in 0..=255 {
        if place >= bytes.len() - PALETTES && !some.contains(&byte) {
            continue;
        }
        bytes[place] = byte;
        record.set(&bytes);
        check_record(&mut record, seen)?;
        let (number, port) = (register(&mut random), port(&mut random));
        let written = value(&mut random);
        match random.below(8) {
            0 => write_register(&mut record, number, written, seen)?,
            1 => write_port(&mut record, port, written, seen)?,
            2 => read_register(&mut record, number, seen)?,
            3 => write_scr(&mut record, &mut bank, seen)?.0,
            4 => read_scr(&mut record, &mut bank, &file, seen)?,
            5 => move_up(&mut record, RECORD_LENGTH, seen)?.0 .0,
            6 => move_back(&mut record, OLD_RECORD_LENGTH, seen)?.0 .0,
            _ => read_port(&mut record, port, seen)?,
        };
        record.set(&bytes);
        next_frame(&mut record, seen)?;
    }
    Ok(())
}

/// A record cut short, or with more bytes behind it; then the same with its number stated rightly.
fn record_lengths(seed: u64, seen: &mut Seen) -> Done {
    let mut random = Random::new(seed);
    let state = lawful(&mut random);
    let mut bytes = match seed / 2_400 % 2 {
        0 => record_of(&state),
        _ => old_record_of(&state),
    };
    let length = match seed % 2_400 {
        2_398 => 4_300,
        2_399 => 65_536 + bytes.len(),
        length => length as usize,
    };
    bytes.resize(length, 0);
    every_call(&mut random, &bytes, seen)?;
    if length < 2 {
        return Ok(());
    }
    state_number(&mut bytes);
    let mut record = lend(&bytes);
    check_record(&mut record, seen)?;
    move_up(&mut record, RECORD_LENGTH, seen)?;
    move_back(&mut record, OLD_RECORD_LENGTH, seen)?;
    Ok(())
}

/// A state led to a setting, and banks for it.
fn setting(random: &mut Random, seed: u64) -> (Lent<u8>, Banks) {
    let mut state = lawful(random);
    lead(random, &mut state, seed);
    let banks = banks(random);
    (lend(&any_record_of(random, &state)), banks)
}

/// Two banks, or one time in four one that is lent as both.
pub fn banks(random: &mut Random) -> Banks {
    let ula = bank(random);
    if random.one_in(4) {
        Banks::one(ula)
    } else {
        Banks::two(ula, bank(random))
    }
}

fn lines(seed: u64, seen: &mut Seen) -> Done {
    let mut random = Random::new(seed);
    let (mut record, mut banks) = setting(&mut random, seed);
    for _ in 0..8 {
        draw(&mut record, &mut banks, line(&mut random), DOTS, seen)?;
    }
    Ok(())
}

fn whole_screens(seed: u64, seen: &mut Seen) -> Done {
    let mut random = Random::new(seed);
    // A step that shares no factor with the settings spreads the few rounds over them.
    let (mut record, mut banks) = setting(&mut random, seed.wrapping_mul(5));
    for line in 0..256 {
        draw(&mut record, &mut banks, line, DOTS, seen)?;
    }
    Ok(())
}

/// The setting of mode 0 in ULANext's colours, without a tilemap.
const ULANEXT: u64 = 8;

/// Ink and paper of every attribute under one ink mask, where each index has its own colour and none is transparent.
fn ink_masks(seed: u64, seen: &mut Seen) -> Done {
    let mut random = Random::new(seed);
    let mut state = lawful(&mut random);
    lead(&mut random, &mut state, ULANEXT);
    state.plus_on = false;
    state.ink_mask = INK_MASKS[seed as usize % INK_MASKS.len()];
    state.ula_clip = [0, 255, 0, 191];
    state.transparent = 255;
    for palette in &mut state.palettes {
        *palette = std::array::from_fn(|index| index as u16);
    }
    let mut ula = vec![0x0F; BANK_LENGTH];
    for (cell, attribute) in ula[0x1800..0x1B00].iter_mut().enumerate() {
        *attribute = cell as u8;
    }
    let mut record = lend(&any_record_of(&mut random, &state));
    let mut banks = Banks::one(ula);
    for line in (32..224).step_by(8) {
        same(
            "reply",
            draw(&mut record, &mut banks, line, DOTS, seen)?,
            DONE,
        )?;
    }
    Ok(())
}

/// A record of either version, one time in three damaged.
pub fn perhaps_damaged(random: &mut Random) -> Vec<u8> {
    let state = lawful(random);
    let mut bytes = any_record_of(random, &state);
    if random.one_in(3) {
        damage(random, &mut bytes);
    }
    bytes
}

/// A bank of the right length or another.
pub fn any_bank(random: &mut Random) -> Vec<u8> {
    let other = random.pick(&[0, 1, 6_912, 16_383, 16_385, 32_768]);
    let length = if random.one_in(4) { other } else { 16_384 };
    vec![random.byte(); length]
}

/// A line, one time in four above all that there are.
pub fn any_line(random: &mut Random) -> u32 {
    let above = random.pick(&[256, 257, 511, 512, 65_536, 1 << 31, u32::MAX]);
    if random.one_in(4) {
        above
    } else {
        line(random)
    }
}

/// The number of dots, or one time in four another one.
pub fn any_dots(random: &mut Random) -> usize {
    let wrong = random.pick(&[0, 1, 320, 639, 641, 1_280]);
    if random.one_in(4) {
        wrong
    } else {
        DOTS
    }
}

/// Several things wrong with a line at once, so that the order of the replies shows.
fn refused_lines(seed: u64, seen: &mut Seen) -> Done {
    let mut random = Random::new(seed);
    let mut record = lend(&perhaps_damaged(&mut random));
    let mut banks = Banks::two(any_bank(&mut random), any_bank(&mut random));
    for _ in 0..4 {
        let (line, length) = (any_line(&mut random), any_dots(&mut random));
        draw(&mut record, &mut banks, line, length, seen)?;
    }
    Ok(())
}

/// What is mostly asked of a packing.
const ASKED: Packing = Packing {
    allowed: 256,
    offset: 0,
    map: 2_560,
    definitions: 8_192,
};

/// A picture packed with all tiles allowed, counted alone, and packed with as many as it needs and with one fewer.
fn packings(seed: u64, seen: &mut Seen) -> Done {
    let mut random = Random::new(seed);
    let picture = pictures::picture(&mut random, seed);
    let mut asked = ASKED;
    asked.offset = random.below(16) as u32;
    let (reply, count) = pack(&picture, asked, seen)?;
    same("the fewest", fewest(&picture, seen)?, (reply, count))?;
    if reply != DONE {
        asked.allowed = random.pick(&[0, 1, 100, 255]);
        pack(&picture, asked, seen)?;
        return Ok(());
    }
    asked.allowed = count;
    same(
        "reply to the count",
        pack(&picture, asked, seen)?,
        (DONE, count),
    )?;
    asked.allowed = count - 1;
    same("reply to one fewer", pack(&picture, asked, seen)?.0, 11)
}

/// Screen values, packings and counts beside their bounds, with wrong lengths in each place.
fn bounds(seed: u64, seen: &mut Seen) -> Done {
    let mut random = Random::new(seed);
    for colour in 0..520 {
        screen_value(colour, seen)?;
    }
    for _ in 0..20 {
        let bits = random.below(33);
        screen_value((random.number() & ((1 << bits) - 1)) as u32, seen)?;
    }
    let mut picture = vec![random.byte(); 40_960];
    let any = random.number() as u32;
    let asked = Packing {
        allowed: random.pick(&[0, 1, 2, 255, 256, 257, 512, u32::MAX, any]),
        offset: random.pick(&[0, 1, 14, 15, 15, 16, 17, 256, u32::MAX, any]),
        map: length(&mut random, 2_560),
        definitions: length(&mut random, 8_192),
    };
    picture.resize(length(&mut random, 40_960), 0);
    pack(&picture, asked, seen)?;
    fewest(&picture, seen)?;
    Ok(())
}

/// The right length, or now and then another.
pub fn length(random: &mut Random, right: usize) -> usize {
    let other = random.below(2 * right as u64) as usize;
    let wrong = random.pick(&[0, 1, right - 1, right + 1, 2 * right, other]);
    if random.one_in(6) {
        wrong
    } else {
        right
    }
}
