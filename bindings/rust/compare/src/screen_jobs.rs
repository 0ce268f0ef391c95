//! The jobs on screen files.

use crate::calls::{draw, lend, read_scr, write_scr, write_scr_into, Banks};
use crate::jobs::{any_bank, perhaps_damaged, Done};
use crate::lent::{same, same_items, Lent};
use crate::random::Random;
use crate::screens::{any_file, file, file_with_port, LENGTHS};
use crate::seen::Seen;
use crate::states::{any_record_of, bank, lawful, lead, line, record_of};
use model::reply::{DONE, NO_FORM};
use model::{State, DOTS, SCREEN_LENGTH};

/// A record of any lawful state, and a bank.
fn anyone(random: &mut Random) -> (Lent<u8>, Lent<u8>) {
    let record = lend(&record_of(&lawful(random)));
    (record, lend(&bank(random)))
}

/// A file of each form in turn is read, writes back, and draws.
pub fn files(seed: u64, seen: &mut Seen) -> Done {
    let mut random = Random::new(seed);
    let file = file(&mut random, LENGTHS[(seed % 6) as usize]);
    let (mut record, mut bank) = anyone(&mut random);
    same(
        "reply",
        read_scr(&mut record, &mut bank, &file, seen)?,
        DONE,
    )?;
    let (_, again) = write_scr(&mut record, &mut bank, seen)?;
    same_items("file written back", &again, &file)?;
    let mut banks = Banks::one(bank.items().to_vec());
    draw(&mut record, &mut banks, line(&mut random), DOTS, seen)?;
    Ok(())
}

/// How many lengths [`lengths`] takes in turn.
pub const FILE_LENGTHS: u64 = 12_600;

/// Every length from 0 to some past the longest form, and two that are right in their low 16 bits.
pub fn lengths(seed: u64, seen: &mut Seen) -> Done {
    let mut random = Random::new(seed);
    let length = match seed % FILE_LENGTHS {
        12_598 => 65_536 + 6_912,
        12_599 => 65_536 + SCREEN_LENGTH,
        length => length as usize,
    };
    let file = file(&mut random, length);
    let (mut record, mut bank) = anyone(&mut random);
    let reply = if LENGTHS.contains(&length) {
        DONE
    } else {
        NO_FORM
    };
    same(
        "reply",
        read_scr(&mut record, &mut bank, &file, seen)?,
        reply,
    )
}

/// A byte of port $FF in both files that have one, and in states with each switch that a form goes by.
pub fn port_bytes(seed: u64, seen: &mut Seen) -> Done {
    let mut random = Random::new(seed);
    let port = seed as u8;
    for length in [12_289, 12_353] {
        let file = file_with_port(&mut random, length, port);
        let (mut record, mut bank) = anyone(&mut random);
        read_scr(&mut record, &mut bank, &file, seen)?;
    }
    for switches in 0..16 {
        let mut state = lawful(&mut random);
        state.timex = port;
        switch(&mut state.peripheral, 2, switches & 1 != 0);
        switch(&mut state.layers, 7, switches & 2 != 0);
        switch(&mut state.palette_control, 0, switches & 4 != 0);
        state.plus_on = switches & 8 != 0;
        passed_on(&mut random, &state, seen)?;
    }
    Ok(())
}

fn switch(register: &mut u8, bit: u32, on: bool) {
    *register = *register & !(1 << bit) | u8::from(on) << bit;
}

/// A state led to a setting, written, and read by another member.
pub fn written(seed: u64, seen: &mut Seen) -> Done {
    let mut random = Random::new(seed);
    let mut state = lawful(&mut random);
    lead(&mut random, &mut state, seed);
    passed_on(&mut random, &state, seen)
}

/// A screen written and, where it has a form, read into another record and bank, which then write the same file.
fn passed_on(random: &mut Random, state: &State, seen: &mut Seen) -> Done {
    let mut record = lend(&any_record_of(random, state));
    let mut bank = lend(&bank(random));
    let (reply, file) = write_scr(&mut record, &mut bank, seen)?;
    if reply != DONE {
        return Ok(());
    }
    let (mut other, mut other_bank) = anyone(random);
    let read = read_scr(&mut other, &mut other_bank, &file, seen)?;
    same("reply to what was written", read, DONE)?;
    let (_, again) = write_scr(&mut other, &mut other_bank, seen)?;
    same_items("file passed on", &again, &file)
}

/// Several things wrong at once, so that the order of the replies shows.
pub fn refused(seed: u64, seen: &mut Seen) -> Done {
    let mut random = Random::new(seed);
    let mut record = lend(&perhaps_damaged(&mut random));
    let mut bank = lend(&any_bank(&mut random));
    let other = random.below(2 * SCREEN_LENGTH as u64) as usize;
    let wrong = random.pick(&[0, 1, 6_912, SCREEN_LENGTH - 1, SCREEN_LENGTH + 1, other]);
    let length = if random.one_in(3) {
        wrong
    } else {
        SCREEN_LENGTH
    };
    write_scr_into(&mut record, &mut bank, length, seen)?;
    let file = any_file(&mut random);
    read_scr(&mut record, &mut bank, &file, seen)?;
    Ok(())
}
