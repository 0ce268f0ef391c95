//! The jobs on moves between the versions of a record.

use crate::calls::{draw, lend, move_back, move_up, Banks};
use crate::jobs::{length, Done};
use crate::lent::{same, same_items, Lent};
use crate::random::Random;
use crate::seen::Seen;
use crate::states::{bank, lawful, lead, line, old_record_of, record_of};
use model::reply::{DONE, WRONG_VERSION};
use model::{DOTS, OLD_RECORD_LENGTH, RECORD_LENGTH};

/// An old record and one of version 2, each moved both ways, then into targets of other lengths too.
pub fn moves(seed: u64, seen: &mut Seen) -> Done {
    let mut random = Random::new(seed);
    let mut state = lawful(&mut random);
    lead(&mut random, &mut state, seed);
    let mut old = lend(&old_record_of(&state));
    let mut new = lend(&record_of(&state));
    up_and_back(&mut random, &mut old, seen)?;
    back_and_up(&mut new, seen)?;
    for record in [&mut old, &mut new] {
        move_up(record, length(&mut random, RECORD_LENGTH), seen)?;
        move_back(record, length(&mut random, OLD_RECORD_LENGTH), seen)?;
    }
    Ok(())
}

/// An old record moves up alone. What comes of it draws the same line, and moves back to it.
fn up_and_back(random: &mut Random, old: &mut Lent<u8>, seen: &mut Seen) -> Done {
    let (refused, _) = move_back(old, OLD_RECORD_LENGTH, seen)?;
    same("answer to an old record back", refused, (WRONG_VERSION, 2))?;
    let (told, up) = move_up(old, RECORD_LENGTH, seen)?;
    same("answer to an old record up", told, (DONE, 0))?;
    let mut up = lend(&up);
    let mut banks = Banks::one(bank(random));
    let line = line(random);
    let before = draw(old, &mut banks, line, DOTS, seen)?;
    let after = draw(&mut up, &mut banks, line, DOTS, seen)?;
    same("reply to a line moved up", after, before)?;
    let (_, back) = move_back(&mut up, OLD_RECORD_LENGTH, seen)?;
    same_items("record up and back", &back, old.items())
}

/// A record of version 2 moves back alone, where its pairs agree; what comes of it moves up to it.
fn back_and_up(new: &mut Lent<u8>, seen: &mut Seen) -> Done {
    let (refused, _) = move_up(new, RECORD_LENGTH, seen)?;
    same("answer to version 2 up", refused, (WRONG_VERSION, 2))?;
    let (told, back) = move_back(new, OLD_RECORD_LENGTH, seen)?;
    if told.0 != DONE {
        return Ok(());
    }
    let (_, up) = move_up(&mut lend(&back), RECORD_LENGTH, seen)?;
    same_items("record back and up", &up, new.items())
}
