//! The jobs on records with known faults: what is wrong with one is told, and where, in the order of the replies.

use crate::calls::{check_record, lend, move_back, move_up, Told};
use crate::jobs::Done;
use crate::lent::same;
use crate::random::Random;
use crate::seen::Seen;
use crate::states::{
    faults, lawful, old_record_of, put_fault, record_of, state_number, Fault, ALL_FAULTS,
};
use model::reply::{BAD_FIELD, WRONG_BUFFER, WRONG_COUNT, WRONG_VERSION};
use model::{OLD_RECORD_LENGTH, RECORD_LENGTH};

/// Each field of each version in turn is put out of its bounds, then others behind it too; then the version is made a
/// wrong one, and then the number.
pub fn told(seed: u64, seen: &mut Seen) -> Done {
    let mut random = Random::new(seed);
    let mut bytes = record_of(&lawful(&mut random));
    let mut number = (seed % ALL_FAULTS) as usize;
    if number >= faults(RECORD_LENGTH).len() {
        number -= faults(RECORD_LENGTH).len();
        bytes = old_record_of(&lawful(&mut random));
    }
    let known = faults(bytes.len());
    let (place, _) = known[number];
    put_fault(&mut bytes, known[number]);
    tells(&bytes, (BAD_FIELD, place), seen)?;
    add_behind(&mut random, &mut bytes, &known[number..]);
    tells(&bytes, (BAD_FIELD, place), seen)?;
    let own = bytes[2];
    bytes[2] = random.pick(&[0, 3 - own, 3, 255]);
    tells(&bytes, (WRONG_VERSION, 2), seen)?;
    bytes[2] = random.pick(&[own, bytes[2]]);
    wrong_number(&mut random, &mut bytes);
    tells(&bytes, (WRONG_COUNT, 0), seen)
}

/// Some of these faults, of which the first is there already.
fn add_behind(random: &mut Random, bytes: &mut [u8], known: &[Fault]) {
    for _ in 0..1 + random.below(4) {
        put_fault(bytes, random.pick(known));
    }
}

/// A number that is not that of the bytes following, or is and is no record's.
fn wrong_number(random: &mut Random, bytes: &mut Vec<u8>) {
    match random.below(3) {
        0 => bytes[random.below(2) as usize] ^= 1 << random.below(8),
        1 => bytes.push(0),
        _ => {
            let length = random.pick(&[3, 2_149, 2_151, 2_153, 2_156]);
            bytes.resize(length, 0);
            state_number(bytes);
        }
    }
}

/// What check_record tells of these bytes, and what both moves do. The move of the other version tells 17, unless 16 comes
/// before it; a wrong target, as that of the other move is, comes before all.
fn tells(bytes: &[u8], wanted: Told, seen: &mut Seen) -> Done {
    let mut record = lend(bytes);
    same("what is told", check_record(&mut record, seen)?, wanted)?;
    let (up, _) = move_up(&mut record, RECORD_LENGTH, seen)?;
    let (back, _) = move_back(&mut record, OLD_RECORD_LENGTH, seen)?;
    let other = match wanted {
        (BAD_FIELD, _) => (WRONG_VERSION, 2),
        _ => wanted,
    };
    let moves = match bytes.len() {
        OLD_RECORD_LENGTH => (wanted, other),
        _ => (other, wanted),
    };
    same("what the moves tell", (up, back), moves)?;
    let (up, _) = move_up(&mut record, OLD_RECORD_LENGTH, seen)?;
    let (back, _) = move_back(&mut record, RECORD_LENGTH, seen)?;
    same("of a wrong target", [up, back], [(WRONG_BUFFER, 0); 2])
}
