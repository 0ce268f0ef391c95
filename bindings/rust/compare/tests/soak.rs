//! A hundred thousand calls by twenty members on one desk, which is never started again, each beside the model: the answer, and
//! every byte of the desk after it.

use compare::calls::{lend, Banks};
use compare::compared::Checked;
use compare::desk_calls::{
    close, draw, next_frame, open, read_port, read_register, write_port, write_register,
};
use compare::desks::{free_seat, seat_of, MEMBERS};
use compare::jobs::{any_dots, any_line};
use compare::lent::Lent;
use compare::random::Random;
use compare::say;
use compare::seen::{Call, Seen, POSSIBLE};
use compare::states::{bank, port, register, value};
use model::desk::{DESK_LENGTH, SEATS};
use model::reply::BAD_DESK;
use std::collections::BTreeSet;

const CALLS: u64 = 100_000;
const SEED: u64 = 7;

/// What the calls draw from: two banks, and one of a wrong length.
struct Screens {
    good: Banks,
    short: Banks,
}

/// One call by one member.
fn step(
    random: &mut Random,
    desk: &mut Lent<u8>,
    screens: &mut Screens,
    seen: &mut Seen,
) -> Checked {
    let member = random.pick(&MEMBERS);
    let (number, port, value) = (register(random), port(random), value(random));
    // $80 turns LoRes or the tilemap on, and 1 ULANext or ULAplus.
    let value = random.pick(&[value, value, value, value, 0x80, 1]);
    match random.below(200) {
        0..=94 => write_register(desk, member, number, value, seen),
        95..=129 => write_port(desk, member, port, value, seen),
        130..=144 => read_register(desk, member, number, seen),
        145..=153 => read_port(desk, member, port, seen),
        154..=161 => next_frame(desk, member, seen),
        162..=177 => draw_step(random, desk, member, screens, seen),
        // More opens than closes, so that the desk is often full.
        178..=196 => open(desk, member, seen),
        _ => close(desk, member, seen),
    }
}

/// A line, now and then with something wrong.
fn draw_step(
    random: &mut Random,
    desk: &mut Lent<u8>,
    member: u16,
    screens: &mut Screens,
    seen: &mut Seen,
) -> Checked {
    let short = random.one_in(8);
    let banks = if short {
        &mut screens.short
    } else {
        &mut screens.good
    };
    let (line, length) = (any_line(random), any_dots(random));
    draw(desk, member, banks, line, length, seen)
}

/// What the desk has been through.
#[derive(Default)]
struct Lived {
    full: u64,
    /// Who has sat where.
    sat: BTreeSet<(usize, u16)>,
}

impl Lived {
    fn note(&mut self, desk: &[u8]) {
        self.full += u64::from(free_seat(desk).is_none());
        for member in MEMBERS {
            self.sat
                .extend(seat_of(desk, member).map(|seat| (seat, member)));
        }
    }
}

#[test]
fn a_desk_lives_through_many_calls() {
    let mut random = Random::new(SEED);
    let mut desk = lend(&[0; DESK_LENGTH]);
    let mut screens = Screens {
        good: Banks::two(bank(&mut random), bank(&mut random)),
        short: Banks::one(vec![0; 16_383]),
    };
    let (mut seen, mut lived) = (Seen::default(), Lived::default());
    for call in 0..CALLS {
        if let Err(what) = step(&mut random, &mut desk, &mut screens, &mut seen) {
            panic!("call {call}: {what}");
        }
        lived.note(desk.items());
    }
    came(&seen);
    say(&format!(
        "full after {} of {CALLS} calls; {} of {} members in seats",
        lived.full,
        lived.sat.len(),
        SEATS * MEMBERS.len()
    ));
    assert!(lived.full > CALLS / 2, "the desk is often full");
    assert!(
        lived.sat.len() > SEATS * MEMBERS.len() * 3 / 4,
        "most members have sat in most seats"
    );
}

/// Each call but start, and each of its replies but 21, came many times; the rest never.
fn came(seen: &Seen) {
    let mut all = 0;
    for (call, replies) in POSSIBLE {
        let counts: Vec<(u8, u64)> = replies
            .iter()
            .map(|&reply| (reply, seen.replies_of(call, reply)))
            .collect();
        let on_desk = call >= Call::DeskOpen;
        if on_desk {
            say(&format!("{call:?}, calls by reply: {counts:?}"));
        }
        for (reply, count) in counts {
            let wanted = on_desk && reply != BAD_DESK;
            assert!(
                if wanted { count >= 5 } else { count == 0 },
                "{call:?} {reply}: {count}"
            );
            all += count;
        }
    }
    assert_eq!(all, CALLS);
}
