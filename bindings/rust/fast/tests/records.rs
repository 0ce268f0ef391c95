//! The quick register writes and records held to the model.

mod common;

use common::{lawful_state, quick, spoil, Random};

#[test]
fn lawfulness() {
    let mut random = Random::new(11);
    for _ in 0..2_000 {
        let mut state = lawful_state(&mut random);
        assert!(fast::lawful(&quick(&state)));
        spoil(&mut random, &mut state);
        assert!(!fast::lawful(&quick(&state)));
    }
    assert_eq!(quick(&model::State::reset()), fast::State::reset());
}

#[test]
fn a_long_run_of_writes() {
    let mut random = Random::new(12);
    let mut state = model::State::reset();
    let mut written = fast::State::reset();
    let mut unjudged = fast::State::reset();
    let ports = [0x00FE, 0x00FF, 0xBF3B, 0xFF3B, 0x01FF, 0x243B];
    for _ in 0..60_000 {
        let value = match random.below(3) {
            0 => random.byte(),
            1 => random.below(4) as u8,
            _ => random.pick(&[1, 3, 7, 15, 31, 63, 127, 255]),
        };
        let (reply, after) = if random.chance(4) {
            let port = random.pick(&ports);
            let (reply, after) = model::write_port(&state, port, value);
            assert_eq!(fast::write_port(&mut written, port, value), reply);
            let form = fast::write_port_lawful;
            assert_eq!(form(&mut unjudged, port, value), reply);
            (reply, after)
        } else {
            let any = random.byte();
            let number = random.pick(&[0x40, 0x41, 0x43, 0x44, 0x44, 0x1A, any]);
            let (reply, after) = model::write_register(&state, number, value);
            assert_eq!(fast::write_register(&mut written, number, value), reply);
            let form = fast::write_register_lawful;
            assert_eq!(form(&mut unjudged, number, value), reply);
            (reply, after)
        };
        assert_eq!(written, quick(&after), "{reply}");
        assert_eq!(unjudged, written, "{reply}");
        assert!(fast::lawful(&unjudged));
        state = after;
    }
}

/// Every write of a register to a state, by one form and by the model.
fn write_each(state: &model::State, write: fn(&mut fast::State, u8, u8) -> u8) {
    for number in 0..=255 {
        for value in 0..=255 {
            let (reply, after) = model::write_register(state, number, value);
            let mut written = quick(state);
            assert_eq!(write(&mut written, number, value), reply);
            if reply == 0 || value == 255 {
                assert_eq!(written, quick(&after));
            }
        }
    }
}

#[test]
fn each_register_and_value_from_many_states() {
    let mut random = Random::new(13);
    for round in 0..6 {
        let mut state = lawful_state(&mut random);
        if round == 5 {
            spoil(&mut random, &mut state);
        }
        state.held = round % 2 == 0;
        state.half = if state.held { random.byte() } else { 0 };
        write_each(&state, fast::write_register);
        if model::lawful(&state) {
            write_each(&state, fast::write_register_lawful);
        }
    }
}

/// What the benchmark takes them for: the other forms leave the judging out.
#[test]
fn only_one_form_of_a_write_judges() {
    let mut random = Random::new(17);
    for _ in 0..1_000 {
        let mut state = lawful_state(&mut random);
        spoil(&mut random, &mut state);
        let spoilt = quick(&state);
        let mut state = spoilt.clone();
        assert_eq!(fast::write_register(&mut state, 0x14, 1), 4);
        assert_eq!(fast::write_port(&mut state, 0x00FF, 1), 4);
        assert_eq!(state, spoilt);
        assert_eq!(fast::write_register_lawful(&mut state, 0x14, 1), 0);
        assert_eq!(fast::write_port_lawful(&mut state, 0x00FF, 1), 0);
    }
}

#[test]
fn records_written() {
    let mut random = Random::new(14);
    for _ in 0..1_000 {
        let mut state = lawful_state(&mut random);
        if random.chance(4) {
            spoil(&mut random, &mut state);
        }
        let length = random.pick(&[2_152, 2_152, 2_152, 2_150, 2_151, 2_153, 0]);
        let mut expected = vec![0xAA; length];
        let mut written = expected.clone();
        let reply = model::write_record(&state, &mut expected);
        assert_eq!(fast::write_record(&quick(&state), &mut written), reply);
        assert_eq!(written, expected);
    }
}

fn record_of(state: &model::State) -> Vec<u8> {
    let mut record = vec![0; fast::RECORD_LENGTH];
    assert_eq!(model::write_record(state, &mut record), 0);
    record
}

/// The old record of a state, which has no place for $26 and $27.
fn old_record_of(state: &model::State) -> Vec<u8> {
    let mut one_scroll = state.clone();
    (one_scroll.ula_x, one_scroll.ula_y) = (state.lores_x, state.lores_y);
    let mut old = vec![0; fast::OLD_RECORD_LENGTH];
    assert_eq!(model::move_back(&record_of(&one_scroll), &mut old), (0, 0));
    old
}

/// Both read the same, and the reply; a record that is only judged, too.
fn read_alike(bytes: &[u8]) -> u8 {
    let (reply, place, state) = model::read_record(bytes);
    assert_eq!(fast::read_record(bytes), (reply, place, quick(&state)));
    assert_eq!(fast::check_record(bytes), (reply, place));
    reply
}

#[test]
fn records_read() {
    let mut random = Random::new(15);
    let mut seen = [[0; 19]; 2];
    for round in 0..6_000 {
        let old = round % 2;
        let mut bytes = [record_of, old_record_of][old](&lawful_state(&mut random));
        if round % 3 != 0 {
            for _ in 0..1 + random.below(3) {
                // Mostly among the first bytes, which have the most bounds.
                let bound = random.pick(&[42, 2_150]);
                bytes[random.below(bound) as usize] = random.byte();
            }
        }
        if random.chance(10) {
            bytes.resize(random.pick(&[0, 1, 2, 2_149, 2_150, 2_151, 2_152]), 0);
        }
        seen[old][usize::from(read_alike(&bytes))] += 1;
    }
    for seen in seen {
        assert!(seen[0] > 500 && seen[16] > 100 && seen[17] > 30 && seen[18] > 500);
    }
}

/// One byte of a record at a time: every place has the same bound in both, with
/// a half held and without.
#[test]
fn each_place_of_a_record() {
    let mut random = Random::new(16);
    for held in [true, false] {
        let mut state = lawful_state(&mut random);
        state.held = held;
        state.half = if held { random.byte() } else { 0 };
        for mut bytes in [record_of(&state), old_record_of(&state)] {
            for place in 0..bytes.len() {
                let own = bytes[place];
                for byte in [0, 1, 2, 4, 8, 16, 64, 128, 192, 255] {
                    bytes[place] = byte;
                    read_alike(&bytes);
                }
                bytes[place] = own;
            }
        }
    }
}
