//! Screen files: section 14.

mod common;

use common::{counting, old_record_of, record_of};
use model::scr::{form_of_file, form_of_state, lent_read_scr, lent_write_scr, Form};
use model::{lawful, read_record, read_scr, write_scr, State};
use std::path::Path;

/// The six lengths of the page on ULAplus, with the form and whether it ends
/// with colours.
const LENGTHS: [(usize, Form, bool); 6] = [
    (6_912, Form::Zero, false),
    (6_976, Form::Zero, true),
    (12_288, Form::Two, false),
    (12_352, Form::Two, true),
    (12_289, Form::Six, false),
    (12_353, Form::Six, true),
];

/// Bytes that tell their place, 1 to 251.
fn told(length: usize) -> Vec<u8> {
    (0..length).map(|place| (place % 251 + 1) as u8).collect()
}

/// A file of one of the six lengths; its port byte is $26 where it has one.
fn file(length: usize) -> Vec<u8> {
    let mut file = told(length);
    if length == 12_289 || length == 12_353 {
        file[12_288] = 0x26;
    }
    file
}

/// A bank of a byte that [`told`] never gives.
fn blank() -> Vec<u8> {
    vec![0xFF; 16_384]
}

/// A state in which all that reading touches is set the other way, and a half is
/// held.
fn busy() -> State {
    let mut state = counting();
    state.layers = 0xFF;
    state.palette_control = 0xF3;
    state.peripheral = 0xFB;
    state.timex = 0xA5;
    state.plus_on = true;
    state.plus = [0x77; 64];
    state.held = true;
    state.half = 0x9C;
    state.select = 0x45;
    state.frame = 31;
    state.border = 5;
    assert!(lawful(&state));
    state
}

/// What reading a file makes of [`busy`]: every other field is the same.
fn busy_after(timex: u8, colours: Option<&[u8]>) -> State {
    let mut state = busy();
    state.layers = 0x7F;
    state.palette_control = 0xF2;
    state.peripheral = 0xFF;
    state.timex = timex;
    state.plus_on = colours.is_some();
    if let Some(colours) = colours {
        state.plus.copy_from_slice(colours);
    }
    state
}

/// Rule 14.5: the bank after a file of a form is read into [`blank`].
fn bank_after(form: Form, file: &[u8]) -> Vec<u8> {
    let mut bank = blank();
    if form == Form::Zero {
        bank[..6_912].copy_from_slice(&file[..6_912]);
    } else {
        bank[..6_144].copy_from_slice(&file[..6_144]);
        bank[8_192..14_336].copy_from_slice(&file[6_144..12_288]);
    }
    bank
}

/// Rules 14.1, 14.3 and 14.5 to 14.8.
#[test]
fn reading_the_six_lengths() {
    for (length, form, coloured) in LENGTHS {
        let file = file(length);
        let mut bank = blank();
        let (reply, after, colours) = read_scr(&busy(), &mut bank, &file);
        assert_eq!(reply, 0, "{length}");
        assert_eq!(form_of_file(&file), Some((form, coloured)));
        let expected = if coloured { &file[length - 64..] } else { &[] };
        assert_eq!(colours, expected);
        let timex = match form {
            Form::Zero => 0,
            Form::Two => 2,
            Form::Six => 0x26,
        };
        assert!(after == busy_after(timex, coloured.then_some(expected)));
        assert!(bank == bank_after(form, &file), "{length}");
        assert_eq!(form_of_state(&after), Some(form));
        assert!(lawful(&after));
    }
}

/// Rule 14.4: the colours are the file's own bytes.
#[test]
fn colours_are_lent_back() {
    for (length, _, coloured) in LENGTHS {
        let file = file(length);
        let (_, _, colours) = read_scr(&busy(), &mut blank(), &file);
        if coloured {
            assert!(std::ptr::eq(colours, &file[length - 64..]));
        } else {
            assert!(colours.is_empty());
        }
    }
}

/// Rule 14.7: without colours ULAplus goes off and its registers stay.
#[test]
fn registers_stay_without_colours() {
    for plus_on in [false, true] {
        let mut state = busy();
        state.plus_on = plus_on;
        let (_, after, _) = read_scr(&state, &mut blank(), &file(12_288));
        assert!(!after.plus_on && after.plus == [0x77; 64]);
        let coloured = file(12_352);
        let (_, after, colours) = read_scr(&state, &mut blank(), &coloured);
        assert!(after.plus_on && after.plus == colours);
    }
}

/// Rule 9.14: every other length is refused, and leaves bank and state.
#[test]
fn other_lengths() {
    let bytes = vec![6; 40_000];
    let mut bank = blank();
    let state = busy();
    for length in (0..12_500).chain([13_824, 16_384, 24_576, 24_642, 40_000]) {
        if LENGTHS.iter().any(|(right, _, _)| *right == length) {
            continue;
        }
        let file = &bytes[..length];
        assert_eq!(form_of_file(file), None, "{length}");
        let (reply, after, colours) = read_scr(&state, &mut bank, file);
        assert_eq!((reply, colours.len()), (14, 0), "{length}");
        assert!(after == state);
    }
    assert!(bank == blank());
}

/// Rule 14.3: of all port bytes those of mode 6 are taken, whole.
#[test]
fn port_bytes_of_files() {
    for length in [12_289, 12_353] {
        let mut file = file(length);
        let mut taken = 0;
        for port in 0..=255 {
            file[12_288] = port;
            let mut bank = blank();
            let (reply, after, colours) = read_scr(&busy(), &mut bank, &file);
            if port & 7 == 6 {
                assert_eq!((reply, after.timex), (0, port));
                taken += 1;
            } else {
                assert_eq!((reply, colours.len()), (14, 0), "{port}");
                assert!(after == busy() && bank == blank());
            }
        }
        assert_eq!(taken, 32);
    }
}

/// Only a file of mode 6 has a port byte: in the other forms the byte at that
/// place is a colour or none.
#[test]
fn port_place_of_other_forms() {
    for value in 0..=255 {
        let mut file = file(12_352);
        file[12_288] = value;
        let (reply, after, colours) = read_scr(&busy(), &mut blank(), &file);
        assert_eq!((reply, after.timex, colours[0]), (0, 2, value));
    }
}

/// Rule 10.10: 2, 4, 14.
#[test]
fn refusals_of_reading() {
    let good = file(6_912);
    let odd = told(6_913);
    let mut unlawful = busy();
    unlawful.border = 8;
    for length in [0, 1, 6_912, 16_383, 16_385, 32_768] {
        let mut bank = vec![0xFF; length];
        for (state, file) in [(&busy(), &good), (&busy(), &odd), (&unlawful, &odd)] {
            let (reply, after, colours) = read_scr(state, &mut bank, file);
            assert_eq!((reply, colours.len()), (2, 0));
            assert!(after == *state);
        }
        assert!(bank.iter().all(|&byte| byte == 0xFF));
    }
    let mut bank = blank();
    for file in [&good, &odd] {
        let (reply, after, colours) = read_scr(&unlawful, &mut bank, file);
        assert_eq!((reply, colours.len()), (4, 0));
        assert!(after == unlawful && bank == blank());
    }
    assert_eq!(read_scr(&busy(), &mut bank, &odd).0, 14);
}

/// Reading once more changes nothing more.
#[test]
fn reading_twice() {
    for (length, _, _) in LENGTHS {
        let file = file(length);
        let mut bank = blank();
        let (_, once, _) = read_scr(&busy(), &mut bank, &file);
        let kept = bank.clone();
        let (reply, twice, _) = read_scr(&once, &mut bank, &file);
        assert_eq!(reply, 0);
        assert!(once == twice && bank == kept);
    }
}

/// A state in the mode of a form, with the colours on or off.
fn in_form(form: Form, plus_on: bool) -> State {
    let mut state = counting();
    state.peripheral = 4;
    state.timex = match form {
        Form::Zero => 0xF8,
        Form::Two => 0xC2,
        Form::Six => 0xEE,
    };
    state.plus_on = plus_on;
    for (number, register) in state.plus.iter_mut().enumerate() {
        *register = 190 + number as u8;
    }
    state
}

/// Rules 14.1 and 14.9: each form, and what is past it stays.
#[test]
fn writing_the_six_lengths() {
    let bank = told(16_384);
    for (length, form, plus_on) in LENGTHS {
        let state = in_form(form, plus_on);
        let mut target = vec![0xFF; 12_353];
        assert_eq!(write_scr(&state, &bank, &mut target), (0, length));
        let mut expected = if form == Form::Zero {
            bank[..0x1B00].to_vec()
        } else {
            [&bank[..0x1800], &bank[0x2000..0x3800]].concat()
        };
        if form == Form::Six {
            expected.push(0xEE);
        }
        if plus_on {
            expected.extend(state.plus);
        }
        assert_eq!(expected.len(), length);
        expected.resize(12_353, 0xFF);
        assert!(target == expected, "{length}");
    }
}

/// Rules 14.2 and 14.9: the mode alone says whether there is a form.
#[test]
fn modes_with_a_form() {
    let bank = told(16_384);
    for timex in 0..=255 {
        for (peripheral, layers) in [(4, 0), (0xFF, 0x7F), (0xFB, 0), (4, 0x80), (0, 0x80)] {
            let mut state = busy();
            (state.timex, state.peripheral, state.layers) = (timex, peripheral, layers);
            let mode = if peripheral & 4 == 0 { 0 } else { timex & 7 };
            let length = match mode {
                _ if layers & 0x80 != 0 => 0,
                0 => 6_976,
                2 => 12_352,
                6 => 12_353,
                _ => 0,
            };
            let reply = if length == 0 { 14 } else { 0 };
            let mut target = vec![0xFF; 12_353];
            let answer = write_scr(&state, &bank, &mut target);
            assert_eq!(answer, (reply, length), "{timex} {peripheral} {layers}");
            assert!(target[length..].iter().all(|&byte| byte == 0xFF));
            if mode == 6 && reply == 0 {
                assert_eq!(target[12_288], timex);
            }
        }
    }
}

/// Rule 14.9: ULANext, a ULA that is off, clips and offsets do not matter, nor
/// does what a drawing refuses by 7 or 8.
#[test]
fn what_writing_goes_by() {
    let bank = told(16_384);
    let mut plain = vec![0; 12_353];
    let mut other = plain.clone();
    for (length, form, plus_on) in LENGTHS {
        let mut state = in_form(form, plus_on);
        assert_eq!(write_scr(&state, &bank, &mut plain), (0, length));
        state.palette_control = 0x03;
        state.ula_control = 0x80;
        (state.ula_x, state.ula_y) = (77, 100);
        (state.lores_x, state.lores_y) = (78, 101);
        state.ula_clip = [9, 8, 7, 6];
        state.tile_control = 0x80;
        state.tile_x_high = 3;
        state.frame = 16;
        assert_eq!(write_scr(&state, &bank, &mut other), (0, length));
        assert!(plain == other);
    }
}

/// Rule 10.11: 2, 3, 4, 14.
#[test]
fn refusals_of_writing() {
    let bank = told(16_384);
    let no_form = busy();
    let good = in_form(Form::Six, true);
    let mut unlawful = busy();
    unlawful.palettes[3][255] = 512;
    for state in [&good, &no_form, &unlawful] {
        for length in [0, 6_912, 12_352, 12_353, 12_354] {
            let mut target = vec![0xFF; length];
            for bank in [&bank[..0], &bank[..16_383], &[0; 16_385][..]] {
                assert_eq!(write_scr(state, bank, &mut target), (2, 0));
            }
            let reply = match length {
                12_353 if std::ptr::eq(state, &unlawful) => 4,
                12_353 if std::ptr::eq(state, &no_form) => 14,
                12_353 => continue,
                _ => 3,
            };
            assert_eq!(write_scr(state, &bank, &mut target), (reply, 0));
            assert!(target.iter().all(|&byte| byte == 0xFF));
        }
    }
}

/// Rule 14.10: what is written reads back, into another state and bank.
#[test]
fn written_reads_back() {
    let bank = told(16_384);
    for (length, form, plus_on) in LENGTHS {
        let state = in_form(form, plus_on);
        let mut target = vec![0; 12_353];
        assert_eq!(write_scr(&state, &bank, &mut target), (0, length));
        let mut read = blank();
        let (reply, after, _) = read_scr(&busy(), &mut read, &target[..length]);
        assert_eq!(reply, 0);
        let named = form.addresses();
        for address in 0..16_384 {
            let expected = if named.contains(&address) {
                bank[address]
            } else {
                0xFF
            };
            assert_eq!(read[address], expected, "{address}");
        }
        let timex = match form {
            Form::Zero => 0,
            Form::Two => 2,
            Form::Six => state.timex,
        };
        let colours = plus_on.then_some(&state.plus[..]);
        assert!(after == busy_after(timex, colours));
    }
}

/// Rule 14.11: what is read writes back.
#[test]
fn read_writes_back() {
    for (length, _, _) in LENGTHS {
        let file = file(length);
        let mut bank = blank();
        let (_, after, _) = read_scr(&busy(), &mut bank, &file);
        let mut target = vec![0; 12_353];
        assert_eq!(write_scr(&after, &bank, &mut target), (0, length));
        assert!(target[..length] == file);
    }
}

/// The parts of a file, one after the other, and no address twice.
#[test]
fn the_addresses() {
    for (form, length, last) in [
        (Form::Zero, 6_912, 0x1AFF),
        (Form::Two, 12_288, 0x37FF),
        (Form::Six, 12_288, 0x37FF),
    ] {
        let addresses = form.addresses();
        assert_eq!(addresses.len(), length);
        assert!(addresses.windows(2).all(|pair| pair[0] < pair[1]));
        assert_eq!((addresses[0], addresses[length - 1]), (0, last));
    }
    assert_eq!(Form::Two.addresses()[6_143..6_145], [0x17FF, 0x2000]);
}

/// A record lent for the state: 16, 17 and 18 in the place of 4, and the colours'
/// place.
#[test]
fn reading_on_a_record() {
    for (length, form, coloured) in LENGTHS {
        let file = file(length);
        let (mut record, mut bank) = (record_of(&busy()), blank());
        let place = if coloured { length as u32 - 64 } else { 0 };
        assert_eq!(
            lent_read_scr(&mut record, &mut bank, &file),
            (0, place),
            "{length}"
        );
        let (_, expected, _) = read_scr(&busy(), &mut blank(), &file);
        assert_eq!(read_record(&record), (0, 0, expected));
        assert!(bank == bank_after(form, &file));
    }
    let mut unlawful = record_of(&busy());
    unlawful[35] = 8;
    for (given, length, file_length, reply) in [
        (&record_of(&busy()), 16_384, 6_911, 14),
        (&record_of(&busy()), 16_383, 6_911, 2),
        (&unlawful, 16_384, 6_911, 18),
        (&unlawful, 16_384, 6_912, 18),
        (&unlawful, 16_385, 6_911, 2),
        (&vec![], 16_384, 6_912, 16),
        (&vec![], 16_383, 6_912, 2),
        // 7.10: an old record cannot be changed.
        (&old_record_of(&busy()), 16_384, 6_911, 17),
        (&old_record_of(&busy()), 16_384, 6_912, 17),
        (&old_record_of(&busy()), 16_383, 6_912, 2),
    ] {
        let (mut kept, mut bank) = (given.clone(), vec![0xFF; length]);
        let answer = lent_read_scr(&mut kept, &mut bank, &told(file_length));
        assert_eq!(answer, (reply, 0));
        assert!(kept == *given && bank.iter().all(|&byte| byte == 0xFF));
    }
}

/// The same for writing.
#[test]
fn writing_on_a_record() {
    let bank = told(16_384);
    for (length, form, plus_on) in LENGTHS {
        let state = in_form(form, plus_on);
        let mut target = vec![0; 12_353];
        let mut expected = target.clone();
        write_scr(&state, &bank, &mut expected);
        // 7.10: of either version.
        for given in [record_of(&state), old_record_of(&state)] {
            target.fill(0);
            let answer = lent_write_scr(&given, &bank, &mut target);
            assert_eq!(answer, (0, length as u32));
            assert!(target == expected);
        }
    }
    let mut unlawful = record_of(&busy());
    unlawful[35] = 8;
    let mut misnamed = unlawful.clone();
    misnamed[2] = 1;
    for (given, bank, length, reply) in [
        (&unlawful, &bank[1..], 5, 2),
        (&unlawful, &bank, 5, 3),
        (&unlawful, &bank, 12_353, 18),
        (&vec![], &bank, 5, 3),
        (&vec![], &bank, 12_353, 16),
        (&misnamed, &bank, 5, 3),
        (&misnamed, &bank, 12_353, 17),
        (&record_of(&busy()), &bank, 12_353, 14),
    ] {
        let mut target = vec![0xFF; length];
        let answer = lent_write_scr(given, bank, &mut target);
        assert_eq!(answer, (reply, 0));
        assert!(target.iter().all(|&byte| byte == 0xFF));
    }
}

/// A screen file that another program made.
fn outside(name: &str) -> Vec<u8> {
    let data = Path::new(env!("CARGO_MANIFEST_DIR")).join("../../../crates/sample_screens/data");
    let path = data.join(name);
    std::fs::read(&path).unwrap_or_else(|fault| panic!("{path:?}: {fault}"))
}

/// Each is read, writes back, and draws its 256 lines; the two of mode 0 differ
/// in their colours alone, and the port byte of the last is $26.
#[test]
fn outside_files() {
    for (name, form, coloured, timex) in [
        ("struct0.6912.scr", Form::Zero, false, 0),
        ("struct0p.6976.scr", Form::Zero, true, 0),
        ("struct2.12288.scr", Form::Two, false, 2),
        ("struct6_4.12289.scr", Form::Six, false, 0x26),
    ] {
        let file = outside(name);
        assert_eq!(form_of_file(&file), Some((form, coloured)), "{name}");
        let mut bank = blank();
        let (reply, after, _) = read_scr(&busy(), &mut bank, &file);
        assert_eq!((reply, after.timex), (0, timex), "{name}");
        let mut target = vec![0; 12_353];
        assert_eq!(write_scr(&after, &bank, &mut target), (0, file.len()));
        assert!(target[..file.len()] == file);
        for line in 0..256 {
            common::dots(line, &bank, &bank, &after);
        }
    }
    let (plain, coloured) = (outside("struct0.6912.scr"), outside("struct0p.6976.scr"));
    assert!(plain == coloured[..6_912]);
}
