//! The stored record in both versions, and the moves between them.

mod common;

use common::{old_record_of, record_of};
use model::record::writes_back;
use model::{
    move_back, move_up, read_new, read_old, read_record, write_record, State, OLD_RECORD_LENGTH,
    RECORD_LENGTH,
};

/// A lawful state in which nearly every byte of the record differs.
fn full() -> State {
    let mut state = State::reset();
    state.transparent = 101;
    state.layers = 102;
    state.peripheral = 103;
    state.palette_control = 0xF3;
    state.palette_index = 105;
    state.ink_mask = 63;
    state.fallback = 107;
    state.tile_transparent = 8;
    state.ula_control = 0xC1;
    state.tile_control = 0xB0;
    state.tile_attribute = 111;
    state.tile_x_high = 2;
    state.tile_x_low = 113;
    state.tile_y = 114;
    state.map_base = 15;
    state.definition_base = 16;
    (state.lores_x, state.lores_y) = (117, 118);
    (state.ula_x, state.ula_y) = (136, 137);
    state.ula_clip = [119, 120, 121, 122];
    state.tile_clip = [123, 124, 125, 126];
    state.ula_turn = 3;
    state.tile_turn = 2;
    state.held = true;
    state.half = 130;
    state.border = 6;
    state.timex = 132;
    state.select = 127;
    state.plus_on = true;
    state.frame = 135;
    for (register, byte) in state.plus.iter_mut().enumerate() {
        *byte = 140 + register as u8;
    }
    for (place, colour) in state.palettes.iter_mut().flatten().enumerate() {
        *colour = (place * 7 % 512) as u16;
    }
    state
}

/// The same state with one scroll: $26 is $32 and $27 is $33.
fn one_scroll() -> State {
    let mut state = full();
    (state.ula_x, state.ula_y) = (117, 118);
    state
}

/// The bytes of [`full`] by hand: a start, and after $33 what the version has
/// there.
fn laid_out(start: [u8; 3], scroll: &[u8]) -> Vec<u8> {
    let mut bytes = start.to_vec();
    bytes.extend([101, 102, 103, 0xF3, 105, 63, 107, 8, 0xC1]);
    bytes.extend([0xB0, 111, 2, 113, 114, 15, 16, 117, 118]);
    bytes.extend(scroll);
    bytes.extend([119, 120, 121, 122, 123, 124, 125, 126]);
    bytes.extend([3, 2, 1, 130, 6, 132, 127, 1, 135]);
    bytes.extend(140..204);
    for place in 0..1_024 {
        let colour = place * 7 % 512;
        bytes.extend([(colour / 256) as u8, (colour % 256) as u8]);
    }
    bytes
}

/// Version 2 of [`full`].
fn new_bytes() -> Vec<u8> {
    laid_out([8, 102, 2], &[136, 137])
}

/// Version 1 of [`one_scroll`], which [`moved_bytes`] is version 2 of.
fn old_bytes() -> Vec<u8> {
    laid_out([8, 100, 1], &[])
}

fn moved_bytes() -> Vec<u8> {
    laid_out([8, 102, 2], &[117, 118])
}

/// A record with one byte replaced.
fn replaced(mut bytes: Vec<u8>, place: usize, byte: u8) -> Vec<u8> {
    bytes[place] = byte;
    bytes
}

/// A reply and the place that it tells.
type Told = (u8, usize);

const DONE: Told = (0, 0);

type Move = fn(&[u8], &mut [u8]) -> Told;

/// What a move answers and its target afterwards, which held $AA.
fn moved(by: Move, bytes: &[u8], length: usize) -> (Told, Vec<u8>) {
    let mut target = vec![0xAA; length];
    let told = by(bytes, &mut target);
    (told, target)
}

fn up(bytes: &[u8]) -> (Told, Vec<u8>) {
    moved(move_up, bytes, 2_152)
}

fn back(bytes: &[u8]) -> (Told, Vec<u8>) {
    moved(move_back, bytes, 2_150)
}

/// A reading that is done, and its state.
fn read(state: State) -> (u8, usize, State) {
    (0, 0, state)
}

#[test]
fn the_order_of_the_bytes() {
    let bytes = record_of(&full());
    assert_eq!(bytes, new_bytes());
    assert_eq!((bytes.len(), old_bytes().len()), (2_152, 2_150));
    assert_eq!(bytes[19..25], [117, 118, 136, 137, 119, 120]);
    // ULAplus registers 0 and 63.
    assert_eq!((bytes[40], bytes[103]), (140, 203));
    // Colours 0, 1, 2, 73 and the last: 0, 7, 14, 511 and 1,023 × 7 mod 512.
    assert_eq!(bytes[104..110], [0, 0, 0, 7, 0, 14]);
    assert_eq!(bytes[104 + 146..104 + 148], [1, 255]);
    assert_eq!(bytes[2150..], [1, 249]);
}

#[test]
fn the_reset_record() {
    let mut expected = vec![0; 2_152];
    expected[..3].copy_from_slice(&[8, 102, 2]);
    expected[3] = 0xE3;
    expected[8] = 15;
    expected[10] = 15;
    expected[23..31].copy_from_slice(&[0, 255, 0, 191, 0, 159, 0, 255]);
    assert_eq!(record_of(&State::reset()), expected);
}

#[test]
fn reading_gives_back_what_was_written() {
    for state in [State::reset(), full(), one_scroll()] {
        let bytes = record_of(&state);
        assert!(writes_back(&bytes));
        assert_eq!(read_record(&bytes), read(state));
    }
}

/// Rules 7.5, 7.9 and 7.10: which reader takes which version.
#[test]
fn the_three_readers() {
    let other_version = (17, 2, State::reset());
    let old = old_bytes();
    assert_eq!(read_record(&old), read(one_scroll()));
    assert_eq!(read_old(&old), read(one_scroll()));
    assert_eq!(read_new(&old), other_version);
    let new = new_bytes();
    assert_eq!(read_record(&new), read(full()));
    assert_eq!(read_old(&new), other_version);
    assert_eq!(read_new(&new), read(full()));
    // Of version 2 also where its pairs agree.
    assert_eq!(read_old(&moved_bytes()), other_version);
    assert_eq!(read_new(&moved_bytes()), read(one_scroll()));
}

/// Rules 7.7, 7.8 and 7.11.
#[test]
fn moves() {
    assert_eq!(up(&old_bytes()), (DONE, moved_bytes()));
    assert_eq!(back(&moved_bytes()), (DONE, old_bytes()));
    // An old record that is read, written and moved back gives its bytes.
    assert_eq!(back(&record_of(&one_scroll())), (DONE, old_bytes()));
    assert!(writes_back(&old_bytes()));
}

#[test]
fn the_reset_record_moves() {
    let (old, new) = (old_record_of(&State::reset()), record_of(&State::reset()));
    assert_eq!(up(&old), (DONE, new.clone()));
    assert_eq!(back(&new), (DONE, old));
}

/// Each offset that an old record can have goes up and comes back.
#[test]
fn every_offset_moves() {
    for offset in 0..=255 {
        let y = offset % 192;
        let mut old = old_bytes();
        (old[19], old[20]) = (offset, y);
        let (told, new) = up(&old);
        assert_eq!((told, &new[19..23]), (DONE, &[offset, y, offset, y][..]));
        assert_eq!(back(&new), (DONE, old));
    }
}

/// Rule 9.15: either pair that differs is enough, by 1 or by any number. No place
/// is told.
#[test]
fn pairs_that_differ() {
    for (x, y) in [
        (116, 118),
        (118, 118),
        (117, 117),
        (117, 119),
        (0, 0),
        (118, 117),
        (117, 191),
        (245, 118),
    ] {
        let new = laid_out([8, 102, 2], &[x, y]);
        assert_eq!(back(&new), ((15, 0), vec![0xAA; 2_150]), "{x} {y}");
    }
}

/// Rule 10.12: 3, then 16, 17, 18 and, in moving back, 15; a refused move leaves
/// its target.
#[test]
fn the_order_of_a_moves_refusals() {
    let bad_old = replaced(old_bytes(), 33, 8);
    let bad_new = replaced(new_bytes(), 35, 8);
    for length in [0, 1, 2_149, 2_150, 2_151, 2_152, 2_153] {
        for bytes in [old_bytes(), new_bytes(), moved_bytes(), bad_old.clone()] {
            let left = vec![0xAA; length];
            if length != RECORD_LENGTH {
                assert_eq!(moved(move_up, &bytes, length), ((3, 0), left.clone()));
            }
            if length != OLD_RECORD_LENGTH {
                assert_eq!(moved(move_back, &bytes, length), ((3, 0), left));
            }
        }
    }
    // A record already of the other version is 17, whatever its fields hold.
    for (bytes, told) in [
        (vec![], (16, 0)),
        (new_bytes(), (17, 2)),
        (moved_bytes(), (17, 2)),
        (bad_new.clone(), (17, 2)),
        (bad_old.clone(), (18, 33)),
    ] {
        assert_eq!(up(&bytes), (told, vec![0xAA; 2_152]));
    }
    // The pairs of the last one differ, and 18 comes first.
    for (bytes, told) in [
        (vec![], (16, 0)),
        (old_bytes(), (17, 2)),
        (bad_old, (17, 2)),
        (bad_new, (18, 35)),
    ] {
        assert_eq!(back(&bytes), (told, vec![0xAA; 2_150]));
    }
}

/// Bytes that the reader of both versions takes.
fn taken(bytes: &[u8], what: &str) {
    let (reply, place, _) = read_record(bytes);
    assert_eq!((reply, place), DONE, "{what}");
}

/// What the reader of both versions, that of version 1 and that of version 2
/// tell of bytes that none takes; moving up goes by the second, moving back by
/// the third.
fn refused(bytes: &[u8], told: [Told; 3], what: &str) {
    let [both, old, new] = told.map(|(reply, place)| (reply, place, State::reset()));
    assert_eq!(read_record(bytes), both, "{what}");
    assert_eq!(read_old(bytes), old, "{what}");
    assert_eq!(read_new(bytes), new, "{what}");
    assert_eq!([up(bytes).0, back(bytes).0], told[1..], "{what}");
    assert!(!writes_back(bytes), "{what}");
}

/// The same where all tell alike.
fn refused_everywhere(bytes: &[u8], told: Told, what: &str) {
    refused(bytes, [told; 3], what);
}

#[test]
fn wrong_lengths() {
    for length in [0, 1, 2, 2_149, 2_150, 2_151, 2_152, 2_153] {
        if length != RECORD_LENGTH {
            let mut target = vec![0xAA; length];
            assert_eq!(write_record(&full(), &mut target), 3);
            assert!(target.iter().all(|&byte| byte == 0xAA));
        }
        for (mut bytes, right) in [(old_bytes(), 2_150), (new_bytes(), 2_152)] {
            bytes.resize(length, 0);
            if length != right {
                refused_everywhere(&bytes, (16, 0), &format!("{length}"));
            }
        }
    }
}

/// Rule 9.16: the number is missing, or is not that of the bytes following.
#[test]
fn numbers_that_do_not_count() {
    for bytes in [
        &[][..],
        &[0],
        &[8],
        &[0, 0, 0],
        &[8, 100],
        &[8, 100, 1],
        &[8, 102, 2],
    ] {
        refused_everywhere(bytes, (16, 0), &format!("{bytes:?}"));
    }
    for start in [[8, 99, 1], [8, 101, 1], [8, 102, 1], [9, 100, 1], [0, 0, 1]] {
        refused_everywhere(&laid_out(start, &[]), (16, 0), &format!("{start:?}"));
    }
    // The last has its two bytes the wrong way about.
    for start in [[8, 100, 2], [8, 101, 2], [8, 103, 2], [102, 8, 2]] {
        let bytes = laid_out(start, &[136, 137]);
        refused_everywhere(&bytes, (16, 0), &format!("{start:?}"));
    }
    // A number of two bytes counts 65,536 bytes more as none.
    for (mut bytes, length) in [(old_bytes(), 67_686), (new_bytes(), 67_688)] {
        bytes.resize(length, 0);
        refused_everywhere(&bytes, (16, 0), &format!("{length}"));
    }
}

/// Rule 9.16: a number that counts the bytes following is 2,148 or 2,150.
#[test]
fn other_numbers_that_count() {
    for following in [0, 1, 2, 2_147, 2_149, 2_151, 2_152, 65_535] {
        for version in [1, 2] {
            let mut bytes = vec![version; following + 2];
            bytes[0] = (following / 256) as u8;
            bytes[1] = (following % 256) as u8;
            refused_everywhere(&bytes, (16, 0), &format!("{following}"));
        }
    }
}

/// Rule 9.17: a version stands with its own number of bytes only.
#[test]
fn versions_of_another_length() {
    for version in 0..=255 {
        let what = format!("{version}");
        if version != 1 {
            let bytes = laid_out([8, 100, version], &[]);
            refused_everywhere(&bytes, (17, 2), &what);
        }
        if version != 2 {
            let bytes = laid_out([8, 102, version], &[136, 137]);
            refused_everywhere(&bytes, (17, 2), &what);
        }
    }
}

/// A field of one byte with a bound: its place in version 1, that in version 2,
/// bytes at the edge that it can have, and bytes past it.
type Bounded = (usize, usize, &'static [u8], &'static [u8]);

const BOUNDED: [Bounded; 14] = [
    // $43: bits 6 to 4 are 000, 011, 100 or 111.
    (6, 6, &[0x0F, 0x30, 0x4F, 0xF0], &[0x10, 0x2F, 0x50, 0xEF]),
    // $42.
    (8, 8, &[1, 127, 255], &[0, 2, 126, 128, 254]),
    // $4C, $68, $6B, $2F.
    (10, 10, &[15], &[16, 255]),
    (11, 11, &[0xC1], &[0xC3, 0x02, 0x20]),
    (12, 12, &[0xF0], &[0xF1, 0x01, 0x08]),
    (14, 14, &[3], &[4, 255]),
    // $6E, $6F, $33.
    (17, 17, &[63], &[64, 255]),
    (18, 18, &[63], &[64, 255]),
    (20, 20, &[191], &[192, 255]),
    // The turns.
    (29, 31, &[3], &[4, 255]),
    (30, 32, &[3], &[4, 255]),
    // The border, port $BF3B and whether ULAplus is on.
    (33, 35, &[7], &[8, 255]),
    (35, 37, &[127], &[128, 255]),
    (36, 38, &[0, 1], &[2, 255]),
];

/// Only the reader of its version judges a record's fields.
fn refused_old(bytes: &[u8], place: usize, what: &str) {
    refused(bytes, [(18, place), (18, place), (17, 2)], what);
}

fn refused_new(bytes: &[u8], place: usize, what: &str) {
    refused(bytes, [(18, place), (17, 2), (18, place)], what);
}

/// Rule 9.18: each field at its edge and past it.
#[test]
fn fields_of_one_byte() {
    for (old, new, good, bad) in BOUNDED {
        for &byte in good {
            let what = format!("{old} {byte}");
            taken(&replaced(old_bytes(), old, byte), &what);
            taken(&replaced(new_bytes(), new, byte), &what);
        }
        for &byte in bad {
            let what = format!("{old} {byte}");
            refused_old(&replaced(old_bytes(), old, byte), old, &what);
            refused_new(&replaced(new_bytes(), new, byte), new, &what);
        }
    }
}

/// Rule 3.32: $26 is any byte, $27 at most 191; $33 keeps its bound beside it.
#[test]
fn the_bounds_of_the_offsets() {
    for byte in 0..=255 {
        let any = replaced(new_bytes(), 21, byte);
        assert_eq!(read_record(&any).2.ula_x, byte);
        for place in [20, 22] {
            let bytes = replaced(new_bytes(), place, byte);
            let what = format!("{place} {byte}");
            match byte {
                0..=191 => taken(&bytes, &what),
                _ => refused_new(&bytes, place, &what),
            }
        }
    }
    // In version 1 the clips stand there.
    for place in [21, 22] {
        taken(&replaced(old_bytes(), place, 192), "a clip");
    }
}

/// A byte without a bound is any byte.
#[test]
fn fields_without_bounds() {
    let registers = [3, 4, 5, 7, 9, 13, 15, 16, 19];
    // The clips, port $FF, the frame and ULAplus; version 2 has $26 before them.
    let old = (21..29).chain([34, 37]).chain(38..102);
    let new = (21..22).chain(23..31).chain([36, 39]).chain(40..104);
    for byte in [0, 1, 2, 127, 128, 192, 255] {
        for place in registers.into_iter().chain(old.clone()) {
            taken(&replaced(old_bytes(), place, byte), &format!("{place}"));
        }
        for place in registers.into_iter().chain(new.clone()) {
            taken(&replaced(new_bytes(), place, byte), &format!("{place}"));
        }
    }
}

/// The flag and the held byte of both versions.
fn held(flag: u8, half: u8) -> [Vec<u8>; 2] {
    let (mut old, mut new) = (old_bytes(), new_bytes());
    (old[31], old[32]) = (flag, half);
    (new[33], new[34]) = (flag, half);
    [old, new]
}

/// Rule 9.18: a held byte that none holds is told at its own place, a flag that
/// is neither 0 nor 1 at the flag's.
#[test]
fn the_held_byte() {
    for (flag, half) in [(0, 0), (1, 0), (1, 1), (1, 255)] {
        for bytes in held(flag, half) {
            let (reply, place, state) = read_record(&bytes);
            assert_eq!((reply, place), DONE);
            assert_eq!((state.held, state.half), (flag == 1, half));
        }
    }
    for half in [1, 130, 255] {
        let [old, new] = held(0, half);
        refused_old(&old, 32, &format!("{half}"));
        refused_new(&new, 34, &format!("{half}"));
    }
    for (flag, half) in [(2, 0), (2, 130), (255, 0), (255, 255)] {
        let [old, new] = held(flag, half);
        refused_old(&old, 31, &format!("{flag} {half}"));
        refused_new(&new, 33, &format!("{flag} {half}"));
    }
}

/// The high bytes of colours 0, 128 and 255 of each palette in version 1; in
/// version 2 they are two on.
const COLOURS: [usize; 12] = [
    102, 358, 612, // ULA, first
    614, 870, 1_124, // ULA, second
    1_126, 1_382, 1_636, // tilemap, first
    1_638, 1_894, 2_148, // tilemap, second
];

/// Both versions with a colour whose high byte is at a place of version 1.
fn coloured(place: usize, high: u8, low: u8) -> [Vec<u8>; 2] {
    let old = replaced(replaced(old_bytes(), place, high), place + 1, low);
    let new = replaced(replaced(new_bytes(), place + 2, high), place + 3, low);
    [old, new]
}

/// Rule 9.18: a colour is told at its high byte. 511 is 1 and 255.
#[test]
fn colours() {
    for place in COLOURS {
        for (high, low) in [(1, 255), (0, 255), (1, 0)] {
            for bytes in coloured(place, high, low) {
                taken(&bytes, &format!("{place}"));
            }
        }
        for (high, low) in [(2, 0), (2, 255), (3, 1), (128, 0), (255, 255)] {
            let [old, new] = coloured(place, high, low);
            refused_old(&old, place, &format!("{high} {low}"));
            refused_new(&new, place + 2, &format!("{high} {low}"));
        }
    }
    // And each of the 1,024.
    for place in (102..2_150).step_by(2) {
        let read = coloured(place, 2, 0).map(|bytes| read_record(&bytes));
        let told = read.map(|(reply, place, _)| (reply, place));
        assert_eq!(told, [(18, place), (18, place + 2)]);
    }
}

/// A place of version 2 and a byte that is bad there, from the front on.
const FAULTS: [(usize, u8); 19] = [
    (6, 0x10),
    (8, 5),
    (10, 16),
    (11, 0x02),
    (12, 0x81),
    (14, 4),
    (17, 64),
    (18, 64),
    (20, 192),
    (22, 192),
    (31, 4),
    (32, 4),
    (33, 2),
    (35, 8),
    (37, 128),
    (38, 2),
    (104, 2),
    (616, 255),
    (2_150, 2),
];

/// Rule 9.18: of several fields the first is told.
#[test]
fn the_first_of_several() {
    for (first, (place, byte)) in FAULTS.into_iter().enumerate() {
        for &(other, bad) in &FAULTS[first + 1..] {
            let bytes = replaced(replaced(new_bytes(), other, bad), place, byte);
            refused_new(&bytes, place, &format!("{place} {other}"));
        }
        let mut all = new_bytes();
        for &(other, bad) in &FAULTS[first..] {
            all[other] = bad;
        }
        refused_new(&all, place, &format!("{place} and all behind it"));
    }
    // The last colour of a palette and the first of the next.
    let mut bytes = old_bytes();
    bytes[612..616].copy_from_slice(&[2, 255, 2, 0]);
    refused_old(&bytes, 612, "two colours");
    // A held byte that none holds, and the border.
    let [old, _] = held(0, 1);
    refused_old(&replaced(old, 33, 8), 32, "half and border");
}

/// Rule 10.7: 16, 17, 18. Every byte behind the start is wrong, or all are.
#[test]
fn the_order_of_a_readings_refusals() {
    for (length, number, own) in [(2_150, 100, 1), (2_152, 102, 2)] {
        let mut bytes = vec![0xEE; length];
        refused_everywhere(&bytes, (16, 0), "number, version and fields");
        bytes[2] = own;
        refused_everywhere(&bytes, (16, 0), "number and fields");
        bytes[..2].copy_from_slice(&[8, number]);
        match own {
            1 => refused_old(&bytes, 6, "fields"),
            _ => refused_new(&bytes, 6, "fields"),
        }
        for version in [0, 3 - own, 3, 255] {
            bytes[2] = version;
            refused_everywhere(&bytes, (17, 2), "version and fields");
        }
    }
    for (bytes, own) in [(old_bytes(), 100), (new_bytes(), 102)] {
        let bytes = replaced(replaced(bytes, 1, own - 1), 2, 0);
        refused_everywhere(&bytes, (16, 0), "number and version");
    }
}
