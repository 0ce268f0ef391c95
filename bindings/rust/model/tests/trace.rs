//! Drawing by a trace: section 17.

mod common;

use common::{all_at_once, bank, counting, dots, old_record_of, record_of, timex};
use model::registers::register_exists;
use model::trace::{
    draw_carried, draw_traced, lent_draw_carried, lent_draw_traced, Frame, Lent, Told, FRAME_DOTS,
    LINES,
};
use model::{State, DOTS};

/// An entry: its line, kind, number and byte.
type Entry = [u8; 4];

/// A trace by hand: the number of bytes following, version 1, the entries.
fn trace(entries: &[Entry]) -> Vec<u8> {
    let following = 1 + 4 * entries.len();
    let mut bytes = vec![(following / 256) as u8, (following % 256) as u8, 1];
    for entry in entries {
        bytes.extend(entry);
    }
    bytes
}

/// A line by a trace, with empty banks. A refusal leaves it, and only that.
fn traced(line: u32, trace: &[u8], state: &State) -> (Told, [u16; DOTS]) {
    let good = bank(&[]);
    let (ula, tile) = (&good[..], &good[..]);
    let mut out = [0xAAAA; DOTS];
    let lent = Lent { trace, ula, tile };
    let told = draw_traced(line, lent, state, &mut out);
    assert_eq!(told.0 != 0, out == [0xAAAA; DOTS]);
    (told, out)
}

/// The same, told alone.
fn told(line: u32, trace: &[u8], state: &State) -> Told {
    traced(line, trace, state).0
}

/// All lines by a trace, with empty banks.
struct Drawn {
    dots: Vec<u16>,
    replies: [u8; 256],
    places: [u16; 256],
}

fn carried(trace: &[u8], state: &State) -> (u8, Drawn) {
    let good = bank(&[]);
    let (ula, tile) = (&good[..], &good[..]);
    let mut drawn = Drawn {
        dots: vec![0xAAAA; 163_840],
        replies: [0xAA; 256],
        places: [0xAAAA; 256],
    };
    let mut frame = Frame {
        dots: &mut drawn.dots,
        replies: &mut drawn.replies,
        places: &mut drawn.places,
    };
    let reply = draw_carried(Lent { trace, ula, tile }, state, &mut frame);
    (reply, drawn)
}

impl Drawn {
    fn line(&self, line: usize) -> &[u16] {
        &self.dots[640 * line..640 * line + 640]
    }

    fn untouched(&self) -> bool {
        let dots = self.dots.iter().all(|&dot| dot == 0xAAAA);
        dots && self.replies == [0xAA; 256] && self.places == [0xAAAA; 256]
    }
}

/// Line 0 of the counting state is border: 16 and the border's number.
const BORDER: u16 = 16;

#[test]
fn lengths() {
    assert_eq!((LINES, FRAME_DOTS), (256, 163_840));
    assert_eq!(LINES * DOTS, FRAME_DOTS);
}

/// Rule 17.1: the shortest traces, and the longest that the count can tell.
#[test]
fn well_formed() {
    let state = counting();
    assert_eq!(trace(&[]), [0, 1, 1]);
    assert_eq!(trace(&[[7, 0, 0x14, 9]]), [0, 5, 1, 7, 0, 0x14, 9]);
    assert_eq!(told(0, &[0, 1, 1], &state), (0, 0));
    assert_eq!(told(0, &[0, 5, 1, 7, 0, 0x14, 9], &state), (0, 0));
    // 1 + 4 x 16,383 is 65,533: one entry more is above 65,535.
    let longest = trace(&vec![[0, 1, 0, 5]; 16_383]);
    assert_eq!((longest[0], longest[1]), (0xFF, 0xFD));
    assert_eq!(traced(0, &longest, &state), ((0, 0), [BORDER + 5; DOTS]));
}

/// Bytes that are no trace, one fault each.
fn ill_formed() -> Vec<Vec<u8>> {
    let mut all = vec![
        vec![],
        vec![0],
        vec![0, 0],
        vec![0, 1],
        // Another count.
        vec![0, 0, 1],
        vec![0, 2, 1],
        vec![1, 1, 1],
        vec![1, 0, 1],
        vec![0, 1, 1, 0],
        vec![0, 1, 1, 0, 0, 0x14, 9],
        vec![0, 4, 1, 0, 0, 0x14, 9],
        vec![0, 6, 1, 0, 0, 0x14, 9],
        vec![0, 7, 1, 0, 0, 0x14, 9],
        // Another version.
        vec![0, 1, 0],
        vec![0, 1, 2],
        vec![0, 1, 255],
        vec![0, 5, 2, 0, 0, 0x14, 9],
        // An entry cut short.
        vec![0, 2, 1, 0],
        vec![0, 3, 1, 0, 0],
        vec![0, 4, 1, 0, 0, 0x14],
        vec![0, 8, 1, 0, 0, 0x14, 9, 0, 0, 0x14],
    ];
    // A kind above 1, a port above 3.
    for (kind, number) in [(2, 0), (2, 0x14), (255, 0), (1, 4), (1, 0xFE), (1, 255)] {
        all.push(trace(&[[0, kind, number, 0]]));
    }
    all
}

/// Rules 17.2 and 9.25: 25 comes on every line.
#[test]
fn bad_traces() {
    let state = counting();
    for bytes in ill_formed() {
        for line in [0, 255] {
            assert_eq!(told(line, &bytes, &state), (25, 0), "{bytes:?}");
        }
        let (reply, drawn) = carried(&bytes, &state);
        assert_eq!(reply, 25, "{bytes:?}");
        assert!(drawn.untouched());
    }
    // A count of 16 bits: 65,536 bytes more than it says.
    let mut long = trace(&[]);
    long.resize(3 + 65_536, 0);
    assert_eq!(told(0, &long, &state), (25, 0));
}

/// Rule 17.2: what stands after the line is judged too, and after a refused entry.
#[test]
fn all_of_a_trace_is_judged() {
    let state = counting();
    for wrong in [[200, 2, 0, 0], [200, 1, 4, 0]] {
        assert_eq!(told(10, &trace(&[wrong]), &state), (25, 0));
        let refused_first = trace(&[[0, 0, 0x00, 0], wrong]);
        assert_eq!(told(10, &refused_first, &state), (25, 0));
    }
    let falls_later = trace(&[[0, 0, 0x00, 0], [200, 1, 0, 1], [199, 1, 0, 1]]);
    assert_eq!(told(10, &falls_later, &state), (26, 0));
}

/// Rules 17.3 and 9.26.
#[test]
fn lines_fall() {
    let state = counting();
    let border = |lines: &[u8]| {
        let entries: Vec<Entry> = lines.iter().map(|&line| [line, 1, 0, 3]).collect();
        trace(&entries)
    };
    for lines in [&[5, 5][..], &[0, 0, 255, 255], &[4, 5, 6]] {
        assert_eq!(told(255, &border(lines), &state), (0, 0));
    }
    for lines in [
        &[5, 4][..],
        &[255, 0],
        &[1, 2, 3, 2],
        &[9, 8, 7],
        &[7, 8, 7, 8],
    ] {
        assert_eq!(told(0, &border(lines), &state), (26, 0));
        let (reply, drawn) = carried(&border(lines), &state);
        assert_eq!(reply, 26);
        assert!(drawn.untouched());
    }
}

/// 25 over all of the trace comes before 26.
#[test]
fn form_before_lines() {
    let state = counting();
    for wrong in [[0, 2, 0, 0], [9, 1, 4, 0]] {
        let bytes = trace(&[[9, 1, 0, 0], [8, 1, 0, 0], wrong]);
        assert_eq!(told(0, &bytes, &state), (25, 0));
        assert_eq!(carried(&bytes, &state).0, 25);
    }
    let mut other_version = trace(&[[9, 1, 0, 0], [8, 1, 0, 0]]);
    other_version[2] = 2;
    assert_eq!(told(0, &other_version, &state), (25, 0));
}

/// Rule 17.4: a register's write moves what a write moves. $43 is 0, so $41 goes to
/// the first ULA palette and the index on.
#[test]
fn registers() {
    let state = counting();
    // $E0 and $1C widened are 448 and 56.
    let bytes = trace(&[[0, 0, 0x40, 16], [0, 0, 0x41, 0xE0], [9, 0, 0x41, 0x1C]]);
    assert_eq!(traced(8, &bytes, &state).1, [448; DOTS]);
    // The border is 16 still, and 17 is what changed.
    assert_eq!(traced(9, &bytes, &state).1, [448; DOTS]);
    let red = trace(&[[0, 0, 0x40, 17], [0, 0, 0x41, 0xE0], [1, 1, 0, 1]]);
    assert_eq!(traced(0, &red, &state).1, [16; DOTS]);
    assert_eq!(traced(1, &red, &state).1, [448; DOTS]);
}

/// Rule 17.4: half of a colour is held from one line to a later one.
#[test]
fn halves() {
    let state = counting();
    let bytes = trace(&[[0, 0, 0x40, 16], [5, 0, 0x44, 0xE0], [9, 0, 0x44, 1]]);
    for (line, colour) in [(0, 16), (5, 16), (8, 16), (9, 449), (10, 449)] {
        assert_eq!(traced(line, &bytes, &state).1, [colour; DOTS]);
    }
    // A second half of 2 is out of its bounds, and at place 2.
    let bytes = trace(&[[0, 0, 0x40, 16], [5, 0, 0x44, 0xE0], [9, 0, 0x44, 2]]);
    assert_eq!(told(8, &bytes, &state), (0, 0));
    assert_eq!(told(9, &bytes, &state), (10, 2));
}

/// Rule 17.4: ports 0 to 3 are $FE, $FF, $BF3B and $FF3B.
#[test]
fn ports() {
    let state = timex(0);
    assert_eq!(traced(0, &trace(&[[0, 1, 0, 6]]), &state).1, [22; DOTS]);
    // $FF: 7 gives no mode.
    assert_eq!(told(0, &trace(&[[0, 1, 1, 7]]), &state), (5, 0));
    // $BF3B takes 0 to 127; select 64 is the mode group, where $FF3B switches ULAplus.
    assert_eq!(told(0, &trace(&[[0, 1, 2, 128]]), &state), (10, 0));
    let on = [[0, 1, 2, 64], [0, 1, 3, 1], [0, 0, 0x43, 1]];
    assert_eq!(told(0, &trace(&on), &state), (7, 0));
    assert_eq!(told(0, &trace(&on[1..]), &state), (0, 0));
}

/// Rule 17.5: an entry counts from its line on, and every one of a line.
#[test]
fn the_state_of_a_line() {
    let state = counting();
    let bytes = trace(&[
        [3, 1, 0, 1],
        [10, 1, 0, 2],
        [10, 1, 0, 3],
        [11, 1, 0, 4],
        [255, 1, 0, 5],
    ]);
    let (reply, drawn) = carried(&bytes, &state);
    assert_eq!(reply, 0);
    for (line, border) in [
        (0, 0),
        (2, 0),
        (3, 1),
        (9, 1),
        (10, 3),
        (11, 4),
        (12, 4),
        (254, 4),
        (255, 5),
    ] {
        assert_eq!(
            traced(line, &bytes, &state),
            ((0, 0), [BORDER + border; DOTS])
        );
        assert!(drawn
            .line(line as usize)
            .iter()
            .all(|&dot| dot == BORDER + border));
    }
}

/// Rule 17.6: what is refused is refused from its line on, with its place, and what
/// comes after it is not tried.
#[test]
fn refused_entries() {
    let state = counting();
    // $00 is no register; $42 does not take 5.
    for (refused, reply) in [
        ([10, 0, 0x00, 0], 9),
        ([10, 0, 0x42, 5], 10),
        ([10, 1, 2, 200], 10),
    ] {
        let bytes = trace(&[
            [0, 1, 0, 1],
            [10, 1, 0, 2],
            refused,
            [10, 0, 0x01, 0],
            [20, 0, 0x42, 5],
        ]);
        assert_eq!(traced(9, &bytes, &state), ((0, 0), [BORDER + 1; DOTS]));
        for line in [10, 11, 19, 20, 255] {
            assert_eq!(told(line, &bytes, &state), (reply, 2));
        }
        let (all, drawn) = carried(&bytes, &state);
        assert_eq!(all, 0);
        for line in 0..256 {
            let (wanted, left) = if line < 10 {
                ((0, 0), BORDER + 1)
            } else {
                ((reply, 2), 0xAAAA)
            };
            assert_eq!((drawn.replies[line], drawn.places[line]), wanted);
            // Line 9 is above the display.
            assert!(drawn.line(line).iter().all(|&dot| dot == left));
        }
    }
    // A place of 0 is a place.
    assert_eq!(told(0, &trace(&[[0, 0, 0x00, 0]]), &state), (9, 0));
    // Above 255, where a place has two bytes.
    let mut many = vec![[0, 1, 0, 1]; 300];
    many.push([4, 0, 0xFF, 0]);
    assert_eq!(told(4, &trace(&many), &state), (9, 300));
    assert_eq!(carried(&trace(&many), &state).1.places[4], 300);
}

/// Rule 10.15: 1, 2, 3, 4, 25, 26, the entries, 6, 7, 5, 8.
#[test]
fn the_order_of_one_line() {
    let (good, short) = (bank(&[]), vec![0; 5]);
    let mut state = all_at_once();
    state.border = 8;
    let refusal = |line, [ula, tile]: [&Vec<u8>; 2], length: usize, trace: &[u8], state: &State| {
        let mut out = vec![0xAAAA; length];
        let told = draw_traced(line, Lent { trace, ula, tile }, state, &mut out);
        assert!(out.iter().all(|&dot| dot == 0xAAAA));
        told
    };
    let both = [&good, &good];
    let bad = trace(&[[1, 0, 0x00, 0], [0, 2, 0, 0]]);
    assert_eq!(refusal(256, [&short, &short], 5, &bad, &state), (1, 0));
    assert_eq!(refusal(255, [&good, &short], 5, &bad, &state), (2, 0));
    assert_eq!(refusal(255, [&short, &good], 5, &bad, &state), (2, 0));
    assert_eq!(refusal(255, both, 641, &bad, &state), (3, 0));
    assert_eq!(refusal(255, both, 640, &bad, &state), (4, 0));
    state.border = 7;
    assert_eq!(refusal(255, both, 640, &bad, &state), (25, 0));
    let falls = trace(&[[1, 0, 0x00, 0], [0, 0, 0x00, 0]]);
    assert_eq!(refusal(255, both, 640, &falls, &state), (26, 0));
    // LoRes goes on at 2, where the tilemap is: 6, once the entry before it is not refused.
    for (number, byte, reply) in [(0x00, 0, 9), (0x42, 5, 10)] {
        let refused = trace(&[[0, 0, 0x14, 0], [1, 0, number, byte], [2, 0, 0x15, 0x80]]);
        assert_eq!(refusal(255, both, 640, &refused, &state), (reply, 1));
        assert_eq!(refusal(0, both, 640, &refused, &state), (7, 0));
    }
    let lores = trace(&[[2, 0, 0x15, 0x80]]);
    assert_eq!(refusal(2, both, 640, &lores, &state), (6, 0));
    assert_eq!(refusal(1, both, 640, &lores, &state), (7, 0));
    let next_off = trace(&[[2, 0, 0x43, 0]]);
    assert_eq!(refusal(2, both, 640, &next_off, &state), (5, 0));
    let mode_too = trace(&[[2, 0, 0x43, 0], [2, 1, 1, 6]]);
    assert_eq!(refusal(2, both, 640, &mode_too, &state), (8, 0));
    let near = trace(&[[2, 0, 0x43, 0], [2, 1, 1, 6], [2, 0, 0x2F, 0]]);
    assert_eq!(told(2, &near, &state), (0, 0));
}

/// Rules 17.8 and 10.15: a line that is refused is left, and later ones are drawn.
#[test]
fn refused_lines() {
    let state = timex(0);
    let wrong_and_right: [(u8, &[Entry], &[Entry]); 4] = [
        (5, &[[50, 1, 1, 3]], &[[60, 1, 1, 0]]),
        (
            6,
            &[[50, 0, 0x15, 0x80], [50, 0, 0x6B, 0x80]],
            &[[60, 0, 0x15, 0]],
        ),
        (
            7,
            &[[50, 1, 2, 64], [50, 1, 3, 1], [50, 0, 0x43, 1]],
            &[[60, 0, 0x43, 0]],
        ),
        (
            8,
            &[[50, 0, 0x6B, 0x80], [50, 0, 0x2F, 2]],
            &[[60, 0, 0x2F, 0]],
        ),
    ];
    for (reply, wrong, right) in wrong_and_right {
        let bytes = trace(&[wrong, right].concat());
        let (all, drawn) = carried(&bytes, &state);
        assert_eq!(all, 0);
        assert_eq!(drawn.places, [0; 256]);
        for line in 0..256 {
            let refused = (50..60).contains(&line);
            assert_eq!(drawn.replies[line], if refused { reply } else { 0 });
            assert_eq!(drawn.line(line) == [0xAAAA; DOTS], refused);
        }
    }
}

/// Rule 17.8: each line is as if it were asked for alone, drawn, refused or left.
#[test]
fn each_line_alone() {
    let state = timex(0);
    let bytes = trace(&[
        [0, 0, 0x40, 16],
        [7, 0, 0x41, 0xE0],
        [40, 1, 1, 7],
        [90, 1, 1, 2],
        [120, 0, 0x44, 0x1C],
        [130, 0, 0x44, 1],
        [150, 0, 0x6B, 0xC0],
        [200, 1, 2, 128],
        [210, 1, 0, 3],
    ]);
    let (all, drawn) = carried(&bytes, &state);
    assert_eq!(all, 0);
    for line in 0..256 {
        let ((reply, place), dots) = traced(line as u32, &bytes, &state);
        let answer = (drawn.replies[line], usize::from(drawn.places[line]));
        assert_eq!(answer, (reply, place), "line {line}");
        assert_eq!(drawn.line(line), dots, "line {line}");
    }
    assert_eq!(
        (drawn.replies[39], drawn.replies[40], drawn.replies[89]),
        (0, 5, 5)
    );
    assert_eq!(
        (drawn.replies[199], drawn.replies[200], drawn.places[200]),
        (0, 10, 7)
    );
}

/// A trace without entries draws what is drawn without a trace, or refuses so.
#[test]
fn no_entries() {
    let good = bank(&[]);
    for state in [counting(), timex(2), timex(6)] {
        let (all, drawn) = carried(&[0, 1, 1], &state);
        assert_eq!((all, drawn.replies, drawn.places), (0, [0; 256], [0; 256]));
        for line in 0..256 {
            let wanted = dots(line, &good, &good, &state);
            assert_eq!(traced(line, &[0, 1, 1], &state), ((0, 0), wanted));
            assert_eq!(drawn.line(line as usize), wanted);
        }
    }
    let (all, drawn) = carried(&[0, 1, 1], &timex(3));
    assert_eq!((all, drawn.replies, drawn.places), (0, [5; 256], [0; 256]));
    assert!(drawn.dots.iter().all(|&dot| dot == 0xAAAA));
}

/// Rules 10.16 and 17.9: 2, 3, 4, 25, 26, and each leaves all three.
#[test]
fn the_order_of_the_whole_call() {
    let (good, short) = (bank(&[]), vec![0; 16_383]);
    let refusal = |[ula, tile]: [&Vec<u8>; 2], lengths: [usize; 3], trace: &[u8], state: &State| {
        let mut dots = vec![0xAAAA; lengths[0]];
        let (mut replies, mut places) = (vec![0xAA; lengths[1]], vec![0xAAAA; lengths[2]]);
        let mut frame = Frame {
            dots: &mut dots,
            replies: &mut replies,
            places: &mut places,
        };
        let reply = draw_carried(Lent { trace, ula, tile }, state, &mut frame);
        let left = replies.iter().all(|&reply| reply == 0xAA);
        assert!(left && dots.iter().chain(&places).all(|&number| number == 0xAAAA));
        reply
    };
    let both = [&good, &good];
    let right = [163_840, 256, 256];
    let mut state = counting();
    state.border = 8;
    let bad = trace(&[[1, 0, 0x00, 0], [0, 2, 0, 0]]);
    assert_eq!(refusal([&short, &good], [0, 0, 0], &bad, &state), 2);
    assert_eq!(refusal([&good, &short], right, &bad, &state), 2);
    for lengths in [
        [640, 256, 256],
        [163_839, 256, 256],
        [163_841, 256, 256],
        [163_840, 255, 256],
        [163_840, 257, 256],
        [163_840, 256, 255],
        [163_840, 256, 257],
        [0, 0, 0],
    ] {
        assert_eq!(refusal(both, lengths, &bad, &state), 3);
    }
    assert_eq!(refusal(both, right, &bad, &state), 4);
    state.border = 7;
    assert_eq!(refusal(both, right, &bad, &state), 25);
    let falls = trace(&[[1, 0, 0x00, 0], [0, 0, 0x00, 0]]);
    assert_eq!(refusal(both, right, &falls, &state), 26);
}

/// A lent record of either version is read and stays, and 16, 17, 18 stand in the
/// place of 4, with place 0.
#[test]
fn lent_records() {
    let (good, no_traces) = (bank(&[]), ill_formed());
    let lent = |trace| Lent {
        trace,
        ula: &good,
        tile: &good,
    };
    let one = |trace, record: &[u8], line, length: usize| {
        let mut out = vec![0xAAAA; length];
        (lent_draw_traced(line, lent(trace), record, &mut out), out)
    };
    let all = |trace, record: &[u8], length: usize| {
        let mut dots = vec![0xAAAA; length];
        let mut frame = Frame {
            dots: &mut dots,
            replies: &mut [0xAA; 256],
            places: &mut [0xAAAA; 256],
        };
        (lent_draw_carried(lent(trace), record, &mut frame), dots)
    };
    let state = counting();
    let bytes = trace(&[[9, 1, 0, 4]]);
    let (new, old) = (record_of(&state), old_record_of(&state));
    for record in [&new, &old] {
        assert_eq!(one(&bytes, record, 9, 640), ((0, 0), vec![BORDER + 4; 640]));
        assert_eq!(
            all(&bytes, record, 163_840),
            (0, carried(&bytes, &state).1.dots)
        );
    }
    let with = |place: usize, byte: u8| {
        let mut record = new.clone();
        record[place] = byte;
        record
    };
    for (reply, record) in [(16, with(0, 0)), (17, with(2, 1)), (18, with(35, 8))] {
        for bad in &no_traces {
            assert_eq!(one(bad, &record, 255, 640), ((reply, 0), vec![0xAAAA; 640]));
            assert_eq!(all(bad, &record, 163_840), (reply, vec![0xAAAA; 163_840]));
        }
        assert_eq!(one(&bytes, &record, 256, 640).0, (1, 0));
        assert_eq!(one(&bytes, &record, 255, 639).0, (3, 0));
        assert_eq!(all(&bytes, &record, 163_839).0, 3);
    }
}

/// The writes that there are, each with every byte, as entries of one line.
fn every_write() -> Vec<Entry> {
    let registers = (0..=255).filter(|&number| register_exists(number));
    let targets = registers.map(|number| (0, number));
    let targets: Vec<(u8, u8)> = targets.chain((0..4).map(|port| (1, port))).collect();
    let entry = |(kind, number): (u8, u8)| (0..=255).map(move |byte| [0, kind, number, byte]);
    targets.into_iter().flat_map(entry).collect()
}

/// Rule 17.13, and the entries' half of 17.12: after any write a line is drawn or
/// refused for something else than 4, by which the model judges every line.
#[test]
fn lawful_along() {
    let mut half_sent = counting();
    (half_sent.held, half_sent.half) = (true, 0xFF);
    for start in [State::reset(), all_at_once(), half_sent] {
        for entry in every_write() {
            let (reply, _) = told(0, &trace(&[entry]), &start);
            assert!([0, 5, 6, 7, 8, 10].contains(&reply), "{entry:?}: {reply}");
        }
    }
}

/// Rule 17.13: a state that is not lawful is refused, though its entries would make
/// it lawful.
#[test]
fn judged_before_entries() {
    let mended = trace(&[[0, 1, 0, 1], [0, 0, 0x42, 7]]);
    assert_eq!(told(0, &mended, &counting()), (0, 0));
    let mut border = counting();
    border.border = 8;
    let mut mask = counting();
    mask.ink_mask = 8;
    for state in [border, mask] {
        for line in [0, 255] {
            assert_eq!(told(line, &mended, &state), (4, 0));
        }
        let (reply, drawn) = carried(&mended, &state);
        assert_eq!(reply, 4);
        assert!(drawn.untouched());
    }
}
