//! Traces made of their entries, and each call by one, with its refusals.

use narephon::{
    draw_carried, draw_traced, make_trace, Entry, Refusal, Reply, BANK, DOTS, FRAME_DOTS, LINES,
};

fn register(line: u8, number: u8, value: u8) -> Entry {
    Entry::Register {
        line,
        number,
        value,
    }
}

fn port(line: u8, port: u16, value: u8) -> Entry {
    Entry::Port { line, port, value }
}

fn trace(entries: &[Entry]) -> Vec<u8> {
    make_trace(entries).expect("a trace")
}

/// No colour, so that what is left is seen.
const MARK: u16 = 0xAAAA;

/// What a line by a trace is told, and the line.
fn traced(record: &[u8], trace: &[u8], line: u32) -> (Result<(), Told>, [u16; DOTS]) {
    let (bank, mut dots) = ([0; BANK], [MARK; DOTS]);
    let answer = draw_traced(record, trace, &bank, &bank, line, &mut dots);
    assert_eq!(answer.is_err(), dots == [MARK; DOTS]);
    (answer.map_err(told), dots)
}

/// A reply, and the place that it tells.
type Told = (Reply, Option<usize>);

fn told(refusal: Refusal) -> Told {
    (refusal.reply, refusal.place)
}

type Frame = (Result<Vec<Result<(), Told>>, Reply>, Vec<u16>);

fn carried(record: &[u8], trace: &[u8]) -> Frame {
    let (bank, mut dots) = ([0; BANK], vec![MARK; FRAME_DOTS]);
    let lines = draw_carried(record, trace, &bank, &bank, &mut dots);
    let lines = lines.map(|lines| lines.map(|line| line.map_err(told)).to_vec());
    (lines, dots)
}

#[test]
fn lengths() {
    assert_eq!((LINES, FRAME_DOTS), (256, 163_840));
    assert_eq!(LINES * DOTS, FRAME_DOTS);
}

#[test]
fn traces_made() {
    assert_eq!(trace(&[]), [0, 1, 1]);
    let entries = [
        register(3, 0x41, 0xE0),
        port(3, 0x00FE, 2),
        port(4, 0x00FF, 6),
        port(200, 0xBF3B, 64),
        port(255, 0xFF3B, 1),
    ];
    let wanted = [
        0, 21, 1, 3, 0, 0x41, 0xE0, 3, 1, 0, 2, 4, 1, 1, 6, 200, 1, 2, 64, 255, 1, 3, 1,
    ];
    assert_eq!(trace(&entries), wanted);
    assert_eq!(trace(&[entries[0]; 64])[..3], [1, 1, 1]);
    for other in [0x0000, 0x00FD, 0x01FE, 0xFE00, 0xBF3A, 0xFF3C, 0xFFFF] {
        let made = make_trace(&[entries[0], port(0, other, 0)]);
        assert_eq!(made, Err(Reply::BadTrace));
    }
    assert_eq!(trace(&[entries[0]; 16_383])[..3], [0xFF, 0xFD, 1]);
    assert_eq!(make_trace(&[entries[0]; 16_384]), Err(Reply::BadTrace));
}

/// Lines 0 to 31 are border, black after a reset.
#[test]
fn bars() {
    let record = narephon::reset();
    let bars = trace(&[
        register(0, 0x40, 16),
        register(4, 0x41, 0xE0),
        register(4, 0x40, 16),
        register(6, 0x44, 0x1C),
        register(8, 0x44, 1),
    ]);
    let (lines, dots) = carried(&record, &bars);
    assert_eq!(lines, Ok(vec![Ok(()); LINES]));
    let wanted = [0, 0, 0, 0, 448, 448, 448, 448, 57, 57];
    for (line, colour) in (0..).zip(wanted) {
        assert_eq!(traced(&record, &bars, line), (Ok(()), [colour; DOTS]));
        assert_eq!(dots[line as usize * DOTS..][..DOTS], [colour; DOTS]);
    }
    assert_eq!(record, narephon::reset());
}

/// Without entries each line is the plain one, by an old record too.
#[test]
fn no_entries() {
    let record = narephon::reset();
    let old = narephon::move_back(&record).expect("one scroll");
    let bank: Vec<u8> = (0..BANK).map(|place| place as u8).collect();
    for record in [&record[..], &old] {
        let mut all = vec![MARK; FRAME_DOTS];
        let lines = draw_carried(record, &trace(&[]), &bank, &bank, &mut all);
        assert_eq!(lines, Ok([Ok(()); LINES]));
        for (line, dots) in (0..).zip(all.chunks(DOTS)) {
            let (mut plain, mut one) = ([MARK; DOTS], [MARK; DOTS]);
            let drawn = narephon::draw(record, &bank, &bank, line, &mut plain);
            assert_eq!(drawn, Ok(()));
            let drawn = draw_traced(record, &trace(&[]), &bank, &bank, line, &mut one);
            assert_eq!(drawn, Ok(()));
            assert!(dots == plain && one == plain);
        }
    }
}

/// From its line on a refused entry refuses every line, with its place.
#[test]
fn refused_entries() {
    let record = narephon::reset();
    for (refused, reply) in [
        (register(9, 0x00, 0), Reply::NoRegister),
        (register(9, 0x42, 5), Reply::OutOfBounds),
        (port(9, 0xBF3B, 128), Reply::OutOfBounds),
    ] {
        let bytes = trace(&[port(0, 0x00FE, 1), refused, register(9, 0x01, 0)]);
        let (lines, dots) = carried(&record, &bytes);
        let lines = lines.expect("only lines are refused");
        for (line, answer) in (0..).zip(lines) {
            let wanted = if line < 9 {
                Ok(())
            } else {
                Err((reply, Some(1)))
            };
            assert_eq!((answer, traced(&record, &bytes, line).0), (wanted, wanted));
        }
        assert!(dots[..9 * DOTS].iter().all(|&dot| dot != MARK));
        assert!(dots[9 * DOTS..].iter().all(|&dot| dot == MARK));
    }
    let first = trace(&[register(0, 0x00, 0)]);
    let wanted = Err((Reply::NoRegister, Some(0)));
    assert_eq!(traced(&record, &first, 0).0, wanted);
}

/// A line that is refused for its state is left, and later ones are drawn.
#[test]
fn refused_lines() {
    let record = narephon::reset();
    let bytes = trace(&[
        register(0, 0x08, 4),
        port(10, 0x00FF, 3),
        port(20, 0x00FF, 0),
        register(30, 0x15, 0x80),
        register(30, 0x6B, 0x80),
        register(40, 0x15, 0),
        register(50, 0x2F, 2),
        register(60, 0x2F, 0),
        port(70, 0xBF3B, 64),
        port(70, 0xFF3B, 1),
        register(70, 0x43, 1),
        register(80, 0x43, 0),
    ]);
    let (lines, dots) = carried(&record, &bytes);
    let lines = lines.expect("only lines are refused");
    for (line, dots) in dots.chunks(DOTS).enumerate() {
        let reply = match line / 10 {
            1 => Some(Reply::NoMode),
            3 => Some(Reply::LoresWithTiles),
            5 => Some(Reply::FarOffset),
            7 => Some(Reply::NextWithPlus),
            _ => None,
        };
        let wanted = reply.map_or(Ok(()), |reply| Err((reply, None)));
        assert_eq!(lines[line], wanted, "line {line}");
        let alone = traced(&record, &bytes, line as u32);
        assert!(alone.0 == wanted && alone.1 == dots, "line {line}");
    }
}

/// What is wrong with a trace refuses every line and the whole call.
#[test]
fn no_traces() {
    let record = narephon::reset();
    let good = trace(&[register(0, 0x00, 0), port(200, 0xFF3B, 0)]);
    let with = |place: usize, byte: u8| {
        let mut bytes = good.clone();
        bytes[place] = byte;
        bytes
    };
    let bad = [
        vec![],
        good[..1].to_vec(),
        good[..2].to_vec(),
        good[..7].to_vec(),
        with(0, 1),
        with(1, 8),
        with(2, 2),
        with(4, 2),
        with(8, 2),
        with(9, 4),
        vec![0, 4, 1, 0, 0, 0],
    ];
    let refusals = bad.map(|bytes| (bytes, Reply::BadTrace));
    let falls = (with(3, 201), Reply::LinesFall);
    for (bytes, reply) in refusals.into_iter().chain([falls]) {
        for line in [0, 255] {
            assert_eq!(traced(&record, &bytes, line).0, Err((reply, None)));
        }
        assert_eq!(
            carried(&record, &bytes),
            (Err(reply), vec![MARK; FRAME_DOTS])
        );
    }
}

/// The record is judged before its entries: the border 8 in it, which the first would mend, refuses all.
#[test]
fn judged_before_entries() {
    let mut record = narephon::reset().to_vec();
    let mended = trace(&[port(0, 0xFE, 1)]);
    assert_eq!(traced(&record, &mended, 0).0, Ok(()));
    record[35] = 8;
    for line in [0, 255] {
        let refused = Err((Reply::BadField, None));
        assert_eq!(traced(&record, &mended, line).0, refused);
    }
    let left = vec![MARK; FRAME_DOTS];
    assert_eq!(carried(&record, &mended), (Err(Reply::BadField), left));
}

/// From the last of the order on: each step adds what is refused before all that was wrong already.
#[test]
fn orders() {
    let (mut record, bank) = (narephon::reset().to_vec(), [0; BANK]);
    let falls = trace(&[register(9, 0x00, 0), register(8, 0x00, 0)]);
    let mut bad = falls.clone();
    bad[4] = 2;
    let one = |record: &[u8], trace: &[u8], bank: &[u8], line, length| {
        let mut dots = vec![MARK; length];
        let refused = draw_traced(record, trace, bank, bank, line, &mut dots);
        assert!(dots == vec![MARK; length]);
        refused.map_err(told)
    };
    let all = |record: &[u8], trace: &[u8], bank: &[u8], length| {
        let mut dots = vec![MARK; length];
        let refused = draw_carried(record, trace, bank, bank, &mut dots);
        assert!(dots == vec![MARK; length]);
        refused.expect_err("a refusal")
    };
    let steps = [
        (Reply::LinesFall, &falls, None),
        (Reply::BadTrace, &bad, None),
        (Reply::BadField, &bad, Some((35, 8))),
        (Reply::WrongVersion, &bad, Some((2, 1))),
        (Reply::WrongCount, &bad, Some((0, 0))),
    ];
    for (reply, trace, fault) in steps {
        if let Some((place, byte)) = fault {
            record[place] = byte;
        }
        assert_eq!(one(&record, trace, &bank, 255, DOTS), Err((reply, None)));
        assert_eq!(all(&record, trace, &bank, FRAME_DOTS), reply);
    }
    let short = Err((Reply::BufferLength, None));
    assert_eq!(one(&record, &bad, &bank, 255, DOTS - 1), short);
    assert_eq!(all(&record, &bad, &bank, DOTS), Reply::BufferLength);
    let short = Err((Reply::BankLength, None));
    assert_eq!(one(&record, &bad, &bank[1..], 255, 0), short);
    assert_eq!(all(&record, &bad, &bank[1..], 0), Reply::BankLength);
    let above = Err((Reply::NoLine, None));
    assert_eq!(one(&record, &bad, &bank[1..], 256, 0), above);
}
