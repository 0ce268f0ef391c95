//! Each wrapper once, with a refusal of each that can be refused.

use narephon::{Refusal, Reply};
use std::collections::HashMap;

#[test]
fn registers_and_ports() {
    let mut record = narephon::reset();
    assert_eq!(narephon::write_register(&mut record, 0x14, 7), Ok(()));
    assert_eq!(narephon::read_register(&record, 0x14), Ok(7));
    assert_eq!(
        narephon::read_register(&record, 0x00),
        Err(Reply::NoRegister)
    );
    assert_eq!(narephon::write_register(&mut record, 0x08, 4), Ok(()));
    assert_eq!(narephon::write_port(&mut record, 0xFF, 6), Ok(()));
    assert_eq!(narephon::read_port(&record, 0xFF), Ok(6));
    assert_eq!(narephon::read_port(&record, 0xFE), Err(Reply::NoRegister));
    assert_eq!(narephon::next_frame(&mut record), Ok(()));
    let kept = record;
    let mask_5 = narephon::write_register(&mut record, 0x42, 5);
    assert_eq!(mask_5, Err(Reply::OutOfBounds));
    let far = narephon::write_port(&mut record, 0xBF3B, 128);
    assert_eq!(far, Err(Reply::OutOfBounds));
    assert_eq!(
        narephon::next_frame(&mut record[1..]),
        Err(Reply::WrongCount)
    );
    assert!(record == kept);
}

/// What a refused record is told, and where.
fn told<T: std::fmt::Debug>(answer: Result<T, Refusal>) -> (Reply, Option<usize>) {
    let refusal = answer.expect_err("a refusal");
    (refusal.reply, refusal.place)
}

const COUNT: (Reply, Option<usize>) = (Reply::WrongCount, Some(0));
const VERSION: (Reply, Option<usize>) = (Reply::WrongVersion, Some(2));

fn field(place: usize) -> (Reply, Option<usize>) {
    (Reply::BadField, Some(place))
}

/// A record with one byte replaced.
fn replaced(record: &[u8], place: usize, byte: u8) -> Vec<u8> {
    let mut bytes = record.to_vec();
    bytes[place] = byte;
    bytes
}

#[test]
fn records_checked() {
    let record = narephon::reset();
    assert_eq!(narephon::check_record(&record), Ok(()));
    for none in [&record[1..], &record[..1], &[0, 0], &[]] {
        assert_eq!(told(narephon::check_record(none)), COUNT);
    }
    // A number one off, an unknown version and that of the other length.
    let checked = |place, byte| told(narephon::check_record(&replaced(&record, place, byte)));
    assert_eq!(checked(1, 101), COUNT);
    assert_eq!(checked(2, 3), VERSION);
    assert_eq!(checked(2, 1), VERSION);
    // $43, $42, $27, the flag, the byte that none holds, the border, ULAplus, the first and the last colour.
    for (place, byte) in [
        (6, 0x10),
        (8, 5),
        (22, 192),
        (33, 2),
        (34, 1),
        (35, 8),
        (38, 2),
        (104, 2),
        (2_150, 2),
    ] {
        assert_eq!(checked(place, byte), field(place));
    }
    // In an old record what follows $33 stands two places before.
    let old = old_of(&record);
    for (place, byte) in [(20, 192), (31, 2), (32, 1), (33, 8), (102, 2), (2_148, 2)] {
        let bytes = replaced(&old, place, byte);
        assert_eq!(told(narephon::check_record(&bytes)), field(place));
        assert_eq!(told(narephon::move_up(&bytes)), field(place));
    }
}

/// The first of several faults is told.
#[test]
fn the_first_fault() {
    let mut record = narephon::reset();
    for (place, byte, first) in [
        (2_150, 2, field(2_150)),
        (35, 8, field(35)),
        (34, 1, field(34)),
        (6, 0x10, field(6)),
        (2, 1, VERSION),
        (0, 0, COUNT),
    ] {
        record[place] = byte;
        assert_eq!(told(narephon::check_record(&record)), first);
        assert_eq!(told(narephon::load_record(&record)), first);
    }
}

/// A record after writes to registers.
fn written(writes: &[(u8, u8)]) -> [u8; narephon::RECORD] {
    let mut record = narephon::reset();
    for &(number, value) in writes {
        assert_eq!(narephon::write_register(&mut record, number, value), Ok(()));
    }
    record
}

/// The old record of one, by hand: without the bytes of $26 and $27.
fn old_of(record: &[u8]) -> Vec<u8> {
    [&[8, 100, 1], &record[3..21], &record[23..]].concat()
}

/// One scroll, of 13 and 65, in both pairs; and the old record of it.
fn one_scroll() -> ([u8; narephon::RECORD], Vec<u8>) {
    let record = written(&[(0x32, 13), (0x33, 65), (0x26, 13), (0x27, 65)]);
    (record, old_of(&record))
}

#[test]
fn moves() {
    let (record, old) = one_scroll();
    let places = written(&[(0x32, 1), (0x33, 2), (0x26, 3), (0x27, 4)]);
    assert_eq!(places[19..23], [1, 2, 3, 4]);
    assert!(narephon::move_back(&record).is_ok_and(|back| back[..] == old));
    assert_eq!(narephon::move_up(&old), Ok(record));
    // What is already there, and what is no record.
    assert_eq!(told(narephon::move_up(&record)), VERSION);
    assert_eq!(told(narephon::move_back(&old)), VERSION);
    assert_eq!(told(narephon::move_up(&old[1..])), COUNT);
    assert_eq!(told(narephon::move_back(&record[1..])), COUNT);
    for writes in [[(0x26, 1)], [(0x27, 1)], [(0x32, 1)], [(0x33, 1)]] {
        let apart = written(&writes);
        let back = told(narephon::move_back(&apart));
        assert_eq!(back, (Reply::PairsDiffer, None));
        let bad = replaced(&apart, 2_150, 2);
        assert_eq!(told(narephon::move_back(&bad)), field(2_150));
    }
}

#[test]
fn stored_records() {
    let (record, old) = one_scroll();
    let own = written(&[(0x26, 1)]);
    assert_eq!(narephon::load_record(&old), Ok(record));
    assert_eq!(narephon::load_record(&own), Ok(own));
    for none in [&old[1..], &record[1..], &record[2..], &[]] {
        assert_eq!(told(narephon::load_record(none)), COUNT);
    }
}

/// A caller that asks for no place.
fn loaded(record: &[u8]) -> Result<[u8; narephon::RECORD], Reply> {
    Ok(narephon::load_record(record)?)
}

#[test]
fn a_refusal_becomes_its_reply() {
    assert_eq!(loaded(&[]), Err(Reply::WrongCount));
}

/// What only reads a record takes an old one; what changes it does not.
#[test]
fn old_records() {
    let (_, mut old) = one_scroll();
    let mut bank = [0; narephon::BANK];
    let kept = old.clone();
    assert_eq!(narephon::check_record(&old), Ok(()));
    assert_eq!(narephon::read_register(&old, 0x26), Ok(13));
    assert_eq!(narephon::read_register(&old, 0x27), Ok(65));
    assert_eq!(narephon::read_port(&old, 0xFF3B), Ok(0));
    let mut file = [0; narephon::SCREEN];
    let screen = narephon::write_scr(&old, &bank, &mut file);
    assert!(screen.is_ok_and(|file| file.len() == 6_912));
    let unread = Err(Reply::WrongVersion);
    assert_eq!(narephon::next_frame(&mut old), unread);
    assert_eq!(narephon::write_register(&mut old, 0x14, 7), unread);
    assert_eq!(narephon::write_port(&mut old, 0xFE, 2), unread);
    let read = narephon::read_scr(&mut old, &mut bank, &[1; 6_912]);
    assert_eq!(read, Err(Reply::WrongVersion));
    assert!(old == kept && bank == [0; narephon::BANK]);
}

/// Index 2 of the ULA's palette is red, 3 green.
const COLOURS: [(u8, u8); 3] = [(0x40, 2), (0x41, 0xE0), (0x41, 0x1C)];

/// The display's first dot. Row 65, column 1 comes there by $26 and $27, and row 65 of LoRes, pixel 13, by $32 and $33.
fn first_dot(record: &[u8]) -> u16 {
    let mut bank = [0; narephon::BANK];
    (bank[0x0901], bank[0x1901], bank[4_102]) = (0x80, 0x0A, 3);
    let mut dots = [1; narephon::DOTS];
    assert_eq!(narephon::draw(record, &bank, &bank, 32, &mut dots), Ok(()));
    dots[64]
}

#[test]
fn two_scrolls() {
    let scrolls = [
        ([(0x26, 13), (0x27, 65), (0x15, 0)], 448),
        ([(0x32, 13), (0x33, 65), (0x15, 0x80)], 56),
        ([(0x32, 13), (0x33, 65), (0x15, 0)], 0),
        ([(0x26, 13), (0x27, 65), (0x15, 0x80)], 0),
    ];
    for (scroll, colour) in scrolls {
        let record = written(&[COLOURS, scroll].concat());
        assert_eq!(first_dot(&record), colour, "{scroll:?}");
    }
}

/// An old record's $32 and $33 scroll both.
#[test]
fn an_old_scroll() {
    for (control, colour) in [(0, 448), (0x80, 56)] {
        let scroll = [(0x32, 13), (0x33, 65), (0x15, control)];
        let record = written(&[COLOURS, scroll].concat());
        assert_eq!(first_dot(&old_of(&record)), colour);
    }
}

#[test]
fn lines_and_screen_values() {
    let mut record = narephon::reset();
    let bank = [0; narephon::BANK];
    let mut dots = [1; narephon::DOTS];
    assert_eq!(narephon::write_register(&mut record, 0x4A, 0xE3), Ok(()));
    assert_eq!(narephon::write_register(&mut record, 0x68, 0x80), Ok(()));
    assert_eq!(
        narephon::draw(&record, &bank, &bank, 255, &mut dots),
        Ok(())
    );
    assert!(dots == [455; narephon::DOTS]);
    let below = narephon::draw(&record, &bank, &bank, 256, &mut dots);
    assert_eq!(below, Err(Reply::NoLine));
    assert!(dots == [455; narephon::DOTS]);
    assert_eq!(narephon::screen_value(455), Ok(0xFF00FF));
    assert_eq!(narephon::screen_value(512), Err(Reply::OutOfBounds));
}

/// Reset but for $15 and for a red border, on a line whose display is clipped away: of ULA and tilemap, dots 0 to 63 are
/// 448 and dots 64 to 575 transparent. The fallback is green, 56.
fn layered(control: u8) -> [u8; narephon::RECORD] {
    let colours = [(0x40, 16), (0x41, 0xE0), (0x4A, 0x1C)];
    let others = [(0x1A, 255), (0x1A, 0), (0x15, control)];
    written(&[colours, others].concat())
}

/// Layer 2's line and the sprites', transparent but for the dots given.
fn lent(dots: &[(usize, u16, u16)]) -> [[u16; narephon::DOTS]; 2] {
    let mut lines = [[narephon::TRANSPARENT; narephon::DOTS]; 2];
    for &(place, layer2, sprite) in dots {
        (lines[0][place], lines[1][place]) = (layer2, sprite);
    }
    lines
}

/// Line 32 by such a record, or by the old one of it.
fn draw_layered(
    record: &[u8],
    lines: &[[u16; narephon::DOTS]; 2],
    dots: &mut [u16],
) -> Result<(), Reply> {
    let bank = [0; narephon::BANK];
    narephon::draw_layers(record, &bank, &bank, &lines[0], &lines[1], 32, dots)
}

const NONE: u16 = narephon::TRANSPARENT;
const PRIORITY: u16 = narephon::PRIORITY;

/// What shows in each of the orders SLU, LSU, SUL, LUS, USL and ULS.
#[test]
fn orders_of_layers() {
    let table = [
        ((0, 7, 9), [9, 7, 9, 7, 448, 448]),
        ((1, 7, NONE), [7, 7, 448, 7, 448, 448]),
        ((2, NONE, 9), [9, 9, 9, 448, 448, 448]),
        ((3, NONE, NONE), [448; 6]),
        ((4, 7 + PRIORITY, 9), [7; 6]),
        ((64, 7, 9), [9, 7, 9, 7, 9, 7]),
        ((65, 7, NONE), [7; 6]),
        ((66, NONE, 9), [9; 6]),
        ((67, NONE, NONE), [56; 6]),
        ((575, PRIORITY, 511), [0; 6]),
        ((639, 511 + PRIORITY, NONE), [511; 6]),
    ];
    let lines = lent(&table.map(|(dots, _)| dots));
    for order in 0..6 {
        let record = layered((order * 4) as u8);
        for record in [&record[..], &old_of(&record)] {
            let mut dots = [1; narephon::DOTS];
            assert_eq!(draw_layered(record, &lines, &mut dots), Ok(()));
            for ((place, ..), shown) in table {
                assert_eq!(dots[place], shown[order], "order {order}, dot {place}");
            }
        }
    }
}

#[test]
fn refused_layers() {
    let mut dots = [1; narephon::DOTS];
    let none = lent(&[]);
    for control in [0x18, 0x1C, 0x7B] {
        let record = layered(control);
        assert_eq!(draw_layered(&record, &none, &mut dots), Err(Reply::NoOrder));
        let bad = lent(&[(0, 513, 513)]);
        assert_eq!(draw_layered(&record, &bad, &mut dots), Err(Reply::NoOrder));
    }
    let record = layered(0);
    for bad in [513, 1_023, 1_536, 2_047, u16::MAX] {
        for lines in [lent(&[(639, bad, 9)]), lent(&[(0, PRIORITY, bad)])] {
            assert_eq!(draw_layered(&record, &lines, &mut dots), Err(Reply::BadDot));
        }
    }
    let sprite = lent(&[(320, PRIORITY, PRIORITY)]);
    assert_eq!(
        draw_layered(&record, &sprite, &mut dots),
        Err(Reply::BadDot)
    );
    let bank = [0; narephon::BANK];
    for (layer2, sprites, length) in [(639, 640, 640), (640, 639, 640), (640, 640, 639)] {
        let (layer2, sprites) = (&none[0][..layer2], &none[1][..sprites]);
        let dots = &mut dots[..length];
        let short = narephon::draw_layers(&record, &bank, &bank, layer2, sprites, 0, dots);
        assert_eq!(short, Err(Reply::BufferLength));
    }
    assert!(dots == [1; narephon::DOTS]);
}

#[test]
fn packings() {
    let mut picture = [0; narephon::PICTURE];
    let mut map = [1; narephon::MAP];
    let mut definitions = [1; narephon::DEFINITIONS];
    // A dot in the corner of the first cell makes a second tile.
    picture[0] = 0x10;
    let none = narephon::pack(&picture, 1, 0, &mut map, &mut definitions);
    assert_eq!(none, Err(Reply::TooManyTiles));
    assert!(map == [1; narephon::MAP] && definitions == [1; narephon::DEFINITIONS]);
    let both = narephon::pack(&picture, 256, 0, &mut map, &mut definitions);
    assert_eq!(both, Ok(2));
    assert_eq!(narephon::fewest(&picture), Ok(2));
    let short = narephon::fewest(&picture[1..]);
    assert_eq!(short, Err(Reply::BufferLength));
    assert_eq!(
        (map[0], map[2], definitions[0], definitions[32]),
        (0, 1, 0x10, 0)
    );
}

/// More different cells than a map can name: each has its number in its first four pixels.
#[test]
fn no_map_draws() {
    let mut picture = [0; narephon::PICTURE];
    for cell in 0..1280 {
        let place = cell / 40 * 8 * 160 + cell % 40 * 4;
        picture[place] = (cell / 256) as u8;
        picture[place + 1] = cell as u8;
    }
    assert_eq!(narephon::fewest(&picture), Err(Reply::TooManyTiles));
}

/// A file of a length, with a port byte of mode 6 where one belongs.
fn screen_file(length: usize) -> Vec<u8> {
    let mut file: Vec<u8> = (0..length).map(|at| (at % 251) as u8).collect();
    if length % 64 == 1 {
        file[12_288] = 0xEE;
    }
    file
}

/// Each form read and written back. The colours are the file's own bytes.
#[test]
fn screen_files() {
    for (length, screen, port) in [
        (6_912, 6_912, 0),
        (6_976, 6_912, 0),
        (12_288, 12_288, 2),
        (12_352, 12_288, 2),
        (12_289, 12_289, 0xEE),
        (12_353, 12_289, 0xEE),
    ] {
        let file = screen_file(length);
        let (mut record, mut bank) = (narephon::reset(), [0xFF; narephon::BANK]);
        let colours = narephon::read_scr(&mut record, &mut bank, &file).expect("a screen");
        let own = &file[screen..];
        assert_eq!(colours, own);
        assert!(own.is_empty() || std::ptr::eq(colours, own));
        assert_eq!(narephon::read_port(&record, 0xFF), Ok(port));
        let first = if screen == 6_912 { 6_912 } else { 6_144 };
        assert!(bank[..first] == file[..first]);
        assert!(bank[first..8_192].iter().all(|&byte| byte == 0xFF));
        let mut written = [7; narephon::SCREEN];
        let whole = narephon::write_scr(&record, &bank, &mut written);
        assert!(whole == Ok(&file[..]));
        assert!(written[length..].iter().all(|&byte| byte == 7));
    }
}

#[test]
fn refused_screen_files() {
    let (mut record, mut bank) = (narephon::reset(), [0xFF; narephon::BANK]);
    let kept = record;
    let mut file = screen_file(12_289);
    file[12_288] = 0xEF;
    let port = narephon::read_scr(&mut record, &mut bank, &file);
    assert_eq!(port, Err(Reply::NoForm));
    let empty = narephon::read_scr(&mut record, &mut bank, &[]);
    assert_eq!(empty, Err(Reply::NoForm));
    let short = narephon::read_scr(&mut record[1..], &mut bank, &[]);
    assert_eq!(short, Err(Reply::WrongCount));
    let bank_length = narephon::read_scr(&mut record[1..], &mut bank[1..], &[]);
    assert_eq!(bank_length, Err(Reply::BankLength));
    assert!(record == kept && bank == [0xFF; narephon::BANK]);
    let mut written = [7; narephon::SCREEN];
    assert_eq!(narephon::write_register(&mut record, 0x15, 0x80), Ok(()));
    for (record, bank, first, reply) in [
        (&record[..], &bank[..], 0, Reply::NoForm),
        (&record[1..], &bank[..], 0, Reply::WrongCount),
        (&record[1..], &bank[..], 1, Reply::BufferLength),
        (&record[1..], &bank[1..], 1, Reply::BankLength),
    ] {
        let answer = narephon::write_scr(record, bank, &mut written[first..]);
        assert_eq!(answer, Err(reply));
    }
    assert!(written == [7; narephon::SCREEN]);
}

/// The wrapper and the C header have one version.
#[test]
fn one_version() {
    let header = include_str!("../../../c/narephon.h");
    let line = format!("#define NAREPHON_VERSION \"{}\"", narephon::VERSION);
    assert!(header.lines().any(|said| said == line));
}

/// A member sends the next half of a nine-bit colour, or any other byte.
fn write(bot: &mut HashMap<u16, [u8; narephon::RECORD]>, member: u16, number: u8, value: u8) {
    let record = bot.entry(member).or_insert_with(narephon::reset);
    assert_eq!(narephon::write_register(record, number, value), Ok(()));
}

/// Two members share a nickname and are kept apart by number: the half of one never meets a byte of the other.
#[test]
fn two_members() {
    let mut bot = HashMap::new();
    write(&mut bot, 7, 0x40, 12);
    write(&mut bot, 8, 0x40, 12);
    write(&mut bot, 7, 0x44, 0xE3);
    write(&mut bot, 8, 0x44, 0x1C);
    write(&mut bot, 8, 0x44, 1);
    assert_eq!(narephon::read_register(&bot[&8], 0x40), Ok(13));
    assert_eq!(narephon::read_register(&bot[&7], 0x40), Ok(12));
    write(&mut bot, 7, 0x44, 0);
    for (member, high, low) in [(7, 0xE3, 0), (8, 0x1C, 1)] {
        write(&mut bot, member, 0x40, 12);
        assert_eq!(narephon::read_register(&bot[&member], 0x41), Ok(high));
        assert_eq!(narephon::read_register(&bot[&member], 0x44), Ok(low));
    }
}

/// A member's screen, all lines, how many tiles a picture of hers needs, and her screen as a file.
fn screen(member: u8) -> (Vec<u16>, u32, Vec<u8>) {
    let mut record = narephon::reset();
    for (number, value) in [(0x14, 1), (0x43, 0), (0x40, 0), (0x6B, 0x80), (0x6F, 16)] {
        assert_eq!(narephon::write_register(&mut record, number, value), Ok(()));
    }
    for place in 0..=255 {
        let colour = member.wrapping_mul(29) ^ place;
        assert_eq!(narephon::write_register(&mut record, 0x41, colour), Ok(()));
    }
    let noise = |at: usize| (at * usize::from(2 * member + 1) + at / 7) as u8;
    let bank: Vec<u8> = (0..narephon::BANK).map(noise).collect();
    let mut dots = vec![0; 256 * narephon::DOTS];
    for (line, row) in dots.chunks_exact_mut(narephon::DOTS).enumerate() {
        let drawn = narephon::draw(&record, &bank, &bank, line as u32, row);
        assert_eq!(drawn, Ok(()));
    }
    let picture: Vec<u8> = (0..narephon::PICTURE)
        .map(|at| u8::from(at % 160 < usize::from(member)))
        .collect();
    let (mut map, mut definitions) = ([0; narephon::MAP], [0; narephon::DEFINITIONS]);
    let count = narephon::pack(&picture, 256, 0, &mut map, &mut definitions);
    (dots, count.expect("few classes"), kept_file(&record, &bank))
}

/// A screen as a file, which reads back into another bank.
fn kept_file(record: &[u8], bank: &[u8]) -> Vec<u8> {
    let mut file = [0; narephon::SCREEN];
    let written = narephon::write_scr(record, bank, &mut file).expect("mode 0");
    let (mut other, mut empty) = (narephon::reset(), [0; narephon::BANK]);
    assert_eq!(
        narephon::read_scr(&mut other, &mut empty, written),
        Ok(&[][..])
    );
    assert!(empty[..6_912] == bank[..6_912]);
    written.to_vec()
}

/// Calls on separate buffers may run side by side: what each thread gets is what its member gets alone.
#[test]
fn side_by_side() {
    let alone: Vec<_> = (0..8).map(screen).collect();
    assert!(alone.windows(2).all(|pair| pair[0].0 != pair[1].0));
    let threads = (0..8).map(|member| {
        std::thread::spawn(move || (0..10).map(|_| screen(member)).collect::<Vec<_>>())
    });
    let threads: Vec<_> = threads.collect();
    for (thread, wanted) in threads.into_iter().zip(&alone) {
        let got = thread.join().expect("no call panics");
        assert!(got.iter().all(|screen| screen == wanted));
    }
}
