//! Each call on a desk, with its refusals.

use narephon::{Desk, Reply, BANK, DESK, DOTS, OLD_RECORD, RECORD, SEATS};

/// Bytes of a seat: the held byte, the number and a record.
const SEAT: usize = 1 + 2 + RECORD;

/// Where a byte of the record in a seat stands.
fn place(seat: usize, record_place: usize) -> usize {
    seat * SEAT + 3 + record_place
}

/// A desk with members seated in this order.
fn desk_of(members: &[u16]) -> Desk {
    let mut desk = Desk::new();
    for &member in members {
        assert_eq!(desk.open(member), Ok(()));
    }
    desk
}

/// Members 100 to 115.
fn full() -> Desk {
    desk_of(&(100..116).collect::<Vec<u16>>())
}

/// The same bytes but for some.
fn replaced(desk: &Desk, bytes: &[(usize, u8)]) -> Desk {
    let mut all = desk.as_bytes().to_vec();
    for &(place, byte) in bytes {
        all[place] = byte;
    }
    Desk::from_bytes(all)
}

const LINE: [u16; DOTS] = [1; DOTS];

/// What each call but start is refused by, for a member and with good arguments; the desk and the line stay.
fn refused(desk: &Desk, member: u16) -> [Reply; 8] {
    let (mut copy, mut dots, bank) = (desk.clone(), LINE, [0; BANK]);
    let answers = [
        copy.open(member),
        copy.close(member),
        copy.next_frame(member),
        copy.write_register(member, 0x14, 7),
        copy.write_port(member, 0xFE, 2),
        copy.read_register(member, 0x14).map(|_| ()),
        copy.read_port(member, 0xFF3B).map(|_| ()),
        copy.draw(member, &bank, &bank, 0, &mut dots),
    ];
    assert!(copy == *desk && dots == LINE);
    answers.map(|answer| answer.expect_err("a refusal"))
}

#[test]
fn lengths() {
    assert_eq!((DESK, SEATS), (34_480, 16));
    assert_eq!(SEATS * SEAT, DESK);
}

/// The bytes of a desk are all 0, then those of its seats.
#[test]
fn seats() {
    let desk = Desk::new();
    assert!(desk.as_bytes() == [0; DESK] && Desk::default() == desk);
    let members = [0, 65_535, 0x0102];
    let desk = desk_of(&members);
    let mut wanted = [0; DESK];
    for (seat, member) in wanted.chunks_mut(SEAT).zip(members) {
        seat[0] = 1;
        seat[1..3].copy_from_slice(&member.to_be_bytes());
        seat[3..].copy_from_slice(&narephon::reset());
    }
    assert!(desk.as_bytes() == wanted);
    assert!(Desk::from_bytes(desk.as_bytes()) == desk);
    assert!(desk.into_bytes() == wanted);
}

#[test]
fn started_again() {
    let mut desk = full();
    assert_eq!(desk.start(), Ok(()));
    assert!(desk == Desk::new());
    let mut noise = Desk::from_bytes([0xAA; DESK]);
    assert_eq!(noise.start(), Ok(()));
    assert!(noise == Desk::new());
    for length in [0, 1, RECORD, SEAT, DESK - 1, DESK + 1] {
        let mut other = Desk::from_bytes(vec![0xAA; length]);
        assert_eq!(other.start(), Err(Reply::BufferLength));
        assert!(other.as_bytes() == vec![0xAA; length]);
    }
}

#[test]
fn opened_and_closed() {
    let mut desk = full();
    let kept = desk.clone();
    assert_eq!(desk.open(116), Err(Reply::DeskFull));
    assert_eq!(desk.open(107), Err(Reply::AlreadyOpen));
    assert_eq!(desk.close(116), Err(Reply::NotOpen));
    assert!(desk == kept);
    // The low byte of the last colour ends the seat.
    let mut desk = replaced(&desk, &[(place(7, 3), 7), (place(7, RECORD - 1), 7)]);
    assert_eq!(desk.close(107), Ok(()));
    let mut wanted = kept.into_bytes();
    wanted[7 * SEAT..8 * SEAT].fill(0);
    assert!(desk.as_bytes() == wanted);
    // The seat goes to the next, and nothing of it was kept.
    assert_eq!(desk.open(116), Ok(()));
    let [high, low] = 116u16.to_be_bytes();
    assert_eq!(desk.as_bytes()[7 * SEAT..place(7, 0)], [1, high, low]);
    assert!(desk.as_bytes()[place(7, 0)..8 * SEAT] == narephon::reset());
}

#[test]
fn registers_and_ports() {
    let mut desk = desk_of(&[7, 0x0700]);
    assert_eq!(desk.write_register(7, 0x14, 9), Ok(()));
    assert_eq!(desk.read_register(7, 0x14), Ok(9));
    assert_eq!(desk.read_register(0x0700, 0x14), Ok(0xE3));
    assert_eq!(desk.write_register(0x0700, 0x08, 4), Ok(()));
    assert_eq!(desk.write_port(0x0700, 0xFF, 6), Ok(()));
    assert_eq!(desk.read_port(0x0700, 0xFF), Ok(6));
    assert_eq!(desk.read_port(7, 0xFF), Err(Reply::NoRegister));
    assert_eq!(desk.next_frame(7), Ok(()));
    // The frame stands at 39 of a record.
    let bytes = desk.as_bytes();
    assert_eq!((bytes[place(0, 39)], bytes[place(1, 39)]), (1, 0));
    let kept = desk.clone();
    assert_eq!(desk.write_register(7, 0x00, 0), Err(Reply::NoRegister));
    assert_eq!(desk.write_register(7, 0x42, 5), Err(Reply::OutOfBounds));
    assert_eq!(desk.write_port(7, 0xFD, 0), Err(Reply::NoRegister));
    assert_eq!(desk.write_port(7, 0xBF3B, 128), Err(Reply::OutOfBounds));
    assert_eq!(desk.read_register(7, 0x00), Err(Reply::NoRegister));
    assert!(desk == kept);
}

/// Two members with half a nine-bit colour each.
#[test]
fn two_halves() {
    let mut desk = desk_of(&[7, 8]);
    for (member, value) in [(7, 0xE3), (8, 0x1C), (8, 1), (7, 0)] {
        assert_eq!(desk.write_register(member, 0x44, value), Ok(()));
    }
    for (member, high, low) in [(7, 0xE3, 0), (8, 0x1C, 1)] {
        assert_eq!(desk.read_register(member, 0x40), Ok(1));
        assert_eq!(desk.write_register(member, 0x40, 0), Ok(()));
        assert_eq!(desk.read_register(member, 0x41), Ok(high));
        assert_eq!(desk.read_register(member, 0x44), Ok(low));
    }
}

/// Line 0 is border: red for one member, black for the other.
#[test]
fn lines() {
    let mut desk = desk_of(&[7, 8]);
    for (number, value) in [(0x40, 16), (0x41, 0xE0)] {
        assert_eq!(desk.write_register(8, number, value), Ok(()));
    }
    let bank = [0; BANK];
    for (member, colour) in [(7, 0), (8, 448)] {
        let mut dots = LINE;
        assert_eq!(desk.draw(member, &bank, &bank, 0, &mut dots), Ok(()));
        assert!(dots == [colour; DOTS]);
    }
    // LoRes beside a tilemap; then what comes before it.
    assert_eq!(desk.write_register(8, 0x15, 0x80), Ok(()));
    assert_eq!(desk.write_register(8, 0x6B, 0x80), Ok(()));
    let bad = replaced(&desk, &[(0, 2)]);
    for (desk, member, line, bank_length, length, reply) in [
        (&desk, 8, 255, BANK, DOTS, Reply::LoresWithTiles),
        (&desk, 8, 255, BANK, 639, Reply::BufferLength),
        (&desk, 8, 255, 16_383, 639, Reply::BankLength),
        (&desk, 8, 256, 16_383, 639, Reply::NoLine),
        (&desk, 9, 256, 16_383, 639, Reply::NotOpen),
        (&bad, 9, 256, 16_383, 639, Reply::BadDesk),
    ] {
        let (bank, mut dots) = (&bank[..bank_length], LINE);
        let answer = desk.draw(member, bank, bank, line, &mut dots[..length]);
        assert_eq!(answer, Err(reply));
        assert!(dots == LINE);
    }
}

/// A member without a seat; a number of which one byte is another's.
#[test]
fn not_open() {
    let desk = desk_of(&[0x0007, 0x0100]);
    for member in [0, 0x0107, 0x0700, 0x0001, 65_535] {
        let mut other = desk.clone();
        assert_eq!(other.open(member), Ok(()));
        assert_eq!(other.close(member), Ok(()));
        assert_eq!(other.close(member), Err(Reply::NotOpen));
        assert!(other == desk);
        assert_eq!(other.write_register(member, 0x00, 0), Err(Reply::NotOpen));
        assert_eq!(other.read_port(member, 0xFE), Err(Reply::NotOpen));
    }
}

/// Bytes that are no desk, each for one thing in its last seats.
#[test]
fn no_desks() {
    let desk = full();
    let mut old = [0; RECORD];
    old[..OLD_RECORD].copy_from_slice(&narephon::move_back(&narephon::reset()).expect("no scroll"));
    let mut old_seat = desk.as_bytes().to_vec();
    old_seat[place(15, 0)..].copy_from_slice(&old);
    let empty = Desk::new();
    for bad in [
        replaced(&desk, &[(15 * SEAT, 2)]),
        replaced(&desk, &[(15 * SEAT, 0)]),
        replaced(&desk, &[(15 * SEAT + 2, 114)]),
        replaced(&desk, &[(place(15, 2), 1)]),
        replaced(&desk, &[(place(15, 35), 8)]),
        replaced(&empty, &[(DESK - 1, 1)]),
        replaced(&empty, &[(15 * SEAT, 1)]),
        Desk::from_bytes(old_seat),
        Desk::from_bytes(&desk.as_bytes()[1..]),
        Desk::from_bytes([desk.as_bytes(), &[0]].concat()),
        Desk::from_bytes([]),
    ] {
        for member in [100, 115, 5] {
            assert_eq!(refused(&bad, member), [Reply::BadDesk; 8]);
        }
    }
}

/// A desk that was handed to another thread, and read there by several.
#[test]
fn threads() {
    let mut desk = std::thread::spawn(full).join().expect("no call panics");
    for member in 100..116 {
        assert_eq!(desk.write_register(member, 0x14, member as u8), Ok(()));
    }
    std::thread::scope(|scope| {
        for member in 100..116 {
            let desk = &desk;
            scope.spawn(move || {
                for _ in 0..100 {
                    assert_eq!(desk.read_register(member, 0x14), Ok(member as u8));
                }
            });
        }
    });
}
