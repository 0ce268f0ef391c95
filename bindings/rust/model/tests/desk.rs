//! The desk: section 16.

mod common;

use common::{all_at_once, bank, counting, old_record_of, record_of};
use model::desk::{
    close, draw, next_frame, open, read_port, read_register, start, write_port, write_register,
    DESK_LENGTH, SEATS, SEAT_LENGTH,
};
use model::{State, DOTS};

/// Rules 3.2 and 7.2: the bytes of the reset state's record that are not 0: the
/// number, the version, $14, $42, $4C and the two clips.
const RESET: [(usize, u8); 10] = [
    (0, 8),
    (1, 102),
    (2, 2),
    (3, 0xE3),
    (8, 15),
    (10, 15),
    (24, 255),
    (26, 191),
    (28, 159),
    (30, 255),
];

/// Where a byte of the record in a seat stands.
fn place(seat: usize, record_place: usize) -> usize {
    seat * 2_155 + 3 + record_place
}

/// A desk where some seats have been opened, by hand.
fn desk_of(members: &[(usize, u16)]) -> Vec<u8> {
    let mut desk = vec![0; 34_480];
    for &(seat, member) in members {
        desk[seat * 2_155] = 1;
        desk[seat * 2_155 + 1] = (member / 256) as u8;
        desk[seat * 2_155 + 2] = (member % 256) as u8;
        for (record_place, byte) in RESET {
            desk[place(seat, record_place)] = byte;
        }
    }
    desk
}

/// Sixteen members, 1,000 to 1,015.
fn full() -> Vec<u8> {
    let members: Vec<(usize, u16)> = (0..16).zip(1_000..).collect();
    desk_of(&members)
}

/// The same desk but for some bytes.
fn with(desk: &[u8], bytes: &[(usize, u8)]) -> Vec<u8> {
    let mut desk = desk.to_vec();
    for &(place, byte) in bytes {
        desk[place] = byte;
    }
    desk
}

/// The same desk with another record in a seat.
fn with_record(desk: &[u8], seat: usize, record: &[u8]) -> Vec<u8> {
    let mut desk = desk.to_vec();
    desk[place(seat, 0)..][..record.len()].copy_from_slice(record);
    desk
}

/// Every call but start, with arguments that nothing is wrong with.
fn replies(desk: &[u8], member: u16) -> [u8; 8] {
    let good = bank(&[]);
    let changes = [
        open(desk, member),
        close(desk, member),
        next_frame(desk, member),
        write_register(desk, member, 0x14, 7),
        write_port(desk, member, 0xFE, 7),
    ];
    let reads = [
        read_register(desk, member, 0x14),
        read_port(desk, member, 0xFF3B),
    ];
    let mut out = [0xAAAA; DOTS];
    let drawn = draw(desk, member, 0, &good, &good, &mut out);
    assert_eq!(drawn != 0, out == [0xAAAA; DOTS]);
    for (reply, after) in &changes {
        assert!(*reply == 0 || after == desk);
    }
    for (reply, value) in reads {
        assert!(reply == 0 || value == 0);
    }
    let [a, b, c, d, e] = changes.map(|(reply, _)| reply);
    let [f, g] = reads.map(|(reply, _)| reply);
    [a, b, c, d, e, f, g, drawn]
}

/// Rule 16.1.
#[test]
fn lengths() {
    assert_eq!((DESK_LENGTH, SEATS, SEAT_LENGTH), (34_480, 16, 2_155));
    assert_eq!(SEATS * SEAT_LENGTH, DESK_LENGTH);
    assert_eq!(SEAT_LENGTH, 1 + 2 + 2_152);
}

/// Rules 16.3 and 9.3: nothing matters but the length.
#[test]
fn starts() {
    for bytes in [vec![0; 34_480], vec![0xAA; 34_480], full()] {
        assert_eq!(start(&bytes), (0, vec![0; 34_480]));
    }
    for length in [0, 1, 2_152, 2_155, 34_479, 34_481, 68_960] {
        let bytes = vec![0xAA; length];
        assert_eq!(start(&bytes), (3, bytes));
    }
}

/// Rules 16.1 and 16.4.
#[test]
fn a_seat_is_opened() {
    let empty = vec![0; 34_480];
    for member in [0, 1, 0x0102, 0x0201, 0xFF00, 0xFFFF] {
        let (reply, one) = open(&empty, member);
        assert_eq!(reply, 0);
        assert!(one == desk_of(&[(0, member)]), "{member}");
        assert_eq!(replies(&one, member), [22, 0, 0, 0, 0, 0, 0, 0]);
        // The two bytes of the number the other way about, and a bit of either.
        let others = [member.swap_bytes(), member ^ 0x0001, member ^ 0x0100];
        for other in others.into_iter().filter(|&other| other != member) {
            assert_eq!(replies(&one, other), [0, 23, 23, 23, 23, 23, 23, 23]);
        }
    }
}

/// Rule 16.4: the first free seat is taken, whoever sat there.
#[test]
fn the_first_free_seat() {
    let mut desk = vec![0; 34_480];
    for member in 1_000..1_016 {
        let (reply, after) = open(&desk, member);
        assert_eq!(reply, 0);
        desk = after;
    }
    assert!(desk == full());
    let members = [(2, 1_002), (9, 1_009), (15, 1_015)];
    for (_, member) in members {
        desk = close(&desk, member).1;
    }
    for (member, seat) in [(1_009, 2), (7, 9), (1_002, 15)] {
        let (reply, after) = open(&desk, member);
        assert_eq!(reply, 0);
        let opened = desk_of(&[(seat, member)]);
        let own = seat * 2_155..(seat + 1) * 2_155;
        assert!(after[own.clone()] == opened[own.clone()]);
        assert!(after[..own.start] == desk[..own.start] && after[own.end..] == desk[own.end..]);
        desk = after;
    }
}

/// Rules 9.22, 9.24 and 10.14: on a full desk.
#[test]
fn no_seat_is_free() {
    let desk = full();
    for member in [0, 999, 1_016, 65_535] {
        assert_eq!(open(&desk, member), (24, desk.clone()));
    }
    for member in 1_000..1_016 {
        assert_eq!(open(&desk, member), (22, desk.clone()));
    }
}

/// Rule 16.5: each seat, with what was done in it; no other byte changes.
#[test]
fn a_seat_is_closed() {
    let desk = full();
    for (seat, member) in (0..16).zip(1_000..) {
        let used = with_record(&desk, seat, &record_of(&counting()));
        let (reply, after) = close(&used, member);
        assert_eq!(reply, 0);
        let others: Vec<(usize, u16)> = (0..16).zip(1_000..).filter(|&(s, _)| s != seat).collect();
        assert!(after == desk_of(&others), "seat {seat}");
        assert_eq!(close(&after, member), (23, after));
    }
}

/// Rule 16.6: of each seat the byte that the call is about: the frame at 39, $14 at
/// 3 and the border at 35 of the record.
#[test]
fn one_byte_changes() {
    let desk = full();
    for (seat, member) in (0..16).zip(1_000..) {
        for ((reply, after), record_place, byte) in [
            (next_frame(&desk, member), 39, 1),
            (write_register(&desk, member, 0x14, 7), 3, 7),
            (write_port(&desk, member, 0xFE, 2), 35, 2),
        ] {
            assert_eq!(reply, 0);
            assert!(after == with(&desk, &[(place(seat, record_place), byte)]));
        }
    }
    let last = with(&desk, &[(place(4, 39), 255)]);
    assert!(next_frame(&last, 1_004) == (0, desk));
}

/// Rule 16.6: what is read is the member's own.
#[test]
fn reads() {
    // $14, and the first ULAplus register, which port $FF3B reads.
    let desk = with(
        &full(),
        &[(place(3, 3), 9), (place(12, 3), 10), (place(12, 40), 11)],
    );
    for (member, register, port) in [
        (1_003, 9, 0),
        (1_012, 10, 11),
        (1_000, 0xE3, 0),
        (1_015, 0xE3, 0),
    ] {
        assert_eq!(read_register(&desk, member, 0x14), (0, register));
        assert_eq!(read_port(&desk, member, 0xFF3B), (0, port));
    }
}

/// A half of one member's colour does not meet the byte of another: 0xE3 × 2 + 1 is
/// 455, and 0x1C × 2 is 56.
#[test]
fn halves() {
    let mut desk = desk_of(&[(0, 0x0007), (1, 0x0700)]);
    for (member, value) in [(0x0007, 0xE3), (0x0700, 0x1C), (0x0007, 1), (0x0700, 0)] {
        let (reply, after) = write_register(&desk, member, 0x44, value);
        assert_eq!(reply, 0);
        desk = after;
    }
    // The index has moved on, at 7 of the record; the palettes start at 104.
    let wanted = with(
        &desk_of(&[(0, 0x0007), (1, 0x0700)]),
        &[
            (place(0, 7), 1),
            (place(0, 104), 1),
            (place(0, 105), 0xC7),
            (place(1, 7), 1),
            (place(1, 105), 56),
        ],
    );
    assert!(desk == wanted);
    // One that is held stands at 33 and 34; a refused second leaves it.
    let held = write_register(&desk, 0x0700, 0x44, 5).1;
    assert!(held == with(&desk, &[(place(1, 33), 1), (place(1, 34), 5)]));
    assert_eq!(write_register(&held, 0x0700, 0x44, 2), (10, held.clone()));
    assert_eq!(close(&held, 0x0007).0, 0);
}

/// Rule 16.6: the refusals of the call on a record.
#[test]
fn refused_as_on_a_record() {
    let desk = full();
    for (number, value, reply) in [(0x00, 0, 9), (0x42, 5, 10), (0x27, 192, 10)] {
        let refused = write_register(&desk, 1_007, number, value);
        assert_eq!(refused, (reply, desk.clone()));
    }
    for (port, value, reply) in [(0xFD, 0, 9), (0xBF3B, 128, 10)] {
        assert_eq!(write_port(&desk, 1_007, port, value), (reply, desk.clone()));
    }
    assert_eq!(read_register(&desk, 1_007, 0x00), (9, 0));
    assert_eq!(read_port(&desk, 1_007, 0xFE), (9, 0));
}

/// Line 0 is border, of index 16.
#[test]
fn lines() {
    let mut red = State::reset();
    red.palettes[0][16] = 448;
    let desk = with_record(&full(), 5, &record_of(&red));
    let good = bank(&[]);
    for (member, colour) in [(1_005, 448), (1_004, 0), (1_006, 0)] {
        let mut out = [0xAAAA; DOTS];
        assert_eq!(draw(&desk, member, 0, &good, &good, &mut out), 0);
        assert!(out == [colour; DOTS]);
    }
}

/// Desks with one thing wrong, in a seat.
fn bad_desks(seat: usize) -> Vec<Vec<u8>> {
    let (desk, free) = (full(), vec![0; 34_480]);
    let first = seat * 2_155;
    let [high, low] = before(seat).to_be_bytes();
    let mut old = old_record_of(&State::reset());
    old.extend([0, 0]);
    vec![
        // The held byte, of a seat with a record and of one without.
        with(&desk, &[(first, 0)]),
        with(&desk, &[(first, 2)]),
        with(&desk, &[(first, 255)]),
        with(&free, &[(first, 1)]),
        with(&free, &[(first, 2)]),
        // A free seat that is not all 0.
        with(&free, &[(first + 1, 1)]),
        with(&free, &[(first + 2, 1)]),
        with(&free, &[(first + 3, 8)]),
        with(&free, &[(first + 2_154, 1)]),
        // A number twice.
        with(&desk, &[(first + 1, high), (first + 2, low)]),
        // A record of version 1, its version alone, one that there is not, and a number that is none.
        with_record(&desk, seat, &old),
        with(&desk, &[(place(seat, 2), 1)]),
        with(&desk, &[(place(seat, 2), 3)]),
        with(&desk, &[(place(seat, 1), 101)]),
        // An unlawful state: the border, and the last colour.
        with(&desk, &[(place(seat, 35), 8)]),
        with(&desk, &[(place(seat, 2_150), 2)]),
    ]
}

/// The member of the full desk who sits before a seat, or in the last.
fn before(seat: usize) -> u16 {
    1_000 + (seat as u16 + 15) % 16
}

/// Rules 16.2 and 9.21: every call but start refuses.
#[test]
fn not_well_formed() {
    for seat in 0..16 {
        for bad in bad_desks(seat) {
            for member in [0, 1_000 + seat as u16, before(seat), 65_535] {
                assert_eq!(replies(&bad, member), [21; 8]);
            }
        }
    }
}

/// Rules 16.2 and 9.21: the length.
#[test]
fn no_desk() {
    let mut bytes = full();
    bytes.extend(full());
    for length in [0, 1, 2_155, 32_325, 34_479, 34_481, 36_635, 68_960] {
        assert_eq!(replies(&bytes[..length], 1_000), [21; 8]);
        assert_eq!(replies(&vec![0; length], 1_000), [21; 8]);
    }
}

/// Rule 16.2: any numbers that differ, any lawful records, and free seats anywhere.
#[test]
fn well_formed() {
    let mut held = counting();
    (held.held, held.half) = (true, 0xAA);
    let desk = desk_of(&[(1, 0), (7, 0x0100), (15, 0x0001)]);
    let desk = with_record(&desk, 15, &record_of(&held));
    for member in [0, 0x0100, 0x0001] {
        assert_eq!(replies(&desk, member), [22, 0, 0, 0, 0, 0, 0, 0]);
    }
    assert_eq!(replies(&desk, 0x0101), [0, 23, 23, 23, 23, 23, 23, 23]);
}

/// Rule 10.14: 21, then 23, then the refusals of the call on a record.
#[test]
fn the_order_of_replies() {
    let desk = full();
    let bad = with(&desk, &[(place(15, 35), 8)]);
    for (desk, member, reply) in [(&bad, 1_000, 21), (&bad, 5, 21), (&desk, 5, 23)] {
        let kept = (reply, desk.clone());
        assert_eq!(write_register(desk, member, 0x00, 0), kept);
        assert_eq!(write_register(desk, member, 0x42, 5), kept);
        assert_eq!(write_port(desk, member, 0xFD, 0), kept);
        assert_eq!(write_port(desk, member, 0xBF3B, 128), kept);
        assert_eq!(read_register(desk, member, 0x00), (reply, 0));
        assert_eq!(read_port(desk, member, 0xFE), (reply, 0));
    }
}

/// The reply of a drawing that must be refused and leave the line as it came.
fn undrawn(desk: &[u8], member: u16, line: u32, bank_length: usize, length: usize) -> u8 {
    let bank = vec![0; bank_length];
    let mut out = vec![0xAAAA; length];
    let reply = draw(desk, member, line, &bank, &bank, &mut out);
    assert_ne!(reply, 0);
    assert!(out.iter().all(|&dot| dot == 0xAAAA));
    reply
}

/// Rule 10.14: 21, 23, 1, 2, 3, 6, 7, 5, 8.
#[test]
fn the_order_of_a_drawing() {
    let mut state = all_at_once();
    state.layers |= 0x80;
    let on_desk = |state: &State| with_record(&full(), 8, &record_of(state));
    let desk = on_desk(&state);
    let bad = with(&desk, &[(0, 2)]);
    assert_eq!(undrawn(&bad, 5, 256, 5, 5), 21);
    assert_eq!(undrawn(&desk, 5, 256, 5, 5), 23);
    assert_eq!(undrawn(&desk, 1_008, 256, 5, 5), 1);
    assert_eq!(undrawn(&desk, 1_008, 255, 5, 5), 2);
    assert_eq!(undrawn(&desk, 1_008, 255, 16_384, 5), 3);
    assert_eq!(undrawn(&desk, 1_008, 255, 16_384, 640), 6);
    state.layers &= 0x7F;
    assert_eq!(undrawn(&on_desk(&state), 1_008, 255, 16_384, 640), 7);
    state.plus_on = false;
    assert_eq!(undrawn(&on_desk(&state), 1_008, 255, 16_384, 640), 5);
    state.timex = 6;
    assert_eq!(undrawn(&on_desk(&state), 1_008, 255, 16_384, 640), 8);
    state.tile_x_high = 0;
    assert_eq!(replies(&on_desk(&state), 1_008)[7], 0);
}
