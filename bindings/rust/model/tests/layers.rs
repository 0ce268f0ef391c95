//! Lent layers: section 15.

mod common;

use common::{all_at_once, bank, counting, dots, old_record_of, record_of, timex, FALLBACK};
use model::layers::{lent_draw_layers, order, Layer, LentDot};
use model::{draw_layers, LentLines, State, DOTS};

/// A transparent dot of a lent line.
const NONE: u16 = 512;

/// Two lent lines, transparent but for some places: those of Layer 2 first.
struct Lent([[u16; DOTS]; 2]);

impl Lent {
    fn of(places: &[(usize, u16, u16)]) -> Lent {
        let mut lines = [[NONE; DOTS]; 2];
        for &(place, layer2, sprite) in places {
            lines[0][place] = layer2;
            lines[1][place] = sprite;
        }
        Lent(lines)
    }

    fn lines(&self) -> LentLines<'_> {
        LentLines {
            layer2: &self.0[0],
            sprites: &self.0[1],
        }
    }
}

/// A line that must draw.
fn layered(line: u32, ula: &[u8], tile: &[u8], lent: &Lent, state: &State) -> [u16; DOTS] {
    let mut out = [0xAAAA; DOTS];
    let reply = draw_layers(line, ula, tile, lent.lines(), state, &mut out);
    assert_eq!(reply, 0);
    assert!(out.iter().all(|&dot| dot <= 511));
    out
}

/// The reply of a drawing that must be refused and leave the line as it came.
fn refused(lent: &Lent, state: &State) -> u8 {
    let good = bank(&[]);
    let mut out = [0xAAAA; DOTS];
    let reply = draw_layers(0, &good, &good, lent.lines(), state, &mut out);
    assert_ne!(reply, 0);
    assert!(out == [0xAAAA; DOTS]);
    reply
}

/// The counting state in an order, its display clipped away: on line 32, U is the
/// border's 16 up to dot 63 and from 576 on, and transparent between.
fn clipped(bits: u8) -> State {
    let mut state = counting();
    state.layers = bits * 4;
    state.ula_clip = [255, 0, 0, 191];
    state
}

/// Rule 15.2.
#[test]
fn the_orders() {
    use Layer::{Sprites, Two, Ula};
    for (bits, layers) in [
        (0b000, Some([Sprites, Two, Ula])),
        (0b001, Some([Two, Sprites, Ula])),
        (0b010, Some([Sprites, Ula, Two])),
        (0b011, Some([Two, Ula, Sprites])),
        (0b100, Some([Ula, Sprites, Two])),
        (0b101, Some([Ula, Two, Sprites])),
        (0b110, None),
        (0b111, None),
    ] {
        // No other bit of $15 matters.
        for others in (0..=255).map(|byte: u8| byte & 0b1110_0011) {
            let mut state = State::reset();
            state.layers = others | bits << 2;
            assert_eq!(order(&state), layers, "{bits:03b} {others:08b}");
        }
    }
}

/// Rule 15.1: of all numbers.
#[test]
fn numbers_of_lent_lines() {
    for number in 0..=u16::MAX {
        let [layer2, sprite] = match number {
            0..=511 => [LentDot::Colour(number); 2],
            512 => [LentDot::Transparent; 2],
            _ if number & 0xFE00 == 0x0400 => [LentDot::Priority(number & 0x01FF), LentDot::Bad],
            _ => [LentDot::Bad; 2],
        };
        assert_eq!(LentDot::of_layer2(number), layer2);
        assert_eq!(LentDot::of_sprites(number), sprite);
    }
}

/// Rule 15.3: a place, the numbers of Layer 2 and of the sprites, and what shows in
/// the orders SLU, LSU, SUL, LUS, USL and ULS. U is 16, and from place 64 on
/// transparent.
const SHOWN: [((usize, u16, u16), [u16; 6]); 14] = [
    ((0, 100, 200), [200, 100, 200, 100, 16, 16]),
    ((1, 100, NONE), [100, 100, 16, 100, 16, 16]),
    ((2, NONE, 200), [200, 200, 200, 16, 16, 16]),
    ((3, NONE, NONE), [16; 6]),
    ((4, 1_124, 200), [100; 6]),
    ((5, 1_124, NONE), [100; 6]),
    ((64, 100, 200), [200, 100, 200, 100, 200, 100]),
    ((65, 100, NONE), [100; 6]),
    ((66, NONE, 200), [200; 6]),
    ((67, NONE, NONE), [FALLBACK; 6]),
    ((68, 1_024, 0), [0; 6]),
    ((69, 1_535, 511), [511; 6]),
    ((70, 511, 0), [0, 511, 0, 511, 0, 511]),
    ((639, 1_124, 200), [100; 6]),
];

#[test]
fn what_shows() {
    let lent = Lent::of(&SHOWN.map(|(places, _)| places));
    let good = bank(&[]);
    for bits in 0..6 {
        let state = clipped(bits);
        let out = layered(32, &good, &good, &lent, &state);
        for ((place, ..), shown) in SHOWN {
            assert_eq!(out[place], shown[usize::from(bits)], "{bits:03b} {place}");
        }
        assert_eq!((out[6], out[71]), (16, FALLBACK));
    }
}

/// Rule 15.3: $14 makes U transparent, and no dot of a lent line.
#[test]
fn the_transparent_colour() {
    let mut state = clipped(0b100);
    // 16 and 17: the border, and what is lent.
    state.transparent = 8;
    let lent = Lent::of(&[(0, 16, NONE), (1, NONE, 17), (2, 1_040, 17)]);
    let good = bank(&[]);
    let out = layered(32, &good, &good, &lent, &state);
    assert_eq!(out[..4], [16, 17, 16, FALLBACK]);
}

/// Rule 15.2: U is the composed dot: a tile above the ULA, and where the stencil has
/// either transparent, none.
#[test]
fn the_tilemap_is_in_the_same_layer() {
    let mut state = clipped(0b011);
    state.tile_control = 0x80;
    state.definition_base = 16;
    state.tile_transparent = 0;
    // The first tile's first row: pixels 3, 3 and then 0, which is transparent.
    let tile = bank(&[(4_096, 0x33)]);
    let lent = Lent::of(&[
        (0, NONE, 200),
        (1, 100, 200),
        (4, NONE, 200),
        (64, NONE, 200),
    ]);
    let good = bank(&[]);
    let out = layered(32, &good, &tile, &lent, &state);
    // Index 3 of the tilemap's first palette is 508.
    assert_eq!((out[0], out[1], out[2]), (508, 100, 508));
    // In the border the ULA is beneath, in the display nothing is.
    assert_eq!((out[4], out[5]), (16, 16));
    assert_eq!((out[64], out[65], out[68]), (508, 508, FALLBACK));
    state.ula_control = 1;
    let out = layered(32, &good, &tile, &lent, &state);
    // 508 AND 16 is 16; without a tile's colour nothing is left of U.
    assert_eq!((out[0], out[4], out[5], out[64]), (16, 200, FALLBACK, 200));
}

/// Rule 4.16: under mask 255 paper and border have the fallback's colour and are a
/// colour all the same, unless it is $14.
#[test]
fn paper_of_the_fallback() {
    let mut state = counting();
    state.layers = 0b100 * 4;
    state.palette_control = 1;
    state.ink_mask = 255;
    let lent = Lent::of(&[(0, NONE, 200), (64, 100, NONE), (66, 100, NONE)]);
    // The display's first pixel is ink, of index 0, and the second paper.
    let (ula, good) = (bank(&[(0, 0x80)]), bank(&[]));
    let out = layered(32, &ula, &good, &lent, &state);
    assert_eq!((out[0], out[64], out[66]), (FALLBACK, 0, FALLBACK));
    state.transparent = state.fallback;
    let out = layered(32, &ula, &good, &lent, &state);
    assert_eq!((out[0], out[64], out[66]), (200, 0, 100));
}

/// Both lent lines transparent: what a drawing draws.
#[test]
fn nothing_lent() {
    let ula: Vec<u8> = (0..16_384).map(|place| (place * 7 % 253) as u8).collect();
    for bits in 0..8 {
        for mode in [0, 1, 2, 6] {
            let mut state = timex(mode);
            state.layers = bits * 4;
            state.transparent = 3;
            let plain = dots(100, &ula, &ula, &state);
            if bits < 6 {
                let out = layered(100, &ula, &ula, &Lent::of(&[]), &state);
                assert!(out == plain, "{bits:03b}, mode {mode}");
            } else {
                assert_eq!(refused(&Lent::of(&[]), &state), 19);
            }
        }
    }
}

/// Rule 9.20: one number that is not allowed, in every place, hidden or not.
#[test]
fn bad_numbers() {
    for bits in 0..6 {
        let state = clipped(bits);
        for place in 0..DOTS {
            for bad in [513, 1_023, 1_536, 2_047, u16::MAX] {
                assert_eq!(refused(&Lent::of(&[(place, bad, 5)]), &state), 20);
                assert_eq!(refused(&Lent::of(&[(place, 5, bad)]), &state), 20);
            }
            // A sprite has no priority.
            assert_eq!(refused(&Lent::of(&[(place, 1_024, 1_024)]), &state), 20);
        }
    }
}

/// Rule 10.13: 1, 2, 3, 4, 6, 7, 5, 8, 19, 20.
#[test]
fn the_order_of_replies() {
    let good = bank(&[]);
    let bad = Lent::of(&[(639, 513, NONE)]);
    let mut state = all_at_once();
    state.border = 8;
    for (line, ula, layer2, sprites, length, reply) in [
        (256, 5, 5, 5, 5, 1),
        (255, 5, 5, 5, 5, 2),
        (255, 16_384, 639, 640, 640, 3),
        (255, 16_384, 640, 0, 640, 3),
        (255, 16_384, 640, 640, 320, 3),
    ] {
        let lent = LentLines {
            layer2: &bad.0[0][..layer2],
            sprites: &bad.0[1][..sprites],
        };
        let mut out = vec![0xAAAA; length];
        let got = draw_layers(line, &good[..ula], &good, lent, &state, &mut out);
        assert_eq!(got, reply);
        assert!(out.iter().all(|&dot| dot == 0xAAAA));
    }
    assert_eq!(refused(&bad, &state), 4);
    state.border = 7;
    state.layers |= 0x80;
    assert_eq!(refused(&bad, &state), 6);
    state.layers &= 0x7F;
    assert_eq!(refused(&bad, &state), 7);
    state.plus_on = false;
    assert_eq!(refused(&bad, &state), 5);
    state.timex = 6;
    assert_eq!(refused(&bad, &state), 8);
    state.tile_x_high = 0;
    assert_eq!(refused(&bad, &state), 19);
    state.layers = 0;
    assert_eq!(refused(&bad, &state), 20);
}

/// A record lent for the state, of either version: 16, 17 and 18 in the place of 4.
#[test]
fn layers_on_a_record() {
    let good = bank(&[]);
    let lent = Lent::of(&[(0, 100, NONE)]);
    let bad = Lent::of(&[(0, 513, NONE)]);
    let mut unlawful = record_of(&all_at_once());
    unlawful[35] = 8;
    let mut misnamed = unlawful.clone();
    misnamed[2] = 1;
    let drawn = |record: &[u8], lent: &Lent, length: usize| {
        let mut out = vec![0xAAAA; length];
        let reply = lent_draw_layers(32, &good, &good, lent.lines(), record, &mut out);
        assert_eq!(reply != 0, out.iter().all(|&dot| dot == 0xAAAA));
        (reply, out)
    };
    let state = clipped(0b001);
    for record in [record_of(&state), old_record_of(&state)] {
        let (reply, out) = drawn(&record, &lent, 640);
        assert_eq!((reply, out[0], out[1]), (0, 100, 16));
        assert_eq!(drawn(&record, &bad, 640).0, 20);
    }
    for (record, reply) in [(&unlawful, 18), (&misnamed, 17), (&vec![], 16)] {
        assert_eq!(drawn(record, &bad, 640).0, reply);
        assert_eq!(drawn(record, &bad, 639).0, 3);
    }
}
