//! Narephon measured against plain Rust written for speed, as Markdown tables.

use compare::desks::record_bytes;
use compare::layers::{layer2, sprites};
use compare::pictures;
use compare::random::Random;
use compare::states::{record_of, PORTS};
use compare::timing::{interleaved, print_costs, print_table, Figures, Row};
use compare::traces::{trace_of, Entry};
use model::{LentLines, State};
use narephon::Desk;
use std::hint::black_box;

const LINES: u32 = 256;
const DRAWING: f64 = 1.5;
const LAYERS: f64 = 1.3;
const CARRIED: f64 = 1.1;
const TRACED: f64 = 2.0;
const PACKING: f64 = 1.5;
const PACKING_PLAIN: f64 = 0.1;

const HOW: &str = "\
Both sides are built for release and given the same inputs. Their runs are interleaved, each going first in turn;
ratios are Narephon to fast. Buffers are reused from run to run and not cleared. Banks are noise, offsets are not 0,
nothing is clipped. Narephon's calls are given a record each time. Lent layers are Narephon beside Narephon: a line drawn
with them to the same line drawn without. They are noise, other in each line: a third of Layer 2 is transparent, a third
colours, a third colours with priority; half of the sprites is transparent, half colours. Desks are Narephon beside
Narephon too: a call by the member in the last held seat to the same call on a record. Carried previews are one call for
all lines, beside fast reading the record once and doing the same entries between its lines. Fast judges its state at
each line and each entry; where a table says so it judges it once, as it reads the record, which is what Narephon does.";

/// What the tables measure.
const BESIDE_FAST: [&str; 2] = ["Narephon", "fast"];
const BESIDE_PLAIN: [&str; 2] = ["draw_layers", "draw"];
const BESIDE_RECORD: [&str; 2] = ["desk", "record"];
const BESIDE_ONCE: [&str; 2] = ["judging each", "judging once"];

fn main() {
    let mut random = Random::new(1);
    println!("{HOW}");
    previews(&mut random);
    // Noise of its own, so that what the other tables are given stays.
    layers(&mut Random::new(2));
    records(&mut random);
    desks(&mut Random::new(3));
    packings(&mut random);
    traces(&mut Random::new(4));
}

/// A state with palettes at random, which both a ULA offset and a tilemap offset move.
fn base(random: &mut Random) -> State {
    let mut state = State::reset();
    for colour in state.palettes.iter_mut().flatten() {
        *colour = random.below(512) as u16;
    }
    for byte in &mut state.plus {
        *byte = random.byte();
    }
    state.peripheral = 4;
    (state.ula_x, state.ula_y) = (20, 50);
    (state.lores_x, state.lores_y) = (20, 50);
    (state.tile_x_low, state.tile_y) = (13, 77);
    // The map and its definitions, as far apart as 80 columns need.
    (state.map_base, state.definition_base) = (0, 0x20);
    state
}

/// The six screens of a preview.
fn screens(base: &State) -> Vec<(&'static str, State)> {
    let set = |change: fn(&mut State)| {
        let mut state = base.clone();
        change(&mut state);
        state
    };
    vec![
        ("mode 0", set(|_| {})),
        ("mode 2", set(|state| state.timex = 2)),
        ("mode 6", set(|state| state.timex = 6)),
        ("LoRes", set(|state| state.layers = 0x80)),
        ("mode 0, ULANext", set(|state| state.palette_control = 1)),
        ("mode 0, ULAplus", set(|state| state.plus_on = true)),
    ]
}

/// The six screens without a tilemap and with one.
fn screens_and_tiles(base: &State) -> Vec<(String, State)> {
    let mut all = Vec::new();
    for (name, screen) in screens(base) {
        for (tiles, control) in [("", 0), (", 40 columns", 0x80), (", 80 columns", 0xC0)] {
            // LoRes beside a tilemap is refused.
            if screen.lores() && control != 0 {
                continue;
            }
            let mut state = screen.clone();
            state.tile_control = control;
            all.push((format!("{name}{tiles}"), state));
        }
    }
    all
}

/// Whole previews, beside fast reading the record once and reading it for each line.
fn previews(random: &mut Random) {
    let base = base(random);
    let banks = [random.bytes(16_384), random.bytes(16_384)];
    let (mut once, mut each) = (Vec::new(), Vec::new());
    for (what, state) in screens_and_tiles(&base) {
        let [first, second] = preview(&what, &record_of(&state), &banks);
        once.push(first);
        each.push(second);
    }
    let title = "A whole preview, 256 lines";
    print_table(
        &format!("{title}; fast reads the record once"),
        BESIDE_FAST,
        &once,
    );
    let title = format!("{title}; fast reads the record for each line, as the exported call does");
    print_table(&title, BESIDE_FAST, &each);
}

/// A picture of 256 lines, each drawn into its own part.
struct Picture(Vec<u16>);

impl Picture {
    fn new() -> Picture {
        Picture(vec![0; LINES as usize * narephon::DOTS])
    }

    fn narephon(&mut self, record: &[u8], banks: &[Vec<u8>; 2]) {
        for (line, dots) in (0..LINES).zip(self.0.chunks_exact_mut(narephon::DOTS)) {
            let drawn = narephon::draw(black_box(record), &banks[0], &banks[1], line, dots);
            assert_eq!(drawn, Ok(()));
        }
        black_box(&self.0);
    }

    /// All lines by one call.
    fn carried(&mut self, record: &[u8], banks: &[Vec<u8>; 2], trace: &[u8]) {
        let [ula, tile] = banks;
        let lines = narephon::draw_carried(black_box(record), trace, ula, tile, &mut self.0);
        assert!(lines.is_ok_and(|lines| lines.iter().all(Result::is_ok)));
        black_box(&self.0);
    }

    /// Fast with the entries of each line done before it is drawn. It judges its state at each of both, or only where it
    /// reads it.
    fn fast_traced<const JUDGES: bool>(
        &mut self,
        record: &[u8],
        banks: &[Vec<u8>; 2],
        entries: &[Entry],
    ) {
        let (read, _, mut state) = fast::read_record(black_box(record));
        assert_eq!(read, 0);
        let draw = if JUDGES {
            fast::draw
        } else {
            fast::draw_lawful
        };
        let mut entries = entries.iter().peekable();
        for (line, dots) in (0..LINES).zip(self.0.chunks_exact_mut(narephon::DOTS)) {
            while let Some(entry) = entries.next_if(|entry| u32::from(entry[0]) <= line) {
                assert_eq!(fast_write::<JUDGES>(&mut state, *entry), 0);
            }
            let reply = draw(line, &banks[0], &banks[1], black_box(&state), dots);
            assert_eq!(reply, 0);
        }
        black_box(&self.0);
    }

    fn layered(&mut self, record: &[u8], banks: &[Vec<u8>; 2], lent: &Lent) {
        for (line, dots) in (0..LINES).zip(self.0.chunks_exact_mut(narephon::DOTS)) {
            let LentLines { layer2, sprites } = lent.line(line);
            let record = black_box(record);
            let [ula, tile] = banks;
            let drawn = narephon::draw_layers(record, ula, tile, layer2, sprites, line, dots);
            assert_eq!(drawn, Ok(()));
        }
        black_box(&self.0);
    }

    fn modelled(&mut self, state: &State, banks: &[Vec<u8>; 2], lent: &Lent) {
        for (line, dots) in (0..LINES).zip(self.0.chunks_exact_mut(narephon::DOTS)) {
            let lines = lent.line(line);
            let reply = model::draw_layers(line, &banks[0], &banks[1], lines, state, dots);
            assert_eq!(reply, 0);
        }
    }

    fn fast_once(&mut self, record: &[u8], banks: &[Vec<u8>; 2]) {
        let (_, _, state) = fast::read_record(black_box(record));
        for (line, dots) in (0..LINES).zip(self.0.chunks_exact_mut(narephon::DOTS)) {
            let reply = fast::draw(line, &banks[0], &banks[1], black_box(&state), dots);
            assert_eq!(reply, 0);
        }
        black_box(&self.0);
    }

    fn fast_each(&mut self, record: &[u8], banks: &[Vec<u8>; 2]) {
        for (line, dots) in (0..LINES).zip(self.0.chunks_exact_mut(narephon::DOTS)) {
            let (_, _, state) = fast::read_record(black_box(record));
            let reply = fast::draw(line, &banks[0], &banks[1], &state, dots);
            assert_eq!(reply, 0);
        }
        black_box(&self.0);
    }
}

fn preview(what: &str, record: &[u8], banks: &[Vec<u8>; 2]) -> [Row; 2] {
    let mut pictures = [Picture::new(), Picture::new(), Picture::new()];
    let [ours, once, each] = &mut pictures;
    let times = interleaved(
        150,
        1,
        &mut [
            &mut || ours.narephon(record, banks),
            &mut || once.fast_once(record, banks),
            &mut || each.fast_each(record, banks),
        ],
    );
    assert!(ours.0 == once.0 && ours.0 == each.0, "{what} differs");
    [times[1], times[2]].map(|fast| Row {
        what: what.to_string(),
        measured: times[0],
        other: fast,
        target: Some(DRAWING),
    })
}

/// Does an entry, judging the state first or not.
fn fast_write<const JUDGES: bool>(state: &mut fast::State, [_, kind, number, byte]: Entry) -> u8 {
    let port = || PORTS[usize::from(number)];
    match (kind, JUDGES) {
        (0, true) => fast::write_register(state, number, byte),
        (0, false) => fast::write_register_lawful(state, number, byte),
        (_, true) => fast::write_port(state, port(), byte),
        (_, false) => fast::write_port_lawful(state, port(), byte),
    }
}

/// Whole previews by one call, without entries and with four for each line, and what judging the state for each line
/// and entry costs.
fn traces(random: &mut Random) {
    let base = base(random);
    let banks = [random.bytes(16_384), random.bytes(16_384)];
    let mut previews = plain_traces(&base);
    let plain = previews.len();
    previews.extend(busy_traces(random, &base));
    let rows = |previews: &[Traced], sides: [Implementation; 2], target: Option<f64>| -> Vec<Row> {
        let row = |preview: &Traced| preview.row(&banks, sides, target);
        previews.iter().map(row).collect()
    };
    let carried = [Implementation::Narephon, Implementation::FastJudging];
    print_table(
        "A whole preview, carried, with a trace of no entries; fast reads the record once",
        BESIDE_FAST,
        &rows(&previews[..plain], carried, Some(CARRIED)),
    );
    print_table(
        "A whole preview, carried, with 1,024 entries, four of each line; fast does them between its lines",
        BESIDE_FAST,
        &rows(&previews[plain..], carried, Some(TRACED)),
    );
    print_table(
        "A whole preview, carried; fast judges its state once too",
        BESIDE_FAST,
        &rows(
            &previews,
            [Implementation::Narephon, Implementation::FastLawful],
            None,
        ),
    );
    print_costs(
        "What judging at each line and each entry costs: fast that does so beside fast that judges once",
        BESIDE_ONCE,
        &rows(&previews, [Implementation::FastJudging, Implementation::FastLawful], None),
    );
}

/// Every screen, and some with transparent dots, by a trace of no entries.
fn plain_traces(base: &State) -> Vec<Traced> {
    let all = screens_and_tiles(base).into_iter();
    let mut previews: Vec<Traced> = all
        .map(|(what, state)| Traced::new(what, &state, Vec::new()))
        .collect();
    // The palette has no transparent colour by itself, and a line without such dots needs no pass for the fallback.
    let clear = (base.palettes[0][17] >> 1) as u8;
    for (what, mut state) in screens(base) {
        if ["mode 0", "mode 2", "LoRes"].contains(&what) {
            state.transparent = clear;
            let what = format!("{what}, some dots transparent");
            previews.push(Traced::new(what, &state, Vec::new()));
        }
    }
    previews
}

/// Some screens by colour bars, and mode 0 by one write alone.
fn busy_traces(random: &mut Random, base: &State) -> Vec<Traced> {
    let bars = four_a_line(random, &BARS);
    let some = [
        "mode 0",
        "mode 0, 40 columns",
        "mode 0, 80 columns",
        "mode 6",
        "LoRes",
        "mode 0, ULAplus",
    ];
    let mut previews = Vec::new();
    for (what, state) in screens_and_tiles(base) {
        if some.contains(&what.as_str()) {
            let what = format!("{what}; $40, $41, $FE, $26 in turn");
            previews.push(Traced::new(what, &state, bars.clone()));
        }
    }
    for (what, write) in ALONE {
        let entries = four_a_line(random, &[write]);
        previews.push(Traced::new(format!("mode 0; {what} alone"), base, entries));
    }
    previews
}

/// A kind and a number of an entry: the index, a colour, the border and the scroll, as colour bars have them.
const BARS: [[u8; 2]; 4] = [[0, 0x40], [0, 0x41], [1, 0], [0, 0x26]];

/// Those that are measured by themselves.
const ALONE: [(&str, [u8; 2]); 4] = [
    ("$41", [0, 0x41]),
    ("$44", [0, 0x44]),
    ("port $FE", [1, 0]),
    ("port $FF3B", [1, 3]),
];

/// Four entries of each line, which go through these writes in turn.
fn four_a_line(random: &mut Random, writes: &[[u8; 2]]) -> Vec<Entry> {
    let writes = writes.iter().cycle();
    let entry = |(place, &[kind, number]): (usize, &[u8; 2])| {
        // The second half of a colour is one bit.
        let byte = match (number, place % 2) {
            (0x44, 1) => random.below(2) as u8,
            _ => random.byte(),
        };
        [(place / 4) as u8, kind, number, byte]
    };
    writes.enumerate().take(1_024).map(entry).collect()
}

/// Who draws a preview by a trace: Narephon, which judges the state once, fast that judges it at each line and each
/// entry, or fast that judges it once, where it reads it.
#[derive(Clone, Copy)]
enum Implementation {
    Narephon,
    FastJudging,
    FastLawful,
}

/// A preview by a trace.
struct Traced {
    what: String,
    record: Vec<u8>,
    entries: Vec<Entry>,
    trace: Vec<u8>,
}

impl Traced {
    fn new(what: String, state: &State, entries: Vec<Entry>) -> Traced {
        Traced {
            what,
            record: record_of(state),
            trace: trace_of(&entries),
            entries,
        }
    }

    fn draw(&self, side: Implementation, banks: &[Vec<u8>; 2], picture: &mut Picture) {
        let (record, entries) = (&self.record, &self.entries);
        match side {
            Implementation::Narephon => picture.carried(record, banks, &self.trace),
            Implementation::FastJudging => picture.fast_traced::<true>(record, banks, entries),
            Implementation::FastLawful => picture.fast_traced::<false>(record, banks, entries),
        }
    }

    fn row(&self, banks: &[Vec<u8>; 2], sides: [Implementation; 2], target: Option<f64>) -> Row {
        let mut pictures = [Picture::new(), Picture::new()];
        let [measured, other] = &mut pictures;
        let times = interleaved(
            150,
            1,
            &mut [&mut || self.draw(sides[0], banks, measured), &mut || {
                self.draw(sides[1], banks, other)
            }],
        );
        assert!(measured.0 == other.0, "{} differs", self.what);
        Row {
            what: self.what.clone(),
            measured: times[0],
            other: times[1],
            target,
        }
    }
}

/// Two lent lines for each of a picture's.
struct Lent {
    layer2: Vec<u16>,
    sprites: Vec<u16>,
}

impl Lent {
    fn new(random: &mut Random) -> Lent {
        Lent {
            layer2: (0..LINES).flat_map(|_| layer2(random)).collect(),
            sprites: (0..LINES).flat_map(|_| sprites(random)).collect(),
        }
    }

    fn line(&self, line: u32) -> LentLines<'_> {
        let start = line as usize * narephon::DOTS;
        let end = start + narephon::DOTS;
        LentLines {
            layer2: &self.layer2[start..end],
            sprites: &self.sprites[start..end],
        }
    }
}

/// Whole previews with lent layers, beside the same without: every screen in the first order, and one in every order.
fn layers(random: &mut Random) {
    let base = base(random);
    let banks = [random.bytes(16_384), random.bytes(16_384)];
    let lent = Lent::new(random);
    let row = |(what, state): (String, State)| layered(&what, &state, &banks, &lent);
    let rows: Vec<Row> = screens_and_tiles(&base).into_iter().map(row).collect();
    let title = "Lent layers: a whole preview, 256 lines";
    print_table(&format!("{title}; order 000, SLU"), BESIDE_PLAIN, &rows);
    let orders = [
        "000, SLU", "001, LSU", "010, SUL", "011, LUS", "100, USL", "101, ULS",
    ];
    let in_order = (0..).zip(orders).map(|(bits, name)| {
        let mut state = base.clone();
        state.layers = bits * 4;
        (format!("mode 0, order {name}"), state)
    });
    let rows: Vec<Row> = in_order.map(row).collect();
    print_table(&format!("{title}; in each order"), BESIDE_PLAIN, &rows);
}

fn layered(what: &str, state: &State, banks: &[Vec<u8>; 2], lent: &Lent) -> Row {
    let record = record_of(state);
    let mut pictures = [Picture::new(), Picture::new(), Picture::new()];
    let [with, without, wanted] = &mut pictures;
    let times = interleaved(
        150,
        1,
        &mut [&mut || with.layered(&record, banks, lent), &mut || {
            without.narephon(&record, banks)
        }],
    );
    wanted.modelled(state, banks, lent);
    assert!(with.0 == wanted.0, "{what} differs");
    Row {
        what: what.to_string(),
        measured: times[0],
        other: times[1],
        target: Some(LAYERS),
    }
}

/// Fast doing what an exported write does: a record read, changed and written.
fn fast_change(record: &mut [u8], change: impl FnOnce(&mut fast::State) -> u8) {
    let (read, _, mut state) = fast::read_record(black_box(record));
    let changed = change(&mut state);
    let written = fast::write_record(&state, record);
    assert_eq!((read, changed, written), (0, 0, 0));
}

/// A write, and a record read and written.
fn records(random: &mut Random) {
    let rows = vec![
        write_row(random, "write of $41, fast on a state that it keeps", true),
        write_row(random, "write of $41, fast on a record", false),
        frame_row(random),
        bad_colour_row(random),
    ];
    print_table(
        "A register write, a record read and written",
        BESIDE_FAST,
        &rows,
    );
}

/// Another colour each time, so the index moves on.
fn write_row(random: &mut Random, what: &str, keeps: bool) -> Row {
    let mut record = record_of(&base(random));
    let mut other = record.clone();
    let (_, _, mut state) = fast::read_record(&record);
    let (mut value, mut other_value) = (0u8, 0u8);
    let mut ours = || {
        value = value.wrapping_add(1);
        assert_eq!(narephon::write_register(&mut record, 0x41, value), Ok(()));
    };
    let mut fast = || {
        other_value = other_value.wrapping_add(1);
        let write = |state: &mut fast::State| fast::write_register(state, 0x41, other_value);
        if keeps {
            assert_eq!(write(black_box(&mut state)), 0);
        } else {
            fast_change(&mut other, write);
        }
    };
    let times = interleaved(150, 500, &mut [&mut ours, &mut fast]);
    if keeps {
        assert_eq!(fast::write_record(&state, &mut other), 0);
    }
    assert!(record == other, "{what} differs");
    Row {
        what: what.to_string(),
        measured: times[0],
        other: times[1],
        target: None,
    }
}

fn frame_row(random: &mut Random) -> Row {
    let mut record = record_of(&base(random));
    let mut other = record.clone();
    let mut ours = || assert_eq!(narephon::next_frame(&mut record), Ok(()));
    let mut fast = || {
        fast_change(&mut other, |state| {
            state.frame = state.frame.wrapping_add(1);
            0
        });
    };
    let times = interleaved(150, 500, &mut [&mut ours, &mut fast]);
    assert!(record == other, "next frame differs");
    Row {
        what: "next frame: a record read, changed and written".to_string(),
        measured: times[0],
        other: times[1],
        target: None,
    }
}

/// All of a record is gone through, and its place told. Fast makes no state either.
fn bad_colour_row(random: &mut Random) -> Row {
    let mut record = record_of(&base(random));
    let last = record.len() - 2;
    record[last] = 2;
    let mut ours = || {
        let refusal = narephon::check_record(black_box(&record)).map_err(|refusal| refusal.place);
        assert_eq!(refusal, Err(Some(last)));
    };
    let mut fast = || assert_eq!(fast::check_record(black_box(&record)), (18, last));
    let times = interleaved(150, 500, &mut [&mut ours, &mut fast]);
    Row {
        what: "a record judged whose last colour is bad".to_string(),
        measured: times[0],
        other: times[1],
        target: None,
    }
}

/// The calls on a desk with few seats held and with all, beside those on a record.
fn desks(random: &mut Random) {
    let bank = random.bytes(narephon::BANK);
    let mut rows = Vec::new();
    for held in [1, 8, 16] {
        let mut sides = Sides::new(random, held);
        rows.extend(sides.writes());
        rows.extend(sides.reads(&bank));
    }
    print_costs(
        "A call on a desk beside the same call on a record",
        BESIDE_RECORD,
        &rows,
    );
}

/// A desk of members with states of their own, numbered from 1, and the record of the last.
struct Sides {
    desk: Desk,
    record: Vec<u8>,
    member: u16,
}

impl Sides {
    fn new(random: &mut Random, held: u16) -> Sides {
        let mut desk = Desk::new();
        for member in 1..=held {
            assert_eq!(desk.open(member), Ok(()));
        }
        let (mut bytes, mut record) = (desk.into_bytes(), Vec::new());
        for seat in 0..usize::from(held) {
            record = record_of(&base(random));
            bytes[record_bytes(seat)].copy_from_slice(&record);
        }
        Sides {
            desk: Desk::from_bytes(bytes),
            record,
            member: held,
        }
    }

    fn row(&self, what: &str, times: &[Figures]) -> Row {
        Row {
            what: format!("{what}, seats held: {}", self.member),
            measured: times[0],
            other: times[1],
            target: None,
        }
    }

    /// Both sides go through the same values, and end with the same record.
    fn writes(&mut self) -> [Row; 2] {
        let (member, desk, record) = (self.member, &mut self.desk, &mut self.record);
        let (mut value, mut other) = (0u8, 0u8);
        let mut on_desk = || {
            value = value.wrapping_add(1);
            assert_eq!(desk.write_register(member, 0x41, value), Ok(()));
        };
        let mut on_record = || {
            other = other.wrapping_add(1);
            assert_eq!(narephon::write_register(record, 0x41, other), Ok(()));
        };
        let written = interleaved(150, 500, &mut [&mut on_desk, &mut on_record]);
        let mut on_desk = || assert_eq!(desk.next_frame(member), Ok(()));
        let mut on_record = || assert_eq!(narephon::next_frame(record), Ok(()));
        let moved = interleaved(150, 500, &mut [&mut on_desk, &mut on_record]);
        let seat = usize::from(member) - 1;
        assert!(self.desk.as_bytes()[record_bytes(seat)] == self.record);
        [
            self.row("write of $41", &written),
            self.row("next frame", &moved),
        ]
    }

    /// A read, and a line in mode 0, another each time.
    fn reads(&self, bank: &[u8]) -> [Row; 2] {
        let (member, desk, record) = (self.member, &self.desk, &self.record[..]);
        let wanted = narephon::read_register(record, 0x41);
        let mut on_desk = || assert_eq!(black_box(desk).read_register(member, 0x41), wanted);
        let mut on_record = || assert_eq!(narephon::read_register(black_box(record), 0x41), wanted);
        let read = interleaved(150, 500, &mut [&mut on_desk, &mut on_record]);
        let mut lines = [[0; narephon::DOTS]; 2];
        let [dots, other_dots] = &mut lines;
        let (mut line, mut other_line) = (0, 0);
        let mut on_desk = || {
            line = (line + 1) % LINES;
            assert_eq!(desk.draw(member, bank, bank, line, dots), Ok(()));
        };
        let mut on_record = || {
            other_line = (other_line + 1) % LINES;
            let drawn = narephon::draw(record, bank, bank, other_line, other_dots);
            assert_eq!(drawn, Ok(()));
        };
        let drawn = interleaved(150, LINES, &mut [&mut on_desk, &mut on_record]);
        assert!(lines[0] == lines[1], "a line on a desk differs");
        [
            self.row("read of $41", &read),
            self.row("a line in mode 0", &drawn),
        ]
    }
}

/// A packing of each kind of picture, beside fast that finds a cell's tile by its key, that looks through all keys, and that
/// compares plainly.
fn packings(random: &mut Random) {
    let classes: Vec<pictures::Cell> = (0..256).map(|_| pictures::noise(random)).collect();
    let near = pictures::nearly_equal(random, 256);
    let order = pictures::reordered(random, 256);
    let one = [pictures::noise(random)];
    let kinds = [
        ("256 random classes", pictures::sheet(random, &classes)),
        ("256 nearly equal tiles", pictures::sheet(random, &near)),
        (
            "256 orders of the same pixels",
            pictures::sheet(random, &order),
        ),
        ("one class", pictures::sheet(random, &one)),
        ("noise, refused", random.bytes(narephon::PICTURE)),
    ];
    let (mut skipping, mut plain, mut chained) = (Vec::new(), Vec::new(), Vec::new());
    for (what, picture) in &kinds {
        let [first, second, third] = packing(what, picture);
        skipping.push(first);
        plain.push(second);
        chained.push(third);
    }
    print_table(
        "A packing; fast finds a cell's tile by its key, as Narephon does by its mark",
        BESIDE_FAST,
        &chained,
    );
    print_table(
        "A packing; fast looks through the keys of all tiles",
        BESIDE_FAST,
        &skipping,
    );
    print_table(
        "A packing; fast compares each cell with each tile",
        BESIDE_FAST,
        &plain,
    );
}

/// A packing's buffers and what came of it.
struct Packed {
    map: Vec<u8>,
    definitions: Vec<u8>,
    count: u32,
}

impl Packed {
    fn new() -> Packed {
        Packed {
            map: vec![0; narephon::MAP],
            definitions: vec![0; narephon::DEFINITIONS],
            count: 0,
        }
    }

    fn narephon(&mut self, picture: &[u8]) {
        let (map, definitions) = (&mut self.map, &mut self.definitions);
        let packed = narephon::pack(black_box(picture), 256, 0, map, definitions);
        self.count = packed.unwrap_or(0);
    }

    fn fast<const HOW: u8>(&mut self, picture: &[u8]) {
        let (map, definitions) = (&mut self.map, &mut self.definitions);
        self.count = fast::pack::<HOW>(black_box(picture), 256, 0, map, definitions).1;
    }

    fn same(&self, other: &Packed) -> bool {
        self.map == other.map && self.definitions == other.definitions && self.count == other.count
    }
}

fn packing(what: &str, picture: &[u8]) -> [Row; 3] {
    let mut packed = [(); 4].map(|()| Packed::new());
    let [ours, marked, plain, chained] = &mut packed;
    let times = interleaved(
        100,
        1,
        &mut [
            &mut || ours.narephon(picture),
            &mut || marked.fast::<{ fast::MARKED }>(picture),
            &mut || plain.fast::<{ fast::PLAIN }>(picture),
            &mut || chained.fast::<{ fast::CHAINED }>(picture),
        ],
    );
    let same = ours.same(marked) && ours.same(plain) && ours.same(chained);
    assert!(same, "{what} differs");
    let targets = [Some(PACKING), Some(PACKING_PLAIN), Some(PACKING)];
    [0, 1, 2].map(|k| Row {
        what: what.to_string(),
        measured: times[0],
        other: times[k + 1],
        target: targets[k],
    })
}
