//! Each exported call beside the model: its reply, its answer, and every lent buffer afterwards. The safe wrapper is
//! held to the same.

use crate::compared::{changing, drawing, number, reading, Checked};
use crate::lent::{same, same_items, Lent, Part};
use crate::seen::{Call, Seen};
use crate::states::record_of;
use model::layers::{lent_draw_layers, Stack};
use model::reply::{
    BAD_FIELD, DONE, NO_FORM, PAIRS_DIFFER, WRONG_BUFFER, WRONG_COUNT, WRONG_VERSION,
};
use model::scr::{lent_read_scr, lent_write_scr};
use model::{LentLines, State, DOTS, SCREEN_LENGTH};
use narephon::{raw, Refusal};
use std::fmt::Debug;

/// A reply, and the place in the record that it tells, 0 where it tells none.
pub type Told = (u8, usize);

/// Bytes to lend.
pub fn lend(record: &[u8]) -> Lent<u8> {
    Lent::new(record, 0x5A)
}

/// Does the wrapper give the reply, and the place just where one is told?
fn same_refusal<T>(what: &str, answer: &Result<T, Refusal>, wanted: Told) -> Result<(), String> {
    let got = match answer {
        Ok(_) => (DONE, None),
        Err(refusal) => (refusal.reply.number(), refusal.place),
    };
    let (reply, place) = wanted;
    let tells = matches!(reply, WRONG_COUNT | WRONG_VERSION | BAD_FIELD);
    same(what, got, (reply, tells.then_some(place)))
}

/// A call that changes a record, of version 2 only. The record lent is the state, so afterwards it is the record of the
/// model's state.
fn changing_record(
    call: Call,
    record: &mut Lent<u8>,
    seen: &mut Seen,
    modelled: impl Fn(&State) -> (u8, State),
    lent: impl Fn(*mut u8, usize) -> u8,
    wrapped: impl Fn(&mut Vec<u8>) -> Result<(), narephon::Reply>,
) -> Checked {
    let before = record.items().to_vec();
    let modelled = |record: &[u8]| match model::read_new(record) {
        (DONE, _, state) => {
            let (reply, after) = modelled(&state);
            (reply, record_of(&after))
        }
        (reply, ..) => (reply, record.to_vec()),
    };
    let reply = changing(record, modelled, lent, wrapped)?;
    seen.lent(call, &before, reply);
    Ok(reply)
}

pub fn next_frame(record: &mut Lent<u8>, seen: &mut Seen) -> Checked {
    // SAFETY: here and below, each pointer and length are those of one live buffer.
    let lent = |record, length| unsafe { raw::narephon_next_frame(record, length) };
    let checked = changing_record(
        Call::NextFrame,
        record,
        seen,
        model::next_frame,
        lent,
        |record| narephon::next_frame(record),
    );
    checked.map_err(|what| format!("next_frame: {what}"))
}

pub fn write_register(record: &mut Lent<u8>, number: u8, value: u8, seen: &mut Seen) -> Checked {
    let checked = changing_record(
        Call::WriteRegister,
        record,
        seen,
        |state| model::write_register(state, number, value),
        |record, length| unsafe { raw::narephon_write_register(record, length, number, value) },
        |record| narephon::write_register(record, number, value),
    );
    checked.map_err(|what| format!("write_register ${number:02X}, {value}: {what}"))
}

pub fn write_port(record: &mut Lent<u8>, port: u16, value: u8, seen: &mut Seen) -> Checked {
    let checked = changing_record(
        Call::WritePort,
        record,
        seen,
        |state| model::write_port(state, port, value),
        |record, length| unsafe { raw::narephon_write_port(record, length, port, value) },
        |record| narephon::write_port(record, port, value),
    );
    checked.map_err(|what| format!("write_port ${port:04X}, {value}: {what}"))
}

/// A call that reads a record, of either version, and leaves it.
fn reading_record(
    call: Call,
    record: &mut Lent<u8>,
    seen: &mut Seen,
    modelled: impl Fn(&State) -> (u8, u8),
    lent: impl Fn(*mut u8, usize, *mut u8) -> u8,
    wrapped: impl Fn(&[u8]) -> Result<u8, narephon::Reply>,
) -> Checked {
    let modelled = |record: &[u8]| match model::read_record(record) {
        (DONE, _, state) => modelled(&state),
        (reply, ..) => (reply, 0),
    };
    let reply = reading(record, modelled, lent, wrapped)?;
    seen.lent(call, record.items(), reply);
    Ok(reply)
}

pub fn read_register(record: &mut Lent<u8>, number: u8, seen: &mut Seen) -> Checked {
    let checked = reading_record(
        Call::ReadRegister,
        record,
        seen,
        |state| model::read_register(state, number),
        |record, length, value| unsafe {
            raw::narephon_read_register(record, length, number, value)
        },
        |record| narephon::read_register(record, number),
    );
    checked.map_err(|what| format!("read_register ${number:02X}: {what}"))
}

pub fn read_port(record: &mut Lent<u8>, port: u16, seen: &mut Seen) -> Checked {
    let checked = reading_record(
        Call::ReadPort,
        record,
        seen,
        |state| model::read_port(state, port),
        |record, length, value| unsafe { raw::narephon_read_port(record, length, port, value) },
        |record| narephon::read_port(record, port),
    );
    checked.map_err(|what| format!("read_port ${port:04X}: {what}"))
}

/// Reset, which wants a record's length and nothing of its bytes.
pub fn reset(record: &mut Lent<u8>, seen: &mut Seen) -> Checked {
    let fresh = record_of(&State::reset());
    let (reply, wanted) = if record.count() == fresh.len() {
        (DONE, fresh)
    } else {
        (WRONG_BUFFER, record.items().to_vec())
    };
    let got = unsafe { raw::narephon_reset(record.pointer(), record.count()) };
    same("reset: reply", got, reply)?;
    record.check("reset: record", &wanted)?;
    if reply == DONE {
        same_items("reset: wrapper's record", &narephon::reset(), &wanted)?;
    }
    seen.reply(Call::Reset, reply);
    Ok(reply)
}

/// A record judged and left, as the model reads it; and loaded by the wrapper, as one of version 2.
pub fn check_record(record: &mut Lent<u8>, seen: &mut Seen) -> Result<Told, String> {
    let before = record.items().to_vec();
    let (reply, place, state) = model::read_record(&before);
    let wanted = (reply, place);
    // Another place than the one wanted, so that one left as it was is seen.
    let mut set = !(place as u32);
    let got = unsafe { raw::narephon_check_record(record.pointer(), record.count(), &mut set) };
    same("check_record: reply and place", (got, set as usize), wanted)?;
    record.check("check_record: record", &before)?;
    let answer = narephon::check_record(&before);
    same_refusal("check_record: wrapper's answer", &answer, wanted)?;
    let loaded = narephon::load_record(&before);
    same_refusal("load_record: answer", &loaded, wanted)?;
    if let Ok(loaded) = loaded {
        same_items("load_record: record", &loaded, &record_of(&state))?;
    }
    seen.told(Call::CheckRecord, &before, wanted);
    Ok(wanted)
}

/// A move into a target of `length` bytes: what it tells, and the target.
type Moved = Result<(Told, Vec<u8>), String>;

pub fn move_up(record: &mut Lent<u8>, length: usize, seen: &mut Seen) -> Moved {
    let moved = moving(
        record,
        length,
        model::move_up,
        raw::narephon_move_up,
        |record| narephon::move_up(record).map(Vec::from),
    );
    noted(Call::MoveUp, record, length, seen, moved)
}

pub fn move_back(record: &mut Lent<u8>, length: usize, seen: &mut Seen) -> Moved {
    let moved = moving(
        record,
        length,
        model::move_back,
        raw::narephon_move_back,
        |record| narephon::move_back(record).map(Vec::from),
    );
    noted(Call::MoveBack, record, length, seen, moved)
}

/// Names the call in a difference, and counts it where there is none.
fn noted(call: Call, record: &Lent<u8>, length: usize, seen: &mut Seen, moved: Moved) -> Moved {
    let (told, target) = moved.map_err(|what| format!("{call:?} into {length} bytes: {what}"))?;
    seen.told(call, record.items(), told);
    if matches!(told.0, WRONG_VERSION | PAIRS_DIFFER) {
        if let (DONE, _, state) = model::read_new(record.items()) {
            seen.unmoved(call, &state);
        }
    }
    Ok((told, target))
}

fn moving(
    record: &mut Lent<u8>,
    length: usize,
    modelled: fn(&[u8], &mut [u8]) -> Told,
    lent: unsafe extern "C" fn(*const u8, usize, *mut u8, usize, *mut u32) -> u8,
    wrapped: impl Fn(&[u8]) -> Result<Vec<u8>, Refusal>,
) -> Moved {
    let before = record.items().to_vec();
    let blank = vec![0xAA; length];
    let mut wanted = blank.clone();
    let told = modelled(&before, &mut wanted);
    let mut target = lend(&blank);
    let (pointer, count) = (target.pointer(), target.count());
    let mut set = !(told.1 as u32);
    // SAFETY: each pointer and length are those of one live buffer, and target and place overlap nothing.
    let got = unsafe { lent(record.pointer(), record.count(), pointer, count, &mut set) };
    same("reply and place", (got, set as usize), told)?;
    target.check("target", &wanted)?;
    record.check("record", &before)?;
    // The wrapper's target has the right length always.
    if told.0 != WRONG_BUFFER {
        let answer = wrapped(&before);
        same_refusal("wrapper's answer", &answer, told)?;
        same_items("wrapper's record", &answer.unwrap_or(blank), &wanted)?;
    }
    Ok((told, wanted))
}

/// Two buffers lent for reading. Where there is one, it is lent as both.
pub struct Pair<T> {
    lent: Vec<(Lent<T>, Vec<T>)>,
}

/// The ULA bank and the tile bank of a line.
pub type Banks = Pair<u8>;

/// The Layer 2 line and the sprite line of a layered one.
pub type Layers = Pair<u16>;

impl Banks {
    pub fn two(ula: Vec<u8>, tile: Vec<u8>) -> Banks {
        Pair::of(vec![ula, tile], 0x5A)
    }

    pub fn one(both: Vec<u8>) -> Banks {
        Pair::of(vec![both], 0x5A)
    }
}

/// The guard is a number that no line may have.
impl Layers {
    pub fn two(layer2: Vec<u16>, sprites: Vec<u16>) -> Layers {
        Pair::of(vec![layer2, sprites], 0x5A5A)
    }

    pub fn one(both: Vec<u16>) -> Layers {
        Pair::of(vec![both], 0x5A5A)
    }

    pub fn lines(&self) -> LentLines<'_> {
        let (layer2, sprites) = self.items();
        LentLines { layer2, sprites }
    }

    pub fn is_one(&self) -> bool {
        self.lent.len() == 1
    }
}

impl<T: Copy + PartialEq + Debug> Pair<T> {
    fn of(buffers: Vec<Vec<T>>, guard: T) -> Pair<T> {
        let lent = buffers.into_iter();
        Pair {
            lent: lent
                .map(|items| (Lent::new(&items, guard), items))
                .collect(),
        }
    }

    /// The items of the first and of the second.
    pub fn items(&self) -> (&[T], &[T]) {
        let last = self.lent.len() - 1;
        (&self.lent[0].1, &self.lent[last].1)
    }

    pub(crate) fn lent(&mut self) -> [Part<T>; 2] {
        let last = self.lent.len() - 1;
        [0, last].map(|place| self.lent[place].0.part())
    }

    pub(crate) fn check(&self, what: &str) -> Result<(), String> {
        for (buffer, items) in &self.lent {
            buffer.check(what, items)?;
        }
        Ok(())
    }
}

/// The reply and dots of the model, and its state. 16, 17 and 18 stand in the place of 4, after 1, 2 and 3: the reset
/// state, which is refused for nothing of its own, tells whether one of those comes first.
fn modelled_line(
    record: &[u8],
    ula: &[u8],
    tile: &[u8],
    line: u32,
    dots: &mut [u16],
) -> (u8, State) {
    let (reply, _, state) = model::read_record(record);
    if reply == DONE {
        return (model::draw(line, ula, tile, &state, dots), state);
    }
    let mut unused = dots.to_vec();
    match model::draw(line, ula, tile, &state, &mut unused) {
        DONE => (reply, state),
        earlier => (earlier, state),
    }
}

/// A line of `length` dots.
pub fn draw(
    record: &mut Lent<u8>,
    banks: &mut Banks,
    line: u32,
    length: usize,
    seen: &mut Seen,
) -> Checked {
    let (reply, state) = compared_line(record, banks, line, length)
        .map_err(|what| format!("draw of line {line}: {what}"))?;
    seen.lent(Call::Draw, record.items(), reply);
    if reply == DONE {
        seen.line(&state);
    }
    Ok(reply)
}

fn compared_line(
    record: &mut Lent<u8>,
    banks: &mut Banks,
    line: u32,
    length: usize,
) -> Result<(u8, State), String> {
    let lent_banks = banks.lent();
    let (ula, tile) = banks.items();
    let drawn = drawing(
        record,
        length,
        |record, dots| modelled_line(record, ula, tile, line, dots),
        |record, dots| raw_draw(record, lent_banks, line, dots),
        |record, dots| narephon::draw(record, ula, tile, line, dots),
    )?;
    banks.check("bank")?;
    Ok(drawn)
}

fn raw_draw(
    (record, record_length): Part<u8>,
    [(ula, ula_length), (tile, tile_length)]: [Part<u8>; 2],
    line: u32,
    (dots, length): Part<u16>,
) -> u8 {
    // SAFETY: as above; the banks, which may be one, are read only, and the dots overlap nothing.
    unsafe {
        raw::narephon_draw(
            record,
            record_length,
            ula,
            ula_length,
            tile,
            tile_length,
            line,
            dots,
            length,
        )
    }
}

/// A line of `length` dots with lent layers.
pub fn draw_layers(
    record: &mut Lent<u8>,
    banks: &mut Banks,
    layers: &mut Layers,
    line: u32,
    length: usize,
    seen: &mut Seen,
) -> Checked {
    let (reply, state) = compared_layers(record, banks, layers, line, length)
        .map_err(|what| format!("draw_layers of line {line}: {what}"))?;
    seen.lent(Call::DrawLayers, record.items(), reply);
    let lent = layers.lines();
    if reply != DONE {
        seen.layers_refused(reply, &state, lent, length);
        return Ok(reply);
    }
    let (ula, tile) = banks.items();
    let stacks = (0..DOTS).map(|dot| Stack::at(line, dot, ula, tile, lent, &state));
    seen.layers_drawn(&state, layers.is_one(), stacks);
    Ok(reply)
}

fn compared_layers(
    record: &mut Lent<u8>,
    banks: &mut Banks,
    layers: &mut Layers,
    line: u32,
    length: usize,
) -> Result<(u8, State), String> {
    let (lent_banks, lent_layers) = (banks.lent(), layers.lent());
    let (ula, tile) = banks.items();
    let lines = layers.lines();
    let drawn = drawing(
        record,
        length,
        |record, dots| {
            let reply = lent_draw_layers(line, ula, tile, lines, record, dots);
            (reply, model::read_record(record).2)
        },
        |record, dots| raw_layers(record, lent_banks, lent_layers, line, dots),
        |record, dots| {
            let (layer2, sprites) = (lines.layer2, lines.sprites);
            narephon::draw_layers(record, ula, tile, layer2, sprites, line, dots)
        },
    )?;
    banks.check("bank")?;
    layers.check("lent line")?;
    Ok(drawn)
}

fn raw_layers(
    (record, record_length): Part<u8>,
    [(ula, ula_length), (tile, tile_length)]: [Part<u8>; 2],
    [(layer2, layer2_length), (sprites, sprites_length)]: [Part<u16>; 2],
    line: u32,
    (dots, length): Part<u16>,
) -> u8 {
    // SAFETY: as in `raw_draw`; the two lines, which may be one, are read only.
    unsafe {
        raw::narephon_draw_layers(
            record,
            record_length,
            ula,
            ula_length,
            tile,
            tile_length,
            layer2,
            layer2_length,
            sprites,
            sprites_length,
            line,
            dots,
            length,
        )
    }
}

/// A screen file read into a bank and into the state in a record.
pub fn read_scr(
    record: &mut Lent<u8>,
    bank: &mut Lent<u8>,
    file: &[u8],
    seen: &mut Seen,
) -> Checked {
    let before = record.items().to_vec();
    let (_, _, state) = model::read_record(&before);
    let reply = compared_reading(record, bank, file)
        .map_err(|what| format!("read_scr of {} bytes: {what}", file.len()))?;
    seen.lent(Call::ReadScr, &before, reply);
    match reply {
        DONE => seen.screen_read(&state, file.len()),
        NO_FORM => seen.screen_unread(file.len()),
        _ => {}
    }
    Ok(reply)
}

fn compared_reading(record: &mut Lent<u8>, bank: &mut Lent<u8>, file: &[u8]) -> Checked {
    let (mut wanted, mut wanted_bank) = (record.items().to_vec(), bank.items().to_vec());
    let (mut copy, mut bank_copy) = (wanted.clone(), wanted_bank.clone());
    let (reply, place) = lent_read_scr(&mut wanted, &mut wanted_bank, file);
    let (got, colours) = raw_reading(record, bank, file, !place)?;
    same("reply", got, reply)?;
    same("place of the colours", colours, place)?;
    record.check("record", &wanted)?;
    bank.check("bank", &wanted_bank)?;
    let answer = narephon::read_scr(&mut copy, &mut bank_copy, file);
    same("wrapper's reply", number(&answer), reply)?;
    same_items("wrapper's record", &copy, &wanted)?;
    same_items("wrapper's bank", &bank_copy, &wanted_bank)?;
    let part = answer.unwrap_or(&[]);
    let own = match place {
        0 => &[],
        place => &file[place as usize..],
    };
    same_items("wrapper's colours", part, own)?;
    if !std::ptr::eq(part, own) && !own.is_empty() {
        return Err("the wrapper's colours are not the file's own".to_string());
    }
    Ok(reply)
}

/// The reply and the place, once the file is seen to stay. The place is another number before.
fn raw_reading(
    record: &mut Lent<u8>,
    bank: &mut Lent<u8>,
    file: &[u8],
    before: u32,
) -> Result<(u8, u32), String> {
    let mut lent_file = lend(file);
    let mut colours = before;
    // SAFETY: each pointer and length are those of one live buffer, and none overlaps another.
    let got = unsafe {
        raw::narephon_read_scr(
            record.pointer(),
            record.count(),
            bank.pointer(),
            bank.count(),
            lent_file.pointer(),
            lent_file.count(),
            &mut colours,
        )
    };
    lent_file.check("file", file)?;
    Ok((got, colours))
}

/// A screen written into a buffer of the right length; the reply, and the file where there is one.
pub fn write_scr(
    record: &mut Lent<u8>,
    bank: &mut Lent<u8>,
    seen: &mut Seen,
) -> Result<(u8, Vec<u8>), String> {
    write_scr_into(record, bank, SCREEN_LENGTH, seen)
}

/// The same into a buffer of `length` bytes.
pub fn write_scr_into(
    record: &mut Lent<u8>,
    bank: &mut Lent<u8>,
    length: usize,
    seen: &mut Seen,
) -> Result<(u8, Vec<u8>), String> {
    let (_, _, state) = model::read_record(record.items());
    let (reply, file) = compared_writing(record, bank, length)
        .map_err(|what| format!("write_scr into {length} bytes: {what}"))?;
    seen.lent(Call::WriteScr, record.items(), reply);
    match reply {
        DONE => seen.screen_written(&state, file.len()),
        NO_FORM => seen.screen_unwritten(&state),
        _ => {}
    }
    Ok((reply, file))
}

fn compared_writing(
    record: &mut Lent<u8>,
    bank: &mut Lent<u8>,
    length: usize,
) -> Result<(u8, Vec<u8>), String> {
    let (before, bank_before) = (record.items().to_vec(), bank.items().to_vec());
    let blank = vec![0xAA; length];
    let mut wanted = blank.clone();
    let (reply, count) = lent_write_scr(&before, &bank_before, &mut wanted);
    let mut file = lend(&blank);
    let (got, written) = raw_writing(record, bank, &mut file, !count);
    same("reply", got, reply)?;
    same("length", written, count)?;
    file.check("file", &wanted)?;
    record.check("record", &before)?;
    bank.check("bank", &bank_before)?;
    let mut copy = blank;
    let answer = narephon::write_scr(&before, &bank_before, &mut copy);
    same("wrapper's reply", number(&answer), reply)?;
    let front = wanted[..count as usize].to_vec();
    same_items("wrapper's file", answer.unwrap_or(&[]), &front)?;
    same_items("wrapper's buffer", &copy, &wanted)?;
    Ok((reply, front))
}

/// The reply and the length, which is another number before.
fn raw_writing(
    record: &mut Lent<u8>,
    bank: &mut Lent<u8>,
    file: &mut Lent<u8>,
    before: u32,
) -> (u8, u32) {
    let mut length = before;
    // SAFETY: as above; the file and the length overlap nothing.
    let got = unsafe {
        raw::narephon_write_scr(
            record.pointer(),
            record.count(),
            bank.pointer(),
            bank.count(),
            file.pointer(),
            file.count(),
            &mut length,
        )
    };
    (got, length)
}

pub fn screen_value(colour: u32, seen: &mut Seen) -> Checked {
    let (reply, wanted) = model::screen_value(colour);
    let mut value = !wanted;
    // SAFETY: the value is live and borrowed alone.
    let got = unsafe { raw::narephon_screen_value(colour, &mut value) };
    let name = |what: &str| format!("screen_value {colour}: {what}");
    same(&name("reply"), got, reply)?;
    same(&name("value"), value, wanted)?;
    let answer = narephon::screen_value(colour);
    same(&name("wrapper's reply"), number(&answer), reply)?;
    same(&name("wrapper's value"), answer.unwrap_or(0), wanted)?;
    seen.reply(Call::ScreenValue, reply);
    Ok(reply)
}

/// What a packing is asked for beside its picture.
#[derive(Clone, Copy, Debug)]
pub struct Packing {
    pub allowed: u32,
    pub offset: u32,
    /// The lengths of the map and of the definitions.
    pub map: usize,
    pub definitions: usize,
}

/// A packing; its reply and count.
pub fn pack(picture: &[u8], asked: Packing, seen: &mut Seen) -> Result<(u8, u32), String> {
    let (reply, count) = compared_packing(picture, asked)
        .map_err(|what| format!("pack of {} bytes, {asked:?}: {what}", picture.len()))?;
    seen.reply(Call::Pack, reply);
    Ok((reply, count))
}

fn compared_packing(picture: &[u8], asked: Packing) -> Result<(u8, u32), String> {
    let (allowed, offset) = (asked.allowed, asked.offset);
    // Not 0, so that a definition left out is seen.
    let blank_map = vec![0xAA; asked.map];
    let blank_definitions = vec![0xAA; asked.definitions];
    let (mut map, mut definitions) = (blank_map.clone(), blank_definitions.clone());
    let (reply, count) = model::pack(picture, allowed, offset, &mut map, &mut definitions);

    let mut lent_map = lend(&blank_map);
    let mut lent_definitions = lend(&blank_definitions);
    let got = raw_pack(picture, asked, count, &mut lent_map, &mut lent_definitions)?;
    same("reply", got, reply)?;
    lent_map.check("map", &map)?;
    lent_definitions.check("definitions", &definitions)?;
    if reply == DONE {
        // The packing held to the picture itself, not only to another packing.
        let wrong = model::draws(&map, &definitions, offset, picture);
        same("number of pixels drawn otherwise", wrong, 0)?;
    }
    let (mut map_copy, mut definitions_copy) = (blank_map, blank_definitions);
    let answer = narephon::pack(
        picture,
        allowed,
        offset,
        &mut map_copy,
        &mut definitions_copy,
    );
    same("wrapper's reply", number(&answer), reply)?;
    same("wrapper's count", answer.unwrap_or(0), count)?;
    same_items("wrapper's map", &map_copy, &map)?;
    same_items("wrapper's definitions", &definitions_copy, &definitions)?;
    Ok((reply, count))
}

/// The reply, once count and picture are as wanted.
fn raw_pack(
    picture: &[u8],
    asked: Packing,
    wanted: u32,
    map: &mut Lent<u8>,
    definitions: &mut Lent<u8>,
) -> Checked {
    let mut lent_picture = lend(picture);
    let mut count = !wanted;
    // SAFETY: each pointer and length are those of one live buffer, and none overlaps another.
    let got = unsafe {
        raw::narephon_pack(
            lent_picture.pointer(),
            lent_picture.count(),
            asked.allowed,
            asked.offset,
            map.pointer(),
            map.count(),
            definitions.pointer(),
            definitions.count(),
            &mut count,
        )
    };
    same("count", count, wanted)?;
    lent_picture.check("picture", picture)?;
    Ok(got)
}

/// The fewest tiles of a picture; the reply and the count.
pub fn fewest(picture: &[u8], seen: &mut Seen) -> Result<(u8, u32), String> {
    let (reply, wanted) = model::fewest(picture);
    let name = |what: &str| format!("fewest of {} bytes: {what}", picture.len());
    let mut lent = lend(picture);
    let mut count = !wanted;
    // SAFETY: the pointer and the length are those of one live buffer, and the count is no part of it.
    let got = unsafe { raw::narephon_fewest(lent.pointer(), lent.count(), &mut count) };
    same(&name("reply"), got, reply)?;
    same(&name("count"), count, wanted)?;
    lent.check(&name("picture"), picture)?;
    let answer = narephon::fewest(picture);
    same(&name("wrapper's reply"), number(&answer), reply)?;
    same(&name("wrapper's count"), answer.unwrap_or(0), wanted)?;
    seen.reply(Call::Fewest, reply);
    Ok((reply, wanted))
}
