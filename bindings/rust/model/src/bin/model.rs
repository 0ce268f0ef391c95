//! Works out expected answers: register scripts, records, lines, pictures, screen files, packings.

use model::record::writes_back;
use model::reply::{Reply, DONE, NO_SUCH_REGISTER};
use model::sums::dots_sum;
use model::trace::{draw_traced, Lent};
use model::{
    draw, draw_layers, next_frame, pack, read_port, read_record, read_register, read_scr,
    screen_value, widen, write_port, write_register, LentLines, State, BANK_LENGTH, DOTS,
};
use std::env::args;
use std::fs::read;
use std::io::Write;
use std::process::ExitCode;

const USAGE: &str = "usage: model script FILE
       model record FILE
       model lines RECORD ULABANK TILEBANK [TRACE | LAYER2 SPRITES]
       model picture RECORD ULABANK TILEBANK [TRACE | LAYER2 SPRITES]
       model screen [RECORD] SCREEN
       model pack FILE";

fn main() -> ExitCode {
    let words: Vec<String> = args().skip(1).collect();
    let words: Vec<&str> = words.iter().map(String::as_str).collect();
    match answer(&words) {
        Ok(bytes) => match std::io::stdout().write_all(&bytes) {
            Ok(()) => ExitCode::SUCCESS,
            Err(fault) => failed(&format!("standard output: {fault}")),
        },
        Err(text) => failed(&text),
    }
}

fn failed(text: &str) -> ExitCode {
    eprintln!("{text}");
    ExitCode::FAILURE
}

/// What goes to standard output.
fn answer(words: &[&str]) -> Result<Vec<u8>, String> {
    let text = match words[..] {
        ["script", file] => script(&load(file)?)?,
        ["record", file] => record(&load(file)?),
        ["lines", record, ula, tile] => lines(&screen(record, ula, tile)?),
        ["lines", record, ula, tile, trace] => {
            lines(&screen(record, ula, tile)?.with_trace(trace)?)
        }
        ["lines", record, ula, tile, layer2, sprites] => {
            lines(&screen(record, ula, tile)?.with_layers(layer2, sprites)?)
        }
        ["picture", record, ula, tile] => return picture(&screen(record, ula, tile)?),
        ["picture", record, ula, tile, trace] => {
            return picture(&screen(record, ula, tile)?.with_trace(trace)?)
        }
        ["picture", record, ula, tile, layer2, sprites] => {
            return picture(&screen(record, ula, tile)?.with_layers(layer2, sprites)?)
        }
        ["screen", file] => return picture(&shown(file, standard())?),
        ["screen", record, file] => return picture(&shown(file, known(record)?)?),
        ["pack", file] => packing(&load(file)?),
        _ => return Err(USAGE.to_string()),
    };
    Ok(text.into_bytes())
}

/// All bytes of a file.
fn load(name: &str) -> Result<Vec<u8>, String> {
    read(name).map_err(|fault| format!("{name}: {fault}"))
}

/// Runs a script from the reset state, four bytes an entry: kind, number high,
/// number low, value.
fn script(bytes: &[u8]) -> Result<String, String> {
    let entries = bytes.chunks_exact(4);
    if !entries.remainder().is_empty() {
        return Err("a script has four bytes an entry".to_string());
    }
    let mut state = State::reset();
    let mut text = String::new();
    for entry in entries {
        let number = u16::from_be_bytes([entry[1], entry[2]]);
        text += &step(&mut state, entry[0], number, entry[3])?;
        text.push('\n');
    }
    Ok(text)
}

/// One entry of a script. A register number above 255 is no register.
fn step(state: &mut State, kind: u8, number: u16, value: u8) -> Result<String, String> {
    let register = u8::try_from(number);
    let (line, after) = match kind {
        0 => {
            let (reply, after) = match register {
                Ok(register) => write_register(state, register, value),
                Err(_) => (NO_SUCH_REGISTER, state.clone()),
            };
            (format!("wr {number} {value}: {reply}"), after)
        }
        1 => {
            let (reply, after) = write_port(state, number, value);
            (format!("wp {number} {value}: {reply}"), after)
        }
        2 => {
            let (reply, byte) = match register {
                Ok(register) => read_register(state, register),
                Err(_) => (NO_SUCH_REGISTER, 0),
            };
            (format!("rr {number}: {reply} {byte}"), state.clone())
        }
        3 => {
            let (reply, byte) = read_port(state, number);
            (format!("rp {number}: {reply} {byte}"), state.clone())
        }
        4 => {
            let (reply, after) = next_frame(state);
            (format!("nf: {reply}"), after)
        }
        5 => ("rs: 0".to_string(), State::reset()),
        _ => return Err(format!("no such kind of entry: {kind}")),
    };
    *state = after;
    Ok(line)
}

/// The reply of reading a record and, where it is 0, whether writing gives the
/// same bytes, else the place that it tells.
fn record(bytes: &[u8]) -> String {
    let (reply, place, _) = read_record(bytes);
    match (reply, writes_back(bytes)) {
        (DONE, true) => format!("{DONE} same\n"),
        (DONE, false) => format!("{DONE} different\n"),
        _ => format!("{reply} {place}\n"),
    }
}

/// What lines are drawn from.
struct Screen {
    state: State,
    ula: Vec<u8>,
    tile: Vec<u8>,
    more: More,
}

/// What a line is drawn by besides.
enum More {
    Nothing,
    Trace(Vec<u8>),
    Layers(Layers),
}

impl Screen {
    fn draw(&self, line: u32) -> (Reply, [u16; DOTS]) {
        let mut dots = [0; DOTS];
        let (ula, tile, state) = (&self.ula, &self.tile, &self.state);
        let reply = match &self.more {
            More::Nothing => draw(line, ula, tile, state, &mut dots),
            More::Trace(trace) => draw_traced(line, Lent { trace, ula, tile }, state, &mut dots).0,
            More::Layers(layers) => {
                draw_layers(line, ula, tile, layers.line(line), state, &mut dots)
            }
        };
        (reply, dots)
    }

    /// The same screen with Layer 2 and sprites, from their files.
    fn with_layers(self, layer2: &str, sprites: &str) -> Result<Screen, String> {
        let (layer2, sprites) = (numbers(layer2)?, numbers(sprites)?);
        let more = More::Layers(Layers { layer2, sprites });
        Ok(Screen { more, ..self })
    }

    /// The same screen by the trace in a file.
    fn with_trace(self, trace: &str) -> Result<Screen, String> {
        let more = More::Trace(load(trace)?);
        Ok(Screen { more, ..self })
    }
}

/// The numbers of 256 lines of Layer 2, and of the sprites.
struct Layers {
    layer2: Vec<u16>,
    sprites: Vec<u16>,
}

impl Layers {
    fn line(&self, line: u32) -> LentLines<'_> {
        let start = line as usize * DOTS;
        LentLines {
            layer2: &self.layer2[start..start + DOTS],
            sprites: &self.sprites[start..start + DOTS],
        }
    }
}

/// The numbers in a file of 256 lines, two bytes each, the high one first.
fn numbers(name: &str) -> Result<Vec<u16>, String> {
    let bytes = load(name)?;
    if bytes.len() != 256 * DOTS * 2 {
        return Err(format!("{name}: 256 lines of a layer are 327,680 bytes"));
    }
    let pairs = bytes.chunks_exact(2);
    Ok(pairs
        .map(|pair| u16::from_be_bytes([pair[0], pair[1]]))
        .collect())
}

fn screen(record: &str, ula: &str, tile: &str) -> Result<Screen, String> {
    Ok(Screen {
        state: known(record)?,
        ula: load(ula)?,
        tile: load(tile)?,
        more: More::Nothing,
    })
}

/// The state in a file that must be a record.
fn known(record: &str) -> Result<State, String> {
    match read_record(&load(record)?) {
        (DONE, _, state) => Ok(state),
        (reply, place, _) => Err(format!("{record}: refused {reply} at {place}")),
    }
}

/// A screen file read into a state and into a bank of zeros, which is the tile
/// bank too.
fn shown(file: &str, state: State) -> Result<Screen, String> {
    let mut ula = vec![0; BANK_LENGTH];
    match read_scr(&state, &mut ula, &load(file)?) {
        (DONE, state, _) => Ok(Screen {
            state,
            tile: ula.clone(),
            ula,
            more: More::Nothing,
        }),
        (reply, _, _) => Err(format!("{file}: refused {reply}")),
    }
}

/// Black, blue, red, magenta, green, cyan, yellow and white, then bright.
const STANDARD: [u8; 16] = [
    0x00, 0x02, 0xA0, 0xA2, 0x14, 0x16, 0xB4, 0xB6, 0x00, 0x03, 0xE0, 0xE3, 0x1C, 0x1F, 0xFC, 0xFF,
];

/// The reset state with the sixteen colours for ink and paper. Bright magenta is
/// $14, so the fallback is bright magenta as well.
fn standard() -> State {
    let mut state = State::reset();
    state.fallback = 0xE3;
    for index in 0..32 {
        state.palettes[0][index] = widen(STANDARD[index % 16]);
    }
    state
}

/// The reply and the Adler-32 of each of the 256 lines.
fn lines(screen: &Screen) -> String {
    let mut text = String::new();
    for line in 0..256 {
        let (reply, dots) = screen.draw(line);
        if reply == DONE {
            text += &format!("{reply} {:08x}\n", dots_sum(&dots));
        } else {
            text += &format!("{reply} -\n");
        }
    }
    text
}

/// A binary PPM of 640 × 512: each of the 256 lines twice, every dot by its screen value.
fn picture(screen: &Screen) -> Result<Vec<u8>, String> {
    let mut ppm = b"P6\n640 512\n255\n".to_vec();
    for line in 0..256 {
        let (reply, dots) = screen.draw(line);
        if reply != DONE {
            return Err(format!("line {line}: refused {reply}"));
        }
        let pixels: Vec<u8> = dots.iter().flat_map(|&dot| pixel(dot)).collect();
        ppm.extend(pixels.repeat(2));
    }
    Ok(ppm)
}

/// Red, green and blue of a dot.
fn pixel(dot: u16) -> [u8; 3] {
    let (_, value) = screen_value(u32::from(dot));
    let [_, red, green, blue] = value.to_be_bytes();
    [red, green, blue]
}

/// Rule 8.9: the line that the packing program prints.
fn packing(picture: &[u8]) -> String {
    let mut map = [0; 2_560];
    let mut definitions = [0; 8_192];
    match pack(picture, 256, 0, &mut map, &mut definitions) {
        (DONE, count) => format!("tiles {count}\n"),
        (reply, _) => format!("refused {reply}\n"),
    }
}
