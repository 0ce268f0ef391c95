//! The command line program.

mod common;

use common::{old_record_of, record_of};
use model::State;
use std::path::PathBuf;
use std::process::Command;

/// A file of the test's own folder.
fn file(name: &str, bytes: &[u8]) -> PathBuf {
    let path = PathBuf::from(env!("CARGO_TARGET_TMPDIR")).join(name);
    std::fs::write(&path, bytes).unwrap();
    path
}

/// What the program writes, and whether it ended well.
fn run_bytes(words: &[&str], files: &[&PathBuf]) -> (Vec<u8>, bool) {
    let output = Command::new(env!("CARGO_BIN_EXE_model"))
        .args(words)
        .args(files)
        .output()
        .unwrap();
    (output.stdout, output.status.success())
}

/// The same where it is text.
fn run(words: &[&str], files: &[&PathBuf]) -> (String, bool) {
    let (bytes, well) = run_bytes(words, files);
    (String::from_utf8(bytes).unwrap(), well)
}

/// How many lines the program writes of what is wrong, when it writes nothing
/// else.
fn complaints(words: &[&str], files: &[&PathBuf]) -> usize {
    let output = Command::new(env!("CARGO_BIN_EXE_model"))
        .args(words)
        .args(files)
        .output()
        .unwrap();
    assert!(output.stdout.is_empty() && !output.status.success());
    String::from_utf8(output.stderr).unwrap().lines().count()
}

fn reset_record() -> Vec<u8> {
    record_of(&State::reset())
}

#[test]
fn a_script() {
    let entries = [
        [0, 0, 0x41, 0xE3],
        [2, 0, 0x40, 0],
        [0, 0, 0x42, 5],
        [2, 0, 0x99, 0],
        [1, 0xBF, 0x3B, 64],
        [1, 0xFF, 0x3B, 255],
        [3, 0xFF, 0x3B, 0],
        [3, 0, 0xFF, 0],
        [4, 0, 0, 0],
        [0, 1, 0x14, 7],
        [5, 0, 0, 0],
        [2, 0, 0x40, 0],
    ];
    let script = file("script", &entries.concat());
    let expected = "wr 65 227: 0\nrr 64: 0 1\nwr 66 5: 10\nrr 153: 9 0\nwp 48955 64: 0\n\
        wp 65339 255: 0\nrp 65339: 0 1\nrp 255: 9 0\nnf: 0\nwr 276 7: 9\nrs: 0\nrr 64: 0 0\n";
    assert_eq!(run(&["script"], &[&script]), (expected.to_string(), true));
    let short = file("short_script", &[0, 0, 0]);
    assert!(!run(&["script"], &[&short]).1);
    let unknown = file("unknown_script", &[6, 0, 0, 0]);
    assert!(!run(&["script"], &[&unknown]).1);
}

#[test]
fn a_record() {
    let mut bytes = reset_record();
    let good = file("good_record", &bytes);
    assert_eq!(run(&["record"], &[&good]), ("0 same\n".to_string(), true));
    let old = file("old_record", &old_record_of(&State::reset()));
    assert_eq!(run(&["record"], &[&old]), ("0 same\n".to_string(), true));
    for (place, byte, told) in [(35, 8, "18 35\n"), (2, 1, "17 2\n"), (1, 99, "16 0\n")] {
        bytes[place] = byte;
        let bad = file("bad_record", &bytes);
        assert_eq!(run(&["record"], &[&bad]), (told.to_string(), true));
    }
}

#[test]
fn lines() {
    let record = file("lines_record", &reset_record());
    let bank = file("lines_bank", &[0; 16_384]);
    let short = file("lines_short", &[0; 16_383]);
    // 1,280 zero bytes: the low sum stays 1, the high sum counts to 1,280.
    let expected = "0 05000001\n".repeat(256);
    assert_eq!(run(&["lines"], &[&record, &bank, &bank]), (expected, true));
    let expected = "2 -\n".repeat(256);
    assert_eq!(run(&["lines"], &[&record, &bank, &short]), (expected, true));
    assert!(!run(&["lines"], &[&bank, &bank, &bank]).1);
}

/// Blue paper and border, and a red pixel in the corner of the display: two dots of line 32, and the line twice.
#[test]
fn a_picture() {
    let mut state = State::reset();
    state.palettes[0][16] = 7;
    state.palettes[0][0] = 448;
    let mut bytes = [0; 16_384];
    bytes[0] = 0x80;
    let record = file("picture_record", &record_of(&state));
    let bank = file("picture_bank", &bytes);
    let mut pixels = vec![[0, 0, 255]; 640 * 512];
    for row in [64, 65] {
        pixels[row * 640 + 64..row * 640 + 66].fill([255, 0, 0]);
    }
    let mut expected = b"P6\n640 512\n255\n".to_vec();
    expected.extend(pixels.concat());
    let (written, well) = run_bytes(&["picture"], &[&record, &bank, &bank]);
    assert!(well && written == expected);
    // Nothing is written of a picture that is refused.
    let short = file("picture_short", &[0; 16_383]);
    let refused = run(&["picture"], &[&record, &bank, &short]);
    assert_eq!(refused, (String::new(), false));
}

/// A picture of 640 × 512 in one colour, but for some dots of one line in
/// another.
fn one_line(ground: [u8; 3], line: usize, dots: std::ops::Range<usize>, mark: [u8; 3]) -> Vec<u8> {
    let mut pixels = vec![ground; 640 * 512];
    for row in [2 * line, 2 * line + 1] {
        pixels[row * 640 + dots.start..row * 640 + dots.end].fill(mark);
    }
    let mut ppm = b"P6\n640 512\n255\n".to_vec();
    ppm.extend(pixels.concat());
    ppm
}

/// A file of 256 lines of a layer: transparent, but for one number.
fn layer(name: &str, line: usize, dot: usize, number: u16) -> PathBuf {
    let mut numbers = vec![512u16; 256 * 640];
    numbers[line * 640 + dot] = number;
    let bytes: Vec<u8> = numbers.iter().flat_map(|dot| dot.to_be_bytes()).collect();
    file(name, &bytes)
}

/// Black, and in the last dot of line 255 a red sprite over Layer 2's blue.
#[test]
fn layers() {
    let record = file("layers_record", &reset_record());
    let bank = file("layers_bank", &[0; 16_384]);
    let layer2 = layer("layers_layer2", 255, 639, 7);
    let sprites = layer("layers_sprites", 255, 639, 448);
    let files = [&record, &bank, &bank, &layer2, &sprites];
    let expected = one_line([0, 0, 0], 255, 639..640, [255, 0, 0]);
    assert!(run_bytes(&["picture"], &files) == (expected, true));
    let (text, well) = run(&["lines"], &files);
    // 448 is the bytes 1 and 192: the low sum ends at 194, the high one at 1,278 + 2 + 194.
    let expected = "0 05000001\n".repeat(255) + "0 05c200c2\n";
    assert_eq!((text, well), (expected, true));
    let bad = layer("layers_bad", 0, 0, 513);
    let (text, _) = run(&["lines"], &[&record, &bank, &bank, &bad, &sprites]);
    assert!(text.starts_with("20 -\n0 05000001\n"));
    let short = [&record, &bank, &bank, &bank, &sprites];
    assert_eq!(complaints(&["lines"], &short), 1);
}

/// A screen file alone has the standard colours and a black border: yellow ink
/// in the last column of the top row, and each of the sixteen as paper.
#[test]
fn a_screen() {
    let mut bytes = [0; 6_912];
    bytes[31] = 0x01;
    bytes[6_144 + 31] = 0x06;
    let plain = file("screen_plain", &bytes);
    let expected = one_line([0, 0, 0], 32, 574..576, [0xB5, 0xB5, 0]);
    assert!(run_bytes(&["screen"], &[&plain]) == (expected, true));
    for (paper, colour) in [
        (0x08, [0, 0, 0xB5]),
        (0x10, [0xB5, 0, 0]),
        (0x18, [0xB5, 0, 0xB5]),
        (0x20, [0, 0xB5, 0]),
        (0x38, [0xB5, 0xB5, 0xB5]),
        (0x40, [0, 0, 0]),
        (0x48, [0, 0, 0xFF]),
        (0x50, [0xFF, 0, 0]),
        // $14 is this colour, and so is the fallback.
        (0x58, [0xFF, 0, 0xFF]),
        (0x60, [0, 0xFF, 0]),
        (0x68, [0, 0xFF, 0xFF]),
        (0x70, [0xFF, 0xFF, 0]),
        (0x78, [0xFF, 0xFF, 0xFF]),
    ] {
        bytes[6_144..].fill(paper);
        let plain = file("screen_paper", &bytes);
        let (picture, well) = run_bytes(&["screen"], &[&plain]);
        let middle = picture.len() - 640 * 3 * 256 + 320 * 3;
        assert!(well && picture[middle..middle + 3] == colour, "{paper}");
        assert!(picture[15..18] == [0, 0, 0]);
    }
}

/// A file of mode 6 with colours: paper and border are red, and the ink, green,
/// shows in dot 1 of the last line alone.
#[test]
fn a_screen_with_colours() {
    let mut bytes = vec![0; 12_353];
    bytes[0x17E0] = 0x40;
    bytes[12_288] = 0x26;
    // $26 gives the attribute 01 011 100: registers 16 + 4 and 16 + 8 + 3.
    bytes[12_289 + 20] = 0xE0;
    bytes[12_289 + 27] = 0x1C;
    let screen = file("screen_six", &bytes);
    let expected = one_line([255, 0, 0], 223, 65..66, [0, 255, 0]);
    assert!(run_bytes(&["screen"], &[&screen]) == (expected, true));
}

/// With a record the screen has the record's colours and border, and its bank is
/// the tile bank too.
#[test]
fn a_screen_in_a_record() {
    let mut state = State::reset();
    state.layers = 0x80;
    state.palette_control = 1;
    state.palettes[0][16] = 7;
    state.palettes[0][0] = 448;
    let record = file("screen_record", &record_of(&state));
    let mut bytes = [0; 6_912];
    bytes[0] = 0x80;
    let screen = file("screen_of_record", &bytes);
    let expected = one_line([0, 0, 255], 32, 64..66, [255, 0, 0]);
    assert!(run_bytes(&["screen"], &[&record, &screen]) == (expected, true));
    // Entry 0 in a bank whose tile 0 starts with pixels 8 and 0; $4C is 0.
    state.tile_control = 0x80;
    state.tile_transparent = 0;
    state.palettes[2][8] = 56;
    state.map_base = 63;
    let record = file("screen_tiles", &record_of(&state));
    let (picture, well) = run_bytes(&["screen"], &[&record, &screen]);
    assert!(well && picture[15..21] == [0, 255, 0, 0, 255, 0]);
    assert!(picture[21..24] == [0, 0, 255]);
}

/// Of a screen that is refused nothing is written but one line of what is wrong.
#[test]
fn refused_screens() {
    let good = file("screen_good", &[0; 6_912]);
    let odd = file("screen_odd", &[0; 6_913]);
    let mode_2 = file("screen_port", &[2; 12_289]);
    let record = file("screen_reset", &reset_record());
    let mut state = State::reset();
    state.tile_control = 0x80;
    state.tile_x_high = 3;
    let far = file("screen_far", &record_of(&state));
    let nowhere = PathBuf::from(env!("CARGO_TARGET_TMPDIR")).join("screen_nowhere");
    for files in [
        vec![&odd],
        vec![&mode_2],
        vec![&nowhere],
        vec![&record, &odd],
        vec![&odd, &good],
        vec![&nowhere, &good],
        vec![&far, &good],
    ] {
        assert_eq!(complaints(&["screen"], &files), 1, "{files:?}");
    }
    assert!(run(&["screen"], &[&record, &good]).1);
}

#[test]
fn packings() {
    let zero = file("picture", &[0; 40_960]);
    assert_eq!(run(&["pack"], &[&zero]), ("tiles 1\n".to_string(), true));
    let long = file("long_picture", &[0; 40_961]);
    assert_eq!(run(&["pack"], &[&long]), ("refused 3\n".to_string(), true));
    assert!(!run(&["pack"], &[]).1);
}
