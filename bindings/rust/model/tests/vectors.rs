//! The model against outside pictures and sheets: those of the sample programs
//! `sample_vectors` and `sample_sheets`, whose READMEs or heads name the
//! programs that made them.

use model::record::writes_back;
use model::sums::dots_sum;
use model::{draw, draws, fewest, move_up, pack, read_record, DOTS, RECORD_LENGTH};
use std::fs::{read, read_to_string};
use std::path::{Path, PathBuf};

/// A file of a sample program.
fn sample(name: &str) -> PathBuf {
    let crates = Path::new(env!("CARGO_MANIFEST_DIR")).join("../../../crates");
    crates.join(name)
}

/// A file that a sample program is given.
fn given(program: &str, name: &str) -> Vec<u8> {
    let path = sample(program).join("data").join(name);
    read(&path).unwrap_or_else(|fault| panic!("{path:?}: {fault}"))
}

/// The cases of `sample_vectors`: the names of a record, a ULA bank and a tile
/// bank, and the sums of the 256 lines.
fn cases() -> Vec<Vec<String>> {
    let text = read_to_string(sample("sample_vectors").join("stdout")).unwrap();
    let lines: Vec<String> = text.lines().map(str::to_string).collect();
    lines.chunks(257).map(<[String]>::to_vec).collect()
}

#[test]
fn pictures_agree_line_by_line() {
    let cases = cases();
    assert_eq!(cases.len(), 24);
    for case in cases {
        let names: Vec<&str> = case[0].split(' ').collect();
        let [record, ula, tile] = names[..] else {
            panic!("{}", case[0])
        };
        let bytes = given("sample_vectors", record);
        let (reply, _, state) = read_record(&bytes);
        assert_eq!(reply, 0, "{record}");
        assert!(writes_back(&bytes), "{record}");
        // All are old: moved up, the same is drawn.
        let mut moved = vec![0; RECORD_LENGTH];
        assert_eq!(move_up(&bytes, &mut moved), (0, 0), "{record}");
        assert_eq!(read_record(&moved), (0, 0, state.clone()), "{record}");
        let (ula, tile) = (given("sample_vectors", ula), given("sample_vectors", tile));
        assert_eq!(case.len(), 257);
        for (line, sum) in case[1..].iter().enumerate() {
            let mut dots = [0; DOTS];
            assert_eq!(draw(line as u32, &ula, &tile, &state, &mut dots), 0);
            assert_eq!(
                &format!("{:08x}", dots_sum(&dots)),
                sum,
                "{} {line}",
                case[0]
            );
        }
    }
}

#[test]
fn sheets_agree() {
    let expected = [("allsym", 64), ("mirror", 60), ("one", 1), ("plain", 40)];
    for (name, count) in expected {
        let picture = given("sample_sheets", &format!("{name}.pic"));
        let mut map = vec![0; 2_560];
        let mut definitions = vec![0; 8_192];
        let answer = pack(&picture, 256, 0, &mut map, &mut definitions);
        assert_eq!(answer, (0, count), "{name}");
        assert_eq!(fewest(&picture), (0, count));
        assert_eq!(draws(&map, &definitions, 0, &picture), 0);
        // The outside sheet draws the same picture.
        let sheet = given("sample_sheets", &format!("{name}.rgbgfx.sheet"));
        assert_eq!(draws(&sheet[..2_560], &sheet[2_560..], 0, &picture), 0);
    }
}
