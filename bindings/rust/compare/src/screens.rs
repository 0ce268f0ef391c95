//! Screen files of every form, and files that are none.

use crate::random::Random;
use crate::states::bank;
use model::SCREEN_LENGTH;

/// The lengths of the six forms: modes 0, 2 and 6, each without colours and with them.
pub const LENGTHS: [usize; 6] = [6_912, 6_976, 12_288, 12_352, 12_289, 12_353];

/// Where a file of mode 6 has the byte of port $FF.
const PORT: usize = 12_288;

/// A file of so many bytes, of noise or of few values. A byte of port $FF says mode 6.
pub fn file(random: &mut Random, length: usize) -> Vec<u8> {
    let mut file = bank(random);
    file.resize(length, 0);
    if length == 12_289 || length == 12_353 {
        file[PORT] = random.byte() & 0xF8 | 6;
    }
    file
}

/// A file with a byte of port $FF.
pub fn file_with_port(random: &mut Random, length: usize, port: u8) -> Vec<u8> {
    let mut file = file(random, length);
    file[PORT] = port;
    file
}

/// A file that is a screen, or has another port byte, or a length beside one of the six.
pub fn any_file(random: &mut Random) -> Vec<u8> {
    let right = random.pick(&LENGTHS);
    let other = random.below(2 * SCREEN_LENGTH as u64) as usize;
    match random.below(6) {
        0 => {
            let length = random.pick(&[0, 1, 64, right - 1, right + 1, right + 64, other]);
            file(random, length)
        }
        1 => {
            let (length, port) = (random.pick(&[12_289, 12_353]), random.byte());
            file_with_port(random, length, port)
        }
        _ => file(random, right),
    }
}
