//! Screen files: section 14.

use crate::record::{read_new, read_record, write_record};
use crate::reply::{Reply, DONE, NOT_LAWFUL, NO_FORM, WRONG_BANK, WRONG_BUFFER};
use crate::state::{lawful, State};
use crate::ula::{mode_kept, Mode};
use crate::BANK_LENGTH;

/// Rules 9.3 and 14.9: the bytes of a buffer that a screen is written into.
pub const SCREEN_LENGTH: usize = 12_353;

/// Rule 14.1: the bytes of the colours that a file may end with.
pub const SCREEN_COLOURS: usize = 64;

/// Rule 14.1: where the byte of port $FF stands in a file of mode 6.
const PORT_PLACE: usize = 12_288;

/// Rule 14.2: the modes that have a form.
#[derive(Clone, Copy, Debug, PartialEq, Eq, Hash, PartialOrd, Ord)]
pub enum Form {
    Zero,
    Two,
    Six,
}

impl Form {
    /// Rule 14.1: the first and the last address of each part of the bank.
    fn parts(self) -> &'static [(usize, usize)] {
        match self {
            Form::Zero => &[(0x0000, 0x1AFF)],
            Form::Two | Form::Six => &[(0x0000, 0x17FF), (0x2000, 0x37FF)],
        }
    }

    /// Rule 14.1: the address of each byte of the parts, in the file's order.
    pub fn addresses(self) -> Vec<usize> {
        let parts = self.parts().iter();
        parts.flat_map(|&(first, last)| first..=last).collect()
    }
}

/// Rules 14.1 and 14.3: the form that a file has and whether colours end it, or
/// none.
pub fn form_of_file(file: &[u8]) -> Option<(Form, bool)> {
    match file.len() {
        6_912 => Some((Form::Zero, false)),
        6_976 => Some((Form::Zero, true)),
        12_288 => Some((Form::Two, false)),
        12_352 => Some((Form::Two, true)),
        12_289 if mode_6(file[PORT_PLACE]) => Some((Form::Six, false)),
        12_353 if mode_6(file[PORT_PLACE]) => Some((Form::Six, true)),
        _ => None,
    }
}

/// Rule 14.3: the port byte of a file must say mode 6.
fn mode_6(port: u8) -> bool {
    port % 8 == 6
}

/// Rules 14.2 and 14.9: the form of a state's mode, or none. It is the mode of
/// 4.1, which the ULA keeps while it is off.
pub fn form_of_state(state: &State) -> Option<Form> {
    match mode_kept(state) {
        Mode::Zero => Some(Form::Zero),
        Mode::Two => Some(Form::Two),
        Mode::Six => Some(Form::Six),
        _ => None,
    }
}

/// Rules 10.9 and 10.10: reads a file into a bank and a state, or refuses by 2,
/// 4, 14 in this order. The colours are a part of the file itself (14.4).
pub fn read_scr<'a>(state: &State, bank: &mut [u8], file: &'a [u8]) -> (Reply, State, &'a [u8]) {
    if bank.len() != BANK_LENGTH {
        return (WRONG_BANK, state.clone(), &[]);
    }
    if !lawful(state) {
        return (NOT_LAWFUL, state.clone(), &[]);
    }
    let Some((form, coloured)) = form_of_file(file) else {
        return (NO_FORM, state.clone(), &[]);
    };
    // 14.5: byte by byte, to the addresses of the parts and to no other.
    for (place, address) in form.addresses().into_iter().enumerate() {
        bank[address] = file[place];
    }
    let colours = if coloured {
        &file[file.len() - SCREEN_COLOURS..]
    } else {
        &[]
    };
    (DONE, after_reading(state, form, file, colours), colours)
}

/// Rules 14.6 to 14.8: the state after a file is read.
fn after_reading(state: &State, form: Form, file: &[u8], colours: &[u8]) -> State {
    let mut after = state.clone();
    after.layers &= 0b0111_1111;
    after.palette_control &= 0b1111_1110;
    after.peripheral |= 0b0000_0100;
    after.timex = match form {
        Form::Zero => 0,
        Form::Two => 2,
        Form::Six => file[PORT_PLACE],
    };
    // 14.7: without colours the registers stay.
    after.plus_on = !colours.is_empty();
    for (register, &colour) in after.plus.iter_mut().zip(colours) {
        *register = colour;
    }
    after
}

/// Rules 10.9 and 10.11: writes a state's screen into the front of a buffer and
/// tells its length, or refuses by 2, 3, 4, 14 in this order.
pub fn write_scr(state: &State, bank: &[u8], target: &mut [u8]) -> (Reply, usize) {
    if bank.len() != BANK_LENGTH {
        return (WRONG_BANK, 0);
    }
    if target.len() != SCREEN_LENGTH {
        return (WRONG_BUFFER, 0);
    }
    if !lawful(state) {
        return (NOT_LAWFUL, 0);
    }
    let Some(form) = form_of_state(state) else {
        return (NO_FORM, 0);
    };
    let bytes = screen_bytes(state, form, bank);
    // 14.9: what is past them stays.
    target[..bytes.len()].copy_from_slice(&bytes);
    (DONE, bytes.len())
}

/// Rules 14.1 and 14.9: the bytes of a screen in their order.
fn screen_bytes(state: &State, form: Form, bank: &[u8]) -> Vec<u8> {
    let addresses = form.addresses().into_iter();
    let mut bytes: Vec<u8> = addresses.map(|address| bank[address]).collect();
    if form == Form::Six {
        bytes.push(state.timex);
    }
    if state.plus_on {
        bytes.extend(state.plus);
    }
    bytes
}

/// Reading with a record lent for the state: 2, 16, 17, 18, 14 in this order, and
/// the place of the colours in the file, 0 where there are none. The record is
/// changed, so one of version 1 is 17 (7.10).
pub fn lent_read_scr(record: &mut [u8], bank: &mut [u8], file: &[u8]) -> (Reply, u32) {
    if bank.len() != BANK_LENGTH {
        return (WRONG_BANK, 0);
    }
    let (known, _, state) = read_new(record);
    if known != DONE {
        return (known, 0);
    }
    let (reply, after, colours) = read_scr(&state, bank, file);
    if reply != DONE {
        return (reply, 0);
    }
    // 14.12: the state is still lawful, so it has a record.
    assert_eq!(write_record(&after, record), DONE);
    let place = match colours.len() {
        0 => 0,
        length => file.len() - length,
    };
    (DONE, place as u32)
}

/// Writing with a record lent for the state, of either version: 2, 3, 16, 17,
/// 18, 14 in this order, and the length.
pub fn lent_write_scr(record: &[u8], bank: &[u8], target: &mut [u8]) -> (Reply, u32) {
    if bank.len() != BANK_LENGTH {
        return (WRONG_BANK, 0);
    }
    if target.len() != SCREEN_LENGTH {
        return (WRONG_BUFFER, 0);
    }
    let (known, _, state) = read_record(record);
    if known != DONE {
        return (known, 0);
    }
    let (reply, length) = write_scr(&state, bank, target);
    (reply, length as u32)
}
