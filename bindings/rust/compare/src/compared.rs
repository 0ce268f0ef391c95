//! One call beside the model, by what it does with the bytes lent to it, which are a record or a desk: its reply, its answer,
//! and every lent buffer afterwards. The safe wrapper is held to the same.

use crate::lent::{same, same_items, Lent, Part};
use model::reply::DONE;
use narephon::Reply;

/// What came of a comparison: a reply that both gave, or what differs.
pub type Checked = Result<u8, String>;

/// The number of a wrapper's reply.
pub fn number<T>(answer: &Result<T, Reply>) -> u8 {
    match answer {
        Ok(_) => DONE,
        Err(reply) => reply.number(),
    }
}

/// A call that changes the bytes.
pub fn changing(
    bytes: &mut Lent<u8>,
    modelled: impl Fn(&[u8]) -> (u8, Vec<u8>),
    lent: impl Fn(*mut u8, usize) -> u8,
    wrapped: impl Fn(&mut Vec<u8>) -> Result<(), Reply>,
) -> Checked {
    let mut copy = bytes.items().to_vec();
    let (reply, wanted) = modelled(&copy);
    same("reply", lent(bytes.pointer(), bytes.count()), reply)?;
    bytes.check("bytes", &wanted)?;
    same("wrapper's reply", number(&wrapped(&mut copy)), reply)?;
    same_items("wrapper's bytes", &copy, &wanted)?;
    Ok(reply)
}

/// A call that reads a value from the bytes, and leaves them.
pub fn reading(
    bytes: &mut Lent<u8>,
    modelled: impl Fn(&[u8]) -> (u8, u8),
    lent: impl Fn(*mut u8, usize, *mut u8) -> u8,
    wrapped: impl Fn(&[u8]) -> Result<u8, Reply>,
) -> Checked {
    let before = bytes.items().to_vec();
    let (reply, wanted) = modelled(&before);
    // Another value than the one wanted, so that one left as it was is seen.
    let mut value = !wanted;
    let got = lent(bytes.pointer(), bytes.count(), &mut value);
    same("reply", got, reply)?;
    same("value", value, wanted)?;
    bytes.check("bytes", &before)?;
    let answer = wrapped(&before);
    same("wrapper's reply", number(&answer), reply)?;
    same("wrapper's value", answer.unwrap_or(0), wanted)?;
    Ok(reply)
}

/// A drawing into a line of `length` dots, which leaves the bytes; the reply, and what the model tells besides.
pub fn drawing<T>(
    bytes: &mut Lent<u8>,
    length: usize,
    modelled: impl Fn(&[u8], &mut [u16]) -> (u8, T),
    lent: impl Fn(Part<u8>, Part<u16>) -> u8,
    wrapped: impl Fn(&[u8], &mut [u16]) -> Result<(), Reply>,
) -> Result<(u8, T), String> {
    let before = bytes.items().to_vec();
    // No colour, so that a dot left out is seen.
    let blank = vec![0xAAAA; length];
    let mut wanted = blank.clone();
    let (reply, told) = modelled(&before, &mut wanted);
    let mut dots = Lent::new(&blank, 0x5A5A);
    same("reply", lent(bytes.part(), dots.part()), reply)?;
    dots.check("dots", &wanted)?;
    bytes.check("bytes", &before)?;
    let mut copy = blank;
    let answer = wrapped(&before, &mut copy);
    same("wrapper's reply", number(&answer), reply)?;
    same_items("wrapper's dots", &copy, &wanted)?;
    Ok((reply, told))
}
