//! A bot's states, on a desk by member number. Two members share a nickname; one has sent half a nine-bit colour, the other
//! sends a byte of her own, and neither reaches the other. A third hands in an old record, which is moved up when it is
//! loaded, and a fourth a damaged one, of which the bot says what is wrong and where.
use narephon::{Desk, Reply};

/// A record as versions before 0.3.0 stored it, of a screen scrolled by 16 and 40.
fn old_record() -> Result<[u8; narephon::OLD_RECORD], Reply> {
    let mut record = narephon::reset();
    for (register, value) in [(0x26, 16), (0x27, 40), (0x32, 16), (0x33, 40)] {
        narephon::write_register(&mut record, register, value)?;
    }
    Ok(narephon::move_back(&record)?)
}

/// Members 7 and 8 are both called Rufus.
fn keep_apart(desk: &mut Desk) -> Result<(), Reply> {
    for member in [7, 8] {
        desk.open(member)?;
        desk.write_register(member, 0x40, 12)?;
    }
    desk.write_register(7, 0x44, 0xE3)?;
    desk.write_register(8, 0x44, 0x1C)?;
    desk.write_register(8, 0x44, 1)?;
    println!(
        "member 8 finished her colour: index {}",
        desk.read_register(8, 0x40)?
    );
    println!(
        "member 7 still holds his half: index {}",
        desk.read_register(7, 0x40)?
    );
    desk.write_register(7, 0x44, 0)?;
    for member in [7, 8] {
        desk.write_register(member, 0x40, 12)?;
        let high = u16::from(desk.read_register(member, 0x41)?);
        let low = u16::from(desk.read_register(member, 0x44)?);
        println!("member {member}: colour {}", high * 2 + low);
    }
    Ok(())
}

/// A stored record does not go on a desk: it is loaded, and the calls take it as it is.
fn take_stored() -> Result<(), Reply> {
    let mut record = narephon::load_record(&old_record()?)?;
    // A register that her old record did not have.
    narephon::write_register(&mut record, 0x26, 24)?;
    println!(
        "member 9 scrolls by {} and {}",
        narephon::read_register(&record, 0x26)?,
        narephon::read_register(&record, 0x27)?
    );
    let mut damaged = old_record()?;
    // The border of an old record, at most 7.
    damaged[33] = 8;
    if let Err(refusal) = narephon::load_record(&damaged) {
        println!("member 10 has a damaged record: {refusal}");
    }
    Ok(())
}

fn main() -> Result<(), Reply> {
    let mut desk = Desk::new();
    keep_apart(&mut desk)?;
    take_stored()
}
