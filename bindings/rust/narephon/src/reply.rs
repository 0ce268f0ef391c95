//! The refusals by number, and where in a record or a trace.

use std::fmt;

/// Why a call was refused.
///
/// Later versions may have more replies; a number that this wrapper does not know is [`Reply::Unknown`], a refusal like
/// any other. Its `Display` says the number and the sentence: `refused 10: the value is out of its bounds`.
#[derive(Clone, Copy, Debug, PartialEq, Eq, Hash)]
#[non_exhaustive]
pub enum Reply {
    /// 1: the line is above 255.
    NoLine,
    /// 2: a bank is not 16,384 bytes long.
    BankLength,
    /// 3: another buffer has the wrong length.
    BufferLength,
    /// 4: the state is not lawful. A record of such a state is [`Reply::BadField`], on a desk [`Reply::BadDesk`],
    /// so no call here gives this.
    NotLawful,
    /// 5: the ULA is on, LoRes is off, and port $FF gives no mode.
    NoMode,
    /// 6: LoRes and the tilemap are both on.
    LoresWithTiles,
    /// 7: ULANext and ULAplus are both on.
    NextWithPlus,
    /// 8: the tilemap is on and its X offset is past its width.
    FarOffset,
    /// 9: there is no such register or port, or it cannot be used that way.
    NoRegister,
    /// 10: the value is out of its bounds.
    OutOfBounds,
    /// 11: no map naming at most the number allowed draws the picture.
    TooManyTiles,
    /// 12: the number allowed is above 256, or the palette offset above 15.
    PackingBounds,
    /// 14: the file is not a screen, or the screen has no form as a file.
    NoForm,
    /// 15: the record cannot be moved back: $26 is not $32, or $27 is not $33.
    PairsDiffer,
    /// 16: the record's stated number is missing, is not the number of bytes following, or is neither 2,148 nor 2,150.
    WrongCount,
    /// 17: the record's version is not read here, or is not the one of its length.
    WrongVersion,
    /// 18: a field of the record is out of its bounds.
    BadField,
    /// 19: $15 bits 4-2 are 110 or 111, which is no order of the layers.
    NoOrder,
    /// 20: a number of the Layer 2 line or of the sprite line is not allowed.
    BadDot,
    /// 21: the desk has the wrong length, a seat that is not of its form, or a number seated twice.
    BadDesk,
    /// 22: the member already has a seat.
    AlreadyOpen,
    /// 23: the member has no seat.
    NotOpen,
    /// 24: all sixteen seats are held.
    DeskFull,
    /// 25: the trace is not well formed.
    BadTrace,
    /// 26: the lines of the trace fall.
    LinesFall,
    /// Any other number: the library is of another version than this wrapper.
    Unknown(u8),
}

/// The replies with a number of their own.
const KNOWN: [Reply; 25] = [
    Reply::NoLine,
    Reply::BankLength,
    Reply::BufferLength,
    Reply::NotLawful,
    Reply::NoMode,
    Reply::LoresWithTiles,
    Reply::NextWithPlus,
    Reply::FarOffset,
    Reply::NoRegister,
    Reply::OutOfBounds,
    Reply::TooManyTiles,
    Reply::PackingBounds,
    Reply::NoForm,
    Reply::PairsDiffer,
    Reply::WrongCount,
    Reply::WrongVersion,
    Reply::BadField,
    Reply::NoOrder,
    Reply::BadDot,
    Reply::BadDesk,
    Reply::AlreadyOpen,
    Reply::NotOpen,
    Reply::DeskFull,
    Reply::BadTrace,
    Reply::LinesFall,
];

impl Reply {
    /// The number of the reply table.
    pub fn number(self) -> u8 {
        match self {
            Reply::NoLine => 1,
            Reply::BankLength => 2,
            Reply::BufferLength => 3,
            Reply::NotLawful => 4,
            Reply::NoMode => 5,
            Reply::LoresWithTiles => 6,
            Reply::NextWithPlus => 7,
            Reply::FarOffset => 8,
            Reply::NoRegister => 9,
            Reply::OutOfBounds => 10,
            Reply::TooManyTiles => 11,
            Reply::PackingBounds => 12,
            Reply::NoForm => 14,
            Reply::PairsDiffer => 15,
            Reply::WrongCount => 16,
            Reply::WrongVersion => 17,
            Reply::BadField => 18,
            Reply::NoOrder => 19,
            Reply::BadDot => 20,
            Reply::BadDesk => 21,
            Reply::AlreadyOpen => 22,
            Reply::NotOpen => 23,
            Reply::DeskFull => 24,
            Reply::BadTrace => 25,
            Reply::LinesFall => 26,
            Reply::Unknown(number) => number,
        }
    }

    /// What the reply says, as a member can be told it.
    pub fn sentence(self) -> &'static str {
        match self {
            Reply::NoLine => "the line is above 255",
            Reply::BankLength => "a bank is not 16,384 bytes long",
            Reply::BufferLength => "another buffer has the wrong length",
            Reply::NotLawful => "the state is not lawful",
            Reply::NoMode => "the ULA is on, LoRes is off, and port $FF gives no mode",
            Reply::LoresWithTiles => "LoRes and the tilemap are both on",
            Reply::NextWithPlus => "ULANext and ULAplus are both on",
            Reply::FarOffset => "the tilemap is on and its X offset is past its width",
            Reply::NoRegister => "there is no such register or port, or it cannot be used that way",
            Reply::OutOfBounds => "the value is out of its bounds",
            Reply::TooManyTiles => "no map naming at most the number allowed draws the picture",
            Reply::PackingBounds => {
                "the number allowed is above 256, or the palette offset above 15"
            }
            Reply::NoForm => "the file is not a screen, or the screen has no form as a file",
            Reply::PairsDiffer => {
                "the record cannot be moved back: $26 is not $32, or $27 is not $33"
            }
            Reply::WrongCount => {
                "the record's stated number is missing, is not the number of bytes following, or is neither 2,148 nor 2,150"
            }
            Reply::WrongVersion => {
                "the record's version is not read here, or is not the one of its length"
            }
            Reply::BadField => "a field of the record is out of its bounds",
            Reply::NoOrder => "$15 bits 4-2 are 110 or 111, which is no order of the layers",
            Reply::BadDot => {
                "a number of the Layer 2 line or of the sprite line is not allowed"
            }
            Reply::BadDesk => {
                "the desk has the wrong length, a seat that is not of its form, or a number seated twice"
            }
            Reply::AlreadyOpen => "the member already has a seat",
            Reply::NotOpen => "the member has no seat",
            Reply::DeskFull => "all sixteen seats are held",
            Reply::BadTrace => "the trace is not well formed",
            Reply::LinesFall => "the lines of the trace fall",
            Reply::Unknown(_) => {
                "a reply that this wrapper does not know: the library is of another version"
            }
        }
    }

    /// Does the reply say where in a record it is?
    fn tells_place(self) -> bool {
        matches!(
            self,
            Reply::WrongCount | Reply::WrongVersion | Reply::BadField
        )
    }

    /// Does the reply, to a drawing by a trace, come of an entry?
    fn tells_entry(self) -> bool {
        matches!(self, Reply::NoRegister | Reply::OutOfBounds)
    }

    /// The reply of a number that is not 0.
    fn of(number: u8) -> Reply {
        let known = KNOWN.into_iter().find(|reply| reply.number() == number);
        known.unwrap_or(Reply::Unknown(number))
    }
}

impl fmt::Display for Reply {
    fn fmt(&self, f: &mut fmt::Formatter<'_>) -> fmt::Result {
        write!(f, "refused {}: {}", self.number(), self.sentence())
    }
}

impl std::error::Error for Reply {}

/// Why a record or a drawing by a trace was refused, and where in the record or the trace.
///
/// A caller that asks for no place has the [`Reply`] alone by `?` or `into`. Its `Display` has the place at its end, where
/// there is one: `refused 18: a field of the record is out of its bounds (place 35)`.
#[derive(Clone, Copy, Debug, PartialEq, Eq, Hash)]
#[non_exhaustive]
pub struct Refusal {
    /// Why.
    pub reply: Reply,
    /// Where. In a record, counted from its first byte, which is at 0: the stated number's place, 0, by
    /// [`Reply::WrongCount`]; the version's, 2, by [`Reply::WrongVersion`]; that of the first field out of its bounds by
    /// [`Reply::BadField`], of a colour the place of its high byte. In a trace, counted from its first entry, which is at 0:
    /// the refused entry's place, by [`Reply::NoRegister`] and [`Reply::OutOfBounds`]. A drawing by a trace tells no place in
    /// the record. By every other reply nothing is told.
    pub place: Option<usize>,
}

impl fmt::Display for Refusal {
    fn fmt(&self, f: &mut fmt::Formatter<'_>) -> fmt::Result {
        self.reply.fmt(f)?;
        match self.place {
            Some(place) => write!(f, " (place {place})"),
            None => Ok(()),
        }
    }
}

impl std::error::Error for Refusal {}

impl From<Refusal> for Reply {
    fn from(refusal: Refusal) -> Reply {
        refusal.reply
    }
}

/// The value of a call that is done, or what its number says.
pub(crate) fn answered<T>(number: u8, value: T) -> Result<T, Reply> {
    match number {
        0 => Ok(value),
        refusal => Err(Reply::of(refusal)),
    }
}

/// The same of a call that sets a place in a record, which is 0 also where it tells none.
pub(crate) fn judged<T>(number: u8, place: u32, value: T) -> Result<T, Refusal> {
    placed(number, place, value, Reply::tells_place)
}

/// The same of a call that sets the place of an entry.
pub(crate) fn traced(number: u8, place: u32) -> Result<(), Refusal> {
    placed(number, place, (), Reply::tells_entry)
}

fn placed<T>(number: u8, place: u32, value: T, tells: fn(Reply) -> bool) -> Result<T, Refusal> {
    answered(number, value).map_err(|reply| Refusal {
        reply,
        place: tells(reply).then_some(place as usize),
    })
}

#[cfg(test)]
mod tests {
    use super::*;

    /// Every number is answered, and keeps its number. 13 is retired.
    #[test]
    fn every_number() {
        assert_eq!(answered(0, 5), Ok(5));
        for number in 1..=255 {
            let reply = answered(number, 5).expect_err("a refusal");
            assert_eq!(reply.number(), number);
            let known = number <= 26 && number != 13;
            assert_eq!(reply != Reply::Unknown(number), known);
        }
    }

    /// A place of 0 is told by 16, and by a reply that tells none it is none. In a trace 9 and 10 tell one.
    #[test]
    fn places() {
        assert_eq!(judged(0, 0, 5), Ok(5));
        assert_eq!(traced(0, 0), Ok(()));
        for number in 1..=255 {
            for place in [0, 2, 2_150] {
                let refusal = judged(number, place, 5).expect_err("a refusal");
                assert_eq!(Err(refusal.reply), answered(number, 5));
                assert_eq!(Reply::from(refusal), refusal.reply);
                let told = (16..=18).contains(&number).then_some(place as usize);
                assert_eq!(refusal.place, told);
                let refusal = traced(number, place).expect_err("a refusal");
                assert_eq!(Err(refusal.reply), answered(number, ()));
                let told = (9..=10).contains(&number).then_some(place as usize);
                assert_eq!(refusal.place, told);
            }
        }
    }

    #[test]
    fn what_is_printed() {
        let bounds = "refused 10: the value is out of its bounds";
        assert_eq!(Reply::OutOfBounds.to_string(), bounds);
        let unknown =
            "refused 255: a reply that this wrapper does not know: the library is of another version";
        assert_eq!(Reply::of(255).to_string(), unknown);
        let printed =
            |number, place| judged(number, place, ()).map_err(|refusal| refusal.to_string());
        let field = "refused 18: a field of the record is out of its bounds (place 35)";
        assert_eq!(printed(18, 35), Err(field.to_string()));
        assert_eq!(printed(15, 0), Err(Reply::PairsDiffer.to_string()));
    }

    /// The C header has the same sentence beside each number, and no number more.
    #[test]
    fn sentences_of_the_header() {
        let header = include_str!("../../../c/narephon.h");
        let said = |number: u8| {
            let line = header.lines().find(|line| {
                line.contains(&format!(" = {number}, ")) || line.contains(&format!(" = {number} "))
            })?;
            line.split("/* ").nth(1)?.strip_suffix(" */")
        };
        assert_eq!(said(0), Some("done"));
        for number in 1..=255 {
            let known = KNOWN.into_iter().find(|reply| reply.number() == number);
            assert_eq!(said(number), known.map(Reply::sentence));
        }
    }
}
