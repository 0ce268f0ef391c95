//! The reply numbers of section 9: rule 9.N says when reply N comes.

/// A reply is a plain number, 0 to 26 without 13, which is retired.
pub type Reply = u8;

/// Rule 9.0: nothing is refused.
pub const DONE: Reply = 0;
/// Rule 9.1: there is no such line.
pub const LINE_ABOVE_255: Reply = 1;
/// Rule 9.2: the length of a bank.
pub const WRONG_BANK: Reply = 2;
/// Rule 9.3: the length of another buffer.
pub const WRONG_BUFFER: Reply = 3;
/// Rule 9.4: a state that breaks 3.31.
pub const NOT_LAWFUL: Reply = 4;
/// Rule 9.5: a Timex mode that is none.
pub const NO_SUCH_MODE: Reply = 5;
/// Rule 9.6: LoRes with a tilemap.
pub const LORES_AND_TILEMAP: Reply = 6;
/// Rule 9.7: ULANext with ULAplus.
pub const ULANEXT_AND_ULAPLUS: Reply = 7;
/// Rule 9.8: a tilemap moved by its width or more.
pub const X_OFFSET_TOO_LARGE: Reply = 8;
/// Rule 9.9: a register or port that is not there for this.
pub const NO_SUCH_REGISTER: Reply = 9;
/// Rule 9.10: a value that is not taken.
pub const OUT_OF_BOUNDS: Reply = 10;
/// Rule 9.11: a picture of more tiles than are allowed.
pub const TOO_MANY_TILES: Reply = 11;
/// Rule 9.12: a number allowed or a palette offset that is too large.
pub const ALLOWED_OR_OFFSET: Reply = 12;
/// Rule 9.14: a file that is no screen, or a mode that no file holds.
pub const NO_FORM: Reply = 14;
/// Rule 9.15: a record of two scrolls, where version 1 has one.
pub const PAIRS_DIFFER: Reply = 15;
/// Rule 9.16: bytes that a record's stated number does not count.
pub const WRONG_COUNT: Reply = 16;
/// Rule 9.17: a version that is not taken, or not with so many bytes.
pub const WRONG_VERSION: Reply = 17;
/// Rule 9.18: a record of a state that breaks 3.31.
pub const BAD_FIELD: Reply = 18;
/// Rule 9.19: an order of layers that is none.
pub const NO_ORDER: Reply = 19;
/// Rule 9.20: a number that is no dot of a lent line.
pub const BAD_DOT: Reply = 20;
/// Rule 9.21: bytes that are no well-formed desk.
pub const BAD_DESK: Reply = 21;
/// Rule 9.22: a member who has a seat opens.
pub const ALREADY_OPEN: Reply = 22;
/// Rule 9.23: a member who has no seat does anything else.
pub const NOT_OPEN: Reply = 23;
/// Rule 9.24: no seat is free.
pub const DESK_FULL: Reply = 24;
/// Rule 9.25: bytes that are no well-formed trace.
pub const BAD_TRACE: Reply = 25;
/// Rule 9.26: an entry whose line is below that of the entry before it.
pub const LINES_FALL: Reply = 26;
