"""The reply table, and the exception that a refused call raises."""

from __future__ import annotations

from enum import IntEnum

_UNKNOWN = "a reply that this wrapper does not know: the library is of another version"


class Reply(IntEnum):
    """The answer of a call: its number, and in ``sentence`` what it says.

    Any other byte is a reply too, one of another version, with a name of its own and a sentence that says so.
    """

    sentence: str

    def __new__(cls, number: int, sentence: str) -> Reply:
        reply = int.__new__(cls, number)
        reply._value_ = number
        reply.sentence = sentence
        return reply

    DONE = 0, "done"
    NO_LINE = 1, "the line is above 255"
    BANK_LENGTH = 2, "a bank is not 16,384 bytes long"
    BUFFER_LENGTH = 3, "another buffer has the wrong length"
    NOT_LAWFUL = 4, "the state is not lawful"
    NO_MODE = 5, "the ULA is on, LoRes is off, and port $FF gives no mode"
    LORES_WITH_TILES = 6, "LoRes and the tilemap are both on"
    NEXT_WITH_PLUS = 7, "ULANext and ULAplus are both on"
    FAR_OFFSET = 8, "the tilemap is on and its X offset is past its width"
    NO_REGISTER = 9, "there is no such register or port, or it cannot be used that way"
    OUT_OF_BOUNDS = 10, "the value is out of its bounds"
    TOO_MANY_TILES = 11, "no map naming at most the number allowed draws the picture"
    PACKING_BOUNDS = 12, "the number allowed is above 256, or the palette offset above 15"
    NO_FORM = 14, "the file is not a screen, or the screen has no form as a file"
    PAIRS_DIFFER = 15, "the record cannot be moved back: $26 is not $32, or $27 is not $33"
    WRONG_COUNT = 16, "the record's stated number is missing, is not the number of bytes following, or is neither 2,148 nor 2,150"
    WRONG_VERSION = 17, "the record's version is not read here, or is not the one of its length"
    BAD_FIELD = 18, "a field of the record is out of its bounds"
    NO_ORDER = 19, "$15 bits 4-2 are 110 or 111, which is no order of the layers"
    BAD_DOT = 20, "a number of the Layer 2 line or of the sprite line is not allowed"
    BAD_DESK = 21, "the desk has the wrong length, a seat that is not of its form, or a number seated twice"
    ALREADY_OPEN = 22, "the member already has a seat"
    NOT_OPEN = 23, "the member has no seat"
    DESK_FULL = 24, "all sixteen seats are held"
    BAD_TRACE = 25, "the trace is not well formed"
    LINES_FALL = 26, "the lines of the trace fall"

    @classmethod
    def _missing_(cls, value: object) -> Reply | None:
        """The reply of a number that the table does not have; None, which Enum refuses, for what is no byte."""
        if not isinstance(value, int) or not 0 <= value <= 255:
            return None
        reply = int.__new__(cls, value)
        reply._name_ = f"UNKNOWN_{value}"
        reply._value_ = value
        reply.sentence = _UNKNOWN
        return reply


# The replies that say where in a record something is wrong.
PLACED = frozenset((Reply.WRONG_COUNT, Reply.WRONG_VERSION, Reply.BAD_FIELD))
# Those to a drawing by a trace that come of an entry, and say which.
OF_ENTRY = frozenset((Reply.NO_REGISTER, Reply.OUT_OF_BOUNDS))


class Refused(Exception):
    """A call that was refused and changed nothing; ``reply`` says why.

    ``place`` says where in the record, counted from 0, for replies 16, 17 and 18 of ``check_record``, ``load_record``
    and the two moves: 0, the stated number; 2, the version; or the place of the first field out of its bounds, which of
    a colour is its high byte. For replies 9 and 10 of a drawing by a trace it is the place of the entry that was refused,
    counted from 0. It is None where nothing is told.
    """

    def __init__(self, reply: Reply, place: int | None = None) -> None:
        super().__init__(reply, place)
        self.reply = reply
        self.place = place

    def __str__(self) -> str:
        where = "" if self.place is None else f" (place {self.place})"
        return f"refused {int(self.reply)}: {self.reply.sentence}{where}"
