"""What a refusal prints; a reply that the wrapper does not know is a reply too. test_narephon has the table."""

from __future__ import annotations

import pickle
import unittest
from unittest import mock

import narephon
from narephon import Refused, Reply
from support import Case, replaced

UNKNOWN = "a reply that this wrapper does not know: the library is of another version"


class Replies(Case):
    def test_what_a_refusal_prints(self) -> None:
        with self.assertRaises(Refused) as caught:
            narephon.write_register(narephon.reset(), 0x42, 5)
        self.assertEqual(str(caught.exception), "refused 10: the value is out of its bounds")
        self.assertIsNone(caught.exception.place)

    def test_what_a_refused_record_prints(self) -> None:
        record = narephon.reset()
        with self.assertRaises(Refused) as caught:
            narephon.check_record(replaced(record, 35, 8))
        self.assertEqual(str(caught.exception), "refused 18: a field of the record is out of its bounds (place 35)")
        # Place 0 is a place.
        with self.assertRaises(Refused) as caught:
            narephon.check_record(b"")
        self.assertEqual(str(caught.exception)[-10:], " (place 0)")
        self.assertEqual(caught.exception.place, 0)

    def test_a_reply_of_another_version(self) -> None:
        library = mock.Mock()
        library.narephon_next_frame.return_value = 255
        with mock.patch.object(narephon, "_narephon", library), self.assertRaises(Refused) as caught:
            narephon.next_frame(bytes(2152))
        self.assertEqual(str(caught.exception), f"refused 255: {UNKNOWN}")
        reply = caught.exception.reply
        self.assertIsInstance(reply, Reply)
        self.assertEqual((reply, reply.name, reply.sentence), (255, "UNKNOWN_255", UNKNOWN))
        self.assertEqual(reply, Reply(255))

    def test_how_many_there_are(self) -> None:
        """0 to 26, but for 13: it is retired, and a number that the wrapper does not know."""
        self.assertEqual([int(reply) for reply in Reply], [*range(13), *range(14, 27)])
        self.assertEqual(Reply(13).sentence, UNKNOWN)

    def test_only_some_replies_tell_a_place(self) -> None:
        for number in range(1, 256):
            library = mock.Mock()
            library.narephon_check_record.return_value = number
            with mock.patch.object(narephon, "_narephon", library), self.assertRaises(Refused) as caught:
                narephon.check_record(b"")
            self.assertEqual(caught.exception.place, 0 if number in (16, 17, 18) else None)

    def test_what_is_no_reply(self) -> None:
        for number in (-1, 256, "10", None):
            with self.assertRaises(ValueError):
                Reply(number)  # type: ignore[call-arg]

    def test_a_refusal_can_be_pickled(self) -> None:
        for refused in (Refused(Reply(10)), Refused(Reply(255)), Refused(Reply(18), 35), Refused(Reply(16), 0)):
            again = pickle.loads(pickle.dumps(refused))
            self.assertEqual((again.reply, again.place, str(again)), (refused.reply, refused.place, str(refused)))


if __name__ == "__main__":
    unittest.main()
