"""The messages between members, against bytes made by hand from WIRE.md."""

import unittest

from stand_in import END, MORE, body_of, frame_of
from depot_service import wire
from depot_service.leaves import Bucket
from depot_service.wire import Foul

ROSTER, STATE = b"\x11" * 32, b"\x22" * 32
hexed = bytes.fromhex


class Texts(unittest.TestCase):
    def test_each_reads_what_it_writes(self):
        cases = [
            (wire.Greeting(wire.PUSH, 7, ROSTER, STATE), hexed("01 02 0007") + ROSTER + STATE, wire.read_greeting),
            (wire.Answer(wire.LATER, 60), hexed("03 0000003c"), wire.read_answer),
            (wire.Taken(1, 2, 3, 4, b"hello"), hexed("00000001 00000002 00000003 00000004") + b"hello", wire.read_taken),
            (wire.Piece(True, b"frames"), b"\1frames", wire.read_piece),
        ]
        for it, text, read in cases:
            self.assertEqual(it.text(), text)
            self.assertEqual(read(text), it)
        self.assertEqual(wire.read_ids(wire.ids_text([b"\2" * 32, b"\1" * 32])), [b"\1" * 32, b"\2" * 32])
        self.assertEqual(wire.read_mark(b"\1"), 1)

    def test_what_is_none(self):
        greeting = hexed("01 02 0007") + ROSTER + STATE
        cases = [
            (wire.read_greeting, [b"", greeting[:-1], greeting + b"\0", b"\2" + greeting[1:], b"\1\0" + greeting[2:], b"\1\4" + greeting[2:], b"\1\2\0\0" + greeting[4:]]),
            (wire.read_answer, [b"", hexed("00 00000000"), hexed("04 00000000"), hexed("01 000000"), hexed("01 00000000 00")]),
            (wire.read_piece, [b"", b"\2"]), (wire.read_taken, [bytes(15)]), (wire.read_mark, [b"", b"\2", b"\0\0"]),
            (wire.read_ids, [b"\0", b"\1" + bytes(31), b"\2" + bytes(64), b"\2" + b"\2" * 32 + b"\1" * 32, b"\x11" + bytes(17 * 32)]),
        ]
        for read, texts in cases:
            for text in texts:
                with self.subTest(text=text.hex()):
                    self.assertRaises(Foul, read, text)

    def test_each_message_has_a_bound(self):
        self.assertEqual(set(wire.MOST), set(range(1, 11)))
        self.assertEqual(wire.MOST[wire.GREETING], len(hexed("01 02 0007") + ROSTER + STATE))

    def test_a_hello_is_that_of_who_sends_it(self):
        hello = b"\1\3\0\2" + ROSTER + bytes(6)
        self.assertEqual(wire.hello_of(hello, 2, ROSTER).node, 2)
        for text, node, roster in ((hello, 3, ROSTER), (hello, 2, STATE), (hello[:-1], 2, ROSTER), (b"", 2, ROSTER)):
            self.assertRaises(Foul, wire.hello_of, text, node, roster)

    def test_the_state_is_what_a_hello_tells_but_for_whose_it_is(self):
        one, two = b"\1\3\0\1" + ROSTER + bytes(6), b"\1\3\0\2" + ROSTER + bytes(6)
        self.assertEqual(wire.state_of(one), wire.state_of(two))
        self.assertNotEqual(wire.state_of(one), wire.state_of(b"\1\3\0\1" + STATE + bytes(6)))


class Pieces(unittest.TestCase):
    frame = frame_of(body_of(1, 0, bytes(32), b"k", b"v"))

    def test_a_short_stream_is_one(self):
        stream = self.frame + END
        self.assertEqual(wire.pieces_of(stream, False), [wire.Piece(False, stream)])
        self.assertEqual(wire.pieces_of(self.frame + MORE, True), [wire.Piece(True, self.frame + MORE)])

    def test_a_long_one_is_cut_between_frames(self):
        count = 3 * wire.MOST_STREAM // len(self.frame)
        stream = self.frame * count + END
        pieces = wire.pieces_of(stream, True)
        self.assertEqual(b"".join(it.stream for it in pieces), stream)
        self.assertEqual([it.wants_hello for it in pieces], [False] * (len(pieces) - 1) + [True])
        for it in pieces[:-1]:
            self.assertEqual(len(it.stream) % len(self.frame), 0)
            self.assertLessEqual(len(it.text()), wire.MOST[wire.STREAM])

    def test_the_end_goes_with_the_last_part(self):
        parts = wire.parts_of(self.frame * 4 + END, len(self.frame))
        self.assertEqual(parts, [self.frame] * 3 + [self.frame + END])

    def test_what_is_no_stream_is_handed_on_for_the_node_to_refuse(self):
        for stream in (b"", b"\2", b"\2\xff\xff\xff\xff", b"rubbish" * 10):
            self.assertEqual(b"".join(it.stream for it in wire.pieces_of(stream, False)), stream)


class Buckets(unittest.TestCase):
    def test_it_fills_by_the_day_up_to_its_bound(self):
        now = [0.0]
        bucket = Bucket(24, 3, lambda: now[0])
        self.assertEqual(bucket.left(), 3)
        bucket.spend(4)
        self.assertEqual(bucket.left(), 0)
        now[0] += 2 * 3600
        self.assertEqual(bucket.left(), 1)
        now[0] += 86400
        self.assertEqual(bucket.left(), 3)

    def test_one_that_is_empty_stays_so(self):
        self.assertEqual(Bucket(0, 0).left(), 0)


if __name__ == "__main__":
    unittest.main()
