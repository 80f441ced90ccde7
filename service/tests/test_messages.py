"""Requests and replies, against bytes made by hand from docs/FORMATS.md, "Requests"."""

import unittest

import stand_in  # noqa: F401
from depot_service import messages as m

ID, OTHER, HASH = b"\xaa" * 32, b"\xbb" * 32, b"\xcc" * 32
hexed = bytes.fromhex


class Requests(unittest.TestCase):
    def test_a_put_is_that_of_the_page(self):
        found = m.frame(m.put_request([(b"l", None), (b"k", b"v")]))
        self.assertEqual(found, hexed("0000000d 0102 016b010000000176 016c00"))

    def test_each_request(self):
        cases = [
            (m.hello_request(), hexed("03")), (m.far_hello_request(), hexed("20")), (m.bounded_bundle_request(b"h", 67108864, 0, False), hexed("21 04000000 00000000 00") + b"h"),
            (m.bounded_bundle_request(b"h", 262144, None, False), hexed("21 00040000 ffffffff 00") + b"h"),
            (m.bounded_bundle_request(b"h", 1, 2, True), hexed("21 00000001 00000002 01") + b"h"),
            (m.take_request(b"s"), hexed("05") + b"s"), (m.receipt_request([OTHER, ID, ID]), hexed("06 02") + ID + OTHER),
            (m.settled_request(ID, 3), hexed("07") + ID + hexed("00000003")), (m.checkpoint_request(), hexed("08")),
            (m.sign_request(b"t"), hexed("09") + b"t"), (m.status_request(), hexed("10")), (m.convictions_request(5), hexed("11 00000005")),
            (m.keys_request(b""), hexed("12 00")), (m.keys_request(b"k"), hexed("12 01 6b")), (m.latest_request(b"k"), hexed("13 01 6b")),
            (m.update_request(ID), hexed("14") + ID), (m.accepted_request([ID]), hexed("15 01") + ID), (m.updates_request(9), hexed("16 00000009")),
        ]
        for found, right in cases:
            self.assertEqual(found, right)

    def test_what_cant_be_asked(self):
        many = [(bytes([it]), b"") for it in range(17)]
        bad = [
            lambda: m.put_request([]), lambda: m.put_request(many), lambda: m.put_request([(b"", b"v")]), lambda: m.put_request([(b"k" * 256, b"v")]),
            lambda: m.put_request([(b"k", bytes(65537))]), lambda: m.put_request([(b"k", b""), (b"k", None)]),
            lambda: m.put_request([(b"receipt:" + ID, b"")]), lambda: m.put_request([(b"checkpoint:" + ID, b"")]),
            lambda: m.receipt_request([]), lambda: m.receipt_request([b"short"]), lambda: m.receipt_request([bytes([it]) * 32 for it in range(17)]),
            lambda: m.settled_request(ID, 0), lambda: m.settled_request(ID, 257), lambda: m.keys_request(bytes(256)),
            lambda: m.bounded_bundle_request(b"", 0, 1, True), lambda: m.bounded_bundle_request(b"", 1, -1, True),
        ]
        for place, ask in enumerate(bad):
            with self.subTest(place):
                self.assertRaises(m.BadRequest, ask)

    def test_the_longest_of_each_can_be_asked(self):
        self.assertEqual(len(m.put_request([(b"k" * 255, bytes(65536))])), 2 + 256 + 5 + 65536)


class First(unittest.TestCase):
    def test_started(self):
        self.assertEqual(m.read_first(hexed("00 01 0007") + HASH + hexed("00000102")), m.Started(7, HASH, 258))

    def test_not_started(self):
        self.assertEqual(m.read_first(b"\xffidentity OtherKey\n"), m.NotStarted("identity OtherKey"))

    def test_faults(self):
        for data in (b"", hexed("01"), hexed("00 02 0007") + HASH + bytes(4), hexed("00 01 0007") + HASH + bytes(3), hexed("00 01 0007") + HASH + bytes(5)):
            self.assertRaises(m.Malformed, m.read_first, data)


STATUS = hexed("10 0001") + HASH + hexed("00000005 00000100 00000009 00000abc 00000007 00000002 0001 0003")
TAKEN = hexed("05 00000002 00000003 03 00000002 00000001 05") + ID + hexed("00000004 09 0000000000010000 00")
LATEST = hexed("13 00000003") + b"".join(
    it + hexed("0001 00000002 0000000000000003") + mark for it, mark in ((ID, hexed("00")), (OTHER, hexed("01 00000002") + b"hi"), (HASH, hexed("02") + HASH + hexed("00000005"))))
REPLIES = [
    (hexed("01") + ID + hexed("00000005 0000000000000006"), m.Put(ID, 5, 6)),
    (hexed("03") + b"hello", m.Hello(b"hello")),
    (hexed("04 00000001 00000002 00000003 00000004 01") + b"st", m.Bundle(1, 2, 3, 4, True, b"st")),
    (TAKEN, m.Taken(2, 3, (m.Refusal(1, m.Check(5, "5 Missing")), m.Refusal(4, m.Check(9, "9 ClockFar 65536"))), "", False)),
    (hexed("05 00000000 00000000 05 00000007 00000000 00"), m.Taken(0, 0, (), "cut within a frame: 7 bytes of it", False)),
    (hexed("05 00000000 00000000 04 00000000 01 0000000000000009"), m.Taken(0, 0, (), "no frame stands at 9", False)),
    (hexed("05 00000000 00000000 01 00000000 02 01 00020000"), m.Taken(0, 0, (), "full records 131072", True)),
    (hexed("06 01"), m.Settled(True)), (hexed("06 00"), m.Settled(False)),
    (hexed("07") + ID + hexed("00000001 0000000000000002") + b"text", m.Checkpoint(ID, 1, 2, b"text")),
    (hexed("08 01 01 00000100"), m.NotDone("limit", "the key is spent: 256 statements were made", "spent")),
    (hexed("08 01 02 00000401"), m.NotDone("limit", "the update would name 1025 others", "tips")),
    (hexed("08 01 03") + ID, m.NotDone("limit", "the id %s is taken" % ID.hex(), "taken")),
    (hexed("08 01 04 02 00000009"), m.NotDone("limit", "the journal is full bytes 9", "full")),
    (hexed("08 02 00000007"), m.NotDone("ill-formed", "it isn't in its form, at 7")),
    (hexed("08 03") + HASH, m.NotDone("other-roster", "it is of the roster %s" % HASH.hex())),
    (hexed("08 04") + ID, m.NotDone("unknown", "the update %s is unknown" % ID.hex())),
    (hexed("08 05") + ID, m.NotDone("not-held", "a value of the update %s isn't held" % ID.hex())),
    (hexed("08 06"), m.NotDone("nothing", "nothing was accepted")),
    (hexed("08 07 00000401"), m.NotDone("many", "there are 1025 leaves, more than a checkpoint names")),
    (STATUS, m.Status(1, HASH, 5, 256, 9, 2748, 7, 2, (3,))),
    (hexed("11 00000001 00000004 0002 00000003") + b"abc" + hexed("01"), m.Convictions((m.ProofAt(4, 2, b"abc"),), True)),
    (hexed("12 00000002 01 6b 02 6b6c 00"), m.Keys((b"k", b"kl"), False)),
    (LATEST, m.Latest((
        m.LatestWrite(ID, 1, 2, 3, m.Write(True)), m.LatestWrite(OTHER, 1, 2, 3, m.Write(False, b"hi", b"", 2)),
        m.LatestWrite(HASH, 1, 2, 3, m.Write(False, None, HASH, 5))))),
    (hexed("14 00"), m.Update(None)),
    (hexed("14 01 00000003 0001 00000002 0000000000000004 02 01 6b 00 01 6c 01") + HASH + hexed("00000005"),
     m.Update(m.UpdateAt(3, 1, 2, 4, ((b"k", m.Write(True)), (b"l", m.Write(False, None, HASH, 5)))))),
    (hexed("15 02 01 00"), m.Accepted((True, False))),
    (hexed("16 00000001") + ID + hexed("0001 00000002 0000000000000003 01 01 6b 01"), m.Updates((m.UpdateKeys(ID, 1, 2, 3, (b"k",)),), True)),
]
# Those with a field that is the rest end anywhere behind what stands in front of it.
OPEN = {3: 1, 4: 18, 7: 45}


class Replies(unittest.TestCase):
    def test_each(self):
        for data, right in REPLIES:
            with self.subTest(data.hex()):
                self.assertEqual(m.read_reply(data), right)

    def test_each_that_is_cut_is_none(self):
        for data, _ in REPLIES:
            for size in range(OPEN.get(data[0], len(data))):
                with self.subTest(data[:size].hex()):
                    self.assertRaises(m.Malformed, m.read_reply, data[:size])

    def test_none_has_more_behind_it(self):
        for data, _ in (it for it in REPLIES if it[0][0] not in OPEN):
            self.assertRaises(m.Malformed, m.read_reply, data + b"\0")

    def test_what_no_kind_has(self):
        for data in ("00", "02 20", "09", "17", "20", "06 02", "08 08", "08 01 05", "08 01 04 04 00000000", "15 01 02", "05 00000000 00000000 06 00000000 00"):
            with self.subTest(data):
                self.assertRaises(m.Malformed, m.read_reply, hexed(data))

    def test_a_huge_count_isnt_believed(self):
        self.assertRaises(m.Malformed, m.read_reply, hexed("12 ffffffff 01 6b"))

    def test_each_check_is_told_as_the_program_prints_it(self):
        cases = [
            ("01 00000007", "1 IllFormed 7"), ("02 0009", "2 UnknownWriter 9"), ("03" + "aa" * 32, "3 NotMine"), ("04 0002", "4 BadSignature 2"),
            ("06 00000001", "6 WrongDep 1"), ("07" + "aa" * 32, "7 Backward"), ("08" + "aa" * 32, "8 ClockLow"), ("0a" + "aa" * 64, "10 BadHistory"),
            ("0b" + "aa" * 64 + "01", "11 Forked SameNumber"), ("0c 0002", "12 Convicted 2"), ("0d 0002", "13 VoucherConvicted 2"),
            ("0e" + "aa" * 32, "14 Unwanted"), ("0f", "15 NotContradictory"), ("10", "16 AgainstMe"),
        ]
        for data, words in cases:
            reply = m.read_reply(hexed("05 00000000 00000000 02 00000001 00000000" + data + "00"))
            self.assertEqual(reply.refused[0].check.words, words)


if __name__ == "__main__":
    unittest.main()
