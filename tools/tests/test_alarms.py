"""Alarms, `tools/alarms.py`: what refused frames say against the node, which of them are forged, and what the runner makes of it."""

import os
import sys
import unittest

from cases import ROOT, f, frame, named, update_body, voucher_body
from runs import SCRIPT, Runs

import alarms
import guard as g

sys.path.insert(0, os.path.join(ROOT, "acceptance", "makers"))
import make_cases  # noqa: E402

PUT = "put 6b 61\n"
NOT_MINE, AGAINST_ME = " refused %d 3 NotMine\n", " refused %d 16 AgainstMe\n"


class Alarms(Runs):
    """A node of a key that can be made here, and streams with statements in its name."""

    def setUp(self):
        super().setUp()
        self.signer = make_cases.Signer(1, b"\1" * 32, 2)
        self.member = f.Member(1, 2, self.signer.root)
        self.write("roster", f.roster_text([self.member, f.Member(2, 2, bytes(32))]))
        self.own = self.signed(update_body(named(b"k", b"v"), seq=1))
        self.forged = self.own[:-1] + bytes([self.own[-1] ^ 1])

    def signed(self, body):
        return make_cases.signed(body, self.signer.sign(1, body))

    def stream(self, *payloads, name="stream"):
        self.write(name, b"".join(frame(2, it) for it in payloads) + frame(4, b"\0"))

    def told(self, *lines, name="stream"):
        """What the stand-in tells of a take of the stream, and a script that takes it."""
        self.write(name + ".told", ("accepted 0 known 0 refused %d whole\n" % len(lines) + "".join(lines)).encode()[:-1])
        self.write("script", b"take ../%s\n" % name.encode())


class Listening(Alarms):
    def heard(self, *lines):
        listener = alarms.Listener(self.member, lambda name: alarms.open_stream(self.path("one", os.fsdecode(name))))
        found = [listener.hear(line.encode()) for line in ("take ../stream -> accepted 0 known 0 refused 1 whole\n", *lines)]
        listener.close()
        return [it for it in found if it]

    def test_who_signed(self):
        voucher = self.signed(voucher_body(b"i" * 32, node=1, seq=1))
        self.stream(b"rubbish", self.forged, self.own, voucher)
        id, voucher_id = (f.sha256(f.read_signed(it).statement.body).hex() for it in (self.own, voucher))
        for place, ring in [(1, None), (2, id), (3, voucher_id)]:
            [alarm] = self.heard(NOT_MINE % place)
            self.assertEqual(alarm.ring, ring)
            said = "signed by its key" if ring else "not signed by its key"
            self.assertIn("frame %d of ../stream is in node 1's name, and %s" % (place, said), alarm.told)

    def test_two_layers(self):
        self.signer = make_cases.Signer(1, b"\1" * 32, 13)
        self.member = f.Member(1, 13, self.signer.root)
        own = self.signed(update_body(named(b"k", b"v"), seq=1))
        self.stream(own, own[:-1] + bytes([own[-1] ^ 1]))
        self.assertEqual([it.ring is None for place in (0, 1) for it in self.heard(NOT_MINE % place)], [False, True])

    def test_a_frame_that_is_not_to_be_had(self):
        """The stream is gone, cut, another one by now, or a pipe, which isn't waited for."""
        self.assertIn("isn't to be had any more", self.heard(NOT_MINE % 0)[0].told)
        for payloads in ([], [b"rubbish"], [self.signed(update_body(named(b"k", b"v"), writer=2, seq=1))]):
            self.stream(*payloads)
            [alarm] = self.heard(NOT_MINE % 0)
            self.assertEqual((alarm.ring, "isn't to be had any more" in alarm.told), (None, True))
        self.write("stream", frame(2, self.own)[:-1])
        self.assertIsNone(self.heard(NOT_MINE % 0)[0].ring)
        os.remove(self.path("stream"))
        os.mkfifo(self.path("stream"))
        self.assertIsNone(self.heard(NOT_MINE % 0)[0].ring)

    def test_many(self):
        """Of those that are forged the first is told; one that isn't is found behind them."""
        self.stream(*[self.forged] * 20, self.own)
        heard = self.heard(*(NOT_MINE % place for place in range(21)))
        self.assertEqual([it.ring is None for it in heard], [True, False])

    def test_other_lines(self):
        self.assertEqual(self.heard(" refused 0 5 Missing\n", "get 6b -> 1/0/1=61\n", " refused 0 4 BadSignature 1\n", " refused x 3 NotMine\n"), [])
        self.assertEqual([it.ring for it in self.heard(AGAINST_ME % 7)], [g.AGAINST_ME])


class Ringing(Alarms):
    """The runner hears them, remembers them, and lets no script that signs through."""

    def refuses_to_sign(self, why):
        for line in ("put 6b 61", "puts 6b=61", "receipt " + "0a" * 32, "checkpoint ../c", "sign ../c", "bundle ../h ../b"):
            self.write("script", line.encode() + b"\n")
            self.changes_no_note(why)
        self.write("script", b"get 6b\nhello ../h\ntake ../other\n")
        self.assertEqual(self.run_node()[0], 0)
        status, out, _ = self.run_node("--check")
        self.assertEqual((status, why in out), (73, True), out)
        self.write("script", PUT.encode())
        self.assertEqual(self.run_node("--though-convicted")[0], 0)
        self.changes_no_note(why)

    def test_a_proof_against_the_node(self):
        self.run_node("--first")
        self.told(AGAINST_ME % 0)
        status, _, errors = self.run_node()
        self.assertEqual((status, errors.count("this node is convicted")), (0, 1), errors)
        self.refuses_to_sign("this node is convicted: whoever has the proof refuses what it signs")

    def test_a_statement_by_the_key_of_the_node(self):
        self.run_node("--first")
        self.stream(self.own)
        self.told(NOT_MINE % 0)
        self.assertIn("frame 0 of ../stream is in node 1's name, and signed by its key", self.run_node()[2])
        self.refuses_to_sign("somebody has a statement under this node's key that its journal lacks")

    def test_a_statement_that_is_forged(self):
        """Anybody can ring so: nothing is remembered, and the node goes on."""
        self.run_node("--first")
        self.stream(self.forged)
        self.told(NOT_MINE % 0)
        status, _, errors = self.run_node()
        self.assertEqual((status, "not signed by its key: whoever made the stream forged it" in errors), (0, True), errors)
        self.assertEqual(self.run_node("--check")[0], 0)
        self.write("script", SCRIPT.encode())
        self.assertEqual(self.run_node()[0], 0)

    def test_the_newest_journal_is_found_again(self):
        """An old copy was run to look, and heard that it's old; with the newest one in its place the node goes on."""
        self.write("script", PUT.encode())
        self.run_node("--first")
        old = self.journal()
        self.run_node()
        newest = self.journal()
        self.stream(self.signed(f.updates_of(f.read_journal(newest).records)[1].body))
        for name in self.notes():
            os.remove(self.path(name))
        self.write("one/depot.journal", old)
        self.told(NOT_MINE % 0)
        self.run_node()
        self.assertEqual(self.run_node("--check")[0], 73)
        self.write("one/depot.journal", newest)
        self.write("script", PUT.encode())
        self.assertEqual(self.run_node()[:2], (0, "put 6b -> 2/3\n"))
        self.assertEqual(self.run_node("--check")[0], 0)

    def test_an_alarm_that_one_note_remembers(self):
        self.run_node("--first")
        self.told(AGAINST_ME % 0)
        before = self.read("one", "depot.journal.kept")
        self.run_node()
        self.write("one/depot.journal.kept", before)
        self.write("script", PUT.encode())
        self.changes_no_note("this node is convicted")

    def test_a_conviction_of_another(self):
        """Each is said once, by the run that brought it."""
        self.run_node("--first")
        pair = [self.signed(update_body(named(b"k", value), writer=2, seq=1)) for value in (b"v", b"w")]
        self.write("stream.record", b"\5\1\1" + b"".join(pair))
        self.told()
        said = "node 2 is convicted since now: SameNumber"
        self.assertEqual(self.run_node()[2].count(said), 1)
        os.remove(self.path("stream.record"))
        self.assertNotIn(said, self.run_node()[2])
        self.assertIn(b"convicted 2\n", self.read("seed.node-1.kept"))


if __name__ == "__main__":
    unittest.main()
