"""`bindings/depot.py` over a stand-in for the library: how a journal's file is kept and guarded, and what is said of what is refused.

`bindings/run.sh` tries it over the library itself.
"""

import ctypes
import os
import shutil
import subprocess
import sys
import threading
import unittest

from cases import ROOT, f, frame, journal, named, path_of, update_body
from runs import Runs

import guard as g

sys.path.insert(0, os.path.join(ROOT, "bindings"))
sys.path.insert(0, os.path.join(ROOT, "acceptance", "makers"))
import depot  # noqa: E402
import depot_messages as m  # noqa: E402
import make_cases  # noqa: E402


CALLS = ("ROSTER", "KEY", "START", "MESSAGE", "RECORDS", "CLEAR")


class Library:
    """A node in memory that puts, lends its records, and refuses frames as it is told to: each is a check and what that carries. It checks little."""

    def __init__(self, refusals=()):
        self.records, self.refusals, self.bytes, self.run = [], refusals, b"", b""

    def depot_c_size(self):
        return 8

    depot_c_align = depot_c_size

    def depot_c_init(self, _):
        pass

    def depot_c_call(self, _, operation, number, data, length, out, size):
        if operation in (depot.LENGTH, depot.RECORDS_LENGTH):
            return len(self.bytes if operation == depot.LENGTH else self.run)
        if operation in (depot.COPY, depot.RECORDS_COPY):
            ctypes.memmove(out, self.bytes if operation == depot.COPY else self.run, size)
            return size
        name = next(it for it in CALLS if getattr(depot, it) == operation)
        if name == "RECORDS":
            self.run = depot.file_of(self.records[number:])[:-1]
            return 0
        status, self.bytes = getattr(self, name)(number, data[:length])
        return status

    def ROSTER(self, _, data):
        self.roster = data
        return 0, b""

    def KEY(self, *_):
        return 0, b""

    CLEAR = KEY

    def START(self, number, data):
        self.node, self.records = number, depot.records_of(data)
        birth = b"\1" + f.number(2, number) + f.sha256(self.roster)
        if self.records and self.records[0] != birth:
            return 10, b"identity OtherRoster"
        self.records = self.records or [birth]
        return 0, b""

    def MESSAGE(self, _, body):
        """Puts each change by an update of its own, and takes a stream of which nothing is new."""
        if body[:1] not in (b"\1", b"\5"):
            return depot.INPUT, b"IllFormed 0"
        told = self.put(body[1], body[2:]) if body[:1] == b"\1" else self.take()
        return 0, f.number(4, len(told)) + told

    def put(self, count, data):
        for _ in range(count):
            key, data = data[1 : 1 + data[0]], data[1 + data[0] :]
            length = int.from_bytes(data[1:5], "big") if data[0] else 0
            value, data = data[5 : 5 + length], data[5 + length if data[0] else 1 :]
            if key == b"spent":
                return b"\x08\1\1\0\0\0\4"
            seq, clock = len(self.records) - 1, len(self.records)
            body = update_body(named(key, value), writer=self.node, seq=seq, clock=clock)
            self.records.append(b"\2" + f.number(4, len(body)) + body + value)
        return b"\1" + f.sha256(body) + f.number(4, seq) + f.number(8, clock)

    def take(self):
        refused = b"".join(bytes(4) + it for it in self.refusals)
        return b"\5" + bytes(8) + b"\2" + f.number(4, len(self.refusals)) + refused + b"\0"


class Nodes(Runs):
    def setUp(self):
        super().setUp()
        self.signer = make_cases.Signer(1, b"\1" * 32, 2)
        self.write("roster", f.roster_text([f.Member(1, 2, self.signer.root), f.Member(2, 2, bytes(32))]))
        self.said = []

    def file(self, folder="one", number=1, **more):
        more = {"seed_file": self.path("seed"), "say": self.said.append, **more}
        return depot.JournalFile(self.path(folder), self.read("roster"), number, **more)

    def node(self, journal, lib=None):
        return depot.Node(lib or Library(), self.read("roster"), b"\1" * 32, 2, 1, journal)

    def puts_of(self, count, **more):
        """A node over the file that puts so often; the seqs that it told."""
        with self.node(self.file(**more)) as node:
            return [node.put({b"k": b"v%d" % at}).seq for at in range(count)]

    def unfit(self, why, **more):
        before = self.notes()
        with self.assertRaisesRegex(g.Unfit, why):
            self.file(**more)
        self.assertEqual(self.notes(), before)


class Files(Nodes):
    def test_a_node_goes_on(self):
        self.assertEqual([self.puts_of(2, is_first=True), self.puts_of(1)], [[0, 1], [2]])
        self.write("script", b"put 6b 61\n")
        self.assertEqual(self.run_node()[:2], (0, "put 6b -> 3/4\n"))
        self.assertEqual(self.puts_of(1), [4])
        self.assertEqual(self.run_node("--check")[0], 0)

    def test_journals_that_must_not_be_run(self):
        self.unfit("takes --first")
        self.puts_of(1, is_first=True)
        shutil.copytree(self.path("one"), self.path("old"))
        self.puts_of(1)
        self.unfit("is there already", is_first=True)
        self.unfit("seed.node-1.kept it had", folder="old")
        self.unfit("is that of node 1, and this is node 2", number=2)
        self.unfit("the roster has no node 3", number=3)
        os.mkdir(self.path("two"))
        self.unfit("another folder, or a lost journal", folder="two", is_first=True)
        self.assertEqual(self.puts_of(1), [2])

    def test_one_that_another_run_has(self):
        journal = self.file(is_first=True)
        self.unfit("another run works in the folder", is_first=True)
        journal.close()
        with open(self.path("one", "depot.journal"), "r+b") as held:
            depot.fcntl.flock(held, depot.fcntl.LOCK_EX)
            self.unfit("another run has .*depot.journal open", is_first=True)

    def test_a_start_that_is_refused_notes_nothing(self):
        self.puts_of(1, is_first=True)
        before = self.notes()
        lib = Library()
        lib.START = lambda *_: (10, b"identity OtherKey")
        with self.assertRaisesRegex(depot.WrongIdentity, "identity OtherKey"):
            self.node(self.file(), lib)
        self.assertEqual(self.notes(), before)

    def test_a_node_that_the_file_is_not_for(self):
        """Nothing is written of it."""
        with self.assertRaisesRegex(g.Unfit, "another node was started over"):
            depot.Node(Library(), self.read("roster"), b"\1" * 32, 2, 2, self.file(is_first=True))
        self.assertEqual(self.journal(), b"\0")
        self.assertEqual(self.puts_of(1, is_first=True), [0])

    def test_many_records_in_one_pair_of_syncs(self):
        with self.node(self.file(is_first=True)) as node:
            syncs = []
            real = os.fdatasync
            self.addCleanup(setattr, os, "fdatasync", real)
            os.fdatasync = lambda file: syncs.append(file) or real(file)
            node.put({b"a": b"1", b"b": None, b"c": b""})
            self.assertEqual(len(syncs), 2)
            told = node.put_each([{b"d": b"1"}, {b"spent": b""}, {b"e": None}])
            self.assertEqual(len(syncs), 4)
            self.assertEqual((told[0].seq, type(told[1]), told[2].seq), (3, depot.Spent, 4))
            node.take(b"")
            self.assertEqual(len(syncs), 4)
        self.assertEqual(self.puts(), [0, 1, 2, 3, 4])

    def test_a_stop_leaves_all_of_them_or_none(self):
        """The file as it is before each of the two writes of a keep, and behind them."""
        found = []
        with self.node(self.file(is_first=True)) as node:
            real = node.journal.write
            node.journal.write = lambda data, at: (found.append(self.journal()), real(data, at))
            node.put({b"a": b"1", b"b": b"2"})
        found.append(self.journal())
        self.assertEqual([len(f.read_journal(it).records) for it in found], [1, 1, 3])

    def test_records_that_cannot_be_kept(self):
        """The answer isn't told, nothing more is written, and the locks are let go of at once."""
        node = self.node(self.file(is_first=True))
        journal = node.journal
        journal.write = lambda *_: (_ for _ in ()).throw(OSError(28, "No space left on device"))
        with self.assertRaises(OSError):
            node.put({b"k": b"v"})
        with self.assertRaisesRegex(depot.Closed, "couldn't be kept .*No space left.*: start it again"):
            node.put({b"k": b"w"})
        with self.assertRaisesRegex(OSError, "an earlier call"):
            journal.keep(b"\1\0\0\0\1x")
        self.assertEqual(self.puts_of(1), [0])

    def test_it_is_noted_while_it_runs(self):
        with self.node(self.file(is_first=True)) as node:
            length = g.note_at(self.path("seed.node-1.kept")).length
            node.journal.noted -= 2
            node.put({b"k": b"v"})
            self.assertGreater(g.note_at(self.path("seed.node-1.kept")).length, length)

    def test_a_node_over_a_folder(self):
        self.write("seed", b"01" * 32 + b"\n")
        words = Library(), self.path("one"), self.path("roster"), 1, 2, self.path("seed")
        with depot.open_node(*words, is_first=True, say=self.said.append) as node:
            self.assertEqual(node.put({b"k": b"v"}).seq, 0)
        with self.assertRaisesRegex(g.Unfit, "is there already"):
            depot.open_node(*words, is_first=True)
        with depot.open_node(*words) as node:
            self.assertEqual(node.put({b"k": b"v"}).seq, 1)
        self.write("seed", b"01 is no seed\n")
        with self.assertRaisesRegex(depot.BadRequest, "has no seed"):
            depot.open_node(*words)


class Alarms(Nodes):
    def taken(self, payload, check):
        with self.node(self.file(), Library([check])) as node:
            node.take(frame(f.STATEMENT, payload) + frame(f.END, b"\0"))

    def test_alarms(self):
        self.puts_of(1, is_first=True)
        body = update_body(named(b"k", b"v"), seq=3)
        own = make_cases.signed(body, self.signer.sign(3, body))
        self.taken(own[:-1] + bytes([own[-1] ^ 1]), b"\3" + bytes(32))
        self.assertIn("not signed by its key: whoever made the stream forged it", self.said[-1])
        self.taken(own, b"\3" + bytes(32))
        self.unfit("somebody has a statement under this node's key")
        self.assertEqual(self.puts_of(1, though_convicted=True), [1])
        with self.node(self.file(though_convicted=True), Library([b"\x10"])) as node:
            self.assertEqual(node.take(b"").refused[0].line(), " refused 0 16 AgainstMe")
        self.unfit("this node is convicted")


class Refusals(Nodes):
    def test_reasons(self):
        node = self.node(depot.Forgetful())
        cases = [
            (lambda: node.put({b"": b"v"}), depot.BadRequest, "a key has 0 bytes, and may have 1 to 255"),
            (lambda: node.put({b"k": bytes(65537)}), depot.BadRequest, "a value has 65537 bytes, and may have 65536"),
            (lambda: node.put({b"k" * 256: None}), depot.BadRequest, "a key has 256 bytes"),
            (lambda: node.put({}), depot.BadRequest, "0 keys"),
            (lambda: node.put({b"%d" % it: b"" for it in range(17)}), depot.BadRequest, "17 keys"),
            (lambda: node.put({b"receipt:" + bytes(32): b""}), depot.BadRequest, "that of a receipt"),
            (lambda: node.put({b"checkpoint:" + bytes(32): None}), depot.BadRequest, "that of a checkpoint"),
            (lambda: node.receipt([b""]), depot.BadRequest, "an id has 0 bytes, and not 32"),
            (lambda: node.accepted([]), depot.BadRequest, "0 ids, and it takes 1 to 16"),
            (lambda: node.settled(bytes(32), -1), depot.BadRequest, "-1 nodes"),
            (lambda: node.bundle(b"", 0), depot.BadRequest, "a bundle of 0 bytes"),
            (lambda: node.message(b""), depot.BadRequest, "IllFormed 0"),
            (lambda: node.put({b"spent": b"v"}), depot.Spent, "Spent 4"),
        ]
        for call, kind, why in cases:
            with self.assertRaises(depot.Refused) as found:
                call()
            self.assertEqual((type(found.exception), why in str(found.exception)), (kind, True), str(found.exception))
        node.put({b"receipt:" + bytes(31): b"", b"k": None})
        node.close()
        with self.assertRaisesRegex(depot.Closed, "it was closed"):
            node.put({b"k": b"v"})

    def test_another_thread(self):
        found = []

        def run():
            for call in (lambda: node.put({b"k": b"v"}), node.close):
                try:
                    call()
                except depot.WrongThread as why:
                    found.append(why)

        with self.node(depot.Forgetful()) as node:
            thread = threading.Thread(target=run)
            thread.start()
            thread.join()
            self.assertEqual((len(found), len(node.records())), (2, 1))

    def test_what_has_no_default(self):
        with self.assertRaises(TypeError):
            depot.Node(Library(), b"", b"", 2, 1)
        for call in (depot.Journal().load, lambda: depot.Journal().keep(b"")):
            with self.assertRaises(NotImplementedError):
                call()


class Answers(unittest.TestCase):
    """Answers as docs/FORMATS.md tells them, by hand."""

    def test_each(self):
        ids, head = b"\7" * 32, f.number(2, 3) + f.number(4, 5) + f.number(8, 9)
        self.assertEqual(m.read_put(b"\1" + ids + f.number(4, 2) + f.number(8, 3)), (ids, 2, 3))
        self.assertEqual(m.read_checkpoint(b"\7" + ids + f.number(4, 2) + f.number(8, 3) + b"text"), (b"text", ids, 2, 3))
        self.assertEqual(m.read_bundle(b"\4" + bytes([0, 0, 0, 1, 0, 0, 0, 2, 0, 0, 0, 3, 0, 0, 0, 4, 1]) + b"s"), (1, 2, 3, 4, True, b"s"))
        self.assertEqual([m.read_settled(b"\6\1"), m.read_settled(b"\6\0"), m.read_hello(b"\3text")], [True, False, b"text"])
        self.assertEqual(m.read_trace(b"\x30trace"), b"trace")
        status = b"\x10" + f.number(2, 1) + ids + b"".join(f.number(4, it) for it in range(2, 8)) + b"\0\2\0\4\1\0"
        self.assertEqual(m.read_status(status), (1, ids, 2, 3, 4, 5, 6, 7, (4, 256)))
        self.assertEqual(m.read_convictions(b"\x11\0\0\0\1" + f.number(4, 8) + f.number(2, 3) + f.number(4, 2) + b"pr\1"), (((8, 3, b"pr"),), True))
        self.assertEqual(m.read_keys(b"\x12\0\0\0\2\1a\2bb\0"), ((b"a", b"bb"), False))
        writes = ids + head + b"\0" + ids + head + b"\1\0\0\0\1v" + ids + head + b"\2" + ids + f.number(4, 6)
        latest = m.read_latest(b"\x13\0\0\0\3" + writes)
        self.assertEqual([it.words() for it in latest], ["3/5/9!", "3/5/9=76", "3/5/9=?"])
        self.assertEqual([(it.is_deleted, it.value, it.hash, it.length) for it in latest], [(True, None, b"", 0), (False, b"v", b"", 1), (False, None, ids, 6)])
        named_writes = b"\2\1a\0\1b\1" + ids + f.number(4, 6)
        self.assertEqual(m.read_update(b"\x14\1" + f.number(4, 1) + head + named_writes), (1, 3, 5, 9, ((b"a", None), (b"b", (ids, 6)))))
        self.assertEqual([m.read_update(b"\x14\0"), m.read_accepted(b"\x15\2\1\0")], [None, (True, False)])
        self.assertEqual(m.read_updates(b"\x16\0\0\0\1" + ids + head + b"\1\1a\0"), (((ids, 3, 5, 9, (b"a",)),), False))

    def test_what_becomes_of_a_stream(self):
        front = b"\5" + f.number(4, 1) + f.number(4, 2)
        for ending, closing, how, is_open in [
            (b"\2", b"\0", "whole", True), (b"\3", b"\0", "more", True), (b"\4", b"\0", "bare", True), (b"\5\0\0\0\7", b"\0", "cut 7", True),
            (b"\1", b"\0", "closed", False), (b"\1", b"\1" + f.number(8, 40), "ill-formed 40", False),
            (b"\1", b"\2\1" + f.number(4, 131072), "full records 131072", False),
        ]:
            taken = m.read_taken(front + ending + bytes(4) + closing)
            self.assertEqual((taken.line(), taken.is_open), ("accepted 1 known 2 refused 0 " + how, is_open))
        ids = bytes(32)
        checks = {
            b"\1\0\0\0\4": "1 IllFormed 4", b"\2\0\5": "2 UnknownWriter 5", b"\3" + ids: "3 NotMine", b"\4\0\5": "4 BadSignature 5",
            b"\5" + ids: "5 Missing", b"\6\0\0\0\1": "6 WrongDep 1", b"\7" + ids: "7 Backward", b"\x08" + ids: "8 ClockLow",
            b"\x09" + f.number(8, 6): "9 ClockFar 6", b"\x0a" + ids * 2: "10 BadHistory", b"\x0b" + ids * 2 + b"\3": "11 Forked Backward",
            b"\x0c\0\5": "12 Convicted 5", b"\x0d\0\5": "13 VoucherConvicted 5", b"\x0e" + ids: "14 Unwanted", b"\x0f": "15 NotContradictory",
            b"\x10": "16 AgainstMe",
        }
        refused = b"".join(f.number(4, 9) + it for it in checks)
        taken = m.read_taken(front + b"\2" + f.number(4, len(checks)) + refused + b"\0")
        self.assertEqual([it.line() for it in taken.refused], [" refused 9 " + it for it in checks.values()])

    def test_what_is_not_done(self):
        for reason, kind, words in [
            (b"\1\1\0\0\0\4", m.Spent, "Spent 4"), (b"\1\2\0\0\4\1", m.TooManyTips, "Tips 1025"), (b"\1\3" + bytes(32), m.IdTaken, "Collides"),
            (b"\1\4\2\0\0\0\7", m.Full, "full bytes 7"), (b"\2\0\0\0\7", m.IllFormed, "IllFormed 7"), (b"\3" + bytes(32), m.OtherRoster, "OtherRoster"),
            (b"\4" + bytes(32), m.Unknown, "Unknown"), (b"\5" + bytes(32), m.ValueNotHeld, "NoValue"), (b"\6", m.NothingAccepted, "Empty"),
            (b"\7\0\0\4\1", m.TooManyLeaves, "Many 1025"),
        ]:
            with self.assertRaises(m.NotDone) as found:
                m.read_put(b"\x08" + reason)
            self.assertEqual((type(found.exception), found.exception.words), (kind, words))

    def test_what_is_no_answer(self):
        for body in (b"", b"\1", b"\2", b"\x08\x09", b"\1" + bytes(43)):
            with self.assertRaises(m.Malformed):
                m.read_put(body)
        for body in (b"\5" + bytes(9), b"\5" + bytes(8) + b"\2\0\0\0\0\3", b"\5" + bytes(8) + b"\2\0\0\0\1\0\0\0\0\x11\0"):
            with self.assertRaises(m.Malformed):
                m.read_taken(body)


@unittest.skipUnless(shutil.which("cc"), "there is no compiler of C")
class Unread(Runs):
    """`bindings/journal_file.h`: a file whose records nobody read isn't written."""

    def test_each_file(self):
        words = ["cc", "-std=c11", "-Wall", "-Wextra", "-Werror", "-fsanitize=address,undefined", "-I", path_of("bindings")]
        subprocess.run([*words, path_of("bindings", "tests", "unread.c"), "-o", self.path("unread")], check=True)
        full, long = journal(b"aa", b"bb"), b"\1\xff\xff\xff\xff\0"
        for file, told, left in [
            (b"", "-1 1, 0 0, 0, 0", full), (b"\1", "-1 1, 0 0, 0, 0", full), (journal(b"aa"), "-1 1, 0 8, 1, 0", full),
            (full + b"x", "-1 1, 0 16, 2, 0", full + b"x"), (full[:-1], "-1 1, 0 14, 2, -1", full[:-1]), (full[:3], "-1 1, 0 3, 0, -1", full[:3]),
            (long, "-1 1, 0 6, 1, -1", long),
        ]:
            self.write("one/depot.journal", file)
            ran = subprocess.run([self.path("unread"), self.path("one")], stdout=subprocess.PIPE)
            self.assertEqual((ran.returncode, ran.stdout.decode().strip(), self.read("one", "depot.journal")), (0, told, left), file)


if __name__ == "__main__":
    unittest.main()
