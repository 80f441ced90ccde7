"""The readers of `tools/formats.py`: the texts of docs/FORMATS.md, where they go wrong, files of acceptance/."""

import glob
import os
import re
import unittest

from cases import data_of, f, frame, journal, marked, named, path_of, signed, update_body, voucher_body, world

ONE = update_body(named(b"k", b"abc"))
SEVERAL = update_body(b"\2" + marked(b"k", b"abc") + marked(b"l", None), version=2)
LONE = update_body(b"\1" + marked(b"k", None), version=2)


def past_of(ids, updates):
    """The ids of all updates that paths of parents from these ids lead through, these among them; updates by id."""
    found, waiting = set(), list(ids)
    while waiting:
        at = waiting.pop()
        if at in updates and at not in found:
            found.add(at)
            waiting += updates[at].parents
    return found


def offset_of(read, data):
    """Where a text goes wrong, or None."""
    try:
        read(data)
    except f.IllFormed as fault:
        return fault.offset
    return None


class Updates(unittest.TestCase):
    def test_version_1(self):
        self.assertEqual(len(ONE), 120)
        update = f.read_update(ONE)
        self.assertEqual(update[:7], (1, 0, 1, f.NO_UPDATE, [f.Write(b"k", f.sha256(b"abc"), 3)], [], f.sha256()))
        self.assertEqual((update.id, update.name, update.parents), (f.sha256(ONE), "1/0/1", []))

    def test_several_writes(self):
        writes = f.read_update(SEVERAL).writes
        self.assertEqual(writes, [f.Write(b"k", f.sha256(b"abc"), 3), f.Write(b"l", None, None)])

    def test_a_deletion_alone(self):
        self.assertEqual(len(LONE), 86)
        self.assertEqual(f.read_update(LONE).writes, [f.Write(b"k", None, None)])

    def test_faults(self):
        entry = b"\0\2" + f.number(8, 1) + bytes(32)
        entries = b"\0\2" + entry + entry
        cases = [
            (b"\3" + ONE[1:], 0),
            (b"\1\3" + ONE[2:], 1),
            (b"\2\2" + ONE[2:], 1),
            (update_body(named(b"k", b""), writer=0), 2),
            (update_body(named(b"k", b""), clock=0), 8),
            (ONE[:40], 16),
            (update_body(b"\0" + bytes(36)), 48),
            (ONE[:60], 50),
            (update_body(b"\1k" + bytes(32) + f.number(4, 65537)), 82),
            (update_body(named(b"k", b""), entries=f.number(2, 1025)), 86),
            (update_body(named(b"k", b""), entries=b"\0\1" + b"\0\1" + entry[2:]), 88),
            (update_body(named(b"k", b""), entries=entries), 88 + 42),
            (ONE + b"\0", 120),
            (update_body(b"\0", version=2), 48),
            (update_body(b"\21", version=2), 48),
            (update_body(b"\1" + marked(b"k", b""), version=2), 51),
            (update_body(b"\2" + b"\1k\2", version=2), 51),
            (update_body(b"\2" + marked(b"l", None) + marked(b"k", b""), version=2), 49 + 3),
            (update_body(b"\2" + marked(b"k", None) + marked(b"k", None), version=2), 49 + 3),
        ]
        for body, offset in cases:
            with self.subTest(offset=offset):
                self.assertEqual(offset_of(f.read_update, body), offset)


class Others(unittest.TestCase):
    def test_vouchers(self):
        ids = [bytes(32), b"\1" * 32]
        self.assertEqual(f.read_statement(voucher_body(*ids, seq=7))[:3], (9, 7, ids))
        self.assertEqual(offset_of(f.read_statement, voucher_body(*reversed(ids))), 10 + 32)
        self.assertEqual(offset_of(f.read_statement, voucher_body()), 8)

    def test_a_pair(self):
        proof = f.read_proof(b"\1\2" + signed(ONE) + signed(SEVERAL))
        self.assertEqual((proof.kind, f.convicted_by(proof), proof.first.signature), ("SamePrev", 1, b"sig"))

    def test_a_hollow_proof(self):
        text = b"\1\4" + signed(voucher_body(f.sha256(b"no update"))) + f.number(4, 9) + b"no update"
        proof = f.read_proof(text)
        self.assertEqual((proof.kind, f.convicted_by(proof), proof.text), ("NotUpdate", 9, b"no update"))
        self.assertEqual(offset_of(f.read_proof, text[:-1]), len(text) - 9)
        long = text[:-13] + f.number(4, 65537)
        self.assertEqual(offset_of(f.read_proof, long), len(long) - 4)

    def test_rosters(self):
        members = [f.Member(2, 17, b"\2" * 32), f.Member(1, 2, b"\1" * 32)]
        text = f.roster_text(members)
        self.assertEqual(text, b"\1\4\0\2" + b"\0\1\2" + b"\1" * 32 + b"\0\2\21" + b"\2" * 32)
        self.assertEqual(f.read_roster(text), sorted(members))
        low, high = text[:6] + b"\1" + text[7:], text[:6] + b"\22" + text[7:]
        for bad, offset in [(low, 6), (high, 6), (b"\1\4\0\0", 2), (text[:4] + text[4:39] * 2, 39)]:
            self.assertEqual(offset_of(f.read_roster, bad), offset)

    def test_hellos(self):
        head = b"\1\3\0\1" + bytes(32)
        self.assertEqual(len(head + bytes(6)), 42)
        leaf = b"\0\2" + b"\7" * 32
        hello = f.read_hello(head + b"\0\1\0\11" + b"\0\1" + leaf + b"\0\1" + b"\3" * 32)
        self.assertEqual(hello, f.Hello(1, bytes(32), [9], [leaf], [b"\3" * 32]))
        self.assertEqual(offset_of(f.read_hello, head + b"\0\2" + b"\0\11" * 2), 40)

    def test_records(self):
        put = b"\2" + f.number(4, len(SEVERAL)) + SEVERAL + b"abc"
        self.assertEqual(f.read_record(put), f.OwnPut(f.read_update(SEVERAL), [b"abc"]))
        self.assertEqual(offset_of(f.read_record, put[:-1]), len(put) - 3)
        self.assertEqual(offset_of(f.read_record, put + b"x"), len(put))
        voucher = f.read_record(b"\3" + voucher_body(bytes(32))).voucher
        self.assertEqual(voucher.body, voucher_body(bytes(32)))
        self.assertEqual(offset_of(f.read_record, b"\3\2" + voucher_body(bytes(32))[1:]), 1)
        self.assertEqual(offset_of(f.read_record, b"\6" + bytes(65537)), 65537)
        for bad in [b"", b"\7"]:
            self.assertEqual(offset_of(f.read_record, bad), 0)

    def test_files_of_journals(self):
        birth = b"\1\0\1" + bytes(32)
        read = f.read_journal(journal(birth) + b"behind")
        self.assertEqual((len(read.records), read.end, read.behind), (1, 40, 6))
        for empty in [b"", b"\0", b"\1"]:
            self.assertEqual(f.read_journal(empty), ([], 0, 0))
        self.assertEqual(offset_of(f.read_journal, journal(birth)[:-1] + b"\1"), 40)

    def test_streams(self):
        value, end = frame(3, b"v"), frame(4, b"\0")
        cases = [
            (b"", 0, "bare"), (value, 1, "bare"), (value + end, 2, "whole"), (frame(4, b"\1"), 1, "more"),
            (value + b"\3\0", 1, "cut 2"), (value + b"\5", 1, "ill-formed 6"), (end + b"\0", 1, "ill-formed 6"),
            (frame(4, b"\2"), 0, "ill-formed 0"), (b"\4\0\0\0\2", 0, "ill-formed 0"),
            (b"\3\0\2\0\1", 0, "ill-formed 0"),
            (b"\3\0\2\0\0", 0, "cut 5"),
        ]
        for data, count, ending in cases:
            stream = f.read_stream(data)
            self.assertEqual((len(stream.frames), stream.ending), (count, ending))


class Histories(unittest.TestCase):
    """The history hash and the latest writes, over the small log of examples/."""

    def setUp(self):
        self.updates = f.read_log(data_of("examples", "notes.log"))

    def test_each_history(self):
        by_id = {it.id: it for it in self.updates}
        for update in self.updates:
            past = past_of(update.parents, by_id)
            self.assertEqual(update.history, f.history_hash([by_id[it] for it in past]))

    def test_latest_writes(self):
        latest = f.latest_by_key(self.updates)
        names = {key: [it.name for it in found] for key, found in latest.items()}
        self.assertEqual((names[b"note"], names[b"list"]), (["1/1/2"], ["2/1/2", "1/2/3"]))

    def test_latest_writes_of_a_world(self):
        """Writers who name some of what was written: of each key those are the latest that are in no other's past."""
        updates = world(writers=4, rounds=40, keys=5)
        by_id = {it.id: it for it in updates}
        latest = f.latest_by_key(updates)
        self.assertEqual(set(latest), {write.key for it in updates for write in it.writes})
        for key, found in latest.items():
            writing = [it for it in updates if it.writes[0].key == key]
            covered = past_of([parent for it in writing for parent in it.parents], by_id)
            self.assertEqual({it.id for it in found}, {it.id for it in writing} - covered)
            self.assertEqual(found, sorted(found, key=lambda it: (it.clock, it.writer, it.seq, it.id)))
        self.assertGreater(max(map(len, latest.values())), 1)


class Acceptance(unittest.TestCase):
    """Files that the program accepts are read, and of those that it refuses the same place is told."""

    def cases(self, pattern):
        for path in sorted(filter(os.path.isfile, glob.glob(path_of("acceptance", "cases", pattern), recursive=True))):
            name = os.path.relpath(path, path_of("acceptance", "cases")).split(os.sep)[0]
            with open(path, "rb") as file, open(path_of("acceptance", "cases", name, "stdout")) as said:
                yield name, file.read(), said.read()

    def test_logs(self):
        for name, data, said in self.cases("scan_*/data/LOG"):
            place = re.match(r"input LOG at (\d+)$", said.strip())
            with self.subTest(name=name):
                self.assertEqual(offset_of(f.read_log, data), int(place.group(1)) if place else None)

    def test_journals(self):
        for name, data, said in self.cases("node_*/**/depot.journal"):
            place = re.match(r"damaged (\d+)$", said.strip())
            ill = re.match(r"not lawful (\d+) Ill (\d+)$", said.strip())
            with self.subTest(name=name):
                wanted = int(place.group(1)) if place else None
                if ill:
                    gates = [gate for gate, _ in f.spans_of(data)]
                    wanted = gates[int(ill.group(1))] + 5 + int(ill.group(2))
                self.assertEqual(offset_of(f.read_journal, data), wanted)

    def test_proofs_and_rosters(self):
        for name, data, said in self.cases("judge_*/data/PROOF"):
            place = re.match(r"IllFormed (\d+)$", said.strip())
            with self.subTest(name=name):
                self.assertEqual(offset_of(f.read_proof, data), int(place.group(1)) if place else None)
        for name, data, said in self.cases("judge_*/data/ROSTER"):
            place = re.match(r"input ROSTER at (\d+)$", said.strip())
            if place:
                with self.subTest(name=name):
                    self.assertEqual(offset_of(f.read_roster, data), int(place.group(1)))

    def test_some_are_there(self):
        for pattern in ["scan_*/data/LOG", "node_*/**/depot.journal", "judge_*/data/PROOF", "judge_*/data/ROSTER"]:
            self.assertGreater(len(list(self.cases(pattern))), 5)


if __name__ == "__main__":
    unittest.main()
