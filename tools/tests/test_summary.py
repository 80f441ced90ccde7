"""What `look.py` answers to one question of a journal: an id, the latest writes as puts, and what is left of a node."""

import os
import time
import unittest

from cases import birth, f, frame, journal, marked, named, own_put, path_of, run_tool, signed, update_body, world
from test_tools import BRANCHED, InARoom

import summary

ROSTER = path_of("acceptance", "cases", "node_convicts_a_fork", "data", "ROSTER")
PROOF = path_of("examples", "fork", "proof")


def foreign(body):
    return b"\4" + signed(body)


class Questions(InARoom):
    def asked(self, *words):
        status, out, why = run_tool("look.py", *words)
        return status, out.splitlines(), why

    def journal_of(self, *bodies):
        return self.put("J", journal(*bodies))


class Ids(Questions):
    def test_an_id(self):
        body = update_body(named(b"k", b"v"), writer=1, seq=4, clock=5)
        id = f.sha256(body).hex()
        log = f.number(4, len(body)) + body
        for data in (journal(birth(2), foreign(body)), frame(f.STATEMENT, signed(body)) + frame(f.VALUE, b"v"), log):
            self.assertEqual(self.asked(self.put("F", data), "--id", "1/4/5"), (0, [id], ""))

    def test_a_fork(self):
        bodies = [update_body(named(b"k", value), writer=9) for value in (b"a", b"b")]
        status, ids, why = self.asked(self.journal_of(birth(), *map(foreign, bodies)), "--id", "9/0/1")
        self.assertEqual((status, ids), (0, [f.sha256(it).hex() for it in bodies]))
        self.assertEqual(why, "look: 2 updates have the name 9/0/1, since node 9 forked\n")

    def test_what_is_not_there(self):
        cases = [(["--id", "9/0/7", BRANCHED], 1), (["--id", "9/0", BRANCHED], 1), (["--id", "1/0/1", PROOF], 2), (["--id", "1/0/1", "/absent"], 3)]
        for words, status in cases:
            found, out, why = self.asked(*words)
            self.assertEqual((found, out, bool(why)), (status, [], True), words)


class Puts(Questions):
    def bodies(self):
        """Of node 1: keys that are written, superseded, deleted and reserved; of node 2 a write beside that of node 1."""
        first = update_body(b"\3" + marked(b"a", b"old") + marked(b"b", b"gone") + marked(b"k", b"from 1"), version=2)
        second = update_body(b"\3" + marked(b"\0", b"") + marked(b"a", b'new "\\') + marked(b"b", None), version=2, seq=1, clock=2, prev=f.sha256(first))
        third = update_body(named(b"receipt:" + bytes(32), b""), seq=2, clock=3, prev=f.sha256(second))
        beside = update_body(b"\2" + marked(b"k", b"from 2") + marked(b"z", b"not held"), version=2, writer=2)
        other = update_body(b"\1" + marked(b"k", None), version=2, writer=3)
        return first, second, third, beside, other

    def test_puts(self):
        first, second, third, beside, other = self.bodies()
        held = b"\6from 2"
        records = [own_put(first, b"old", b"gone", b"from 1"), own_put(second, b"", b'new "\\'), own_put(third, b""), foreign(beside), held, foreign(other)]
        status, lines, _ = self.asked(self.journal_of(birth(), *records), "--puts")
        self.assertEqual((status, lines), (0, [
            'put 00 ""', 'put "a" "new \\"\\\\"', '# "k" has 3 latest writes: take the # from the put that shall stand',
            "# 1/0/1 writes", '#put "k" "from 1"', "# 2/0/1 writes", '#put "k" "from 2"', "# 3/0/1 deletes it",
            '# "z": 2/0/1 writes a value that isn\'t held, of 8 bytes, hash %s' % f.sha256(b"not held").hex(),
        ]))
        status, script, _ = run_tool("text.py", "script", data="\n".join(lines).encode())
        self.assertEqual((status, script.splitlines()), (0, ["put 00 -", "put 61 6e657720225c"]))

    def test_another_node_has_the_same(self):
        """The notes say nothing of the journal that they are of, so that members can compare them."""
        first, second, third, beside, other = self.bodies()
        values = [b"\6" + it for it in (b"old", b"gone", b"from 1", b'new "\\', b"", b"from 2", b"not held")]
        here = self.asked(self.journal_of(birth(7), *map(foreign, (beside, other, first, second, third)), *values), "--puts")
        there = self.asked(self.journal_of(birth(8), *map(foreign, (first, other, second, beside, third)), *values[::-1]), "--puts")
        self.assertEqual((here[0], here), (0, there))

    def test_whole_values(self):
        value = b"v" * 65536
        body = update_body(named(b"k", value))
        self.assertEqual(self.asked(self.journal_of(birth(), own_put(body, value)), "--puts")[1], ['put "k" "%s"' % value.decode()])


class Brief(Questions):
    def test_a_node(self):
        """A conviction is told at once, as long as it isn't named as known."""
        lines = ["node 2, own statements: 0", "statements: 4 of 4 left", "records: 131067 of 131072 left",
                 "bytes: 1073732475 of 1073741824 left", "convicted: 9", "wanted values: 0"]
        self.assertEqual(self.asked(BRANCHED, "--brief", "--roster", ROSTER), (2, ["now: node 9 is convicted"] + lines, ""))
        for known in ("9", "3,9"):
            self.assertEqual(self.asked(BRANCHED, "--brief", "--roster", ROSTER, "--known", known), (0, ["well"] + lines, ""))
        self.assertEqual(self.asked(BRANCHED, "--brief", "--known", "8")[:2], (2, ["now: node 9 is convicted"] + lines[:1] + lines[2:]))

    def node(self, height, own, *more):
        """The first line and the status of a node whose key has this height, after so many own updates."""
        roster = self.put("R", f.roster_text([f.Member(1, height, bytes(32))]))
        bodies, prev = [], f.NO_UPDATE
        for seq in range(own):
            bodies.append(update_body(named(b"k", b"v"), seq=seq, clock=seq + 1, prev=prev))
            prev = f.sha256(bodies[-1])
        with open(roster, "rb") as file:
            first = birth(1, f.sha256(file.read()))
        path = self.journal_of(first, *(own_put(it, b"v") for it in bodies), *more)
        status, lines, _ = self.asked(path, "--brief", "--roster", roster)
        return status, lines[0]

    def test_what_is_left(self):
        cases = [(4, 14, 0, "well"), (4, 15, 1, "soon: statements: 1 of 16 left"), (4, 16, 2, "now: statements: 0 of 16 left")]
        for height, own, status, said in cases:
            self.assertEqual(self.node(height, own), (status, said))

    def test_wanted_values(self):
        body = update_body(named(b"k", b"v"), writer=2)
        self.assertEqual(self.node(4, 0, foreign(body)), (1, "soon: values that it wants: 1"))
        self.assertEqual(self.node(4, 0, foreign(body), b"\6v"), (0, "well"))

    def test_limits_of_a_journal(self):
        """At and beside the points where little, and then nothing, is left."""
        whole = f.MOST_RECORDS
        for used, state in ((0, summary.WELL), (whole - whole // 10 - 1, summary.WELL), (whole - whole // 10, summary.SOON), (whole, summary.NOW)):
            self.assertEqual(summary.Left("records", used, whole).state, state, used)

    def test_journals_that_are_not_good(self):
        good = journal(birth())
        cases = [
            (good[:-1] + b"\1", "now: not in its form: at 40: an open gate stands here"), (b"", "now: no birth of a node"),
            (b"\0" + good[1:], "now: no birth of a node"), (good[:20], "now: not in its form: at 0"),
        ]
        for data, said in cases:
            status, lines, why = self.asked(self.put("J", data), "--brief")
            self.assertEqual((status, lines[0].startswith(said), why), (2, True, ""), lines)

    def test_what_is_unknown(self):
        """Where nothing can be said of a node the status is another: a file that isn't there, that is no journal, another roster."""
        other, path = self.put("R", f.roster_text([f.Member(1, 2, bytes(32))])), self.journal_of(birth(2, f.sha256(b"")))
        with open(other, "rb") as file:
            lacks = self.put("L", journal(birth(2, f.sha256(file.read()))))
        for words in (["/absent"], [self.room], [path_of("README.md")], [PROOF], [path, "--roster", other], [path, "--roster", "/absent"], [lacks, "--roster", other]):
            status, out, why = self.asked("--brief", *words)
            self.assertEqual((status, out, why.count("\n")), (3, [], 1), words)
        self.assertEqual(self.asked("--brief", "--known", "x", BRANCHED)[0], 1)


class Size(Questions):
    def test_a_great_journal(self):
        """Its time grows as its records do: eight times as many take less than sixteen times as long."""
        spent = []
        for rounds in (400, 3200):
            updates = world(writers=3, rounds=rounds, keys=rounds)
            start = time.process_time()
            latest = f.latest_by_key(updates)
            spent.append(time.process_time() - start)
            self.assertEqual(len(latest), rounds)
        self.assertLess(spent[1], 16 * spent[0])


if __name__ == "__main__":
    unittest.main()
