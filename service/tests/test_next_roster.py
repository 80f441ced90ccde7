"""The move to the next roster, on a journal made byte by byte: who puts what, and what is refused."""

import hashlib
import json
import os
import subprocess
import sys
import tempfile
import unittest

import cases
import formats as f

TOOL = os.path.join(cases.SERVICE, "next_roster")
OLD = f.roster_text([f.Member(node, 4, bytes([node]) * 32) for node in (1, 2, 3)])
NEXT = f.roster_text([f.Member(node, 4, bytes([node + 9]) * 32) for node in (1, 2, 4)])


def body(writer, seq, clock, key, value, prev=None):
    """An update of one key, and its value."""
    head = b"\1\1" + f.number(2, writer) + f.number(4, seq) + f.number(8, clock) + (prev or f.NO_UPDATE)
    text = head + f.number(1, len(key)) + key + f.sha256(value) + f.number(4, len(value)) + b"\0\0" + hashlib.sha256().digest()
    return text, value


def foreign(text, value):
    """The records of another's update."""
    return [b"\4" + f.number(4, len(text)) + text + f.number(4, 3) + b"sig", b"\6" + value]


def journal(records):
    """The file of a journal."""
    return b"".join(b"\1" + f.number(4, len(it)) + it for it in records) + b"\0"


class Plans(unittest.TestCase):
    """Member 1's journal: it wrote `a`, 2 wrote `b`, 3 wrote `c`, and 2 and 3 wrote `d` without knowing of one another."""

    def setUp(self):
        self.room = tempfile.TemporaryDirectory()
        self.addCleanup(self.room.cleanup)
        own, value = body(1, 0, 1, b"a", b"by one")
        records = [b"\1\0\1" + f.sha256(OLD), b"\2" + f.number(4, len(own)) + own + value]
        for writer, key, value in ((2, b"b", b"by two"), (3, b"c\xff", b"by three")):
            first = body(writer, 0, 1, key, value)
            records += foreign(*first) + foreign(*body(writer, 1, 2, b"d", b"of %d" % writer, f.sha256(first[0])))
        self.put("journal", journal(records))
        self.put("next", NEXT)

    def path(self, name):
        """A file of the room."""
        return os.path.join(self.room.name, name)

    def put(self, name, data):
        """Writes a file."""
        with open(self.path(name), "wb") as file:
            file.write(data)

    def text(self, *names):
        """What stands in a file."""
        with open(self.path(os.path.join(*names)), encoding="utf-8") as file:
            return file.read()

    def tool(self, *words):
        """A run of the tool: its status, and what it said."""
        ran = subprocess.run([sys.executable, "-B", TOOL, *words], cwd=self.room.name, stdout=subprocess.PIPE, stderr=subprocess.STDOUT)
        self.assertNotIn(b"Traceback", ran.stdout)
        return ran.returncode, ran.stdout.decode()

    def decided(self):
        """Notes in which `d` is decided for what member 2 wrote."""
        self.assertEqual(self.tool("notes", "journal", "notes")[0], 0)
        self.put("decided", self.text("notes").replace('decide "d"', 'put "d" "of 2"').encode())

    def who(self, *names):
        """Who puts each key, by the plan."""
        return {line.split(" ")[0]: int(line.split(" ")[2]) for line in self.text(*names).splitlines()}

    def test_each_key_is_put_by_who_wrote_it_last_or_by_the_elected(self):
        self.decided()
        status, told = self.tool("plan", "journal", "decided", "next", "4", "out")
        self.assertEqual(status, 0, told)
        self.assertEqual(self.who("out", "plan"), {"a": 1, "b": 2, "c%FF": 4, "d": 2})
        self.assertIn("member 4 puts 1 keys in 1 statements", told)
        changes = json.loads(self.text("out", "changes-2"))["changes"]
        self.assertEqual(changes, [{"key": "b", "value": "YnkgdHdv"}, {"key": "d", "value": "b2YgMg=="}])

    def test_one_member_may_put_all(self):
        self.decided()
        self.assertEqual(self.tool("plan", "journal", "decided", "next", "1", "out", "--one")[0], 0)
        self.assertEqual(set(self.who("out", "plan").values()), {1})

    def test_what_is_not_in_order(self):
        self.assertEqual(self.tool("notes", "journal", "notes")[0], 0)
        self.assertEqual(self.tool("plan", "journal", "notes", "next", "1", "out")[0], 1)
        self.decided_again()
        for words, status in ((("next", "3", "out"), 1), (("next", "x", "out"), 1), (("journal", "1", "out"), 2), (("none", "1", "out"), 3)):
            self.assertEqual(self.tool("plan", "journal", "decided", *words)[0], status, words)
        self.put("old", OLD)
        self.assertEqual(self.tool("plan", "journal", "decided", "old", "1", "out")[0], 1)
        self.assertEqual(self.tool("plan", "journal")[0], 1)
        self.assertFalse(os.path.exists(self.path("out")))

    def decided_again(self):
        """The same notes, decided."""
        self.put("decided", self.text("notes").replace('decide "d"', 'put "d" "of 2"').encode())

    def test_a_new_journal_is_held_against_the_plan(self):
        self.decided()
        self.assertEqual(self.tool("plan", "journal", "decided", "next", "1", "out", "--one")[0], 0)
        values, prev, records = {b"a": b"by one", b"b": b"by two", b"c\xff": b"by three", b"d": b"of 2"}, None, [b"\1\0\1" + f.sha256(NEXT)]
        for seq, (key, value) in enumerate(values.items()):
            text, _ = body(1, seq, seq + 1, key, value, prev)
            prev = f.sha256(text)
            records.append(b"\2" + f.number(4, len(text)) + text + value)
        self.put("new", journal(records))
        self.assertEqual(self.tool("check", "new", "out/plan"), (0, "all 4 keys are as planned\n"))
        self.put("new", journal(records[:-1]))
        status, told = self.tool("check", "new", "out/plan")
        self.assertEqual((status, told.splitlines()[0]), (5, "d isn't as planned"))

    def test_a_seed_is_written_once_and_its_root_is_that_of_the_program(self):
        status, told = self.tool("seed", "seed", "7", "3")
        self.assertEqual((status, told[:4]), (0, "7:3:"))
        self.assertEqual(os.stat(self.path("seed")).st_mode & 0o777, 0o600)
        self.assertEqual(self.tool("seed", "seed", "7", "3")[0], 3)
        self.assertEqual(self.tool("seed", "more", "7", "18")[0], 1)
        if "DEPOT_PROGRAM" in os.environ:
            for height in ("3", "13"):
                self.assertEqual(self.tool("seed", "seed" + height, "7", height)[0], 0)
            told = self.tool("seed", "again", "7", "13")[1]
            root = subprocess.run([os.environ["DEPOT_PROGRAM"], "key", self.text("again").strip(), "13"], stdout=subprocess.PIPE).stdout.decode()
            self.assertEqual(told, "7:13:" + root)


if __name__ == "__main__":
    unittest.main()
