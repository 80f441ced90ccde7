"""What lives on where a roster ends: `tools/renew.py` on journals made byte by byte."""

import os
import unittest

from cases import data_of, f, journal, marked, named, run_tool, signed, update_body
from test_tools import InARoom

BIRTH = b"\1\0\1" + f.sha256(b"roster")
HEAD = "# What lives on of the roster %s, by tools/renew.py" % f.sha256(b"roster").hex()


def entries(*updates):
    rising = sorted(updates, key=lambda it: (it.writer, it.id))
    return f.number(2, len(rising)) + b"".join(f.number(2, it.writer) + f.number(8, it.clock) + it.id for it in rising)


def update(writer, seq, clock, key, value, prev=None, others=()):
    """An update of one key, which is deleted where the value is None."""
    version = 2 if value is None else 1
    writes = b"\1" + marked(key, None) if value is None else named(key, value)
    body = update_body(writes, version, writer, seq, clock, prev.id if prev else f.NO_UPDATE, entries(*others))
    return f.read_update(body)


def foreign(it, *values):
    """The records of another's update and of its values."""
    return [b"\4" + signed(it.body)] + [b"\6" + value for value in values]


def own(it, *values):
    return [b"\2" + f.number(4, len(it.body)) + it.body + b"".join(values)]


class Renewed(InARoom):
    def setUp(self):
        super().setUp()
        first = update(1, 0, 1, b"user:1", b'"Ada" \\')
        gone = update(2, 0, 1, b"user:2", None)
        one, two = update(1, 1, 2, b"k", b"one", first), update(2, 1, 2, b"k", b"\0two", gone)
        same = [update(1, 2, 3, b"same", b"v", one), update(2, 2, 3, b"same", b"v", two)]
        absent, receipt = update(3, 0, 1, b"lacked", b"never given"), update(3, 1, 2, b"receipt:" + bytes(32), b"")
        self.updates = [first, gone, one, two, *same, absent, receipt]
        records = own(first, b'"Ada" \\') + foreign(gone) + own(one, b"one") + foreign(two, b"\0two")
        records += own(same[0], b"v") + foreign(same[1]) + foreign(absent) + foreign(receipt)
        self.put("journal", journal(BIRTH, *records))

    def renew(self, *words):
        return run_tool("renew.py", words[0], *(self.path(it) for it in words[1:]))

    def lines(self, name):
        with open(self.path(name), encoding="utf-8") as file:
            return file.read().splitlines()

    def notes(self):
        status, out, why = self.renew("notes", "journal", "notes")
        self.assertEqual((status, why), (0, ""))
        return out.splitlines()

    def decide(self, **lines):
        """Notes in which the lines `decide "KEY"` are replaced."""
        made = ["%s" % lines.get(it[8:-1], it) if it.startswith("decide ") else it for it in self.lines("notes")]
        self.put("decided", "".join(it + "\n" for it in made).encode())

    def test_notes(self):
        out = self.notes()
        ids = [it.id.hex()[:16] for it in self.updates]
        self.assertEqual(self.lines("notes"), [
            HEAD,
            '# "k" has several latest writes, or lacks a value; it is decided by member 1, member 2:',
            '#   1/1/2, id %s: put "k" "one"' % ids[2],
            '#   2/1/2, id %s: put "k" 0074776f' % ids[3],
            'decide "k"',
            '# "lacked" has several latest writes, or lacks a value; it is decided by member 3:',
            "#   3/0/1, id %s: a value that isn't held here" % ids[6],
            'decide "lacked"',
            "# by 1/2/3 and 2/2/3",
            'put "same" "v"',
            "# by 1/0/1",
            'put "user:1" "\\"Ada\\" \\\\"',
            '# "user:2" was deleted by 2/0/1',
        ])
        with open(self.path("notes"), "rb") as file:
            self.assertEqual(out, ["SHA-256 %s" % f.sha256(file.read()).hex(), "5 keys, of which 2 are to be decided"])

    def test_a_script(self):
        self.notes()
        self.decide(k='put "k" "one"', lacked='drop "lacked"')
        status, out, _ = self.renew("script", "journal", "decided", "script")
        right = "puts 6b=6f6e65,73616d65=76,757365723a31=224164612220" + "5c"
        self.assertEqual((status, self.lines("script")), (0, [right]))
        self.assertEqual(out.splitlines(), ["SHA-256 %s" % f.sha256(right.encode() + b"\n").hex(), "3 keys in 1 statements"])

    def test_other_values(self):
        self.notes()
        self.decide(k='put "k" "a \\"b\\""', lacked='put "lacked" ""')
        self.assertEqual(self.renew("script", "journal", "decided", "script")[0], 0)
        self.assertTrue(self.lines("script")[0].startswith("puts 6b=6120226222,6c61636b6564=-,"))

    def test_open_keys_and_other_changes_are_refused(self):
        self.notes()
        for lines, told in [
            ({"k": 'put "k" "one"'}, 'decided line 8: "lacked" isn\'t decided'),
            ({"k": 'put "x" "one"', "lacked": 'drop "lacked"'}, 'decided line 5: "k" isn\'t decided'),
            ({"k": 'put "k" one', "lacked": 'drop "lacked"'}, 'decided line 5: "k" isn\'t decided'),
            ({"k": 'put "k" "%s"' % ("x" * 65537), "lacked": 'drop "lacked"'}, "line 5: a value has at most 65536"),
        ]:
            self.decide(**lines)
            status, _, why = self.renew("script", "journal", "decided", "script")
            self.assertEqual((status, told in why, os.path.exists(self.path("script"))), (1, True, False), why)
        self.decide(k='put "k" "one"', lacked='drop "lacked"')
        good = b"".join(line.encode() + b"\n" for line in self.lines("decided"))
        for data, told in [
            (good.replace(b'"v"', b'"w"'), 'line 10: what stands there up to the key "same"'),
            (good.replace(b"1/0/1", b"2/0/1"), 'up to the key "user:1"'),
            (good + b'put "more" "1"\n', "at its head or its end"),
            (good.replace(HEAD.encode(), b"#"), "at its head or its end"),
            (good[:-1], "no line end"),
            (b"", "up to the key"),
            (b"\xff\n", "isn't UTF-8"),
        ]:
            self.put("decided", data)
            status, _, why = self.renew("script", "journal", "decided", "script")
            self.assertEqual((status, told in why), (1, True), why)

    def test_a_convicted_writer_decides_nothing(self):
        one, two = update(1, 0, 1, b"k", b"a"), update(1, 1, 2, b"k", b"b")
        proof = b"\1\2" + b"".join(sorted([signed(one.body), signed(two.body)]))
        self.put("journal", journal(BIRTH, *foreign(one, b"a"), *foreign(two, b"b"), b"\5" + proof))
        self.notes()
        self.assertIn("it is decided by all that go on:", self.lines("notes")[1])

    def test_the_order_of_a_journal_is_nothing(self):
        other = [*foreign(self.updates[1]), *foreign(self.updates[0], b'"Ada" \\'), *foreign(self.updates[3], b"\0two")]
        for it in (2, 5, 4, 7, 6):
            other += foreign(self.updates[it], *[b"one"] * (it == 2), *[b"v"] * (it == 5))
        self.notes()
        self.put("journal", journal(b"\1\0\2" + BIRTH[3:], *other))
        os.rename(self.path("notes"), self.path("before"))
        self.notes()
        self.assertEqual(self.lines("notes"), self.lines("before"))

    def test_groups_of_keys(self):
        self.put("journal", journal(BIRTH, *(it for at in range(40) for it in own(update(1, at, at + 1, b"%02d" % at, b"v"), b"v"))))
        self.notes()
        self.assertEqual(self.renew("script", "journal", "notes", "script")[1].splitlines()[1], "40 keys in 3 statements")
        self.assertEqual([it.count("=") for it in self.lines("script")], [16, 16, 8])

    def test_words_and_files(self):
        self.assertEqual(run_tool("renew.py")[0], 1)
        self.assertEqual(run_tool("renew.py", "--help")[0], 0)
        self.assertEqual(run_tool("renew.py", "notes", self.path("journal"))[0], 1)
        self.assertEqual(self.renew("notes", "absent", "notes")[0], 3)
        self.notes()
        self.assertEqual(self.renew("notes", "journal", "notes")[0], 3)
        self.put("log", data_of("examples", "notes.log"))
        for name in ("log", "notes"):
            status, _, why = self.renew("notes", name, "other")
            self.assertEqual((status, "isn't in its form" in why), (2, True))


if __name__ == "__main__":
    unittest.main()
