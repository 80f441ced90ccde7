"""Scripts, `tools/script.py`: what lines put, how far a script went, and which files it may name and store over."""

import os
import unittest

from cases import f, frame, journal
from runs import Runs

import script
from guard import Place


class Lines(unittest.TestCase):
    """What a line puts, beside what an own update of the journal holds."""

    def test_lines(self):
        self.assertEqual(script.key_and_values("put 6b -"), [("6b", "")])
        self.assertEqual(script.key_and_values("puts 61!,62=32,6c=-"), [("61", None), ("62", "32"), ("6c", "")])
        self.assertEqual(script.key_and_values("receipt " + "0a" * 32), [((b"receipt:" + b"\n" * 32).hex(), "")])
        for line in ["get 6b", "hello h", "put 6b", "puts", "", "settled " + "0a" * 32 + " 2"]:
            self.assertIsNone(script.key_and_values(line))

    def test_receipts_that_were_not_given(self):
        def own(key):
            return f.OwnPut(f.Update(1, 0, 1, f.NO_UPDATE, [f.Write(key, f.sha256(b""), 0)], [], f.sha256(), b""), [b""])

        lines = ["receipt " + "0a" * 32, "get 6b", "receipt " + "0b" * 32, "put 6b -", "put 6c -"]
        for keys, done in [([], 0), ([b"receipt:" + b"\x0b" * 32], 3), ([b"k"], 4), ([b"receipt:" + b"\x0a" * 32, b"k", b"l"], 5)]:
            self.assertEqual(script.place_in(lines, Place(), [own(key) for key in keys]), done)
        for key in (b"l", b"receipt:" + b"\x0c" * 32):
            with self.assertRaises(script.Refused):
                script.place_in(lines, Place(), [own(key)])

    def test_signatures(self):
        def own(key, value):
            return f.OwnPut(f.Update(1, 0, 1, f.NO_UPDATE, [f.Write(key, f.sha256(value), len(value))], [], f.sha256(), b""), [value])

        text = own(f.checkpoint_key(b"text"), b"text")
        lines = ["sign u", "trim u", "sign v", "put 6b -", "checkpoint w", "get 6b", "put 6c -"]
        for puts, done in [([], 0), ([text], 1), ([own(b"k", b"")], 4), ([text, own(b"k", b"")], 4), ([text, text, own(b"k", b"")], 4),
                           # A checkpoint whose line wasn't told of is made again, for its file; not where what follows it was put.
                           ([own(b"k", b""), text], 4), ([own(b"k", b""), text, own(b"l", b"")], 7)]:
            self.assertEqual(script.place_in(lines, Place(), puts), done)
        self.assertEqual(script.place_in(lines, Place(done=5, puts=1), [text]), 5)
        for wrong in [own(f.checkpoint_key(b"text"), b"other"), own(b"checkpoint:", b"text"), own(b"l", b"")]:
            with self.assertRaises(script.Refused):
                script.place_in(lines[:5], Place(), [wrong])

    def test_several_writes(self):
        writes = [f.Write(b"a", None, None), f.Write(b"b", f.sha256(b"2"), 1), f.Write(b"l", f.sha256(b""), 0)]
        update = f.Update(1, 0, 1, f.NO_UPDATE, writes, [], f.sha256(), b"")
        self.assertEqual(script.written_by(f.OwnPut(update, [b"2", b""])), script.key_and_values("puts 61!,62=32,6c=-"))


class Files(Runs):
    """Files of the run itself, and those that a line would store over."""

    def test_files_of_the_node_itself(self):
        os.symlink("depot.journal", self.path("one", "link"))
        for name in ["depot.journal", "./depot.journal", "../one/depot.journal", "link", "depot.journal.kept", "../seed.node-1.kept"]:
            self.write("bad", b"put 6b 61\nhello %s\n" % name.encode())
            self.refused("which is the node's own", "--first", script="bad")

    def test_files_that_nothing_may_store_over(self):
        os.mkdir(self.path("two"))
        stores = ["hello ../seed", "bundle ../h ../roster", "export ../bad", "checkpoint ../two/depot.journal"]
        for line in stores + ["hello ../two/depot.journal.kept", "hello ../two/depot.journal.lock"]:
            self.write("bad", line.encode() + b"\n")
            self.refused("stores over", "--first", script="bad")
        self.write("good", b"take ../seed\nbundle ../two/depot.journal ../out\nhello a\0b\nhello ../no/file\nhello ../one\n")
        self.assertEqual(self.run_node("--first", script="good")[0], 0)

    def test_one_file_under_two_words(self):
        """`bundle` reads its hello first, and then would store over it."""
        self.write("hello", b"\1\3hello")
        os.link(self.path("hello"), self.path("same"))
        for words in ("../hello ../hello", "../hello ../one/../hello", "../hello ../same"):
            self.write("bad", b"bundle %s\n" % words.encode())
            self.refused("the hello would be gone", "--first", script="bad")
        self.assertEqual(self.read("hello"), b"\1\3hello")

    def test_files_that_would_be_lost(self):
        """Nothing is stored over what is none of the kind: a neighbour's files, by whatever name, and documents."""
        os.mkdir(self.path("two"))
        lost = {
            "seed2": b"02" * 32, "seed2.node-2.kept": b"length 1\n", "roster2": f.roster_text([f.Member(2, 8, bytes(32))]),
            "two/depot.journal": journal(b"\1\0\2" + bytes(32)), "notes": b"put \"k\" \"v\"\n", "proof": b"\1\1" + f.number(4, 120),
            "empty": journal(),
        }
        for name, data in lost.items():
            self.write(name, data)
            os.link(self.path(name), self.path("hard"))
            os.symlink(self.path(name), self.path("soft"))
            for stored in ("hard", "soft", name):
                for line in ("hello ../%s", "bundle ../h ../%s", "export ../%s", "checkpoint ../%s"):
                    self.write("bad", (line % stored).encode() + b"\n")
                    self.refused("line 1 of the script ", "--first", script="bad")
            self.assertEqual(self.read(name), data)
            os.remove(self.path("hard"))
            os.remove(self.path("soft"))

    def test_kinds(self):
        """A file of one kind may be stored over by one of its own, also where a stop left a front of it, and by no other."""
        stream = frame(2, b"statement")
        kinds = {"hello": b"\1\3\0\1", "bundle": stream, "export": b"\1\5\0\1", "checkpoint": b"\1\6\0\1"}
        for verb, data in [*kinds.items(), ("bundle", frame(1, b"proof")), ("bundle", frame(4, b"\0")), ("bundle", stream[:3])]:
            self.write("old", data)
            for other in kinds:
                line = "%s%s ../old" % (other, " ../hello" if other == "bundle" else "")
                if other == verb:
                    script.refuse_files([line], self.path("one"), [], [])
                    continue
                with self.assertRaisesRegex(script.Refused, "would store .* over ../old, which is "):
                    script.refuse_files([line], self.path("one"), [], [])

    def test_what_nothing_is_lost_with(self):
        """An empty file, a pipe, a device, and a file of which only the first byte was stored."""
        self.write("none", b"")
        self.write("byte", b"\1")
        os.mkfifo(self.path("pipe"))
        for name in ("../none", "../byte", "../pipe", "/dev/null", "../absent", "../seed/x", "x" * 300):
            for line in ("hello %s", "bundle ../h %s", "export %s", "checkpoint %s"):
                script.refuse_files([line % name], self.path("one"), [], [])

    def test_frames_begin(self):
        for head, kinds in [(b"\2\0\2\0\0", [script.STREAM]), (b"\2\0\2\0\1", []), (b"\5\0\0\0\1", []), (b"\0", []), (b"\4", [script.STREAM]),
                            (b"\1\0\0\0\x23\1", [script.JOURNAL]), (b"\1\0\0\0\x23\2", [script.STREAM]), (b"01", [])]:
            self.assertEqual(script.kinds_of(head), kinds)


if __name__ == "__main__":
    unittest.main()
