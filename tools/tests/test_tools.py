"""The tools that people call: a roster, a look into files, text both ways, and pictures."""

import os
import re
import tempfile
import time
import unittest
import xml.dom.minidom

from cases import birth, data_of, f, frame, journal, marked, named, own_put, path_of, run_tool, signed, update_body, voucher_body, world
import story  # noqa: E402

BRANCHED = path_of("acceptance", "cases", "node_convicts_a_fork", "after", "two", "depot.journal")
STREAM = path_of("acceptance", "cases", "node_convicts_a_fork", "after", "B")
PROOF = path_of("examples", "fork", "proof")
SCHEDULE = path_of("examples", "fork.schedule")
TRANSCRIPT = b"""update x -> 9/0/1
update y -> 9/1/2
give 1 x -> accepted 2 known 0 refused 0 bare
give 2 y -> accepted 2 known 0 refused 0 bare
get 1 6b -> 9/0/1=61
get 2 6b -> 9/1/2=62
hello 1 a -> convicted 0 leaves 1 wanted 0
bundle 2 a b -> proofs 0 vouchers 1 updates 1 values 1 whole
stop 1 -> armed
give 1 b -> stopped records 5
give 1 b -> accepted 2 known 1 refused 0 whole
get 1 6b -> 9/0/1=61 9/1/2=62
proof p -> SamePrev
judge p -> 9 SamePrev
put 1 6b -> 0/3
get 1 6b -> 1/0/3=63
"""


class InARoom(unittest.TestCase):
    def setUp(self):
        room = tempfile.TemporaryDirectory()
        self.addCleanup(room.cleanup)
        self.room = room.name

    def path(self, name):
        return os.path.join(self.room, name)

    def put(self, name, data):
        with open(self.path(name), "wb") as file:
            file.write(data)
        return self.path(name)


class Roster(InARoom):
    def test_a_roster(self):
        status, out, _ = run_tool("roster.py", self.path("R"), "2:17:" + "22" * 32, "1:2:" + "11" * 32)
        with open(self.path("R"), "rb") as file:
            text = file.read()
        self.assertEqual(text, b"\1\4\0\2" + b"\0\1\2" + b"\x11" * 32 + b"\0\2\21" + b"\x22" * 32)
        self.assertEqual((status, out.replace(" ", "").strip()), (0, f.sha256(text).hex()))
        self.assertEqual(len(out.split()), 16)

    def test_the_roster_of_a_case(self):
        members = f.read_roster(data_of("examples", "fork", "roster"))
        run_tool("roster.py", self.path("R"), *("%d:%d:%s" % (it.node, it.height, it.root.hex()) for it in members))
        with open(self.path("R"), "rb") as file:
            self.assertEqual(file.read(), data_of("examples", "fork", "roster"))

    def test_refusals(self):
        root = "11" * 32
        bad = [[it + root] for it in ("0:2:", "65536:2:", "1:1:", "1:18:", "x:2:", "\u00b2:8:", "\u0661:8:")] + [["1:2:11"], ["1:2:" + "AA" * 32]]
        bad += [["1:2:" + root, "1:3:" + "22" * 32], ["1:2"], [], ["%d:2:%064x" % (it, it) for it in range(1, 258)]]
        bad += [["1:2:" + root, "3:2:" + "22" * 32, "2:2:" + root], ["1:2:" + root, "2:3:" + root]]
        for words in bad:
            self.assertEqual(run_tool("roster.py", self.path("R"), *words)[0], 1)
            self.assertFalse(os.path.exists(self.path("R")))

    def test_what_is_said(self):
        root = "11" * 32
        cases = [
            (["R", "1:2:" + root, "2:2:" + root], "members 1 and 2 have one root"), (["1:2:" + root, "2:2:" + "22" * 32], "OUT is lacking"),
            (["R", "7:2:" + root, "7:2:" + "22" * 32], "member 7 stands twice"),
        ]
        for words, said in cases:
            status, out, why = run_tool("roster.py", *words)
            self.assertEqual((status, out, said in why, why.count("\n")), (1, "", True, 1), why)
        self.assertFalse(os.path.exists("1:2:" + root))

    def test_a_roster_that_stands(self):
        self.put("R", b"as it was")
        self.assertEqual(run_tool("roster.py", self.path("R"), "1:2:" + "11" * 32)[0], 3)


class Look(InARoom):
    def lines(self, *words):
        status, out, _ = run_tool("look.py", *words)
        return status, out.splitlines()

    def test_a_journal(self):
        status, lines = self.lines(BRANCHED)
        self.assertEqual(status, 0)
        self.assertEqual(lines[0], "journal: 5 records, 9350 bytes up to its closed gate, 0 bytes behind it")
        for line in ["0 at 0: birth of node 2, roster 8ef0c1b65289d3d3",
                     "1 at 40: conviction by a proof against node 9, SamePrev: 9/0/1 and 9/1/2",
                     "2 at 4728: voucher 1/0 for 1 updates: 3b01cac0be5ba620",
                     "3 at 6996:   writes \"k\" = \"x\"",
                     "own statements: 0", "convicted: 9", "leaf of writer 9: 3b01cac0be5ba620, 9/0/1",
                     "key \"k\": 9/0/1=\"x\""]:
            self.assertIn(line, lines)

    def test_what_is_left(self):
        roster = path_of("acceptance", "cases", "node_convicts_a_fork", "data", "ROSTER")
        self.assertIn("own statements: 0, 4 of 4 left", self.lines(BRANCHED, "--roster", roster)[1])
        other = self.lines(BRANCHED, "--roster", path_of("examples", "fork", "roster"))[1]
        self.assertIn("own statements: 0, and the roster is another than the journal's", other)

    def test_a_damaged_journal(self):
        damaged = self.put("J", data_of("acceptance", "cases", "node_over_a_long_last_record", "data", "depot.journal"))
        status, lines = self.lines(damaged)
        self.assertEqual((status, lines[0]), (2, "journal: 1 whole records in 40 bytes, and then damage"))
        self.assertEqual(lines[-1], "not in its form: at 40: an open gate stands here, and no whole record follows")

    def test_a_hello_beside_a_journal(self):
        hello = path_of("acceptance", "cases", "node_convicts_a_fork", "after", "H")
        roster = f.read_hello(data_of(hello)).roster
        leaf = "leaf of writer 9: 3b01cac0be5ba620"
        told = self.lines(hello, "--journal", BRANCHED)[1]
        self.assertIn(leaf + ", which the journal has", told)
        self.assertEqual(told[-1], "nothing here shows that the journal is an old copy, which proves nothing")
        one, nine = (journal(b"\1" + f.number(2, node) + roster) for node in (1, 9))
        cases = [
            (one, 0, leaf + ", which the journal lacks"), (nine, 0, leaf + ", which the journal lacks: it is an old copy, never run it"),
            (b"\0" + nine[1:], 0, "the journal has no record up to its first closed gate: where it had any, never run it"),
            (b"", 0, leaf + ", which the journal lacks"), (journal(b"\1\0\11" + bytes(32)), 0, leaf),
            (nine[:-1], 2, "not in its form: %s, at 0: an open gate stands here, and no whole record follows" % self.path("J")),
        ]
        for data, status, said in cases:
            told = self.lines(hello, "--journal", self.put("J", data))
            self.assertEqual((told[0], said in told[1]), (status, True), told)
        other = self.lines(hello, "--journal", self.put("J", journal(b"\1\0\11" + bytes(32))))[1]
        self.assertIn("the journal is of another roster, 0000000000000000, so nothing follows from these leaves", other)

    def test_a_stream_and_its_proof(self):
        self.assertEqual(self.lines(STREAM)[1][0], "stream: 5 frames, whole")
        _, names = self.lines(STREAM, "--proofs", self.path("proofs"))
        self.assertEqual(names, [os.path.join(self.path("proofs"), "node-9-SamePrev-0")])
        with open(names[0], "rb") as file:
            self.assertEqual(file.read(), f.read_stream(data_of(STREAM)).frames[0].payload)
        _, names = self.lines(BRANCHED, "--proofs", self.path("again"))
        with open(names[0], "rb") as file:
            self.assertEqual(f.read_proof(file.read()).kind, "SamePrev")

    def test_the_other_kinds(self):
        self.assertEqual(self.lines(PROOF)[1][0], "proof against node 9, SamePrev: 9/0/1 and 9/1/2")
        self.assertEqual(self.lines(path_of("examples", "fork", "joined.log"))[1][0], "log: 3 updates")
        traced = self.lines(path_of("acceptance", "cases", "node_exports_its_trace", "after", "F"))[1]
        self.assertEqual((traced[0], traced[-2]), ("trace of node 1: 3 records, 4 reads", 'read 3 at 3 records of "l": 1 writes'))
        made = path_of("acceptance", "cases", "node_makes_a_reader", "after", "CHECKPOINT")
        had = path_of("acceptance", "cases", "node_makes_a_reader", "after", "two", "depot.journal")
        shown = self.lines(made, "--journal", had)[1]
        self.assertTrue(shown[0].startswith("checkpoint for the roster "))
        self.assertTrue(len(shown) == 3 and shown[1].startswith("leaf of writer 1: ") and shown[1].endswith(", which the journal has"))
        members = self.lines(path_of("examples", "fork", "roster"))[1][1:]
        self.assertTrue(members[0].startswith("member 1: 4 statements (height 2)"))

    def test_several_writes_and_a_hollow_proof(self):
        body = update_body(b"\2" + marked(b"k", b"abc") + marked(b"l", None), version=2)
        stream = self.put("S", frame(2, signed(body)) + frame(3, b"abc"))
        self.assertIn("0 at 0:   writes \"k\" = \"abc\", \"l\" deleted", self.lines(stream)[1])
        hollow = b"\1\4" + signed(voucher_body(f.sha256(b"x"))) + f.number(4, 1) + b"x"
        told = "proof against node 9, NotUpdate: its voucher 9/0, and a text of 1 bytes that is no update"
        self.assertEqual(self.lines(self.put("P", hollow))[1][0], told)

    def test_a_file_that_cannot_be_read(self):
        for words in ([self.path("absent")], [self.room], [BRANCHED, "--roster", self.path("absent")],
                      [path_of("acceptance", "cases", "node_convicts_a_fork", "after", "H"), "--journal", self.path("absent")]):
            status, _, why = run_tool("look.py", *words)
            self.assertEqual((status, why.count("\n")), (3, 1), why)

    def test_an_empty_file(self):
        told = "journal: 0 records, 0 bytes up to its closed gate, 0 bytes behind it"
        self.assertEqual(self.lines(self.put("E", b""))[1][0], told)

    def test_what_is_nearly_of_a_kind(self):
        roster, hello = data_of("examples", "fork", "roster"), data_of("acceptance", "cases", "node_convicts_a_fork", "after", "H")
        two = data_of(BRANCHED)
        cases = [
            (roster[:6] + b"\1" + roster[7:], "read as a roster, at 6: the height is 1"), (hello[:-1], "read as a hello, at "),
            (hello[:20], "read as a hello, at 4: the roster's hash is cut short"), (data_of(STREAM)[:99], "read as a stream, at 0"),
            (data_of("acceptance", "cases", "node_exports_its_trace", "after", "F")[:-1], "read as a trace, at "),
            (b"\0" + two[1:], "at 0: the first gate is 00, not 01"), (b"\7" + two[1:], "at 0: the first gate is 07, not 01"),
        ]
        for data, said in cases:
            status, lines = self.lines(self.put("N", data))
            self.assertEqual((status, lines[-1].startswith("not in its form: " + said)), (2, True), lines)

    def test_no_kind(self):
        status, lines = self.lines(path_of("README.md"))
        self.assertEqual((status, lines), (2, ["not in its form: it is no roster, hello, journal, proof, stream, trace, checkpoint or log"]))
        told = "not in its form: at 0: the version is 35, and may be 1 to 1"
        self.assertEqual(self.lines("--kind", "hello", path_of("README.md"))[1], [told])


class Text(unittest.TestCase):
    def test_scripts(self):
        notes = '# a note\n\nput "user:1" "\u00c4 x"\r\nput 6b -\nput "k" ""\nput "k" "a\\"\\\\\\n\\x00"\n'
        notes += 'get "user:1"\ntake ../for-one\nputs "b"="2", "a"!, 6c=-\nbundle ../hello ../out\n'
        status, out, _ = run_tool("text.py", "script", data=notes.encode())
        self.assertEqual((status, out.splitlines()), (0, [
            "put 757365723a31 c3842078", "put 6b -", "put 6b -", "put 6b 61225c0a00", "get 757365723a31",
            "take ../for-one", "puts 61!,62=32,6c=-", "bundle ../hello ../out"]))

    def test_files_and_deletions(self):
        """A value may be the bytes of a file, as it is seen from here, and a deletion has a word of its own."""
        with tempfile.NamedTemporaryFile() as file:
            file.write(b"\0\xff")
            file.flush()
            notes = 'put "k" @%s\ndelete "k"\nputs "l"=@%s\nput "k" "@x"\nput "e" @/dev/null\n' % (file.name, file.name)
            status, out, _ = run_tool("text.py", "script", data=notes.encode())
        self.assertEqual((status, out.splitlines()), (0, ["put 6b 00ff", "puts 6b!", "puts 6c=00ff", "put 6b 4078", "put 65 -"]))

    def test_a_file_that_is_too_long(self):
        with tempfile.NamedTemporaryFile() as file:
            file.write(bytes(65537))
            file.flush()
            status, out, why = run_tool("text.py", "script", data=b'put "k" @%s\n' % file.name.encode())
        self.assertEqual((status, out, "at most 65536 bytes, and %s more" % file.name in why), (1, "", True), why)

    def test_the_most(self):
        puts = "puts " + ", ".join('"%d"="v"' % it for it in range(16))
        notes = 'put "k" "%s"\nreceipt %s\nsettled %s 2\n%s\n' % ("v" * 65536, "ab" * 32, "cd" * 32, puts)
        status, out, _ = run_tool("text.py", "script", data=notes.encode())
        self.assertEqual((status, [it.split(" ")[0] for it in out.splitlines()]), (0, ["put", "receipt", "settled", "puts"]))

    def test_bad_notes(self):
        """A faulty line is told with its number, and nothing comes out, so that no front of the script is carried out."""
        cases = [
            ('put "k', "without its end"), ('put "k" "\\q"', "backslash"), ('puts "a"', "KEY=VALUE"), ('puts "a"="b" "c"!', "commas"),
            ("puts =61", "neither text"), ('get "k"x', "apart by blanks"), ('get "k""l"', "apart by blanks"), ('put "k" "a" # note', "takes 2;"),
            ('put "" "a"', "a key has 1 to 255"), ("put - 61", "a key has 1 to 255"), ('put "%s" "a"' % ("k" * 256), "and this one 256"),
            ('put "k" "%s"' % ("v" * 65537), "at most 65536"), ("put user 61", "neither text"), ("put 6B 61", "neither text"), ("get", "takes 1;"),
            ('take "../my file"', "without quotes"), ("say hello", "no command"), ('puts "a"="b", ""!', "a key has"),
            (b'put "k" "\xff"', "UTF-8"), ('puts "b"="1", "a"="2", 62!', "the key 62 stands twice"), ('puts "a"="b", "a"!', 'the key "a" stands twice'),
            ('put "receipt:%s" "a"' % ("i" * 32), "reserved for receipts"), ('puts "checkpoint:%s"!' % ("i" * 32), "reserved for checkpoints"),
            ('delete "receipt:%s"' % ("i" * 32), "reserved for receipts"), ("receipt %s" % ("ab" * 31), "an id is 64 digits"),
            ("settled %s 2" % ("AB" * 32), "an id is 64 digits"), ("puts " + ",".join("%02x!" % it for it in range(17)), "at most 16 keys"),
            ('put "k" @/absent', "/absent can't be read: No such file"),
            ('put @/dev/null "k"', "neither text"), ("delete", "takes 1;"),
        ]
        for line, said in cases:
            line = line if isinstance(line, bytes) else line.encode()
            status, out, why = run_tool("text.py", "script", data=b'put "k" "a"\n' + line + b"\n")
            self.assertEqual((status, out, "line 2" in why, said in why), (1, "", True, True), (line, why))

    def test_answers(self):
        answers = "put 757365723a31 -> 0/1\nget 6b -> 1/0/1=616263 2/0/1! 3/0/1=? 4/0/1= 5/0/1=ff00\n"
        answers += "get 1 6b -> 9/0/1=61\nget 6b ->\nputs -> 0/1\nhello h -> convicted 0 leaves 1 wanted 0\n"
        answers += "tget 6b -> 1/0/1=61\ntget t 6b -> 1/0/1=?\ntget t 6b ->\ntrim ../c -> kept 1 of 2\n"
        answers += " refused 0 5 Missing\nshelf h\n"
        status, out, _ = run_tool("text.py", "answers", data=answers.encode())
        self.assertEqual((status, out.splitlines()), (0, [
            'put "user:1" -> 0/1', 'get "k" -> 1/0/1="abc" 2/0/1! 3/0/1=? 4/0/1="" 5/0/1=ff00',
            'get 1 "k" -> 9/0/1="a"', 'get "k" ->', "puts -> 0/1", "hello h -> convicted 0 leaves 1 wanted 0",
            'tget "k" -> 1/0/1="a"', 'tget t "k" -> 1/0/1=?', 'tget t "k" ->', "trim ../c -> kept 1 of 2",
            " refused 0 5 Missing", "shelf h"]))


def points_of(path):
    """Points of a path of a picture, close together: of a curve by its four points, else of the lines that it is made of."""
    if "C" in path:
        (x0, y0), (x1, y1), (x2, y2), (x3, y3) = [tuple(map(int, it)) for it in re.findall(r"(\d+) (\d+)", path)]
        for at in range(101):
            t = at / 100
            parts = [(1 - t) ** 3, 3 * t * (1 - t) ** 2, 3 * t * t * (1 - t), t**3]
            yield sum(a * b for a, b in zip(parts, (x0, x1, x2, x3))), sum(a * b for a, b in zip(parts, (y0, y1, y2, y3)))
        return
    words = path.split()
    x, y = int(words[1]), int(words[2])
    for way, number in zip(words[3::2], map(int, words[4::2])):
        here = x if way == "H" else y
        for at in range(min(here, number), max(here, number) + 1):
            yield (at, y) if way == "H" else (x, at)
        x, y = (number, y) if way == "H" else (x, number)


class Picture(InARoom):
    def drawn(self, *words):
        """The texts that a picture shows, and how many boxes and arrows it has."""
        status, out, why = run_tool("picture.py", *words)
        self.assertEqual((status, why), (0, ""))
        svg = xml.dom.minidom.parseString(out)
        texts = [it.firstChild.data for it in svg.getElementsByTagName("text") if it.firstChild]
        return texts, len(svg.getElementsByTagName("g")), out.count("marker-end")

    def test_a_journal_with_a_fork(self):
        texts, boxes, arrows = self.drawn(BRANCHED)
        self.assertEqual((boxes, arrows), (2, 0))
        for said in ["node 9 is convicted: SamePrev", "9/0/1", "9/1/2", "branch 2", "SamePrev",
                     "vouched by 1", "known from a proof"]:
            self.assertIn(said, texts)

    def test_a_schedule(self):
        texts, boxes, arrows = self.drawn("--schedule", SCHEDULE, self.put("T", TRANSCRIPT))
        self.assertEqual((boxes, arrows), (3, 2))
        for said in ["the schedule fork.schedule", "node 9 is convicted: SamePrev at 1", "1/0/3", '"k" = "c"', "at 1, 2", "SamePrev"]:
            self.assertIn(said, texts)

    def test_the_picture_of_the_tutorial(self):
        self.assertIn(TRANSCRIPT, data_of("docs", "TUTORIAL.md"))
        out = run_tool("picture.py", "--schedule", SCHEDULE, self.put("T", TRANSCRIPT))[1]
        self.assertEqual(out.encode(), data_of("docs", "fork.svg"))

    def schedules(self):
        """The schedules of acceptance/ that are played to their end, and their transcripts."""
        for name in sorted(os.listdir(path_of("acceptance", "cases"))):
            schedule, told, status = (path_of("acceptance", "cases", name, it) for it in ("data/schedule", "stdout", "status"))
            if os.path.exists(schedule) and os.path.getsize(schedule) < 20000 and not os.path.exists(status):
                with self.subTest(name=name):
                    yield schedule, told

    def test_all_schedules_of_acceptance(self):
        drawn = [self.drawn("--schedule", schedule, told) for schedule, told in self.schedules()]
        self.assertGreater(len(drawn), 20)

    def test_what_is_told_agrees_with_hellos(self):
        """Of schedules without pieces of texts, and without stops, what a hello says is what the story has."""
        hellos = 0
        for schedule, told in self.schedules():
            with open(schedule) as lines, open(told) as transcript:
                lines, transcript = lines.read(), transcript.read()
            if any("\n%s " % it in lines for it in ("raw", "cut", "flip", "stop")) or "a_convicted_voucher" in schedule:
                continue
            for telling, words, answer in story.told_events(lines, transcript):
                if words[0] == "hello" and answer:
                    node = telling.nodes[words[1]]
                    found = (str(len(node.convicted)), str(len(telling.leaves(node))))
                    self.assertEqual(found, (answer[1], answer[3]))
                    hellos += 1
        self.assertGreater(hellos, 5)

    def test_the_last_ones(self):
        texts, boxes, _ = self.drawn("--last", "1", BRANCHED)
        self.assertEqual((boxes, texts[0].endswith(": the last 1 updates")), (1, True))

    def test_titles(self):
        path = self.put("depot.journal", data_of(BRANCHED))
        os.utime(path, (0, time.mktime((2026, 12, 1, 8, 30, 0, 0, 0, -1))))
        told = "the journal of node 2 (%s/depot.journal, of 2026-12-01 08:30)" % os.path.basename(self.room)
        self.assertEqual(self.drawn(path)[0][0], told)
        self.assertEqual(self.drawn("--title", "before <the> fall", path)[0][0], "before <the> fall")

    def test_receipts_and_checkpoints(self):
        """They are told in words: a receipt by the name of the update that it is for, if that stands in the journal."""
        put = update_body(named(b"k", b"v"))
        id = f.sha256(put)
        keys = [b"receipt:" + id, b"receipt:" + b"\xab" * 32, b"checkpoint:" + b"\xcd" * 32]
        bodies, prev = [put], id
        for seq, key in enumerate(keys, 1):
            bodies.append(update_body(named(key, b"v"), seq=seq, clock=seq + 1, prev=prev))
            prev = f.sha256(bodies[-1])
        texts = self.drawn(self.put("J", journal(birth(), *(own_put(it, b"v") for it in bodies))))[0]
        for said in ["receipt for 1/0/1", "receipt for abababab", "checkpoint cdcdcdcd"]:
            self.assertIn(said, texts)

    def joining(self, writer, *parents):
        """The first update of a writer, who names these."""
        entries = f.number(2, len(parents)) + b"".join(f.number(2, it.writer) + f.number(8, it.clock) + it.id for it in parents)
        clock = 1 + max(it.clock for it in parents)
        return f.read_update(update_body(named(b"k", b"v"), writer=writer, clock=clock, entries=entries))

    def test_no_line_behind_a_box(self):
        """Where updates name others of long before, and a writer has many branches, no line leads through a box."""
        updates = [it for it in world(writers=3, rounds=6, keys=3) if it.writer != 3]
        one, two = ([it for it in updates if it.writer == writer] for writer in (1, 2))
        three = self.joining(3, one[5], two[0])
        updates += [three, self.joining(4, one[1], three), self.joining(5, two[2], three)]
        forked = [update_body(named(b"k", value), writer=9) for value in (b"a", b"b", b"c", b"d")]
        pairs = [sorted([forked[0], it]) for it in forked[1:]]
        records = [b"\4" + signed(it.body) for it in updates] + [b"\4" + signed(it) for it in forked]
        records += [b"\5\1\1" + signed(first) + signed(second) for first, second in pairs]
        out = run_tool("picture.py", self.put("J", journal(birth(), *records)))[1]
        svg = xml.dom.minidom.parseString(out)
        boxes = [tuple(int(it.getAttribute(name)) for name in ("x", "y", "width", "height"))
                 for group in svg.getElementsByTagName("g") for it in group.getElementsByTagName("rect")]
        paths = [it.getAttribute("d") for it in svg.getElementsByTagName("path") if it.getAttribute("fill") == "none"]
        self.assertEqual((len(boxes), sum("V" in it for it in paths) >= 4), (19, True), paths)
        for path in paths:
            through = [box for box in boxes for x, y in points_of(path) if box[0] < x < box[0] + box[2] and box[1] < y < box[1] + box[3]]
            self.assertEqual(through, [], path)
        for line in svg.getElementsByTagName("line"):
            (x1, y1), (x2, y2) = ((int(line.getAttribute("x%d" % it)), int(line.getAttribute("y%d" % it))) for it in (1, 2))
            met = {box for box in boxes for at in range(101) for x, y in [(x1 + (x2 - x1) * at / 100, y1 + (y2 - y1) * at / 100)]
                   if box[0] < x < box[0] + box[2] and box[1] < y < box[1] + box[3]}
            self.assertEqual(len(met), 2, "a line from one box to another one, which meets no third")

    def test_a_damaged_journal(self):
        damaged = path_of("acceptance", "cases", "node_over_a_cut_record", "data", "depot.journal")
        self.assertEqual(run_tool("picture.py", damaged)[0], 2)

    def test_files_without_a_story(self):
        wrong = TRANSCRIPT.replace(b"get 2 6b", b"put 2 6b")
        cases = [
            ([path_of("README.md")], 2), ([self.put("E", b"")], 2), ([self.path("absent")], 3), ([self.room], 3),
            (["--schedule", SCHEDULE, self.put("W", wrong)], 2), (["--schedule", SCHEDULE, self.put("C", TRANSCRIPT[:90])], 2),
            (["--schedule", path_of("README.md"), self.put("T", TRANSCRIPT)], 2), (["--schedule", SCHEDULE, self.path("absent")], 3),
        ]
        for words, status in cases:
            found, out, why = run_tool("picture.py", *words)
            self.assertEqual((found, out, why.count("\n")), (status, "", 1), why)


if __name__ == "__main__":
    unittest.main()
