"""The guard `tools/guard.py`, by the runner: which journals it refuses, and what it remembers, where, of which journal."""

import contextlib
import fcntl
import os
import shutil
import subprocess
import unittest

from cases import HERE, f, journal, named, update_body
from runs import SCRIPT, TOLD, Runs

import guard as g


class Journals(Runs):
    def test_a_first_run_wants_to_be_told(self):
        self.refused("takes --first")
        self.assertEqual(self.run_node("--first")[:2], (0, TOLD))
        self.refused("is there already, with statements of the node", "--first")

    def test_a_journal_that_is_gone(self):
        self.run_node("--first")
        os.remove(self.path("one", "depot.journal"))
        for options in ((), ("--first",)):
            self.changes_no_note("there is no %s, and by" % self.path("one", "depot.journal"), *options)
        self.write("one/depot.journal", b"")
        for options in ((), ("--first",)):
            self.changes_no_note("depot.journal has 0 bytes, and no record, and by", *options)

    def test_a_folder_that_is_absent(self):
        self.refused("there is no folder", "--first", folder="three")

    def test_a_journal_without_bytes(self):
        self.write("one/depot.journal", b"")
        self.refused("depot.journal has 0 bytes, and no record: is this the node's folder?")
        self.assertEqual(self.run_node("--first")[:2], (0, TOLD))

    def test_a_folder_that_is_set_back_whole(self):
        self.run_node("--first")
        shutil.copytree(self.path("one"), self.path("backup"))
        self.run_node()
        for options in ((), ("--check",)):
            self.changes_no_note("seed.node-1.kept it had", *options, folder="backup")
        self.assertEqual(self.run_node()[0], 0)

    def test_a_first_run_in_another_folder(self):
        self.run_node("--first")
        os.mkdir(self.path("two"))
        self.refused("seed.node-1.kept the node had one", "--first", folder="two")
        self.assertEqual(os.listdir(self.path("two")), [])

    def test_a_seed_from_a_pipe_has_nothing_beside_it(self):
        command = 'cat "$0" | "$@" | cat'
        words = [it if it != self.path("seed") else "/dev/stdin" for it in self.words("--first")]
        subprocess.run(["bash", "-c", command, self.path("seed"), *words], stdout=subprocess.PIPE)
        self.assertEqual((self.puts(), list(self.notes())), ([0, 1, 2], ["one/depot.journal.kept"]))

    def test_a_file_that_is_no_journal(self):
        self.write("one/depot.journal", b"my notes")
        self.refused("doesn't begin with 01")
        self.write("one/depot.journal", b"\1my notes")
        self.refused("doesn't begin with the birth of a node")

    def test_an_old_copy(self):
        self.run_node("--first")
        old = self.journal()
        self.run_node()
        self.write("one/depot.journal", old)
        self.changes_no_note("an old copy")

    def test_a_closed_gate(self):
        self.run_node("--first")
        last = f.read_journal(self.journal()).records[-1].gate
        self.write("one/depot.journal", self.journal()[:last] + b"\0" + self.journal()[last + 1 :])
        self.changes_no_note("a damaged gate")

    def test_another_journal(self):
        self.run_node("--first")
        other = bytearray(self.journal())
        other[60] ^= 1
        self.write("one/depot.journal", bytes(other))
        self.changes_no_note("isn't the journal that was here")

    def test_a_damaged_journal(self):
        self.run_node("--first")
        self.write("one/depot.journal", self.journal()[:-1])
        self.changes_no_note("no whole record follows")

    def test_a_second_run(self):
        for name in (self.path("one", "depot.journal.lock"), self.path("seed")):
            with open(name, "a") as held:
                fcntl.flock(held, fcntl.LOCK_EX)
                self.refused("another run works", "--first")


class Mistakes(Runs):
    """Words that are mistyped change no note and forget no place: that of a script that stopped is found by the right ones."""

    def setUp(self):
        """Two nodes beside one another, the first with the longer journal and a script that stopped."""
        super().setUp()
        self.write("seed2", b"02" * 32 + b"\n")
        self.write("short", b"put 6b 61\n")
        self.write("other", f.roster_text([f.Member(1, 8, bytes(32)), f.Member(2, 8, b"3" * 32)]))
        os.mkdir(self.path("two"))
        self.run_node("--first", folder="two", seed="seed2", id="2", script="short")
        self.run_node("--first", stop="told 3")

    def tearDown(self):
        """Both nodes go on, each where it was."""
        self.assertEqual(self.run_node()[:2], (0, "".join(TOLD.splitlines(True)[3:])))
        self.assertEqual(self.run_node(folder="two", seed="seed2", id="2", script="short")[:2], (0, "put 6b -> 1/2\n"))

    def test_the_folder_of_a_neighbour(self):
        for options in ((), ("--anew",), ("--check",), ("--first",)):
            told = "one/depot.journal is that of node 1, and this is node 2"
            self.changes_no_note(told, *options, seed="seed2", id="2")
        self.changes_no_note("two/depot.journal is that of node 2, and this is node 1", folder="two")

    def test_the_number_of_a_neighbour(self):
        self.changes_no_note("is that of node 1, and this is node 2", id="2")

    def test_another_roster(self):
        right, wrong = (f.sha256(self.read(name)).hex()[:16] for name in ("roster", "other"))
        told = "one/depot.journal was begun under the roster %s, and %s is %s" % (right, self.path("other"), wrong)
        for options in ((), ("--anew",), ("--check",)):
            self.changes_no_note(told, *options, roster="other")
        self.changes_no_note("is there already, with statements of the node", "--first", roster="other")

    def test_another_seed(self):
        before = self.notes()
        for options in ((), ("--anew",)):
            status, out, _ = self.run_node(*options, seed="seed2", stop="identity 0")
            self.assertEqual((status, out), (10, "identity OtherKey\n"))
        self.write("third", b"put 6b 61\n")
        self.assertEqual(self.run_node("--anew", seed="seed2", script="third", stop="identity 0")[0], 10)
        self.assertEqual(self.notes(), before)

    def test_a_note_of_another_journal(self):
        """Node 2's note, brought to node 1, is neither believed there nor written over."""
        shutil.copy(self.path("one", "depot.journal.kept"), self.path("kept"))
        shutil.copy(self.path("two", "depot.journal.kept"), self.path("one", "depot.journal.kept"))
        self.changes_no_note("one/depot.journal.kept is of a journal of node 2 under the roster")
        os.replace(self.path("kept"), self.path("one", "depot.journal.kept"))


class Copies(Runs):
    """Two journals of one node."""

    def test_two_copies_at_one_moment(self):
        self.run_node("--first")
        shutil.copytree(self.path("one"), self.path("copy"))
        environ = dict(os.environ, STOP="slow 15")
        runs = [subprocess.Popen(self.words(folder=it), env=environ, stdout=subprocess.PIPE, stderr=subprocess.PIPE) for it in ("one", "copy")]
        told = [run.communicate() for run in runs]
        self.assertEqual(sorted(run.returncode for run in runs), [0, 71])
        refused = 0 if runs[0].returncode else 1
        self.assertIn("another run works with the seed", told[refused][1].decode())
        folders = ("one", "copy")
        self.changes_no_note("an old copy", folder=folders[refused])
        self.assertEqual(self.run_node(folder=folders[1 - refused])[0], 0)

    def test_two_notes_of_one_length(self):
        """Two copies of folder and seed were run apart; then the notes meet."""
        self.run_node("--first")
        shutil.copytree(self.path("one"), self.path("copy"))
        shutil.copy(self.path("seed"), self.path("seed2"))
        shutil.copy(self.path("seed.node-1.kept"), self.path("seed2.node-1.kept"))
        self.run_node()
        self.write("script", SCRIPT.replace("61", "77").encode())
        self.run_node(folder="copy", seed="seed2")
        self.assertEqual(*(len(self.read(it, "depot.journal")) for it in ("one", "copy")))
        self.changes_no_note("two journals were run with this seed", folder="copy")
        shutil.copy(self.path("seed2.node-1.kept"), self.path("seed.node-1.kept"))
        self.changes_no_note("two journals were run with this seed")
        self.changes_no_note("two journals were run with this seed", "--check")

    def test_a_note_of_a_shorter_journal(self):
        """The other journal is behind this one; they differ all the same."""
        self.run_node("--first")
        shutil.copytree(self.path("one"), self.path("copy"))
        shutil.copy(self.path("seed"), self.path("seed2"))
        self.write("short", b"put 6e 6e\n")
        self.run_node(folder="copy", seed="seed2", script="short")
        self.run_node()
        shutil.copy(self.path("seed2.node-1.kept"), self.path("seed.node-1.kept"))
        self.changes_no_note("two journals were run with this seed")


class Notes(Runs):
    """What is remembered, and where, also where a file can't be written."""

    def block(self, name):
        """Nothing can be written under this name, as where the disk is full or the folder is read-only."""
        os.mkdir(self.path(name + ".new"))

    def test_a_note_beside_the_journal_that_fails(self):
        """A full disk, and then the folder's backup is put back."""
        self.run_node("--first")
        shutil.copytree(self.path("one"), self.path("backup"))
        self.block("one/depot.journal.kept")
        status, _, errors = self.run_node()
        self.assertEqual((status, errors.count("one/depot.journal.kept can't be written: Is a directory")), (0, 1), errors)
        self.changes_no_note("seed.node-1.kept it had", folder="backup")
        self.assertEqual(self.run_node("--check")[0], 72)

    def test_a_note_beside_the_seed_that_fails(self):
        """A secret in a folder that nobody may write to."""
        self.block("seed.node-1.kept")
        status, out, errors = self.run_node("--first")
        self.assertEqual((status, out), (0, TOLD))
        for said in ("seed.node-1.kept can't be written", "a node's folder that was put back is refused", "Let this user write in"):
            self.assertEqual(errors.count(said), 1, errors)
        old = self.journal()
        self.assertEqual(self.run_node()[0], 0)
        self.write("one/depot.journal", old)
        self.refused("an old copy")

    def test_no_note_can_be_written(self):
        self.block("one/depot.journal.kept")
        self.block("seed.node-1.kept")
        self.refused("nothing can remember how long the journal is", "--first")
        self.assertNotIn("depot.journal", os.listdir(self.path("one")))

    def test_damaged_notes(self):
        self.run_node("--first")
        self.write("one/depot.journal.kept", b"")
        status, _, errors = self.run_node()
        self.assertEqual((status, "depot.journal.kept can't be read: so" in errors), (0, True), errors)
        for name in ("one/depot.journal.kept", "seed.node-1.kept"):
            self.write(name, b"length x\n")
        self.changes_no_note("can't be read, so nothing says whether")
        os.remove(self.path("one", "depot.journal"))
        self.changes_no_note("can't be read", "--first")

    def test_notes_of_an_earlier_version(self):
        self.run_node("--first", stop="told 3")
        for name, text in self.notes().items():
            lines = [it for it in text.decode().splitlines(True) if it.split()[0] in ("length", "puts", "done", "hash", "script", "front")]
            self.write(name, "".join(lines).encode())
        self.assertEqual(self.run_node()[:2], (0, "".join(TOLD.splitlines(True)[3:])))
        self.assertIn(b"node 1\nroster ", self.read("seed.node-1.kept"))

    def stopped_run(self, name, puts, stop=""):
        """A run of a script from its first line that is killed before it notes; with `stop`, once the program did that."""
        guard = g.Guard(self.path("one"), g.Owner(1, f.sha256(self.read("roster"))), self.path("seed"))
        guard.begin()
        before = self.notes()
        guard.now.place = g.Place(f.sha256(self.read(name)).hex(), "-", 0, puts)
        guard.prepare()
        guard.close()
        if stop:
            words = [os.path.join(HERE, "stand_in.py"), "node", self.path("roster"), "", "8", "1", self.path(name)]
            subprocess.run(words, cwd=self.path("one"), env=dict(os.environ, STOP=stop))
        self.assertEqual({name: text for name, text in self.notes().items() if not name.endswith(".new")}, before)

    def test_a_run_that_was_stopped_before_it_noted(self):
        """The runner is killed once the first put of a script stands: it isn't put again, also behind a look, and a run that did nothing."""
        self.write("next", b"put 70 70\nput 71 71\n")
        self.write("look", b"get 70\n")
        for between in ([], ["look"], ["nothing"], ["nothing", "look"]):
            with self.subTest(between=between):
                self.begin_anew()
                self.run_node("--first")
                self.stopped_run("next", 3, "put 1")
                for name in between:
                    if name == "look":
                        self.assertEqual(self.run_node(script="look")[0], 0)
                    else:
                        self.stopped_run("next", 4)
                self.assertEqual(self.run_node(script="next")[:2], (0, "put 71 -> 4/5\n"))

    def test_a_run_that_was_stopped_before_it_did_anything(self):
        """What it meant to do isn't remembered, so the place of the script that stopped before stays."""
        self.run_node("--first", stop="told 3")
        self.write("next", b"put 70 70\n")
        self.stopped_run("next", 2)
        self.assertEqual(self.run_node()[:2], (0, "".join(TOLD.splitlines(True)[3:])))


class Checks(Runs):
    def test_a_check(self):
        self.refused("there is no", "--check")
        self.assertEqual(os.listdir(self.path("one")), [])
        self.run_node("--first")
        good = "the journal is good: %d bytes, 3 own updates\n" % (len(self.journal()) - 1)
        self.assertEqual(self.run_node("--check")[:2], (0, good))
        self.refused("there is no seed", "--check", seed="absent")

    def test_what_a_note_lacks(self):
        self.run_node("--first")
        old = self.notes()
        self.run_node()
        for name in ("one/depot.journal.kept", "seed.node-1.kept"):
            new = self.read(name)
            self.write(name, old[name])
            status, out, _ = self.run_node("--check")
            self.assertEqual((status, "%s is behind" % name in out), (72, True), out)
            os.remove(self.path(name))
            status, out, _ = self.run_node("--check")
            self.assertEqual((status, "%s isn't there" % name in out), (72, True), out)
            self.assertNotIn(name, self.notes())
            self.write(name, new)
        self.assertEqual(self.run_node("--check")[0], 0)

    def test_by_the_folder_alone(self):
        self.run_node("--first")
        ran = subprocess.run(self.words("--check")[:-4], stdout=subprocess.PIPE)
        self.assertEqual((ran.returncode, b"it wasn't held against a note beside the seed" in ran.stdout), (72, True))
        for name in self.notes():
            os.remove(self.path(name))
        status, out, _ = self.run_node("--check")
        self.assertEqual((status, out.startswith("the journal is whole: ")), (72, True), out)

    def test_beside_a_run(self):
        """A check says that a run is under way, and keeps none out."""
        self.run_node("--first")
        with open(self.path("one", "depot.journal.lock")) as held:
            fcntl.flock(held, fcntl.LOCK_EX)
            self.refused("another run works in the folder", "--check")


class Firsts(Runs):
    """A first run over a journal that has no statement of the node: nothing is lost with it."""

    def begin_under(self, roster):
        """A journal that was begun under this roster, as a first run leaves it that did nothing else."""
        self.write("one/depot.journal", journal(b"\1" + f.number(2, 1) + f.sha256(self.read(roster))))

    def test_a_wrong_roster(self):
        self.write("other", f.roster_text([f.Member(1, 8, b"9" * 32)]))
        self.begin_under("other")
        self.refused("--first begins it anew")
        status, out, errors = self.run_node("--first")
        aside = "depot.journal.of-roster-%s" % f.sha256(self.read("other")).hex()[:16]
        self.assertEqual((status, out, aside in errors), (0, TOLD, True), errors)
        self.assertIn(aside, os.listdir(self.path("one")))
        self.assertEqual(self.run_node()[0], 0)

    def test_a_wrong_roster_and_then_a_wrong_seed(self):
        """The first run that is refused once more leaves the way open."""
        self.write("other", f.roster_text([f.Member(1, 8, b"9" * 32)]))
        self.write("nothing", b"")
        self.assertEqual(self.run_node("--first", roster="other", script="nothing")[0], 0)
        self.assertEqual(self.run_node("--first", stop="identity 0")[0], 10)
        self.refused("takes --first" if not os.path.exists(self.path("one", "depot.journal")) else "--first begins it anew")
        self.assertEqual(self.run_node("--first")[:2], (0, TOLD))

    def test_a_journal_that_was_only_begun(self):
        self.begin_under("roster")
        self.assertEqual(self.run_node("--first")[:2], (0, TOLD))

    def test_the_journal_of_another(self):
        self.begin_under("roster")
        self.refused("is that of node 1, and this is node 2", "--first", id="2")


class Shared(Runs):
    """The guard as a program uses it that holds a node in its own process."""

    def guard(self, folder="one", seed="seed", said=None):
        owner = g.Owner(1, f.sha256(self.read("roster")))
        return g.Guard(self.path(folder), owner, self.path(seed), say=(said if said is not None else []).append)

    def own_put(self, seq):
        body = update_body(named(b"k", b"v"), seq=seq, clock=seq + 1)
        return b"\2" + f.number(4, len(body)) + body + b"v"

    def test_it_goes_on_from_the_runner_and_back(self):
        self.run_node("--first", stop="told 3")
        guard = self.guard()
        guard.begin()
        with self.assertRaisesRegex(g.Unfit, "another run works"):
            self.guard().begin()
        self.refused("another run works")
        guard.note()
        guard.close()
        self.assertEqual(self.run_node()[:2], (0, "".join(TOLD.splitlines(True)[3:])))

    def test_it_remembers_as_the_journal_grows(self):
        records = [b"\1" + f.number(2, 1) + f.sha256(self.read("roster"))]
        guard = self.guard()
        guard.begin(is_first=True)
        for seq in range(3):
            records.append(self.own_put(seq))
            self.write("one/depot.journal", journal(*records))
            guard.note()
        guard.close()
        note = g.note_at(self.path("seed.node-1.kept"))
        self.assertEqual((note.length, note.signed, note.hash), (len(journal(*records)) - 1, 3, guard.journal.hash_of(note.length)))
        self.write("one/depot.journal", journal(*records[:-1]))
        with contextlib.suppress(g.Unfit):
            self.guard().begin()
            self.fail("an old journal was let through")

    def test_a_seed_that_cannot_be_locked(self):
        """Where the file system of the seed knows no locks that is said, and the folder's lock stands."""
        said, real = [], g.fcntl.flock

        def flock(file, how):
            if getattr(file, "name", "") == self.path("seed"):
                raise OSError(9, "Bad file descriptor")
            return real(file, how)

        g.fcntl.flock = flock
        self.addCleanup(setattr, g.fcntl, "flock", real)
        guard = self.guard(said=said)
        guard.begin(is_first=True)
        guard.close()
        self.assertEqual(len(said), 1)
        self.assertIn("seed: Bad file descriptor, so a copy of the folder", said[0])

    def test_texts(self):
        for note in (g.Note(), g.Note(9, "ab", 1, "cd", 2, 3, (4, 65535), g.AGAINST_ME, g.Place("e", "f", 5, 6)), g.Note(alarm="0a" * 32)):
            self.assertEqual(g.read_note(note.text()), note)
        for text in ("", "length 1\n", "length -1\ndone 0\nputs 0\n", "length 1\ndone 0\nputs 0\nalarm fire\n", "length  1\ndone 0\nputs 0\n"):
            with self.assertRaises((KeyError, ValueError)):
                g.read_note(text)


if __name__ == "__main__":
    unittest.main()
