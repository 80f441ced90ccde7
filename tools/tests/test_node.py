"""The runner `tools/node.py`, over a stand-in for the program: how a script goes on, and what is said of faults."""

import fcntl
import os
import shutil
import subprocess
import time
import unittest
from unittest import mock

from cases import f
from runs import SCRIPT, TOLD, Runs

import node
from guard import is_locked


class Words(Runs):
    def test_other_words(self):
        for id in ("0", "65536", "x", "\u0661", "01"):
            self.assertEqual(self.run_node("--first", id=id)[0], 1)

    def test_a_roster_without_the_node(self):
        self.refused("has no node 3", "--first", id="3")

    def test_faults_name_their_file(self):
        self.write("bad", b"p")
        self.refused("bad isn't in its form, at 0", "--first", roster="bad")
        self.write("a roster", f.roster_text([f.Member(1, 8, bytes(32))]))
        self.refused("has a space", "--first", roster="a roster")
        for seed in (b"AB" * 32, b"01" * 31, b"01" * 16 + b"\n" + b"01" * 16, bytes(range(256)), b""):
            self.write("seed", seed)
            self.refused("seed has no seed", "--first")
        self.write("seed", b"01" * 32)
        self.run_node("--first")
        self.write("one/depot.journal", self.journal()[:-1])
        self.refused('one/depot.journal isn\'t in its form, at', "--check")
        self.refused('"A lost journal"')


class Scripts(Runs):
    def goes_on(self, stop, told, rest):
        """A script that stops there tells so many lines, and then the rest."""
        lines = TOLD.splitlines(True)
        self.assertEqual(self.run_node("--first", stop=stop)[:2], (137, "".join(lines[:told])))
        self.assertEqual(self.run_node()[:2], (0, "".join(lines[rest:])))
        self.assertEqual(self.puts(), [0, 1, 2])

    def test_a_stop_behind_each_line(self):
        for told in range(1, 6):
            with self.subTest(told=told):
                self.begin_anew()
                self.goes_on("told %d" % told, told, told)

    def test_a_put_that_stands_and_was_not_told(self):
        for number, told in [(1, 0), (2, 2), (3, 3)]:
            with self.subTest(number=number):
                self.begin_anew()
                self.goes_on("put %d" % number, told, told + 1)

    def test_a_script_that_ended_begins_again(self):
        self.run_node("--first")
        again = TOLD.replace("0/1", "3/4").replace("1/2", "4/5").replace("2/3", "5/6")
        self.assertEqual(self.run_node()[:2], (0, again))

    def test_a_script_that_is_begun_anew(self):
        self.run_node("--first", stop="told 3")
        status, out, _ = self.run_node("--anew")
        self.assertEqual((status, out.splitlines()[0]), (0, "put 6b -> 2/3"))

    def test_a_limit_is_met_again(self):
        lines = TOLD.splitlines(True)
        told = "".join(lines[:2]) + "put 6c -> Spent 4\n"
        self.assertEqual(self.run_node("--first", stop="limit 3")[:2], (8, told))
        self.assertEqual(self.run_node()[:2], (0, "".join(lines[2:])))

    def test_an_update_of_another_script(self):
        self.run_node("--first", stop="told 2")
        kept = ["one/depot.journal.kept", "seed.node-1.kept"]
        for name in kept:
            shutil.copy(self.path(name), self.path(name + ".before"))
        self.write("other", b"put 7a 7a\n")
        self.assertEqual(self.run_node("--anew", script="other")[0], 0)
        for name in kept:
            os.replace(self.path(name + ".before"), self.path(name))
        self.refused("isn't the script's next put")

    def test_a_script_that_was_mended(self):
        """It goes on behind the lines that were done."""
        self.run_node("--first", stop="limit 3")
        self.write("mended", b"put 6b 61\nget 6b\nput 6e 65\n")
        status, out, errors = self.run_node(script="mended")
        self.assertEqual((status, out, self.puts()), (0, "put 6e -> 1/2\n", [0, 1]))
        self.assertIn("goes on with line 3 of 3", errors)

    def test_a_look_between_a_stop_and_the_next_run(self):
        """It keeps the place of the script that stopped, so nothing is put twice."""
        self.run_node("--first", stop="told 3")
        self.write("look", b"take ../absent\nget 6b\nhello ../hello\nbundle ../hello ../out\n")
        for _ in range(2):
            self.assertEqual(len(self.run_node(script="look")[1].splitlines()), 4)
        self.assertEqual(self.run_node(script="look", stop="told 2")[0], 137)
        self.assertEqual(self.run_node()[:2], (0, "".join(TOLD.splitlines(True)[3:])))
        self.assertEqual(self.puts(), [0, 1, 2])

    def test_a_second_script_in_front_of_one_that_stopped(self):
        """It is refused, whatever it puts, but with --anew."""
        self.run_node("--first", stop="told 3")
        for line in ("put 6b 61", "puts 6b=61,6c!", "receipt " + "0a" * 32, "checkpoint ../c", "sign ../c"):
            self.write("second", line.encode() + b"\n")
            self.changes_no_note("another script stopped at line 4", script="second")
        self.write("second", b"put 7a 7a\n")
        self.assertEqual(self.run_node("--anew", script="second")[:2], (0, "put 7a -> 2/3\n"))
        self.assertEqual(self.run_node()[1].splitlines()[0], "put 6b -> 3/4")

    def test_a_look_that_an_earlier_version_gave_a_place(self):
        self.write("look", b"get 6b\nget 6c\n")
        self.run_node("--first")
        mark = f.sha256(self.read("look")).hex()
        for name, text in self.notes().items():
            self.write(name, text.replace(b"script -", b"script " + mark.encode()).replace(b"done 0", b"done 1"))
        self.changes_no_note("another script stopped at line 2")
        self.assertEqual(len(self.run_node(script="look")[1].splitlines()), 2)
        self.assertEqual(self.run_node()[0], 0)

    def test_a_second_script_behind_one_that_did_nothing(self):
        self.run_node("--first", stop="told 1", script="script")
        self.write("faulty", b"put\n")
        self.run_node("--anew", script="faulty", stop="fault 1")
        self.assertEqual(self.run_node()[:2], (0, "".join(TOLD.splitlines(True)[1:])))
        self.write("one script", b"put 61 61\n")
        self.assertEqual(self.run_node(script="one script", stop="limit 1")[0], 8)
        self.assertEqual(self.run_node()[:2][0], 0)

    def test_a_script_of_nothing_keeps_the_place(self):
        self.run_node("--first", stop="told 3")
        for nothing, status in [(b"", 0), (b"put 6b 61", 2)]:
            self.write("nothing", nothing)
            self.assertEqual(self.run_node(script="nothing", stop="fault 1" if status else "")[0], status)
        self.assertEqual(self.run_node()[:2], (0, "".join(TOLD.splitlines(True)[3:])))

    def test_standard_input(self):
        words = self.words("--first")[:-1] + ["-"]
        ran = subprocess.run(words, input=SCRIPT.encode(), stdout=subprocess.PIPE)
        self.assertEqual((ran.returncode, ran.stdout.decode()), (0, TOLD))

    def test_an_output_that_fails(self):
        """The status is 5, nothing is told twice, and the puts that stand aren't put again."""
        for end in (">/dev/full", ">&-", "| true"):
            with self.subTest(end=end):
                self.begin_anew()
                words = ["bash", "-c", '"$@" %s; exit ${PIPESTATUS[0]}' % end, "-", *self.words("--first")]
                ran = subprocess.run(words, stderr=subprocess.PIPE)
                self.assertEqual((ran.returncode, b"Traceback" in ran.stderr), (5, False), ran.stderr)
                begun = os.path.exists(self.path("one", "depot.journal"))
                self.assertEqual(self.run_node(*() if begun else ("--first",))[0], 0)
                self.assertEqual(self.puts(), [0, 1, 2])

    def test_faults_of_the_script_by_its_own_lines(self):
        self.run_node("--first", stop="told 2")
        self.assertEqual(self.run_node(stop="fault 2")[1], "input %s line 4 Hex\n" % self.path("script"))
        self.write("bytes", b"put 6b 61\nhello \xff\n")
        self.assertEqual(self.run_node("--anew", script="bytes", stop="fault 2")[:2], (2, "input %s line 2 Hex\n" % self.path("bytes")))


class Programs(Runs):
    def test_one_that_tells_nothing(self):
        """A program that is none of this repository ends with 0, and did no line."""
        self.run_node("--first", stop="told 3")
        before = self.notes()
        words = self.words("--program", "/bin/true")
        status, out, errors = self.run_words(words)
        self.assertEqual((status, out, "told of 3 lines of 5: is it depot?" in errors), (71, "", True), errors)
        self.assertEqual(self.notes(), before)

    def test_one_that_goes_on_alone(self):
        """The runner is killed while the program starts: no run begins before that ends, and its put isn't put again."""
        with subprocess.Popen(self.words("--first"), env=dict(os.environ, STOP="slow 10"), stdout=subprocess.PIPE) as run:
            self.wait_for(lambda: len(self.notes()) == 2)
            time.sleep(0.3)
            run.kill()
        self.refused("another run works in the folder", "--first")
        self.wait_for(lambda: not is_locked(self.path("one", "depot.journal.lock")))
        self.assertEqual(self.puts(), [0])
        self.assertEqual(self.run_node()[:2], (0, "".join(TOLD.splitlines(True)[1:])))
        self.assertEqual(self.puts(), [0, 1, 2])

    def wait_for(self, what):
        """Waits until something holds, 20 seconds at most."""
        end = time.monotonic() + 20
        while not what() and time.monotonic() < end:
            time.sleep(0.01)
        self.assertTrue(what())

    def test_no_thread(self):
        """The program, which waits for its script, is ended; nothing was changed."""
        with mock.patch("threading.Thread.start", side_effect=RuntimeError("can't start new thread")):
            self.changes_no_note("can't be given its script: can't start new thread", "--first")
        self.assertEqual(self.run_node("--first")[0], 0)

    def test_no_memory(self):
        with mock.patch("node.Script", side_effect=MemoryError):
            self.refused("no memory was found", "--first")

    def test_names_that_the_locale_lacks(self):
        """A name is its bytes, as for the program."""
        environ = dict(os.environ, LC_ALL="C", PYTHONUTF8="0", PYTHONCOERCECLOCALE="0")
        self.write("script", "hello ../gr\u00fcn\nput 6b 61\n".encode())
        for name, status in (("gr\u00fcn", 71), ("gr\u00fcnlich", 0)):
            self.write(name, b"my notes")
            ran = subprocess.run(self.words("--first"), env=environ, stdout=subprocess.PIPE, stderr=subprocess.PIPE)
            self.assertEqual((ran.returncode, b"Traceback" in ran.stderr), (status, False), ran.stderr)
            os.remove(self.path(name))


class Causes(Runs):
    """What is said behind `disk` and `shelf NAME`."""

    def test_files(self):
        cases = [
            ("absent", False, "isn't there"), ("absent", True, None), ("no/file", True, "its folder isn't there"),
            ("link", False, "leads nowhere"), ("one", True, "is a folder"), ("pipe", False, "no regular file"),
            ("large", False, "over 1 GiB"), ("held", True, "has it locked"), ("held", False, None), ("seed", True, None),
        ]
        os.symlink("nowhere", self.path("link"))
        os.mkfifo(self.path("pipe"))
        self.write("held", b"")
        with open(self.path("large"), "wb") as file:
            file.truncate(2**30 + 1)
        with open(self.path("held")) as held:
            fcntl.flock(held, fcntl.LOCK_EX)
            for name, is_stored, said in cases:
                cause = node.cause_at(self.path(name), is_stored)
                self.assertTrue(cause is None if said is None else cause and said in cause, (name, is_stored, cause))

    @unittest.skipIf(os.geteuid() == 0, "who is root has every right")
    def test_rights(self):
        cases = [("seed", False, "no right to read"), ("seed", True, "no right to write"), ("one", True, "write in its folder")]
        for name, is_stored, said in cases:
            os.chmod(self.path(name), 0)
            path = self.path(name) if name == "seed" else self.path(name, "file")
            self.assertIn(said, node.cause_at(path, is_stored))
            os.chmod(self.path(name), 0o700)

    def test_what_is_said(self):
        self.write("script", b"hello ../no/file\ntake ../absent\n")
        for line, said in [(1, "no/file: its folder isn't there"), (2, "absent: it isn't there")]:
            self.assertIn(said, self.run_node("--first", "--anew", stop="shelf %d" % line)[2])
            self.begin_anew()
        status, out, errors = self.run_node("--first", stop="disk 1")
        self.assertEqual((status, out), (4, "disk\n"))
        self.assertIn("depot.journal: a look at it finds no cause", errors)


if __name__ == "__main__":
    unittest.main()
