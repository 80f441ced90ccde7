"""The process: its statuses, its signals, what it tells a supervisor, and the tools that make members."""

import os
import shutil
import signal
import socket
import subprocess
import sys
import tempfile
import time
import unittest

from stand_in import HERE, SERVICE, free_ports
from depot_service.ends import CONFIG, INNER, JOURNAL, LOCKED, OK, PROOF

PATIENCE = 90
STAND_IN, DEPOTD = os.path.join(HERE, "stand_in_depot"), os.path.join(SERVICE, "depotd")


class Case(unittest.TestCase):
    def setUp(self):
        room = tempfile.TemporaryDirectory()
        self.addCleanup(room.cleanup)
        self.room = os.path.join(room.name, "a")
        self.port = free_ports(1, (0, 100))[0]
        self.made = self.tool("make_local", self.room, "8", "1", "--port", str(self.port - 1), "--program", STAND_IN)
        self.config = os.path.join(self.room, "1.conf")
        self.change("[http]\nlisten = 127.0.0.1:%d\n\n" % (self.port + 100), "")

    def tool(self, name: str, *words: str):
        """A run of a tool of the service."""
        return subprocess.run([sys.executable, "-B", os.path.join(SERVICE, name), *words], stdout=subprocess.PIPE, stderr=subprocess.PIPE, universal_newlines=True)

    def change(self, text: str, other: str) -> None:
        """Changes the config."""
        with open(self.config, encoding="utf-8") as file:
            found = file.read()
        self.assertIn(text, found)
        with open(self.config, "w", encoding="utf-8") as file:
            file.write(found.replace(text, other))

    def start(self, *words: str, **more):
        """A service that runs."""
        environ = dict(os.environ, **more)
        found = subprocess.Popen([sys.executable, "-B", DEPOTD, self.config, *words], stderr=subprocess.PIPE, env=environ, universal_newlines=True)
        self.addCleanup(found.wait)
        self.addCleanup(found.stderr.close)
        self.addCleanup(found.kill)
        return found

    def heard(self, running, word: str) -> list:
        """The lines up to one that has a word."""
        lines = []
        for line in running.stderr:
            lines.append(line)
            if word in line:
                return lines
        raise AssertionError("%r isn't said: %s" % (word, lines))

    def ended(self, *words: str, **more):
        """The status of a run that ends by itself, and its lines."""
        running = self.start(*words, **more)
        lines = running.stderr.read().splitlines()
        self.assertFalse([it for it in lines if "Traceback" in it], lines)
        return running.wait(PATIENCE), lines

    def run_well(self, *words: str) -> None:
        """A run that is asked to end once it is ready."""
        running = self.start(*words)
        self.heard(running, "ready")
        running.send_signal(signal.SIGTERM)
        self.assertEqual(running.wait(PATIENCE), OK)


class Ends(Case):
    def test_it_runs_and_ends_when_asked(self):
        for number, words in ((signal.SIGTERM, ["--first"]), (signal.SIGINT, [])):
            running = self.start(*words)
            self.heard(running, "node 1 is ready, with 0 statements")
            running.send_signal(number)
            self.assertEqual(running.wait(PATIENCE), OK)
            self.assertIn("ends with 0", running.stderr.read())

    def test_a_config_that_is_none(self):
        status, lines = self.ended()
        self.assertEqual((status, len(lines)), (CONFIG, 2))
        self.assertIn("--first", lines[0])
        self.change("height = 8", "height = 9")
        self.assertEqual(self.ended("--first")[0], CONFIG)
        self.change("height = 9", "heigth = 9")
        status, lines = self.ended("--first")
        self.assertEqual((status, len(lines)), (CONFIG, 1))

    def test_words_that_are_none(self):
        for words in ([], ["a", "b"], ["--what"]):
            self.assertEqual(self.tool("depotd", *words).returncode, CONFIG)
        self.assertEqual(self.tool("depotd", "--help").returncode, OK)

    def test_the_statuses_of_the_program(self):
        for told, status in (("9 damaged 17", JOURNAL), ("10 identity OtherKey", CONFIG), ("6 nothing", INNER)):
            self.assertEqual(self.ended("--first", STAND_IN=told)[0], status)

    def test_an_end_that_is_asked_for_while_it_starts(self):
        running = self.start("--first", STAND_IN="hang")
        self.heard(running, "hangs")
        running.send_signal(signal.SIGTERM)
        self.assertEqual(running.wait(PATIENCE), OK)
        self.run_well("--first")

    def test_a_second_one_and_an_address_that_is_taken(self):
        running = self.start("--first")
        self.heard(running, "ready")
        self.assertEqual(self.ended()[0], LOCKED)
        running.send_signal(signal.SIGTERM)
        running.wait(PATIENCE)
        with socket.socket() as held:
            held.bind(("127.0.0.1", self.port))
            held.listen(1)
            status, lines = self.ended()
        self.assertEqual(status, LOCKED)
        self.assertIn("can't listen", lines[0])

    def test_a_child_that_dies_ends_the_service_at_once(self):
        running = self.start("--first")
        self.heard(running, "ready")
        with open("/proc/%d/task/%d/children" % (running.pid, running.pid), encoding="ascii") as file:
            child = int(file.read().split()[0])
        os.kill(child, signal.SIGKILL)
        self.assertEqual(running.wait(PATIENCE), INNER)
        self.run_well()

    def test_a_service_that_is_killed_leaves_a_journal_to_go_on_from(self):
        running = self.start("--first")
        self.heard(running, "ready")
        running.kill()
        running.wait(PATIENCE)
        for _ in range(50):  # the child ends at the end of its input
            status, lines = self.ended("--check")
            if status != LOCKED:
                break
            time.sleep(0.1)
        self.assertEqual((status, "is good" in lines[0]), (OK, True))
        self.run_well()

    def test_an_old_or_lost_journal_and_an_alarm_are_never_run(self):
        self.run_well("--first")
        folder = os.path.join(self.room, "member1", "node")
        path = os.path.join(folder, "depot.journal")
        with open(path + ".kept", encoding="ascii") as file:
            note = file.read()
        with open(path + ".kept", "w", encoding="ascii") as file:
            file.write(note.replace("alarm -", "alarm AgainstMe"))
        for words in ([], ["--check"]):
            self.assertEqual(self.ended(*words)[0], PROOF)
        with open(path + ".kept", "w", encoding="ascii") as file:
            file.write(note.replace("length 40", "length 400"))
        for words in ([], ["--check"]):
            self.assertEqual(self.ended(*words)[0], JOURNAL)


class Supervisors(Case):
    def test_it_tells_that_it_is_ready_lives_and_stops(self):
        with socket.socket(socket.AF_UNIX, socket.SOCK_DGRAM) as heard:
            path = os.path.join(self.room, "notify")
            heard.bind(path)
            heard.settimeout(PATIENCE)
            running = self.start("--first", NOTIFY_SOCKET=path, WATCHDOG_USEC="200000")
            self.assertEqual([heard.recv(99) for _ in range(3)], [b"READY=1", b"WATCHDOG=1", b"WATCHDOG=1"])
            running.send_signal(signal.SIGTERM)
            found = heard.recv(99)
            while found == b"WATCHDOG=1":
                found = heard.recv(99)
            self.assertEqual((found, running.wait(PATIENCE)), (b"STOPPING=1", OK))

    def test_one_that_doesnt_listen_is_no_fault(self):
        running = self.start("--first", NOTIFY_SOCKET=os.path.join(self.room, "none"), WATCHDOG_USEC="100000")
        self.heard(running, "ready")
        time.sleep(0.3)
        running.send_signal(signal.SIGTERM)
        self.assertEqual(running.wait(PATIENCE), OK)


class Tools(Case):
    def test_members_on_one_machine(self):
        self.assertEqual((self.made.returncode, self.made.stdout.splitlines()), (0, [self.config]))
        self.assertEqual(os.stat(os.path.join(self.room, "member1", "seed")).st_mode & 0o777, 0o600)
        self.assertEqual(os.stat(os.path.join(self.room, "member1", "key.pem")).st_mode & 0o777, 0o600)
        again = self.tool("make_local", self.room, "8", "1", "--program", STAND_IN)
        self.assertEqual((again.returncode, len(again.stderr.splitlines())), (CONFIG, 1))

    def test_one_member(self):
        folder = os.path.join(self.room, "more")
        made = self.tool("make_member", folder, "7", "12", "--program", STAND_IN)
        lines = made.stdout.splitlines()
        self.assertEqual(lines[0], "for tools/roster.py: 7:12:" + "ab" * 32)
        self.assertRegex(lines[1], "^for the others' \\[peer 7\\]: certificate = [0-9a-f]{64}$")
        told = subprocess.run(["openssl", "x509", "-in", os.path.join(folder, "certificate.pem"), "-noout", "-fingerprint", "-sha256"], stdout=subprocess.PIPE, universal_newlines=True)
        self.assertEqual(told.stdout.strip().split("=")[1].replace(":", "").lower(), lines[1].split()[-1])
        bad = self.tool("make_member", folder + "2", "7", "18")
        self.assertEqual(bad.returncode, 1)
        shutil.rmtree(folder)
        bad = self.tool("make_member", folder, "7", "12", "--program", "/none")
        self.assertEqual((bad.returncode, len(bad.stderr.splitlines())), (CONFIG, 1))


if __name__ == "__main__":
    unittest.main()
