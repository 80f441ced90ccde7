"""Exchanges over a pipe by `tools/exchange.py`: DEPOT_PROGRAM names the program that the nodes run, else nothing is tried."""

import os
import subprocess
import sys
import unittest

from cases import TOOLS, f
from test_program import PROGRAM, Nodes

TOOL = os.path.join(TOOLS, "exchange.py")
RUBBISH = "import sys; sys.stdout.buffer.write(%r); sys.stdout.flush(); sys.stdin.read()"

# Hands on so many bytes of another program's, each as it comes, and then ends it.
CUT = """
import os, subprocess
run = subprocess.Popen(%r, stdin=0, stdout=subprocess.PIPE)
for _ in range(%d):
    os.write(1, os.read(run.stdout.fileno(), 1))
run.kill()
"""


class Exchange(Nodes):
    def setUp(self):
        super().setUp()
        self.make_members([1, 2], height=2)
        for number in (1, 2):
            self.run_node(number, 'put "k%d" "of %d"' % (number, number), first=True)

    def words(self, number, *options):
        """The words that run one side."""
        words = [sys.executable, "-B", TOOL, "--folder", self.path(str(number)), "--program", PROGRAM, *options]
        return words + [self.path("roster"), self.path("seed%d" % number), str(number)]

    def call(self, number, *options, other=2, answering=(), command=None):
        """A call of a node to another one, or to a command: its status, its lines, and what was said."""
        command = command or self.words(other, "--answer", *answering)
        words = [*self.words(number, *options), "--", *command]
        ran = subprocess.run(words, stdout=subprocess.PIPE, stderr=subprocess.PIPE, timeout=60)
        return ran.returncode, ran.stdout.decode().splitlines(), ran.stderr.decode()

    def test_both_sides_take(self):
        """An exchange that is cut off is made up for by the next one."""
        answering = self.words(2, "--answer")
        for count in (10, 60, 1500):
            status, _, why = self.call(1, command=[sys.executable, "-c", CUT % (answering, count)])
            self.assertEqual((status, "exchange: " in why), (75, True), count)
        both = ["node 1 took: accepted 2 known 0 refused 0 whole", "node 2 took: accepted 2 known 0 refused 0 whole"]
        self.assertEqual(self.call(1), (0, both, ""))
        self.assertEqual(self.call(1)[1], [it.replace("accepted 2", "accepted 0") for it in both])
        for number, other in ((1, 2), (2, 1)):
            told = self.run_node(number, 'get "k%d"' % other)[1]
            self.assertEqual(told, ['get "k%d" -> %d/0/1="of %d"' % (other, other, other)])

    def test_what_is_no_other_side(self):
        for sent, told in [
            (b"Last login: today\nhello\n", "isn't tools/exchange.py --answer"),
            (b"depot exchange 1\n" + f.number(4, 172_621), "announced a hello of 172621 bytes"),
            (b"depot exchange 1\n" + f.number(4, 3) + b"abc", "sent no hello"),
            (b"depot", "the time of an exchange is over"),
        ]:
            status, lines, why = self.call(1, "--seconds", "3", command=[sys.executable, "-c", RUBBISH % sent])
            self.assertEqual((status, lines, told in why), (75, [], True), why)
        status, _, why = self.call(1, answering=["--peer", "3"])
        self.assertEqual((status, "the hello is of node 1, and the peer is node 3" in why), (75, True))
        status, _, why = self.call(1, "--peer", "3")
        self.assertEqual((status, "the hello is of node 2, and the peer is node 3" in why), (75, True))
        os.remove(self.path("1/depot.journal"))
        status, _, why = self.call(1)
        self.assertEqual((status, "the run of node 1 ended with 71" in why), (71, True))

    def test_who_does_not_move_is_not_sent_the_same_again(self):
        """A run that loses what it took, as one that can't take it, comes with the same hello."""
        last = ["--last", self.path("last-of-1")]
        self.assertEqual(self.call(1, answering=last)[1][0], "node 1 took: accepted 2 known 0 refused 0 whole")
        with open(self.path("last-of-1"), "rb") as file:
            self.assertEqual(len(file.read()), 32)
        self.run_node(2, 'put "k2" "later"')
        command = self.words(2, "--answer", *last)
        stuck = subprocess.run(command, input=self.once_more(), stdout=subprocess.PIPE, stderr=subprocess.PIPE)
        self.assertEqual((stuck.returncode, b"isn't sent the same once more" in stuck.stderr), (0, True))
        os.utime(self.path("last-of-1"), (0, 0))
        moved = subprocess.run(command, input=self.once_more(), stdout=subprocess.PIPE, stderr=subprocess.PIPE)
        self.assertEqual((moved.returncode, len(moved.stdout) > len(stuck.stdout) + 2000), (0, True))

    def once_more(self):
        """What a caller sends whose hello is that of before, and who has nothing."""
        hello = b"\1\3\0\1" + f.sha256(self.data("roster")) + b"\0\0\0\1\0\1" + self.first_of_one() + b"\0\0"
        return f.number(4, len(hello)) + hello + f.number(4, 0)

    def data(self, name):
        with open(self.path(name), "rb") as file:
            return file.read()

    def first_of_one(self):
        return f.updates_of(f.read_journal(self.data("1/depot.journal")).records)[0].id


class Words(unittest.TestCase):
    def test_words(self):
        for words in ([], ["--answer", "r", "s", "1", "--", "cat"], ["r", "s", "1"]):
            ran = subprocess.run([sys.executable, TOOL, *words], stdout=subprocess.PIPE, stderr=subprocess.PIPE)
            self.assertEqual((ran.returncode, ran.stdout), (1, b""))


if __name__ == "__main__":
    unittest.main()
