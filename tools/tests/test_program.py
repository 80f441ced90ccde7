"""The tools beside the program itself, as an operator uses them: DEPOT_PROGRAM names it, else nothing is tried.

Three nodes are made, exchange, and one of them is run on an old copy of its journal; and a client hands in the updates
of docs/CLIENT.md.
"""

import os
import shutil
import subprocess
import sys
import unittest

from cases import ROOT, f, frame, run_tool
from test_client_page import texts
from test_tools import InARoom

sys.path.insert(0, os.path.join(ROOT, "acceptance", "makers"))
import make_cases  # noqa: E402

PROGRAM = os.environ.get("DEPOT_PROGRAM")
HEIGHT = 3


@unittest.skipUnless(PROGRAM, "DEPOT_PROGRAM names no program")
class Nodes(InARoom):
    """Nodes in a room, run by the tools beside the program."""

    def depot(self, *words):
        ran = subprocess.run([PROGRAM, *words], cwd=self.room, stdout=subprocess.PIPE)
        return ran.returncode, ran.stdout.decode()

    def make_members(self, numbers, height=HEIGHT):
        members = []
        for number in numbers:
            seed = ("%02x" % number) * 32
            self.put("seed%d" % number, seed.encode() + b"\n")
            members.append("%d:%d:%s" % (number, height, self.depot("key", seed, str(height))[1].strip()))
            os.mkdir(self.path(str(number)))
        self.assertEqual(run_tool("roster.py", self.path("roster"), *members)[0], 0)

    def run_node(self, number, *lines, first=False, options=()):
        """A run of the guarded node with these lines as text; what it printed as text."""
        script = run_tool("text.py", "script", data="".join(line + "\n" for line in lines).encode())[1]
        words = ["--first"] if first else list(options)
        words += ["--program", PROGRAM, "--folder", self.path(str(number))]
        words += [self.path("roster"), self.path("seed%d" % number), str(number), "-"]
        status, out, why = run_tool("node.py", *words, data=script.encode())
        return status, run_tool("text.py", "answers", data=out.encode())[1].splitlines(), why

    def exchange(self, reader, writer):
        """The reader gets what the writer has."""
        self.run_node(reader, "hello ../hello")
        self.run_node(writer, "bundle ../hello ../stream")
        return self.run_node(reader, "take ../stream")[1]


class Operator(Nodes):
    def test_three_nodes_and_an_old_copy(self):
        self.make_members([1, 2, 3])
        for number in (1, 2, 3):
            told = self.run_node(number, 'put "k" "from %d"' % number, first=True)
            self.assertEqual(told[:2], (0, ['put "k" -> 0/1']))
        self.assertEqual(self.exchange(2, 1), ["take ../stream -> accepted 2 known 0 refused 0 whole"])
        shutil.copy(self.path("1/depot.journal"), self.path("old"))
        self.assertEqual(self.run_node(1, 'put "k" "later"')[1], ['put "k" -> 1/2'])
        self.exchange(3, 1)
        shutil.copy(self.path("old"), self.path("1/depot.journal"))
        status, _, why = self.run_node(1, 'put "k" "again"')
        self.assertEqual((status, "an old copy" in why), (71, True))
        for kept in ("1/depot.journal.kept", "seed1.node-1.kept"):
            os.remove(self.path(kept))
        self.assertEqual(self.run_node(1, 'put "k" "again"')[1], ['put "k" -> 1/2'])
        self.exchange(2, 1)
        told = self.exchange(2, 3)
        self.assertEqual(told[0].split(" refused ")[1], "0 whole")
        self.assertEqual(self.convicted(2), "convicted: 1")
        self.hears_of_its_proof(1, 2)

    def hears_of_its_proof(self, number, neighbour):
        """A node that is convicted gets the proof from a neighbour, is told of it, and puts no more but with a word for it."""
        self.run_node(number, "hello ../hello")
        self.run_node(neighbour, "bundle ../hello ../stream")
        status, told, why = self.run_node(number, "take ../stream")
        self.assertTrue(any("16 AgainstMe" in line for line in told), told)
        self.assertEqual((status, why.count("this node is convicted")), (0, 1), why)
        status, told, why = self.run_node(number, 'put "k" "lost"')
        self.assertEqual((status, told, "this node is convicted" in why), (71, [], True))
        self.assertEqual(self.run_node(number, 'put "k" "lost"', options=["--though-convicted"])[1], ['put "k" -> 2/3'])

    def test_statements_in_a_nodes_name(self):
        """One that is forged is told so, and the node goes on; one that its key signed ends that."""
        self.make_members([1, 2], height=2)
        self.assertEqual(self.run_node(1, 'put "k" "v"', first=True)[0], 0)
        signer = make_cases.Signer(1, b"\1" * 32, 2)
        body = make_cases.update(1, 3, 9, make_cases.ZEROS, b"k", b"elsewhere")
        own = make_cases.signed(body, signer.sign(3, body))
        for payload, said, status in [(own[:-1] + bytes([own[-1] ^ 1]), "not signed by its key: whoever made", 0), (own, "and signed by its key", 71)]:
            self.put("stream", frame(f.STATEMENT, payload) + frame(f.END, b"\0"))
            _, told, why = self.run_node(1, "take ../stream")
            self.assertEqual((told[1:], said in why), ([" refused 0 3 NotMine"], True), why)
            self.assertEqual(self.run_node(1, 'put "k" "w"')[0], status)

    def test_a_mistyped_folder_and_seed(self):
        """The program refuses the wrong seed, and the runner the wrong folder; both nodes go on."""
        self.make_members([1, 2])
        for number in (1, 2):
            self.run_node(number, *['put "k" "from %d"' % number] * (3 - number), first=True)
        words = ["--program", PROGRAM, self.path("roster"), self.path("seed2"), "2", "-"]
        status, _, why = run_tool("node.py", "--folder", self.path("1"), *words, data=b"put 6b 61\n")
        self.assertEqual((status, "1/depot.journal is that of node 1, and this is node 2" in why), (71, True), why)
        words[3:5] = [self.path("seed2"), "1"]
        self.assertEqual(run_tool("node.py", "--folder", self.path("1"), *words, data=b"put 6b 61\n")[:2], (10, "identity OtherKey\n"))
        for number in (1, 2):
            self.assertEqual(self.run_node(number, 'put "k" "more"')[1], ['put "k" -> %d/%d' % (3 - number, 4 - number)])

    def convicted(self, number):
        """Who is convicted by a node's journal; each proof that it has is judged."""
        journal = self.path("%d/depot.journal" % number)
        for name in run_tool("look.py", journal, "--proofs", self.path("proofs"))[1].split():
            self.assertEqual(self.depot("judge", "roster", os.path.relpath(name, self.room)), (0, "1 SameNumber\n"))
        self.assertIn("is convicted: SameNumber", run_tool("picture.py", journal)[1])
        return next(it for it in run_tool("look.py", journal)[1].splitlines() if it.startswith("convicted"))

    def test_a_client(self):
        self.make_members([1, 2], height=2)
        text = texts()
        with open(self.path("roster"), "rb") as file:
            self.assertEqual(file.read(), text["roster"])
        self.assertEqual(self.run_node(2, 'put "k" "b"', first=True)[1], ['put "k" -> 0/1'])
        signer = make_cases.Signer(1, b"\1" * 32, 2)
        for seq, (body, value) in enumerate([(text["first"], b"a"), (text["second"], b"c"), (text["third"], b"v")]):
            statement = make_cases.signed(body, signer.sign(seq, body))
            self.put("stream", frame(f.STATEMENT, statement) + frame(f.VALUE, value) + frame(f.END, b"\0"))
            told = self.run_node(2, "take ../stream", 'get "k"')[1]
            self.assertEqual(told[0], "take ../stream -> accepted 2 known 0 refused 0 whole")
        self.assertEqual(told[1], 'get "k" -> 1/2/3!')
        self.put("hello", text["hello"])
        told = self.run_node(2, "bundle ../hello ../out")[1]
        self.assertEqual(told, ["bundle ../hello ../out -> proofs 0 vouchers 0 updates 1 values 1 whole"])


if __name__ == "__main__":
    unittest.main()
