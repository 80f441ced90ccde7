"""The commands of the pages, typed as they stand there: DEPOT_PROGRAM names the program, else nothing is tried.

They are run by bash in a room that has the program, the tools and the examples where a checkout has them.
"""

import os
import re
import shutil
import subprocess
import unittest

from cases import ROOT, data_of
from test_tools import InARoom

PROGRAM = os.environ.get("DEPOT_PROGRAM")


def section(page, title):
    """The text of a section of a page, up to the next one."""
    text = data_of(*page.split("/")).decode()
    return text.split(f"## {title}\n", 1)[1].split("\n## ", 1)[0]


def blocks_of(page, title):
    return re.findall(r"```\n(.*?)```", section(page, title), re.S)


@unittest.skipUnless(PROGRAM, "DEPOT_PROGRAM names no program")
class Checkout(InARoom):
    """A room that has what a checkout has, and the program."""

    def setUp(self):
        super().setUp()
        os.symlink(os.path.abspath(PROGRAM), self.path("depot"))
        os.symlink(os.path.join(ROOT, "acceptance"), self.path("acceptance"))
        for folder in ("tools", "examples"):
            shutil.copytree(os.path.join(ROOT, folder), self.path(folder), ignore=shutil.ignore_patterns("tests", "__pycache__"))

    def typed(self, *blocks):
        """What is printed where these blocks are typed one after the other."""
        ran = subprocess.run(["bash"], input="\n".join(blocks).encode(), cwd=self.room, capture_output=True)
        return ran.stdout.decode().splitlines(), ran.stderr.decode()


class Walks(Checkout):
    def test_the_first_look_of_the_readme(self):
        """What the program that isn't proved prints there is what the proved one does, and ends so."""
        unproved, end, proved = blocks_of("README.md", "See it run")
        self.assertEqual(unproved.replace(" --unproved", ""), proved)
        out, why = self.typed(proved)
        self.assertEqual((out[-5:], why), (end.splitlines(), ""))

    def test_the_first_node_of_the_readme(self):
        out, why = self.typed(blocks_of("README.md", "A first node")[0])
        self.assertEqual((out[1:3], why), (["put 6b -> 0/1", "get 6b -> 1/0/1=61"], ""))
        self.assertIn("own statements: 1, 255 of 256 left", out)
        made = self.made()
        self.assertEqual(os.stat(self.path("mine/seed")).st_mode & 0o77, 0)
        self.typed(blocks_of("README.md", "A first node")[0])
        self.assertEqual(self.made(), made)

    def test_the_service_of_the_readme(self):
        node, service = blocks_of("README.md", "A first node")
        self.typed(node)
        self.assertEqual(self.typed(service), (["kept", "blue"], ""))
        asked = "(cd mine/one && printf 'color\\nshape\\n' | python3 ../../examples/kept.py ../roster \"$(cat ../seed)\" 8 %s; echo $?)"
        self.assertEqual(self.typed(asked % 1), (["blue", "-", "0"], ""))
        self.assertEqual(self.typed(asked % 2), (["10"], ""))

    def made(self):
        """What a second walk must not write over."""
        found = []
        for name in ("mine/seed", "mine/roster", "mine/one/depot.journal"):
            with open(self.path(name), "rb") as file:
                found.append(file.read())
        return found

    def test_the_first_node_of_the_tutorial(self):
        make, run, printed, look, guarded = blocks_of("docs/TUTORIAL.md", "Your first node")
        out, why = self.typed(make, run, guarded)
        self.assertEqual((out[1:4], why), (printed.splitlines(), ""))
        self.assertEqual(out[4], "put 6b -> 1/2")
        self.assertIn('key "k": 1/1/2="a"', self.typed(look)[0])

    def test_the_proof_of_the_tutorial(self):
        blocks = [it for title in ("Two branches", "A join", "The proof") for it in blocks_of("docs/TUTORIAL.md", title)]
        shown = [it.split("\n", 1) for it in blocks if it.startswith("$ ")]
        self.assertEqual(len(shown), 4)
        for command, printed in shown:
            self.assertEqual(self.typed("cd examples/fork", command[2:])[0], printed.splitlines())

    def test_the_replays_of_the_tutorial(self):
        _, printed, play = blocks_of("docs/TUTORIAL.md", "What a node makes of it")
        self.assertEqual(self.typed(play), ([], ""))
        for name, right in (("fork.transcript", printed.encode()), ("fork.svg", data_of("docs", "fork.svg"))):
            with open(self.path(name), "rb") as file:
                self.assertEqual(file.read(), right)
        for name, title in (("stop", "A stop inside a put"), ("hostile", "A hostile stream")):
            out, why = self.typed(f"./depot replay examples/{name}.schedule")
            self.assertEqual((out, why), (blocks_of("docs/TUTORIAL.md", title)[0].splitlines(), ""))

    def test_the_two_nodes_of_the_tutorial(self):
        out, why = self.typed("examples/two-nodes.sh")
        shown = [it for block in blocks_of("docs/TUTORIAL.md", "Two nodes and their files") for it in block.splitlines()]
        self.assertEqual((out, why), (shown, ""))

    def test_the_settled_put_of_the_tutorial(self):
        out, why = self.typed("examples/settled.sh")
        self.assertEqual((out, why), (blocks_of("docs/TUTORIAL.md", "A put that is settled")[0].splitlines(), ""))

    def test_the_audit_of_the_tutorial(self):
        out, why = self.typed("examples/audit.sh")
        self.assertEqual((out, why), (blocks_of("docs/TUTORIAL.md", "An audit")[0].splitlines(), ""))

    def test_the_reader_of_the_tutorial(self):
        out, why = self.typed("examples/checkpoint.sh")
        self.assertEqual((out, why), (blocks_of("docs/TUTORIAL.md", "A checkpoint, and a reader")[0].splitlines(), ""))

    def test_the_deletion_of_the_tutorial(self):
        block = blocks_of("docs/TUTORIAL.md", "Several keys, and a deletion")[0]
        events, printed = zip(*(re.split(r"\s{3,}", line) for line in block.splitlines()))
        self.put("deletion", "\n".join(["depot schedule 1", "scheme plain 4", "node 1", *events, ""]).encode())
        self.assertEqual(self.typed("./depot replay deletion"), (list(printed), ""))

    def test_three_nodes(self):
        make, mistake, judge = blocks_of("docs/OPERATING.md", "To try it: three nodes, and a mistake")
        out, why = self.typed(make, mistake, judge)
        self.assertIn('get "k" -> 1/0/1="from 1" 2/0/1="from 2"', out)
        self.assertEqual(out.count('put "k" -> 1/2'), 2)
        self.assertIn("an old copy", why)
        self.assertTrue(any('1/1/2="later"' in line and '1/1/2="again"' in line for line in out))
        self.assertEqual(out[-3:], ["convicted: 1", "proofs/node-1-SameNumber-0", "1 SameNumber"])


if __name__ == "__main__":
    unittest.main()
