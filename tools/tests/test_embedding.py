"""The blocks of docs/EMBEDDING.md, built and run as they stand there.

DEPOT_C names the static library, as for bindings/run.sh, and RATTLE_KIT the kit. Where there is none, or no C compiler, it is said
what is left out; that the C of the page is C is tried wherever there is a compiler.
"""

import os
import re
import shutil
import subprocess
import sys
import unittest

from cases import ROOT, run_tool
from test_tools import InARoom
from test_walks import section

sys.path.insert(0, os.path.join(ROOT, "acceptance", "makers"))
import make_cases  # noqa: E402

LIBRARY, COMPILER = os.environ.get("DEPOT_C"), shutil.which("cc")
BUILT = "crates/depot_c/out"


def blocks(title, language=""):
    return re.findall(r"```%s\n(.*?)```" % language, section("docs/EMBEDDING.md", title), re.S)


@unittest.skipUnless(COMPILER, "left out: the blocks of EMBEDDING, for want of cc")
class Blocks(InARoom):
    def setUp(self):
        super().setUp()
        for folder in ("bindings", "tools"):
            os.symlink(os.path.join(os.path.abspath(ROOT), folder), self.path(folder))
        members = []
        for number in (1, 2):
            self.put("seed%d" % number, b"%02x" % number * 32 + b"\n")
            members.append("%d:8:%s" % (number, make_cases.Signer(number, bytes([number]) * 32, 8).root.hex()))
        self.assertEqual(run_tool("roster.py", self.path("roster"), *members)[0], 0)
        [program], [script] = blocks("A node in C", "c"), blocks("A node in Python", "python")
        self.put("prog.c", program.encode())
        self.put("prog.py", script.encode())

    def typed(self, *lines):
        ran = subprocess.run(["bash", "-e"], input="\n".join(lines).encode(), cwd=self.room, stdout=subprocess.PIPE, stderr=subprocess.STDOUT)
        return ran.returncode, ran.stdout.decode().splitlines()

    def test_the_program_is_c(self):
        self.assertEqual(self.typed("cc -Wall -Wextra -Werror -Wno-unused-function -Ibindings -c prog.c -o prog.o"), (0, []))

    @unittest.skipUnless(LIBRARY, "left out: running the blocks of EMBEDDING, for DEPOT_C names no library")
    def test_the_blocks_run(self):
        os.makedirs(self.path(BUILT))
        os.symlink(os.path.abspath(LIBRARY), self.path(BUILT + "/libdepot_c.a"))
        self.assertEqual(self.typed(blocks("Build")[1]), (0, []))
        self.assertEqual(self.typed("./prog", "./prog"), (0, ["put 0 blue", "put 1 blue"]))
        line = "PYTHONPATH=bindings python3 prog.py"
        self.assertIn(line, section("docs/EMBEDDING.md", "A node in Python").splitlines())
        for seq in (0, 3):
            right = ["%d %d" % (seq, seq + 1), "[b'blue']", "accepted 0 known 0 refused 0 whole"]
            self.assertEqual(self.typed(line), (0, right))


if __name__ == "__main__":
    unittest.main()
