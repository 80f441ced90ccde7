"""Each tool says its words when it is asked, and does nothing where they are lacking."""

import glob
import os
import signal
import stat
import subprocess
import sys
import time
import unittest

from cases import TOOLS, run_tool
from test_tools import InARoom

# What is only read by the others.
MODULES = {"alarms.py", "formats.py", "guard.py", "script.py", "signatures.py", "story.py", "summary.py", "words.py"}


def tools():
    return sorted(os.path.basename(it) for it in glob.glob(os.path.join(TOOLS, "*.py")))


class Help(InARoom):
    def test_each_has_a_page(self):
        for name in tools():
            status, out, why = run_tool(name, "--help")
            self.assertEqual((status, why, len(out.splitlines()) > 1 or name in MODULES, bool(out)), (0, "", True, True), name)
        ran = subprocess.run([os.path.join(TOOLS, "sources.sh"), "--help"], stdout=subprocess.PIPE)
        self.assertEqual((ran.returncode, b"checksum" in ran.stdout), (0, True))

    def test_without_words(self):
        for name in sorted(set(tools()) - MODULES):
            status, out, why = run_tool(name)
            self.assertEqual((status, out, bool(why)), (1, "", True), name)

    def test_wrong_words(self):
        for words in (["look.py"], ["look.py", "--nonsense"], ["picture.py", "--last", "0", "J"], ["picture.py", "J", "--last", "x"],
                      ["library.py", "--nonsense"], ["try_edit.py", "no_crate"], ["try_edit.py", "--nonsense"], ["roster.py", "--nonsense"]):
            status, out, why = run_tool(*words)
            self.assertEqual((status, out, bool(why)), (1, "", True), words)


class TryEdit(InARoom):
    """`try_edit.py` with a stand-in for rt."""

    def begin(self, *words):
        self.put("rt", b"#!/bin/sh\necho $$ >'%s/pid'\npwd >'%s/place'\nls crates/depot_base/must-fail\nsleep 30\n" % ((self.room.encode(),) * 2))
        os.chmod(self.path("rt"), stat.S_IRWXU)
        os.mkdir(self.path("tmp"))
        env = dict(os.environ, PATH=self.room + os.pathsep + os.environ["PATH"], TMPDIR=self.path("tmp"))
        return subprocess.Popen([sys.executable, "-B", os.path.join(TOOLS, "try_edit.py"), *words], env=env, stdout=subprocess.PIPE, stderr=subprocess.DEVNULL)

    def test_an_end(self):
        """It copies the tree, with the wrong bodies in place, and where it is ended rt ends and the copy is gone."""
        with self.begin("depot_base") as run:
            listed = run.stdout.readline()
            run.send_signal(signal.SIGTERM)
            self.assertEqual(run.wait(), 128 + signal.SIGTERM)
        with open(self.path("pid")) as file:
            pid = int(file.read())
        self.assertTrue(listed.endswith(b".edit\n"))
        self.assertEqual(os.listdir(self.path("tmp")), [])
        with self.assertRaises(ProcessLookupError):
            for _ in range(50):
                os.kill(pid, 0)
                time.sleep(0.1)


if __name__ == "__main__":
    unittest.main()
