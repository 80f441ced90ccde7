"""Runs of the runner `tools/node.py` over a stand-in for the program, in a room with a roster, seeds, a script and folders."""

import contextlib
import io
import os
import shutil
import sys
import tempfile
import unittest
from unittest import mock

from cases import HERE, TOOLS, f

import node

SCRIPT = "put 6b 61\nget 6b\nput 6c 62\nput 6d 63\nget 6d\n"
TOLD = "put 6b -> 0/1\nget 6b -> nothing\nput 6c -> 1/2\nput 6d -> 2/3\nget 6d -> nothing\n"


class Runs(unittest.TestCase):
    def setUp(self):
        room = tempfile.TemporaryDirectory()
        self.addCleanup(room.cleanup)
        self.room = room.name
        self.write("roster", f.roster_text([f.Member(1, 8, bytes(32)), f.Member(2, 8, b"2" * 32)]))
        self.write("seed", b"01" * 32 + b"\n")
        self.write("script", SCRIPT.encode())
        os.mkdir(self.path("one"))

    def path(self, *names):
        return os.path.join(self.room, *names)

    def write(self, name, data):
        with open(self.path(name), "wb") as file:
            file.write(data)

    def read(self, *names):
        with open(self.path(*names), "rb") as file:
            return file.read()

    def begin_anew(self):
        shutil.rmtree(self.path("one"))
        os.mkdir(self.path("one"))
        if os.path.exists(self.path("seed.node-1.kept")):
            os.remove(self.path("seed.node-1.kept"))

    def journal(self):
        return self.read("one", "depot.journal")

    def notes(self):
        """Each file of the room that remembers a journal, or is to be one, with its bytes."""
        found = {}
        for place, _, names in os.walk(self.room):
            for name in (os.path.join(place, it) for it in names if ".kept" in it):
                found[os.path.relpath(name, self.room)] = self.read(name)
        return found

    def words(self, *options, script="script", folder="one", roster="roster", seed="seed", id="1"):
        words = [sys.executable, "-B", os.path.join(TOOLS, "node.py"), "--folder", self.path(folder)]
        words += ["--program", os.path.join(HERE, "stand_in.py"), *options]
        return words + [self.path(roster), self.path(seed), id, self.path(script)]

    def run_node(self, *options, stop="", **names):
        """A run of the runner; its status, what it printed, and what it said."""
        return self.run_words(self.words(*options, **names), stop)

    def run_words(self, words, stop=""):
        """The same of a command's words, in this process."""
        out, errors = io.TextIOWrapper(io.BytesIO(), "utf-8"), io.StringIO()
        with mock.patch.dict(os.environ, STOP=stop), contextlib.redirect_stdout(out), contextlib.redirect_stderr(errors):
            try:
                status = node.main(words[3:])
            except SystemExit as end:
                status = end.code
        return status, out.buffer.getvalue().decode(), errors.getvalue()

    def refused(self, why, *options, **more):
        status, out, errors = self.run_node(*options, **more)
        self.assertEqual((status, out), (71, ""), errors)
        self.assertIn(why, errors)
        self.assertNotIn("Traceback", errors)

    def changes_no_note(self, why, *options, **more):
        """A run that is refused, and leaves each file that remembers a journal as it was."""
        before = self.notes()
        self.refused(why, *options, **more)
        self.assertEqual(self.notes(), before)

    def puts(self, folder="one"):
        return [it.seq for it in f.updates_of(f.read_journal(self.read(folder, "depot.journal")).records)]
