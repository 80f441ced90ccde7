#!/usr/bin/env python3
"""Has the wrong bodies of edits/ refused, apart from the gate: each is in a crate whose proof an edit in the gate would cost once more.

    python3 tools/try_edit.py CRATE ..  those of these crates
    python3 tools/try_edit.py --all     those of all crates that have some

edits/CRATE/NAME.edit has the form of a must-fail edit. In a copy of the repository those of each crate take the place of its must-fail
edits, and `rt must-fail` tries them. The exit status is that of rt: 0 where each was refused. It takes as long as the proofs of the crates.
"""
import os
import shutil
import signal
import subprocess
import sys
import tempfile
from pathlib import Path

ROOT = Path(__file__).resolve().parent.parent
EDITS = ROOT / "edits"


def edited(crates, room):
    """A copy of the repository, without what was built, in which these crates have the edits of edits/ and no other."""
    copy = Path(room) / "depot"
    shutil.copytree(ROOT, copy, ignore=shutil.ignore_patterns(".git", "out", "__pycache__"))
    for crate in crates:
        shutil.rmtree(copy / "crates" / crate / "must-fail", ignore_errors=True)
        shutil.copytree(EDITS / crate, copy / "crates" / crate / "must-fail")
    return copy


def ended(number, frame):
    """What was begun is ended, and the copy is removed, also where a signal ends this."""
    sys.exit(128 + number)


def tried(crates):
    """Tries the wrong bodies of these crates; rt's status. It has a session of its own, so that all that it began ends with it."""
    with tempfile.TemporaryDirectory(prefix="depot-edit-") as room:
        run = subprocess.Popen(["rt", "must-fail", *crates], cwd=edited(crates, room), start_new_session=True)
        try:
            return run.wait()
        finally:
            if run.poll() is None:
                os.killpg(run.pid, signal.SIGTERM)
                run.wait()


def main(words):
    if not words or words in (["-h"], ["--help"]):
        print(__doc__, file=sys.stdout if words else sys.stderr)
        return 0 if words else 1
    there = sorted(it.name for it in EDITS.iterdir() if it.is_dir())
    crates = there if words == ["--all"] else words
    unknown = sorted(set(crates) - set(there))
    if unknown:
        print(f"try_edit.py: no wrong bodies for {', '.join(unknown)}; there are some for {', '.join(there)}", file=sys.stderr)
        return 1
    if not shutil.which("rt"):
        print("try_edit.py: the command rt isn't on the PATH", file=sys.stderr)
        return 1
    for it in (signal.SIGTERM, signal.SIGHUP, signal.SIGINT):
        signal.signal(it, ended)
    return tried(crates)


if __name__ == "__main__":
    sys.exit(main(sys.argv[1:]))
