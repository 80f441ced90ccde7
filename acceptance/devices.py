#!/usr/bin/env python3
"""Runs the program over real files, folders and outputs that do what a fake doesn't, and says of each whether it ends with its status and
its text: an output and a file that are full, outputs that are closed, folders where files should be, a limit on the length of files, under which a journal or a stored
file is cut short, and files of 1 GiB and more (without content, so that they take no room).

    python3 acceptance/devices.py
"""

import os
import resource
import subprocess
import sys
import tempfile

sys.path.insert(0, os.path.join(os.path.dirname(os.path.abspath(__file__)), "makers"))
from make_cases import ROOT  # noqa: E402
from make_node_cases import JOURNAL, LISTED, script, words  # noqa: E402

DEPOT = os.path.join(ROOT, "depot")
PUT = script("put 6b 61")


def place(room, long=(), folders=(), **files):
    """Puts files and folders there, and files of so many zeros."""
    for name in folders:
        os.mkdir(os.path.join(room, name))
    for name, data in files.items():
        with open(os.path.join(room, name), "wb") as file:
            file.write(data)
    for name, length in long:
        with open(os.path.join(room, name), "wb") as file:
            file.truncate(length)


def ends(room, args, status, text, out=None, most=None):
    """Whether a run ends with this status and this text. With `out` it writes there; with `most` no file takes more bytes."""
    def limit():
        if most is not None:
            resource.setrlimit(resource.RLIMIT_FSIZE, (most, most))

    with open(out, "wb") if out else open(os.devnull, "wb") as file:
        # A write past the limit fails, since its signal is ignored, as Python does and hands on.
        ran = subprocess.run([DEPOT, *args], cwd=room, stdout=file if out else subprocess.PIPE, preexec_fn=limit, restore_signals=False)
    return ran.returncode == status and (out or ran.stdout.decode() == text)


def a_full_output(room):
    place(room, ROSTER=LISTED, SCRIPT=PUT)
    return ends(room, words(1), 5, "", "/dev/full") and ends(room, words(1), 0, "put 6b -> 1/2\n")


def a_closed_output(room):
    """What is printed to a closed stream goes nowhere, and least of all into the journal. What was put stands."""
    place(room, ROSTER=LISTED, SCRIPT=PUT)
    for closed in (">&-", "<&- >&-", "<&- >&- 2>&-"):
        ran = subprocess.run(["sh", "-c", f'exec "$0" "$@" {closed}', DEPOT, *words(1)], cwd=room)
        if ran.returncode != 5 or not ends(room, words(1), 0, "put 6b -> 1/2\n"):
            return False
        os.remove(os.path.join(room, JOURNAL))
    return True


def a_folder_as_journal(room):
    place(room, folders=["depot.journal"], ROSTER=LISTED, SCRIPT=PUT)
    return ends(room, words(1), 4, "disk\n")


def a_folder_as_file(room):
    place(room, folders=["H"], ROSTER=LISTED, SCRIPT=script("put 6b 61", "hello H"))
    return ends(room, words(1), 3, "put 6b -> 0/1\nshelf H\n")


def a_folder_as_checkpoint(room):
    """The put of a checkpoint comes before its text is stored, and stands."""
    place(room, folders=["C"], ROSTER=LISTED, SCRIPT=script("put 6b 61", "checkpoint C", "put 6b 62"))
    first = ends(room, words(1), 3, "put 6b -> 0/1\nshelf C\n")
    place(room, SCRIPT=script("checkpoint F"))
    return first and ends(room, words(1), 0, "checkpoint F -> 2/3\n")


def a_full_file(room):
    place(room, ROSTER=LISTED, SCRIPT=script("put 6b 61", "hello a"))
    os.symlink("/dev/full", os.path.join(room, "a"))
    return ends(room, words(1), 3, "put 6b -> 0/1\nshelf a\n")


def a_journal_that_is_cut_short(room):
    """A record that isn't whole is not told, and the next run goes on behind the last one that is."""
    place(room, ROSTER=LISTED, SCRIPT=PUT)
    journal = os.path.join(room, JOURNAL)
    if not ends(room, words(1), 0, "put 6b -> 0/1\n"):
        return False
    length = os.path.getsize(journal)
    cut = all(ends(room, words(1), 4, "disk\n", most=length + more) and os.path.getsize(journal) <= length + more for more in (1, 100))
    return cut and ends(room, words(1), 0, "put 6b -> 1/2\n") and os.path.getsize(journal) > length + 100


def a_file_that_is_cut_short(room):
    place(room, ROSTER=LISTED, SCRIPT=PUT)
    first = ends(room, words(1), 0, "put 6b -> 0/1\n")
    place(room, SCRIPT=script("hello H"))
    return first and ends(room, words(1), 3, "shelf H\n", most=10) and os.path.getsize(os.path.join(room, "H")) <= 10


def a_log_of_the_greatest_length(room):
    """A file of exactly 1 GiB is loaded. Zeros are no log."""
    place(room, long=[("LOG", 2**30)])
    return ends(room, ["scan", "LOG", "6b"], 2, "input LOG at 4\n")


def a_long_log(room):
    place(room, long=[("LOG", 2**30 + 1)])
    return ends(room, ["scan", "LOG", "6b"], 3, "shelf LOG\n")


def a_long_script(room):
    place(room, long=[("SCRIPT", 2**31)], ROSTER=LISTED)
    return ends(room, words(1), 3, "shelf SCRIPT\n")


CASES = (
    a_full_output,
    a_closed_output,
    a_folder_as_journal,
    a_folder_as_file,
    a_folder_as_checkpoint,
    a_full_file,
    a_journal_that_is_cut_short,
    a_file_that_is_cut_short,
    a_log_of_the_greatest_length,
    a_long_log,
    a_long_script,
)


def main():
    rights = []
    for case in CASES:
        with tempfile.TemporaryDirectory() as room:
            rights.append(case(room))
        print(f"{case.__name__}: " + ("as told" if rights[-1] else "not as told"))
    sys.exit(0 if all(rights) else 1)


if __name__ == "__main__":
    main()
