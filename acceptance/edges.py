#!/usr/bin/env python3
"""Runs the program where a script or a second run might harm a journal, and says of each whether it ends with its status and its text, and
whether the journals stand as they must: stores under each path and link that leads to the journal, two runs at once over one journal, and a
run that is killed. A run waits where it stores to a pipe that nobody reads.

    python3 acceptance/edges.py
"""

import os
import subprocess
import sys
import tempfile

sys.path.insert(0, os.path.join(os.path.dirname(os.path.abspath(__file__)), "makers"))
from make_cases import ROOT  # noqa: E402
from make_node_cases import JOURNAL, LISTED, script, words  # noqa: E402

DEPOT = os.path.join(ROOT, "depot")
PUT, SAYS_PUT, SAYS_AGAIN = "put 6b 61", "put 6b -> 0/1\n", "put 6b -> 1/2\n"
PATIENCE = 120


def content(path):
    with open(path, "rb") as file:
        return file.read()


def place(folder, **files):
    """A folder with these files, each given by its bytes, and a roster."""
    os.makedirs(folder, exist_ok=True)
    for name, data in {"ROSTER": LISTED, **files}.items():
        with open(os.path.join(folder, name), "wb") as file:
            file.write(data)
    return folder


def begins(folder, name="SCRIPT"):
    """A run there of the first node, over the script of this name."""
    return subprocess.Popen([DEPOT, *words(1, script=name)], cwd=folder, stdout=subprocess.PIPE)


def outcome(run):
    """The status and the text of a run."""
    text, _ = run.communicate(timeout=PATIENCE)
    return run.returncode, text.decode()


def stands(folder, *lines):
    """The journal after a run of these commands in a folder of its own, which ends well."""
    place(folder, SCRIPT=script(*lines))
    status, _ = outcome(begins(folder))
    return content(os.path.join(folder, JOURNAL)) if status == 0 else None


def waits(folder, pipe):
    """A run that has put and told so, and waits in a store to a pipe."""
    os.mkfifo(os.path.join(folder, pipe))
    place(folder, WAITS=script(PUT, f"hello {pipe}"))
    run = begins(folder, "WAITS")
    assert run.stdout.readline().decode() == SAYS_PUT
    return run


def names_of_the_journal(folder):
    """What leads to the journal of a folder: paths, links and files that the system shows of the run."""
    os.mkdir(os.path.join(folder, "sub"))
    os.symlink(JOURNAL, os.path.join(folder, "link"))
    os.symlink("link", os.path.join(folder, "sub", "far"))
    os.symlink("../link", os.path.join(folder, "sub", "near"))
    os.symlink(os.path.realpath(folder), os.path.join(folder, "folder"))
    there = os.path.join(os.path.realpath(folder), JOURNAL)
    paths = [JOURNAL, "./" + JOURNAL, "sub/../" + JOURNAL, there, "//" + there, "folder/" + JOURNAL, "/proc/self/cwd/" + JOURNAL]
    return paths + ["link", "sub/near", "twin"] + [f"/proc/self/fd/{number}" for number in range(3, 6)]


def a_store_onto_the_journal(room):
    """No name of the journal is stored under, whether it stood before the run or not."""
    once, folder = stands(os.path.join(room, "once"), PUT), place(os.path.join(room, "a"))
    journal, rights = os.path.join(folder, JOURNAL), []
    for name in names_of_the_journal(folder):
        if os.path.exists(journal):
            os.unlink(journal)
        if name == "twin":
            place(folder, **{JOURNAL: b""})
            os.link(journal, os.path.join(folder, "twin"))
        place(folder, SCRIPT=script(PUT, "hello " + name, PUT))
        first = outcome(begins(folder)) == (3, SAYS_PUT + f"shelf {name}\n") and content(journal) == once
        place(folder, SCRIPT=script("hello " + name, PUT))
        again = outcome(begins(folder)) == (3, f"shelf {name}\n") and content(journal) == once
        rights.append(first and again)
    return once is not None and all(rights)


def a_bundle_onto_the_journal(room):
    folder = place(room, SCRIPT=script(PUT, "hello H", "bundle H link"))
    os.symlink(JOURNAL, os.path.join(folder, "link"))
    ended = outcome(begins(folder))
    return ended[0] == 3 and ended[1].endswith("\nshelf link\n") and content(os.path.join(folder, JOURNAL)) == stands(os.path.join(room, "once"), PUT)


def a_checkpoint_onto_the_journal(room):
    """Its put stands, as if it had been stored elsewhere, and nothing of its text does."""
    folder = place(room, SCRIPT=script(PUT, "checkpoint link", PUT))
    os.symlink(JOURNAL, os.path.join(folder, "link"))
    ended = outcome(begins(folder))
    return ended == (3, SAYS_PUT + "shelf link\n") and content(os.path.join(folder, JOURNAL)) == stands(os.path.join(room, "once"), PUT, "checkpoint C")


def two_runs_over_one_journal(room):
    """The second fails at its first call, and the first goes on to its end."""
    once, folder = stands(os.path.join(room, "once"), PUT), place(os.path.join(room, "a"), SCRIPT=script(PUT))
    other = place(os.path.join(room, "b"), SCRIPT=script(PUT))
    run = waits(folder, "PIPE")
    journal = os.path.join(folder, JOURNAL)
    os.link(journal, os.path.join(other, JOURNAL))
    second, elsewhere = outcome(begins(folder)), outcome(begins(other))
    kept = content(journal) == once
    hello = content(os.path.join(folder, "PIPE"))
    first = outcome(run)
    third = outcome(begins(folder))
    seconds = (second, elsewhere) == ((4, "disk\n"), (4, "disk\n"))
    return seconds and kept and hello != b"" and first == (0, "hello PIPE -> convicted 0 leaves 1 wanted 0\n") and third == (0, SAYS_AGAIN)


def a_store_onto_the_journal_of_another_run(room):
    folder, other = place(os.path.join(room, "a")), place(os.path.join(room, "b"))
    name = f"../a/{JOURNAL}"
    run = waits(folder, "PIPE")
    before = content(os.path.join(folder, JOURNAL))
    place(other, SCRIPT=script("hello " + name))
    ended = outcome(begins(other)) == (3, f"shelf {name}\n")
    kept = content(os.path.join(folder, JOURNAL)) == before
    content(os.path.join(folder, "PIPE"))
    return ended and kept and outcome(run)[0] == 0


def a_run_that_is_killed(room):
    """Its lock ends with it."""
    folder = place(room, SCRIPT=script(PUT))
    run = waits(folder, "PIPE")
    run.kill()
    return outcome(run) == (-9, "") and outcome(begins(folder)) == (0, SAYS_AGAIN)


def a_store_in_place(room):
    """A store under a link goes to the file that it leads to, and leaves nothing of what stood there."""
    folder = place(room, SCRIPT=script(PUT, "hello H", "hello link", "hello /dev/null"), OTHER=b"x" * 100_000)
    os.symlink("OTHER", os.path.join(folder, "link"))
    status, _ = outcome(begins(folder))
    return status == 0 and content(os.path.join(folder, "H")) == content(os.path.join(folder, "OTHER"))


CASES = (
    a_store_onto_the_journal,
    a_bundle_onto_the_journal,
    a_checkpoint_onto_the_journal,
    two_runs_over_one_journal,
    a_store_onto_the_journal_of_another_run,
    a_run_that_is_killed,
    a_store_in_place,
)


def main():
    rights = []
    for case in CASES:
        with tempfile.TemporaryDirectory() as room:
            rights.append(case(room))
        print(f"{case.__name__}: " + ("as told" if rights[-1] else "not as told"))
    sys.exit(0 if all(rights) else 1)


if __name__ == "__main__":
    main()
