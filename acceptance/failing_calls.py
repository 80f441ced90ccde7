#!/usr/bin/env python3
"""Has each call that the built program makes fail in turn, one a run: those on the journal's file, the writes to its output, those on other
files, and the reads of its input; and stops the machine in each call on the journal's file, with each image of it that a stop may leave. The
runs are the cases here that end well: those of nodes, some of `serve`, and some of the other commands. It says of each case whether every run
ended as it must, and takes a C compiler.

    python3 acceptance/failing_calls.py           # every case
    python3 acceptance/failing_calls.py NAME ..   # these cases

A run of which a call fails ends with the status of what failed, behind a front of what the whole run writes: with the line `disk`, with no
line where the output fails, with a line `shelf NAME`; but for the output the front is of whole lines. It makes no call on the journal's file
after one that failed. What stands on the disk then are records of the whole run from the first one on, all that were there before and all
that the commands leave whose lines were written among them. The run that is made again over them ends well, or where the leaves of the key
are used up, and keeps them (one case asks for an absent file then). The same holds of a machine that stops, but for the status and the line.
Of `serve` it holds with requests for commands and messages for lines; `disk` is told only by a node that wasn't started. Its input alone is read.
Requests that come together are a group: what stands then are the records that were there at its start, or all; and where the group brings some,
its run makes four calls on the journal's file more than a run without requests, two writes and two syncs.
"""

import os
import shutil
import subprocess
import sys
import tempfile

sys.path[:0] = [os.path.join(os.path.dirname(os.path.abspath(__file__)), folder) for folder in ("makers", "models")]

from messages import bodies_in, message, messages, not_started

HERE = os.path.dirname(os.path.abspath(__file__))
CASES = os.path.join(HERE, "cases")
DEPOT = os.path.join(os.path.dirname(HERE), "crates/depot_tool/out/depot_tool")
JOURNAL = "depot.journal"
SHELF, DISK, OUTPUT, LIMIT, INPUT, STOPPED = 3, 4, 5, 8, 13, 99
IMAGES = 3
MOST_AHEAD, MOST_REQUESTS, MOST_REPLIES = 16_384, 64, 65_536  # bytes that are read at once; requests and bytes of replies of a group
CALLS_OF_A_GROUP = 4

# How a run that is made again ends: well, or at a limit. Where the update stands by which this case's node signed, it has its reader from
# the first `trim` on, and the `tgive` behind that asks for a file that isn't there.
ENDS = (0, LIMIT)
ENDS_OF = {"node_makes_a_reader": (0, LIMIT, SHELF)}


def last_line(status, name):
    """What a run that fails writes behind a front of the whole text."""
    return {DISK: b"disk\n", SHELF: b"shelf " + name + b"\n", OUTPUT: b"", STOPPED: b""}[status]


def last_message(status, name, text):
    """What `serve` writes in place of it: the line `shelf` as it is, and `disk` in a message that stands alone."""
    refused = message(not_started("disk"))
    return {DISK: refused if text == refused else b"", SHELF: b"shelf " + name + b"\n"}.get(status, b"")


# The cases of `serve`, and those of commands that have no node.
SERVED = ["serve_puts_and_reads", "serve_exchanges_with_another", "serve_makes_and_signs_a_checkpoint", "serve_and_node_in_turn"]
OTHERS = ["judge_same_prev", "replay_a_join_supersedes_both", "scan_concurrent_writes"]


def records(file):
    """The records of a journal's file."""
    found, gate = [], 0 if len(file) > 1 else len(file)
    while file[gate:gate + 1] == b"\1":
        length = int.from_bytes(file[gate + 1:gate + 5], "big")
        found.append(file[gate + 5:gate + 5 + length])
        gate += 5 + length
    return found


class Run:
    """A run of a case of this folder, over what the runs before it left."""

    def __init__(self, room, shim, name, number):
        self.room, self.shim, self.folder, self.number = room, shim, os.path.join(CASES, name), number

    def content(self, name, number):
        """What a file of the case has for a run, nothing where there is none."""
        path = os.path.join(self.folder, name if number == 1 else f"{name}.{number}")
        if not os.path.exists(path):
            return b""
        with open(path, "rb") as file:
            return file.read()

    def words(self, number):
        return self.content("args", number).decode().split("\n")[:-1], self.content("at", number).decode().strip()

    def command(self):
        return self.words(self.number)[0][0]

    def place(self):
        """A new folder in which the runs before this one were made."""
        place = os.path.join(self.room, "run")
        shutil.rmtree(place, ignore_errors=True)
        if os.path.isdir(os.path.join(self.folder, "data")):
            shutil.copytree(os.path.join(self.folder, "data"), place)
        else:
            os.mkdir(place)
        for number in range(1, self.number):
            self.run(place, number)
        return place

    def run(self, place, number=None, comes=None, **failing):
        """The status and the text of this run or another one there, how many calls of each kind it made, and the file on which one failed. What
        comes over its input may be given."""
        words, at = self.words(number or self.number)
        comes = self.content("stdin", number or self.number) if comes is None else comes
        counts = os.path.join(self.room, "counts")
        env = {"LD_PRELOAD": self.shim, "CALL_COUNTS": counts, **{name: str(value) for name, value in failing.items()}}
        ran = subprocess.run([DEPOT, *words], cwd=os.path.join(place, at), env=env, input=comes, capture_output=True, timeout=60)
        with open(counts, "rb") as file:
            numbers, name = file.read().split(b"\n")[:2]
        return ran.returncode, ran.stdout, [int(word) for word in numbers.split()], name

    def journal(self, place):
        """The records of the journal that this run is over, none where it is no node's."""
        words, at = self.words(self.number)
        path = os.path.join(place, at, JOURNAL)
        if words[0] not in ("node", "serve") or not os.path.exists(path):
            return []
        with open(path, "rb") as file:
            return records(file.read())

    def told(self, front):
        """The records that the commands or requests leave that a front tells: those of a run that has no others. Where it tells none, those from
        before."""
        words, at = self.words(self.number)
        place = self.place()
        lines = sum(not line.startswith(b" ") for line in front.split(b"\n")[:-1])
        if words[0] == "serve" and front:
            self.run(place, comes=messages(*bodies_in(self.content("stdin", self.number))[0][:len(bodies_in(front)[0]) - 1]))
        elif words[0] == "node" and lines:
            script = os.path.join(place, at, words[-1])
            with open(script, "rb") as file:
                commands = file.readlines()[:lines]
            with open(script, "wb") as file:
                file.writelines(commands)
            self.run(place)
        return self.journal(place)

    def is_one_group(self, whole):
        """Whether it is of `serve`, and all requests that come to it are answered together; it writes this text."""
        comes = self.content("stdin", self.number)
        return self.command() == "serve" and len(comes) <= MOST_AHEAD and len(bodies_in(comes)[0]) <= MOST_REQUESTS and len(whole) < MOST_REPLIES

    def front_of(self, whole, status, name, text):
        """What a run with this status wrote of the whole text, if it wrote a front of it and then what tells that something failed."""
        serves = self.command() == "serve"
        last = last_message(status, name, text) if serves else last_line(status, name)
        front = text[:len(text) - len(last)]
        is_whole = not bodies_in(front)[1] if serves else front.endswith(b"\n") or not front
        return front if (is_whole or status == OUTPUT) and text == front + last and whole.startswith(front) else None


def begins(records_, front):
    return records_[:len(front)] == front


def is_all_or_none(run, whole, before, left, after):
    """Whether of a group, if the run is one, all records stand or none. A journal that had none has its birth before the group."""
    return not run.is_one_group(whole) or len(left) in (len(before), max(len(before), 1), len(after))


def shares_its_syncs(run, whole, calls, after):
    """Whether the run, if it is one group, makes four calls on the journal's file for all its records, and none where it brings none."""
    place = run.place()
    _, _, idle, _ = run.run(place, comes=b"")
    made = CALLS_OF_A_GROUP if len(after) > len(run.journal(place)) else 0
    return not run.is_one_group(whole) or calls[0] == idle[0] + made


def ends_well(run, whole, after, status, failing):
    """Whether a run in which a call fails ends with this status, leaves what it must, and goes on."""
    place = run.place()
    before = run.journal(place)
    ended, text, calls, name = run.run(place, **failing)
    front = run.front_of(whole, status, name, text)
    if ended != status or front is None or status in (DISK, STOPPED) and calls[0] not in failing.values():
        return False
    left = run.journal(place)
    again, *_ = run.run(place)
    goes_on = again in ENDS_OF.get(os.path.basename(run.folder), ENDS) and begins(run.journal(place), left)
    return goes_on and begins(after, left) and begins(left, run.told(front)) and is_all_or_none(run, whole, before, left, after)


def failures(calls):
    """Each call that may fail, and the status then."""
    disk, output, shelf, reads = calls
    for call in range(1, disk + 1):
        yield DISK, {"DISK_REFUSED": call}
        for image in range(IMAGES):
            yield STOPPED, {"DISK_STOPPED": call, "DISK_IMAGE": image}
    for call in range(1, output + 1):
        yield OUTPUT, {"OUTPUT_REFUSED": call}
    for call in range(1, shelf + 1):
        yield SHELF, {"SHELF_REFUSED": call}
    for call in range(1, reads + 1):
        yield INPUT, {"INPUT_REFUSED": call}


def tried(run):
    """How often a run has a failing call here, and in which of them it ended otherwise than it must."""
    place = run.place()
    status, whole, calls, _ = run.run(place)
    assert status == 0 and (calls[0] > 0) == (run.command() in ("node", "serve")), (run.folder, status, calls)
    assert (calls[3] > 0) == (run.command() == "serve"), (run.folder, calls)
    after, failing = run.journal(place), list(failures(calls))
    wrong = [which for status, which in failing if not ends_well(run, whole, after, status, which)]
    return len(failing), wrong if shares_its_syncs(run, whole, calls, after) else [*wrong, "more syncs"]


def runs_of(room, shim, name):
    """The runs of a case."""
    number = 1
    while os.path.exists(os.path.join(CASES, name, "args" if number == 1 else f"args.{number}")):
        yield Run(room, shim, name, number)
        number += 1


def is_of_nodes(name):
    """Whether a case's first run is a node's, and all its runs end with status 0."""
    case = os.path.join(CASES, name)
    if not os.path.exists(os.path.join(case, "args")) or os.path.exists(os.path.join(case, "status")):
        return False
    with open(os.path.join(case, "args"), encoding="utf-8") as file:
        return file.readline() == "node\n"


def main():
    cases = sys.argv[1:] or sorted(filter(is_of_nodes, os.listdir(CASES))) + SERVED + OTHERS
    good = True
    with tempfile.TemporaryDirectory() as room:
        shim = os.path.join(room, "failing_calls.so")
        subprocess.run(["cc", "-shared", "-fPIC", "-O1", "-o", shim, os.path.join(HERE, "failing_calls.c"), "-ldl"], check=True)
        for name in cases:
            results = [tried(run) for run in runs_of(room, shim, name)]
            count, wrong = sum(count for count, _ in results), [which for _, some in results for which in some]
            print(f"{name}: {count} times a call fails: " + (f"{len(wrong)} runs ended otherwise than they must {wrong[:5]}" if wrong else "all as they must"))
            good = good and count > 0 and not wrong
    sys.exit(0 if good and cases else 1)


if __name__ == "__main__":
    main()
