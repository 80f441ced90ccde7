#!/usr/bin/env python3
"""Measures the program: processor time in seconds and in units of `depot key` of height 12, and the greatest resident memory.

Usage: bench.py [--program FILE] [--times N] [--shares] [--instructions] [NAME ..]

    NAME            what is measured; all of them where none is named
    load-1 load-2   `depot load 1`, `depot load 2`
    chains          a replay of two nodes that put 4,000 times by turns, and exchange after each put
    idle            2,000 exchanges that bring nothing, after 500 and after 4,000 such puts
    branches        a replay of a node that takes an update after 1,025 branches of a faulty writer
    scan            a scan of a chain of 20,000 updates of one key
    puts            2,000 puts of one node, with its key
    journal-2000    a node takes 2,000 updates of five writers with their values, opens its journal, and bundles it
    journal-20000   the same of 20,000 updates

Each figure is the least of N runs (5). The unit is measured first, in the same way. Files stand in the folder for temporary files:
TMPDIR=/dev/shm leaves out what a disk's syncs cost. With --shares each is run once more under `perf`, which
tells how much of it was SHA-256; with --instructions once more under `valgrind`, which counts them (in millions: they don't hang on what
else the machine does). In a run of a node one unit is its key, of height 12. Run it by hand, on a machine that does nothing else: it
is no test. The program is that of ./depot, built.
"""
import argparse
import os
import re
import shutil
import subprocess
import sys
import tempfile
import time
from pathlib import Path

ROOT = Path(__file__).resolve().parent.parent
KEY_OF_NOTE = "6e6f7465"
WRITERS = range(1, 6)
TAKER, READER, PUTTER = 6, 7, 8
HEIGHT = 12


def seed(number):
    """The seed of a node, in hex."""
    return f"{number:02x}" * 32


class Bench:
    """Runs the program in a folder, and prints a row for each workload."""

    def __init__(self, program, room, times, shares, counts=False):
        self.program, self.room, self.times, self.shares, self.counts = program, room, times, shares, counts
        self.unit = None

    def once(self, words, folder):
        """Processor seconds and peak memory in MB of one run. (What `wait4` tells of memory counts this script's own, from before the run.)"""
        peak, ended = 0, 0
        with open(os.devnull, "w") as nowhere:
            child = subprocess.Popen([self.program, *map(str, words)], cwd=folder, stdout=nowhere)
        while not ended:
            found = re.search(r"VmHWM:\s+(\d+)", Path(f"/proc/{child.pid}/status").read_text())
            peak = int(found[1]) if found else peak
            ended, status, use = os.wait4(child.pid, os.WNOHANG)
            time.sleep(0.002)
        if status:
            sys.exit(f"bench.py: status {status >> 8} of depot {' '.join(map(str, words))}, in {folder}")
        return use.ru_utime + use.ru_stime, peak / 1000

    def least(self, words, folder=None, before=None):
        """The least processor time of the runs, and the greatest memory; `before` makes the folder as it was before each run."""
        runs = []
        for _ in range(self.times):
            if before:
                before()
            runs.append(self.once(words, folder or self.room))
        return min(seconds for seconds, _ in runs), max(memory for _, memory in runs)

    def share(self, words, folder, before):
        """The percentage of a run's samples that fell into SHA-256."""
        if before:
            before()
        data = self.room / "perf.data"
        with open(os.devnull, "w") as nowhere:
            subprocess.run(
                ["perf", "record", "-q", "-F", "499", "-o", data, self.program, *map(str, words)], cwd=folder, stdout=nowhere, stderr=nowhere, check=True
            )
        report = ["perf", "report", "-i", data, "--stdio", "--no-children", "-F", "overhead,symbol"]
        lines = subprocess.run(report, stdout=subprocess.PIPE, stderr=subprocess.DEVNULL, text=True, check=True).stdout
        return sum(float(found[1]) for found in re.finditer(r"^ *([0-9.]+)% .*\bsha2::", lines, re.M))

    def instructions(self, words, folder=None, before=None):
        """How many instructions a run takes, as callgrind counts them; none where they aren't asked for."""
        if not self.counts:
            return None
        if before:
            before()
        command = ["valgrind", "--tool=callgrind", "--callgrind-out-file=/dev/null", self.program, *map(str, words)]
        with open(os.devnull, "w") as nowhere:
            run = subprocess.run(command, cwd=folder or self.room, stdout=nowhere, stderr=subprocess.PIPE, text=True, check=True)
        return int(re.search(r"Collected : (\d+)", run.stderr)[1])

    def measure(self, name, words, folder=None, before=None):
        """Prints a row, and gives the seconds."""
        folder = folder or self.room
        seconds, memory = self.least(words, folder, before)
        share = f"{self.share(words, folder, before):.0f}%" if self.shares else ""
        self.row(name, seconds, f"{memory:.0f}", share, self.instructions(words, folder, before))
        return seconds

    def row(self, name, seconds, memory="", share="", instructions=None):
        """Prints a row; instructions are told in millions."""
        counted = "" if instructions is None else f"{instructions / 1e6:,.0f}"
        print(f"| {name} | {seconds:.3f} | {seconds / self.unit:.3f} | {memory} | {share} | {counted} |", flush=True)

    def begin(self):
        """Measures the unit, and prints the table's head."""
        words = ["key", seed(1), HEIGHT]
        self.unit, memory = self.least(words)
        print("| what | seconds | units | MB | SHA-256 | instructions |\n|---|---|---|---|---|---|")
        self.row("key of height 12, the unit", self.unit, f"{memory:.0f}", instructions=self.instructions(words))

    # ---- schedules, logs and loads

    def schedule(self, *words):
        """Makes a schedule, and gives its file."""
        file = self.room / "-".join(["schedule", *map(str, words)]).replace("--", "")
        subprocess.run([sys.executable, ROOT / "examples/make_schedule.py", file, *map(str, words)], check=True)
        return file

    def load(self, number):
        self.measure(f"load {number}", ["load", number])

    def chains(self):
        self.measure("4,000 puts of two nodes by turns, with an exchange after each", ["replay", self.schedule("--chains", 4000)])

    def idle(self):
        """Exchanges that bring nothing: what a replay costs with them, less what it costs without."""
        for puts in (500, 4000):
            words = ["replay", self.schedule("--chains", puts)]
            more = ["replay", self.schedule("--chains", puts, "--idle", 2000)]
            seconds = self.least(more)[0] - self.least(words)[0]
            counted = self.instructions(more) - self.instructions(words) if self.counts else None
            self.row(f"2,000 exchanges that bring nothing, behind {puts:,} such puts", seconds, instructions=counted)

    def branches(self):
        self.measure("a node takes an update after 1,025 branches", ["replay", self.schedule("--branches", 1025)])

    def scan(self):
        log = self.room / "chain.log"
        subprocess.run([sys.executable, ROOT / "examples/make_log.py", log, "--chain", "20000"], check=True)
        self.measure("scan of a chain of 20,000 updates", ["scan", log, KEY_OF_NOTE])

    # ---- nodes

    def roster(self):
        """The roster of all nodes, made once."""
        file = self.room / "roster"
        if not file.exists():
            keys = []
            for number in range(1, PUTTER + 1):
                root = subprocess.run([self.program, "key", seed(number), str(HEIGHT)], stdout=subprocess.PIPE, text=True, check=True).stdout
                keys.append(f"{number:04x}{HEIGHT:02x}{root.strip()}")
            file.write_bytes(bytes.fromhex(f"0104{len(keys):04x}" + "".join(keys)))
        return file

    def node(self, number, lines, name=None):
        """Runs a script on a node, in its folder; a named run is measured, each time over the journal from before."""
        folder = self.room / f"node-{number}"
        folder.mkdir(exist_ok=True)
        (folder / "script").write_text("".join(line + "\n" for line in lines))
        words = ["node", self.roster(), seed(number), HEIGHT, number, "script"]
        journal = folder / "depot.journal"
        kept = journal.read_bytes() if journal.exists() else None

        def before():
            if kept is not None:
                journal.write_bytes(kept)
            elif journal.exists():
                journal.unlink()

        if name:
            self.measure(name, words, folder, before)
        else:
            self.once(words, folder)

    def forget(self, *numbers):
        """Gives up the journals of nodes."""
        for number in numbers:
            (self.room / f"node-{number}" / "depot.journal").unlink(missing_ok=True)

    def puts(self):
        self.forget(PUTTER)
        self.node(PUTTER, put_lines(PUTTER, 2000), "2,000 puts of 300 bytes, with the node's key")

    def journal(self, count):
        """Five writers put, one node takes all, and is opened, and bundles for another that has nothing."""
        self.forget(*WRITERS, TAKER, READER)
        self.node(TAKER, ["hello ../hello-taker"])
        self.node(READER, ["hello ../hello-reader"])
        for writer in WRITERS:
            self.node(writer, put_lines(writer, count // len(WRITERS)) + [f"bundle ../hello-taker ../bundle-{writer}"])
        takes = [f"take ../bundle-{writer}" for writer in WRITERS]
        self.node(TAKER, takes, f"{count:,} updates of five writers are taken, with the node's key")
        self.node(TAKER, takes)
        self.node(TAKER, [], "their journal is opened, with the node's key")
        self.node(TAKER, ["bundle ../hello-reader ../bundle"], "it is opened, and bundled for a node that has nothing")


def put_lines(writer, count):
    """Puts of a writer on 40 keys, of values of 300 bytes, each different from all others."""
    return [f"put {1 + i % 40:02x} {writer:02x}{i:0598x}" for i in range(count)]


WORKLOADS = {
    "load-1": lambda bench: bench.load(1),
    "load-2": lambda bench: bench.load(2),
    "chains": Bench.chains,
    "idle": Bench.idle,
    "branches": Bench.branches,
    "scan": Bench.scan,
    "puts": Bench.puts,
    "journal-2000": lambda bench: bench.journal(2000),
    "journal-20000": lambda bench: bench.journal(20000),
}


def built():
    """The program of ./depot, built first where it isn't."""
    subprocess.run([ROOT / "depot", "key", "0" * 64, "2"], stdout=subprocess.DEVNULL, stderr=subprocess.DEVNULL)
    return ROOT / "crates/depot_tool/out/depot_tool"


def main():
    parser = argparse.ArgumentParser(description=__doc__, formatter_class=argparse.RawDescriptionHelpFormatter)
    parser.add_argument("--program", type=Path)
    parser.add_argument("--times", type=int, default=5)
    parser.add_argument("--shares", action="store_true")
    parser.add_argument("--instructions", action="store_true")
    parser.add_argument("names", nargs="*", metavar="NAME", help=", ".join(WORKLOADS))
    args = parser.parse_args()
    unknown = set(args.names) - set(WORKLOADS)
    if unknown:
        parser.error(f"no workload {', '.join(sorted(unknown))}")
    if args.instructions and not shutil.which("valgrind"):
        parser.error("--instructions: valgrind isn't installed")
    program = (args.program or built()).resolve()
    with tempfile.TemporaryDirectory() as room:
        bench = Bench(program, Path(room), args.times, args.shares, args.instructions)
        bench.begin()
        for name in args.names or WORKLOADS:
            WORKLOADS[name](bench)


if __name__ == "__main__":
    main()
