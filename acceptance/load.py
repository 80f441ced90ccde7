#!/usr/bin/env python3
"""Makes the schedules of loads apart from the program, as docs/FORMATS.md tells, replays each, sums its transcript up, and says whether
`depot load` prints the same line; and whether the reads agree.

    python3 acceptance/load.py            # the loads 1 to 3, 0 and the greatest
    python3 acceptance/load.py NUMBER ..
"""

import os
import re
import subprocess
import sys
import tempfile

ROOT = os.path.dirname(os.path.dirname(os.path.abspath(__file__)))
DEPOT = os.path.join(ROOT, "depot")
NODES = range(1, 6)


class Draws:
    """The numbers that a load draws."""

    def __init__(self, number):
        self.state = number

    def draw(self, below):
        self.state = (self.state * 6364136223846793005 + 1442695040888963407) % 2**64
        return self.state // 2**33 % below


def exchange(reader, giver, hello, bundle):
    return [f"hello {reader} {hello}", f"bundle {giver} {hello} {bundle}"]


def event(draws, at, forks):
    """The events of one turn. The faulty writer has made so many updates."""
    kind = draws.draw(10)
    if kind <= 6:
        node, key = 1 + draws.draw(5), draws.draw(40)
        return [f"put {node} {key:04x} {at:08x}" if kind <= 4 else f"get {node} {key:04x}"]
    if kind <= 8:
        giver, reader = 1 + draws.draw(5), 1 + draws.draw(4)
        reader += reader >= giver
        give = f"give {reader} b{at}"
        ways = {0: [], 1: [give, give], 2: [give + " 1460"]}
        return exchange(reader, giver, f"h{at}", f"b{at}") + ways.get(draws.draw(8), [give])
    node = 1 + draws.draw(5)
    if draws.draw(4) == 0:
        return [f"restart {node}"]
    return [f"update f{at} 9 {forks} 1 - {draws.draw(40):04x} {at:08x} - right", f"give {node} f{at}"]


def schedule(number):
    draws, forks = Draws(number), 0
    lines = ["depot schedule 1", "scheme plain 12", *(f"node {node}" for node in NODES), "faulty 9"]
    for at in range(2000):
        events = event(draws, at, forks)
        forks += events[0].startswith("update")
        lines += events
    pairs = [(giver, reader) for _ in range(2) for giver in NODES for reader in NODES if reader != giver]
    for at, (giver, reader) in enumerate(pairs):
        lines += [*exchange(reader, giver, f"e{at}", f"g{at}"), f"give {reader} g{at}"]
    lines += [f"get {node} {key:04x}" for key in range(40) for node in NODES]
    lines += [f"hello {node} z{node}" for node in NODES]
    return "".join(line + "\n" for line in lines)


def summary(number, transcript):
    answers = [line.split(" ->", 1) for line in transcript.splitlines() if " ->" in line]
    puts = sum(bool(re.fullmatch(r" \d+/\d+", answer)) for event, answer in answers if event.startswith("put "))
    reports = [re.match(r" accepted (\d+) known (\d+) refused (\d+)", answer) for event, answer in answers if event.startswith("give ")]
    accepted, known, refused = (sum(int(report[part]) for report in reports if report) for part in (1, 2, 3))
    hellos = [int(answer.split()[1]) for event, answer in answers if event.startswith("hello ")]
    reads = {}
    for event, answer in answers:
        if event.startswith("get "):
            reads.setdefault(event.split()[2], []).append(answer)
    agree = all(len(set(last[-5:])) == 1 for last in reads.values())
    return f"load {number} puts {puts} accepted {accepted} known {known} refused {refused} convicted {sum(hellos[-5:])} agree {'yes' if agree else 'no'}\n", agree


def is_right(number, room):
    with open(os.path.join(room, "load"), "w") as file:
        file.write(schedule(number))
    replay = subprocess.run([DEPOT, "replay", "load"], cwd=room, capture_output=True, text=True)
    load = subprocess.run([DEPOT, "load", str(number)], cwd=room, capture_output=True, text=True)
    line, agree = summary(number, replay.stdout)
    right = (replay.returncode, load.returncode, load.stdout) == (0, 0, line) and agree
    print(load.stdout.strip(), "as replayed" if right else f"but replayed (status {replay.returncode}): {line.strip()}")
    return right


def main():
    numbers = [int(word) for word in sys.argv[1:]] or [1, 2, 3, 0, 2**32 - 1]
    with tempfile.TemporaryDirectory() as room:
        rights = [is_right(number, room) for number in numbers]
    sys.exit(0 if all(rights) else 1)


if __name__ == "__main__":
    main()
