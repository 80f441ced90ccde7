#!/usr/bin/env python3
"""Replays five busy nodes, and says whether they agree in the end: nothing was refused, each stream was whole, and for each key the
five reads are the same. Their streams come in pieces of 1,460 bytes, of one byte and of a million, with one transcript.

    python3 acceptance/five_nodes.py
"""

import os
import subprocess
import sys
import tempfile

ROOT = os.path.dirname(os.path.dirname(os.path.abspath(__file__)))
SIZES = (1460, 1, 1_000_000)


def replayed(room, text, size):
    """What the schedule prints, with the streams in pieces of so many bytes, and the status."""
    with open(os.path.join(room, "schedule"), "w") as out:
        out.write(text.replace(" 1460\n", f" {size}\n"))
    run = subprocess.run([os.path.join(ROOT, "depot"), "replay", "schedule"], cwd=room, capture_output=True, text=True)
    return run.stdout, run.returncode


def main():
    with tempfile.TemporaryDirectory() as room:
        busy = os.path.join(room, "busy")
        subprocess.run([sys.executable, os.path.join(ROOT, "examples/make_schedule.py"), busy], check=True)
        with open(busy) as made:
            text = made.read()
        runs = [replayed(room, text, size) for size in SIZES]
    printed, status = runs[0]
    events = [line.split(" -> ", 1) for line in printed.splitlines() if " -> " in line]
    gives = [answer for event, answer in events if event.startswith("give ")]
    reads = {}
    for event, answer in events:
        if event.startswith("get "):
            reads.setdefault(event.split(" ")[2], set()).add(answer)
    agree = len(reads) == 40 and all(len(answers) == 1 for answers in reads.values())
    whole = len(gives) == 40 and all(" refused 0 whole" in answer for answer in gives)
    same = text.count(" 1460\n") == len(gives) and all(run == runs[0] for run in runs)
    print(f"five nodes: status {status}, streams whole {whole}, reads agree {agree}, one transcript in pieces of any size {same}")
    sys.exit(0 if status == 0 and agree and whole and same else 1)


if __name__ == "__main__":
    main()
