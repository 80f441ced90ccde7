#!/usr/bin/env python3
"""Tells which functions of a crate are dear to prove, for builders.

Usage: dear.py CRATE

Proves the crate from nothing with one job, in a folder of its own, over the libraries that stand in crates/*/out/rlib (`rt lib` in a crate
makes those below it), and prints the seconds of each function that took one or more, and of all the others together. The prover writes a file
for each piece of a proof as it ends, so a piece took the time since the file before it.
"""
import re
import subprocess
import sys
import tempfile
from collections import Counter
from pathlib import Path

import library

# Pieces of a function's proof, which stand behind its name: its loans and drops, its goals, its answers.
PIECE = re.compile(r"\.(Lts|Goals|Answers|Invariants|Proof|Met|Spec|Code|TheImpl|TheLinks)\b.*")


def function_of(name, crate):
    """The function of a file of kept work, as module.function or module.Type.function."""
    inside = name.rsplit(".", 1)[0].replace(f"Rattle-{crate}-proofs.", "").replace(f"Rattle-{crate}-", "")
    return PIECE.sub("", inside)


def times(folder, crate):
    """The seconds that each function took, by the times of the files in a folder of kept work."""
    files = sorted((it.stat().st_mtime, it.name) for it in Path(folder).rglob("*.oantt"))
    taken = Counter()
    for (before, _), (after, name) in zip(files, files[1:]):
        taken[function_of(name, crate)] += after - before
    return taken


def prove(crate, folder):
    """Proves a crate from nothing with one job, and keeps its work in a folder. The status is the prover's."""
    kit, uses = library.kit_folder(), library.uses_of_crates()
    place = library.ROOT / "crates" / crate
    root = "src/lib.rt" if (place / "src/lib.rt").exists() else "src/main.rt"
    words = [kit / "bin/rattle", "check", "--crate-name", crate, root, *library.words_over(crate, kit, uses, "1"), "--incremental", folder]
    ran = subprocess.run(words, cwd=place, stdout=subprocess.DEVNULL, stderr=subprocess.PIPE, text=True)
    if ran.returncode:
        sys.stderr.write(ran.stderr)
    return ran.returncode


def main():
    if len(sys.argv) != 2 or sys.argv[1] not in library.uses_of_crates():
        asked = sys.argv[1:] in (["-h"], ["--help"])
        print(__doc__, file=sys.stdout if asked else sys.stderr)
        sys.exit(0 if asked else 1)
    with tempfile.TemporaryDirectory() as folder:
        status = prove(sys.argv[1], folder)
        taken = times(folder, sys.argv[1])
    dear = [(seconds, name) for name, seconds in taken.items() if seconds >= 1]
    for seconds, name in sorted(dear, reverse=True):
        print(f"{seconds:6.0f}  {name}")
    print(f"{sum(taken.values()) - sum(seconds for seconds, _ in dear):6.0f}  all others")
    sys.exit(status)


if __name__ == "__main__":
    main()
