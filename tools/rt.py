#!/usr/bin/env python3
"""Runs `rt` of the kit with the same words, so that it answers soon in a high crate.

Usage: rt.py WORDS ..    as rt.py check, in a crate's folder

To know whether a library is kept of the sources as they are, rt sums up those of each crate below it, and for each of these anew all below
that one: close to a minute for one sum of `depot_cli`, and rt takes several. This gives rt the same sums, each computed once for a question.
A kit in which rt is made otherwise gets the words as they are.
"""
import importlib.machinery
import importlib.util
import os
import shutil
import sys
import threading
import time

sys.dont_write_bytecode = True
# How long a sum is kept, in seconds.
KEPT_FOR = 2
# What is used here of the kit's rt.
NAMES = ("Crate", "lock", "guarded", "stop_on_links")
METHODS = ("stamp", "below", "is_built", "build_rlib")


def with_sums_kept(stamp):
    """The same sum of a crate, for which that of each crate below it is computed once in two seconds. Where a source changes in between,
    rt sees that after the proof, by another sum, as before."""
    kept = threading.local()

    def sum_of(crate):
        if time.monotonic() - getattr(kept, "since", -9) > KEPT_FOR and not getattr(kept, "depth", 0):
            kept.sums, kept.since = {}, time.monotonic()
        kept.depth = getattr(kept, "depth", 0) + 1
        try:
            if crate.folder not in kept.sums:
                kept.sums[crate.folder] = stamp(crate)
            return kept.sums[crate.folder]
        finally:
            kept.depth -= 1

    return sum_of


def is_known(rt):
    """Whether rt has what is used here of it."""
    library = getattr(rt, "rtlib", None)
    has = lambda it, names: all(callable(getattr(it, name, None)) for name in names)
    return callable(getattr(rt, "main", None)) and has(library, NAMES) and has(library.Crate, METHODS)


def load():
    """The kit's rt as a module, with its sums computed once; None where it is made otherwise."""
    if not shutil.which("rt"):
        sys.exit("the command rt isn't on the PATH")
    place = os.path.realpath(shutil.which("rt"))
    with open(place, "rb") as file:
        if b"python" not in file.readline():
            return None
    loader = importlib.machinery.SourceFileLoader("kit_rt", place)
    rt = importlib.util.module_from_spec(importlib.util.spec_from_loader("kit_rt", loader))
    sys.modules["kit_rt"] = rt
    loader.exec_module(rt)
    if not is_known(rt):
        return None
    rt.rtlib.Crate.stamp = with_sums_kept(rt.rtlib.Crate.stamp)
    return rt


def main():
    if len(sys.argv) < 2 or sys.argv[1] in ("-h", "--help"):
        print(__doc__, file=sys.stdout if len(sys.argv) > 1 else sys.stderr)
        sys.exit(0 if len(sys.argv) > 1 else 1)
    rt = load()
    if rt is None:
        os.execvp("rt", ["rt", *sys.argv[1:]])
    sys.exit(rt.main(sys.argv[1:]))


if __name__ == "__main__":
    main()
