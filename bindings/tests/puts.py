"""The puts of puts.c from Python. usage: puts.py LIBRARY ROSTER SEED HEIGHT NUMBER FOLDER COUNT"""
import os
import sys

sys.path.insert(0, os.path.join(os.path.dirname(os.path.abspath(__file__)), ".."))
import depot  # noqa: E402

library, roster, seed, height, number, folder, count = sys.argv[1:]
with open(roster, "rb") as file:
    roster = file.read()
is_first = not os.path.exists(os.path.join(folder, "depot.journal"))
journal = depot.JournalFile(folder, roster, int(number), is_first=is_first)
with depot.Node(depot.load(library), roster, bytes.fromhex(seed), int(height), int(number), journal) as node:
    for i in range(int(count)):
        put = node.put({b"k%d" % (i % 7): b"v%d" % i})
        print("%d/%d" % (put.seq, put.clock), flush=True)
