#!/usr/bin/env python3
"""A service in twenty lines, over a node that stays: a line `NAME VALUE` of standard input is kept, and a line `NAME` is looked up.

    python3 examples/kept.py ROSTER SEED HEIGHT ID        # the node lies in depot.journal of this folder
"""

import os
import subprocess
import sys

DEPOT = os.path.join(os.path.dirname(os.path.abspath(__file__)), os.pardir, "depot")
node = subprocess.Popen([DEPOT, "serve"] + sys.argv[1:], stdin=subprocess.PIPE, stdout=subprocess.PIPE)


def read():
    return node.stdout.read(int.from_bytes(node.stdout.read(4), "big"))


def ask(body):
    node.stdin.write(len(body).to_bytes(4, "big") + body)
    node.stdin.flush()
    return read()


def sized(text, width):
    return len(text.encode()).to_bytes(width, "big") + text.encode()


started = read()
for line in sys.stdin if started[:1] == b"\0" else ():
    name, _, value = line.rstrip("\n").partition(" ")
    if value:  # put: one change, which gives a key a value
        print("kept" if ask(b"\1\1" + sized(name, 1) + b"\1" + sized(value, 4))[:1] == b"\1" else "not kept", flush=True)
    else:  # latest: of the first write, if there is one and it is a value that is held, the value
        found = ask(b"\x13" + sized(name, 1))
        print(found[56:56 + int.from_bytes(found[52:56], "big")].decode() if found[51:52] == b"\1" else "-", flush=True)
node.stdin.close()
sys.exit(node.wait())
