"""Puts under keys by their form, by the message and by the method. Those that receipts and checkpoints have are refused, and then
nothing is appended; they are read as any other. usage: keys.py LIBRARY ROSTER SEED HEIGHT NUMBER"""
import os
import sys

sys.path.insert(0, os.path.join(os.path.dirname(os.path.abspath(__file__)), ".."))
import depot  # noqa: E402

# a key, whether it may be put, and whether it may be read
KEYS = [
    (b"receipt:" + bytes(32), False, True),
    (b"receipt:" + bytes(31), True, True),
    (b"receipt:" + bytes(33), True, True),
    (b"receipt;" + bytes(32), True, True),
    (b"checkpoint:" + bytes(32), False, True),
    (b"checkpoint:" + bytes(31), True, True),
    (b"checkpoint:" + bytes(33), True, True),
    (b"checkpoint;" + bytes(32), True, True),
    (b"", False, False),
    (b"k", True, True),
]


def is_done(call, *words):
    try:
        call(*words)
    except depot.BadRequest:
        return False
    return True


def main(library, roster, seed, height, number):
    with open(roster, "rb") as file:
        roster = file.read()
    with depot.Node(depot.load(library), roster, bytes.fromhex(seed), int(height), int(number), depot.Forgetful()) as node:
        for key, put, read in KEYS:
            count, text = len(node.records()), bytes([len(key)]) + key
            told = is_done(node.put, {key: b"v"}), is_done(node.message, b"\1\1" + text + b"\0"), is_done(node.latest, key), is_done(node.message, b"\x13" + text)
            assert told == (put, put, read, read), (key, told)
            assert len(node.records()) - count == 2 * put, key
        for call in (lambda: node.put({b"k" * 256: b""}), lambda: node.latest(b"k" * 256)):
            assert not is_done(call)
    print("%d keys, by message and by method" % len(KEYS))


main(*sys.argv[1:])
