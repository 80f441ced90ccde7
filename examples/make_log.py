#!/usr/bin/env python3
"""Writes a log for `depot scan LOG KEY`.

Usage:
    make_log.py OUT              a small log: notes of two writers
    make_log.py OUT --chain N    a chain of N writes of the key `note` by writer 1, each the prev of the next
    make_log.py OUT --fan N      N writes of the key `note` that don't know each other, as a writer who forks makes them

A log is a list of bodies of updates, each behind its length as four bytes. All numbers are big-endian. A body is

    version 01, kind 01, writer u16, seq u32, clock u64, prev 32 bytes (zeros: none), key length u8, key,
    value hash 32 bytes (SHA-256 of the value), value length u32, entry count u16,
    entries (writer u16, clock u64, id 32 bytes) rising by (writer, id), history hash 32 bytes.

The id of an update is SHA-256 of its body; its parents are its prev and its entries. The history hash is SHA-256 of the
leaves of its past (all that a path of parents leads to): of each update of the past that none of it names as prev, in
rising order of (writer, id), writer u16, clock u64, id.

The small log, oldest first (the program's key is in hex: note is 6e6f7465, list is 6c697374):

    1/0/1  note = milk                                  neither knows the other:
    2/0/1  note = bread                                 both are latest writes of note
    1/1/2  note = milk and bread    after 1/0 and 2/0   supersedes both
    2/1/2  list = eggs              after 2/0           these two don't know each other either:
    1/2/3  list = tea               after 1/1           both are latest writes of list
"""
import argparse
import hashlib
import struct
from dataclasses import dataclass, field

ZEROS = bytes(32)


def sha256(data):
    return hashlib.sha256(data).digest()


@dataclass
class Update:
    writer: int
    seq: int
    clock: int
    key: bytes
    value: bytes
    prev: "Update | None" = None
    entries: list = field(default_factory=list)
    history: bytes = sha256(b"")

    def prev_id(self):
        return self.prev.id() if self.prev else ZEROS

    def body(self):
        entries = sorted(self.entries, key=lambda u: (u.writer, u.id()))
        return b"".join(
            [
                b"\x01\x01",
                struct.pack(">HIQ", self.writer, self.seq, self.clock),
                self.prev_id(),
                bytes([len(self.key)]),
                self.key,
                sha256(self.value),
                struct.pack(">IH", len(self.value), len(entries)),
                *(struct.pack(">HQ", u.writer, u.clock) + u.id() for u in entries),
                self.history,
            ]
        )

    def id(self):
        return sha256(self.body())


def history_of(update):
    """The history hash of an update, from its parents."""
    past, left = {}, [u for u in [update.prev, *update.entries] if u]
    while left:
        u = left.pop()
        if u.id() not in past:
            past[u.id()] = u
            left += [p for p in [u.prev, *u.entries] if p]
    named = {u.prev_id() for u in past.values()}
    leaves = sorted((u.writer, i, u.clock) for i, u in past.items() if i not in named)
    return sha256(b"".join(struct.pack(">HQ", w, c) + i for w, i, c in leaves))


def write_of(writer, seq, key, value, prev=None, entries=()):
    """The next write of a writer: one clock above its parents, with the right history hash."""
    parents = [u for u in [prev, *entries] if u]
    clock = 1 + max((u.clock for u in parents), default=0)
    update = Update(writer, seq, clock, key, value, prev, list(entries))
    update.history = history_of(update)
    return update


def notes():
    milk = write_of(1, 0, b"note", b"milk")
    bread = write_of(2, 0, b"note", b"bread")
    both = write_of(1, 1, b"note", b"milk and bread", milk, [bread])
    eggs = write_of(2, 1, b"list", b"eggs", bread)
    tea = write_of(1, 2, b"list", b"tea", both)
    return [u.body() for u in [milk, bread, both, eggs, tea]]


def chain(count):
    """A chain: the past of each write has one leaf, the write before it."""
    prev, history, bodies = ZEROS, sha256(b""), []
    for seq in range(count):
        clock = seq + 1
        value = b"%d" % seq
        body = b"".join(
            [b"\x01\x01", struct.pack(">HIQ", 1, seq, clock), prev, b"\x04note", sha256(value),
             struct.pack(">IH", len(value), 0), history]
        )
        bodies.append(body)
        prev = sha256(body)
        history = sha256(struct.pack(">HQ", 1, clock) + prev)
    return bodies


def fan(count):
    """Writes without parents, that differ by their seq."""
    return [write_of(1, seq, b"note", b"%d" % seq).body() for seq in range(count)]


def main():
    parser = argparse.ArgumentParser(description=__doc__, formatter_class=argparse.RawDescriptionHelpFormatter)
    parser.add_argument("out")
    size = parser.add_mutually_exclusive_group()
    size.add_argument("--chain", type=int, metavar="N")
    size.add_argument("--fan", type=int, metavar="N")
    args = parser.parse_args()
    if args.chain is not None:
        bodies = chain(args.chain)
    elif args.fan is not None:
        bodies = fan(args.fan)
    else:
        bodies = notes()
    with open(args.out, "wb") as out:
        for body in bodies:
            out.write(struct.pack(">I", len(body)) + body)


if __name__ == "__main__":
    main()
