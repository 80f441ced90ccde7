#!/usr/bin/env python3
"""Writes a schedule for `depot replay SCHEDULE`.

Usage:
    make_schedule.py OUT                  five nodes with Winternitz keys of height 10: 200 puts on 40 keys, and exchanges
    make_schedule.py OUT --branches N     a faulty writer signs N branches, another vouches for them, and a node takes them all
    make_schedule.py OUT --chains N       two nodes put N times in all, by turns; after each put the other node takes it
    make_schedule.py OUT --chains N --idle K      and at the end one asks the other K times for news, of which there is none

In the first, nodes exchange while they write, in pieces of 1,460 bytes; one node is started again, and one bundle is never given. At
the end each node gives each other one a bundle, and all read every key. The format is that of docs/FORMATS.md ("Schedules").
"""
import argparse
import hashlib

NODES = range(1, 6)
KEYS = [hashlib.sha256(b"key %d" % i).hexdigest()[:40] for i in range(40)]


def value(i):
    """300 bytes, in hex."""
    return "".join(hashlib.sha256(b"value %d %d" % (i, part)).hexdigest() for part in range(10))[:600]


class Exchanges:
    """Lines by which one node gets what another has, each with labels of its own."""

    def __init__(self):
        self.count = 0

    def lines(self, reader, sender, given=True):
        self.count += 1
        hello, bundle = f"h{self.count}", f"b{self.count}"
        lines = [f"hello {reader} {hello}", f"bundle {sender} {hello} {bundle}"]
        return lines + ([f"give {reader} {bundle} 1460"] if given else [])


def busy():
    lines = ["depot schedule 1", "scheme winter 10"] + [f"node {node}" for node in NODES]
    exchanges = Exchanges()
    for i in range(200):
        node = 1 + i * 7 % 5
        lines.append(f"put {node} {KEYS[i * 11 % 40]} {value(i)}")
        if i % 10 == 9:
            reader = 1 + i * 3 % 5
            lines += exchanges.lines(reader, 1 + (reader + i // 10 % 4) % 5)
        if i == 120:
            lines.append("restart 2")
        if i == 150:
            lines += exchanges.lines(3, 4, given=False)
    for reader in NODES:
        for sender in NODES:
            if reader != sender:
                lines += exchanges.lines(reader, sender)
    return lines + [f"get {node} {key}" for key in KEYS for node in NODES]


def branches(count):
    lines = ["depot schedule 1", "scheme plain 12", "node 1", "faulty 8", "faulty 9"]
    lines += [f"update u{seq} 9 {seq} 1 - {seq:04x} {seq:04x} - right" for seq in range(count)]
    for number, start in enumerate(range(0, count, 256)):
        refs = ",".join(f"u{seq}" for seq in range(start, min(start + 256, count)))
        lines += [f"voucher v{number} 8 {number} {refs}", f"give 1 v{number}"]
    return lines + [f"give 1 u{seq}" for seq in range(count)] + ["put 1 6b 61"]


def chains(count, idle):
    lines = ["depot schedule 1", "scheme plain 12", "node 1", "node 2"]
    exchanges = Exchanges()
    for i in range(count):
        writer, reader = 1 + i % 2, 2 - i % 2
        lines.append(f"put {writer} {KEYS[i % 40]} {i:04x}")
        lines += exchanges.lines(reader, writer)
    for _ in range(idle):
        lines += exchanges.lines(1, 2)
    return lines


def main():
    parser = argparse.ArgumentParser()
    parser.add_argument("out")
    parser.add_argument("--branches", type=int)
    parser.add_argument("--chains", type=int)
    parser.add_argument("--idle", type=int, default=0)
    args = parser.parse_args()
    if args.branches is not None:
        lines = branches(args.branches)
    elif args.chains is not None:
        lines = chains(args.chains, args.idle)
    else:
        lines = busy()
    with open(args.out, "w") as out:
        out.write("".join(line + "\n" for line in lines))


if __name__ == "__main__":
    main()
