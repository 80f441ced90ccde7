#!/usr/bin/env python3
"""Plans of who exchanges with whom: what a round of each costs, by a replay of it.

    python3 bench/make_plans.py PROGRAM [MEMBERS [HEIGHT]]

In each round each member puts one value of 100 bytes under a key of its own, and then all exchange. PROGRAM is `depot`, and
MEMBERS is 8 if nothing is said. With a HEIGHT keys and signatures are real ones, so that bytes are; without, the plain scheme
is used, which shows the leaves and the rounds alone.

For each plan it prints how many exchanges a round has, within how many rounds a put has come to all, how many leaves for vouchers
one node spends in a round at most, how many all spend together, and the bytes that are carried. It is the third of three rounds.
"""

import re
import subprocess
import sys
import tempfile

ROUNDS = 3
MOST = 2**32 - 1
# Lines of a schedule's head but for its nodes; a replay prints nothing for these.
HEAD = 2


class Schedule:
    """The lines of a schedule, in which labels are numbered."""

    def __init__(self, members, height):
        scheme = "winter %d" % height if height else "plain 12"
        self.lines = ["depot schedule 1", "scheme %s" % scheme] + ["node %d" % it for it in range(1, members + 1)]
        self.members, self.labels = members, 0

    def add(self, line, *words):
        self.lines.append(line % words)

    def label(self):
        self.labels += 1
        return "l%d" % self.labels

    def put(self, round):
        for it in range(1, self.members + 1):
            self.add("put %d %02x %s", it, it, ("%02x" % round) * 100)

    def hello(self, node):
        label = self.label()
        self.add("hello %d %s", node, label)
        return label

    def bundle(self, node, hello):
        label = self.label()
        self.add("bundle %d %s %s", node, hello, label)
        return label

    def weigh(self, label):
        """Has the bytes of a label printed."""
        self.add("cut %s %s 0 %d", self.label(), label, MOST)

    def carry(self, reader, writer):
        """The reader gets what the writer has."""
        hello = self.hello(reader)
        stream = self.bundle(writer, hello)
        self.add("give %d %s", reader, stream)
        self.weigh(hello)
        self.weigh(stream)

    def both(self, one, other):
        self.carry(one, other)
        self.carry(other, one)

    def at_once(self, pairs):
        """All make their hellos, then all bundles are made, and then all are taken."""
        hellos = {it: self.hello(it) for it in range(1, self.members + 1)}
        streams = [(reader, hellos[reader], self.bundle(writer, hellos[reader])) for reader, writer in pairs]
        for reader, hello, stream in streams:
            self.add("give %d %s", reader, stream)
            self.weigh(hello)
            self.weigh(stream)


def others(members):
    return range(2, members + 1)


def star(schedule, members):
    for it in others(members):
        schedule.both(1, it)


def star_in_two_parts(schedule, members):
    for it in others(members):
        schedule.carry(1, it)
    for it in others(members):
        schedule.carry(it, 1)


def ring(schedule, members):
    pairs = [(it, it % members + 1) for it in range(1, members + 1)]
    schedule.at_once(pairs + [(other, one) for one, other in pairs])


def each_with_each(schedule, members):
    for one in range(1, members + 1):
        for other in range(one + 1, members + 1):
            schedule.both(one, other)


def each_with_each_at_once(schedule, members):
    schedule.at_once([(one, other) for one in range(1, members + 1) for other in range(1, members + 1) if one != other])


PLANS = [
    ("star, pair by pair", star), ("star, first to the middle, then from it", star_in_two_parts), ("ring, all at once", ring),
    ("each with each, pair by pair", each_with_each), ("each with each, all at once", each_with_each_at_once),
]


def replay(program, schedule):
    with tempfile.NamedTemporaryFile("w", suffix=".schedule") as file:
        file.write("".join(line + "\n" for line in schedule.lines))
        file.flush()
        ran = subprocess.run([program, "replay", file.name], stdout=subprocess.PIPE, check=True)
    return ran.stdout.decode().splitlines()


def cost(program, plan, members, height):
    """Of the last round: how many streams were carried, the most vouchers of a node, those of all, and the bytes."""
    schedule = Schedule(members, height)
    for round in range(ROUNDS):
        schedule.put(round)
        begin = len(schedule.lines) - members - HEAD
        plan(schedule, members)
    end = len(schedule.lines) - members - HEAD
    schedule.put(ROUNDS)
    lines = replay(program, schedule)
    seqs = [int(it.split(" -> ")[1].split("/")[0]) for it in lines if it.startswith("put ")]
    leaves = [after - before - 1 for before, after in zip(seqs[-2 * members : -members], seqs[-members:])]
    last = "\n".join(lines[begin:end])
    streams = len(re.findall("^bundle ", last, re.M))
    return streams, max(leaves), sum(leaves), sum(map(int, re.findall(r"-> (\d+) bytes", last)))


def rounds(program, plan, members):
    """Within how many rounds a put of each member has come to all."""
    schedule = Schedule(members, 0)
    schedule.put(0)
    for round in range(1, members + 1):
        plan(schedule, members)
        for node in range(1, members + 1):
            schedule.add("hello %d h%dn%d", node, round, node)
    lines = replay(program, schedule)
    for round in range(1, members + 1):
        leaves = [re.search(r"leaves (\d+)", it).group(1) for it in lines if re.match(r"hello \d+ h%dn" % round, it)]
        if leaves == [str(members)] * members:
            return round
    return None


def main(words):
    if not 1 <= len(words) <= 3 or words[0].startswith("-"):
        print(__doc__, file=sys.stderr)
        return 1
    program, members, height = words[0], int((words[1:] or ["8"])[0]), int((words[2:] or ["0"])[0])
    for name, plan in PLANS:
        streams, most, all, carried = cost(program, plan, members, height)
        told = "%s: %d streams, %d rounds, %d leaves of one, %d of all" % (name, streams, rounds(program, plan, members), most, all)
        print(told + (", %d bytes" % carried if height else ""), flush=True)
    return 0


if __name__ == "__main__":
    sys.exit(main(sys.argv[1:]))
