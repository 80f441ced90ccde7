#!/usr/bin/env python3
"""Makes schedules by chance, replays each, and says whether the program prints what the plain model does (model.py).

    python3 acceptance/stories.py              # a hundred stories
    python3 acceptance/stories.py COUNT SEED   # so many, the first of this seed, and each further one of the next

A schedule whose transcript differs is kept in the current folder as story.SEED.
"""

import os
import random
import subprocess
import sys
import tempfile

sys.path.insert(0, os.path.join(os.path.dirname(os.path.abspath(__file__)), "makers"))
from make_cases import ROOT, checkpoint_key  # noqa: E402
from model import World, transcript_of  # noqa: E402

DEPOT = os.environ.get("DEPOT", os.path.join(ROOT, "depot"))
KEYS = ["6b", "6b00", "6c", "6d"]
VALUES = ["-", "61", "62", "6162", "63" * 40]
CORRECT, FAULTY = (1, 2, 3), (8, 9)


class Story:
    """A schedule that is written line by line, by chance, with the labels that it has made so far."""

    def __init__(self, seed, events):
        self.draw = random.Random(seed)
        self.height = self.draw.choice([2, 4, 4, 6])
        self.lines = ["depot schedule 1", f"scheme plain {self.height}"]
        self.lines += [f"node {node}" for node in CORRECT] + [f"faulty {node}" for node in FAULTY]
        self.labels = {"update": [], "voucher": [], "plain": [], "hello": [], "bundle": [], "proof": []}
        self.streams, self.count, self.received, self.readers = [], 0, [], []
        # The clock and writer of each update, the writer and the named labels of each voucher, and how often each node put.
        self.clocks, self.writers, self.named, self.puts = {}, {}, {}, dict.fromkeys(CORRECT, 0)
        while len(self.lines) < events:
            self.add()

    def text(self):
        return "".join(line + "\n" for line in self.lines)

    def label(self, kind):
        self.count += 1
        made = f"{kind[0]}{self.count}"
        self.labels[kind].append(made)
        self.streams.append(made)
        return made

    def some(self, *kinds, fits=lambda label: True):
        """A label of these kinds that was made and fits, mostly a late one, or None."""
        made = [label for kind in kinds for label in self.labels[kind] if fits(label)]
        return self.draw.choice(made[-8:] if self.often(0.7) else made) if made else None

    def node(self):
        return self.draw.choice(CORRECT)

    def change(self, key):
        return key + ("!" if self.often(0.35) else "=" + self.draw.choice(VALUES))

    def writes(self):
        keys = sorted(self.draw.sample(KEYS, self.draw.choice([1, 1, 2, 2, 3])), key=bytes.fromhex)
        return ",".join(map(self.change, keys))

    def reference(self, fits=lambda label: True):
        """A reference to an update, or None."""
        node = self.node()
        if self.draw.random() < 0.3 and self.puts[node] + self.draw.random() > 0.95:
            return f"{node}.{self.draw.randrange(min(self.puts[node] + 1, 2**self.height))}"
        return self.some("update", fits=fits)

    def often(self, share):
        return self.draw.random() < share

    def add(self):
        event = self.draw.choices(
            [self.put, self.get, self.exchange, self.update, self.voucher, self.give, self.proof, self.hollow, self.bytes, self.restart, self.stop,
             self.receipt, self.settled, self.checkpoint, self.agree, self.trim, self.read],
            [14, 10, 12, 16, 5, 14, 4, 4, 6, 3, 3, 5, 4, 2, 4, 2, 20 if self.readers else 1])[0]
        event()

    def say(self, *words):
        self.lines.append(" ".join(map(str, words)))

    def put(self):
        node = self.node()
        self.puts[node] += 1
        if self.often(0.5):
            self.say("put", node, self.draw.choice(KEYS), self.draw.choice(VALUES))
        else:
            self.say("puts", node, self.writes())

    def get(self):
        self.say("get", self.node(), self.draw.choice(KEYS))

    def exchange(self):
        reader, giver = self.draw.sample(CORRECT, 2)
        hello = self.label("hello")
        self.say("hello", reader, hello)
        bundle = self.label("bundle")
        self.say("bundle", giver, hello, bundle)
        if self.often(0.85):
            self.hand(reader, bundle)

    def hand(self, node, label):
        self.say("give", node, label, *([self.draw.choice([1, 7, 100, 100_000])] if self.often(0.3) else []))

    def update(self):
        writer = self.draw.choice(FAULTY)

        def is_own(label):
            return (self.writers[label] == writer) == self.often(0.95)

        def is_other(label):
            return (self.writers[label] == writer) == self.often(0.05)

        prev = self.some("update", fits=is_own) if self.often(0.6) else None
        deps = [ref for ref in (self.reference(is_other) for _ in range(self.draw.choice([0, 0, 0, 1, 2]))) if ref]
        least = max([self.clocks.get(ref, self.draw.randrange(1, 8)) for ref in [*deps, *([prev] if prev else [])]], default=0)
        clock = max(1, least + self.draw.choice([1, 1, 1, 1, 2, 3, 0, -1, 65_536, 65_537]))
        seq = self.draw.randrange(min(2**self.height, 8))
        history = "right" if self.often(0.95) else "0" * 64
        several = self.often(0.5)
        what = [self.writes()] if several else [self.draw.choice(KEYS), self.draw.choice(VALUES)]
        made = self.label("update")
        self.say("updates" if several else "update", made, writer, seq, clock, prev or "-", *what, ",".join(deps) or "-", history)
        self.clocks[made], self.writers[made] = clock, writer
        if self.often(0.8):
            self.hand(self.node(), made)

    def voucher(self):
        refs = [ref for ref in (self.some("plain") if self.often(0.4) else self.reference() for _ in range(self.draw.choice([1, 2, 3]))) if ref]
        if refs:
            made, writer = self.label("voucher"), self.draw.choice(FAULTY)
            self.say("voucher", made, writer, self.draw.randrange(min(2**self.height, 8)), ",".join(refs))
            self.writers[made], self.named[made] = writer, refs
            if self.often(0.7):
                self.hand(self.node(), made)

    def give(self):
        if self.streams:
            self.hand(self.node(), self.draw.choice(self.streams[-12:]))

    def proof(self):
        one = self.some("update", "voucher")
        if one:
            other = self.some("update", "voucher", fits=lambda label: self.writers[label] == self.writers[one] or self.often(0.1))
            self.shown("proof", self.draw.choice(["SameNumber", "SamePrev", "SamePrev", "Backward"]), one, other or one)

    def hollow(self):
        voucher = self.some("voucher")
        if voucher and self.labels["plain"]:
            named = self.some("plain", fits=lambda label: label in self.named[voucher] or self.often(0.1))
            self.shown("hollow", voucher, named or self.some("plain"))

    def shown(self, event, *words):
        made = self.label("proof")
        self.say(event, made, *words)
        if self.often(0.7):
            self.say("judge", made)
        self.hand(self.node(), made)

    def bytes(self):
        source = self.draw.choice(self.streams) if self.streams else None
        kind = self.draw.choice(["raw", "cut", "cut", "flip", "join", "body"]) if source else "raw"
        made = self.label("plain")
        if kind == "raw":
            self.say("raw", made, self.draw.choice(["-", "00", "61", "040000000100", "0300000001" "61", "0200000000"]))
        elif kind == "cut":
            self.say("cut", made, source, self.draw.choice([0, 0, 5, 171]), self.draw.choice([0, 1, 120, 165, 100_000]))
        elif kind == "body":
            # The body of the statement that its first frame holds, if that has 120 bytes.
            self.say("cut", made, source, 9, self.draw.choice([120, 86, 122]))
        elif kind == "flip":
            self.say("flip", made, source, self.draw.choice([0, 4, 5, 9, 10, 13, 24, 57, 60, 100, 140, 170, 180, 300]))
        else:
            self.say("join", made, source, self.draw.choice(self.streams[:-1]))
        if self.often(0.4):
            self.hand(self.node(), made)
        if self.often(0.2):
            self.say("judge", made)

    def receipt(self):
        node = self.node()
        own = [f"{node}.{self.draw.randrange(self.puts[node])}"] if self.puts[node] and self.often(0.4) else []
        refs = own + [ref for ref in (self.reference() for _ in range(self.draw.choice([1, 1, 2]))) if ref and self.often(0.7)]
        if refs:
            self.puts[node] += 1
            self.say("receipt", node, ",".join(refs))
            self.received += [(node, ref) for ref in refs]

    def settled(self):
        node, ref = self.draw.choice(self.received[-6:]) if self.received and self.often(0.8) else (self.node(), self.reference())
        if ref:
            self.say("settled", node, ref, self.draw.choice([1, 1, 1, 2, 3]))

    def checkpoint(self):
        node, made = self.node(), self.label("hello")
        self.say("checkpoint", node, made)
        if self.often(0.5):
            self.say("sign", self.node(), made)
        return node, made

    def agree(self):
        """A node makes a checkpoint that most others sign, the faulty ones too, and a reader."""
        node, made = self.checkpoint()
        world = World(self.lines)
        list(world.play())
        text, own = world.bytes[made], world.nodes[node].own
        if not text:
            return
        for writer in FAULTY:
            if self.often(0.95):
                self.signature(world, node, writer, text)
        for other in CORRECT:
            if other != node and self.often(0.95):
                self.bring(node, other)
                self.say("sign", other, made)
                self.bring(other, node)
        self.reader(node, made)
        # This one was probably made, so it is read more often than others.
        self.readers += self.readers[-1:] * 7

    def signature(self, world, node, writer, text):
        """A faulty node signs the checkpoint that a node made last, above its newest update there. The other one vouches for that, so that it is taken."""
        accepted, own = world.nodes[node].accepted, world.nodes[node].own
        mine = [label for label in self.labels["update"] if self.writers[label] == writer and label in world.signed]
        prevs = [label for label in mine if world.signed[label].statement.id in accepted]
        clock = 1 + max(x.clock for x in accepted.values())
        made, vouched, by = self.label("update"), self.label("voucher"), next(other for other in FAULTY if other != writer)
        self.say("update", made, writer, self.free(writer), clock, max(prevs, key=self.clocks.get) if prevs and self.often(0.9) else "-",
                 checkpoint_key(text).hex(), text.hex() if self.often(0.95) else "61", f"{node}.{len(own) - 1}", "right")
        self.say("voucher", vouched, by, self.free(by), made)
        self.clocks[made], self.writers[made], self.writers[vouched], self.named[vouched] = clock, writer, by, [made]
        for label in (vouched, made):
            self.say("give", node, label)

    def free(self, writer):
        """The greatest number that no statement of a faulty node has yet, if there is one."""
        signing = [words for words in (line.split(" ") for line in self.lines) if words[0] in ("update", "updates", "voucher")]
        used = {int(words[3]) for words in signing if words[2] == str(writer)}
        return next((seq for seq in range(2**self.height - 1, 0, -1) if seq not in used), 0)

    def bring(self, giver, reader):
        hello, bundle = self.label("hello"), self.label("bundle")
        self.say("hello", reader, hello)
        self.say("bundle", giver, hello, bundle)
        self.say("give", reader, bundle)

    def reader(self, node, made):
        self.count += 1
        self.readers.append(f"t{self.count}")
        self.say("trim", node, made, self.readers[-1])

    def trim(self):
        made = self.some("hello", "plain")
        if made:
            self.reader(self.node(), made)

    def read(self):
        if not self.readers:
            return
        name = self.draw.choice(self.readers[-12:])
        if self.often(0.3):
            self.update()
            self.say("tgive", name, self.labels["update"][-1])
        elif self.streams and self.often(0.6):
            self.say("tgive", name, self.draw.choice(self.streams[-12:] if self.often(0.7) else self.streams))
        self.say("tget", name, self.draw.choice(KEYS))

    def restart(self):
        self.say("restart", self.node())

    def stop(self):
        self.say("stop", self.node(), self.draw.randrange(1, 14), self.draw.randrange(3))


def replayed(text, room):
    with open(os.path.join(room, "schedule"), "w") as out:
        out.write(text)
    run = subprocess.run([DEPOT, "replay", "schedule"], cwd=room, capture_output=True, text=True)
    return run.returncode, run.stdout


def is_told(seed, room):
    text = Story(seed, 90).text()
    made, (status, told) = transcript_of(text), replayed(text, room)
    if (status, told) == (0, made):
        return True
    pairs = [(one, other) for one, other in zip(told.splitlines() + ["-"], made.splitlines() + ["-"]) if one != other]
    print(f"story {seed}: status {status}, told {pairs[0][0][:150]!r}, the model {pairs[0][1][:150]!r}")
    with open(f"story.{seed}", "w") as out:
        out.write(text)
    return False


def main():
    count, first = (int(word) for word in (sys.argv[1:] + ["100", "1"][len(sys.argv) - 1:])[:2])
    with tempfile.TemporaryDirectory() as room:
        results = [is_told(seed, room) for seed in range(first, first + count)]
    print(f"{sum(results)} stories as told, {len(results) - sum(results)} not")
    sys.exit(0 if all(results) else 1)


if __name__ == "__main__":
    main()
