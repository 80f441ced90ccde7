#!/usr/bin/env python3
"""Members that never meet exchange through a folder, in which somebody replaces, cuts, repeats and invents files.

    python3 carrier.py [--seconds 12] [--seed 5] [--folder F] [--keep]

In the end every put that was acknowledged is at each member, all show the same, nobody is convicted, receipts came through the
folder, no service ended, the folder's bounds were kept by each, and an audit of the traces of all says yes.
"""

import argparse
import asyncio
import hashlib
import os
import random
import shutil
import sys
import tempfile
import time
from collections import Counter

import members
from asking import Gone, path_of
from members import Failed

NODES, HEIGHT = (1, 2, 3), 9
BOUNDS = {"pace": 0.4, "relay": 1.5, "keep": 60, "most files": 40, "most bytes": 8_000_000}


class Villain:
    """Somebody who can write in the folder, and has no key."""

    def __init__(self, folder, draw):
        self.folder, self.draw, self.kept, self.tally, self.made = folder, draw, {}, Counter(), set()
        self.deeds = [self.cut, self.flip, self.replace, self.remove, self.replay, self.rename, self.invent, self.pretend, self.obstruct]

    def path(self, name):
        """A file of the folder."""
        return os.path.join(self.folder, name)

    def names(self):
        """The files that members wrote."""
        return sorted(it for it in os.listdir(self.folder) if it.startswith(("hello-", "stream-")) and os.path.isfile(self.path(it)))

    def read(self, name):
        """What a file holds."""
        with open(self.path(name), "rb") as file:
            return file.read()

    def write(self, name, data):
        """Writes a file; those that are new are remembered, to be told from the members'."""
        if not os.path.exists(self.path(name)):
            self.made.add(name)
        with open(self.path(name), "wb") as file:
            file.write(data)

    def named(self, kind, data):
        """A name that fits these bytes, of any member."""
        number = int((time.time() + self.draw.uniform(-5, 5)) * 1000)
        return "%s-%05d-%015d-%s" % (kind, self.draw.choice(NODES), number, hashlib.sha256(data).hexdigest())

    def cut(self, name, data):
        """Cuts a file short."""
        self.write(name, data[: self.draw.randrange(len(data))])

    def flip(self, name, data):
        """Flips a bit."""
        at = self.draw.randrange(len(data))
        self.write(name, data[:at] + bytes([data[at] ^ 1 << self.draw.randrange(8)]) + data[at + 1 :])

    def replace(self, name, data):
        """Puts what another file holds in its place."""
        self.write(name, self.read(self.draw.choice(self.names())))

    def remove(self, name, data):
        """Removes a file."""
        os.remove(self.path(name))

    def replay(self, name, data):
        """Brings an old file back, as it was."""
        if self.kept:
            old = self.draw.choice(sorted(self.kept))
            self.write(old, self.kept[old])

    def rename(self, name, data):
        """The same bytes under a newer number, or another member's."""
        self.write(self.named(name.split("-")[0], data), data)

    def invent(self, name, data):
        """A stream of rubbish, or one of a member that is changed, under a name that fits."""
        if self.draw.random() < 0.5:
            made = bytes([self.draw.randint(1, 3)]) + (300).to_bytes(4, "big") + bytes(300)
        else:
            at = self.draw.randrange(len(data))
            made = data[:at] + bytes([data[at] ^ 1 << self.draw.randrange(8)]) + data[at + 1 :]
        self.write(self.named(self.draw.choice(["stream", "hello"]), made), made)

    def pretend(self, name, data):
        """A hello of a member that has nothing."""
        hello = [it for it in self.names() if it.startswith("hello-")]
        if hello:
            made = self.read(self.draw.choice(hello))[:36] + bytes(6)
            self.write(self.named("hello", made), made)

    def obstruct(self, name, data):
        """What is no file of the carrier: a link, a pipe, a folder, one that is too long."""
        made = self.path(self.named("stream", os.urandom(8)))
        kind = self.draw.randrange(4)
        if kind == 0:
            os.symlink("/dev/zero", made)
        elif kind == 1:
            os.mkfifo(made)
        elif kind == 2:
            os.mkdir(made)
        else:
            with open(made, "wb") as file:
                file.truncate(64 << 20)
        self.made.add(os.path.basename(made))

    async def run(self):
        """Does one deed after the other, until it is cancelled. What members drop meanwhile is gone."""
        while True:
            await asyncio.sleep(self.draw.uniform(0.05, 0.25))
            deed = self.draw.choice(self.deeds)
            try:
                name = self.draw.choice(self.names())
                data = self.read(name)
                if name not in self.made:
                    self.kept[name] = data
                deed(name, data)
                self.tally[deed.__name__] += 1
            except (OSError, IndexError, ValueError):
                continue


class Carried:
    """A run."""

    def __init__(self, words, folder):
        self.words, self.draw = words, random.Random(words.seed)
        self.cluster = members.Cluster(folder, {it: HEIGHT for it in NODES})
        self.shared = os.path.join(folder, "shared")
        os.mkdir(self.shared)
        self.nodes = {it: self.cluster.config(it, {}, carrier=dict(BOUNDS, folder=self.shared)) for it in NODES}
        self.acked, self.tally = [], Counter()

    async def program(self, node):
        """A local program of a member."""
        count = 0
        while True:
            await asyncio.sleep(self.draw.uniform(0.1, 0.5))
            count += 1
            try:
                answer = await self.nodes[node].client.put(b"key-%d" % self.draw.randrange(12), b"%d.%d" % (node, count))
            except Gone:
                continue
            if answer.code == 200:
                self.acked.append(bytes.fromhex(answer.json()["id"]))

    async def run(self):
        """All of it."""
        await asyncio.gather(*(it.start().ready() for it in self.nodes.values()))
        villain = Villain(self.shared, random.Random(self.words.seed))
        work = [asyncio.ensure_future(self.program(it)) for it in NODES] + [asyncio.ensure_future(villain.run())]
        await asyncio.sleep(self.words.seconds / 2)
        self.nodes[2].kill()
        await self.nodes[2].start().ready()
        await asyncio.sleep(self.words.seconds / 2)
        for it in work:
            it.cancel()
        await asyncio.gather(*work, return_exceptions=True)
        self.tally.update(villain.tally)
        answer = await self.nodes[1].client.ask("PUT", path_of(b"settled") + "?copies=2&wait=60", b"v", wait=60)
        if answer.code != 200:
            raise Failed("no receipts through the folder: %d" % answer.code)
        self.acked.append(bytes.fromhex(answer.json()["id"]))
        self.tally["in step behind"] = round(await members.in_step([*self.nodes.values()]))
        await self.look(villain)

    async def look(self, villain):
        """What has to hold."""
        for it in self.nodes.values():
            if (await it.client.status())["convicted"]:
                raise Failed("somebody is convicted at %s" % it.config)
        await members.ended(self.nodes.values())
        ids = {node: members.ids_of(self.cluster.journal(node)) for node in NODES}
        lost = [id.hex() for id in self.acked for node in NODES if id not in ids[node]]
        if lost:
            raise Failed("puts that were acknowledged are lacking: %s" % lost[:3])
        own = Counter(it.split("-")[1] for it in villain.names() if it not in villain.made and it not in villain.kept)
        if max(own.values(), default=0) > BOUNDS["most files"] + 2:
            raise Failed("more files than the bound: %s" % own)
        told = members.audit(self.cluster, NODES)
        if told != "yes":
            raise Failed("audit: %s" % told)


def main():
    """Reads the words; the status."""
    parser = argparse.ArgumentParser(description=__doc__, formatter_class=argparse.RawDescriptionHelpFormatter)
    parser.add_argument("--seconds", type=float, default=12.0)
    parser.add_argument("--seed", type=int, default=5)
    parser.add_argument("--folder")
    parser.add_argument("--keep", action="store_true")
    words = parser.parse_args()
    carried = Carried(words, words.folder or tempfile.mkdtemp(prefix="depot-carrier-"))
    why = ""
    try:
        asyncio.run(carried.run())
    except (Failed, Gone) as fault:
        why = str(fault)
    finally:
        for it in carried.nodes.values():
            it.kill()
    if not words.keep:
        shutil.rmtree(carried.cluster.folder)
    print("%d puts acknowledged; %s" % (len(carried.acked), dict(carried.tally)))
    print("carrier: %s" % (why or "ok"))
    return 1 if why else 0


if __name__ == "__main__":
    sys.exit(main())
