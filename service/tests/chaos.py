#!/usr/bin/env python3
"""Chaos: five members behind bad links, with kills, local programs, a member that runs twice, and a hostile peer.

    python3 chaos.py [--seconds 14] [--seed 7] [--folder F] [--broken] [--keep]

Then has to hold: every put that was acknowledged is in the journal of each correct member, all show the same latest
writes, each has convicted the member that ran twice, and nobody else, by a proof that `depot judge` takes, memory was
bounded, and an audit of the traces of all says yes. With --broken two members' services answer before their records are kept,
and the status is 0 where that is caught: puts are lost, or one of the two is convicted or finds that its journal is old.
"""

import argparse
import asyncio
import json
import os
import random
import shutil
import ssl
import sys
import tempfile
import time
from collections import Counter
from typing import NamedTuple

import members
from asking import Client, Gone, changes_of, path_of
from hostile import Liar, Stranger
from members import Failed

CORRECT, FORKER = (1, 2, 3, 4, 5), 6
SIDES = {1: "a", 2: "a", 3: "a", 4: "b", 5: "b"}  # with which run of the forker each member talks
HEIGHT, KEYS, CLIENTS, RATE = 10, 40, 6, 25.0
KILLS, BROKEN_KILLS = 2, 6  # at least so many
CONVICTED = 77
LOST, BLAMED = "lost", "blamed"  # what a broken service comes to
OLD_JOURNAL, OTHER = 76, "other"
MEMORY, MEMORY_EACH = 160e6, 8  # bytes of all processes of a member, and for each byte of its journal


class Fault(NamedTuple):
    """What didn't hold: lost, blamed or other, and in words."""

    kind: str
    text: str


class Chaos:
    """A run: `faults` has what didn't hold."""

    def __init__(self, words, folder):
        self.words, self.draw = words, random.Random(words.seed)
        self.cluster = members.Cluster(folder, {it: HEIGHT for it in (*CORRECT, FORKER)})
        self.acked, self.floor, self.tally, self.faults = [], {}, Counter(), []
        self.keys = [b"key-%02d" % it for it in range(KEYS)]
        self.is_on, self.begun = True, time.monotonic()

    def fault(self, text, kind=OTHER):
        """Notes what doesn't hold."""
        self.faults.append(Fault(kind, text))

    def say(self, text):
        """Says how far it is."""
        print("%5.1f %s" % (time.monotonic() - self.begun, text), flush=True)

    # ---- members and links

    async def build(self):
        """Configs, and a proxy for each link."""
        self.proxies, listen = {}, {str(it): self.cluster.listen[it] for it in CORRECT}
        listen.update(a=self.cluster.listen[FORKER], b=members.free_port())

        async def link(source, target):
            it = await members.Proxy(listen[target], random.Random(self.draw.random())).start()
            self.proxies[source, target] = it
            return it.port

        self.nodes = {}
        for node in CORRECT:
            peers = {it: await link(str(node), str(it)) for it in CORRECT if it != node}
            peers[FORKER] = await link(str(node), SIDES[node])
            program = members.BROKEN if self.words.broken and node in (2, 4) else ""
            self.nodes[node] = self.cluster.config(node, peers, program=program, limits={"greet seconds": 2, "wait seconds": 4})
        self.runs = {}
        for side in "ab":
            peers = {it: await link(side, str(it)) for it in CORRECT if SIDES[it] == side}
            home = self.cluster.home(FORKER) + ("" if side == "a" else "-copy")
            self.runs[side] = self.cluster.config(FORKER, peers, home, listen[side], "6" + side)

    def all(self):
        """All processes."""
        return [*self.nodes.values(), *self.runs.values()]

    async def fork(self):
        """The forker puts, is stopped and copied, and both copies put on."""
        a, b = self.runs["a"], self.runs["b"]
        for at in range(3):
            await a.client.put(b"shared-%d" % at, b"before the copy")
        await asyncio.sleep(1.0)
        await a.end()
        home = self.cluster.home(FORKER)
        shutil.copytree(home, home + "-copy")
        b.is_first = False
        await asyncio.gather(a.start().ready(), b.start().ready())
        for at in range(4):
            for it, word in ((a, b"left"), (b, b"right")):
                try:
                    await it.client.put(self.draw.choice(self.keys), b"%s %d" % (word, at))
                except Gone:
                    pass
        self.say("member 6 has put on both branches")

    # ---- local programs

    async def program(self, number):
        """A local program that asks now one member, now another."""
        draw, count = random.Random(self.words.seed * 1000 + number), 0
        homes = {it: Client(self.nodes[it].http, 4) for it in CORRECT}
        while self.is_on:
            await asyncio.sleep(draw.expovariate(RATE / CLIENTS))
            node, count = draw.choice(CORRECT), count + 1
            try:
                if draw.random() < 0.3:
                    await self.read(node, homes[node], draw.choice(self.keys))
                else:
                    await self.write(node, homes[node], draw, b"%d.%d " % (number, count) + b"x" * draw.choice([10, 100, 1_000]))
            except Gone:
                self.tally["no answer"] += 1
                await asyncio.sleep(0.2)
        for it in homes.values():
            it.close()

    async def read(self, node, client, key):
        """A read, which mustn't go back behind what was acknowledged before it was asked."""
        floor = self.floor.get((node, key), 0)
        answer = await client.ask("GET", path_of(key) + "?all=1")
        if answer.code != 200:
            self.tally["read %d" % answer.code] += 1
            return
        self.tally["reads"] += 1
        top = max((it["clock"] for it in answer.json()["writes"]), default=0)
        if top < floor:
            self.fault("member %d shows %s at clock %d, and acknowledged %d" % (node, key, top, floor), LOST)

    async def write(self, node, client, draw, value):
        """A put, of one of several kinds."""
        roll, keys = draw.random(), draw.sample(self.keys, 3)
        if roll < 0.7:
            changes = {keys[0]: value}
            answer = await client.put(keys[0], value)
        elif roll < 0.8:
            changes = {keys[0]: None}
            answer = await client.ask("DELETE", path_of(keys[0]))
        elif roll < 0.97:
            changes = {keys[0]: value, keys[1]: value[:5], keys[2]: None}
            answer = await client.ask("POST", "/v1/put", changes_of(changes))
        else:
            changes = {keys[0]: value}
            answer = await client.ask("PUT", path_of(keys[0]) + "?copies=2&wait=2", value, wait=2)
            self.tally["copies %d" % answer.code] += 1
        if answer.code not in (200, 202):
            self.tally["put %d" % answer.code] += 1
            return
        self.tally["puts"] += 1
        told = answer.json()
        self.acked.append((node, bytes.fromhex(told["id"])))
        for key in changes:
            self.floor[node, key] = max(self.floor.get((node, key), 0), told["clock"])

    # ---- faults

    async def killer(self):
        """Kills a member now and then: by turns its service alone, and all that runs of it."""
        while self.is_on:
            await asyncio.sleep(self.draw.uniform(1.5, 3.5))
            it = self.nodes[self.draw.choice((2, 4) if self.words.broken else CORRECT)]
            if not self.is_on or not it.is_alive():
                continue
            it.kill(is_all=self.words.broken or self.tally["kills"] % 2 == 0)
            self.tally["kills"] += 1
            await asyncio.sleep(self.draw.uniform(0.1, 1.5))
            await it.start().ready()

    async def parter(self):
        """Makes links bad for a while."""
        while self.is_on:
            await asyncio.sleep(self.draw.uniform(0.5, 2.0))
            kind, pairs = self.draw.choice(["cut", "cut", "slow", "flip"]), list(self.proxies.values())
            if kind == "cut":
                side = {str(it) for it in self.draw.sample(CORRECT, 2)}
                pairs = [it for (source, target), it in self.proxies.items() if (source in side) != (target in side)]
            chosen = pairs if kind == "cut" else self.draw.sample(pairs, 8)
            for it in chosen:
                it.set(kind)
            self.tally["links " + kind] += 1
            await asyncio.sleep(self.draw.uniform(1.0, 3.0))
            for it in chosen:
                it.set("up")

    async def monitor(self):
        """Measures memory."""
        while True:
            for it in self.all():
                it.look()
            await asyncio.sleep(0.5)

    def foes(self):
        """The hostile peers' tasks."""
        certificates = []
        for node in CORRECT:
            with open(os.path.join(self.cluster.home(node), "certificate.pem"), encoding="ascii") as file:
                certificates.append(ssl.PEM_cert_to_DER_cert(file.read()))
        ports, https = [self.cluster.listen[it] for it in CORRECT], [self.nodes[it].http for it in CORRECT]
        self.hostile = [Stranger(ports, https, certificates, random.Random(it)) for it in range(2)] + [Liar(self.runs["a"].config, random.Random(9))]
        return [asyncio.ensure_future(it.run()) for it in self.hostile]

    # ---- a run

    async def run(self):
        """All of it."""
        await self.build()
        await asyncio.gather(*(it.start().ready() for it in [*self.nodes.values(), self.runs["a"]]))
        self.say("all members are ready")
        watch = asyncio.ensure_future(self.monitor())
        foes, work = self.foes(), [asyncio.ensure_future(self.program(it)) for it in range(CLIENTS)]
        work += [asyncio.ensure_future(self.killer()), asyncio.ensure_future(self.parter())]
        try:
            await asyncio.sleep(self.words.seconds * 0.15)
            await self.fork()
            await asyncio.sleep(self.words.seconds * 0.85)
            await self.until_killed(work)
            self.is_on = False
            await asyncio.gather(*work)
            await self.heal()
        finally:
            for it in [*foes, *work, watch]:
                it.cancel()
            await asyncio.gather(*foes, *work, watch, return_exceptions=True)
        await self.look()

    async def until_killed(self, work):
        """Goes on until enough kills were done, as a slow machine takes longer; for two minutes at most."""
        until, least = time.monotonic() + 120, BROKEN_KILLS if self.words.broken else KILLS
        while self.tally["kills"] < least and time.monotonic() < until and not any(it.done() for it in work):
            await asyncio.sleep(0.1)

    async def heal(self):
        """All links are up, all members run, and come into step while the hostile peers go on."""
        for it in self.proxies.values():
            it.set("up")
        for it in self.nodes.values():
            if not it.is_alive():
                await it.start().ready()
        took = await members.in_step([*self.nodes.values()])
        self.say("in step %.1f s behind the last fault" % took)

    async def look(self):
        """Looks at what has to hold."""
        self.shown = {node: await it.client.convictions() for node, it in self.nodes.items()}
        self.look_at_processes(await asyncio.gather(*(it.end() for it in self.nodes.values())), await asyncio.gather(*(it.end() for it in self.runs.values())))
        ids = {node: members.ids_of(self.cluster.journal(node)) for node in CORRECT}
        for node, id in self.acked:
            lacking = [it for it in CORRECT if id not in ids[it]]
            if lacking:
                self.fault("a put that member %d acknowledged isn't at %s" % (node, lacking), LOST)
        self.look_at_proofs()
        told = members.audit(self.cluster, CORRECT)
        if told != "yes":
            self.fault("audit: %s" % told)
        self.tally["updates"], self.tally["audited reads"] = len(ids[1]), self.count_reads()

    def look_at_processes(self, statuses, runs):
        """All ended well, the forker's as who is convicted or well; and none took too much memory."""
        if any(statuses) or any(it not in (0, CONVICTED) for it in runs):
            self.fault("statuses: %s of the members, %s of the runs of member 6" % (statuses, runs))
        for it in self.all():
            if "inner fault" in it.said(1 << 20) or "Traceback" in it.said(1 << 20):
                self.fault("%s has an inner fault: %s" % (it.config, it.said()))
        for node, it in self.nodes.items():
            bound = MEMORY + MEMORY_EACH * os.path.getsize(self.cluster.journal(node))
            if it.most_memory > bound:
                self.fault("member %d had %d MB, over %d" % (node, it.most_memory / 1e6, bound / 1e6))
        self.tally["most MB"] = max(it.most_memory for it in self.nodes.values()) // 1_000_000

    def look_at_proofs(self):
        """Each has convicted member 6 and nobody else, by a proof that the program takes."""
        for node, found in self.shown.items():
            if [it["node"] for it in found] != [FORKER]:
                self.fault("member %d convicts %s" % (node, [it["node"] for it in found]), BLAMED)
            for it in found:
                path = os.path.join(self.cluster.folder, "proof-%d-%d" % (node, it["node"]))
                with open(path, "wb") as file:
                    file.write(it["proof"])
                status, told = members.run_program("judge", self.cluster.roster, path)
                if status or not told.startswith("%d " % it["node"]):
                    self.fault("a proof at member %d: %s" % (node, told))

    def count_reads(self):
        """How many reads the traces have."""
        folder = self.cluster.folder
        found = 0
        for node in CORRECT:
            with open(os.path.join(folder, "trace%d" % node), "rb") as file:
                found += len(members.formats.read_trace(file.read()).reads)
        return found


async def run(words, folder):
    """A run that is cleared up behind; its faults."""
    chaos = Chaos(words, folder)
    try:
        await chaos.run()
    except Failed as why:
        chaos.fault(str(why), BLAMED if why.status in (OLD_JOURNAL, CONVICTED) else OTHER)
    except Gone as why:  # a member ends while it is asked
        await asyncio.sleep(5)
        ended = [it.process.wait(10) for it in chaos.nodes.values() if not it.is_alive()]
        chaos.fault("%s; ended with %s" % (why, ended), BLAMED if {OLD_JOURNAL, CONVICTED} & set(ended) else OTHER)
    finally:
        for it in [*getattr(chaos, "nodes", {}).values(), *getattr(chaos, "runs", {}).values()]:
            it.kill()
    deeds = sum((it.tally for it in getattr(chaos, "hostile", ())), Counter())
    print(json.dumps({"tally": chaos.tally, "hostile": deeds}, sort_keys=True))
    return chaos.faults


def main():
    """Reads the words; the status."""
    parser = argparse.ArgumentParser(description=__doc__, formatter_class=argparse.RawDescriptionHelpFormatter)
    parser.add_argument("--seconds", type=float, default=14.0)
    parser.add_argument("--seed", type=int, default=7)
    parser.add_argument("--folder")
    parser.add_argument("--broken", action="store_true")
    parser.add_argument("--keep", action="store_true")
    words = parser.parse_args()
    folder = words.folder or tempfile.mkdtemp(prefix="depot-chaos-")
    faults = asyncio.run(run(words, folder))
    if not words.keep:
        shutil.rmtree(folder)
    for it in faults[:10]:
        print("%s: %s" % (it.kind, it.text))
    is_good = any(it.kind in (LOST, BLAMED) for it in faults) if words.broken else not faults
    print("chaos%s: %s" % (" with a broken service" if words.broken else "", "ok" if is_good else "FAILED"))
    return 0 if is_good else 1


if __name__ == "__main__":
    sys.exit(main())
