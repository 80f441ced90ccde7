#!/usr/bin/python3 -B
"""What a service costs on this machine: rows for docs/BENCHMARKS.md, with the load of the machine beside them.

    service/bench.py [single] [copies] [mesh] [idle] [catchup]       all of them where none is named

The program is $DEPOT_PROGRAM, by default the launcher `depot` of this tree. Values have 100 bytes, keys 8. Members are on this
machine, over links with TLS, with the defaults of the config but for `round`, which is said. Processor time is that of all
processes together: services and programs. Not a test.
"""

import asyncio
import os
import shutil
import sys
import tempfile
import time

HERE = os.path.dirname(os.path.abspath(__file__))
sys.path.insert(0, os.path.join(HERE, "tests"))
import members  # noqa: E402
from asking import Client, Gone  # noqa: E402

VALUE = b"v" * 100
SECONDS = 8.0
SINGLE_HEIGHT, MESH_HEIGHT = 15, 12
OUT, LEAVES = 'depot_wire_bytes_total{way="out"}', 'depot_events_total{what="leaves_for_vouchers"}'


def load_now() -> str:
    """The machine's load now: how many processes run or wait to."""
    return "%.0f" % os.getloadavg()[0]


def row(*cells) -> None:
    """Prints a row of a table."""
    print("| %s |" % " | ".join(str(it) for it in cells), flush=True)


def at(found: list, part: float) -> float:
    """The value below which this part of them lies, in milliseconds."""
    return 1000 * sorted(found)[min(len(found) - 1, int(part * len(found)))]


class Writers:
    """Clients that put for a while: how many puts, how long each took."""

    def __init__(self, ports, rate=None, query=""):
        self.ports, self.rate, self.query, self.took, self.others = ports, rate, query, [], 0

    async def one(self, port: int, number: int, until: float, pause: float) -> None:
        """One client of one service; with a pause it keeps to its rate, as far as the service does."""
        client, count, due = Client(port, 30), 0, time.monotonic()
        while time.monotonic() < until:
            count += 1
            if pause:
                due += pause
                await asyncio.sleep(max(0.0, due - time.monotonic()))
            begun = time.perf_counter()
            try:
                answer = await client.ask("PUT", "/v1/values/k%07d%s" % ((number * 37 + count) % 1000, self.query), VALUE)
            except Gone:
                self.others += 1
                continue
            self.took.append(time.perf_counter() - begun)
            self.others += answer.code != 200
        client.close()

    def latencies(self) -> list:
        """The median and the 99th of a hundred, in milliseconds."""
        return ["%.1f" % at(self.took, it) for it in (0.5, 0.99)]

    async def run(self, clients: int, seconds: float = SECONDS) -> float:
        """All of them; puts a second."""
        begun, pause = time.monotonic(), clients / self.rate if self.rate else 0.0
        await asyncio.gather(*(self.one(self.ports[it % len(self.ports)], it, begun + seconds, pause) for it in range(clients)))
        return len(self.took) / (time.monotonic() - begun)


async def started(cluster, nodes, pace):
    """Processes of a mesh, ready."""
    found = cluster.mesh(nodes, pace=pace)
    await asyncio.gather(*(it.start().ready(120) for it in found.values()))
    return found


async def sums(processes):
    """The processor seconds, and the metrics of each."""
    for it in processes:
        it.look()
    return sum(it.seconds for it in processes), [await it.client.metrics() for it in processes]


def grown(was, now, name: str) -> float:
    """By how much a number of the metrics grew at all members together."""
    return sum(new.get(name, 0.0) - old.get(name, 0.0) for old, new in zip(was, now))


async def same(processes, seconds=180.0) -> float:
    """How long it takes until all have as many updates."""
    begun = time.monotonic()
    while len({(await it.client.status())["updates"] for it in processes}) > 1:
        if time.monotonic() - begun > seconds:
            return float("nan")
        await asyncio.sleep(0.02)
    return time.monotonic() - begun


# ---- measures


async def single(folder):
    """Puts a second of one member, by clients that put one after the other."""
    row("one member, puts by clients", "puts a second", "median ms", "p99 ms", "processor ms a put", "load")
    for clients in (1, 8, 32):
        cluster = members.Cluster(folder, {1: SINGLE_HEIGHT}, members.PROGRAM)
        it = cluster.config(1, {})
        await it.start().ready(120)
        before, _ = await sums([it])
        writers = Writers([it.http])
        rate = await writers.run(clients)
        after, _ = await sums([it])
        spent = 1000 * (after - before) / len(writers.took)
        row(clients, "%.0f" % rate, *writers.latencies(), "%.2f" % spent, load_now())
        await it.end()


async def copies(folder):
    """How long a put with copies takes, by one client and by sixteen."""
    row("five members, a put with copies", "clients", "puts a second", "median ms", "p99 ms", "not settled in 10 s", "load")
    for count in (1, 2, 4):
        for clients in (1, 16):
            cluster = members.Cluster(folder, {it: MESH_HEIGHT for it in range(1, 6)}, members.PROGRAM)
            found = [*(await started(cluster, range(1, 6), {"round": 10})).values()]
            writers = Writers([found[0].http], None, "?copies=%d" % count)
            rate = await writers.run(clients, 2.0)
            row("copies=%d" % count, clients, "%.0f" % rate, *writers.latencies(), writers.others, load_now())
            await asyncio.gather(*(it.end() for it in found))


async def mesh(folder):
    """Five members that all write, each with each."""
    row("five members, puts a second asked", "done", "median ms", "p99 ms", "in step behind s", "processor ms a put, all five",
        "wire bytes a put, all links", "vouchers a put", "most MB", "load")
    for rate in (10, 100, 400):
        cluster = members.Cluster(folder, {it: MESH_HEIGHT for it in range(1, 6)}, members.PROGRAM)
        found = [*(await started(cluster, range(1, 6), {"round": 10})).values()]
        await same(found)
        before, was = await sums(found)
        writers = Writers([it.http for it in found], rate)
        done = await writers.run(20 if rate > 10 else 5)
        behind = await same(found)
        after, now = await sums(found)
        puts = len(writers.took)
        row(rate, "%.0f" % done, *writers.latencies(), "%.2f" % behind, "%.1f" % (1000 * (after - before) / puts),
            "%.0f" % (grown(was, now, OUT) / puts), "%.3f" % (grown(was, now, LEAVES) / puts),
            "%.0f" % (max(it.most_memory for it in found) / 1e6), load_now())
        await asyncio.gather(*(it.end() for it in found))


async def idle(folder):
    """What five members cost that have the same."""
    row("five members, idle, a round each", "processor of one member", "wire bytes a second of one", "load")
    for pause in (1, 10):
        cluster = members.Cluster(folder, {it: 8 for it in range(1, 6)}, members.PROGRAM)
        found = [*(await started(cluster, range(1, 6), {"round": pause})).values()]
        await found[0].client.put(b"k", VALUE)
        await same(found)
        await asyncio.sleep(1)
        before, was = await sums(found)
        begun = time.monotonic()
        await asyncio.sleep(15)
        after, now = await sums(found)
        took = (time.monotonic() - begun) * len(found)
        row("%d s" % pause, "%.2f%%" % (100 * (after - before) / took), "%.0f" % (grown(was, now, OUT) / took), load_now())
        await asyncio.gather(*(it.end() for it in found))


async def catchup(folder):
    """A new member takes what another wrote."""
    row("a new member catches up", "written in s", "ready in s", "in step behind that in s", "wire MB", "processor s, both",
        "most MB, old and new", "start over it, s", "load")
    for count, height in ((4_096, 13), (20_000, 15)):
        cluster = members.Cluster(folder, {1: height, 2: 10}, members.PROGRAM)
        found = cluster.mesh((1, 2), pace={"round": 1})
        one, two = found[1], found[2]
        await one.start().ready(120)
        begun = time.monotonic()
        await filled(one.http, count)
        written = time.monotonic() - begun
        before, _ = await sums([one])
        begun = time.monotonic()
        await two.start().ready(120)
        ready = time.monotonic() - begun
        behind = await same([one, two])
        after, now = await sums([one, two])
        await two.end()
        begun = time.monotonic()
        await two.start().ready(120)
        again = time.monotonic() - begun
        row("%d updates" % count, "%.1f" % written, "%.1f" % ready, "%.1f" % behind, "%.1f" % (now[0][OUT] / 1e6), "%.1f" % (after - before),
            "%.0f, %.0f" % (one.most_memory / 1e6, two.most_memory / 1e6), "%.1f" % again, load_now())
        await asyncio.gather(one.end(), two.end())


async def filled(port: int, count: int) -> None:
    """So many puts, by sixteen clients."""
    left = iter(range(count))

    async def one():
        client = Client(port, 60)
        for number in left:
            answer = await client.ask("PUT", "/v1/values/k%07d" % (number % 1000), VALUE)
            if answer.code != 200:
                raise members.Failed("a put: %d" % answer.code)
        client.close()

    await asyncio.gather(*(one() for _ in range(16)))


MEASURES = {"single": single, "copies": copies, "mesh": mesh, "idle": idle, "catchup": catchup}


def main(words) -> int:
    """Takes the measures that are named; the status."""
    if set(words) - set(MEASURES):
        print(__doc__, file=sys.stderr)
        return 1
    folder = tempfile.mkdtemp(prefix="depot-bench-")
    try:
        for name in words or MEASURES:
            asyncio.run(MEASURES[name](os.path.join(folder, name)))
            print(flush=True)
        return 0
    except (members.Failed, Gone) as why:
        print("bench: %s" % why, file=sys.stderr)
        return 1
    finally:
        shutil.rmtree(folder)


if __name__ == "__main__":
    sys.exit(main(sys.argv[1:]))
