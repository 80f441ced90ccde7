#!/usr/bin/env python3
"""Ways to stop, fill, damage and copy a service: its status each time, and what stands afterwards.

    python3 ends.py [--folder F] [--keep]

One line a way, and the status 1 where one isn't as it has to be. Each goes on with what the one before it left.
"""

import argparse
import asyncio
import os
import shutil
import signal
import subprocess
import sys
import tempfile
import time

import members
from asking import Client, Gone
from cases import SERVICE
from members import Failed

HEIGHTS = {1: 10, 2: 5, 3: 4}
INNER, DISK, LOCKED, JOURNAL, PROOF, CONFIG = 70, 74, 75, 76, 77, 78
RUNNER = os.path.join(SERVICE, os.pardir, "tools", "node.py")


class Ends:
    """The ways, in their order. Member 1 is alone for most of them."""

    def __init__(self, folder):
        self.folder, self.cluster = folder, members.Cluster(folder, HEIGHTS)
        self.one, self.acked, self.failed, self.processes, self.count = self.process(1), [], 0, [], 0
        self.processes.append(self.one)

    # ---- helpers

    def process(self, node, **more):
        """A process of a member that talks to nobody, if nothing else is said."""
        return self.cluster.config(node, more.pop("peers", {}), **more)

    def check(self, name, is_so, told=""):
        """Says whether something is as it has to be."""
        self.count += 1
        self.failed += not is_so
        print("%s %s%s" % ("ok  " if is_so else "FAIL", name, "" if is_so else ": %s" % (told,)), flush=True)

    async def refused(self, name, process, status, *words):
        """A start that is refused with a status, and one line that is no traceback."""
        process.is_first = False
        found = await process.start(*words).ended()
        self.check(name, found == status and "Traceback" not in process.said(), (found, process.said()))

    async def load(self, seconds, clients=6, pause=0.03, acked=None):
        """Puts by several clients, until the service ends or the time is over; the ids that were acknowledged, and other answers."""
        acked, others, until = [] if acked is None else acked, [], time.monotonic() + seconds

        async def one(number):
            client, count = Client(self.one.http), 0
            while time.monotonic() < until:
                try:
                    count += 1
                    await asyncio.sleep(pause)
                    answer = await client.put(b"k%d" % (count % 20), b"%d.%d" % (number, count))
                except Gone:
                    break
                if answer.code == 200:
                    acked.append(bytes.fromhex(answer.json()["id"]))
                else:
                    others.append(answer.code)
            client.close()

        await asyncio.gather(*(one(it) for it in range(clients)))
        return acked, others

    async def loaded(self, name, end, statuses, limit=None):
        """Something that ends a service under load: with this status, and none of what was acknowledged lost."""
        await self.one.start(limit=limit).ready()
        acked = []
        asked = asyncio.ensure_future(self.load(60, acked=acked))
        while len(acked) < 10 and not asked.done() and self.one.is_alive():
            await asyncio.sleep(0.05)
        end()
        status = await self.one.ended()
        await asked
        kept = members.ids_of(self.cluster.journal(1))
        told = (status, len(acked), self.one.said())
        self.check("%s: %d puts acknowledged, none lost" % (name, len(acked)), status in statuses and acked and set(acked) <= kept, told)

    async def working(self, name):
        """A start that is well, with a put and an end."""
        await self.one.start().ready()
        answer = await self.one.client.put(b"again", b"yes")
        status = await self.one.end()
        self.check(name, answer.code == 200 and status == 0, (answer, status, self.one.said()))

    # ---- the ways

    async def begins(self):
        await self.refused("no journal and no --first", self.one, CONFIG)
        self.one.is_first = True
        await self.one.start().ready()
        await self.one.client.put(b"first", b"1")
        second = self.process(1, name="second")
        await self.refused("a second process on one folder", second, LOCKED)
        status = await self.one.end()
        self.check("--first begins, and SIGTERM ends it", status == 0, (status, self.one.said()))
        await self.refused("--first where a journal is", self.one, CONFIG, "--first")

    async def stopped(self):
        await self.loaded("SIGTERM under load", lambda: os.kill(self.one.process.pid, signal.SIGTERM), (0,))
        await self.loaded("SIGINT under load", lambda: os.kill(self.one.process.pid, signal.SIGINT), (0,))
        await self.loaded("kill -9 of the service alone", lambda: self.one.kill(is_all=False), (-9,))
        await self.working("and it goes on, once its program has ended")
        await self.loaded("kill -9 of all that runs", self.one.kill, (-9,))
        await self.loaded("kill -9 of its program", lambda: os.kill(self.one.pids()[-1], signal.SIGKILL), (INNER,))
        await self.working("and it goes on behind that")

    async def filled(self):
        size = os.path.getsize(self.cluster.journal(1))
        await self.loaded("no room for records", lambda: None, (DISK,), limit=size + 6_000)
        await self.working("and it goes on once there is room")
        busy = self.cluster.config(1, {}, name="busy", limits={"waiting": 1})
        self.one, was = busy, self.one
        self.processes.append(busy)
        busy.is_first = False
        await busy.start().ready()
        acked, others = await self.load(1.0, 24, 0.0)
        await busy.end()
        kept = members.ids_of(self.cluster.journal(1))
        is_so = acked and set(others) == {503} and set(acked) <= kept
        self.check("a full queue is 503, and harms no other put", is_so, (len(acked), others[:5]))
        self.one = was

    async def shared(self):
        """The program's own runner goes on from the service's journal, and the service from there."""
        script = os.path.join(self.folder, "script")
        with open(script, "w", encoding="ascii") as file:
            file.write("put %s 78\nget %s\n" % (b"by-program".hex(), b"again".hex()))
        words = ["--program", members.PROGRAM, "--folder", os.path.dirname(self.cluster.journal(1))]
        words += [self.cluster.roster, os.path.join(self.cluster.home(1), "seed"), "1", script]
        done = subprocess.run([sys.executable, "-B", RUNNER, *words], stdout=subprocess.PIPE, stderr=subprocess.STDOUT)
        self.check("tools/node.py goes on from its journal", done.returncode == 0 and b"=796573" in done.stdout, done.stdout)
        await self.one.start().ready()
        found = await self.one.client.writes(b"by-program")
        status = await self.one.end()
        self.check("and it from there", [it.get("value") for it in found] == ["eA=="] and status == 0, (found, status))

    async def damaged(self):
        path, old, new = self.cluster.journal(1), os.path.join(self.folder, "old"), os.path.join(self.folder, "new")
        shutil.copy(path, old)
        await self.working("a put more")
        shutil.copy(path, new)
        shutil.copy(old, path)
        await self.refused("an old copy of the journal", self.one, JOURNAL)
        os.remove(path)
        await self.refused("a lost journal", self.one, JOURNAL)
        await self.refused("a lost journal, even with --first", self.one, JOURNAL, "--first")
        with open(new, "rb") as file:
            data = bytearray(file.read())
        for name, changed in (("a flipped bit", data[:100] + bytes([data[100] ^ 1]) + data[101:]), ("a cut journal", data[: len(data) // 2])):
            with open(path, "wb") as file:
                file.write(changed)
            await self.refused(name, self.one, JOURNAL)
        shutil.copy(new, path)
        await self.working("the whole journal is taken again")

    async def misled(self):
        for name, section, option, value in (
            ("another's seed", "member", "seed", os.path.join(self.cluster.home(2), "seed")), ("another height", "member", "height", 9),
            ("another number", "member", "number", 9), ("no such roster", "member", "roster", "none"), ("no such program", "member", "program", "none"),
            ("an unknown option", "member", "colour", "blue"), ("an address that isn't of loopback", "http", "listen", "0.0.0.0:7100"),
        ):
            await self.refused(name, self.changed(section, option, value), CONFIG)
        taken = self.process(2, name="taken")
        self.processes.append(taken)
        await taken.start().ready()
        await self.refused("a port that another has", self.changed("http", "listen", "127.0.0.1:%d" % taken.http), LOCKED)
        await taken.end()
        self.one.config = os.path.join(self.folder, "none.conf")
        await self.refused("no config", self.one, CONFIG)
        self.one.config = os.path.join(self.folder, "1.conf")

    def changed(self, section, option, value):
        """The process of a config in which one option is another."""
        with open(self.one.config, encoding="utf-8") as file:
            lines = file.read().splitlines()
        at = lines.index("[%s]" % section)
        end = next((it for it in range(at + 1, len(lines)) if lines[it].startswith("[")), len(lines))
        kept = [it for it in lines[at + 1 : end] if not it.startswith(option + " =")]
        path = os.path.join(self.folder, "changed.conf")
        with open(path, "w", encoding="utf-8") as file:
            file.write("\n".join(lines[: at + 1] + ["%s = %s" % (option, value)] + kept + lines[end:]) + "\n")
        return members.Process(path, self.one.http)

    async def spent(self):
        """A key without leaves is read-only, and goes on taking."""
        pair = self.cluster.mesh((1, 3))
        pair[1].is_first = False
        self.processes += pair.values()
        await asyncio.gather(*(it.start().ready() for it in pair.values()))
        codes = [(await pair[3].client.put(b"s%d" % it, b"v")).code for it in range(20)]
        self.check("a key of 16 statements is spent: 507", codes[:16] == [200] * 16 and set(codes[16:]) == {507}, codes)
        await pair[1].client.put(b"late", b"news")
        took = await members.in_step([*pair.values()])
        health = await pair[3].client.ask("GET", "/healthz")
        told = (await pair[3].client.status())["warnings"]
        is_so = health.code == 200 and any("read-only" in it for it in told)
        self.check("it still takes what others write (%.1f s), and says that it is read-only" % took, is_so, (health, told))
        statuses = await asyncio.gather(*(it.end() for it in pair.values()))
        self.check("both end well", statuses == [0, 0], statuses)

    async def doubled(self):
        """A member that runs twice: both runs end, and the others have the proof."""
        pair = self.cluster.mesh((1, 2))
        pair[1].is_first = pair[2].is_first = False
        await pair[2].start().ready()
        await pair[2].client.put(b"a", b"1")
        await pair[2].end()
        home = self.cluster.home(2)
        shutil.copytree(home, home + "-copy")
        copy = self.cluster.config(2, {1: self.cluster.listen[1]}, home + "-copy", members.free_port(), "2-copy")
        copy.is_first = False
        self.processes += [*pair.values(), copy]
        await asyncio.gather(*(it.start().ready() for it in (*pair.values(), copy)))
        await pair[2].client.put(b"a", b"left")
        await copy.client.put(b"a", b"right")
        statuses = await asyncio.gather(pair[2].ended(), copy.ended())
        self.check("both runs of one member learn of the proof, and end with 77", statuses == [PROOF, PROOF], (statuses, copy.said()))
        found = await pair[1].client.convictions()
        path = os.path.join(self.folder, "proof")
        with open(path, "wb") as file:
            file.write(found[0]["proof"] if found else b"")
        judged = members.run_program("judge", self.cluster.roster, path)
        self.check("the third has convicted it, by a proof that the program takes", judged == (0, "2 SameNumber"), (found, judged))
        await self.refused("and it isn't started again", pair[2], PROOF)
        self.check("the third ends well", await pair[1].end() == 0, pair[1].said())

    async def run(self):
        """All ways."""
        try:
            for way in (self.begins, self.stopped, self.filled, self.shared, self.damaged, self.misled, self.spent, self.doubled):
                await way()
        except (Failed, Gone) as why:
            self.check("the ways end", False, why)
        finally:
            for it in self.processes:
                it.kill()


def main():
    """Reads the words; the status."""
    parser = argparse.ArgumentParser(description=__doc__, formatter_class=argparse.RawDescriptionHelpFormatter)
    parser.add_argument("--folder")
    parser.add_argument("--keep", action="store_true")
    words = parser.parse_args()
    ends = Ends(words.folder or tempfile.mkdtemp(prefix="depot-ends-"))
    asyncio.run(ends.run())
    if not words.keep:
        shutil.rmtree(ends.folder)
    print("ends: %d of %d as they have to be" % (ends.count - ends.failed, ends.count))
    return 1 if ends.failed else 0


if __name__ == "__main__":
    sys.exit(main())
