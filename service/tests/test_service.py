"""Members over the real program, in DEPOT: over links, through a folder, and one that was run twice."""

import asyncio
import dataclasses
import os
import shutil
import tempfile
import time
import unittest

from stand_in import QUICK, SOON, free_ports, run, until
from depot_service import wire
from depot_service.config import Address, Carrier, Config, Leaves, read_config
from depot_service.depotd import Service
from depot_service.ends import OK, PROOF
from depot_service.making import make_local

PROGRAM = os.environ.get("DEPOT", "")
HEIGHT = 6
PLENTY = Leaves(vouchers_a_day=1e6, most_vouchers=20)


@unittest.skipUnless(PROGRAM, "DEPOT names no program")
class Case(unittest.TestCase):
    def setUp(self):
        room = tempfile.TemporaryDirectory()
        self.addCleanup(room.cleanup)
        self.room = os.path.join(room.name, "a")
        self.services, self.runs, self.said = {}, {}, []

    def make(self, count: int) -> None:
        """Members on loopback, each at a port that is free."""
        paths = make_local(self.room, HEIGHT, count, 17_000, PROGRAM)
        found = {node: dataclasses.replace(read_config(path), http=None, pace=SOON, limits=QUICK, leaves=PLENTY) for node, path in enumerate(paths, 1)}
        ports = dict(zip(found, free_ports(count)))
        self.configs = {node: self.at(it, ports) for node, it in found.items()}

    def at(self, config: Config, ports) -> Config:
        """A config with these ports in place of its own."""
        links = dataclasses.replace(config.links, listen=Address("127.0.0.1", ports[config.member.node]))
        peers = {node: dataclasses.replace(it, address=Address("127.0.0.1", ports[node])) for node, it in config.peers.items()}
        return dataclasses.replace(config, links=links, peers=peers)

    async def start(self, name, config: Config, is_first: bool = True) -> Service:
        """A service that is ready."""
        found = self.services[name] = Service(config, self.said.append)
        self.runs[name] = asyncio.ensure_future(found.run(is_first))
        await until(lambda: found.state == "ready" or self.runs[name].done())
        self.assertFalse(self.runs[name].done(), self.said)
        return found

    async def end(self, *names):
        """Ends services that run; their statuses."""
        for it in names:
            self.services[it].asked.set()
        return [await self.runs[it] for it in names]

    async def same(self, count: int, *services) -> None:
        """Waits until all have so many updates and the same state."""
        ends = time.monotonic() + 90
        while time.monotonic() < ends:
            told = [await it.node.status() for it in services]
            states = {wire.state_of(await it.node.hello()) for it in services}
            if len(states) == 1 and (not count or {it.updates for it in told} == {count}):
                return
            await asyncio.sleep(0.01)
        raise AssertionError("they don't come to the same: %s %s" % (told, self.said))


class Links(Case):
    @run
    async def test_five_come_to_the_same_and_go_on_behind_a_stop(self):
        self.make(5)
        sides = await asyncio.gather(*(self.start(it, config) for it, config in self.configs.items()))
        for place in range(3):
            await asyncio.gather(*(it.node.put([(b"k%d" % place, b"v" * 100)]) for it in sides))
        await self.same(15, *sides)
        self.assertEqual(len((await sides[0].node.latest(b"k0")).writes), 5)
        self.assertEqual(await self.end(5), [OK])
        await sides[0].node.put([(b"k0", None)])
        fifth = await self.start(5, self.configs[5], False)
        await self.same(16, *sides[:4], fifth)
        self.assertTrue((await fifth.node.latest(b"k0")).writes[-1].write.is_deletion)
        self.assertEqual(await self.end(*self.configs), [OK] * 5)

    @run
    async def test_receipts_settle_a_put(self):
        self.make(3)
        sides = await asyncio.gather(*(self.start(it, config) for it, config in self.configs.items()))
        put = await sides[0].node.put([(b"k", b"v")])
        await sides[0].rounds.ask_receipts([put.id])
        while not await sides[0].node.settled(put.id, 2):
            await asyncio.sleep(0.02)
        self.assertEqual(await self.end(*self.configs), [OK] * 3)

    @run
    async def test_a_member_that_was_run_twice_is_convicted_and_ends(self):
        self.make(3)
        home = os.path.join(self.room, "member1")
        again = self.at(self.configs[1], dict(zip((1, 2, 3), free_ports(3))))
        member = dataclasses.replace(again.member, folder=home + "b/node", seed=home + "b/seed")
        shutil.copytree(home, home + "b")
        peers = {node: dataclasses.replace(it, address=self.configs[node].links.listen) for node, it in again.peers.items()}
        twin = dataclasses.replace(again, member=member, peers=peers)
        two, three = await asyncio.gather(*(self.start(it, self.configs[it]) for it in (2, 3)))
        one, other = await self.start(1, self.configs[1]), await self.start("twin", twin)
        await one.node.put([(b"k", b"of one")])
        await other.node.put([(b"k", b"of the other")])
        self.assertEqual([await self.runs[it] for it in (1, "twin")], [PROOF, PROOF])
        await until(lambda: all(1 in it.serving.convicted for it in (two, three)))
        self.assertEqual([it.node for it in (await two.node.convictions()).proofs], [1])
        self.assertEqual(await self.end(2, 3), [OK, OK])

class Folders(Case):
    @run
    async def test_three_that_never_meet_exchange_through_a_folder(self):
        self.make(3)
        folder = os.path.join(self.room, "all")
        os.mkdir(folder)
        carrier = Carrier(folder, pace=0.2, relay=1.0, keep=1000.0)
        leaves = dataclasses.replace(PLENTY, receipts_a_day=0.0, most_receipts=0)  # each would be an update more
        configs = {node: dataclasses.replace(it, links=None, peers={}, carrier=carrier, leaves=leaves) for node, it in self.configs.items()}
        sides = await asyncio.gather(*(self.start(it, config) for it, config in configs.items()))
        for place in range(4):
            await asyncio.gather(*(it.node.put([(b"k%d" % place, b"v" * 100)]) for it in sides))
        await self.same(12, *sides)
        self.assertEqual(await self.end(3), [OK])
        await sides[0].node.put([(b"k", b"v")])
        third = await self.start(3, configs[3], False)
        await self.same(13, *sides[:2], third)
        self.assertEqual(await self.end(*configs), [OK] * 3)


if __name__ == "__main__":
    unittest.main()
