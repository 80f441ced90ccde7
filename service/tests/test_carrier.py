"""The folder carrier between nodes in memory: what comes over, and what a folder that lies can't do."""

import asyncio
import os
import tempfile
import time
import unittest

from stand_in import END, MemoryNode, body_of, frame_of, roster_of, run, serving_of, until
from depot_service.carrier_files import AHEAD, Files, read_name
from depot_service.config import Carrier
from depot_service.folder import FolderCarrier

import formats

NODES = (1, 2, 3)


class Case(unittest.TestCase):
    def setUp(self):
        room = tempfile.TemporaryDirectory()
        self.addCleanup(room.cleanup)
        self.folder, self.roster = os.path.join(room.name, "all"), os.path.join(room.name, "roster")
        os.mkdir(self.folder)
        with open(self.roster, "wb") as file:
            file.write(roster_of(NODES))
        self.said = []

    async def side(self, me: int, leaves: int = 1000, **numbers) -> FolderCarrier:
        """A member with a node in memory."""
        words = dict(dict(pace=0.1, relay=0.6, keep=1000.0), **numbers)
        node = MemoryNode(me, NODES, self.roster)
        found = FolderCarrier(Carrier(self.folder, **words), node, serving_of(node, leaves), self.said.append)
        node.watchers.append(lambda what: found.push())
        await found.start()
        return found

    async def looked(self, side: FolderCarrier, count: int = 2) -> None:
        """Waits until a member has looked into the folder so often; with two the last one began behind this call."""
        until_now = side.counts["carrier_looks"]
        await until(lambda: side.counts["carrier_looks"] >= until_now + count)

    def names(self, kind: str = ""):
        """The files of the carrier."""
        found = filter(None, map(read_name, os.listdir(self.folder)))
        return sorted((it for it in found if it.kind.startswith(kind)), key=lambda it: it.number)

    def write(self, name: str, data: bytes) -> None:
        """Writes a file, as anybody may."""
        with open(os.path.join(self.folder, name), "wb") as file:
            file.write(data)

    def stream_name(self, node: int, data: bytes, number: int = 0) -> str:
        """A good name of a stream."""
        return "stream-%05d-%015d-%s" % (node, number or time.time() * 1000, formats.sha256(data).hex())


async def end(*sides):
    """Ends all."""
    for it in sides:
        await it.stop(0)
        it.thread.shutdown()


def are_same(count: int, *sides) -> bool:
    """Whether all have so many updates, the same."""
    return {len(it.node.updates) for it in sides} == {count} and len({frozenset(it.node.updates) for it in sides}) == 1


class Exchanges(Case):
    @run
    async def test_three_come_to_the_same(self):
        sides = [await self.side(it) for it in NODES]
        for place in range(4):
            for it in sides:
                await it.node.put([(b"k", b"%d" % place)])
            await asyncio.sleep(0.05)
        await until(lambda: are_same(12, *sides))
        await until(lambda: all(member.in_step_at for it in sides for member in it.members.values()))
        self.assertEqual(self.said, [])
        await end(*sides)

    @run
    async def test_own_updates_go_out_once_for_all_without_a_voucher(self):
        sides = [await self.side(it) for it in NODES]
        await sides[0].node.put([(b"k", b"v")])
        await until(lambda: are_same(1, *sides))
        await self.looked(sides[0], 3)
        self.assertEqual((len(self.names("stream")), sides[0].counts["leaves_for_vouchers"]), (1, 0))
        await end(*sides)

    @run
    async def test_who_comes_late_gets_others_updates_by_relay(self):
        one = await self.side(1)
        await one.node.put([(b"k", b"v")])
        two = await self.side(2)
        await until(lambda: are_same(1, one, two))
        await end(one)
        for name in os.listdir(self.folder):
            os.remove(os.path.join(self.folder, name))
        three = await self.side(3)
        await until(lambda: are_same(1, two, three))
        self.assertEqual(two.counts["leaves_for_vouchers"], 1)
        await end(two, three)

    @run
    async def test_what_was_put_before_a_start_is_answered_to_who_lacks_it(self):
        one = await self.side(1)
        await end(one)
        for place in range(3):
            await one.node.put([(b"k", b"%d" % place)])
        again = FolderCarrier(one.config, one.node, one.serving, self.said.append)
        await again.start()
        two = await self.side(2)
        await until(lambda: are_same(3, again, two))
        await end(again, two)

    @run
    async def test_the_last_look_writes_what_was_put(self):
        one, two = await self.side(1, pace=100.0), await self.side(2)
        await until(lambda: one.counts["carrier_looks"])
        one.node.watchers.clear()
        await one.node.put([(b"k", b"v")])
        await one.stop(2.0)
        await until(lambda: len(two.node.updates) == 1)
        await end(two)

    @run
    async def test_a_stream_that_came_before_its_parent_is_taken_again(self):
        first = body_of(1, 0, bytes(32), b"k", b"v")
        second = body_of(1, 1, formats.sha256(first), b"k", b"w")
        one = await self.side(2)
        for body in (second, first):
            data = frame_of(body) + END
            self.write(self.stream_name(1, data), data)
            await self.looked(one)
        await until(lambda: len(one.node.updates) == 2)
        await end(one)


class Lies(Case):
    @run
    async def test_foreign_and_partial_files_are_ignored(self):
        one = await self.side(1)
        data = frame_of(body_of(2, 0, bytes(32), b"k", b"v")) + END
        right = self.stream_name(2, data)
        os.mkdir(os.path.join(self.folder, self.stream_name(2, b"a folder")))
        os.symlink("/etc/passwd", os.path.join(self.folder, self.stream_name(3, b"a link")))
        os.mkfifo(os.path.join(self.folder, self.stream_name(3, b"a pipe")))
        for name in ("README", "stream-1-2-3", ".part-00002-0123456789abcdef", right.upper(), right + ".tmp"):
            self.write(name, data)
        self.write(right, data[:-3])
        await self.looked(one)
        held = len(os.listdir("/proc/self/fd"))
        await self.looked(one, 5)
        await until(lambda: len(os.listdir("/proc/self/fd")) <= held)  # a look may be under way
        self.assertEqual(one.node.taken_streams, [])
        self.write(right, data)
        await until(lambda: len(one.node.updates) == 1)
        self.assertEqual(self.said, [])
        await end(one)

    @run
    async def test_a_file_that_was_replaced_is_none(self):
        one = await self.side(1)
        data = frame_of(body_of(2, 0, bytes(32), b"k", b"v")) + END
        self.write(self.stream_name(2, data), data.replace(b"signed", b"forged"))
        await self.looked(one)
        self.assertEqual(one.node.taken_streams, [])
        await end(one)

    @run
    async def test_a_stream_is_taken_once_however_often_it_comes(self):
        one = await self.side(1)
        data = frame_of(body_of(2, 0, bytes(32), b"k", b"v")) + END
        for number in range(1, 6):
            self.write(self.stream_name(2, data, number), data)
            await self.looked(one)
        self.assertEqual(len(one.node.taken_streams), 1)
        await end(one)

    @run
    async def test_rubbish_with_a_good_name_costs_a_look(self):
        one = await self.side(1)
        data = b"\2\0\0\0\5rubbish"
        self.write(self.stream_name(2, data), data)
        await until(lambda: one.counts["carrier_foul"] == 1)
        await self.looked(one)
        self.assertEqual(len(one.node.taken_streams), 1)
        await end(one)

    @run
    async def test_forged_and_old_hellos_change_nothing_for_good(self):
        one = await self.side(1)
        await one.node.put([(b"k", b"v")])
        leaf = formats.number(2, 1) + one.node.prev
        rubbish = [b"", b"hello", b"\1\3\0\3" + one.roster + bytes(6), b"\1\3\0\2" + bytes(38), b"\1\3\0\2" + one.roster + b"\0\0\0\1" + leaf + b"\0\0"]
        for place, data in enumerate(rubbish):
            for number in (place, time.time() * 1000 + 1000 + place, time.time() * 1000 + 2 * AHEAD):
                self.write("hello-00002-%015d-%s" % (number, formats.sha256(data).hex()), data)
        two = await self.side(2)
        await until(lambda: are_same(1, one, two))
        await end(one, two)

    @run
    async def test_a_folder_that_is_gone_is_said_once_and_used_again(self):
        one = await self.side(1)
        os.rename(self.folder, self.folder + "2")
        await until(lambda: one.counts["carrier_failed"] > 3)
        os.rename(self.folder + "2", self.folder)
        await until(lambda: len(self.said) == 2)
        self.assertIn("No such file", self.said[0])
        await end(one)


class Bounds(Case):
    def test_own_old_files_are_dropped_and_others_stay(self):
        now = [1_000_000.0]
        files = Files(self.folder, 1, lambda: now[0])
        other = Files(self.folder, 2, lambda: now[0])
        other.write("stream", b"of 2")
        for place in range(5):
            files.write("hello", b"%d" % place)
            files.write("stream", b"%d" % place * 100)
        files.drop(files.list(), 1000.0, 100, 10_000)
        self.assertEqual(len([it for it in self.names("hello")]), 2)
        self.assertEqual(len([it for it in self.names("stream") if it.node == 1]), 5)
        files.drop(files.list(), 1000.0, 4, 10_000)
        self.assertLessEqual(len([it for it in self.names() if it.node == 1]), 5)
        files.drop(files.list(), 1000.0, 100, 150)
        self.assertEqual(len([it for it in self.names("stream") if it.node == 1]), 1)
        now[0] += 2000
        files.drop(files.list(), 1000.0, 100, 10_000)
        self.assertEqual([it.kind for it in self.names() if it.node == 1], ["hello"])
        self.assertEqual(len([it for it in self.names() if it.node == 2]), 1)

    def test_parts_of_a_run_that_was_killed_are_dropped(self):
        files = Files(self.folder, 1)
        for node, age in ((1, 7200), (1, 0), (2, 7200)):
            path = os.path.join(self.folder, ".part-%05d-%016x" % (node, age))
            self.write(os.path.basename(path), b"x")
            os.utime(path, (time.time() - age, time.time() - age))
        files.drop_parts()
        self.assertEqual(len(os.listdir(self.folder)), 2)

    def test_numbers_rise_whatever_the_clock_does(self):
        now = [1_000_000.0]
        files = Files(self.folder, 1, lambda: now[0])
        first = files.write("stream", b"1")
        now[0] -= 5000
        self.assertGreater(files.write("stream", b"2").number, first.number)

    def test_a_file_over_its_bound_isnt_read(self):
        files = Files(self.folder, 1)
        name = files.write("stream", b"0123456789")
        self.assertEqual(files.read(name, 10), b"0123456789")
        self.assertIsNone(files.read(name, 9))

    @run
    async def test_many_and_great_files_of_a_stranger_are_taken_by_bounds(self):
        for place in range(12):
            data = frame_of(body_of(3, place, bytes(32), b"k", b"v")) + END
            self.write(self.stream_name(3, data, place), data)
        one = await self.side(1, most_files=4)
        await until(lambda: one.counts["carrier_looks"] > 2)
        self.assertEqual(len(one.node.taken_streams), 4)
        await end(one)


if __name__ == "__main__":
    unittest.main()
