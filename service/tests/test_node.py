"""The node over a program that stands in for `depot serve`: its starts, its queue, its ends, and the guard."""

import asyncio
import os
import shutil
import tempfile
import unittest

from stand_in import HERE, body_of, frame_of, roster_of, run, until
from depot_service import messages as m
from depot_service.ends import CONFIG, DISK, INNER, JOURNAL, LOCKED, PROOF, Ends
from depot_service.node import IDLE, LOCAL, PEER, Busy, Member, Node, Refused

STAND_IN = os.path.join(HERE, "stand_in_depot")
TAKEN = bytes(8) + b"\2"


class Case(unittest.TestCase):
    def setUp(self):
        room = tempfile.TemporaryDirectory()
        self.addCleanup(room.cleanup)
        self.room, self.said = room.name, []
        self.roster, self.seed, self.folder = self.path("roster"), self.path("seed"), self.path("one")
        os.mkdir(self.folder)
        self.write(self.roster, roster_of((1, 2)))
        self.write(self.seed, b"ab" * 32 + b"\n")
        os.environ.pop("STAND_IN", None)

    def path(self, name: str) -> str:
        """A name in the room."""
        return os.path.join(self.room, name)

    def write(self, path: str, data: bytes) -> None:
        """Writes a file."""
        with open(path, "wb") as file:
            file.write(data)

    def text(self, path: str) -> str:
        """What stands in a file; nothing where there is none."""
        try:
            with open(path, encoding="ascii") as file:
                return file.read()
        except FileNotFoundError:
            return ""

    def node(self, **words) -> Node:
        """The node of the room."""
        fields = dict(node=1, height=8, roster=self.roster, seed=self.seed, folder=self.folder, program=STAND_IN)
        return Node(Member(**dict(fields, **words)), self.said.append)

    async def started(self, is_first: bool = True) -> Node:
        """One that stands."""
        found = self.node()
        await found.start(is_first)
        return found

    async def why_not(self, node: Node, is_first: bool = False) -> Ends:
        """Why a node doesn't start."""
        with self.assertRaises(Ends) as caught:
            await node.start(is_first)
        self.assertNotIn("\n", caught.exception.why)
        return caught.exception


class Starts(Case):
    @run
    async def test_it_puts_ends_and_goes_on(self):
        node = await self.started()
        self.assertEqual(node.started.statements, 0)
        self.assertEqual((await node.put([(b"k", b"v")])).seq, 0)
        self.assertIsNone(await node.close())
        again = await self.started(False)
        self.assertEqual((again.started.statements, (await again.put([(b"k", b"v")])).seq), (1, 1))
        self.assertEqual((await again.status()).statements, 2)
        self.assertIsNone(await again.close())

    @run
    async def test_mistakes_of_the_operator(self):
        self.write(self.path("no seed"), b"abc\n")
        cases = [
            (dict(seed=self.path("none")), "No such file"), (dict(seed=self.path("no seed")), "has no seed"), (dict(roster=self.path("none")), "No such file"),
            (dict(roster=self.seed), "isn't in its form"), (dict(node=3), "has no node 3"), (dict(height=9), "with height 8, and the config says 9"),
            (dict(folder=self.path("none")), "there is no folder"), (dict(program=self.path("none")), "can't be run"),
            (dict(program=self.roster), "can't be run"),
        ]
        for words, told in cases:
            with self.subTest(words):
                why = await self.why_not(self.node(**words), True)
                self.assertEqual(why.status, CONFIG)
                self.assertIn(told, why.why)
        self.assertIn("--first", (await self.why_not(self.node())).why)

    @run
    async def test_what_the_program_refuses(self):
        cases = [
            ("10 identity OtherKey", CONFIG), ("9 damaged 17", JOURNAL), ("9 not lawful 3 5 Missing", JOURNAL), ("4 disk", DISK), ("6 nothing", INNER),
            ("1 plain words", CONFIG), ("2 plain input roster at 1", CONFIG), ("3 plain shelf roster", CONFIG), ("0 plain ", INNER),
        ]
        for told, status in cases:
            with self.subTest(told):
                os.environ["STAND_IN"] = told
                why = await self.why_not(self.node(), True)
                self.assertEqual(why.status, status, why.why)
                self.assertIn(told.split(" ", 1)[1].replace("plain ", ""), why.why)
        del os.environ["STAND_IN"]
        self.assertIsNone(await (await self.started()).close())

    @run
    async def test_a_second_one_is_locked_out(self):
        node = await self.started()
        self.assertEqual((await self.why_not(self.node())).status, LOCKED)
        await node.close()

    @run
    async def test_old_lost_and_damaged_journals_are_refused(self):
        node = await self.started()
        await node.put([(b"k", b"v")])
        await node.close()
        path = os.path.join(self.folder, "depot.journal")
        shutil.copy(path, self.path("old"))
        node = await self.started(False)
        await node.put([(b"k", b"w")])
        await node.close()
        shutil.copy(path, self.path("new"))
        shutil.copy(self.path("old"), path)
        self.assertEqual((await self.why_not(self.node())).status, JOURNAL)
        self.write(path, b"\0")
        self.assertEqual((await self.why_not(self.node())).status, JOURNAL)
        self.assertEqual((await self.why_not(self.node(), True)).status, JOURNAL)
        os.remove(path)
        self.assertEqual((await self.why_not(self.node())).status, JOURNAL)
        shutil.copy(self.path("new"), path)
        self.assertIsNone(await (await self.started(False)).close())

    @run
    async def test_a_run_that_was_killed_is_gone_on_from(self):
        node = await self.started()
        await node.put([(b"k", b"v")])
        node.process.kill()
        self.assertEqual((await node.over).status, INNER)
        await node.close()
        again = await self.started(False)
        self.assertEqual(again.started.statements, 1)
        await again.close()


class Queues(Case):
    @run
    async def test_the_local_programs_requests_come_first(self):
        node, order = await self.started(), []

        async def ask(urgency, key):
            await node.put([(key, b"")], urgency)
            order.append(key)

        tasks = [asyncio.ensure_future(ask(LOCAL, b"slow"))]
        await asyncio.sleep(0.02)
        for urgency, key in ((IDLE, b"idle"), (PEER, b"peer"), (LOCAL, b"local")):
            tasks.append(asyncio.ensure_future(ask(urgency, key)))
        await asyncio.gather(*tasks)
        self.assertEqual(order, [b"slow", b"local", b"peer", b"idle"])
        await node.close()

    @run
    async def test_too_many_are_told_to_ask_later(self):
        node = Node(self.node().member, self.said.append, most_waiting=2)
        await node.start(True)
        tasks = [asyncio.ensure_future(node.put([(b"slow", b"")])) for _ in range(4)]
        found = await asyncio.gather(*tasks, return_exceptions=True)
        self.assertEqual([type(it) for it in found].count(Busy), 2)
        self.assertEqual(node.counts["put"], 2)
        await node.close()

    @run
    async def test_others_that_wait_take_the_local_program_no_room(self):
        node = Node(self.node().member, self.said.append, most_waiting=2)
        await node.start(True)
        tasks = [asyncio.ensure_future(node.hello(PEER)) for _ in range(20)]
        await asyncio.sleep(0)
        tasks += [asyncio.ensure_future(node.put([(b"k", b"v")])) for _ in range(2)]
        await asyncio.gather(*tasks)
        self.assertEqual((node.counts["hello"], node.counts["put"]), (20, 2))
        await node.close()

    @run
    async def test_who_waits_may_go_and_the_pipe_stays_in_step(self):
        node = await self.started()
        with self.assertRaises(asyncio.TimeoutError):
            await asyncio.wait_for(node.put([(b"slow", b"")]), 0.05)
        self.assertEqual((await node.put([(b"k", b"v")])).seq, 1)
        await node.close()

    @run
    async def test_what_isnt_done_and_what_cant_be_asked(self):
        node = await self.started()
        with self.assertRaises(Refused) as caught:
            await node.checkpoint()
        self.assertEqual(caught.exception.reason.kind, "nothing")
        with self.assertRaises(m.BadRequest):
            await node.put([])
        self.assertEqual((await node.put([(b"k", b"v")])).seq, 0)
        await node.close()

    @run
    async def test_watchers_hear_of_own_updates(self):
        node, heard = await self.started(), []
        node.watchers.append(heard.append)
        await node.put([(b"k", b"v")])
        self.assertEqual((heard, node.statements), (["put"], 1))
        await node.close()


class Deaths(Case):
    @run
    async def test_a_program_that_ends_fails_all_that_wait(self):
        for key, status, told in ((b"end:4", DISK, "couldn't keep a record"), (b"end:6", INNER, "no memory"), (b"die", INNER, "signal 9"), (b"end:0", INNER, "ended by itself"),
                                  (b"end:2", INNER, "a request that is none"), (b"rubbish", INNER, "isn't in its form")):
            with self.subTest(key):
                node = await self.started(not os.path.exists(os.path.join(self.folder, "depot.journal")))
                tasks = [asyncio.ensure_future(node.put([(it, b"")])) for it in (b"k", key, b"later")]
                found = await asyncio.gather(*tasks, return_exceptions=True)
                self.assertIsInstance(found[0], m.Put)
                self.assertTrue(all(isinstance(it, Ends) and it.status == status for it in found[1:]), found)
                self.assertIn(told, node.over.result().why)
                with self.assertRaises(Ends):
                    await node.put([(b"k", b"")])
                await node.close()

    @run
    async def test_the_notes_follow_the_journal(self):
        node = await self.started()
        await node.put([(b"k", b"v")])
        paths = os.path.join(self.folder, "depot.journal.kept"), self.seed + ".node-1.kept"
        await until(lambda: all("signed 1\n" in self.text(it) for it in paths))
        await node.close()

    @run
    async def test_a_fault_that_nobody_foresaw_ends_the_node(self):
        node = await self.started()

        def fail(_what):
            raise KeyError("nobody foresaw this")

        node.watchers.append(fail)
        with self.assertRaises(Ends) as caught:
            await node.put([(b"k", b"v")])
        self.assertEqual((caught.exception.status, (await node.over).status), (INNER, INNER))
        await node.close()


class Alarms(Case):
    def taken(self, check: bytes) -> bytes:
        """A reply to a take that refused frame 0 by a check."""
        return TAKEN + b"\0\0\0\1" + bytes(4) + check + b"\0"

    @run
    async def test_a_proof_against_the_node_ends_it_for_good(self):
        node = await self.started()
        await node.put([(b"k", b"v")])
        taken = await node.take(self.taken(b"\x10"))
        self.assertEqual(taken.refused[0].check.words, "16 AgainstMe")
        self.assertEqual((await node.over).status, PROOF)
        await node.close()
        self.assertEqual((await self.why_not(self.node())).status, PROOF)

    @run
    async def test_a_fork_that_is_refused_makes_the_journal_grow(self):
        node = await self.started()
        await node.put([(b"k", b"v")])
        await node.take(self.taken(b"\x0b" + bytes(64) + b"\1"))
        self.assertTrue(node.has_grown)
        self.assertFalse(node.over.done())
        await node.close()

    @run
    async def test_a_forged_statement_in_its_name_is_said_and_no_more(self):
        node = await self.started()
        await node.put([(b"k", b"v")])
        frame = frame_of(body_of(1, 7, bytes(32), b"k", b"v"))
        node.exchange, inner = self.answering(frame), node.exchange
        for _ in range(3):
            await node.take(frame)
        node.exchange = inner
        self.assertEqual(len([it for it in self.said if "forged" in it]), 1, self.said)
        self.assertFalse(node.over.done())
        await node.close()
        self.assertIsNone(await (await self.started(False)).close())

    def answering(self, _frame):
        """In place of the pipe: a take that refused frame 0 as NotMine."""

        async def exchange(_name, _request):
            return m.Taken(0, 0, (m.Refusal(0, m.Check(m.NOT_MINE, "3 NotMine")),), "", False)

        return exchange


if __name__ == "__main__":
    unittest.main()
