"""Pushes and rounds over links on loopback, between nodes in memory."""

import dataclasses
import time
import unittest
from typing import Dict

from stand_in import END, QUICK, SOON, MemoryNode, Members, body_of, frame_of, free_ports, quiet, run, serving_of, until
from depot_service import messages as m
from depot_service import wire
from depot_service.exchanges import Exchange, Given, Rest
from depot_service.node import LOCAL, PEER, Refused
from depot_service.rounds import Moves, Rounds
from depot_service.wire import Foul

# No round is due by itself: what comes then comes by a push, or because it was wanted.
NO_ROUNDS = dataclasses.replace(SOON, round=1000.0)


class Side:
    """A member in a test: its node in memory and its rounds."""

    def __init__(self, members: Members, me: int, ports: Dict[int, int], leaves: int = 1000, **words):
        self.node, self.said = MemoryNode(me, members.nodes), []
        self.serving = serving_of(self.node, leaves)
        self.rounds = Rounds(members.config(me, ports, **words), self.node, self.serving, self.said.append)
        self.node.watchers.append(lambda what: self.rounds.push() if what == "put" else None)
        self.counts = self.serving.counts

    def peer(self, node: int):
        """What is known of another."""
        return self.rounds.peers[node]


class Case(unittest.TestCase):
    @classmethod
    def setUpClass(cls):
        cls.members = Members()

    @classmethod
    def tearDownClass(cls):
        cls.members.room.cleanup()

    async def sides(self, nodes=(1, 2, 3), **words):
        """Members that know each other, and have begun."""
        ports = dict(zip(nodes, free_ports(len(nodes))))
        found = [Side(self.members, it, ports, **words) for it in nodes]
        for it in found:
            await it.rounds.start()
        return found

    async def end(self, *sides):
        """Ends all."""
        for it in sides:
            await it.rounds.stop(1.0)


def are_same(*sides) -> bool:
    """Whether all have the same updates."""
    return len({frozenset(it.node.updates) for it in sides}) == 1


class TakerLink:
    """A link behind which a node takes each piece at once."""

    def __init__(self, node: MemoryNode):
        self.taker, self.node, self.ends, self.told = node, node.me, [], b""

    async def while_working(self, work):
        """Does the work."""
        return await work

    async def send(self, kind: int, payload: bytes) -> None:
        """Has the node take a piece; the end is noted."""
        if kind == wire.END:
            self.ends.append(payload)
            return
        piece = wire.read_piece(payload)
        taken = await self.taker.take(piece.stream)
        hello = await self.taker.far_hello() if piece.wants_hello else b""
        self.told = wire.Taken(taken.new, taken.known, len(taken.refused), taken.count(m.MISSING), hello).text()

    async def read(self, *kinds: int):
        """What it said of the last piece."""
        return wire.TAKEN, self.told


class Giving(unittest.TestCase):
    async def beside(self, shared: int):
        """Node 1 knows an update of node 3 that node 2 lacks, and lacks one of node 2; both have so many of node 3."""
        nodes = [MemoryNode(it) for it in (1, 2, 3)]
        one, two, three = nodes
        for place in range(shared + 1):
            await three.put([(b"k", b"%d" % place)])
        bodies = [it.body for it in three.updates.values()]
        for body in bodies:
            one.keep(body)
        for body in bodies[:-1]:
            two.keep(body)
        await two.put([(b"t", b"new")])
        return one, two

    async def give(self, one: MemoryNode, two: MemoryNode):
        """Node 2 gives what node 1 lacks by its hello, 1,024 bytes a bundle."""
        link = TakerLink(one)
        limits = dataclasses.replace(QUICK, bundle_bytes=1024)
        given = await Exchange(link, serving_of(two, limits=limits), two.started.roster, two.me).give(await one.far_hello(), False, Rest())
        return given, link

    @run
    async def test_a_bundle_of_which_all_is_known_is_followed_by_a_wider_one(self):
        one, two = await self.beside(40)
        given, link = await self.give(one, two)
        self.assertEqual((given.new, given.refused, link.ends), (1, 0, [b"\0"]))
        self.assertEqual(set(two.updates) - set(one.updates), set())

    @run
    async def test_where_wider_bounds_bring_no_more_it_ends(self):
        one, two = await self.beside(40)
        two.vouched = {it.id for it in list(two.updates.values())[:20]}
        real = two.bundle
        two.bundle = lambda hello, most_bytes, most_vouchers=None, own=False, urgency=PEER: real(hello, most_bytes, 0, own, urgency)
        given, link = await self.give(one, two)
        self.assertEqual((given.new, given.has_more, link.ends), (0, True, [b"\1"]))
        self.assertLess(len(two.served), 9)


class Exchanges(Case):
    @run
    async def test_three_come_to_the_same(self):
        sides = await self.sides()
        for place in range(5):
            for it in sides:
                await it.node.put([(b"k", b"%d" % place)])
        await until(lambda: are_same(*sides) and len(sides[0].node.updates) == 15)
        await until(lambda: all(it.counts["exchanges_same"] for it in sides))
        self.assertTrue(all(state.in_step_at for it in sides for state in it.rounds.peers.values()))
        await self.end(*sides)

    @run
    async def test_a_push_offers_own_updates_alone_and_no_voucher(self):
        one, two = await self.sides((1, 2), pace=NO_ROUNDS)
        await until(lambda: one.peer(2).in_step_at and two.peer(1).in_step_at)
        one.node.served.clear()
        await one.node.put([(b"k", b"v")])
        await until(lambda: are_same(one, two))
        self.assertEqual(one.node.served, [(2, True, 0)])
        await self.end(one, two)

    @run
    async def test_a_put_while_both_find_that_they_have_the_same_is_pushed(self):
        one, two = await self.sides((1, 2), pace=NO_ROUNDS)
        await until(lambda: one.peer(2).in_step_at and two.peer(1).in_step_at)
        statements, state = one.node.statements, one.peer(2)
        await one.node.put([(b"k", b"v")])
        one.rounds.has_same(state, statements)
        self.assertTrue(state.wants_push)
        await until(lambda: are_same(one, two))
        one.rounds.has_same(state, one.node.statements)
        self.assertFalse(state.wants_push)
        await self.end(one, two)

    @run
    async def test_an_update_that_lacks_its_parent_is_followed_by_a_whole_round(self):
        one, two = await self.sides((1, 2), pace=NO_ROUNDS)
        await until(lambda: one.peer(2).in_step_at and two.peer(1).in_step_at)
        one.node.keep(body_of(3, 0, bytes(32), b"k", b"of 3"))
        await one.node.put([(b"k", b"v")])
        await until(lambda: are_same(one, two) and len(two.node.updates) == 2)
        self.assertEqual(one.node.served[-2:], [(2, True, 0), (2, False, QUICK.vouchers)])
        self.assertEqual(one.counts["leaves_for_vouchers"], 1)
        await self.end(one, two)

    @run
    async def test_without_a_leaf_it_is_pushed_again_once_others_may_have_brought_the_parent(self):
        one, two = await self.sides((1, 2), pace=NO_ROUNDS, leaves=0)
        await until(lambda: one.peer(2).in_step_at and two.peer(1).in_step_at)
        parent = body_of(3, 0, bytes(32), b"k", b"of 3")
        one.node.keep(parent)
        await one.node.put([(b"k", b"v")])
        await until(lambda: one.peer(2).early > 2)
        self.assertEqual((len(two.node.updates), one.counts["leaves_for_vouchers"]), (0, 0))
        two.node.keep(parent)
        await until(lambda: are_same(one, two))
        await until(lambda: not one.peer(2).early)
        await self.end(one, two)

    @run
    async def test_a_round_without_a_leaf_leaves_own_updates_to_a_push(self):
        ports = dict(zip((1, 2), free_ports(2)))
        one, two = (Side(self.members, it, ports, leaves=0, pace=NO_ROUNDS) for it in (1, 2))
        parent = body_of(3, 0, bytes(32), b"k", b"of 3")
        one.node.keep(parent)
        await one.node.put([(b"k", b"v")])
        two.node.keep(parent)
        one.rounds.push, two.node.far_hello = (lambda: None), MemoryNode(2, self.members.nodes).hello
        for it in (one, two):
            await it.rounds.start()
        await until(lambda: one.peer(2).rounds)
        await until(lambda: are_same(one, two))
        await self.end(one, two)

    @run
    async def test_an_empty_bucket_keeps_updates_of_others_back(self):
        one, two = await self.sides((1, 2), leaves=0)
        one.node.keep(body_of(3, 0, bytes(32), b"k", b"of 3"))
        await until(lambda: one.peer(2).rounds > 1 or two.peer(1).rounds > 1)
        self.assertEqual((len(two.node.updates), one.counts["leaves_for_vouchers"]), (0, 0))
        await self.end(one, two)

    @run
    async def test_much_goes_in_bounded_bundles(self):
        limits = dataclasses.replace(QUICK, bundle_bytes=4096)
        ports = dict(zip((1, 2), free_ports(2)))
        one = Side(self.members, 1, ports, limits=limits, pace=NO_ROUNDS)
        one.serving.limits = limits
        for place in range(60):
            await one.node.put([(b"key %d" % place, b"v" * 50)])
        two = Side(self.members, 2, ports, limits=limits, pace=NO_ROUNDS)
        await one.rounds.start()
        await two.rounds.start()
        await until(lambda: are_same(one, two))
        self.assertGreater(len(two.node.taken_streams), 2)
        self.assertTrue(all(len(it) <= 4096 + 6 for it in two.node.taken_streams))
        await self.end(one, two)

    @run
    async def test_a_cut_link_loses_nothing_that_was_taken(self):
        ports = dict(zip((1, 2), free_ports(2)))
        one, two = Side(self.members, 1, ports), Side(self.members, 2, ports)
        limits = dataclasses.replace(QUICK, bundle_bytes=4096)
        one.serving.limits = two.serving.limits = limits
        for place in range(200):
            await one.node.put([(b"key %d" % place, b"v" * 50)])
        one.node.slow = 0.02
        await one.rounds.start()
        await two.rounds.start()
        await until(lambda: len(two.node.updates) > 20)
        for it in list(two.rounds.links.open):
            it.channel.transport.abort()
        had = len(two.node.updates)
        self.assertLess(had, 200)
        await until(lambda: are_same(one, two))
        sent = sum(len(it) for it in two.node.taken_streams)
        self.assertLess(sent, 2 * sum(len(frame_of(it.body)) for it in one.node.updates.values()))
        await self.end(one, two)

    @run
    async def test_a_member_is_given_over_one_link_at_a_time(self):
        one, two = await self.sides((1, 2), pace=NO_ROUNDS)
        await until(lambda: one.peer(2).in_step_at and two.peer(1).in_step_at)
        one.peer(2).rest.is_giving = True
        await one.node.put([(b"k", b"v")])
        await until(lambda: one.counts["gives_left_out"])
        self.assertEqual(two.node.updates, {})
        one.peer(2).rest.is_giving = False
        await until(lambda: are_same(one, two))
        await self.end(one, two)

    @run
    async def test_the_next_bundle_waits_as_long_as_the_last_took(self):
        rest = Rest()
        self.assertEqual(rest.left(), 0.0)
        rest.note(time.monotonic() - 3.0)
        self.assertTrue(1.0 < rest.left() <= 4.0)
        rest.note(time.monotonic() - 100)
        self.assertLessEqual(rest.left(), 5.0)

    @run
    async def test_the_last_push_comes_before_the_end(self):
        one, two = await self.sides((1, 2), pace=NO_ROUNDS)
        await until(lambda: one.peer(2).in_step_at and two.peer(1).in_step_at)
        one.node.watchers.clear()
        await one.node.put([(b"k", b"v")])
        await one.rounds.stop(60.0)
        self.assertTrue(are_same(one, two))
        await self.end(two)

    @run
    async def test_a_member_that_only_calls_gets_all(self):
        ports = dict(zip((1, 2), free_ports(2)))
        one, two = Side(self.members, 1, ports, called=()), Side(self.members, 2, ports)
        await one.rounds.start()
        await two.rounds.start()
        await one.node.put([(b"k", b"v")])
        await until(lambda: are_same(one, two) and two.node.updates)
        self.assertEqual(one.counts["links_out"], 0)
        await self.end(one, two)


class Receipts(Case):
    @run
    async def test_they_are_signed_once_out_of_their_bucket(self):
        one, two = await self.sides((1, 2), leaves=100)
        put = await one.node.put([(b"k", b"v")])
        await one.rounds.ask_receipts([put.id])
        await until(lambda: two.node.receipts == [[put.id]] and len(one.node.updates) == 2)
        await one.rounds.ask_receipts([put.id])
        await until(lambda: one.counts["receipts_asked"] == 2)
        self.assertEqual((two.node.receipts, two.counts["leaves_for_receipts"]), ([[put.id]], 1))
        await self.end(one, two)

    @run
    async def test_none_without_a_leaf_or_without_the_update(self):
        one, two = await self.sides((1, 2))
        two.rounds.receipts.spend(10_000)
        put = await one.node.put([(b"k", b"v")])
        await one.rounds.ask_receipts([put.id, b"\7" * 32])
        await until(lambda: one.counts["receipts_denied"])
        self.assertEqual(two.node.receipts, [])
        await one.rounds.ask_receipts([put.id])
        await until(lambda: one.counts["receipts_denied"] == 3)
        self.assertEqual(two.node.receipts, [])
        await self.end(one, two)


    @run
    async def test_what_isnt_signed_costs_no_leaf_and_asks_as_others_do(self):
        one, two = await self.sides((1, 2))
        asked = []

        async def receipt(ids, urgency=LOCAL):
            asked.append(urgency)
            raise Refused(m.NotDone("not-held", "a value isn't held"))

        two.node.receipt = receipt
        put, left = await one.node.put([(b"k", b"v")]), two.rounds.receipts.left()
        await one.rounds.ask_receipts([put.id])
        await until(lambda: asked and one.counts["receipts_denied"])
        self.assertEqual((set(asked), two.rounds.receipts.left()), ({PEER}, left))
        await self.end(one, two)


class Seldom(Case):
    @run
    async def test_who_doesnt_move_is_sent_the_same_ever_more_seldom(self):
        one, two = await self.sides((1, 2))
        two.node.refuse_from.add(1)
        await one.node.put([(b"k", b"v")])
        await until(lambda: one.counts["gives_left_out"] >= 2)
        self.assertLessEqual(len(two.node.taken_streams), 4)
        two.node.refuse_from.clear()
        await until(lambda: are_same(one, two))
        await self.end(one, two)

    @run
    async def test_a_convicted_member_is_served_seldom(self):
        one, two = await self.sides((1, 2), pace=dataclasses.replace(SOON, convicted=1000.0))
        await until(lambda: one.peer(2).in_step_at)
        one.node.convicted.append(2)
        await until(lambda: one.peer(2).is_convicted and two.counts["exchanges_later"])
        served = len(one.node.served)
        await one.node.put([(b"k", b"v")])
        await until(lambda: two.counts["exchanges_later"] > 2)
        self.assertLessEqual(len(one.node.served), served + 1)
        await self.end(one, two)

    def test_moves(self):
        moves, sent = Moves(), Given(is_sent=True)
        for times, wait in enumerate((0.3, 0.6, 1.2, 2.0, 2.0)):
            moves.note(b"state", sent, SOON, 100.0 * times)
            self.assertAlmostEqual(moves.wait(b"state", 100.0 * times), wait)
            self.assertEqual(moves.wait(b"another", 100.0 * times), 0.0)
        moves.note(b"state", Given(new=1, is_sent=True), SOON, 1000.0)
        self.assertEqual(moves.wait(b"state", 1000.0), 0.0)


class Hostile(Case):
    """A member that has its certificate, and doesn't keep to the protocol."""

    async def caller(self, side):
        """A link of member 3 to a side, and the greeting that it begins with."""
        from collections import Counter
        from depot_service.links import Links

        config = self.members.config(3, {1: side.rounds.config.links.listen.port, 3: free_ports(1)[0]})
        link = await Links(config, Counter(), quiet).dial(config.peers[1])
        return link, wire.Greeting(wire.PUSH, 3, side.node.started.roster, bytes(32))

    @run
    async def test_each_is_told_why_and_let_go(self):
        one = (await self.sides((1, 3), called=()))[0]
        link, right = await self.caller(one)
        cases = [
            (dataclasses.replace(right, node=2).text(), "a greeting of node 2 by node 3"),
            (dataclasses.replace(right, roster=bytes(32)).text(), "another roster"), (b"\2" + right.text()[1:], "isn't in its form"),
        ]
        for text, told in cases:
            link, _ = await self.caller(one)
            await link.send(wire.GREETING, text)
            with self.assertRaisesRegex(Foul, told):
                await link.read(wire.ANSWER)
        await until(lambda: one.counts["exchanges_foul"] == 3)
        await self.end(one)

    async def push(self, one, stream):
        """What is answered to a piece of a push."""
        link, greeting = await self.caller(one)
        await link.send(wire.GREETING, greeting.text())
        self.assertEqual(wire.read_answer((await link.read(wire.ANSWER))[1]).word, wire.GO_ON)
        await link.read(wire.HELLO)
        await link.send(wire.STREAM, b"\0" + stream)
        taken = wire.read_taken((await link.read(wire.TAKEN))[1])
        return taken, link

    @run
    async def test_a_stream_that_is_none_ends_the_link(self):
        one = (await self.sides((1, 3), called=()))[0]
        frame = frame_of(body_of(3, 0, bytes(32), b"k", b"v"))
        await one.node.put([(b"own", b"v")])
        for stream in (frame[:-1], b"\7\0\0\0\0", b"\2\0\0\0\0" * 20 + END):
            _, link = await self.push(one, stream)
            with self.assertRaisesRegex(Foul, "the other side refuses"):
                await link.read(wire.END)
        taken, link = await self.push(one, frame + END)
        self.assertEqual(taken, wire.Taken(1, 0, 0, 0))
        link.close()
        await self.end(one)


if __name__ == "__main__":
    unittest.main()
