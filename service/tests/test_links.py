"""Links on loopback: who is let in, what is read, and who is let go."""

import asyncio
import dataclasses
import ssl
import time
import types
import unittest
import unittest.mock
from collections import Counter

from stand_in import QUICK, Members, free_ports, quiet, run, until
from depot_service import links, wire
from depot_service.ends import CONFIG, LOCKED, Ends
from depot_service.links import Channel, Cut, Links
from depot_service.wire import Foul


class Case(unittest.TestCase):
    @classmethod
    def setUpClass(cls):
        cls.members = Members()

    @classmethod
    def tearDownClass(cls):
        cls.members.room.cleanup()

    async def pair(self, on_link, limits=QUICK, caller=1):
        """Links of two members; node 2 listens, and hands who calls to `on_link`."""
        ports = dict(zip(self.members.nodes, free_ports(3)))
        there = Links(self.members.config(2, ports, limits), Counter(), quiet)
        await there.listen(on_link)
        here = Links(self.members.config(caller, ports, limits), Counter(), quiet)
        return here, there, here.config.peers[2]


async def echo(link):
    """Gives back each hello."""
    while True:
        _, payload = await link.read(wire.HELLO)
        await link.send(wire.HELLO, payload)


class Callers(Case):
    @run
    async def test_messages_go_both_ways(self):
        here, there, peer = await self.pair(echo)
        link = await here.dial(peer)
        for payload in (b"", b"x", bytes(170_000)):
            await link.send(wire.HELLO, payload)
            self.assertEqual(await link.read(wire.HELLO), (wire.HELLO, payload))
        self.assertEqual([it.node for it in there.open], [1])
        link.close()
        await until(lambda: not there.open)
        await there.close()

    @run
    async def test_another_certificate_is_not_the_peer(self):
        here, there, peer = await self.pair(echo)
        with self.assertRaisesRegex(Foul, "another certificate than node 2"):
            await here.dial(dataclasses.replace(peer, certificate=bytes(32)))
        await there.close()

    @run
    async def test_a_stranger_is_let_go_before_TLS(self):
        here, there, peer = await self.pair(echo)
        there.by_certificate.clear()
        with self.assertRaises(Cut):
            await here.dial(peer)
        self.assertEqual(there.counts["links_refused"], 1)
        await there.close()

    @run
    async def test_a_certificate_without_its_key_lets_nobody_in(self):
        here, there, peer = await self.pair(echo)
        with open(self.members.path(3) + "/certificate.pem", encoding="ascii") as file:
            here.own = ssl.PEM_cert_to_DER_cert(file.read())
        link = await here.dial(peer)
        with self.assertRaises(OSError):
            await link.send(wire.HELLO, b"x")
            await link.read(wire.HELLO)
        self.assertEqual((there.open, there.counts["links_in"]), ([], 0))
        await there.close()

    @run
    async def test_rubbish_in_place_of_a_call(self):
        here, there, peer = await self.pair(echo)
        for call in (b"GET / HTTP/1.0\r\n\r\n", wire.CALL + b"\xff\xff", wire.CALL + b"\0\0", wire.CALL + b"\0\5hello"):
            reader, writer = await asyncio.open_connection(peer.address.host, peer.address.port)
            writer.write(call)
            self.assertEqual(await reader.read(1), b"")
            writer.close()
        self.assertEqual(there.counts["links_refused"], 4)
        await there.close()

    @run
    async def test_a_link_that_is_closed_before_TLS_or_in_it_is_cut(self):
        async def gone(reader, writer):
            writer.close()

        here, there, peer = await self.pair(echo)
        server = await asyncio.start_server(gone, "127.0.0.1", 0)
        channel = Channel()
        await asyncio.get_running_loop().create_connection(lambda: channel, "127.0.0.1", server.sockets[0].getsockname()[1])
        await until(lambda: channel.fault)
        with self.assertRaises(Cut):
            await channel.secure(here.client, False, 5)
        server.close()
        channel = Channel()
        await asyncio.get_running_loop().create_connection(lambda: channel, peer.address.host, peer.address.port)
        with unittest.mock.patch.object(asyncio.get_running_loop(), "start_tls", self.told_nothing):
            with self.assertRaises(Cut):
                await channel.secure(here.client, False, 5)
        channel.close()
        await there.close()

    async def told_nothing(self, transport, _protocol, context, **_words):
        """In place of `start_tls`, as where the connection is closed in the handshake: the transport of one that never was."""
        ssl_object = context.wrap_bio(ssl.MemoryBIO(), ssl.MemoryBIO())
        return types.SimpleNamespace(get_extra_info=lambda _: ssl_object, close=transport.close, abort=transport.abort, is_closing=transport.is_closing)

    @run
    async def test_what_somebody_adds_in_the_clear_to_a_members_call_is_not_read_as_the_members(self):
        heard = []

        async def hear(link):
            heard.append(await link.read(wire.HELLO))

        here, there, peer = await self.pair(hear)
        channel = Channel()
        await asyncio.get_running_loop().create_connection(lambda: channel, peer.address.host, peer.address.port)
        await channel.write(wire.CALL + len(here.own).to_bytes(2, "big") + here.own + b"\3\0\0\0\1x", 1)
        await channel.read(len(wire.GO), 5)
        with self.assertRaises((Foul, OSError)):
            await channel.secure(here.client, False, 5)
        self.assertEqual((heard, there.open, there.counts["links_refused"]), ([], [], 1))
        channel.close()
        await there.close()

    @run
    async def test_nor_what_somebody_adds_to_the_answer(self):
        async def add(reader, writer):
            await reader.readexactly(len(wire.CALL))
            writer.write(wire.GO + b"\2\0\0\0\5" + wire.Answer(wire.SAME).text())

        here, there, peer = await self.pair(echo)
        server = await asyncio.start_server(add, "127.0.0.1", 0)
        address = dataclasses.replace(peer.address, port=server.sockets[0].getsockname()[1])
        with self.assertRaisesRegex(Foul, "10 bytes in the clear"):
            await here.dial(dataclasses.replace(peer, address=address))
        server.close()
        await there.close()

    @run
    async def test_who_shows_nothing_is_let_go_in_time_and_keeps_nobody_out(self):
        limits = dataclasses.replace(QUICK, greet_seconds=2.0, links=3)
        here, there, peer = await self.pair(echo, limits)
        idle = [await asyncio.open_connection(peer.address.host, peer.address.port) for _ in range(5)]
        link = await here.dial(peer)
        await link.send(wire.HELLO, b"x")
        self.assertEqual((await link.read(wire.HELLO))[1], b"x")
        await until(lambda: not there.pending)
        for _, writer in idle:
            writer.close()
        await there.close()

    @run
    async def test_a_member_with_too_many_links_loses_its_oldest(self):
        here, there, peer = await self.pair(echo, dataclasses.replace(QUICK, links_each=2))
        links = [await here.dial(peer) for _ in range(3)]
        await until(lambda: len(there.open) == 2)
        with self.assertRaises(OSError):
            await links[0].read(wire.HELLO)
        await there.close()


class Limits(Case):
    @run
    async def test_a_message_over_its_bound_is_foul(self):
        heard = []

        async def hear(link):
            try:
                await link.read(wire.END)
            except Foul as why:
                heard.append(str(why))

        here, there, peer = await self.pair(hear)
        for kind, size in ((wire.END, 2), (99, 0), (wire.HELLO, 172_621), (wire.STREAM, 2 << 20)):
            link = await here.dial(peer)
            await link.channel.write(bytes([kind]) + size.to_bytes(4, "big"), 1)
            await until(lambda: link.is_closed())
        self.assertEqual(heard, ["a message of kind %d with %d bytes" % it for it in ((6, 2), (99, 0), (3, 172621), (4, 2 << 20))])
        await there.close()

    @run
    async def test_out_of_turn_is_foul_and_so_is_a_refusal(self):
        here, there, peer = await self.pair(echo)
        link = await here.dial(peer)
        await link.send(wire.HELLO, b"x")
        with self.assertRaisesRegex(Foul, "kind 3 out of turn"):
            await link.read(wire.END)
        await there.close()

        async def refuse(link):
            await link.refuse("not \n you")

        here, there, peer = await self.pair(refuse)
        with self.assertRaisesRegex(Foul, "the other side refuses: .*not"):
            await (await here.dial(peer)).read(wire.END)
        await there.close()

    @run
    async def test_a_slow_sender_is_cut(self):
        limits = dataclasses.replace(QUICK, wait_seconds=0.3, least_rate=1_000_000)
        told = []

        async def hear(link):
            try:
                await link.read(wire.HELLO)
            except OSError as why:
                told.append(str(why))
                raise

        here, there, peer = await self.pair(hear, limits)
        link = await here.dial(peer)
        await link.channel.write(b"\3\0\0\x03\xe8" + bytes(10), 1)
        await until(lambda: told)
        self.assertIn("nothing came", told[0])
        await there.close()

    @run
    async def test_a_reader_that_stalls_holds_nobody(self):
        limits = dataclasses.replace(QUICK, wait_seconds=0.3, least_rate=100_000_000)
        told = []

        async def pour(link):
            try:
                while True:
                    await link.send(wire.STREAM, bytes(1 << 20))
            except OSError as why:
                told.append(str(why))
                raise

        here, there, peer = await self.pair(pour, limits)
        link = await here.dial(peer)
        link.channel.hold()
        await until(lambda: told)
        self.assertIn("nothing was read", told[0])
        await there.close()

    @run
    async def test_work_that_takes_long_is_told_of(self):
        async def work(link):
            await link.while_working(asyncio.sleep(2.5))
            await link.send(wire.END, b"\0")

        here, there, peer = await self.pair(work, dataclasses.replace(QUICK, wait_seconds=1.5))
        begun = time.monotonic()
        with unittest.mock.patch.object(links, "TELL_EACH", 0.1):  # ever so often within the time that it waits
            self.assertEqual(await (await here.dial(peer)).read(wire.END), (wire.END, b"\0"))
        self.assertGreater(time.monotonic() - begun, 2.4)
        await there.close()

    @run
    async def test_who_says_all_the_time_that_it_works_is_foul(self):
        async def flood(link):
            while True:
                await link.send(wire.WORKING)

        here, there, peer = await self.pair(flood)
        link = await here.dial(peer)
        with self.assertRaisesRegex(Foul, "more often than once a second"):
            await link.read(wire.END)
        self.assertLess(link.works, 100)
        await there.close()

    @run
    async def test_an_exchange_has_an_end(self):
        async def work(link):
            while True:
                await link.send(wire.WORKING)
                await asyncio.sleep(0.2)

        here, there, peer = await self.pair(work, dataclasses.replace(QUICK, exchange_seconds=0.6))
        with self.assertRaisesRegex(Cut, "takes over|nothing came"):
            await (await here.dial(peer)).read(wire.END)
        await there.close()

    @run
    async def test_no_more_is_read_ahead_than_a_bound(self):
        class Held:
            paused = False

            def pause_reading(self):
                self.paused = True

        channel = Channel()
        channel.connection_made(Held())
        channel.data_received(bytes(1 << 18))
        self.assertFalse(channel.transport.paused)
        channel.data_received(b"x")
        self.assertTrue(channel.transport.paused)


class Certificates(Case):
    @run
    async def test_files_that_are_none(self):
        ports = dict(zip(self.members.nodes, free_ports(3)))
        config = self.members.config(1, ports)
        for change in ({"certificate": "/none"}, {"certificate": __file__}, {"key": "/none"}, {"key": self.members.path(2) + "/key.pem"}):
            with self.subTest(change), self.assertRaises(Ends) as caught:
                Links(dataclasses.replace(config, links=dataclasses.replace(config.links, **change)), Counter(), quiet)
            self.assertEqual(caught.exception.status, CONFIG)

    @run
    async def test_an_address_that_another_has(self):
        here, there, peer = await self.pair(echo)
        again = Links(there.config, Counter(), quiet)
        with self.assertRaises(Ends) as caught:
            await again.listen(echo)
        self.assertEqual(caught.exception.status, LOCKED)
        await there.close()


if __name__ == "__main__":
    unittest.main()
