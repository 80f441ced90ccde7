"""A hostile peer: what strangers, a member that lies, and a bad local program send. Nothing of it makes a signature."""

import asyncio
import os
import random
import time
from collections import Counter

import cases  # noqa: F401  (finds the service's parts)
import formats
from asking import ENDS
from depot_service import wire
from depot_service.config import read_config
from depot_service.links import Links

PAUSE, PATIENCE = 0.2, 2.0


def tls_hello(draw: random.Random) -> bytes:
    """The beginning of a TLS handshake, and rubbish behind it."""
    return b"\x16\x03\x01" + (200).to_bytes(2, "big") + b"\1" + bytes(draw.getrandbits(8) for _ in range(199))


class Stranger:
    """Somebody without a key, at the ports of members and of their HTTP."""

    def __init__(self, ports, https, certificates, draw: random.Random):
        self.ports, self.https, self.certificates, self.draw = ports, https, certificates, draw
        self.tally = Counter()
        self.deeds = [self.rubbish, self.huge_call, self.unknown_certificate, self.stolen_certificate, self.slow_call, self.silent, self.bad_http, self.crowd]

    async def dial(self, ports):
        """A connection to one of the ports."""
        return await asyncio.wait_for(asyncio.open_connection("127.0.0.1", self.draw.choice(ports)), PATIENCE)

    async def drain(self, reader, most: int = 1 << 20) -> None:
        """Reads what comes for a while."""
        until = time.monotonic() + PATIENCE
        while most > 0 and time.monotonic() < until:
            data = await asyncio.wait_for(reader.read(65_536), PATIENCE)
            if not data:
                return
            most -= len(data)

    async def say(self, data: bytes, ports=None) -> None:
        """Says something on a new connection, and hears the answer."""
        reader, writer = await self.dial(ports or self.ports)
        try:
            writer.write(data)
            await asyncio.wait_for(writer.drain(), PATIENCE)
            await self.drain(reader)
        finally:
            writer.close()

    def call(self, certificate: bytes) -> bytes:
        """How a member with this certificate calls."""
        return wire.CALL + len(certificate).to_bytes(2, "big") + certificate

    async def rubbish(self):
        """Bytes of no meaning."""
        await self.say(bytes(self.draw.getrandbits(8) for _ in range(self.draw.randint(1, 20_000))))

    async def huge_call(self):
        """A certificate longer than any."""
        await self.say(wire.CALL + b"\xff\xff" + bytes(65_535))

    async def unknown_certificate(self):
        """A certificate that no member has."""
        await self.say(self.call(bytes(self.draw.getrandbits(8) for _ in range(500))))

    async def stolen_certificate(self):
        """A member's certificate, without its key."""
        await self.say(self.call(self.draw.choice(self.certificates)) + tls_hello(self.draw))

    async def slow_call(self):
        """A byte now and then."""
        _, writer = await self.dial(self.ports)
        try:
            for byte in self.call(self.certificates[0])[:20]:
                writer.write(bytes([byte]))
                await writer.drain()
                await asyncio.sleep(0.15)
        finally:
            writer.close()

    async def silent(self):
        """Nothing at all."""
        _, writer = await self.dial(self.ports)
        await asyncio.sleep(PATIENCE)
        writer.close()

    async def crowd(self):
        """Many connections at once."""
        writers = [(await self.dial(self.ports))[1] for _ in range(80)]
        await asyncio.sleep(0.3)
        for it in writers:
            it.close()

    async def bad_http(self):
        """Requests of HTTP that aren't in order."""
        head = b"PUT /v1/values/k HTTP/1.1\r\nHost: 127.0.0.1\r\n"
        await self.say(self.draw.choice([
            bytes(self.draw.getrandbits(8) for _ in range(5_000)), b"GET / HTTP/1.1\r\n" + b"a: b\r\n" * 20_000, head + b"Content-Length: 99999999999\r\n\r\n",
            head + b"Content-Length: -5\r\n\r\n", head + b"Transfer-Encoding: chunked\r\n\r\nzz\r\n", head + b"Content-Length: 65537\r\n\r\n" + bytes(65_537),
            b"POST /v1/put HTTP/1.1\r\nHost: 127.0.0.1\r\nContent-Length: 90000\r\n\r\n" + b"[" * 90_000, b"GET /v1/values/%zz HTTP/1.1\r\nHost: x\r\n\r\n",
            head + b"Origin: http://evil.example\r\nContent-Length: 4\r\n\r\nevil", head + b"Content-Length: 10\r\n\r\nx",
        ]), self.https)

    async def run(self) -> None:
        """Does one deed after the other, until it is cancelled."""
        while True:
            deed = self.draw.choice(self.deeds)
            try:
                await deed()
                self.tally[deed.__name__] += 1
            except ENDS:
                self.tally[deed.__name__ + " (cut off)"] += 1
            await asyncio.sleep(self.draw.random() * PAUSE)


class Liar:
    """A member with its certificate and key, who keeps to no order and sends what no correct member sends."""

    def __init__(self, config: str, draw: random.Random):
        self.config, self.draw, self.tally, self.seen = read_config(config), draw, Counter(), []
        self.links = Links(self.config, Counter(), lambda _: None)
        with open(self.config.member.roster, "rb") as file:
            self.roster = formats.sha256(file.read())

    def rubbish(self, most: int) -> bytes:
        """Bytes of no meaning."""
        return bytes(self.draw.getrandbits(8) for _ in range(self.draw.randint(0, most)))

    def greeting(self) -> bytes:
        """A greeting that is mostly good."""
        node = self.config.member.node if self.draw.random() < 0.8 else 1
        roster = self.roster if self.draw.random() < 0.9 else bytes(32)
        return wire.Greeting(self.draw.choice([wire.ROUND, wire.PUSH, wire.RECEIPTS]), node, roster, os.urandom(32)).text()

    def hello(self) -> bytes:
        """A hello that has nothing, so that all is sent; or one that is none."""
        if self.draw.random() < 0.3:
            return self.rubbish(2_000)
        return b"\1\3" + formats.number(2, self.config.member.node) + self.roster + bytes(6)

    def stream(self) -> bytes:
        """Frames: of rubbish, cut, or such as others sent, changed here and there."""
        if self.seen and self.draw.random() < 0.7:
            found = bytearray(self.draw.choice(self.seen))
            for _ in range(self.draw.randint(0, 3)):
                found[self.draw.randrange(len(found))] ^= 1 << self.draw.randrange(8)
            return bytes(found[: self.draw.randint(1, len(found))] if self.draw.random() < 0.3 else found)
        frames = [bytes([self.draw.randint(1, 3)]) + formats.number(4, 300) + bytes(300) for _ in range(self.draw.randint(1, 150))]
        return b"".join(frames) if self.draw.random() < 0.7 else self.rubbish(30_000)

    def message(self):
        """A kind and a payload."""
        kind = self.draw.choice([wire.HELLO, wire.STREAM, wire.STREAM, wire.TAKEN, wire.END, wire.WORKING, wire.IDS, wire.ANSWER, self.draw.randint(0, 255)])
        if kind == wire.HELLO:
            return kind, self.hello()
        if kind == wire.STREAM:
            return kind, wire.Piece(self.draw.random() < 0.3, self.stream()).text()
        if kind == wire.IDS:
            return kind, wire.ids_text([os.urandom(32)])
        return kind, self.rubbish(30)

    async def hear(self, link) -> None:
        """Remembers streams that come."""
        try:
            for _ in range(4):
                kind, payload = await link.read(*wire.MOST, seconds=0.3)
                if kind == wire.STREAM and len(payload) > 1:
                    self.seen = (self.seen + [payload[1:]])[-8:]
        except (OSError, wire.Foul):
            pass

    async def deed(self, peer) -> None:
        """A conversation."""
        link = await self.links.dial(peer)
        try:
            await link.send(wire.GREETING, self.greeting())
            for _ in range(self.draw.randint(1, 5)):
                await self.hear(link)
                await link.send(*self.message())
            if self.draw.random() < 0.2:
                await asyncio.sleep(PATIENCE)  # and reads nothing
        finally:
            link.close()

    async def run(self) -> None:
        """Has one conversation after the other, until it is cancelled."""
        while True:
            try:
                await self.deed(self.draw.choice([it for it in self.config.peers.values()]))
                self.tally["conversations"] += 1
            except (wire.Foul, *ENDS):
                self.tally["conversations (cut off)"] += 1
            await asyncio.sleep(self.draw.random() * PAUSE)
