"""One exchange over a link, as its caller and as its answerer (service/WIRE.md has the order of the messages)."""

import asyncio
import time
from dataclasses import dataclass

from . import wire
from .links import Link
from .messages import MISSING, MOST_BYTES_OF_BUNDLE
from .serving import MOST_FAULTY, Own, Serving, Unanswerable, faulty_in, is_foul
from .wire import Foul

MOST_REST = 5.0


@dataclass
class Given:
    """What became of what was given: frames that were new, refused, or lacked a parent; whether anything was sent, or is left."""

    new: int = 0
    refused: int = 0
    missing: int = 0
    is_sent: bool = False
    has_more: bool = False

    def add(self, taken: wire.Taken) -> None:
        """Counts a piece."""
        self.new += taken.new
        self.refused += taken.refused
        self.missing += taken.missing
        self.is_sent = True


@dataclass
class Rest:
    """How long a member waits for the next bundle: as long as the last one took, so that nobody has the node for itself."""

    until: float = 0.0
    is_giving: bool = False

    def left(self) -> float:
        """How many seconds it waits yet."""
        return max(0.0, self.until - time.monotonic())

    def note(self, begun: float) -> None:
        """A bundle was made since then."""
        now = time.monotonic()
        self.until = now + min(MOST_REST, now - begun)


class Exchange:
    """The two halves of an exchange with the member behind a link."""

    def __init__(self, link: Link, serving: Serving, roster: bytes, me: int):
        self.link, self.serving, self.roster, self.me = link, serving, roster, me
        self.limits = serving.limits

    # ---- how it begins

    async def greet(self, purpose: int, own: Own) -> wire.Answer:
        """Says what for, and what this member has."""
        await self.link.send(wire.GREETING, wire.Greeting(purpose, self.me, self.roster, own.state).text())
        return wire.read_answer((await self.link.read(wire.ANSWER))[1])

    async def be_greeted(self) -> wire.Greeting:
        """Waits for the next exchange; Foul where it is of another member or under another roster."""
        _, payload = await self.link.read(wire.GREETING, seconds=self.limits.idle_seconds)
        self.link.begin()
        greeting = wire.read_greeting(payload)
        if greeting.node != self.link.node:
            raise Foul("a greeting of node %d by node %d" % (greeting.node, self.link.node))
        if greeting.roster != self.roster:
            raise Foul("another roster: %s, and here it is %s" % (greeting.roster.hex()[:16], self.roster.hex()[:16]))
        return greeting

    # ---- hellos

    async def send_hello(self) -> None:
        """Says what this member has, as far back as a hello may."""
        await self.link.send(wire.HELLO, await self.link.while_working(self.serving.node.far_hello()))

    async def read_hello(self) -> bytes:
        """What the other has."""
        _, payload = await self.link.read(wire.HELLO)
        wire.hello_of(payload, self.link.node, self.roster)
        return payload

    # ---- streams

    async def give(self, hello: bytes, is_own: bool, rest: Rest) -> Given:
        """Gives what a hello lacks, a bundle after the other while the other side moves."""
        given, most_bytes, stuck_at = Given(), self.limits.bundle_bytes, 0
        while True:
            await self.link.while_working(asyncio.sleep(rest.left()))
            bundle = await self.bundle_for(hello, is_own, most_bytes, rest)
            given.has_more = bundle.has_more
            # A bundle no longer than one of which all was known brings the same.
            if bundle.is_empty() or len(bundle.stream) <= stuck_at:
                break
            was = given.new, given.refused
            moved = await self.send_bundle(bundle, given)
            if not bundle.has_more:
                break
            if moved != hello:
                most_bytes, stuck_at = self.limits.bundle_bytes, 0
            elif (given.new, given.refused) == was:
                most_bytes, stuck_at = min(2 * most_bytes, MOST_BYTES_OF_BUNDLE), len(bundle.stream)
            else:
                break
            hello = moved
        await self.link.send(wire.END, bytes([given.has_more]))
        return given

    async def bundle_for(self, hello: bytes, is_own: bool, most_bytes: int, rest: Rest):
        """The next bundle; Foul where the hello is one for which there is none."""
        begun = time.monotonic()
        try:
            return await self.link.while_working(self.serving.bundle_for(hello, is_own, most_bytes))
        except Unanswerable as why:
            raise Foul("a hello for which there is no bundle: %s" % why)
        finally:
            rest.note(begun)

    async def send_bundle(self, bundle, given: Given) -> bytes:
        """Sends a bundle, the next piece once the last was taken. Where there is more, the hello of the other behind it."""
        for piece in wire.pieces_of(bundle.stream, bundle.has_more):
            await self.link.send(wire.STREAM, piece.text())
            taken = wire.read_taken((await self.link.read(wire.TAKEN))[1])
            given.add(taken)
        if bundle.has_more:
            wire.hello_of(taken.hello, self.link.node, self.roster)
        return taken.hello

    async def take(self) -> bool:
        """Takes what the other gives, to its end: whether there is more. The next piece is read once this one is kept."""
        faulty = 0
        while True:
            kind, payload = await self.link.read(wire.STREAM, wire.END)
            if kind == wire.END:
                return bool(wire.read_mark(payload))
            piece = wire.read_piece(payload)
            taken = await self.link.while_working(self.serving.take(piece.stream))
            hello = await self.link.while_working(self.serving.node.far_hello()) if piece.wants_hello else b""
            told = wire.Taken(taken.new, taken.known, len(taken.refused), taken.count(MISSING), hello)
            await self.link.send(wire.TAKEN, told.text())
            faulty += faulty_in(taken)
            if is_foul(taken) or faulty > MOST_FAULTY:
                raise Foul(taken.fault or "%d faulty frames" % faulty)
