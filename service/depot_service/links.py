"""Links to other members: TLS over TCP, with certificates pinned by SHA-256 in both directions, and limits on all that is read.

    links = Links(config, counts, say)
    link = await links.dial(peer)           # a Link to a member; Cut or Foul where it isn't to be had
    await links.listen(on_link)             # `on_link(link)` is awaited for each member that calls
    await links.close()

A certificate is signed by itself, and no authority vouches for it. Who calls sends its certificate first, in the clear, as
Python's TLS asks for no certificate that it doesn't already trust. Where SHA-256 of it is none of the config's, the link is
closed before anything was computed; else that one certificate is all that the TLS server then trusts. Who calls looks at the
server's once TLS stands.
"""

import asyncio
import ssl
import time
from collections import Counter
from typing import Awaitable, Callable, Dict, List, Optional, Tuple

from . import wire
from .config import Config, Peer
from .ends import CONFIG, LOCKED, Ends
from .wire import Foul

import formats
import guard

AHEAD = 1 << 18
BACKLOG = 128
TELL_EACH, MORE_TOLD, LINGER = 1.0, 10, 2.0


class Cut(OSError):
    """The link is cut, or nothing came in time: what was taken before is kept."""


class Channel(asyncio.Protocol):
    """The bytes of a connection, asked for by their number. What nobody asks for is read ahead up to a bound."""

    def __init__(self, on_made: Callable[["Channel"], None] = lambda _: None):
        self.on_made, self.transport, self.fault = on_made, None, None
        self.buffer, self.wanted, self.is_paused = bytearray(), 0, False
        self.some, self.room = asyncio.Event(), asyncio.Event()
        self.room.set()

    def connection_made(self, transport) -> None:
        self.transport = transport
        self.on_made(self)

    def data_received(self, data: bytes) -> None:
        self.buffer += data
        if len(self.buffer) > max(AHEAD, self.wanted) and not self.is_paused:
            self.is_paused = True
            self.transport.pause_reading()
        self.some.set()

    def eof_received(self) -> bool:
        self.end(Cut("the other side ended the link"))
        return False

    def connection_lost(self, why: Optional[Exception]) -> None:
        self.end(Cut("the link broke: %s" % why) if why else Cut("the link is closed"))

    def end(self, why: Cut) -> None:
        """Nothing more comes, and nothing more goes out."""
        self.fault = self.fault or why
        self.some.set()
        self.room.set()

    def pause_writing(self) -> None:
        self.room.clear()

    def resume_writing(self) -> None:
        self.room.set()

    async def read(self, count: int, seconds: float) -> bytes:
        """So many bytes; Cut where they don't come in time."""
        try:
            return await asyncio.wait_for(self.take(count), seconds)
        except asyncio.TimeoutError:
            raise Cut("nothing came in %.0f seconds" % seconds)

    async def take(self, count: int) -> bytes:
        """So many bytes, once they are there."""
        self.wanted = count
        while len(self.buffer) < count:
            if self.fault:
                raise self.fault
            if self.is_paused:
                self.is_paused = False
                self.transport.resume_reading()
            self.some.clear()
            await self.some.wait()
        found = bytes(self.buffer[:count])
        del self.buffer[:count]
        self.wanted = 0
        return found

    async def write(self, data: bytes, seconds: float) -> None:
        """Hands bytes over; Cut where the other side doesn't read them in time."""
        if self.fault:
            raise self.fault
        self.transport.write(data)
        try:
            await asyncio.wait_for(self.room.wait(), seconds)
        except asyncio.TimeoutError:
            raise Cut("nothing was read in %.0f seconds" % seconds)

    def hold(self) -> None:
        """Reads no more before TLS begins, whose bytes aren't this one's."""
        self.transport.pause_reading()

    async def secure(self, context: ssl.SSLContext, is_server: bool, seconds: float) -> bytes:
        """Begins TLS; the other side's certificate. What came before it, in the clear, would be read as the other's: it is foul."""
        self.hold()
        if self.buffer:
            raise Foul("%d bytes in the clear before TLS" % len(self.buffer))
        if self.fault:
            raise self.fault
        try:
            loop = asyncio.get_running_loop()
            self.transport = await loop.start_tls(self.transport, self, context, server_side=is_server, ssl_handshake_timeout=seconds)
        except (ssl.SSLError, asyncio.TimeoutError) as why:
            raise Foul("no TLS: %s" % (why or "no answer in time"))
        # Of a connection that is closed in the handshake asyncio may say nothing.
        shown = self.transport.get_extra_info("ssl_object") if self.transport is not None else None
        try:
            if shown is not None:
                return shown.getpeercert(binary_form=True) or b""
        except ValueError:
            pass
        raise Cut("the link broke in the handshake")

    def close(self) -> None:
        """Closes, and soon cuts: TLS may wait long for a side that doesn't answer, or doesn't read what is still to go out."""
        self.end(Cut("the link is closed"))
        if self.transport is not None:
            if not self.transport.is_closing():
                self.transport.close()  # closed twice, TLS of Python 3.11 forgets what it needs to be aborted
            asyncio.get_running_loop().call_later(LINGER, self.transport.abort)


def plain(payload: bytes) -> str:
    """Words of the other side as one line."""
    return "".join(it if it.isprintable() else " " for it in payload.decode("utf-8", "replace"))


class Link:
    """A link to a member, who proved to have the key of its certificate."""

    def __init__(self, channel: Channel, node: int, limits, counts: Counter):
        self.channel, self.node, self.limits, self.counts = channel, node, limits, counts
        self.begin()

    def begin(self) -> None:
        """An exchange begins, which has its own time, and in which the other side says so often that it still works."""
        self.until, self.works = time.monotonic() + self.limits.exchange_seconds, 0

    def within(self, seconds: float) -> float:
        """So many seconds, or fewer where the exchange's time ends before."""
        left = self.until - time.monotonic()
        if left <= 0:
            raise Cut("the exchange takes over %.0f seconds" % self.limits.exchange_seconds)
        return min(left, seconds)

    def seconds_for(self, size: int) -> float:
        """How long so many bytes may take at the least rate."""
        return self.within(self.limits.wait_seconds + size / self.limits.least_rate)

    async def send(self, kind: int, payload: bytes = b"") -> None:
        """Sends a message."""
        self.counts["wire_out_bytes"] += wire.HEAD + len(payload)
        await self.channel.write(bytes([kind]) + len(payload).to_bytes(4, "big") + payload, self.seconds_for(len(payload)))

    async def read(self, *kinds: int, seconds: Optional[float] = None) -> Tuple[int, bytes]:
        """The next message, of one of these kinds. That the other side still works is passed over."""
        while True:
            head = await self.channel.read(wire.HEAD, self.within(seconds or self.limits.wait_seconds))
            kind, size = head[0], int.from_bytes(head[1:], "big")
            if size > wire.MOST.get(kind, -1):
                raise Foul("a message of kind %d with %d bytes" % (kind, size))
            payload = await self.channel.read(size, self.seconds_for(size)) if size else b""
            self.counts["wire_in_bytes"] += wire.HEAD + size
            if kind == wire.REFUSAL:
                raise Foul("the other side refuses: %s" % plain(payload))
            if kind in kinds:
                return kind, payload
            if kind != wire.WORKING:
                raise Foul("a message of kind %d out of turn" % kind)
            self.works += 1
            if self.works > self.limits.exchange_seconds / TELL_EACH + MORE_TOLD:
                raise Foul("it says more often than once a second that it still works")

    async def while_working(self, work: Awaitable):
        """What the work gives, telling the other side now and then that it goes on."""
        task = asyncio.ensure_future(work)
        try:
            while not (await asyncio.wait([task], timeout=TELL_EACH))[0]:
                await self.send(wire.WORKING)
            return task.result()
        finally:
            task.cancel()

    async def refuse(self, why: str) -> None:
        """Says why the link is closed, if the other side still hears it."""
        try:
            await self.send(wire.REFUSAL, why.encode("utf-8")[: wire.MOST_REFUSAL])
        except OSError:
            pass

    def close(self) -> None:
        """Closes the link."""
        self.channel.close()

    def is_closed(self) -> bool:
        """Whether the link is closed or cut."""
        return self.channel.fault is not None or self.channel.transport.is_closing()


class Links:
    """This member's links: those that it opens, and those of members that call."""

    def __init__(self, config: Config, counts: Counter, say: Callable[[str], None]):
        self.config, self.limits, self.counts, self.say = config, config.limits, counts, say
        self.own = self.load_certificate()
        self.client = self.context(ssl.PROTOCOL_TLS_CLIENT)
        self.client.check_hostname, self.client.verify_mode = False, ssl.CERT_NONE
        self.by_certificate = {it.certificate: it for it in config.peers.values()}
        self.servers: Dict[int, ssl.SSLContext] = {}
        self.server = None
        self.pending: Dict[Channel, asyncio.Task] = {}
        self.open: List[Link] = []
        self.tasks = set()

    def load_certificate(self) -> bytes:
        """This member's certificate, as the others know it."""
        path = self.config.links.certificate
        try:
            with open(path, encoding="ascii") as file:
                found = ssl.PEM_cert_to_DER_cert(file.read())
        except OSError as why:
            raise Ends(CONFIG, guard.told_of(why))
        except ValueError:
            raise Ends(CONFIG, "%s is no certificate in PEM" % path)
        if len(found) > wire.MOST_CERTIFICATE:
            raise Ends(CONFIG, "%s has %d bytes, and a certificate may have %d" % (path, len(found), wire.MOST_CERTIFICATE))
        return found

    def context(self, protocol) -> ssl.SSLContext:
        """A context of TLS with this member's certificate."""
        context = ssl.SSLContext(protocol)
        context.minimum_version = ssl.TLSVersion.TLSv1_3
        links = self.config.links
        try:
            context.load_cert_chain(links.certificate, links.key)
        except (OSError, ssl.SSLError) as why:
            raise Ends(CONFIG, "%s and %s are no certificate and its key: %s" % (links.certificate, links.key, why))
        return context

    def server_for(self, peer: Peer, certificate: bytes) -> ssl.SSLContext:
        """A context of TLS that trusts the certificate of one member, and no other."""
        if peer.node not in self.servers:
            context = self.context(ssl.PROTOCOL_TLS_SERVER)
            context.num_tickets = 0
            try:
                context.load_verify_locations(cadata=certificate)
            except ssl.SSLError as why:
                raise Foul("a certificate that is none: %s" % why)
            context.verify_mode = ssl.CERT_REQUIRED
            self.servers[peer.node] = context
        return self.servers[peer.node]

    # ---- whom this member calls

    async def dial(self, peer: Peer) -> Link:
        """A link to a member."""
        seconds, channel = self.limits.greet_seconds, Channel()
        connecting = asyncio.get_running_loop().create_connection(lambda: channel, peer.address.host, peer.address.port)
        try:
            await asyncio.wait_for(connecting, seconds)
        except asyncio.TimeoutError:
            channel.close()
            raise Cut("%s doesn't answer in %.0f seconds" % (peer.address, seconds))
        try:
            await channel.write(wire.CALL + len(self.own).to_bytes(2, "big") + self.own, seconds)
            if await channel.read(len(wire.GO), seconds) != wire.GO:
                raise Foul("what listens at %s is no member" % peer.address)
            if formats.sha256(await channel.secure(self.client, False, seconds)) != peer.certificate:
                raise Foul("what listens at %s has another certificate than node %d" % (peer.address, peer.node))
        except BaseException:
            channel.close()
            raise
        self.counts["links_out"] += 1
        return Link(channel, peer.node, self.limits, self.counts)

    # ---- who calls

    async def listen(self, on_link: Callable[[Link], Awaitable]) -> None:
        """Listens where the config says, if it does."""
        where, self.on_link = self.config.links.listen, on_link
        if where is None:
            return
        loop = asyncio.get_running_loop()
        try:
            self.server = await loop.create_server(lambda: Channel(self.called), where.host, where.port, backlog=BACKLOG)
        except OSError as why:
            raise Ends(LOCKED, "this member can't listen at %s: %s" % (where, why.strerror or why))

    def called(self, channel: Channel) -> None:
        """Somebody called. Of those that have shown nothing yet the oldest goes where there are too many."""
        if len(self.pending) >= self.limits.links:
            oldest = next(iter(self.pending))
            self.pending.pop(oldest).cancel()
            self.counts["links_crowded"] += 1
        task = asyncio.get_running_loop().create_task(self.admit(channel))
        self.pending[channel] = task
        self.tasks.add(task)
        task.add_done_callback(self.tasks.discard)

    async def admit(self, channel: Channel) -> None:
        """Lets a member in that calls, and nobody else."""
        try:
            peer = await asyncio.wait_for(self.welcome(channel), self.limits.greet_seconds)
            link = Link(channel, peer.node, self.limits, self.counts)
            self.pending.pop(channel, None)
            self.make_room(link)
            self.counts["links_in"] += 1
            await self.on_link(link)
        except (Foul, OSError, asyncio.TimeoutError):
            self.counts["links_refused"] += 1
        finally:
            self.pending.pop(channel, None)
            self.open = [it for it in self.open if it.channel is not channel]
            channel.close()

    async def welcome(self, channel: Channel) -> Peer:
        """Who calls, by its certificate and by TLS. It is waited for as long as `admit` says."""
        seconds = self.limits.greet_seconds
        head = await channel.read(len(wire.CALL) + 2, seconds)
        size = int.from_bytes(head[-2:], "big")
        if head[:-2] != wire.CALL or not 1 <= size <= wire.MOST_CERTIFICATE:
            raise Foul("no call of a member")
        certificate = await channel.read(size, seconds)
        peer = self.by_certificate.get(formats.sha256(certificate))
        if peer is None:
            raise Foul("a certificate that no member has")
        context = self.server_for(peer, certificate)
        channel.hold()
        await channel.write(wire.GO, seconds)
        if await channel.secure(context, True, seconds) != certificate:
            raise Foul("another certificate than the one that was called with")
        return peer

    def make_room(self, link: Link) -> None:
        """A member that has too many links loses its oldest, as one that was cut without a word."""
        same = [it for it in self.open if it.node == link.node]
        if len(same) >= self.limits.links_each:
            same[0].close()
            self.open.remove(same[0])
        self.open.append(link)

    async def close(self) -> None:
        """Listens no more, and cuts all links of those who called."""
        if self.server is not None:
            self.server.close()
        for channel in [*self.pending, *(it.channel for it in self.open)]:
            channel.close()
        for task in list(self.tasks):
            task.cancel()
        await asyncio.gather(*self.tasks, return_exceptions=True)
