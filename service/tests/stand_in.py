"""What the tests share: a node in memory whose texts are those of docs/FORMATS.md, members with certificates, and loops.

The node in memory signs nothing and checks little: an update is taken where its parents are there. It stands in for
depot_service.node.Node where links, rounds and the carrier are tried.
"""

import asyncio
import os
import random
import socket
import sys
import tempfile
from collections import Counter
from typing import Dict, List, Optional

sys.dont_write_bytecode = True
HERE = os.path.dirname(os.path.abspath(__file__))
SERVICE = os.path.normpath(os.path.join(HERE, os.pardir))
if SERVICE not in sys.path:
    sys.path.insert(0, SERVICE)

from depot_service import messages as m  # noqa: E402
from depot_service import node as n  # noqa: E402
from depot_service.config import Address, Config, Leaves, Limits, Pace, Peer  # noqa: E402
from depot_service.config import Links as LinksConfig  # noqa: E402
from depot_service.leaves import Bucket  # noqa: E402
from depot_service.making import make_certificate  # noqa: E402
from depot_service.serving import Serving  # noqa: E402

import formats  # noqa: E402
from formats import number  # noqa: E402

SIGNATURE = b"signed"
SOON = Pace(push=0.02, round=0.3, again=0.05, most_again=0.3, unmoved=0.3, most_unmoved=2.0, convicted=1.0)
QUICK = Limits(greet_seconds=10.0, wait_seconds=10.0, idle_seconds=20.0, exchange_seconds=60.0, stop_seconds=20.0)
END, MORE = b"\4\0\0\0\1\0", b"\4\0\0\0\1\1"


def roster_of(nodes) -> bytes:
    """A roster of these nodes, whose roots are none."""
    return formats.roster_text([formats.Member(it, 8, bytes([it]) * 32) for it in nodes])


def body_of(writer: int, seq: int, prev: bytes, key: bytes, value: bytes, others=()) -> bytes:
    """The body of an update of one value, byte by byte. `others` are (writer, id) of its entries."""
    head = b"\1\1" + number(2, writer) + number(4, seq) + number(8, seq + 1) + prev
    named = number(1, len(key)) + key + formats.sha256(value) + number(4, len(value))
    entries = b"".join(number(2, it) + number(8, 1) + id for it, id in sorted(others))
    return head + named + number(2, len(others)) + entries + bytes(32)


def frame_of(body: bytes) -> bytes:
    """A frame with a signed statement."""
    signed = number(4, len(body)) + body + number(4, len(SIGNATURE)) + SIGNATURE
    return b"\2" + number(4, len(signed)) + signed


class MemoryNode:
    """A node in memory. `convicted` are whom it convicted; `served` are the bundles that were asked of it."""

    def __init__(self, me: int, nodes=(1, 2, 3), roster_file: str = ""):
        text = roster_of(nodes)
        self.me, self.member = me, n.Member(me, 8, roster_file, "", "", "")
        self.started = m.Started(me, formats.sha256(text), 0)
        self.over = asyncio.get_running_loop().create_future()
        self.statements, self.watchers, self.convicted = 0, [], []
        self.updates: Dict[bytes, formats.Update] = {}
        self.prev, self.vouched, self.served, self.taken_streams = bytes(32), set(), [], []
        self.receipts, self.refuse_from, self.slow = [], set(), 0.0

    # ---- what the local program asks

    async def put(self, changes, urgency=n.LOCAL) -> m.Put:
        """Makes an update of the first change."""
        key, value = changes[0]
        others = [(it.writer, it.id) for it in self.leaves() if it.writer != self.me]
        body = body_of(self.me, self.statements, self.prev, key, value, others)
        self.keep(body)
        self.prev = formats.sha256(body)
        self.statements += 1
        for watcher in self.watchers:
            watcher("put")
        return m.Put(self.prev, self.statements - 1, self.statements)

    def keep(self, body: bytes) -> None:
        """Accepts an update."""
        update = formats.read_signed(number(4, len(body)) + body + number(4, 0)).statement
        self.updates[update.id] = update

    def leaves(self) -> List[formats.Update]:
        """The updates that none names as its prev."""
        return formats.leaves_of(list(self.updates.values()))

    # ---- what others ask

    async def hello(self, urgency=n.PEER) -> bytes:
        """What it has."""
        leaves = sorted(number(2, it.writer) + it.id for it in self.leaves())
        convicted = b"".join(number(2, it) for it in sorted(self.convicted))
        head = b"\1\3" + number(2, self.me) + self.started.roster + number(2, len(self.convicted)) + convicted
        return head + number(2, len(leaves)) + b"".join(leaves) + number(2, 0)

    far_hello = hello

    def past(self, ids) -> set:
        """These updates and all that precede them."""
        found, todo = set(), [it for it in ids if it in self.updates]
        while todo:
            it = todo.pop()
            if it not in found:
                found.add(it)
                update = self.updates[it]
                todo += [parent for parent in [update.prev] + [entry.id for entry in update.entries] if parent in self.updates]
        return found

    async def bundle(self, hello: bytes, most_bytes: int, most_vouchers: Optional[int] = None, own: bool = False, urgency=n.PEER) -> n.Served:
        """What a hello lacks: the longest front that fits, with a leaf for what is vouched for the first time."""
        await asyncio.sleep(self.slow)
        told = formats.read_hello(hello)
        had = self.past([it[2:] for it in told.leaves])
        self.served.append((told.node, own, most_vouchers))
        stream, count, has_more, leaves = b"", 0, False, 0
        for it in self.updates.values():
            if it.id in had or it.writer == told.node or (own and it.writer != self.me):
                continue
            is_new = it.writer != self.me and it.id not in self.vouched
            frame = frame_of(it.body)
            if len(stream) + len(frame) > most_bytes or (is_new and most_vouchers is not None and most_vouchers < 1):
                has_more = True
                break
            leaves = leaves or int(is_new)
            self.vouched.add(it.id)
            stream, count = stream + frame, count + 1
        self.statements += leaves
        return n.Served(m.Bundle(0, leaves, count, 0, has_more, stream + (MORE if has_more else END)), leaves)

    async def take(self, stream: bytes, urgency=n.PEER) -> m.Taken:
        """Takes updates whose parents are there."""
        self.taken_streams.append(stream)
        new, known, refused = 0, 0, []
        for place, frame in enumerate(formats.read_stream(stream).frames):
            if frame.tag != formats.STATEMENT:
                continue
            try:
                update = formats.read_signed(frame.payload).statement
            except formats.IllFormed as why:
                refused.append(m.Refusal(place, m.Check(1, "1 IllFormed %d" % why.offset)))
                continue
            parents = [it for it in [update.prev] + [entry.id for entry in update.entries] if it != bytes(32)]
            if update.id in self.updates:
                known += 1
            elif update.writer in self.refuse_from or any(it not in self.updates for it in parents):
                refused.append(m.Refusal(place, m.Check(m.MISSING, "5 Missing")))
            else:
                self.keep(update.body)
                new += 1
        ending = formats.read_stream(stream).ending
        fault = ending if ending.startswith(("cut", "ill-formed")) else ""
        return m.Taken(new, known, tuple(refused), fault, False)

    async def accepted(self, ids, urgency=n.LOCAL) -> m.Accepted:
        """Which it has."""
        return m.Accepted(tuple(it in self.updates for it in sorted(set(ids))))

    async def receipt(self, ids, urgency=n.LOCAL) -> m.Put:
        """Remembers that it signed one."""
        self.receipts.append(list(ids))
        return await self.put([(b"receipt", b"")])


def serving_of(node: MemoryNode, leaves: int = 1000, limits: Limits = QUICK) -> Serving:
    """What others see of a node, with so many leaves for vouchers."""
    return Serving(node, Bucket(0, leaves), limits, Counter())


# ---- members with certificates


class Members:
    """Certificates and configs of members on loopback, made once for all tests of a file."""

    def __init__(self, nodes=(1, 2, 3)):
        self.room = tempfile.TemporaryDirectory()
        self.prints, self.nodes = {}, nodes
        for it in nodes:
            os.mkdir(self.path(it))
            self.prints[it] = bytes.fromhex(make_certificate(self.path(it), it))
        self.roster = os.path.join(self.room.name, "roster")
        with open(self.roster, "wb") as file:
            file.write(roster_of(nodes))

    def path(self, node: int) -> str:
        """The folder of a member."""
        return os.path.join(self.room.name, str(node))

    def config(self, node: int, ports: Dict[int, int], limits: Limits = QUICK, pace: Pace = SOON, leaves: Leaves = Leaves(), called=None) -> Config:
        """A config of a member that knows the others; those in `called` have an address, all if nothing is said."""
        peers = {
            it: Peer(it, Address("127.0.0.1", port) if called is None or it in called else None, self.prints[it])
            for it, port in ports.items() if it != node
        }
        listen = Address("127.0.0.1", ports[node]) if node in ports else None
        links = LinksConfig(listen, os.path.join(self.path(node), "certificate.pem"), os.path.join(self.path(node), "key.pem"))
        member = n.Member(node, 8, self.roster, "", self.path(node), "")
        return Config("test.conf", member, links, peers, None, None, leaves, pace, limits)


def free_ports(count: int, offsets=(0,)) -> List[int]:
    """Ports of loopback at which nobody listens now, nor at these places behind each, and that no call takes as its own end."""
    found: List[int] = []
    while len(found) < count:
        port = random.randrange(12_000, 32_000)
        if port not in found and all(is_free(port + it) for it in offsets):
            found.append(port)
    return found


def is_free(port: int) -> bool:
    """Whether nobody has a port of loopback."""
    with socket.socket() as it:
        it.setsockopt(socket.SOL_SOCKET, socket.SO_REUSEADDR, 1)
        try:
            it.bind(("127.0.0.1", port))
        except OSError:
            return False
        return True


# ---- loops


def run(test):
    """Runs a test that is a coroutine, for two minutes at most: on a quiet machine each takes seconds."""

    def ran(self):
        asyncio.run(asyncio.wait_for(test(self), 120))

    ran.__name__, ran.__doc__ = test.__name__, test.__doc__
    return ran


async def until(is_so, seconds: float = 60.0) -> None:
    """Waits until something is so; AssertionError where it isn't in time."""
    loop = asyncio.get_running_loop()
    end = loop.time() + seconds
    while not is_so():
        if loop.time() > end:
            raise AssertionError("it isn't so in %.0f seconds" % seconds)
        await asyncio.sleep(0.01)


def quiet(_text: str) -> None:
    """Says nothing."""
