"""What the tests of the service share: where its parts lie, a node in memory, and bytes made by hand."""

import asyncio
import os
import sys
import types
from collections import Counter
from urllib.parse import unquote_to_bytes

sys.dont_write_bytecode = True
HERE = os.path.dirname(os.path.abspath(__file__))
SERVICE = os.path.normpath(os.path.join(HERE, os.pardir))
if SERVICE not in sys.path:
    sys.path.insert(0, SERVICE)

from depot_service import messages as m  # noqa: E402
from depot_service import node as n  # noqa: E402
from depot_service.leaves import Bucket  # noqa: E402

import formats  # noqa: E402

ROSTER = formats.roster_text([formats.Member(node, 2, bytes([node]) * 32) for node in (1, 2, 3)])


def id_of(number: int) -> bytes:
    """An id that is told from others by its number."""
    return bytes(28) + number.to_bytes(4, "big")


class MemoryNode:
    """A node without a journal: what it is told to show it shows. Calls of it are those of depot_service.node.Node."""

    def __init__(self):
        self.over, self.counts, self.seconds = asyncio.get_running_loop().create_future(), Counter(), Counter()
        self.shown, self.given, self.refuses, self.puts, self.watchers = {}, {}, None, [], []
        self.listed, self.proofs = [], []
        self.now = m.Status(1, bytes(32), 0, 4, 1, 41, 0, 0, ())

    async def put(self, changes, urgency=n.LOCAL):
        """Remembers a put."""
        m.put_request(changes)
        if self.refuses is not None:
            raise self.refuses
        self.puts.append(list(changes))
        return m.Put(id_of(len(self.puts)), len(self.puts) - 1, len(self.puts))

    async def latest(self, key, urgency=n.LOCAL):
        """The writes that were told of the key."""
        return m.Latest(tuple(self.shown.get(key, ())))

    def grow(self, what):
        """Tells those who look on that it has grown."""
        for watcher in self.watchers:
            watcher(what)

    async def settled(self, it, copies, urgency=n.LOCAL):
        """Whether so many receipts were told of."""
        return self.given.get(it, 0) >= copies

    async def status(self, urgency=n.LOCAL):
        """The status that was told."""
        return self.now

    async def keys(self, above=b"", urgency=n.LOCAL):
        """The keys that have writes."""
        return m.Keys(tuple(sorted(it for it in self.shown if it > above)), False)

    async def updates(self, start=0, urgency=n.LOCAL):
        """The updates that were told, two at a time."""
        return m.Updates(tuple(self.listed[start : start + 2]), len(self.listed) > start + 2)

    async def convictions(self, start=0, urgency=n.LOCAL):
        """The proofs that were told."""
        return m.Convictions(tuple(it for it in self.proofs if it.record >= start), False)

    def waiting(self):
        """No request waits."""
        return 0


class MemoryRounds:
    """No other member is there; asks for receipts are remembered."""

    def __init__(self):
        self.peers, self.asked = {}, []

    async def ask_receipts(self, ids):
        """Remembers the ids."""
        self.asked.append(list(ids))


def service_of(roster: str):
    """A service over a node in memory, whose HTTP listens on any port. Its roster lies in this file."""
    with open(roster, "wb") as file:
        file.write(ROSTER)
    config = types.SimpleNamespace(
        http=types.SimpleNamespace(listen=types.SimpleNamespace(host="127.0.0.1", port=0)), member=types.SimpleNamespace(node=1, roster=roster))
    buckets = {"serving": types.SimpleNamespace(vouchers=Bucket(0.0, 200)), "receipts": Bucket(0.0, 64)}
    return types.SimpleNamespace(config=config, node=MemoryNode(), rounds=MemoryRounds(), carrier=None, state="ready", why="", counts=Counter(), **buckets)


def bytes_of_key(text: str) -> bytes:
    """The bytes of a percent-encoded key."""
    return unquote_to_bytes(text)
