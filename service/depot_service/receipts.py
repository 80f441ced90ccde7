"""Signed receipts: waited for by who put, and given unasked where nobody can ask.

A receipt is a put of its own. It says that its giver has accepted an update and holds its values, on its disk. It costs
a statement for up to 16 updates. Over links a member gives one where another asks (rounds.py). Through a folder nobody can ask, so
there a Giver gives them for all that it accepts, gathered, and as its bucket of leaves allows.
"""

import asyncio
import contextlib
import time

from . import messages
from .ends import Ends
from .node import IDLE, PEER, Busy, Refused

RECEIPT = b"receipt:"
MOST_OWED = 4_096  # updates that wait for a receipt; the oldest beyond that get none
GATHER_SECONDS = 2.0
AGAIN_SECONDS = 5.0


class Giver:
    """Gives receipts for accepted updates of others, but for receipts and checkpoints themselves."""

    def __init__(self, node, me: int, bucket):
        self.node, self.me, self.bucket = node, me, bucket
        self.next, self.owed, self.task = 0, {}, None

    def note(self, it) -> None:
        """Looks at an accepted update: an own receipt pays what is owed, an update of another is owed one."""
        if it.writer == self.me:
            for key in it.keys:
                if len(key) == 40 and key.startswith(RECEIPT):
                    self.owed.pop(key[len(RECEIPT) :], None)
        elif not all(messages.is_reserved(key) for key in it.keys):
            self.owed[it.id] = True
            if len(self.owed) > MOST_OWED:
                del self.owed[next(iter(self.owed))]

    async def look(self) -> None:
        """Looks at what was accepted since the last look."""
        while True:
            found = await self.node.updates(self.next, IDLE)
            for it in found.updates:
                self.note(it)
            self.next += len(found.updates)
            if not found.has_more:
                return

    async def give(self) -> bool:
        """One receipt for those that are owed longest, where a leaf may go; whether it was given."""
        ids = list(self.owed)[: messages.MOST_IDS]
        if not ids or self.bucket.left() < 1:
            return False
        try:
            await self.node.receipt(ids, IDLE)
        except Refused as why:
            if why.reason.kind == "not-held":
                self.owed[ids[0]] = self.owed.pop(ids[0])  # perhaps this one's value is lacking: the others come before it now
            return False
        self.bucket.spend(1)
        for id in ids:
            self.owed.pop(id, None)
        return True

    async def run(self) -> None:
        """Looks and gives, until the node is over."""
        while not self.node.over.done():
            await asyncio.sleep(GATHER_SECONDS)
            with contextlib.suppress(Busy, Ends):
                await self.look()
                await self.give()

    async def start(self) -> None:
        """Begins to look."""
        self.task = asyncio.get_running_loop().create_task(self.run())

    async def stop(self, _seconds: float) -> None:
        """Gives no more."""
        self.task.cancel()
        await asyncio.gather(self.task, return_exceptions=True)


class Waiting:
    """Puts that wait for receipts: the other members are asked for them, and the node each time that it took something."""

    def __init__(self, node, ask, most):
        self.node, self.ask, self.most = node, ask, most
        self.waiting, self.new, self.task, self.some = set(), [], None, None
        node.watchers.append(self.grown)

    def grown(self, what: str) -> None:
        """The node has grown: receipts may have come."""
        if self.some is not None and what == "take":
            self.some.set()

    async def settled(self, id, copies, wait) -> bool:
        """Whether so many members gave receipts for the update, within so many seconds."""
        if await self.node.settled(id, copies):
            return True
        if wait <= 0 or len(self.waiting) >= self.most:
            return False
        entry = (id, copies, asyncio.get_running_loop().create_future())
        self.waiting.add(entry)
        self.new.append(id)
        if self.task is None or self.task.done():
            self.some = asyncio.Event()
            self.task = asyncio.ensure_future(self.look())
        self.some.set()
        try:
            return await asyncio.wait_for(entry[2], wait)
        except asyncio.TimeoutError:
            return False
        finally:
            self.waiting.discard(entry)

    async def look(self) -> None:
        """Asks the members for what is new, now and then for all that waits, and the node each time that it has grown."""
        asked_at = time.monotonic()
        while self.waiting:
            self.some.clear()
            again = time.monotonic() - asked_at > AGAIN_SECONDS
            due, self.new = [it[0] for it in self.waiting] if again else self.new, []
            for at in range(0, len(due), messages.MOST_IDS):
                await self.ask(due[at : at + messages.MOST_IDS])
                asked_at = time.monotonic()
            with contextlib.suppress(Ends):
                await self.answer()
            try:
                await asyncio.wait_for(self.some.wait(), AGAIN_SECONDS)
            except asyncio.TimeoutError:
                continue

    async def answer(self) -> None:
        """Answers those that are settled now."""
        for id, copies, future in list(self.waiting):
            if not future.done() and await self.node.settled(id, copies, PEER) and not future.done():
                future.set_result(True)

    def close(self) -> None:
        """Nobody waits any more: what isn't settled by now is answered so."""
        for _, _, future in self.waiting:
            if not future.done():
                future.set_result(False)
        if self.task:
            self.task.cancel()
