"""The same rounds without a network: a folder that all can write, as a shared disk, a synced folder or a mounted bucket.

    carrier = FolderCarrier(config.carrier, node, serving, say)
    await carrier.start()
    carrier.push()                      # the node has own updates
    carrier.members                     # node -> MemberState
    await carrier.stop(seconds)         # a last look, and the end

A member writes there what it has (a hello), its own updates as streams for all, and what a member lacks whose hello stays as it
is: at first own updates alone, and then others' too, with vouchers out of the bucket. It takes each stream that it hasn't
taken. Nobody who writes there is trusted: the folder may lose, change, hold back, repeat or invent files, and all that is
read is checked by the node or answered as a hello of anybody would be.
"""

import asyncio
import concurrent.futures
import random
import time
from collections import OrderedDict
from dataclasses import dataclass
from typing import Callable, Dict, List, Optional

from . import wire
from .carrier_files import HELLO, MOST_FILE, STREAM, Files, Name
from .config import Carrier
from .ends import Ends
from .messages import MISSING
from .node import Node
from .serving import Own, Serving, Unanswerable, is_foul

import formats
import guard

MOST_AGAIN = 8
HELLOS_LOOKED_AT = 4
MOST_BUNDLES = 16
STUCK_LOOKS = 2


@dataclass
class MemberState:
    """A member as its hellos tell: the Unix time when it had all, 0.0 where it never had. `stage` counts the answers to a hello that stays.

    `state` is that of the newest hello, as long as that lacks something: what stays is a lack.
    """

    in_step_at: float = 0.0
    state: bytes = b""
    stage: int = 0
    due: float = 0.0

    def see(self, state: bytes, now: float, wait: float) -> None:
        """Takes note of the newest hello; a state that is new is answered only where it stays."""
        if state != self.state:
            self.state, self.stage, self.due = state, 0, now + wait

    def answered(self, now: float, relay: float, most: float) -> None:
        """The state was answered: again, with more, if it still stays."""
        self.stage += 1
        self.due = now + min(most, relay * 2.0 ** min(self.stage - 1, 20)) * random.uniform(1, 2)


class FolderCarrier:
    """What goes on in the folder."""

    def __init__(self, config: Carrier, node: Node, serving: Serving, say: Callable[[str], None]):
        self.config, self.node, self.serving, self.counts, self.say = config, node, serving, serving.counts, say
        self.members: Dict[int, MemberState] = {}
        # Streams that were taken, or that are none: those that lacked a parent are taken again once the node has moved.
        self.taken: "OrderedDict[str, Optional[bytes]]" = OrderedDict()
        self.times: Dict[str, int] = {}
        self.wake, self.why, self.told_state, self.posted = asyncio.Event(), "", b"", b""
        # A mounted folder may hang: then this thread does, and nothing else.
        self.thread = concurrent.futures.ThreadPoolExecutor(1)
        self.task, self.is_stopping = None, False

    async def start(self) -> None:
        """Begins to look into the folder."""
        self.me, self.roster = self.node.started.node, self.node.started.roster
        with open(self.node.member.roster, "rb") as file:
            others = [it.node for it in formats.read_roster(file.read()) if it.node != self.me]
        self.members = {it: MemberState() for it in others}
        self.files = Files(self.config.folder, self.me)
        # What was put before this start is answered to who lacks it, and not written once more for all.
        self.posted = own_leaf(await self.serving.own(), self.me)
        self.task = asyncio.get_running_loop().create_task(self.run())

    def push(self) -> None:
        """Own updates are there."""
        self.wake.set()

    async def stop(self, seconds: float) -> None:
        """Writes what is still to be written, and ends."""
        self.is_stopping = True
        if self.task is None:
            return
        self.task.cancel()
        await asyncio.gather(self.task, return_exceptions=True)
        if seconds:
            try:
                await asyncio.wait_for(self.look(), seconds)
            except Exception as why:
                self.say("carrier: the last look broke off: %r" % why)
        self.thread.shutdown(wait=False)

    async def run(self) -> None:
        """Looks into the folder, for ever: at its pace, and where own updates are there."""
        while not self.node.over.done() and not self.is_stopping:
            try:
                await self.look()
                self.tell("")
            except Ends:
                return
            except Exception as why:  # whatever it is, the folder is looked at again
                self.counts["carrier_failed"] += 1
                self.tell(guard.told_of(why) if isinstance(why, OSError) else repr(why))
            await self.rest()

    async def rest(self) -> None:
        """Waits for the next look."""
        try:
            await asyncio.wait_for(self.wake.wait(), self.config.pace * random.uniform(0.8, 1.2))
            await asyncio.sleep(min(1.0, self.config.pace / 4))
        except asyncio.TimeoutError:
            pass
        self.wake.clear()

    def tell(self, why: str) -> None:
        """Says it once where the folder can't be used, and once where it can again."""
        if why != self.why:
            self.why = why
            self.say("carrier: %s" % (why or "the folder can be used again"))

    async def on_disk(self, call, *words):
        """What a call on the folder's thread gives."""
        return await asyncio.get_running_loop().run_in_executor(self.thread, call, *words)

    # ---- one look

    async def look(self) -> None:
        """Takes what is new, says what this member has, and answers who lacks something."""
        names = await self.on_disk(self.files.list)
        await self.take_new([it for it in names if it.kind == STREAM and it.node != self.me])
        await self.post_own(await self.serving.own())
        own = await self.serving.own()
        await self.post_hello(own)
        for node in self.members:
            await self.answer(node, [it for it in names if it.kind == HELLO and it.node == node], own)
        bounds = self.config.keep, self.config.most_files, self.config.most_bytes
        await self.on_disk(lambda: self.files.drop(self.files.list(), *bounds))
        self.counts["carrier_looks"] += 1

    # ---- streams of others

    async def take_new(self, names: List[Name]) -> None:
        """Takes the streams that weren't taken, the oldest first; of too many the newest."""
        state = (await self.serving.own()).state
        room = self.config.most_bytes
        for name in names[-self.config.most_files :]:
            if not self.is_due(name, state):
                continue
            data = await self.on_disk(self.files.read, name, min(MOST_FILE, room))
            if data is None:
                continue
            room -= len(data)
            if await self.take(name, data):
                state = (await self.serving.own()).state

    def is_due(self, name: Name, state: bytes) -> bool:
        """Whether a stream is to be taken: for the first time, or again, as it lacked a parent and the node has moved since."""
        if name.hash not in self.taken:
            return True
        before = self.taken[name.hash]
        return before is not None and before != state and self.times.get(name.hash, 0) < MOST_AGAIN

    async def take(self, name: Name, data: bytes) -> bool:
        """Takes a stream, and remembers what became of it; whether it brought something."""
        taken = await self.serving.take(data)
        self.counts["carrier_foul"] += is_foul(taken)
        is_early = taken.count(MISSING) > 0 and not is_foul(taken)
        state = (await self.serving.own()).state if is_early else None
        self.taken[name.hash] = state
        self.times[name.hash] = self.times.get(name.hash, 0) + 1
        while len(self.taken) > 4 * self.config.most_files:
            self.times.pop(self.taken.popitem(last=False)[0], None)
        self.counts["carrier_streams_taken"] += 1
        return taken.new > 0

    # ---- what this member writes

    async def post_own(self, own: Own) -> None:
        """Writes the own updates behind the last that was written, once for all members."""
        leaf = own_leaf(own, self.me)
        for _ in range(MOST_BUNDLES):
            if not leaf or leaf == self.posted or not self.members:
                return
            bundle = await self.serving.bundle_for(self.hello_behind(own), True)
            if not bundle.updates:
                return
            await self.write_stream(bundle.stream)
            self.posted = last_update_in(bundle.stream, self.me) or leaf

    def hello_behind(self, own: Own) -> bytes:
        """A hello of a member that has all of this node's up to what was written, and knows whom it convicted."""
        convicted = b"".join(formats.number(2, it) for it in sorted(own.convicted))
        head = b"\1\3" + formats.number(2, min(self.members)) + self.roster + formats.number(2, len(own.convicted)) + convicted
        return head + formats.number(2, bool(self.posted)) + self.posted + formats.number(2, 0)

    async def post_hello(self, own: Own) -> None:
        """Writes what this member has, where that is new."""
        if own.state != self.told_state:
            await self.write(HELLO, await self.node.far_hello())
            self.told_state = own.state

    async def write(self, kind: str, data: bytes) -> Name:
        """Writes a file; its name."""
        self.counts["carrier_%ss_written" % kind] += 1
        return await self.on_disk(self.files.write, kind, data)

    async def write_stream(self, stream: bytes) -> None:
        """Writes a stream, in parts where it is long; this member needn't take it."""
        for part in wire.parts_of(stream, MOST_FILE // 2):
            self.taken[(await self.write(STREAM, part)).hash] = None

    # ---- answers to hellos

    async def answer(self, node: int, names: List[Name], own: Own) -> None:
        """Answers the newest hello of a member that stays as it is: own updates at first, and then all that it lacks."""
        hello = await self.newest(node, names)
        if hello is None:
            return
        member, now = self.members[node], time.monotonic()
        if has_all(hello, own):
            member.in_step_at, member.state = time.time(), b""
            return
        member.see(wire.state_of(hello), now, STUCK_LOOKS * self.config.pace)
        if now < member.due:
            return
        try:
            bundle = await self.serving.bundle_for(hello, member.stage == 0)
        except Unanswerable:
            return
        if not bundle.is_empty():
            await self.write_stream(bundle.stream)
        member.answered(now, self.config.relay, self.config.keep)

    async def newest(self, node: int, names: List[Name]) -> Optional[bytes]:
        """The newest hello of a member that is one."""
        for name in reversed(names[-HELLOS_LOOKED_AT:]):
            data = await self.on_disk(self.files.read, name, wire.MOST_HELLO)
            if data is None:
                continue
            try:
                wire.hello_of(data, node, self.roster)
                return data
            except wire.Foul:
                self.counts["carrier_foul"] += 1
        return None


def has_all(hello: bytes, own: Own) -> bool:
    """Whether a hello lists all that the node has, and wants no value."""
    theirs, mine = formats.read_hello(hello), formats.read_hello(own.hello)
    return set(mine.leaves) <= set(theirs.leaves) and set(mine.convicted) <= set(theirs.convicted) and not theirs.wanted


def own_leaf(own: Own, me: int) -> bytes:
    """The leaf of the node's newest update, as a hello has it; no bytes where it made none."""
    leaves = [it for it in formats.read_hello(own.hello).leaves if it[:2] == formats.number(2, me)]
    return leaves[-1] if leaves else b""


def last_update_in(stream: bytes, me: int) -> bytes:
    """The last update of the node in a stream that it made, as a leaf; no bytes where there is none."""
    found = b""
    for frame in formats.read_stream(stream).frames:
        if frame.tag == formats.STATEMENT:
            statement = formats.read_signed(frame.payload).statement
            if isinstance(statement, formats.Update) and statement.writer == me:
                found = formats.number(2, me) + formats.sha256(statement.body)
    return found
