"""The member's node: `depot serve` as a child process, one request at a time on its pipe, behind the guard of its journal.

    node = Node(member)
    await node.start()
    put = await node.put([(b"color", b"blue")])
    ..
    await node.close()

The journal, its syncs, the leaves of the key and the answers are the child's. The guard is that of `tools/guard.py`: it locks
the folder and the seed, refuses an old, lost or copied journal, and keeps its two notes up to date.

**The notes.** Before the child begins, the guard writes beside the notes where it begins. They are brought up to date
once the child stands, then once in a second in which it may have added records, and at the end, behind the
child's. So a stop of the machine leaves notes that are older than the journal by as much, which is no fault: a journal
that has grown from a note is let through. What isn't noticed is a copy of the folder that was made within that time and
put back. The child has the locks, too: where the service is killed and the child still answers its last request, no other
run begins before it ends.
"""

import asyncio
import concurrent.futures
import contextlib
import dataclasses
import heapq
import io
import itertools
import os
import re
import time
from collections import Counter
from typing import Callable, Iterable, List, Optional

from . import messages as m
from .ends import CONFIG, DISK, INNER, JOURNAL, LOCKED, PROOF, Ends

import alarms
import formats
import guard

LOCAL, PEER, IDLE = 0, 1, 2
# How many seconds a request may stand behind others that came later: so the local program's come first, and starve nobody.
MAY_WAIT = (0.0, 0.05, 0.5)
MOST_WAITING = 256
NOTED_EACH, LAST_REPLY, FORGED_EACH = 1.0, 0.1, 60.0
MOST_FIRST = 1 << 16
PIPE = 1 << 20
STATUS_OF_CHILD = {1: CONFIG, 2: CONFIG, 3: CONFIG, 4: DISK, 9: JOURNAL, 10: CONFIG}
WHY_OF_CHILD = {
    0: "ended by itself", 2: "found a request that is none", 4: "couldn't keep a record", 5: "couldn't write its reply",
    6: "found no memory", 13: "couldn't read its requests",
}


class Refused(Exception):
    """What was asked isn't done; `reason` says why."""

    def __init__(self, reason: m.NotDone):
        super().__init__(reason.words)
        self.reason = reason


class Busy(Exception):
    """So many requests of the local program wait that no more are taken: ask later."""


@dataclasses.dataclass(frozen=True)
class Member:
    """Whose node it is, where its journal lies, and which program runs it. Names are as seen from the current folder."""

    node: int
    height: int
    roster: str
    seed: str
    folder: str
    program: str


@dataclasses.dataclass(frozen=True)
class Served:
    """A bundle, and how many leaves of the node's key its new vouchers took."""

    bundle: m.Bundle
    leaves: int


class Queue:
    """Jobs in the order in which they are due. Those of the local program are at most so many, however many others wait."""

    def __init__(self, most: int):
        self.most, self.local, self.heap, self.order, self.some = most, 0, [], itertools.count(), asyncio.Event()

    def put(self, urgency: int, job) -> None:
        """Adds a job; Busy where the local program has too many."""
        if urgency == LOCAL:
            if self.local >= self.most:
                raise Busy("%d requests wait" % self.local)
            self.local += 1
        heapq.heappush(self.heap, (time.monotonic() + MAY_WAIT[urgency], next(self.order), urgency, job))
        self.some.set()

    async def get(self):
        """The job that is due first."""
        while not self.heap:
            self.some.clear()
            await self.some.wait()
        _, _, urgency, job = heapq.heappop(self.heap)
        self.local -= urgency == LOCAL
        return job

    def take_all(self) -> list:
        """All jobs that wait; none is left."""
        found, self.heap, self.local = [it[-1] for it in self.heap], [], 0
        return found

    def __len__(self) -> int:
        return len(self.heap)


@dataclasses.dataclass
class Job:
    """What is done without another request between, and who waits for it."""

    work: Callable
    future: asyncio.Future


class Node:
    """A node that stands. Each call is one request, done for good once it returns; it raises Refused, Busy or Ends.

    `over` is a future of the Ends with which the child ended, or that an alarm calls for. `watchers` are called with `put`
    behind each own update, and with `take` where others' statements were new. `counts` and `seconds` are by kind of request.
    """

    def __init__(self, member: Member, say: Callable[[str], None] = guard.say_on_stderr, most_waiting: int = MOST_WAITING):
        self.member, self.say, self.most_waiting = member, say, most_waiting
        self.process, self.started, self.statements = None, None, 0
        self.job: Optional[Job] = None
        self.ended: Optional[Ends] = None  # why no request is taken any more
        self.watchers: List[Callable[[str], None]] = []
        self.counts, self.seconds = Counter(), Counter()
        self.has_grown, self.tasks, self.told_at = False, [], -1e9
        # The guard reads and syncs files, so it works on a thread, one call after the other.
        self.thread = concurrent.futures.ThreadPoolExecutor(1)

    # ---- a start

    async def start(self, is_first: bool = False) -> m.Started:
        """Locks and looks at the journal, starts the child and waits until the node stands. Ends says why it doesn't."""
        self.loop = asyncio.get_running_loop()
        self.queue, self.over = Queue(self.most_waiting), self.loop.create_future()
        words = self.words()
        await self.guarded(self.begin_guard, is_first)
        try:
            self.process = await self.spawn(words)
            self.started = await self.hear_first()
            self.statements = self.started.statements
            await self.guarded(self.guard.note)
        except BaseException:
            await self.give_up()
            raise
        self.tasks = [self.loop.create_task(it) for it in (self.pump(), self.see_end(), self.keep_noted())]
        return self.started

    def words(self) -> List[str]:
        """The child's words, and the member as the roster has it. The roster's name is as seen from the folder."""
        member = self.member
        try:
            with open(member.roster, "rb") as file:
                text = file.read()
            with open(member.seed, "rb") as file:
                seed = file.read(100).strip()
        except OSError as why:
            raise Ends(CONFIG, guard.told_of(why))
        self.owner = guard.Owner(member.node, formats.sha256(text), member.roster)
        self.in_roster = member_in(text, member)
        if not re.fullmatch(b"[0-9a-f]{64}", seed):
            raise Ends(CONFIG, "%s has no seed: that is 64 digits of lower-case hex, in one line" % member.seed)
        roster = os.path.relpath(os.path.realpath(member.roster), os.path.realpath(member.folder))
        if re.search(r"\s", roster):
            raise Ends(CONFIG, "the roster's name, %r as seen from the folder, has a space, which the program doesn't take" % roster)
        return [os.path.abspath(member.program), "serve", roster, seed.decode("ascii"), str(member.height), str(member.node)]

    def begin_guard(self, is_first: bool) -> None:
        """Locks the folder and the seed, and refuses a journal that must not be run."""
        self.guard = guard.Guard(self.member.folder, self.owner, self.member.seed, say=self.say)
        try:
            self.guard.begin(is_first)
            if self.guard.now.alarm != "-":
                raise Ends(status_of_alarm(self.guard.now.alarm), guard.told_of_alarm(self.guard.now.alarm))
            self.guard.prepare()
        except guard.Unfit as why:
            self.guard.close()
            raise Ends(status_of_unfit(why), str(why))
        except (OSError, Ends) as why:
            self.guard.close()
            raise why if isinstance(why, Ends) else Ends(DISK, guard.told_of(why))

    async def spawn(self, words: List[str]):
        """Starts the child in the folder. It is in a session of its own, so that a terminal's interrupt ends the service alone."""
        locks = [it.fileno() for it in self.guard.held]
        pipe = asyncio.subprocess.PIPE
        try:
            return await asyncio.create_subprocess_exec(
                *words, cwd=self.member.folder, stdin=pipe, stdout=pipe, limit=PIPE, pass_fds=locks, start_new_session=True)
        except OSError as why:
            raise Ends(CONFIG, "the program %s can't be run: %s" % (words[0], why.strerror))

    async def hear_first(self) -> m.Started:
        """Waits for the child's first message."""
        head = await self.process.stdout.read(4)
        while head and len(head) < 4 and not self.process.stdout.at_eof():
            head += await self.process.stdout.read(4 - len(head))
        if len(head) < 4 or int.from_bytes(head, "big") > MOST_FIRST:
            # A line in place of a message: of words that are none, or of a roster.
            line = (head + await self.process.stdout.read(MOST_FIRST)).decode("utf-8", "replace").strip()
            raise Ends(*self.why_not_started(line, await self.process.wait()))
        try:
            first = m.read_first(await self.process.stdout.readexactly(int.from_bytes(head, "big")))
        except (asyncio.IncompleteReadError, m.Malformed) as why:
            raise Ends(INNER, "the program's first message isn't in its form: %s" % why)
        if isinstance(first, m.NotStarted):
            raise Ends(*self.why_not_started(first.line, await self.process.wait()))
        if first.node != self.member.node or first.roster != self.owner.roster:
            raise Ends(INNER, "the program started node %d under the roster %s" % (first.node, first.roster.hex()[:16]))
        return first

    def why_not_started(self, line: str, status: int):
        """The status and the reason of a start that the child refused."""
        told = "the program doesn't start the node: %s (status %d)" % (line or "no line", status)
        if status == 4 and guard.is_locked(os.path.join(self.member.folder, guard.JOURNAL)):
            return LOCKED, told + ": another process has the journal"
        if status == 1:
            return CONFIG, told + ": %s has no `serve`, or takes other words" % self.member.program
        return STATUS_OF_CHILD.get(status, INNER), told

    async def give_up(self) -> None:
        """Ends a child that doesn't stand, and lets go of the journal."""
        if self.process is not None:
            with contextlib.suppress(ProcessLookupError):
                self.process.kill()
            await self.process.wait()
        await self.guarded(self.guard.withdraw if self.started is None else self.guard.note)
        self.guard.close()
        self.thread.shutdown(wait=False)

    async def guarded(self, call, *words):
        """What a call on the guard's thread gives."""
        return await self.loop.run_in_executor(self.thread, call, *words)

    # ---- the pipe

    async def pump(self) -> None:
        """Does one job after the other, until the child ends."""
        try:
            while True:
                job = await self.queue.get()
                if not job.future.done():
                    await self.do(job)
        except (OSError, asyncio.IncompleteReadError):
            self.end(await self.why_ended())
        except m.Malformed as why:
            self.end(Ends(INNER, "a reply isn't in its form: %s" % why))
        except Exception as why:  # whatever it is, nobody waits for a pipe that nobody reads
            self.end(Ends(INNER, "an inner fault: %r" % why))

    async def do(self, job: Job) -> None:
        """Does a job, and tells who waits. What breaks the pipe is told to who waits by `end`."""
        self.job = job
        try:
            found = await job.work()
        except Refused as why:
            if not job.future.done():
                job.future.set_exception(why)
        else:
            if not job.future.done():
                job.future.set_result(found)
        self.job = None

    async def exchange(self, name: str, request: bytes) -> m.Reply:
        """Sends a request and reads its reply. For jobs alone."""
        begun = time.monotonic()
        self.process.stdin.write(m.frame(request))
        await self.process.stdin.drain()
        length = int.from_bytes(await self.process.stdout.readexactly(4), "big")
        # A reply may be longer than any request: a key may have thousands of latest writes.
        if not 1 <= length <= 4 * m.MOST_MESSAGE:
            raise m.Malformed("a reply of %d bytes" % length)
        reply = m.read_reply(await self.process.stdout.readexactly(length))
        self.counts[name] += 1
        self.seconds[name] += time.monotonic() - begun
        if isinstance(reply, m.NotDone):
            raise Refused(reply)
        return reply

    async def see_end(self) -> None:
        """Notices a child that ends while nothing is asked. A reply that it still gave is read before."""
        await self.process.wait()
        await asyncio.sleep(LAST_REPLY)
        self.end(await self.why_ended())

    async def why_ended(self) -> Ends:
        """With what the child ended that broke off."""
        status = await self.process.wait()
        told = WHY_OF_CHILD.get(status, "was ended by signal %d" % -status if status < 0 else "ended with %d" % status)
        return Ends(DISK if status == 4 else INNER, "the program %s" % told)

    def end(self, why: Ends) -> None:
        """Takes no more, fails all that wait, and says to who looks on why the node is over."""
        self.ended = self.ended or why
        for job in ([self.job] if self.job else []) + self.queue.take_all():
            if not job.future.done():
                job.future.set_exception(why)
        self.be_over(why)

    def be_over(self, why: Ends) -> None:
        """Says that the node ends, or has to."""
        if not self.over.done():
            self.over.set_result(why)

    async def ask(self, urgency: int, work):
        """What a job gives, once it was its turn. Who waits may be cancelled; what was sent is done all the same."""
        if self.ended is not None:
            raise self.ended
        job = Job(work, self.loop.create_future())
        self.queue.put(urgency, job)
        return await job.future

    async def request(self, urgency: int, name: str, request: bytes, kind) -> m.Reply:
        """The reply to one request, of the kind that it calls for."""

        async def work():
            reply = await self.exchange(name, request)
            if not isinstance(reply, kind):
                raise m.Malformed("a reply %s to %s" % (type(reply).__name__, name))
            return reply

        return await self.ask(urgency, work)

    async def change(self, urgency: int, name: str, request: bytes, kind) -> m.Reply:
        """The same of a request that makes an update of the node."""

        async def work():
            reply = await self.exchange(name, request)
            if not isinstance(reply, kind):
                raise m.Malformed("a reply %s to %s" % (type(reply).__name__, name))
            self.statements = reply.seq + 1
            self.tell("put")
            return reply

        return await self.ask(urgency, work)

    def tell(self, what: str) -> None:
        """Tells those who look on that the node has grown."""
        self.has_grown = True
        for watcher in self.watchers:
            watcher(what)

    # ---- requests

    async def put(self, changes: Iterable[m.Change], urgency: int = LOCAL) -> m.Put:
        """Writes up to 16 keys by one update; a value of None deletes. BadRequest where a key or a value is out of its range."""
        return await self.change(urgency, "put", m.put_request(changes), m.Put)

    async def receipt(self, ids: Iterable[bytes], urgency: int = LOCAL) -> m.Put:
        """Signs by a put that the node has these updates and their values: one leaf."""
        return await self.change(urgency, "receipt", m.receipt_request(ids), m.Put)

    async def checkpoint(self, urgency: int = LOCAL) -> m.Checkpoint:
        """Makes a checkpoint of all leaves and signs it by a put: one leaf."""
        return await self.change(urgency, "checkpoint", m.checkpoint_request(), m.Checkpoint)

    async def sign(self, text: bytes, urgency: int = LOCAL) -> m.Put:
        """Signs a checkpoint by a put: one leaf."""
        return await self.change(urgency, "sign", m.sign_request(text), m.Put)

    async def latest(self, key: bytes, urgency: int = LOCAL) -> m.Latest:
        """The latest writes of a key, with their values where these are held."""
        return await self.request(urgency, "latest", m.latest_request(key), m.Latest)

    async def settled(self, it: bytes, copies: int, urgency: int = LOCAL) -> bool:
        """Whether so many members signed that they have an update."""
        return (await self.request(urgency, "settled", m.settled_request(it, copies), m.Settled)).is_settled

    async def status(self, urgency: int = LOCAL) -> m.Status:
        """What the node has, and who is convicted."""
        return await self.request(urgency, "status", m.status_request(), m.Status)

    async def convictions(self, start: int = 0, urgency: int = LOCAL) -> m.Convictions:
        """The proofs in the journal from this record on."""
        return await self.request(urgency, "convictions", m.convictions_request(start), m.Convictions)

    async def keys(self, above: bytes = b"", urgency: int = LOCAL) -> m.Keys:
        """Up to 1,024 keys above a key."""
        return await self.request(urgency, "keys", m.keys_request(above), m.Keys)

    async def update(self, it: bytes, urgency: int = LOCAL) -> m.Update:
        """What is known of an id."""
        return await self.request(urgency, "update", m.update_request(it), m.Update)

    async def accepted(self, ids: Iterable[bytes], urgency: int = LOCAL) -> m.Accepted:
        """Which of up to 16 ids are accepted, in rising order of the ids."""
        return await self.request(urgency, "accepted", m.accepted_request(ids), m.Accepted)

    async def updates(self, start: int = 0, urgency: int = LOCAL) -> m.Updates:
        """Up to 256 accepted updates from this number on."""
        return await self.request(urgency, "updates", m.updates_request(start), m.Updates)

    async def hello(self, urgency: int = PEER) -> bytes:
        """The text of the node's hello, with its leaves alone."""
        return (await self.request(urgency, "hello", m.hello_request(), m.Hello)).text

    async def far_hello(self, urgency: int = PEER) -> bytes:
        """The text of a hello with ids further back, which spares sending again what both have."""
        return (await self.request(urgency, "far_hello", m.far_hello_request(), m.Hello)).text

    async def bundle(self, hello: bytes, most_bytes: int, most_vouchers: Optional[int] = None, own: bool = False, urgency: int = PEER) -> Served:
        """What a hello lacks, up to so many bytes and new vouchers (None: any number), own updates alone where `own` says so."""

        async def work():
            reply = await self.exchange("bundle", m.bounded_bundle_request(hello, most_bytes, most_vouchers, own))
            if not isinstance(reply, m.Bundle):
                raise m.Malformed("a reply %s to bundle" % type(reply).__name__)
            leaves = await self.new_vouchers() if reply.vouchers and most_vouchers != 0 else 0
            return Served(reply, leaves)

        return await self.ask(urgency, work)

    async def new_vouchers(self) -> int:
        """How many vouchers the node made since its last statement that is known here. For jobs alone."""
        before = self.statements
        self.statements = (await self.exchange("status", m.status_request())).statements
        self.has_grown = self.has_grown or self.statements > before
        return self.statements - before

    async def take(self, stream: bytes, urgency: int = PEER) -> m.Taken:
        """Takes a stream of frames. An alarm among the refused ones is remembered by the guard, and ends the node (`over`)."""

        async def work():
            taken = await self.exchange("take", m.take_request(stream))
            if not isinstance(taken, m.Taken):
                raise m.Malformed("a reply %s to take" % type(taken).__name__)
            if taken.new:
                self.tell("take")
            self.has_grown = self.has_grown or bool(taken.refused)  # a fork is refused, and convicts
            return taken

        taken = await self.ask(urgency, work)
        if taken.count(m.NOT_MINE) or taken.count(m.AGAINST_ME):
            await self.guarded(self.heed, taken, stream)
        return taken

    def waiting(self) -> int:
        """How many requests wait for their turn."""
        return len(self.queue)

    # ---- alarms and notes

    def heed(self, taken: m.Taken, stream: bytes) -> None:
        """Looks at refused frames in the node's own name, and remembers what isn't forged. On the guard's thread."""
        listener = alarms.Listener(self.in_roster, lambda _: io.BytesIO(stream))
        listener.begin(b"a stream")
        for refusal in taken.refused:
            alarm = listener.hear(b" refused %d %s" % (refusal.frame, refusal.check.words.encode()))
            if alarm is None:
                continue
            if alarm.ring or time.monotonic() > self.told_at + FORGED_EACH:  # anybody can forge, and fills no log by that
                self.say(alarm.told)
                self.told_at = time.monotonic()
            if alarm.ring:
                self.guard.ring(alarm.ring)
                self.guard.note()
                why = Ends(status_of_alarm(alarm.ring), guard.told_of_alarm(alarm.ring))
                self.loop.call_soon_threadsafe(self.be_over, why)

    async def keep_noted(self) -> None:
        """Brings the notes up to date where the journal has grown."""
        while True:
            await asyncio.sleep(NOTED_EACH)
            if self.has_grown:
                self.has_grown = False
                await self.guarded(self.guard.note)

    # ---- an end

    async def close(self, seconds: float = 10.0) -> Optional[Ends]:
        """Answers what was asked, ends the child, notes the journal and lets go of it. Ends where the child didn't end well."""
        ends = time.monotonic() + seconds
        while (self.job or len(self.queue)) and self.ended is None and time.monotonic() < ends:
            await asyncio.sleep(0.01)
        self.ended = self.ended or Ends(INNER, "the node is closed")
        found = await self.end_child(max(1.0, ends - time.monotonic()))
        for task in self.tasks:
            task.cancel()
        await asyncio.gather(*self.tasks, return_exceptions=True)
        self.end(found or self.ended)
        await self.guarded(self.guard.note)
        self.guard.close()
        self.thread.shutdown()
        return found

    async def end_child(self, seconds: float) -> Optional[Ends]:
        """Ends the child by the end of its input, and by force where that takes too long."""
        self.process.stdin.close()
        try:
            status = await asyncio.wait_for(self.process.wait(), seconds)
        except asyncio.TimeoutError:
            self.process.kill()
            await self.process.wait()
            return Ends(INNER, "the program didn't end in %.0f seconds, and was killed" % seconds)
        return None if status == 0 else await self.why_ended()


def member_in(roster: bytes, member: Member) -> formats.Member:
    """The member as the roster has it."""
    try:
        found = [it for it in formats.read_roster(roster) if it.node == member.node]
    except formats.IllFormed as fault:
        raise Ends(CONFIG, "%s isn't in its form, %s" % (member.roster, fault))
    if not found:
        raise Ends(CONFIG, "the roster %s has no node %d" % (member.roster, member.node))
    if found[0].height != member.height:
        told = "the roster %s has node %d with height %d, and the config says %d"
        raise Ends(CONFIG, told % (member.roster, member.node, found[0].height, member.height))
    return found[0]


def status_of_alarm(alarm: str) -> int:
    """A proof against the node, or a journal that lacks a statement of it."""
    return PROOF if alarm == guard.AGAINST_ME else JOURNAL


def status_of_unfit(why: guard.Unfit) -> int:
    """The status for a journal that must not be run."""
    for kind, status in ((guard.Locked, LOCKED), (guard.Lost, JOURNAL), (guard.Unkept, DISK)):
        if isinstance(why, kind):
            return status
    return CONFIG
