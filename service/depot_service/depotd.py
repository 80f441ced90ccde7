"""The service of a member: its node, its links, its carrier and the local program's HTTP, from the start to the end.

    service/depotd CONFIG [--first] [--check]

--first begins the journal of a new node. --check says whether the config can be read, and whether the journal is good, and
changes nothing. The process logs one line a fact to standard error, and ends with a status that a supervisor can act upon:
     0  it was asked to (SIGTERM, SIGINT): what was asked is answered, everything is kept
    70  a fault of the service or of its program: start it again
    74  records or notes can't be kept: start it again, once there is room
    75  another process has the journal, the seed or the address: start it again, later
    76  the journal is damaged, lost or old, or somebody has a statement that it lacks: never start it again by itself
    77  others hold a proof against this node: never start it again
    78  the config, a key, a certificate, the roster or --first is wrong: mend it
"""

import asyncio
import contextlib
import os
import signal
import socket
import sys
import time
from collections import Counter
from typing import Callable, List, Optional

from .config import Config, read_config
from .ends import CONFIG, INNER, JOURNAL, OK, PROOF, Ends
from .folder import FolderCarrier
from .leaves import Bucket
from .life import Watch
from .links import Cut
from .node import IDLE, Node, status_of_unfit
from .receipts import Giver
from .rounds import Rounds
from .serving import Serving

import formats
import guard
from words import Parser

STARTING, READY, READ_ONLY, STOPPING = "starting", "ready", "read-only", "stopping"
BEAT_EACH = 10.0


def log(text: str) -> None:
    """Says a fact in one line, with the time."""
    line = " ".join(text.split())
    with contextlib.suppress(OSError, ValueError):  # where nobody listens any more the service goes on
        print("%s depotd: %s" % (time.strftime("%Y-%m-%dT%H:%M:%SZ", time.gmtime()), line), file=sys.stderr, flush=True)


def notify(text: str) -> None:
    """Tells a supervisor (systemd's NOTIFY_SOCKET) how the service is. One that doesn't listen is none of its faults."""
    where = os.environ.get("NOTIFY_SOCKET", "")
    if where[:1] not in ("/", "@"):
        return
    try:
        with socket.socket(socket.AF_UNIX, socket.SOCK_DGRAM | socket.SOCK_CLOEXEC) as out:
            out.setblocking(False)
            out.sendto(text.encode("utf-8"), "\0" + where[1:] if where[0] == "@" else where)
    except OSError:
        pass


def beat_seconds() -> float:
    """How often a sign of life is due: twice as often as the supervisor wants, and no more seldom than BEAT_EACH."""
    word = os.environ.get("WATCHDOG_USEC", "")
    return min(BEAT_EACH, int(word) / 2e6) if word.isascii() and word.isdecimal() and int(word) else BEAT_EACH


def web_for(service):
    """The HTTP of a service, if its config asks for that. It alone stands on a library of the system."""
    if service.config.http is None:
        return None
    try:
        from .web import Web
    except ImportError as why:
        raise Ends(CONFIG, "%s: [http] needs %s: run service/setup.sh" % (service.config.path, why.name or "python3-aiohttp"))
    return Web(service)


class Service:
    """All parts of a member's service. `state` is starting, ready, read-only or stopping, and `why` says why it is."""

    def __init__(self, config: Config, say: Callable[[str], None] = log):
        self.config, self.say, self.counts = config, say, Counter()
        self.state, self.why, self.began_at = STARTING, "", time.time()
        self.node = Node(config.member, say, config.limits.waiting)
        self.serving = Serving(self.node, Bucket(config.leaves.vouchers_a_day, config.leaves.most_vouchers), config.limits, self.counts)
        self.rounds = Rounds(config, self.node, self.serving, say) if config.links else None
        self.carrier = FolderCarrier(config.carrier, self.node, self.serving, say) if config.carrier else None
        leaves = config.leaves
        # The leaves that may go for receipts, over links and through the folder together.
        self.receipts = self.rounds.receipts if self.rounds else Bucket(leaves.receipts_a_day, leaves.most_receipts)
        self.giver = Giver(self.node, config.member.node, self.receipts) if config.carrier else None
        self.web = web_for(self)
        # What is looked at with each sign of life: each is called with the node's status.
        self.looks: List[Callable] = [self.look_at_room, Watch(say).look]

    # ---- a run

    async def run(self, is_first: bool = False) -> int:
        """Runs until a signal or a fault ends it; the status."""
        self.asked = asyncio.Event()
        loop = asyncio.get_running_loop()
        for it in (signal.SIGTERM, signal.SIGINT):
            loop.add_signal_handler(it, self.asked.set)
        loop.set_exception_handler(self.hear_fault)
        why = await self.begin_unless_asked(is_first)
        if why is None and not self.asked.is_set():
            why = await self.stay()
        last = await self.end() if self.node.started else None
        why = why or last
        if why is not None:
            self.say(why.why)
        self.say("ends with %d" % (why.status if why else OK))
        return why.status if why else OK

    def hear_fault(self, _loop, context) -> None:
        """A fault in a part that nobody waits for: it is said, and counted. That a link is cut which was given up is none."""
        if isinstance(context.get("exception"), Cut):
            return
        self.counts["faults"] += 1
        self.say("an inner fault: %s %r" % (context.get("message", ""), context.get("exception")))

    async def begin_unless_asked(self, is_first: bool) -> Optional[Ends]:
        """Starts all, as long as nobody asks for an end; a start may take minutes."""
        begin, asked = asyncio.ensure_future(self.begin(is_first)), asyncio.ensure_future(self.asked.wait())
        await asyncio.wait([begin, asked], return_when=asyncio.FIRST_COMPLETED)
        asked.cancel()
        if not begin.done():
            begin.cancel()
            await asyncio.gather(begin, return_exceptions=True)
            return None
        return begin.result()

    async def begin(self, is_first: bool) -> Optional[Ends]:
        """Starts the node, and then the other parts; why it can't."""
        try:
            started = await self.node.start(is_first)
            self.node.watchers.append(self.grown)
            for part in self.parts():
                await part.start()
        except Ends as why:
            return why
        self.state = READY
        self.say("node %d is ready, with %d statements" % (started.node, started.statements))
        notify("READY=1")
        return None

    def parts(self) -> list:
        """What is started behind the node, and ended before it."""
        return [it for it in (self.rounds, self.carrier, self.giver, self.web) if it is not None]

    def grown(self, what: str) -> None:
        """The node has grown: its own updates are offered to the others at once."""
        if what == "put":
            for part in (self.rounds, self.carrier):
                if part is not None:
                    part.push()

    async def stay(self) -> Optional[Ends]:
        """Waits for the end; why it comes, if nobody asked for it."""
        beat = asyncio.ensure_future(self.beat())
        asked = asyncio.ensure_future(self.asked.wait())
        done, _ = await asyncio.wait([beat, asked, self.node.over], return_when=asyncio.FIRST_COMPLETED)
        for task in (beat, asked):
            task.cancel()
        if self.node.over in done:
            return self.node.over.result()
        if beat in done and beat.exception() is not None:
            why = beat.exception()
            return why if isinstance(why, Ends) else Ends(INNER, "an inner fault: %r" % why)
        return None

    async def beat(self) -> None:
        """A sign of life goes through the node: where that doesn't answer, none is given."""
        while True:
            await asyncio.sleep(beat_seconds())
            status = await self.node.status(IDLE)
            for look in self.looks:
                look(status)
            notify("WATCHDOG=1")

    def look_at_room(self, status) -> None:
        """A node without a leaf, or without room for a record, takes no more puts."""
        if not status.left():
            self.read_only("the key is spent: %d statements were made" % status.statements)
        elif status.records >= formats.MOST_RECORDS or status.journal_bytes >= formats.MOST_JOURNAL:
            self.read_only("the journal is full: %d records, %d bytes" % (status.records, status.journal_bytes))

    def read_only(self, why: str) -> None:
        """Says that no put can be done any more. Reads and exchanges go on."""
        if self.state == READY:
            self.state, self.why = READ_ONLY, why
            self.say("read-only: " + why)

    async def end(self) -> Optional[Ends]:
        """Answers what was asked, gives the others a last push, and ends the node; why that didn't end well."""
        self.state = STOPPING
        notify("STOPPING=1")
        seconds = self.config.limits.stop_seconds
        if self.web is not None:
            await self.web.stop()
        for part in (self.giver, self.rounds, self.carrier):
            if part is not None:
                await part.stop(0.0 if self.node.over.done() else seconds / 2)
        return await self.node.close(seconds)


# ---- words


class Words(Parser):
    """Words that are none are a config that is none."""

    def exit(self, status=0, message=None):
        super().exit(CONFIG if status else OK, message)


def check(config: Config) -> None:
    """Says whether the journal of a config is good; Ends where it must not be run."""
    node = Node(config.member)
    node.words()
    found = guard.Guard(config.member.folder, node.owner, config.member.seed, say=log)
    try:
        lacking = found.check()
    except guard.Unfit as why:
        raise Ends(status_of_unfit(why), str(why))
    except OSError as why:
        raise Ends(CONFIG, guard.told_of(why))
    if found.now.alarm != "-":
        raise Ends(PROOF if found.now.alarm == guard.AGAINST_ME else JOURNAL, guard.told_of_alarm(found.now.alarm))
    log("the journal is good: %d bytes, %d statements%s" % (found.journal.gate, found.journal.signed, "".join("; " + it for it in lacking)))


async def serve(config: Config, is_first: bool) -> int:
    """Makes the service within the loop that it is for, and runs it; the status."""
    return await Service(config).run(is_first)


def main(words: List[str]) -> int:
    """The program depotd; the status."""
    parser = Words(__doc__)
    parser.add_argument("config", metavar="CONFIG")
    parser.add_argument("--first", action="store_true")
    parser.add_argument("--check", action="store_true")
    options = parser.parse_args(words)
    try:
        config = read_config(options.config)
        if options.check:
            check(config)
            return OK
        return asyncio.run(serve(config, options.first))
    except Ends as why:
        found = why
    except Exception as why:  # a supervisor starts it again; whoever looks on reads one line
        found = Ends(INNER, "an inner fault: %r" % why)
    log("%s; ends with %d" % (found.why, found.status))
    return found.status
