"""Exchanges with the other members over links: pushes of own updates at once, and rounds with each at a slower pace.

    rounds = Rounds(config, node, serving, say)
    await rounds.start()
    rounds.push()                       # the node has own updates that the others lack
    await rounds.ask_receipts(ids)      # asks each member that is called to sign that it has these updates
    rounds.peers                        # node -> PeerState
    await rounds.stop(seconds)          # a last push to those who lack something, and the end

A push offers own updates alone, without a voucher. A round goes both ways, until nothing is left or the bucket of leaves is
empty. Where an own update is refused for what it rests on (`5 Missing`), a whole round follows. Who is convicted is served
seldom, and so is who doesn't move though it was sent something: it can't take that, and would be sent it for ever.
"""

import asyncio
import collections
import random
import time
from dataclasses import dataclass, field
from typing import Callable, Dict, Iterable, List, Optional

from . import wire
from .config import Config, Pace, Peer
from .ends import Ends
from .exchanges import Exchange, Given, Rest
from .leaves import Bucket
from .links import Link, Links
from .messages import MOST_IDS
from .node import PEER, Busy, Node, Refused
from .serving import Serving
from .wire import Foul

MOST_RECEIPTS_ASKED = 1024
REMEMBERED_RECEIPTS = 8192
STOPPING_SECONDS = 60
SPREAD = 0.2
TELL_EACH = 60.0
FAULTS = (Foul, OSError, Refused, Busy, Ends)


@dataclass
class Moves:
    """Whether a member moves: the state for which it was sent something last, and how often it came back with that."""

    state: bytes = b""
    times: int = 0
    until: float = 0.0

    def wait(self, state: bytes, now: float) -> float:
        """How many seconds this state isn't served yet."""
        return max(0.0, self.until - now) if state == self.state else 0.0

    def note(self, state: bytes, given: Given, pace: Pace, now: float) -> None:
        """Notes that a state was given something, or nothing. Where nothing of it was new it may wait, ever longer."""
        if not given.is_sent or given.new:
            self.state, self.times, self.until = state, 0, 0.0
            return
        self.times = self.times + 1 if state == self.state else 1
        self.state, self.until = state, now + min(pace.most_unmoved, pace.unmoved * 2.0 ** min(self.times - 1, 20))


@dataclass
class PeerState:
    """A member as this one sees it. Times `at` are of the clock on the wall, 0.0 where it never was; the others count up."""

    peer: Peer
    in_step_at: float = 0.0
    why: str = "not yet called"
    is_convicted: bool = False
    rounds: int = 0
    pushes: int = 0
    answered: int = 0
    fails: int = 0
    # When the next exchange may begin, what it is for, and what was the last.
    wants_push: bool = True
    wants_round: bool = True
    receipts: List[bytes] = field(default_factory=list)
    last: float = -1e9
    last_round: float = -1e9
    not_before: float = 0.0
    given_statements: int = -1
    # How many pushes in a row lacked something that they rest on, and when the next is tried that no put calls for.
    early: int = 0
    early_until: float = 0.0
    moves: Moves = field(default_factory=Moves)
    rest: Rest = field(default_factory=Rest)
    wake: asyncio.Event = field(default_factory=asyncio.Event)
    link: Optional[Link] = None
    is_called: bool = False
    told: str = ""
    told_at: float = -1e9

    def in_step(self, has_put: bool) -> None:
        """Both have the same, but for what this member put while it was told so: that is still to be pushed."""
        self.in_step_at, self.wants_push, self.wants_round, self.early = time.time(), self.wants_push and has_put, False, 0

    def pushed(self, given: Given, pace: Pace) -> None:
        """A push is over. Where something that it rests on wasn't there, a round follows, and then a push again, ever later."""
        self.pushes += 1
        if given.is_sent:
            self.early = self.early + 1 if given.missing else 0
        self.wants_round = self.wants_round or given.missing > 0
        self.early_until = time.monotonic() + min(pace.most_unmoved, pace.again * 2.0 ** min(max(0, self.early - 1), 20))


def told_of(why: BaseException) -> str:
    """What is said of a fault; of one that nobody foresaw, what it is."""
    return str(why) if isinstance(why, FAULTS) and str(why) else repr(why)


class Rounds:
    """The links of this member, and what goes on over them."""

    def __init__(self, config: Config, node: Node, serving: Serving, say: Callable[[str], None]):
        self.config, self.pace, self.limits = config, config.pace, config.limits
        self.node, self.serving, self.counts, self.say = node, serving, serving.counts, say
        self.links = Links(config, self.counts, say)
        self.peers: Dict[int, PeerState] = {}
        self.receipts = Bucket(config.leaves.receipts_a_day, config.leaves.most_receipts)
        self.signed: "collections.OrderedDict[bytes, None]" = collections.OrderedDict()
        self.tasks, self.is_stopping = [], False

    async def start(self) -> None:
        """Listens, and begins rounds with the members that have an address."""
        self.roster, self.me = self.node.started.roster, self.node.started.node
        self.peers = {number: PeerState(peer) for number, peer in self.config.peers.items()}
        await self.links.listen(self.answer)
        loop = asyncio.get_running_loop()
        self.tasks = [loop.create_task(self.run(it)) for it in self.peers.values() if it.peer.address]

    def push(self) -> None:
        """Own updates are there."""
        for state in self.peers.values():
            state.wants_push = True
            state.wake.set()

    async def ask_receipts(self, ids: Iterable[bytes]) -> None:
        """Asks each member that is called to sign that it has these updates, once it has them."""
        wanted = list(ids)
        for state in self.peers.values():
            state.receipts = (state.receipts + [it for it in wanted if it not in state.receipts])[-MOST_RECEIPTS_ASKED:]
            state.wants_push = True
            state.wake.set()

    async def stop(self, seconds: float) -> None:
        """Gives those who lack own updates a last push, and ends all links."""
        self.is_stopping = True
        for task in self.tasks:
            task.cancel()
        await asyncio.gather(*self.tasks, return_exceptions=True)
        for state in self.peers.values():
            self.drop(state)  # an exchange may have been under way
        lacking = [it for it in self.peers.values() if it.peer.address and it.given_statements < self.node.statements]
        last = [asyncio.ensure_future(self.exchange(it, wire.PUSH)) for it in lacking]
        if last:
            for task in (await asyncio.wait(last, timeout=seconds))[1]:
                task.cancel()
            await asyncio.gather(*last, return_exceptions=True)
        for state in self.peers.values():
            self.drop(state)
        await self.links.close()

    # ---- as caller

    async def run(self, state: PeerState) -> None:
        """Exchanges with one member, for ever."""
        await asyncio.sleep(random.uniform(0, min(1.0, self.pace.round)))
        while True:
            purpose = await self.due(state)
            if self.node.over.done() or self.is_stopping:
                return
            state.last = time.monotonic()
            try:
                await self.exchange(state, purpose)
                state.fails, state.why = 0, ""
                self.tell(state, "is reached")
            except Ends:
                return
            except Exception as why:  # whatever it is, this member is tried again later
                self.failed(state, why)

    async def due(self, state: PeerState) -> int:
        """Waits until an exchange is due; what it is for."""
        spread = random.uniform(1 - SPREAD, 1 + SPREAD)
        while not self.is_stopping:  # a cancel that meets the wake is lost in wait_for
            now = time.monotonic()
            for purpose, at in self.due_times(state, spread):
                if at <= now:
                    return purpose
            state.wake.clear()
            try:
                await asyncio.wait_for(state.wake.wait(), min(at for _, at in self.due_times(state, spread)) - now)
            except asyncio.TimeoutError:
                pass
        return wire.PUSH

    def due_times(self, state: PeerState, spread: float):
        """When each kind of exchange may begin, a whole round first: it does what a push does."""
        least = max(state.not_before, state.last + self.pace.push)
        usual = self.pace.convicted if state.is_convicted else self.pace.round
        found = [(wire.ROUND, max(least, state.last_round + usual * spread))]
        if state.is_convicted:
            return found
        if state.wants_round:
            found = [(wire.ROUND, least)]
        if state.wants_push:
            found.append((wire.PUSH, least))
        elif state.receipts:
            found.append((wire.RECEIPTS, least))
        if state.early:  # others may have brought meanwhile what own updates rest on, and a round may lack a leaf for it
            found.append((wire.PUSH, max(least, state.early_until)))
        return found

    def failed(self, state: PeerState, why: BaseException) -> None:
        """Notes why an exchange broke off. What was taken stays taken; the next one may wait, ever longer."""
        self.drop(state)
        state.fails, state.wants_push = state.fails + 1, True
        state.why = told_of(why)
        state.not_before = time.monotonic() + min(self.pace.most_again, self.pace.again * 2.0 ** min(state.fails - 1, 20))
        self.counts["exchanges_failed"] += 1
        self.tell(state, "isn't reached: " + state.why)

    def drop(self, state: PeerState) -> None:
        """Closes the link to a member."""
        if state.link is not None:
            state.link.close()
            state.link = None

    def tell(self, state: PeerState, what: str) -> None:
        """One line of a member, where it is another than the last; one that flaps is told of once a minute."""
        now = time.monotonic()
        if what != state.told and now > state.told_at + (TELL_EACH if state.fails > 1 else 0):
            state.told, state.told_at = what, now
            self.say("peer %d %s" % (state.peer.node, what))

    async def exchange(self, state: PeerState, purpose: int) -> None:
        """One exchange with a member, over the link that there is or a new one."""
        is_new = state.link is None or state.link.is_closed()
        if is_new:
            state.link = await self.links.dial(state.peer)
        try:
            await self.call(state, purpose)
        except OSError:
            # The other side closes links that were idle: that one broke off says nothing yet.
            self.drop(state)
            if is_new:
                raise
            state.link = await self.links.dial(state.peer)
            await self.call(state, purpose)

    async def call(self, state: PeerState, purpose: int) -> None:
        """One exchange over a link that stands."""
        state.is_called = True
        try:
            state.link.begin()
            exchange = Exchange(state.link, self.serving, self.roster, self.me)
            statements, own = self.node.statements, await self.serving.own()
            state.is_convicted = state.peer.node in own.convicted
            answer = await exchange.greet(purpose, own)
            if answer.word == wire.LATER:
                state.not_before = time.monotonic() + min(max(answer.seconds, self.pace.again), self.pace.most_unmoved)
                self.counts["exchanges_later"] += 1
            elif answer.word == wire.SAME:
                self.has_same(state, statements)
            elif purpose == wire.RECEIPTS:
                await self.call_for_receipts(state)
            else:
                await self.call_to_give(state, exchange, purpose, statements)
        finally:
            state.is_called = False

    def has_same(self, state: PeerState, statements: int) -> None:
        """The other says that it has all of this, and no more."""
        self.counts["exchanges_same"] += 1
        state.given_statements, state.last_round = statements, time.monotonic()
        state.in_step(statements < self.node.statements)

    async def call_to_give(self, state: PeerState, exchange: Exchange, purpose: int, statements: int) -> None:
        """A push, or a round: gives, and in a round takes."""
        hello = await exchange.read_hello()
        state.wants_push = False
        given = await self.give(state, exchange, hello, purpose == wire.PUSH)
        if not given.has_more and not given.missing:
            state.given_statements, state.early = statements, 0
        if purpose == wire.PUSH:
            self.counts["pushes"] += 1
            state.pushed(given, self.pace)
            return
        state.wants_round, state.last_round = False, time.monotonic()
        # A round that lacks a leaf may end in front of own updates: these go by a push.
        state.wants_push = state.wants_push or (given.has_more and not state.early and state.given_statements < self.node.statements)
        await exchange.send_hello()
        has_more = await exchange.take()
        self.counts["rounds"] += 1
        state.rounds += 1
        state.last_round = time.monotonic()
        if not has_more and not given.has_more and not given.refused:
            state.in_step_at = time.time()

    async def give(self, state: PeerState, exchange: Exchange, hello: bytes, is_own: bool) -> Given:
        """Gives what a hello lacks, but to who doesn't move, or is given something over another link."""
        mark, now = wire.state_of(hello), time.monotonic()
        if state.rest.is_giving:
            state.wants_push, state.not_before = True, now + self.pace.again
        if state.rest.is_giving or state.moves.wait(mark, now):
            self.counts["gives_left_out"] += 1
            await exchange.link.send(wire.END, b"\1")
            return Given(has_more=True)
        state.rest.is_giving = True
        try:
            given = await exchange.give(hello, is_own, state.rest)
        finally:
            state.rest.is_giving = False
        if not (is_own and given.missing):  # else a whole round follows, and says whether it moves
            state.moves.note(mark, given, self.pace, time.monotonic())
        return given

    async def call_for_receipts(self, state: PeerState) -> None:
        """Asks for receipts of up to 16 updates."""
        ids = state.receipts[:MOST_IDS]
        await state.link.send(wire.IDS, wire.ids_text(ids))
        is_signed = wire.read_mark((await state.link.read(wire.SIGNED))[1])
        self.counts["receipts_asked" if is_signed else "receipts_denied"] += len(ids)
        state.receipts = [it for it in state.receipts if it not in ids]

    # ---- as answerer

    async def answer(self, link: Link) -> None:
        """Answers a member that called, exchange by exchange, until the link ends."""
        state = self.peers[link.node]
        state.not_before = 0.0  # who calls is there
        state.wake.set()
        exchange = Exchange(link, self.serving, self.roster, self.me)
        while not self.node.over.done():
            try:
                await self.answer_one(state, exchange, await exchange.be_greeted())
            except Foul as why:
                self.counts["exchanges_foul"] += 1
                self.tell(state, "is foul: %s" % why)
                await link.refuse(str(why))
                raise
            except OSError:
                raise
            except Exception as why:  # whatever it is, the other side isn't left waiting
                self.counts["exchanges_failed"] += 1
                await link.refuse("this member can't go on")
                raise Foul(told_of(why))

    async def answer_one(self, state: PeerState, exchange: Exchange, greeting: wire.Greeting) -> None:
        """Answers one exchange."""
        statements, own = self.node.statements, await self.serving.own()
        state.is_convicted = state.peer.node in own.convicted
        seconds = self.seconds_to_wait(state, greeting)
        if greeting.state == own.state and greeting.purpose != wire.RECEIPTS:
            await exchange.link.send(wire.ANSWER, wire.Answer(wire.SAME).text())
            self.has_same(state, statements)
        elif seconds:
            await exchange.link.send(wire.ANSWER, wire.Answer(wire.LATER, seconds).text())
        else:
            await exchange.link.send(wire.ANSWER, wire.Answer(wire.GO_ON).text())
            await self.go_on(state, exchange, greeting.purpose)
        state.answered += 1

    def seconds_to_wait(self, state: PeerState, greeting: wire.Greeting) -> int:
        """How many seconds an exchange has to wait: at an end, of a convicted member, and where both call at once."""
        now = time.monotonic()
        if self.is_stopping:
            return STOPPING_SECONDS
        if state.is_convicted:
            return max(0, round(state.last_round + self.pace.convicted - now))
        is_crossed = greeting.purpose == wire.ROUND and state.is_called and self.me < state.peer.node
        return 1 if is_crossed else 0

    async def go_on(self, state: PeerState, exchange: Exchange, purpose: int) -> None:
        """What follows once the exchange goes on."""
        if purpose == wire.RECEIPTS:
            await self.answer_receipts(exchange)
            return
        await exchange.send_hello()
        await exchange.take()
        if purpose == wire.PUSH:
            return
        statements = self.node.statements
        given = await self.give(state, exchange, await exchange.read_hello(), False)
        state.last_round = time.monotonic()
        if not given.has_more and not given.missing:
            state.given_statements = statements
            state.in_step_at = time.time() if not given.refused else state.in_step_at

    async def answer_receipts(self, exchange: Exchange) -> None:
        """Signs that the node has updates, if it has them all and the bucket has a leaf."""
        ids = wire.read_ids((await exchange.link.read(wire.IDS))[1])
        new = [it for it in ids if it not in self.signed]
        is_done = all((await self.node.accepted(ids, PEER)).are)
        if is_done and new:
            is_done = self.receipts.left() > 0 and await self.sign_receipt(new)
        await exchange.link.send(wire.SIGNED, bytes([is_done]))

    async def sign_receipt(self, ids: List[bytes]) -> bool:
        """Signs one receipt for these updates; whether it was signed. What isn't signed costs no leaf."""
        self.receipts.spend(1)
        try:
            await self.node.receipt(ids, PEER)
        except Refused:
            self.receipts.spend(-1)
            return False
        self.counts["leaves_for_receipts"] += 1
        self.signed.update(dict.fromkeys(ids))
        while len(self.signed) > REMEMBERED_RECEIPTS:
            self.signed.popitem(last=False)
        return True
