"""What links and the carrier have in common: the node's state, bounded bundles out of the bucket of leaves, and takes that are counted."""

from collections import Counter
from dataclasses import dataclass
from typing import FrozenSet

from . import messages as m
from . import wire
from .config import Limits
from .leaves import Bucket
from .node import Node, Refused

import formats

# How many bytes the node takes before it answers others: some ten statements, each with its syncs.
TAKEN_AT_ONCE = 32_768
MOST_FAULTY = 16
# Checks that no correct member's frames fail, whatever was lost on the way.
FAULTY = frozenset((1, 2, 4, 6, 7, 8, 9, 10, 15))


class Unanswerable(Exception):
    """A hello for which no bundle is made: it is in no form, or of another roster."""


@dataclass(frozen=True)
class Own:
    """The node's hello, the hash of what it tells, and whom the node has convicted."""

    hello: bytes
    state: bytes
    convicted: FrozenSet[int]


class Serving:
    """The node, as others see it. Vouchers come out of `vouchers`; `counts` counts frames, bundles and leaves."""

    def __init__(self, node: Node, vouchers: Bucket, limits: Limits, counts: Counter):
        self.node, self.vouchers, self.limits, self.counts = node, vouchers, limits, counts
        self.convicted: FrozenSet[int] = frozenset()

    async def own(self) -> Own:
        """What the node has now."""
        hello = await self.node.hello()
        self.convicted = frozenset(formats.read_hello(hello).convicted)
        return Own(hello, wire.state_of(hello), self.convicted)

    async def bundle_for(self, hello: bytes, is_own: bool, most_bytes: int = 0) -> m.Bundle:
        """What a hello lacks, within so many bytes (0: as usual); own updates alone, or others' too with the vouchers that the bucket has."""
        most_bytes = most_bytes or self.limits.bundle_bytes
        vouchers = 0 if is_own else min(self.limits.vouchers, self.vouchers.left())
        try:
            served = await self.node.bundle(hello, most_bytes, vouchers, is_own)
        except Refused as why:
            if not why.reason.limit:
                raise Unanswerable(why.reason.words)
            # No voucher can be kept any more: what needs none is handed on.
            served = await self.node.bundle(hello, most_bytes, 0, is_own)
        self.vouchers.spend(served.leaves)
        self.counts["leaves_for_vouchers"] += served.leaves
        self.counts["bundles"] += 1
        self.counts["bundle_bytes"] += len(served.bundle.stream)
        return served.bundle

    async def take(self, stream: bytes) -> m.Taken:
        """Takes frames, and counts what became of them. The local program's requests go between the parts of a long stream.

        What stands behind a part with a fault, or with too many faulty frames, isn't looked at. The numbers of refused frames
        are those within their part.
        """
        total = m.Taken(0, 0, (), "", False)
        for part in wire.parts_of(stream, TAKEN_AT_ONCE):
            taken = await self.node.take(part)
            refused = total.refused + taken.refused
            total = m.Taken(total.new + taken.new, total.known + taken.known, refused, taken.fault, taken.is_full)
            self.count(taken)
            if taken.fault or is_foul(total):
                break
        return total

    def count(self, taken: m.Taken) -> None:
        """Counts what became of frames."""
        self.counts["frames_new"] += taken.new
        self.counts["frames_known"] += taken.known
        for refusal in taken.refused:
            self.counts["refused_" + refusal.check.words.split(" ")[1]] += 1


def faulty_in(taken: m.Taken) -> int:
    """How many of the frames no correct member sends."""
    return sum(1 for it in taken.refused if it.check.number in FAULTY)


def is_foul(taken: m.Taken) -> bool:
    """Whether no correct member sends such a stream: it is none, or has too many faulty frames."""
    return (bool(taken.fault) and not taken.is_full) or faulty_in(taken) > MOST_FAULTY
