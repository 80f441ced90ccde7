"""Whether a Winternitz signature is one of a member's key, by docs/FORMATS.md, "Signatures": with hashlib alone.

A check for people, as of an alarm that anybody can ring. What counts is the node's own check, and `depot judge`.
"""

from typing import List, NamedTuple, Optional

import formats as f

CHAINS, LAST, HASH = 67, 15, 32
MOST_ONE_LAYER, BOTTOM = 12, 8
VALUES = CHAINS * HASH


class Layer(NamedTuple):
    """The tags of a layer of trees: of its steps, its leaves and its digests."""

    step: bytes
    leaf: bytes
    digest: bytes


LOW, HIGH = Layer(b"\x02", b"\x03", b"\x05"), Layer(b"\x08", b"\x09", b"\x0a")


def digits_of(digest: bytes) -> List[int]:
    """The position in each chain: 64 hex digits, and then three of the sum of what they lack to 15."""
    digits = [int(it, 16) for it in digest.hex()]
    lacking = sum(LAST - it for it in digits)
    return digits + [int(it, 16) for it in "%03x" % lacking]


def leaf_by(layer: Layer, leaf: int, digest: bytes, values: bytes) -> bytes:
    """The hash of the leaf to which the values lead, each walked from the digit of its chain to the last position."""
    name, ends = f.number(4, leaf), []
    for chain, digit in enumerate(digits_of(digest)):
        value = values[chain * HASH : (chain + 1) * HASH]
        for position in range(digit, LAST):
            value = f.sha256(layer.step, name, f.number(2, chain), f.number(1, position), value)
        ends.append(value)
    return f.sha256(layer.leaf, name, *ends)


def root_by(leaf: int, node: bytes, siblings: bytes) -> bytes:
    """The root to which a leaf and its siblings lead: on level n it is a left child where bit n of the leaf is 0."""
    for level in range(len(siblings) // HASH):
        sibling = siblings[level * HASH : (level + 1) * HASH]
        node = f.sha256(b"\x04", sibling, node) if leaf >> level & 1 else f.sha256(b"\x04", node, sibling)
    return node


def tree_root(layer: Layer, leaf: int, digest: bytes, part: bytes) -> bytes:
    """The root to which a part of a signature leads: the values of a leaf, and its siblings."""
    return root_by(leaf, leaf_by(layer, leaf, digest, part[:VALUES]), part[VALUES:])


def verifies(member: f.Member, statement: f.Statement, signature: bytes) -> bool:
    """Whether this is the member's signature of a statement, which is made with the leaf of its seq."""
    leaf, body, root = statement.seq, statement.body, member.root
    low_height = member.height if member.height <= MOST_ONE_LAYER else BOTTOM
    low = 4 + VALUES + HASH * low_height
    high = VALUES + HASH * (member.height - BOTTOM) if member.height > MOST_ONE_LAYER else 0
    if len(signature) != low + high or signature[:4] != f.number(4, leaf) or leaf >= 2**member.height:
        return False
    found = tree_root(LOW, leaf, f.sha256(LOW.digest, root, signature[:4], body), signature[4:low])
    if high:
        tree = leaf >> BOTTOM
        found = tree_root(HIGH, tree, f.sha256(HIGH.digest, root, f.number(4, tree), found), signature[low:])
    return found == root


def is_own(member: f.Member, payload: bytes) -> Optional[bool]:
    """Whether the payload of a frame is signed by the member; None where it is no statement in the member's name."""
    try:
        signed = f.read_signed(payload)
    except f.IllFormed:
        return None
    if signed.statement.writer != member.node:
        return None
    return verifies(member, signed.statement, signed.signature)


if __name__ == "__main__":
    print(__doc__)
