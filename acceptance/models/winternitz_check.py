#!/usr/bin/env python3
"""Winternitz keys and signatures, computed apart from the program, with hashlib alone.

    python3 acceptance/models/winternitz_check.py
        prints the root of the seed of 32 zero bytes at height 2, and then, for the seed 00 01 .. 1f at height 3,
        leaf 5 and the body b"depot", the root, the signature's length and its SHA-256
    python3 acceptance/models/winternitz_check.py SEED HEIGHT [SEQ BODYHEX]
        the same for other arguments: SEED is 64 hex digits, HEIGHT is 2 to 17, SEQ is a leaf below 2^HEIGHT, and
        BODYHEX is the body in hex, which may be empty (''). The root alone without SEQ and BODYHEX

The format. || is concatenation, numbers are big-endian, tags are single bytes; the leaf i has four bytes, the chain j,
from 0 to 66, has two, and the position p one.

    secret(i, j)         = SHA-256(01 || seed of 32 bytes || i || j), the chain's value at position 0
    step(i, j, p, value) = SHA-256(02 || i || j || p || value), from position p to p + 1; positions are 0 to 15
    leaf(i)              = SHA-256(03 || i || the 67 values at position 15, in order)
    inner node           = SHA-256(04 || left || right); the tree has 2^height leaves, and its top is the root
    digest               = SHA-256(05 || root || i || body)
    digits               = the digest's 64 hexadecimal digits, the high half of each byte first, and then the sum of
                           15 - d over them, as three digits, the highest first
    signature            = i || for each j the value at position digit j || the sibling nodes from the leaf upwards

A key of height 13 to 17 has two layers of trees. The bottom trees have height 8: tree q has the leaves 256 q to 256 q + 255, as above.
The top tree has height - 8 levels and leaves of its own, numbered by q, with the tags 07, 08, 09 and 0a in place of 01, 02, 03 and 05;
its root is the key's. It signs the roots of the bottom trees: the digest of tree q is SHA-256(0a || root || q || root of tree q).

    signature            = i || values and siblings of the leaf i in its bottom tree || those of the leaf q = i / 256 in the top tree
"""

import hashlib
import sys

CHAINS = 67
LAST_POSITION = 15
MOST_ONE_LAYER = 12
BOTTOM_HEIGHT = 8

# The tags of a layer: those of its secrets, its steps, its leaves and its digests.
BOTTOM = b"\x01", b"\x02", b"\x03", b"\x05"
TOP = b"\x07", b"\x08", b"\x09", b"\x0a"


def sha256(*parts):
    return hashlib.sha256(b"".join(parts)).digest()


def value_at(layer, seed, i, j, position):
    secret, step, _, _ = layer
    leaf, chain = i.to_bytes(4, "big"), j.to_bytes(2, "big")
    value = sha256(secret, seed, leaf, chain)
    for p in range(position):
        value = sha256(step, leaf, chain, bytes([p]), value)
    return value


def levels_of(layer, seed, first, height):
    """The nodes of the tree over the leaves from the first on, a list for each level, from the leaves to the root."""
    leaves = [
        sha256(layer[2], i.to_bytes(4, "big"), *(value_at(layer, seed, i, j, LAST_POSITION) for j in range(CHAINS)))
        for i in range(first, first + 2**height)
    ]
    levels = [leaves]
    while len(levels[-1]) > 1:
        below = levels[-1]
        levels.append([sha256(b"\x04", below[k], below[k + 1]) for k in range(0, len(below), 2)])
    return levels


def key_levels(seed, height):
    """The levels of the tree whose root is the key's."""
    if height <= MOST_ONE_LAYER:
        return levels_of(BOTTOM, seed, 0, height)
    return levels_of(TOP, seed, 0, height - BOTTOM_HEIGHT)


def digits_of(digest):
    own = [int(digit, 16) for digit in digest.hex()]
    checksum = sum(15 - digit for digit in own)
    return own + [int(digit, 16) for digit in f"{checksum:03x}"]


def part_of(layer, seed, levels, root, i, body):
    """The values of the leaf i for a body, and its siblings in the tree of these levels."""
    digits = digits_of(sha256(layer[3], root, i.to_bytes(4, "big"), body))
    values = [value_at(layer, seed, i, j, digit) for j, digit in enumerate(digits)]
    siblings = [nodes[(i >> level) % len(nodes) ^ 1] for level, nodes in enumerate(levels[:-1])]
    return b"".join(values) + b"".join(siblings)


def signature_of(seed, height, levels, i, body):
    root, leaf = levels[-1][0], i.to_bytes(4, "big")
    if height <= MOST_ONE_LAYER:
        return leaf + part_of(BOTTOM, seed, levels, root, i, body)
    q = i >> BOTTOM_HEIGHT
    bottom = levels_of(BOTTOM, seed, q << BOTTOM_HEIGHT, BOTTOM_HEIGHT)
    return leaf + part_of(BOTTOM, seed, bottom, root, i, body) + part_of(TOP, seed, levels, root, q, bottom[-1][0])


def show(seed, height, seq=None, body=None):
    levels = key_levels(seed, height)
    print(f"seed {seed.hex()} height {height}")
    print(f"root {levels[-1][0].hex()}")
    if seq is not None:
        signature = signature_of(seed, height, levels, seq, body)
        print(f"seq {seq} body {body.hex() or '-'}")
        print(f"signature {len(signature)} bytes, SHA-256 {sha256(signature).hex()}")


def main(words):
    if not words:
        show(bytes(32), 2)
        show(bytes(range(32)), 3, 5, b"depot")
        return 0
    if len(words) not in (2, 4):
        print(__doc__, file=sys.stderr)
        return 1
    seed, height = bytes.fromhex(words[0]), int(words[1])
    if len(seed) != 32 or not 2 <= height <= 17:
        print("SEED has 64 hex digits, HEIGHT is 2 to 17", file=sys.stderr)
        return 1
    if len(words) == 2:
        show(seed, height)
        return 0
    seq, body = int(words[2]), bytes.fromhex(words[3])
    if not 0 <= seq < 2**height:
        print("SEQ is a leaf, below 2^HEIGHT", file=sys.stderr)
        return 1
    show(seed, height, seq, body)
    return 0


if __name__ == "__main__":
    sys.exit(main(sys.argv[1:]))
