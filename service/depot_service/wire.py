"""The messages between members, byte for byte (service/WIRE.md): readers and writers, without any input or output.

A message is a kind (1 byte), a length (4 bytes) and so many bytes. What comes isn't trusted: whatever isn't in its form, out
of its turn or over its bound is `Foul`, and the link is closed.
"""

from dataclasses import dataclass
from typing import List

from .messages import Fields, Malformed, bytes_of_ids, number

import formats

VERSION = 1
CALL, GO = b"depot link 1\n", b"\1"
MOST_CERTIFICATE = 4_096
GREETING, ANSWER, HELLO, STREAM, TAKEN, END, WORKING, REFUSAL, IDS, SIGNED = 1, 2, 3, 4, 5, 6, 7, 8, 9, 10
ROUND, PUSH, RECEIPTS = 1, 2, 3
SAME, GO_ON, LATER = 1, 2, 3
MOST_HELLO, MOST_STREAM, MOST_REFUSAL = 172_620, 1 << 20, 512
HEAD = 5
# The most bytes of each kind. A piece of a stream ends with the frame with which it passes MOST_STREAM.
MOST = {
    GREETING: 68, ANSWER: 5, HELLO: MOST_HELLO, STREAM: 1 + MOST_STREAM + HEAD + formats.MOST_PAYLOAD, TAKEN: 16 + MOST_HELLO, END: 1,
    WORKING: 0, REFUSAL: MOST_REFUSAL, IDS: 1 + 16 * 32, SIGNED: 1,
}


class Foul(Exception):
    """The other side doesn't keep to the protocol or to its limits, or says that this one doesn't."""


@dataclass(frozen=True)
class Greeting:
    """What an exchange begins with: what for, by whom, under which roster, and the hash of the caller's state."""

    purpose: int
    node: int
    roster: bytes
    state: bytes

    def text(self) -> bytes:
        return number(1, VERSION) + number(1, self.purpose) + number(2, self.node) + self.roster + self.state


@dataclass(frozen=True)
class Answer:
    """Both states are the same, the exchange goes on, or it may be tried again later, behind so many seconds."""

    word: int
    seconds: int = 0

    def text(self) -> bytes:
        return number(1, self.word) + number(4, self.seconds)


@dataclass(frozen=True)
class Taken:
    """What became of a piece of a stream, and the taker's hello behind it where the piece asks for that."""

    new: int
    known: int
    refused: int
    missing: int
    hello: bytes = b""

    def text(self) -> bytes:
        return b"".join(number(4, it) for it in (self.new, self.known, self.refused, self.missing)) + self.hello


@dataclass(frozen=True)
class Piece:
    """Whole frames of a bundle, and whether the giver wants the taker's hello behind them, as it has more."""

    wants_hello: bool
    stream: bytes

    def text(self) -> bytes:
        return number(1, self.wants_hello) + self.stream


def whole(read):
    """Reads a payload with nothing behind its last field; Foul where it isn't in its form."""

    def read_whole(payload: bytes):
        fields = Fields(payload)
        try:
            found = read(fields)
            fields.end()
        except Malformed as why:
            raise Foul("a message isn't in its form: %s" % why)
        return found

    return read_whole


def in_range(found: int, least: int, most: int) -> int:
    """A number that has to be in a range."""
    if not least <= found <= most:
        raise Malformed("%d, where %d to %d may stand" % (found, least, most))
    return found


@whole
def read_greeting(fields: Fields) -> Greeting:
    in_range(fields.number(1), VERSION, VERSION)
    return Greeting(in_range(fields.number(1), ROUND, RECEIPTS), in_range(fields.number(2), 1, 65535), fields.bytes(32), fields.bytes(32))


@whole
def read_answer(fields: Fields) -> Answer:
    return Answer(in_range(fields.number(1), SAME, LATER), fields.number(4))


@whole
def read_piece(fields: Fields) -> Piece:
    return Piece(bool(fields.mark(1)), fields.rest())


@whole
def read_taken(fields: Fields) -> Taken:
    counts = [fields.number(4) for _ in range(4)]
    return Taken(*counts, fields.rest())


@whole
def read_mark(fields: Fields) -> int:
    """The byte of an end, or of what was signed."""
    return fields.mark(1)


@whole
def read_ids(fields: Fields) -> List[bytes]:
    found = [fields.bytes(32) for _ in range(in_range(fields.number(1), 1, 16))]
    if sorted(set(found)) != found:
        raise Malformed("ids that don't rise")
    return found


def ids_text(ids: List[bytes]) -> bytes:
    """Up to 16 ids, rising."""
    return bytes_of_ids(ids)


def hello_of(payload: bytes, node: int, roster: bytes) -> formats.Hello:
    """The hello in a payload, of the node that it has to be of."""
    try:
        found = formats.read_hello(payload)
    except formats.IllFormed as fault:
        raise Foul("a hello that is none, %s" % fault)
    if found.node != node or found.roster != roster:
        raise Foul("a hello of node %d under the roster %s" % (found.node, found.roster.hex()[:16]))
    return found


def state_of(hello: bytes) -> bytes:
    """The hash of what a hello tells, but for whose it is: the same at two members that have the same."""
    return formats.sha256(hello[:2], hello[4:])


def parts_of(stream: bytes, size: int) -> List[bytes]:
    """Cuts a stream between frames into parts of this size or a frame more. Its End frame goes with the last."""
    cuts, at = [0], 0
    while at < len(stream):
        at += HEAD + int.from_bytes(stream[at + 1 : at + HEAD], "big")
        if at - cuts[-1] >= size and at + HEAD + 1 < len(stream):
            cuts.append(at)
    return [stream[begin:end] for begin, end in zip(cuts, cuts[1:] + [len(stream)])]


def pieces_of(stream: bytes, has_more: bool) -> List[Piece]:
    """The pieces of a bundle, each of which is taken before the next is read. The last asks for a hello if there is more."""
    parts = parts_of(stream, MOST_STREAM)
    return [Piece(has_more and place == len(parts) - 1, part) for place, part in enumerate(parts)]
