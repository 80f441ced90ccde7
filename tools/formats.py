"""The texts of Depot, read and written by docs/FORMATS.md alone, apart from the program.

Each reader takes bytes and gives a named tuple, or raises IllFormed with the offset of the first fault, as FORMATS
says it. Numbers are big-endian. What is read here is in its form; no signature is verified and no past is looked at.
"""

import hashlib
from collections import Counter
from typing import List, NamedTuple, Optional, Union

MOST_NODES, LEAST_HEIGHT, GREATEST_HEIGHT = 256, 2, 17
MOST_KEY, MOST_VALUE, MOST_WRITES, MOST_ENTRIES, MOST_IDS = 255, 65536, 16, 1024, 256
MOST_BODY, MOST_SIGNATURE, MOST_HOLLOW = 47779, 8192, 65536
MOST_LEAVES, MOST_WANTED = 4097, 1024
MOST_RECORDS, MOST_JOURNAL = 131072, 1073741824
MOST_PAYLOAD, MOST_FRAMES = 131072, 524288
NO_UPDATE = bytes(32)
PAIR_KINDS = {1: "SameNumber", 2: "SamePrev", 3: "Backward"}
NOT_UPDATE = "NotUpdate"
PROOF, STATEMENT, VALUE, END = 1, 2, 3, 4


class IllFormed(Exception):
    """A text isn't in its form; `offset` is where its first fault begins."""

    def __init__(self, offset: int, why: str):
        super().__init__("at %d: %s" % (offset, why))
        self.offset, self.why = offset, why


def sha256(*parts: bytes) -> bytes:
    """The SHA-256 of the parts, joined."""
    return hashlib.sha256(b"".join(parts)).digest()


def number(size: int, value: int) -> bytes:
    """A number in so many bytes."""
    return value.to_bytes(size, "big")


# ---- what the texts hold


class Write(NamedTuple):
    """What an update writes of one key: a value by its hash and length, or a deletion, which has neither."""

    key: bytes
    hash: Optional[bytes]
    length: Optional[int]


class Entry(NamedTuple):
    """A parent of another writer, as an update names it."""

    writer: int
    clock: int
    id: bytes


class Update(NamedTuple):
    writer: int
    seq: int
    clock: int
    prev: bytes
    writes: List[Write]
    entries: List[Entry]
    history: bytes
    body: bytes

    @property
    def id(self) -> bytes:
        return sha256(self.body)

    @property
    def parents(self) -> List[bytes]:
        """The ids that it names: its prev, if it has one, and its entries."""
        return ([] if self.prev == NO_UPDATE else [self.prev]) + [entry.id for entry in self.entries]

    @property
    def name(self) -> str:
        return "%d/%d/%d" % (self.writer, self.seq, self.clock)


class Voucher(NamedTuple):
    writer: int
    seq: int
    ids: List[bytes]
    body: bytes

    @property
    def name(self) -> str:
        return "%d/%d" % (self.writer, self.seq)


Statement = Union[Update, Voucher]


class Signed(NamedTuple):
    statement: Statement
    signature: bytes


class Pair(NamedTuple):
    """A proof by two statements that contradict each other."""

    kind: str
    first: Signed
    second: Signed


class Hollow(NamedTuple):
    """A proof by a voucher and a text that it vouches for and that is no update's."""

    voucher: Signed
    text: bytes
    kind: str = NOT_UPDATE


Proof = Union[Pair, Hollow]


class Member(NamedTuple):
    node: int
    height: int
    root: bytes


class Hello(NamedTuple):
    node: int
    roster: bytes
    convicted: List[int]
    leaves: List[bytes]  # writer in two bytes, and the id
    wanted: List[bytes]


class Checkpoint(NamedTuple):
    """What all members sign before a reader is made."""

    roster: bytes
    leaves: List[bytes]  # writer in two bytes, and the id


class Birth(NamedTuple):
    node: int
    roster: bytes


class OwnPut(NamedTuple):
    update: Update
    values: List[bytes]  # of the writes that are no deletions, in their order


class OwnVoucher(NamedTuple):
    voucher: Voucher


class Foreign(NamedTuple):
    signed: Signed


class Conviction(NamedTuple):
    proof: Proof
    text: bytes


class Held(NamedTuple):
    value: bytes


Record = Union[Birth, OwnPut, OwnVoucher, Foreign, Conviction, Held]


class Placed(NamedTuple):
    """A record of a journal, at the offset of its gate; `end` is that of the next gate."""

    gate: int
    end: int
    record: Record


class Journal(NamedTuple):
    records: List[Placed]
    end: int  # the offset of the closed gate
    behind: int  # how many bytes stand behind it, which are nothing


class Answered(NamedTuple):
    """A write that a read listed: its update's id, and what was shown: a value, None where it is a deletion, or False where it wasn't held."""

    id: bytes
    shown: object


class Read(NamedTuple):
    """A read of a trace: the number of records then, the key, and the writes that it listed."""

    length: int
    key: bytes
    answer: List[Answered]


class Trace(NamedTuple):
    node: int
    texts: List[bytes]
    reads: List[Read]


class Frame(NamedTuple):
    offset: int
    tag: int
    payload: bytes


class Stream(NamedTuple):
    frames: List[Frame]
    ending: str  # whole, more, bare, `cut BYTES` or `ill-formed OFFSET`


# ---- reading


class Fields:
    """Reads a text field by field. `base` is where the text begins in the larger one that offsets are counted in."""

    def __init__(self, data: bytes, base: int = 0):
        self.data, self.at, self.base = data, 0, base

    def here(self) -> int:
        return self.base + self.at

    def take(self, count: int, what: str) -> bytes:
        if len(self.data) - self.at < count:
            raise IllFormed(self.here(), "%s is cut short" % what)
        self.at += count
        return self.data[self.at - count : self.at]

    def number(self, size: int, least: int, most: int, what: str) -> int:
        start = self.here()
        value = int.from_bytes(self.take(size, what), "big")
        if not least <= value <= most:
            raise IllFormed(start, "%s is %d, and may be %d to %d" % (what, value, least, most))
        return value

    def node(self, what: str = "a node") -> int:
        return self.number(2, 1, 65535, what)

    def digest(self, what: str) -> bytes:
        return self.take(32, what)

    def inner(self, count: int, what: str) -> "Fields":
        """The next so many bytes, as a text of their own that keeps its place."""
        start = self.here()
        return Fields(self.take(count, what), start)

    def rising(self, count: int, read, what: str) -> list:
        """A list of entries, each greater than the one before; `read` gives an entry and what it is compared by."""
        found, before = [], None
        for _ in range(count):
            start = self.here()
            entry, mark = read(self)
            if before is not None and not before < mark:
                raise IllFormed(start, "%s is out of order" % what)
            found.append(entry)
            before = mark
        return found

    def end(self) -> None:
        if self.at < len(self.data):
            raise IllFormed(self.here(), "bytes follow behind the last field")


def same(entry):
    """An entry that is compared by itself."""
    return entry, entry


def read_named(fields: Fields, key: bytes) -> Write:
    value_hash = fields.digest("the value hash")
    return Write(key, value_hash, fields.number(4, 0, MOST_VALUE, "the value length"))


def read_key(fields: Fields) -> bytes:
    return fields.take(fields.number(1, 1, MOST_KEY, "the key length"), "the key")


def read_write(fields: Fields, most_mark: int = 1):
    """A write of version 2, and its key, by which writes are in order."""
    key = read_key(fields)
    if fields.number(1, 0, most_mark, "the mark") == 0:
        return Write(key, None, None), key
    return read_named(fields, key), key


def read_writes(fields: Fields, version: int) -> List[Write]:
    """One write of a value in version 1; in version 2 a deletion alone, or 2 to 16 writes."""
    if version == 1:
        return [read_named(fields, read_key(fields))]
    count = fields.number(1, 1, MOST_WRITES, "the write count")
    if count == 1:
        return [read_write(fields, most_mark=0)[0]]
    return fields.rising(count, read_write, "a write")


def read_entry(fields: Fields, writer: int):
    start = fields.here()
    entry = Entry(fields.node("an entry's writer"), fields.number(8, 0, 2**64 - 1, "a clock"), fields.digest("an id"))
    if entry.writer == writer:
        raise IllFormed(start, "an entry has the update's own writer")
    return entry, (entry.writer, entry.id)


def read_update_fields(fields: Fields, version: int) -> Update:
    writer = fields.node("the writer")
    seq = fields.number(4, 0, 2**32 - 1, "the seq")
    clock = fields.number(8, 1, 2**64 - 1, "the clock")
    prev = fields.digest("the prev")
    writes = read_writes(fields, version)
    count = fields.number(2, 0, MOST_ENTRIES, "the entry count")
    entries = fields.rising(count, lambda fields: read_entry(fields, writer), "an entry")
    history = fields.digest("the history hash")
    return Update(writer, seq, clock, prev, writes, entries, history, fields.data)


def read_voucher_fields(fields: Fields) -> Voucher:
    node = fields.node()
    seq = fields.number(4, 0, 2**32 - 1, "the seq")
    count = fields.number(2, 1, MOST_IDS, "the id count")
    ids = fields.rising(count, lambda fields: same(fields.digest("an id")), "an id")
    return Voucher(node, seq, ids, fields.data)


def statement_in(fields: Fields, least_kind: int = 1, most_kind: int = 2) -> Statement:
    """A statement that takes all that is left of these fields. A voucher is of version 1 alone."""
    version = fields.number(1, 1, 3 - least_kind, "the version")
    kind = fields.number(1, least_kind, min(most_kind, 3 - version), "the kind")
    found = read_update_fields(fields, version) if kind == 1 else read_voucher_fields(fields)
    fields.end()
    return found


def signed_in(fields: Fields) -> Signed:
    length = fields.number(4, 0, MOST_BODY, "the body length")
    statement = statement_in(fields.inner(length, "the body"))
    length = fields.number(4, 0, MOST_SIGNATURE, "the signature length")
    return Signed(statement, fields.take(length, "the signature"))


def proof_in(fields: Fields) -> Proof:
    fields.number(1, 1, 1, "the version")
    kind = fields.number(1, 1, 4, "the kind")
    if kind in PAIR_KINDS:
        return Pair(PAIR_KINDS[kind], signed_in(fields), signed_in(fields))
    voucher = signed_in(fields)
    return Hollow(voucher, fields.take(fields.number(4, 0, MOST_HOLLOW, "the text length"), "the text"))


def whole(read):
    """A reader of a whole text, made of one of its fields."""

    def reader(data: bytes, base: int = 0):
        fields = Fields(data, base)
        found = read(fields)
        fields.end()
        return found

    return reader


read_statement = whole(statement_in)
read_update = whole(lambda fields: statement_in(fields, most_kind=1))
read_signed = whole(signed_in)
read_proof = whole(proof_in)


@whole
def read_roster(fields: Fields) -> List[Member]:
    fields.number(1, 1, 1, "the version")
    fields.number(1, 4, 4, "the kind")
    count = fields.number(2, 1, MOST_NODES, "the count")

    def member(fields: Fields):
        node = fields.node()
        height = fields.number(1, LEAST_HEIGHT, GREATEST_HEIGHT, "the height")
        return Member(node, height, fields.digest("the root")), node

    return fields.rising(count, member, "a node")


def leaf_in(fields: Fields):
    return same(number(2, fields.node()) + fields.digest("an id"))


@whole
def read_hello(fields: Fields) -> Hello:
    fields.number(1, 1, 1, "the version")
    fields.number(1, 3, 3, "the kind")
    node, roster = fields.node(), fields.digest("the roster's hash")

    def items(most: int, read, what: str) -> list:
        return fields.rising(fields.number(2, 0, most, "the count"), read, what)

    convicted = items(MOST_NODES, lambda fields: same(fields.node()), "a convicted node")
    leaves = items(MOST_LEAVES, leaf_in, "a leaf")
    wanted = items(MOST_WANTED, lambda fields: same(fields.digest("a hash")), "a wanted value")
    return Hello(node, roster, convicted, leaves, wanted)


@whole
def read_checkpoint(fields: Fields) -> Checkpoint:
    fields.number(1, 1, 1, "the version")
    fields.number(1, 6, 6, "the kind")
    roster = fields.digest("the roster's hash")
    return Checkpoint(roster, fields.rising(fields.number(2, 1, MOST_ENTRIES, "the number of leaves"), leaf_in, "a leaf"))


def checkpoint_key(text: bytes) -> bytes:
    """The key that a checkpoint's text is put under."""
    return b"checkpoint:" + sha256(text)


def reserved_for(key: bytes) -> Optional[str]:
    """What a key is reserved for, `receipt` or `checkpoint`: none of its kind is put by hand. None of another key.

    Behind the word and a colon stands the id of the update that a receipt is for, or the hash of a checkpoint's text.
    """
    word, colon, digest = key.partition(b":")
    return word.decode() if colon and word in (b"receipt", b"checkpoint") and len(digest) == 32 else None


def answered_in(fields: Fields) -> Answered:
    id, mark = fields.digest("the id of a write"), fields.number(1, 0, 2, "the mark of a write")
    if mark != 1:
        return Answered(id, None if mark == 2 else False)
    return Answered(id, fields.take(fields.number(4, 0, MOST_VALUE, "the length of a value"), "the value"))


def read_in(fields: Fields) -> Read:
    length, key = fields.number(4, 0, 2**32 - 1, "the number of records"), read_key(fields)
    return Read(length, key, [answered_in(fields) for _ in range(fields.number(2, 0, 4_097, "the number of writes"))])


@whole
def read_trace(fields: Fields) -> Trace:
    """The trace that a node handed out: its record texts, and its reads."""
    fields.number(1, 1, 1, "the version")
    fields.number(1, 5, 5, "the kind")
    node, texts = fields.node(), []
    for _ in range(fields.number(4, 1, 131_072, "the number of records")):
        texts.append(fields.take(fields.number(4, 0, 2**32 - 1, "the length of a record"), "the record"))
    return Trace(node, texts, [read_in(fields) for _ in range(fields.number(4, 0, 1_000_000, "the number of reads"))])


def read_log(data: bytes) -> List[Update]:
    """The bodies of a log of `scan`. A length that runs past the end is at its own offset."""
    fields, found = Fields(data), []
    while fields.at < len(data):
        start = fields.here()
        length = fields.number(4, 0, 2**32 - 1, "a length")
        if length > len(data) - fields.at:
            raise IllFormed(start, "a length runs past the end")
        found.append(statement_in(fields.inner(length, "a body"), most_kind=1))
    return found


def own_put_in(fields: Fields) -> OwnPut:
    length = fields.number(4, 0, 2**32 - 1, "the body length")
    update = statement_in(fields.inner(length, "the body"), most_kind=1)
    lengths = [write.length for write in update.writes if write.hash is not None]
    return OwnPut(update, [fields.take(length, "a value") for length in lengths])


def read_record(data: bytes, base: int = 0) -> Record:
    """The record of a journal whose text this is."""
    fields = Fields(data, base)
    tag = fields.number(1, 1, 6, "the tag")
    if tag == 1:
        found = Birth(fields.node(), fields.digest("the roster's hash"))
    elif tag == 2:
        found = own_put_in(fields)
    elif tag == 3:
        found = OwnVoucher(statement_in(fields.inner(len(data) - 1, "the voucher"), least_kind=2))
    elif tag == 4:
        found = Foreign(signed_in(fields))
    elif tag == 5:
        found = Conviction(proof_in(fields), data[1:])
    else:
        found = Held(fields.take(min(len(data) - 1, MOST_VALUE), "the value"))
    fields.end()
    return found


def spans_of(data: bytes, gate: int = 0):
    """The spans (gate, next gate) of the records from the gate on; IllFormed at a gate that no whole record follows."""
    while len(data) > 1 and gate < len(data) and data[gate] == 1:
        end = gate + 5 + int.from_bytes(data[gate + 1 : gate + 5], "big")
        if len(data) < gate + 5 or end >= len(data):
            raise IllFormed(gate, "an open gate stands here, and no whole record follows")
        yield gate, end
        gate = end


def read_journal(data: bytes) -> Journal:
    """The records up to the first closed gate."""
    records, end = [], 0
    for gate, end in spans_of(data):
        records.append(Placed(gate, end, read_record(data[gate + 5 : end], gate + 5)))
    return Journal(records, end, max(0, len(data) - end - 1))


def read_stream(data: bytes) -> Stream:
    """The whole frames of a stream, and how it ends. A payload is not looked at, but for that of an End frame."""
    frames, at, ending = [], 0, "bare"
    while at < len(data):
        tag, length = data[at], int.from_bytes(data[at + 1 : at + 5], "big")
        full_head = len(data) >= at + 5
        wrong = ending != "bare" or not 1 <= tag <= 4 or len(frames) == MOST_FRAMES
        wrong = wrong or (full_head and (length > MOST_PAYLOAD or (tag == END and length != 1)))
        payload = data[at + 5 : at + 5 + length]
        wrong = wrong or (full_head and tag == END and payload > b"\1")
        if wrong:
            return Stream(frames, "ill-formed %d" % at)
        if not full_head or len(payload) < length:
            return Stream(frames, "cut %d" % (len(data) - at))
        frames.append(Frame(at, tag, payload))
        at += 5 + length
        if tag == END:
            ending = "more" if payload == b"\1" else "whole"
    return Stream(frames, ending)


def proofs_in(data: bytes) -> List[bytes]:
    """The texts of the proofs in a journal's convictions, else in a stream's frames."""
    try:
        placed = read_journal(data).records
    except IllFormed:
        placed = []
    if placed:
        return [it.record.text for it in placed if isinstance(it.record, Conviction)]
    return [frame.payload for frame in read_stream(data).frames if frame.tag == PROOF]


# ---- what follows from the texts


def convicted_by(proof: Proof) -> int:
    """The node that a proof names."""
    return (proof.voucher if isinstance(proof, Hollow) else proof.first).statement.writer


def updates_of(records: List[Placed]) -> List[Update]:
    """The updates that the records accepted, in their order."""
    found = []
    for placed in records:
        if isinstance(placed.record, OwnPut):
            found.append(placed.record.update)
        elif isinstance(placed.record, Foreign) and isinstance(placed.record.signed.statement, Update):
            found.append(placed.record.signed.statement)
    return found


def values_of(records: List[Placed]) -> dict:
    """The values that the records hold, by their SHA-256."""
    found = {}
    for placed in records:
        if isinstance(placed.record, OwnPut):
            found.update((sha256(value), value) for value in placed.record.values)
        elif isinstance(placed.record, Held):
            found[sha256(placed.record.value)] = placed.record.value
    return found


def leaves_of(updates: List[Update]) -> List[Update]:
    """The updates that none of them names as its prev, in rising order of (writer, id)."""
    prevs = {update.prev for update in updates}
    return sorted((it for it in updates if it.id not in prevs), key=lambda it: (it.writer, it.id))


def history_hash(past: List[Update]) -> bytes:
    """The history hash of an update with this past: the SHA-256 of its leaves."""
    return sha256(*(number(2, it.writer) + number(8, it.clock) + it.id for it in leaves_of(past)))


def latest_by_key(updates: List[Update]) -> dict:
    """Of each key the updates that write it and precede no other that does, rising by clock, writer, seq and id.

    Parents stand before their children, as in each lawful journal. The past of an update is a number with a bit for each
    update of it; it is kept until the last child was looked at, so that a journal of any length is gone through once.
    """
    ids = [update.id for update in updates]
    due = Counter(parent for update in updates for parent in update.parents)
    pasts, latest = {}, {}
    for at, (id, update) in enumerate(zip(ids, updates)):
        past = 0
        for parent in update.parents:
            past |= pasts.get(parent, 0)
            due[parent] -= 1
            if not due[parent]:
                pasts.pop(parent, None)
        for write in update.writes:
            latest[write.key] = [it for it in latest.get(write.key, []) if not past >> it & 1] + [at]
        if due[id]:
            pasts[id] = past | 1 << at
    order = lambda at: (updates[at].clock, updates[at].writer, updates[at].seq, ids[at])
    return {key: [updates[at] for at in sorted(found, key=order)] for key, found in latest.items()}


# ---- writing


def roster_text(members: List[Member]) -> bytes:
    """The roster of these members, who are put in order."""
    listed = sorted(members)
    entries = (number(2, it.node) + number(1, it.height) + it.root for it in listed)
    return b"\1\4" + number(2, len(listed)) + b"".join(entries)


def is_plain_text(data: bytes) -> bool:
    """Whether bytes can be shown as text: UTF-8 that can be printed."""
    try:
        return data.decode("utf-8").isprintable()
    except UnicodeDecodeError:
        return False


def shown(data: bytes) -> str:
    """Bytes for a reader: text in quotes where they are text, else hex; no bytes are `""`."""
    if not is_plain_text(data):
        return data.hex()
    return '"%s"' % data.decode("utf-8").replace("\\", "\\\\").replace('"', '\\"')


if __name__ == "__main__":
    print(__doc__)
