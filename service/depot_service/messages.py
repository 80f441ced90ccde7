"""Requests to `depot serve` and its replies, byte for byte (docs/FORMATS.md, "Requests").

A message is four bytes that say how many follow, and those: a kind and fields. `frame` puts the four bytes in front. Each
`*_request` gives the message behind them, and `read_first` and `read_reply` read one. A reply that isn't in its form is
`Malformed`: the other side isn't `depot serve`, or is another version of it.
"""

from dataclasses import dataclass
from typing import Iterable, Optional, Tuple, Union

VERSION = 1
MOST_MESSAGE = 134_217_728
MOST_KEY, MOST_VALUE, MOST_WRITES, MOST_IDS = 255, 65_536, 16, 16
MOST_BYTES_OF_BUNDLE, ANY_VOUCHERS = 67_108_864, 0xFFFF_FFFF
ID = 32
STARTED, NOT_STARTED = 0x00, 0xFF
PUT, HELLO, TAKE, RECEIPT, SETTLED, CHECKPOINT, SIGN = 1, 3, 5, 6, 7, 8, 9
STATUS, CONVICTIONS, KEYS, LATEST, UPDATE, ACCEPTED, UPDATES = 0x10, 0x11, 0x12, 0x13, 0x14, 0x15, 0x16
FAR_HELLO, BOUNDED_BUNDLE = 0x20, 0x21
KINDS_OF_PROOF = {1: "SameNumber", 2: "SamePrev", 3: "Backward", 4: "NotUpdate"}
FULL_OF = {1: "records", 2: "bytes", 3: "writers"}

Change = Tuple[bytes, Optional[bytes]]


class Malformed(Exception):
    """A message that isn't in its form."""


class BadRequest(ValueError):
    """What was asked can't be a request: a key, a value or a count out of its range."""


# ---- requests


def number(size: int, value: int) -> bytes:
    """A number in so many bytes."""
    return value.to_bytes(size, "big")


def frame(message: bytes) -> bytes:
    """A message with its length in front."""
    return number(4, len(message)) + message


def demand(is_so: bool, why: str, *words) -> None:
    """Refuses what can't be asked."""
    if not is_so:
        raise BadRequest(why % words)


def bytes_of_key(key: bytes) -> bytes:
    """A key with its length in front."""
    demand(1 <= len(key) <= MOST_KEY, "a key has %d bytes, and may have 1 to %d", len(key), MOST_KEY)
    return number(1, len(key)) + key


def bytes_of_id(it: bytes) -> bytes:
    """An id of an update."""
    demand(len(it) == ID, "an id has %d bytes, and not %d", ID, len(it))
    return it


def bytes_of_ids(ids: Iterable[bytes]) -> bytes:
    """Ids in their order, each once, with their number in front."""
    in_order = sorted(set(ids))
    demand(1 <= len(in_order) <= MOST_IDS, "%d ids, and it takes 1 to %d", len(in_order), MOST_IDS)
    return number(1, len(in_order)) + b"".join(map(bytes_of_id, in_order))


def bytes_of_change(key: bytes, value: Optional[bytes]) -> bytes:
    """A value of a key, or None, which deletes it."""
    if value is None:
        return bytes_of_key(key) + b"\0"
    demand(len(value) <= MOST_VALUE, "a value has %d bytes, and may have %d", len(value), MOST_VALUE)
    return bytes_of_key(key) + b"\1" + number(4, len(value)) + value


def put_request(changes: Iterable[Change]) -> bytes:
    """One update of 1 to 16 changes (key, value or None), each key once. Keys of receipts and checkpoints are none of a put."""
    in_order = sorted(changes, key=lambda it: it[0])
    demand(1 <= len(in_order) <= MOST_WRITES, "%d changes, and a put has 1 to %d", len(in_order), MOST_WRITES)
    for (key, _), (after, _) in zip(in_order, in_order[1:]):
        demand(key != after, "the key %s stands twice", key.hex())
    for key, _ in in_order:
        demand(not is_reserved(key), "the key %s is that of a receipt or a checkpoint, which no put writes", key.hex())
    return number(1, PUT) + number(1, len(in_order)) + b"".join(bytes_of_change(*it) for it in in_order)


def is_reserved(key: bytes) -> bool:
    """Whether a key has the form of a receipt's or a checkpoint's."""
    return (len(key) == 40 and key.startswith(b"receipt:")) or (len(key) == 43 and key.startswith(b"checkpoint:"))


def hello_request() -> bytes:
    """The node's hello, with its leaves alone."""
    return number(1, HELLO)


def far_hello_request() -> bytes:
    """A hello with ids further back beside the leaves."""
    return number(1, FAR_HELLO)


def bounded_bundle_request(hello: bytes, most_bytes: int, most_vouchers: Optional[int], is_own: bool) -> bytes:
    """What a hello lacks, up to so many bytes and new vouchers (None: any number); own updates alone where that is said."""
    demand(1 <= most_bytes <= MOST_BYTES_OF_BUNDLE, "a bundle of %d bytes", most_bytes)
    vouchers = ANY_VOUCHERS if most_vouchers is None else most_vouchers
    demand(0 <= vouchers <= ANY_VOUCHERS, "%d vouchers", vouchers)
    return number(1, BOUNDED_BUNDLE) + number(4, most_bytes) + number(4, vouchers) + number(1, is_own) + hello


def take_request(stream: bytes) -> bytes:
    """Takes a stream of frames."""
    demand(len(stream) < MOST_MESSAGE, "a stream of %d bytes", len(stream))
    return number(1, TAKE) + stream


def receipt_request(ids: Iterable[bytes]) -> bytes:
    """Signs, by a put, that the node has 1 to 16 updates."""
    return number(1, RECEIPT) + bytes_of_ids(ids)


def settled_request(it: bytes, copies: int) -> bytes:
    """Asks whether so many members signed that they have an update."""
    demand(1 <= copies <= 256, "%d copies, and it takes 1 to 256", copies)
    return number(1, SETTLED) + bytes_of_id(it) + number(4, copies)


def checkpoint_request() -> bytes:
    """Makes a checkpoint of the node's leaves, and puts it."""
    return number(1, CHECKPOINT)


def sign_request(text: bytes) -> bytes:
    """Signs a checkpoint by a put."""
    return number(1, SIGN) + text


def status_request() -> bytes:
    """What a node has, and who is convicted."""
    return number(1, STATUS)


def convictions_request(start: int) -> bytes:
    """The proofs in the journal from this record on."""
    return number(1, CONVICTIONS) + number(4, start)


def keys_request(above: bytes) -> bytes:
    """The keys above a key; with no bytes from the first on."""
    demand(len(above) <= MOST_KEY, "a key has %d bytes, and may have %d", len(above), MOST_KEY)
    return number(1, KEYS) + number(1, len(above)) + above


def latest_request(key: bytes) -> bytes:
    """The latest writes of a key."""
    return number(1, LATEST) + bytes_of_key(key)


def update_request(it: bytes) -> bytes:
    """What is known of the update with an id."""
    return number(1, UPDATE) + bytes_of_id(it)


def accepted_request(ids: Iterable[bytes]) -> bytes:
    """Which of 1 to 16 ids are accepted, in the order of the ids."""
    return number(1, ACCEPTED) + bytes_of_ids(ids)


def updates_request(start: int) -> bytes:
    """The accepted updates from this number on."""
    return number(1, UPDATES) + number(4, start)


# ---- replies


@dataclass(frozen=True)
class Started:
    """The first message of a node that stands: its number, the hash of its roster, how many statements it made."""

    node: int
    roster: bytes
    statements: int


@dataclass(frozen=True)
class NotStarted:
    """The first message of a node that doesn't stand: the line that `depot node` prints."""

    line: str


@dataclass(frozen=True)
class Put:
    """An update that the node made: its id, number and clock."""

    id: bytes
    seq: int
    clock: int


@dataclass(frozen=True)
class Hello:
    """The text of the node's hello."""

    text: bytes


@dataclass(frozen=True)
class Bundle:
    """A stream for a hello, what is in it, and whether something was left out."""

    proofs: int
    vouchers: int
    updates: int
    values: int
    has_more: bool
    stream: bytes

    def is_empty(self) -> bool:
        """Whether the stream has nothing to take."""
        return not (self.proofs or self.vouchers or self.updates or self.values)


@dataclass(frozen=True)
class Check:
    """The check that a frame failed: its number, and its words as the program prints them."""

    number: int
    words: str


@dataclass(frozen=True)
class Refusal:
    """A frame that was refused: its number in the stream."""

    frame: int
    check: Check


@dataclass(frozen=True)
class Taken:
    """What became of a stream. `fault` says in words what ended it before its end, and is empty where nothing did."""

    new: int
    known: int
    refused: Tuple[Refusal, ...]
    fault: str
    is_full: bool  # the node has no room for what the stream adds

    def count(self, check: int) -> int:
        """How many frames failed this check."""
        return sum(1 for it in self.refused if it.check.number == check)


@dataclass(frozen=True)
class Settled:
    """Whether so many members signed that they have an update."""

    is_settled: bool


@dataclass(frozen=True)
class Checkpoint:
    """A checkpoint that was made: the put that signs it, and its text."""

    id: bytes
    seq: int
    clock: int
    text: bytes


@dataclass(frozen=True)
class NotDone:
    """What was asked isn't done: why, in one word and in words. `limit` is one of spent, tips, taken, full, or empty where it is none."""

    kind: str
    words: str
    limit: str = ""


@dataclass(frozen=True)
class Status:
    """What a node has. `can_sign` is how many statements its key signs in all."""

    node: int
    roster: bytes
    statements: int
    can_sign: int
    records: int
    journal_bytes: int
    updates: int
    foreign_leaves: int
    convicted: Tuple[int, ...]

    def left(self) -> int:
        """How many statements are left."""
        return max(0, self.can_sign - self.statements)


@dataclass(frozen=True)
class ProofAt:
    """A proof in the journal: the number of its record, whom it convicts, and its text."""

    record: int
    node: int
    text: bytes


@dataclass(frozen=True)
class Convictions:
    """Proofs in the order of the journal, and whether there are more."""

    proofs: Tuple[ProofAt, ...]
    has_more: bool


@dataclass(frozen=True)
class Keys:
    """Keys, rising, and whether there are more."""

    keys: Tuple[bytes, ...]
    has_more: bool


@dataclass(frozen=True)
class Write:
    """What an update writes under a key: a deletion, or a value, that may not be held. `hash` is empty where the value is."""

    is_deletion: bool
    value: Optional[bytes] = None
    hash: bytes = b""
    length: int = 0


@dataclass(frozen=True)
class LatestWrite:
    """A latest write of a key: the update that made it, and what it wrote."""

    id: bytes
    writer: int
    seq: int
    clock: int
    write: Write


@dataclass(frozen=True)
class Latest:
    """The latest writes of a key, in rising order of (clock, writer, seq, id)."""

    writes: Tuple[LatestWrite, ...]


@dataclass(frozen=True)
class UpdateAt:
    """An accepted update: the number of it among those accepted, who made it, and its writes by key, values by their hash."""

    item: int
    writer: int
    seq: int
    clock: int
    writes: Tuple[Tuple[bytes, Write], ...]


@dataclass(frozen=True)
class Update:
    """What is known of an id: None where no update with it is accepted."""

    found: Optional[UpdateAt]


@dataclass(frozen=True)
class Accepted:
    """Of each id that was asked, in rising order of the ids, whether it is accepted."""

    are: Tuple[bool, ...]


@dataclass(frozen=True)
class UpdateKeys:
    """An accepted update and the keys that it writes."""

    id: bytes
    writer: int
    seq: int
    clock: int
    keys: Tuple[bytes, ...]


@dataclass(frozen=True)
class Updates:
    """Accepted updates, the first with the number that was asked, and whether there are more."""

    updates: Tuple[UpdateKeys, ...]
    has_more: bool


Reply = Union[Put, Hello, Bundle, Taken, Settled, Checkpoint, NotDone, Status, Convictions, Keys, Latest, Update, Accepted, Updates]


class Fields:
    """A message's fields, read from the left."""

    def __init__(self, data: bytes):
        self.data, self.at = data, 0

    def bytes(self, count: int) -> bytes:
        """So many bytes."""
        if self.at + count > len(self.data):
            raise Malformed("the message ends at %d, within a field that begins at %d" % (len(self.data), self.at))
        self.at += count
        return self.data[self.at - count : self.at]

    def number(self, size: int) -> int:
        """A number of so many bytes."""
        return int.from_bytes(self.bytes(size), "big")

    def mark(self, most: int) -> int:
        """A byte from 0 to `most`."""
        value = self.number(1)
        if value > most:
            raise Malformed("%d at %d, where 0 to %d may stand" % (value, self.at - 1, most))
        return value

    def rest(self) -> bytes:
        """All that is left."""
        return self.bytes(len(self.data) - self.at)

    def end(self) -> None:
        """Nothing may be left."""
        if self.at != len(self.data):
            raise Malformed("%d bytes behind the message's last field" % (len(self.data) - self.at))

    def list(self, size: int, read) -> tuple:
        """A count of `size` bytes, and so many of what `read` reads."""
        return tuple(read(self) for _ in range(self.number(size)))

    def key(self) -> bytes:
        """A key with its length."""
        return self.bytes(self.number(1))


def read_first(data: bytes) -> Union[Started, NotStarted]:
    """The message that `depot serve` begins with."""
    fields = Fields(data)
    kind = fields.number(1)
    if kind == NOT_STARTED:
        return NotStarted(fields.rest().decode("utf-8", "replace").rstrip("\n"))
    if kind != STARTED:
        raise Malformed("the first message is of kind %02x" % kind)
    version = fields.number(1)
    if version != VERSION:
        raise Malformed("the program speaks version %d of the messages, and this is version %d" % (version, VERSION))
    found = Started(fields.number(2), fields.bytes(32), fields.number(4))
    fields.end()
    return found


def read_reply(data: bytes) -> Reply:
    """A reply, by its kind."""
    fields = Fields(data)
    kind = fields.number(1)
    if kind not in READERS:
        raise Malformed("a reply of kind %02x" % kind)
    found = READERS[kind](fields)
    fields.end()
    return found


def read_put(fields: Fields) -> Put:
    return Put(fields.bytes(ID), fields.number(4), fields.number(8))


def read_hello(fields: Fields) -> Hello:
    return Hello(fields.rest())


def read_bundle(fields: Fields) -> Bundle:
    counts = [fields.number(4) for _ in range(4)]
    return Bundle(*counts, bool(fields.mark(1)), fields.rest())


def read_full(fields: Fields) -> str:
    """What was full, as the program prints it."""
    kind = fields.number(1)
    if kind not in FULL_OF:
        raise Malformed("what was full is %d" % kind)
    return "full %s %d" % (FULL_OF[kind], fields.number(4))


def read_nothing(_: Fields) -> str:
    return ""


def read_node(fields: Fields) -> str:
    return " %d" % fields.number(2)


def read_offset(fields: Fields) -> str:
    return " %d" % fields.number(4)


def read_clock(fields: Fields) -> str:
    return " %d" % fields.number(8)


def pass_ids(count: int):
    """Passes over ids, which the program doesn't print."""

    def read(fields: Fields) -> str:
        fields.bytes(ID * count)
        return ""

    return read


def read_forked(fields: Fields) -> str:
    fields.bytes(2 * ID)
    kind = fields.number(1)
    if kind not in KINDS_OF_PROOF:
        raise Malformed("a proof of kind %d" % kind)
    return " " + KINDS_OF_PROOF[kind]


CHECKS = {
    1: ("IllFormed", read_offset), 2: ("UnknownWriter", read_node), 3: ("NotMine", pass_ids(1)), 4: ("BadSignature", read_node),
    5: ("Missing", pass_ids(1)), 6: ("WrongDep", read_offset), 7: ("Backward", pass_ids(1)), 8: ("ClockLow", pass_ids(1)),
    9: ("ClockFar", read_clock), 10: ("BadHistory", pass_ids(2)), 11: ("Forked", read_forked), 12: ("Convicted", read_node),
    13: ("VoucherConvicted", read_node), 14: ("Unwanted", pass_ids(1)), 15: ("NotContradictory", read_nothing),
    16: ("AgainstMe", read_nothing),
}
NOT_MINE, MISSING, AGAINST_ME = 3, 5, 16


def read_check(fields: Fields) -> Check:
    """The check that failed, with what it carries."""
    kind = fields.number(1)
    if kind not in CHECKS:
        raise Malformed("a check of number %d" % kind)
    name, read = CHECKS[kind]
    return Check(kind, "%d %s%s" % (kind, name, read(fields)))


def read_ending(fields: Fields) -> str:
    """What is wrong with how a stream ended; no text where nothing is."""
    kind = fields.number(1)
    if not 1 <= kind <= 5:
        raise Malformed("an ending of kind %d" % kind)
    if kind == 5:
        return "cut within a frame: %d bytes of it" % fields.number(4)
    return "a piece was answered with an error" if kind == 1 else ""


def read_taken(fields: Fields) -> Taken:
    new, known = fields.number(4), fields.number(4)
    fault = read_ending(fields)
    refused = fields.list(4, lambda it: Refusal(it.number(4), read_check(it)))
    closing = fields.mark(2)
    if closing == 1:
        fault = "no frame stands at %d" % fields.number(8)
    elif closing == 2:
        fault = read_full(fields)
    return Taken(new, known, refused, fault, closing == 2)


def read_settled(fields: Fields) -> Settled:
    return Settled(bool(fields.mark(1)))


def read_checkpoint(fields: Fields) -> Checkpoint:
    return Checkpoint(fields.bytes(ID), fields.number(4), fields.number(8), fields.rest())


def read_limit(fields: Fields) -> NotDone:
    """A limit that was met."""
    kind = fields.number(1)
    if kind == 1:
        return NotDone("limit", "the key is spent: %d statements were made" % fields.number(4), "spent")
    if kind == 2:
        return NotDone("limit", "the update would name %d others" % fields.number(4), "tips")
    if kind == 3:
        return NotDone("limit", "the id %s is taken" % fields.bytes(ID).hex(), "taken")
    if kind == 4:
        return NotDone("limit", "the journal is " + read_full(fields), "full")
    raise Malformed("a limit of kind %d" % kind)


def read_not_done(fields: Fields) -> NotDone:
    kind = fields.number(1)
    if kind == 1:
        return read_limit(fields)
    if kind == 2:
        return NotDone("ill-formed", "it isn't in its form, at %d" % fields.number(4))
    if kind == 3:
        return NotDone("other-roster", "it is of the roster %s" % fields.bytes(32).hex())
    if kind == 4:
        return NotDone("unknown", "the update %s is unknown" % fields.bytes(ID).hex())
    if kind == 5:
        return NotDone("not-held", "a value of the update %s isn't held" % fields.bytes(ID).hex())
    if kind == 6:
        return NotDone("nothing", "nothing was accepted")
    if kind == 7:
        return NotDone("many", "there are %d leaves, more than a checkpoint names" % fields.number(4))
    raise Malformed("a reason of kind %d" % kind)


def read_status(fields: Fields) -> Status:
    numbers = [fields.number(2), fields.bytes(32)] + [fields.number(4) for _ in range(6)]
    return Status(*numbers, fields.list(2, lambda it: it.number(2)))


def read_convictions(fields: Fields) -> Convictions:
    proofs = fields.list(4, lambda it: ProofAt(it.number(4), it.number(2), it.bytes(it.number(4))))
    return Convictions(proofs, bool(fields.mark(1)))


def read_keys(fields: Fields) -> Keys:
    return Keys(fields.list(4, Fields.key), bool(fields.mark(1)))


def read_lacked(fields: Fields) -> Write:
    return Write(False, None, fields.bytes(32), fields.number(4))


def read_shown(fields: Fields) -> Write:
    """A write with its value, if that is held."""
    mark = fields.mark(2)
    if mark == 0:
        return Write(True)
    if mark == 2:
        return read_lacked(fields)
    value = fields.bytes(fields.number(4))
    return Write(False, value, b"", len(value))


def read_named(fields: Fields) -> Tuple[bytes, Write]:
    """A key, and a write that names its value."""
    key = fields.key()
    return key, read_lacked(fields) if fields.mark(1) else Write(True)


def read_latest_write(fields: Fields) -> LatestWrite:
    return LatestWrite(fields.bytes(ID), fields.number(2), fields.number(4), fields.number(8), read_shown(fields))


def read_latest(fields: Fields) -> Latest:
    return Latest(fields.list(4, read_latest_write))


def read_update(fields: Fields) -> Update:
    if not fields.mark(1):
        return Update(None)
    numbers = [fields.number(size) for size in (4, 2, 4, 8)]
    return Update(UpdateAt(*numbers, fields.list(1, read_named)))


def read_accepted(fields: Fields) -> Accepted:
    return Accepted(fields.list(1, lambda it: bool(it.mark(1))))


def read_update_keys(fields: Fields) -> UpdateKeys:
    head = fields.bytes(ID), fields.number(2), fields.number(4), fields.number(8)
    return UpdateKeys(*head, fields.list(1, Fields.key))


def read_updates(fields: Fields) -> Updates:
    return Updates(fields.list(4, read_update_keys), bool(fields.mark(1)))


READERS = {
    1: read_put, 3: read_hello, 4: read_bundle, 5: read_taken, 6: read_settled, 7: read_checkpoint, 8: read_not_done,
    STATUS: read_status, CONVICTIONS: read_convictions, KEYS: read_keys, LATEST: read_latest, UPDATE: read_update,
    ACCEPTED: read_accepted, UPDATES: read_updates,
}
