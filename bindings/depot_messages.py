"""The messages of a node, byte for byte (docs/FORMATS.md, "Requests").

Each `*_body` gives the body of a message, and raises BadRequest where what is asked can't be asked. Each `read_*` takes the
body of the message that answers. Where what was asked isn't done, that says why, and `answered` raises the NotDone that
has its name. Keys, values and ids are bytes.
"""

from typing import NamedTuple, Optional, Tuple

MOST_KEY, MOST_VALUE, MOST_WRITES, MOST_IDS, MOST_BUNDLE, ANY_VOUCHERS = 255, 65_536, 16, 16, 67_108_864, 0xFFFF_FFFF
RESERVED = {(b"receipt:", 40): "a receipt", (b"checkpoint:", 43): "a checkpoint"}
FULL_OF = {1: "records", 2: "bytes", 3: "writers"}
KINDS_OF_PROOF = {1: "SameNumber", 2: "SamePrev", 3: "Backward", 4: "NotUpdate"}


# ---- what isn't done


class Refused(Exception):
    """What wasn't done; `words` say why, in the words of the program's lines where it has any (docs/TROUBLESHOOTING.md)."""

    def __init__(self, words: str):
        super().__init__(words)
        self.words = words


class BadRequest(Refused, ValueError):
    """What was asked isn't in its form: a key, a value, an id or a count out of its range. Nothing was done."""


class Malformed(Refused):
    """An answer that isn't in its form: it isn't of this version of the messages."""


class NotDone(Refused):
    """The node doesn't do what was asked; each reason is a class below."""


class Spent(NotDone):
    """The key has too few leaves left."""


class TooManyTips(NotDone):
    """The update would name too many others."""


class IdTaken(NotDone):
    """An update with the same id is there."""


class Full(NotDone):
    """The journal has no room."""


class IllFormed(NotDone):
    """The hello or the checkpoint that was handed in isn't in its form."""


class OtherRoster(NotDone):
    """The hello or the checkpoint that was handed in is of another roster."""


class Unknown(NotDone):
    """No accepted update has the id."""


class ValueNotHeld(NotDone):
    """A value of the update isn't held, so no receipt is given."""


class NothingAccepted(NotDone):
    """Nothing was accepted that a checkpoint could name."""


class TooManyLeaves(NotDone):
    """There are more leaves than a checkpoint names."""


# ---- what is asked


def number(size: int, value: int) -> bytes:
    """A number in so many bytes."""
    return value.to_bytes(size, "big")


def demand(is_so: bool, why: str, *words) -> None:
    """Refuses what can't be asked."""
    if not is_so:
        raise BadRequest(why % words)


def key_text(key: bytes) -> bytes:
    """A key with its length in front."""
    demand(1 <= len(key) <= MOST_KEY, "a key has %d bytes, and may have 1 to %d", len(key), MOST_KEY)
    return number(1, len(key)) + key


def change_text(key: bytes, value: Optional[bytes]) -> bytes:
    """A value of a key, or None, which deletes it."""
    for (front, length), kind in RESERVED.items():
        demand(not key.startswith(front) or len(key) != length, "the key %s is that of %s, which no put writes", key.hex(), kind)
    if value is None:
        return key_text(key) + b"\0"
    demand(len(value) <= MOST_VALUE, "a value has %d bytes, and may have %d", len(value), MOST_VALUE)
    return key_text(key) + b"\1" + number(4, len(value)) + value


def id_text(update: bytes) -> bytes:
    """The id of an update."""
    demand(len(update) == 32, "an id has %d bytes, and not 32", len(update))
    return update


def ids_text(ids) -> bytes:
    """Ids in rising order, each once, with their number in front."""
    rising = sorted(set(ids))
    demand(1 <= len(rising) <= MOST_IDS, "%d ids, and it takes 1 to %d", len(rising), MOST_IDS)
    return number(1, len(rising)) + b"".join(map(id_text, rising))


def counted(what: str, size: int, value: int) -> bytes:
    """A number of something, in so many bytes."""
    demand(0 <= value < 1 << 8 * size, "%d %s, and it takes 0 to %d", value, what, (1 << 8 * size) - 1)
    return number(size, value)


def put_body(changes) -> bytes:
    """One update: a dict of 1 to 16 keys with their values; None deletes."""
    demand(1 <= len(changes) <= MOST_WRITES, "%d keys, and one put writes 1 to %d", len(changes), MOST_WRITES)
    return b"\x01" + number(1, len(changes)) + b"".join(change_text(*it) for it in sorted(changes.items()))


def bundle_body(hello: bytes, most_bytes: int, most_vouchers: Optional[int], own: bool) -> bytes:
    """What the maker of a hello lacks, within bounds; None: any number of new vouchers."""
    demand(1 <= most_bytes <= MOST_BUNDLE, "a bundle of %d bytes, and it has 1 to %d", most_bytes, MOST_BUNDLE)
    vouchers = ANY_VOUCHERS if most_vouchers is None else most_vouchers
    return b"\x21" + number(4, most_bytes) + counted("vouchers", 4, vouchers) + number(1, own) + hello


def receipt_body(ids) -> bytes:
    return b"\x06" + ids_text(ids)


def settled_body(update: bytes, nodes: int) -> bytes:
    return b"\x07" + id_text(update) + counted("nodes", 4, nodes)


def keys_body(above: bytes) -> bytes:
    demand(len(above) <= MOST_KEY, "a key has %d bytes, and may have %d", len(above), MOST_KEY)
    return b"\x12" + number(1, len(above)) + above


def latest_body(key: bytes) -> bytes:
    return b"\x13" + key_text(key)


def update_body(update: bytes) -> bytes:
    return b"\x14" + id_text(update)


def accepted_body(ids) -> bytes:
    return b"\x15" + ids_text(ids)


def page_body(kind: bytes, start: int) -> bytes:
    return kind + counted("as a place", 4, start)


HELLO, FAR_HELLO, TAKE, CHECKPOINT, SIGN, STATUS, CONVICTIONS, UPDATES = b"\x03", b"\x20", b"\x05", b"\x08", b"\x09", b"\x10", b"\x11", b"\x16"
EXPORT = b"\x30"


# ---- what is answered


class Put(NamedTuple):
    """An update that the node made: its id, which of the node's statements it is, its clock."""

    id: bytes
    seq: int
    clock: int


class Checkpoint(NamedTuple):
    """A checkpoint that the node made: its text, and the update that signs it."""

    text: bytes
    id: bytes
    seq: int
    clock: int


class Bundle(NamedTuple):
    """A stream for the maker of a hello, what is in it, and whether something that it lacks was left out."""

    proofs: int
    vouchers: int
    updates: int
    values: int
    has_more: bool
    stream: bytes


class Refusal(NamedTuple):
    """A frame that was refused: its number in the stream, the number of the check that failed, and that in words."""

    frame: int
    check: int
    words: str

    def line(self) -> str:
        """As the program prints it."""
        return " refused %d %s" % (self.frame, self.words)


class Taken(NamedTuple):
    """What became of a stream: how many frames were new and known, those that were refused, and how it ended.

    `how` is `whole` or `more` behind an End frame, `bare` where none came, and else why the rest wasn't taken: `cut N`,
    `ill-formed N`, `full ..`, or `closed` for want of memory. `is_open` says that nothing closed it.
    """

    new: int
    known: int
    refused: Tuple[Refusal, ...]
    how: str
    is_open: bool

    def line(self) -> str:
        """As the program prints it."""
        return "accepted %d known %d refused %d %s" % (self.new, self.known, len(self.refused), self.how)


class Status(NamedTuple):
    """Who the node is, and how much it has. `signable` is how many statements its key signs in all."""

    node: int
    roster: bytes
    statements: int
    signable: int
    records: int
    journal_bytes: int
    updates: int
    foreign_leaves: int
    convicted: Tuple[int, ...]


class Conviction(NamedTuple):
    """A proof in the journal: the place of its record, whom it convicts, and its text (depot.judge)."""

    place: int
    node: int
    proof: bytes


class Write(NamedTuple):
    """A latest write of a key: the update, and what it wrote. The value is None where the key was deleted (`is_deleted`), and where it
    isn't held; then `hash` and `length` are those of the value."""

    id: bytes
    writer: int
    seq: int
    clock: int
    is_deleted: bool
    value: Optional[bytes]
    hash: bytes
    length: int

    def words(self) -> str:
        """As a read of the program prints it."""
        told = "!" if self.is_deleted else "=?" if self.value is None else "=" + self.value.hex()
        return "%d/%d/%d%s" % (self.writer, self.seq, self.clock, told)


class Update(NamedTuple):
    """An accepted update: its number among them, and its writes: key, and None or the hash and the length of its value."""

    item: int
    writer: int
    seq: int
    clock: int
    writes: Tuple[tuple, ...]


class UpdateKeys(NamedTuple):
    """An accepted update, and the keys that it writes."""

    id: bytes
    writer: int
    seq: int
    clock: int
    keys: Tuple[bytes, ...]


class Page(NamedTuple):
    """Part of a list, and whether there is more of it."""

    entries: tuple
    has_more: bool


class Fields:
    """The fields of a message, read from the left."""

    def __init__(self, body: bytes, at: int = 0):
        self.body, self.at = body, at

    def bytes(self, count: int) -> bytes:
        """So many bytes."""
        if self.at + count > len(self.body):
            raise Malformed("an answer ends within a field, at %d" % self.at)
        self.at += count
        return self.body[self.at - count : self.at]

    def number(self, size: int) -> int:
        """A number of so many bytes."""
        return int.from_bytes(self.bytes(size), "big")

    def rest(self) -> bytes:
        """All that is left."""
        return self.bytes(len(self.body) - self.at)

    def key(self) -> bytes:
        """A key with its length."""
        return self.bytes(self.number(1))

    def list(self, size: int, read) -> tuple:
        """A count of `size` bytes, and so many of what `read` reads."""
        return tuple(read(self) for _ in range(self.number(size)))

    def one_of(self, names: dict):
        """What a byte stands for."""
        kind = self.number(1)
        if kind not in names:
            raise Malformed("an answer has %d at %d" % (kind, self.at - 1))
        return names[kind]


def read_full(fields: Fields) -> str:
    return "full %s %d" % (fields.one_of(FULL_OF), fields.number(4))


REASONS = {
    1: lambda it: it.one_of(LIMITS)(it), 2: lambda it: IllFormed("IllFormed %d" % it.number(4)),
    3: lambda it: OtherRoster("OtherRoster"), 4: lambda it: Unknown("Unknown"), 5: lambda it: ValueNotHeld("NoValue"),
    6: lambda it: NothingAccepted("Empty"), 7: lambda it: TooManyLeaves("Many %d" % it.number(4)),
}
LIMITS = {
    1: lambda it: Spent("Spent %d" % it.number(4)), 2: lambda it: TooManyTips("Tips %d" % it.number(4)),
    3: lambda it: IdTaken("Collides"), 4: lambda it: Full(read_full(it)),
}


def answered(body: bytes, kind: int) -> Fields:
    """The fields of an answer of this kind; raises the NotDone that stands in its place."""
    fields = Fields(body)
    told = fields.number(1)
    if told == 8:
        raise fields.one_of(REASONS)(fields)
    if told != kind:
        raise Malformed("an answer of kind %02x, in place of %02x" % (told, kind))
    return fields


def read_put(body: bytes) -> Put:
    fields = answered(body, 1)
    return Put(fields.bytes(32), fields.number(4), fields.number(8))


def read_hello(body: bytes) -> bytes:
    return answered(body, 3).rest()


def read_trace(body: bytes) -> bytes:
    return answered(body, 0x30).rest()


def read_bundle(body: bytes) -> Bundle:
    fields = answered(body, 4)
    counts = [fields.number(4) for _ in range(4)]
    return Bundle(*counts, bool(fields.number(1)), fields.rest())


def passed(count: int):
    """Reads what is carried and no line tells: so many bytes."""

    def read(fields: Fields) -> str:
        fields.bytes(count)
        return ""

    return read


def shown(size: int):
    """Reads what is carried and told: a number of so many bytes."""
    return lambda fields: " %d" % fields.number(size)


CHECKS = {
    1: ("IllFormed", shown(4)), 2: ("UnknownWriter", shown(2)), 3: ("NotMine", passed(32)), 4: ("BadSignature", shown(2)),
    5: ("Missing", passed(32)), 6: ("WrongDep", shown(4)), 7: ("Backward", passed(32)), 8: ("ClockLow", passed(32)),
    9: ("ClockFar", shown(8)), 10: ("BadHistory", passed(64)), 11: ("Forked", lambda it: passed(64)(it) + " " + it.one_of(KINDS_OF_PROOF)),
    12: ("Convicted", shown(2)), 13: ("VoucherConvicted", shown(2)), 14: ("Unwanted", passed(32)), 15: ("NotContradictory", passed(0)),
    16: ("AgainstMe", passed(0)),
}


def read_refusal(fields: Fields) -> Refusal:
    frame, check = fields.number(4), fields.number(1)
    if check not in CHECKS:
        raise Malformed("an answer has a check %d" % check)
    name, read = CHECKS[check]
    return Refusal(frame, check, "%d %s%s" % (check, name, read(fields)))


ENDINGS = {1: passed(0), 2: passed(0), 3: passed(0), 4: passed(0), 5: shown(4)}
HOW = {1: "closed", 2: "whole", 3: "more", 4: "bare", 5: "cut"}
CLOSINGS = {0: passed(0), 1: lambda it: "ill-formed %d" % it.number(8), 2: read_full}


def read_taken(body: bytes) -> Taken:
    fields = answered(body, 5)
    new, known, kind = fields.number(4), fields.number(4), fields.number(1)
    if kind not in HOW:
        raise Malformed("an answer has an ending %d" % kind)
    how = HOW[kind] + ENDINGS[kind](fields)
    refused = fields.list(4, read_refusal)
    closing = fields.one_of(CLOSINGS)(fields)
    return Taken(new, known, refused, closing or how, kind != 1 and not closing)


def read_settled(body: bytes) -> bool:
    return bool(answered(body, 6).number(1))


def read_checkpoint(body: bytes) -> Checkpoint:
    fields = answered(body, 7)
    head = fields.bytes(32), fields.number(4), fields.number(8)
    return Checkpoint(fields.rest(), *head)


def read_status(body: bytes) -> Status:
    fields = answered(body, 0x10)
    head = fields.number(2), fields.bytes(32)
    return Status(*head, *(fields.number(4) for _ in range(6)), fields.list(2, lambda it: it.number(2)))


def read_page(body: bytes, kind: int, read) -> Page:
    fields = answered(body, kind)
    return Page(fields.list(4, read), bool(fields.number(1)))


def read_convictions(body: bytes) -> Page:
    return read_page(body, 0x11, lambda it: Conviction(it.number(4), it.number(2), it.bytes(it.number(4))))


def read_keys(body: bytes) -> Page:
    return read_page(body, 0x12, Fields.key)


def read_updates(body: bytes) -> Page:
    return read_page(body, 0x16, lambda it: UpdateKeys(it.bytes(32), it.number(2), it.number(4), it.number(8), it.list(1, Fields.key)))


def read_write(fields: Fields) -> Write:
    head = fields.bytes(32), fields.number(2), fields.number(4), fields.number(8)
    mark = fields.number(1)
    if mark == 0:
        return Write(*head, True, None, b"", 0)
    if mark == 1:
        value = fields.bytes(fields.number(4))
        return Write(*head, False, value, b"", len(value))
    return Write(*head, False, None, fields.bytes(32), fields.number(4))


def read_latest(body: bytes) -> Tuple[Write, ...]:
    return answered(body, 0x13).list(4, read_write)


def read_named(fields: Fields) -> tuple:
    key, is_value = fields.key(), fields.number(1)
    return key, (fields.bytes(32), fields.number(4)) if is_value else None


def read_update(body: bytes) -> Optional[Update]:
    fields = answered(body, 0x14)
    if not fields.number(1):
        return None
    head = [fields.number(size) for size in (4, 2, 4, 8)]
    return Update(*head, fields.list(1, read_named))


def read_accepted(body: bytes) -> Tuple[bool, ...]:
    return answered(body, 0x15).list(1, lambda it: bool(it.number(1)))
