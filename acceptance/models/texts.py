"""Reads the texts of docs/FORMATS.md, and says where one goes wrong, apart from the program.

`Fields` reads a text field by field. Each reader below takes one, and gives what it read or raises `Fault` with the offset.
"""

import os
import sys
from collections import namedtuple

sys.path.insert(0, os.path.join(os.path.dirname(os.path.abspath(__file__)), os.pardir, "makers"))
from make_cases import ZEROS, sha  # noqa: E402

KINDS = {1: "SameNumber", 2: "SamePrev", 3: "Backward", 4: "NotUpdate"}
MOST_BODY, MOST_SIGNATURE, MOST_VALUE = 47_779, 8_192, 65_536

# The writes of an update are (key, None) or (key, (hash, length)); an entry is (writer, clock, id).
Update = namedtuple("Update", "writer seq clock prev writes deps history body id")
Voucher = namedtuple("Voucher", "writer seq ids body id")
Signed = namedtuple("Signed", "statement signature text")
# The second of a hollow proof is the text.
Proof = namedtuple("Proof", "kind first second text")


class Fault(Exception):
    def __init__(self, at):
        super().__init__(at)
        self.at = at


class Fields:
    def __init__(self, text, base=0):
        self.text, self.base, self.at = text, base, 0

    def here(self):
        return self.base + self.at

    def take(self, count):
        if self.at + count > len(self.text):
            raise Fault(self.here())
        self.at += count
        return self.text[self.at - count:self.at]

    def number(self, size, low=0, high=None):
        start = self.here()
        number = int.from_bytes(self.take(size), "big")
        if number < low or (high is not None and number > high):
            raise Fault(start)
        return number

    def node(self):
        return self.number(2, 1)

    def part(self, count, read):
        """A text in this one, with its own end and the offsets of this one."""
        start = self.here()
        return whole(read, self.take(count), start)

    def entries(self, count, read, follows):
        entries = []
        for _ in range(count):
            start = self.here()
            entry = read(self)
            if not follows(entries[-1] if entries else None, entry):
                raise Fault(start)
            entries.append(entry)
        return entries


def whole(read, text, base=0):
    fields = Fields(text, base)
    made = read(fields)
    if fields.at != len(text):
        raise Fault(fields.here())
    return made


def rises(before, entry):
    return before is None or before < entry


def fault(read, text):
    """The offset at which a text goes wrong, or None."""
    try:
        whole(read, text)
        return None
    except Fault as found:
        return found.at


def named_in(fields):
    return (fields.take(32), fields.number(4, 0, MOST_VALUE))


def key_in(fields):
    return fields.take(fields.number(1, 1))


def write_in(fields):
    key = key_in(fields)
    return (key, named_in(fields) if fields.number(1, 0, 1) else None)


def writes_in(fields, version):
    if version == 1:
        key = key_in(fields)
        return [(key, named_in(fields))]
    count = fields.number(1, 1, 16)
    if count > 1:
        return fields.entries(count, write_in, lambda before, entry: before is None or before[0] < entry[0])
    key = key_in(fields)
    fields.number(1, 0, 0)
    return [(key, None)]


def entry_in(fields):
    return (fields.node(), fields.number(8), fields.take(32))


def update_in(fields, version):
    writer, seq, clock, prev = fields.node(), fields.number(4), fields.number(8, 1), fields.take(32)
    writes = writes_in(fields, version)

    def follows(before, entry):
        return entry[0] != writer and (before is None or (before[0], before[2]) < (entry[0], entry[2]))

    deps = fields.entries(fields.number(2, 0, 1024), entry_in, follows)
    return Update(writer, seq, clock, prev, writes, deps, fields.take(32), fields.text, sha(fields.text))


def voucher_in(fields):
    node, seq = fields.node(), fields.number(4)
    ids = fields.entries(fields.number(2, 1, 256), lambda inner: inner.take(32), rises)
    return Voucher(node, seq, ids, fields.text, sha(fields.text))


def body_in(fields):
    version = fields.number(1, 1, 2)
    fields.number(1, 1, 1)
    return update_in(fields, version)


def own_voucher_in(fields):
    fields.number(1, 1, 1)
    fields.number(1, 2, 2)
    return voucher_in(fields)


def statement_in(fields):
    version = fields.number(1, 1, 2)
    kind = fields.number(1, 1, 2 if version == 1 else 1)
    return update_in(fields, version) if kind == 1 else voucher_in(fields)


def signed_in(fields):
    start = fields.at
    statement = fields.part(fields.number(4, 0, MOST_BODY), statement_in)
    signature = fields.take(fields.number(4, 0, MOST_SIGNATURE))
    return Signed(statement, signature, fields.text[start:fields.at])


def proof_in(fields):
    start = fields.at
    fields.number(1, 1, 1)
    kind = KINDS[fields.number(1, 1, 4)]
    first = signed_in(fields)
    second = fields.take(fields.number(4, 0, MOST_VALUE)) if kind == "NotUpdate" else signed_in(fields)
    return Proof(kind, first, second, fields.text[start:fields.at])


def record_in(fields):
    """The tag of a record and what it holds."""
    tag = fields.number(1, 1, 6)
    if tag == 1:
        return tag, (fields.node(), fields.take(32))
    if tag == 2:
        update = fields.part(fields.number(4), body_in)
        return tag, (update, [fields.take(said[1]) for _, said in update.writes if said])
    if tag == 3:
        return tag, own_voucher_in(Fields(fields.take(len(fields.text) - 1), 1))
    if tag == 4:
        return tag, signed_in(fields)
    if tag == 5:
        return tag, proof_in(fields)
    if len(fields.text) - 1 > MOST_VALUE:
        raise Fault(1 + MOST_VALUE)
    return tag, fields.take(len(fields.text) - 1)


def leaf_in(fields):
    return (fields.node(), fields.take(32))


def checkpoint_in(fields):
    """The roster's hash and the leaves, (writer, id) each."""
    fields.number(1, 1, 1)
    fields.number(1, 6, 6)
    return fields.take(32), fields.entries(fields.number(2, 1, 1024), leaf_in, rises)


def hello_in(fields):
    """The node, the roster's hash, the convicted nodes, the leaves' ids and the wanted hashes."""
    fields.number(1, 1, 1)
    fields.number(1, 3, 3)
    node, listed = fields.node(), fields.take(32)
    convicted = fields.entries(fields.number(2, 0, 256), Fields.node, rises)
    leaves = fields.entries(fields.number(2, 0, 4097), leaf_in, rises)
    wanted = fields.entries(fields.number(2, 0, 1024), lambda inner: inner.take(32), rises)
    return node, listed, convicted, [leaf for _, leaf in leaves], wanted


def is_update(text):
    return fault(body_in, text) is None


def is_hollow(statement, text):
    """Whether a voucher names a text that is no update's."""
    return isinstance(statement, Voucher) and sha(text) in statement.ids and not is_update(text)


def kind_of(one, other):
    """The first kind in which two statements contradict each other, or None."""
    if one.writer != other.writer or one.body == other.body:
        return None
    if one.seq == other.seq:
        return "SameNumber"
    if not (isinstance(one, Update) and isinstance(other, Update)):
        return None
    if one.prev == other.prev:
        return "SamePrev"
    return "Backward" if contradict(one, other, "Backward") else None


def contradict(one, other, kind):
    """Whether two statements contradict each other in this kind."""
    if one.writer != other.writer or one.body == other.body:
        return False
    updates = isinstance(one, Update) and isinstance(other, Update)
    if kind == "SameNumber":
        return one.seq == other.seq
    if kind == "SamePrev":
        return updates and one.prev == other.prev
    return updates and any(
        later.prev == earlier.id and (later.seq <= earlier.seq or later.clock <= earlier.clock)
        for earlier, later in ((one, other), (other, one)))


def parents(update):
    """The ids of an update's parents, its prev first."""
    return ([] if update.prev == ZEROS else [update.prev]) + [entry[2] for entry in update.deps]
