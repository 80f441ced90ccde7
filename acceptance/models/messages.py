"""The messages of `depot serve`, as docs/FORMATS.md tells them, each field by hand ("Requests").

A request or a reply is its kind and its fields; `message` puts in front how many bytes it has.
"""

from make_cases import sha, u

PUT, GET, HELLO, BUNDLE, TAKE, RECEIPT, SETTLED, CHECKPOINT, SIGN = (u(1, kind) for kind in range(1, 10))
VERSION = b"\x01"


def message(body):
    return u(4, len(body)) + body


def messages(*bodies):
    return b"".join(message(body) for body in bodies)


def bodies_in(text):
    """The bodies of the whole messages at the front of a text, and what stands behind them."""
    bodies = []
    while len(text) >= 4 and len(text) >= 4 + int.from_bytes(text[:4], "big"):
        end = 4 + int.from_bytes(text[:4], "big")
        bodies.append(text[4:end])
        text = text[end:]
    return bodies, text


# ---- what the process says first


def started(node, listed, statements=0):
    return b"\x00" + VERSION + u(2, node) + sha(listed) + u(4, statements)


def not_started(line):
    return b"\xff" + line.encode() + b"\n"


# ---- requests


def key(text):
    return u(1, len(text)) + text


def change(of, value):
    """A change: a value, or the deletion of the key where it is None."""
    return key(of) + (b"\x00" if value is None else b"\x01" + u(4, len(value)) + value)


def put(*changes):
    return PUT + u(1, len(changes)) + b"".join(change(*one) for one in changes)


def get(of):
    return GET + key(of)


def receipt(*ids):
    return RECEIPT + u(1, len(ids)) + b"".join(ids)


def settled(id, nodes):
    return SETTLED + id + u(4, nodes)


# ---- questions, what is to be sent, and the trace


STATUS, FAR_HELLO, EXPORT = b"\x10", b"\x20", b"\x30"
ANY = 0xFFFFFFFF


def convictions(start):
    return b"\x11" + u(4, start)


def keys(above=b""):
    return b"\x12" + key(above)


def latest(of):
    return b"\x13" + key(of)


def update(id):
    return b"\x14" + id


def accepted(*ids):
    return b"\x15" + u(1, len(ids)) + b"".join(ids)


def updates(start):
    return b"\x16" + u(4, start)


def bounded(hello, most_bytes, vouchers=ANY, own=False):
    """A bundle for a hello, with at most so many bytes of updates and values and so many new vouchers, maybe of own updates alone."""
    return b"\x21" + u(4, most_bytes) + u(4, vouchers) + u(1, own) + hello


# ---- answers


def is_status(node, listed, statements, signable, records, size, updates, leaves, convicted=()):
    counts = b"".join(u(4, count) for count in (statements, signable, records, size, updates, leaves))
    return b"\x10" + u(2, node) + sha(listed) + counts + u(2, len(convicted)) + b"".join(u(2, one) for one in convicted)


def page(kind, *entries, more=False):
    return kind + u(4, len(entries)) + b"".join(entries) + u(1, more)


def conviction(place, node, proof):
    return u(4, place) + u(2, node) + u(4, len(proof)) + proof


# What is said of a key: it is deleted, it has a value, or it has one that isn't held.
DELETED = b"\x00"


def value(bytes_):
    return b"\x01" + u(4, len(bytes_)) + bytes_


def not_held(bytes_):
    return b"\x02" + sha(bytes_) + u(4, len(bytes_))


def head(writer, seq, clock):
    return u(2, writer) + u(4, seq) + u(8, clock)


def are_latest(*writes):
    """The latest writes of a key: (update, seq, what is said) each."""
    return b"\x13" + u(4, len(writes)) + b"".join(it.id + head(it.writer, seq, it.clock) + said for it, seq, said in writes)


NO_UPDATE = b"\x14\x00"


def is_update(item, it, seq, *writes):
    """The update of a number: its writes are (key, value or None) each."""
    said = [key(of) + (b"\x00" if given is None else b"\x01" + sha(given) + u(4, len(given))) for of, given in writes]
    return b"\x14\x01" + u(4, item) + head(it.writer, seq, it.clock) + u(1, len(writes)) + b"".join(said)


def are_accepted(*flags):
    return b"\x15" + u(1, len(flags)) + b"".join(u(1, flag) for flag in flags)


def update_keys(it, seq, *names):
    return it.id + head(it.writer, seq, it.clock) + u(1, len(names)) + b"".join(key(name) for name in names)


def exported(trace):
    """The text of a trace is handed in."""
    return b"\x30" + trace


# ---- replies


def was_put(id, seq, clock):
    return b"\x01" + id + u(4, seq) + u(8, clock)


def was_read(words=""):
    return b"\x02" + words.encode()


def greeted(text):
    return b"\x03" + text


def bundled(stream, proofs=0, vouchers=0, updates=0, values=0, more=False):
    return b"\x04" + b"".join(u(4, count) for count in (proofs, vouchers, updates, values)) + u(1, more) + stream


# Endings of a stream.
CLOSED, WHOLE, MORE_IS_LEFT, BARE = b"\x01", b"\x02", b"\x03", b"\x04"


def open_frame(length):
    """An ending: so many bytes of a frame stand open."""
    return b"\x05" + u(4, length)


def closed_at(offset):
    """A closing: no frame stands at this offset."""
    return b"\x01" + u(8, offset)


def taken(new, known, ending=WHOLE, refused=(), closing=b"\x00"):
    """Of a stream; the refused frames are (number, check) each."""
    return b"\x05" + u(4, new) + u(4, known) + ending + u(4, len(refused)) + b"".join(u(4, number) + check for number, check in refused) + closing


def is_settled(yes):
    return b"\x06" + u(1, yes)


def checkpoint_was_put(id, seq, clock, text):
    return b"\x07" + id + u(4, seq) + u(8, clock) + text


def not_done(reason):
    return b"\x08" + reason


def spent(statements):
    """A limit: no leaf is left behind so many statements."""
    return b"\x01\x01" + u(4, statements)


def ill_formed(at):
    return b"\x02" + u(4, at)


def other_roster(hash):
    return b"\x03" + hash


def unknown(id):
    return b"\x04" + id


def no_value(id):
    return b"\x05" + id


NOTHING_ACCEPTED = b"\x06"
