#!/usr/bin/env python3
"""Plays schedules as docs/FORMATS.md tells, apart from the program: a plain node over lists, and a printer of transcripts.

    python3 acceptance/models/model.py FILE      # the transcript of a schedule that has no fault
    python3 acceptance/models/model.py           # plays the schedule of each replay in acceptance/cases, and says which transcripts differ

It has none of the limits of fullness, and no more of a disk than how many of a node's records a stop leaves.
"""

import os
import sys

sys.path.insert(0, os.path.join(os.path.dirname(os.path.abspath(__file__)), os.pardir, "makers"))
from make_cases import CASES, ZEROS, Signer, checkpoint, checkpoint_key, frame, hollow, proof, roster, sha, signed, u, update_of, voucher  # noqa: E402
from texts import (  # noqa: E402
    KINDS, Fault, Update, Voucher, body_in, checkpoint_in, contradict, hello_in, is_hollow, kind_of, parents, proof_in, signed_in, statement_in, whole,
)

MOST_AHEAD, MOST_ENTRIES, MOST_PAYLOAD, MOST_FRAMES = 65_536, 1024, 131_072, 524_288
PAIRS = {name: number for number, name in KINDS.items() if number < 4}


class PlainSigner:
    def __init__(self, node, seed, height):
        self.node, self.height, self.root = node, height, sha(seed)

    def entry(self):
        return (self.node, self.height, self.root)

    def sign(self, i, body):
        return sha(b"\x06", self.root, u(4, i), body)


class Refused(Exception):
    """A check that refuses, and the records that are due all the same."""

    def __init__(self, check, carried="", due=()):
        super().__init__(check)
        self.check = check + (f" {carried}" if carried != "" else "")
        self.due = due


class Stopped(Exception):
    pass


class Limit(Exception):
    pass


class Below(Exception):
    """A statement that names a trimmed update, whose id this is."""


def past_of(ids, known):
    """The updates of these ids, and all that precede them, by id."""
    found, open_ids = {}, list(ids)
    while open_ids:
        some = open_ids.pop()
        if some not in found and some in known:
            found[some] = known[some]
            open_ids += parents(known[some])
    return found


def leaves_of(updates):
    prevs = {update.prev for update in updates}
    return sorted((x for x in updates if x.id not in prevs), key=lambda x: (x.writer, x.id))


def history_of(updates):
    return sha(*(u(2, x.writer) + u(8, x.clock) + x.id for x in leaves_of(updates)))


def latest_in(key, updates, known):
    """The updates with this key that precede no other of them with it, in the order in which a read lists them."""
    writing = [x for x in updates if key in dict(x.writes)]
    latest = [x for x in writing if not any(x.id in past_of(parents(y), known) for y in writing)]
    return sorted(latest, key=lambda x: (x.clock, x.writer, x.seq, x.id))


class Members:
    """The keys of all nodes of a schedule. A signature verifies where it is the one that its key makes of the body."""

    def __init__(self, scheme, height, nodes):
        made = Signer if scheme == "winter" else PlainSigner
        self.signers = {node: made(node, bytes(30) + u(2, node), height) for node in nodes}
        self.hash = sha(roster(*(self.signers[node].entry() for node in sorted(nodes))))
        self.good = {}

    def height_of(self, node):
        return self.signers[node].height

    def sign(self, node, seq, body):
        return signed(body, self.signers[node].sign(seq, body))

    def is_signed(self, made):
        statement = made.statement
        if statement.seq >= 2**self.height_of(statement.writer):
            return False
        if made.text not in self.good:
            self.good[made.text] = self.signers[statement.writer].sign(statement.seq, statement.body) == made.signature
        return self.good[made.text]


class Node:
    """A node: its records, and what they say."""

    def __init__(self, me, members):
        self.me, self.members = me, members
        self.records, self.armed = [], None
        self.start([("birth", None)])

    def start(self, records):
        self.records, self.accepted, self.held, self.proofs = [], {}, {}, {}
        self.own, self.foreign, self.vouched, self.mine_vouched = [], [], set(), {}
        for record in records:
            self.add(record)

    def add(self, record):
        tag, what = record
        self.records.append(record)
        if tag == "put":
            update, values = what
            self.own.append(update)
            self.accepted[update.id] = update
            for value in values:
                self.held.setdefault(sha(value), value)
        if tag == "vouch":
            self.own.append(what)
            self.mine_vouched.update((some, what) for some in what.ids)
        if tag == "foreign":
            self.foreign.append(what)
            if isinstance(what.statement, Update):
                self.accepted[what.statement.id] = what.statement
            else:
                self.vouched.update(what.statement.ids)
        if tag == "convict":
            self.proofs[what.first.statement.writer] = what.text
        if tag == "held":
            self.held[sha(what)] = what

    # ---- the disk, of which only its calls are counted

    def calls(self, count):
        """So many calls of the disk are made; the number of the one that stops among them, and its image, or None."""
        if self.armed is None:
            return None
        call, image = self.armed
        if call > count:
            self.armed = (call - count, image)
            return None
        self.armed = None
        return call, image

    def append(self, *records):
        for record in records:
            stop = self.calls(4)
            if stop is not None:
                kept = stop[1] == 1 and stop[0] in (3, 4)
                self.start(self.records + ([record] if kept else []))
                raise Stopped
            self.add(record)

    def restart(self):
        stop = self.calls(3)
        self.start(list(self.records))
        if stop is not None:
            raise Stopped

    # ---- what it takes

    def is_named(self, digest, length):
        return any(said == (digest, length) for x in self.accepted.values() for _, said in x.writes)

    def take(self, look, text):
        """Whether what comes is new or known; what it adds is appended."""
        try:
            records = look(text)
        except Refused as found:
            self.append(*found.due)
            raise
        self.append(*records)
        return "new" if records else "known"

    def look_at_value(self, value):
        """The records that a value adds, none where it is known."""
        if len(value) > 65_536:
            raise Refused("1 IllFormed", 65_536)
        if sha(value) in self.held:
            return []
        if not self.is_named(sha(value), len(value)):
            raise Refused("14 Unwanted")
        return [("held", value)]

    def is_known(self, statement):
        if isinstance(statement, Update):
            return statement.id in self.accepted
        own = [x for x in self.own if isinstance(x, Voucher)]
        return any(x.body == statement.body for x in own + [s.statement for s in self.foreign if isinstance(s.statement, Voucher)])

    def look_at_statement(self, text):
        """The same of a signed statement."""
        try:
            made = whole(signed_in, text)
        except Fault as found:
            raise Refused("1 IllFormed", found.at) from None
        statement = made.statement
        if statement.writer not in self.members.signers:
            raise Refused("2 UnknownWriter", statement.writer)
        if self.is_known(statement):
            return []
        if statement.writer == self.me:
            raise Refused("3 NotMine")
        if not self.members.is_signed(made):
            raise Refused("4 BadSignature", statement.writer)
        self.check_below(statement)
        if isinstance(statement, Update):
            self.check_update(made)
        against = next((s for s in self.foreign if kind_of(s.statement, statement)), None)
        is_convicted = statement.writer in self.proofs
        is_vouched = isinstance(statement, Update) and statement.id in self.vouched
        if against is not None and not is_convicted and not is_vouched:
            raise Refused("11 Forked", kind_of(against.statement, statement), self.conviction(against, made))
        if is_convicted and isinstance(statement, Update) and not is_vouched:
            raise Refused("12 Convicted", statement.writer)
        if is_convicted and isinstance(statement, Voucher):
            raise Refused("13 VoucherConvicted", statement.writer)
        due = [] if against is None else self.conviction(against, made)
        return [*due, ("foreign", made)]

    def check_below(self, statement):
        """Nothing stands below what a node keeps: it keeps all."""

    def conviction(self, one, other):
        """The record that convicts the writer of two statements, if it isn't convicted yet."""
        return [] if one.statement.writer in self.proofs else [("convict", pair(kind_of(one.statement, other.statement), one, other))]

    def check_update(self, made):
        x = made.statement
        if any(some not in self.accepted for some in parents(x)):
            raise Refused("5 Missing")
        prev = self.accepted.get(x.prev)
        if prev is not None and prev.writer != x.writer:
            raise Refused("6 WrongDep", 0)
        for place, (writer, clock, some) in enumerate(x.deps):
            if (self.accepted[some].writer, self.accepted[some].clock) != (writer, clock):
                raise Refused("6 WrongDep", place + 1)
        if prev is not None and (x.seq <= prev.seq or x.clock <= prev.clock):
            raise Refused("7 Backward", "", self.conviction(next(s for s in self.foreign if s.statement.id == prev.id), made))
        clocks = [self.accepted[some].clock for some in parents(x)]
        if any(clock >= x.clock for clock in clocks):
            raise Refused("8 ClockLow")
        if x.clock > max(clocks, default=0) + MOST_AHEAD:
            raise Refused("9 ClockFar", max(clocks, default=0))
        if x.history != history_of(past_of(parents(x), self.accepted).values()):
            raise Refused("10 BadHistory")

    def look_at_proof(self, text):
        """The same of a proof."""
        try:
            made = whole(proof_in, text)
        except Fault as found:
            raise Refused("1 IllFormed", found.at) from None
        halves = [made.first] if made.kind == "NotUpdate" else [made.first, made.second]
        for half in halves:
            if half.statement.writer not in self.members.signers:
                raise Refused("2 UnknownWriter", half.statement.writer)
        for half in halves:
            if not self.members.is_signed(half):
                raise Refused("4 BadSignature", half.statement.writer)
        if point_of(made) is not None:
            raise Refused("15 NotContradictory")
        node = made.first.statement.writer
        if node == self.me:
            raise Refused("16 AgainstMe")
        return [] if node in self.proofs else [("convict", made)]

    # ---- what it writes

    def next_own(self, changes):
        """The body of its next update, with these changes, and how many entries that has."""
        mine = [x for x in self.own if isinstance(x, Update)]
        prev = mine[-1].id if mine else ZEROS
        known = past_of([prev], self.accepted)
        deps = [(x.writer, x.clock, x.id) for x in leaves_of(self.accepted.values()) if x.writer != self.me and x.id not in known]
        clock = 1 + max((x.clock for x in self.accepted.values()), default=0)
        return update_of(self.me, len(self.own), clock, prev, changes, deps, history_of(self.accepted.values())), len(deps)

    def put(self, changes):
        if len(self.own) == 2**self.members.height_of(self.me):
            raise Limit(f"Spent {len(self.own)}")
        body, entries = self.next_own(changes)
        if entries > MOST_ENTRIES:
            raise Limit(f"Tips {entries}")
        made = whole(body_in, body)
        self.append(("put", (made, [value for _, value in changes if value is not None])))
        return f"{made.seq}/{made.clock}"

    def receipt(self, ids):
        for some in ids:
            if some not in self.accepted:
                return "Unknown"
        for some in ids:
            said = [said for _, said in self.accepted[some].writes if said is not None]
            if any(digest not in self.held or len(self.held[digest]) != length for digest, length in said):
                return "NoValue"
        return self.put([(b"receipt:" + some, b"") for some in sorted(set(ids))])

    def settled(self, some, count):
        key = b"receipt:" + some
        return "yes" if len({x.writer for x in self.accepted.values() if dict(x.writes).get(key) is not None}) >= count else "no"

    # ---- checkpoints

    def checkpoint(self):
        """The text of a checkpoint over all leaves, and the answer to its put."""
        leaves = leaves_of(self.accepted.values())
        if not leaves:
            return b"", "Empty"
        if len(leaves) > MOST_ENTRIES:
            return b"", f"Many {len(leaves)}"
        text = checkpoint(self.members.hash, *((x.writer, x.id) for x in leaves))
        return text, self.sign(text)

    def opened(self, text):
        """The ids that a checkpoint lists, or the answer where it can't be signed."""
        try:
            listed, leaves = whole(checkpoint_in, text)
        except Fault as found:
            raise Limit(f"IllFormed {found.at}") from None
        if listed != self.members.hash:
            raise Limit("OtherRoster")
        if any(some not in self.accepted or self.accepted[some].writer != writer for writer, some in leaves):
            raise Limit("Unknown")
        return [some for _, some in leaves]

    def sign(self, text):
        self.opened(text)
        return self.put([(checkpoint_key(text), text)])

    def has_signed(self, node, text, ids):
        """Whether an update of the node puts the text under its key, with all these ids in its past."""
        return any(
            x.writer == node and dict(x.writes).get(checkpoint_key(text)) == (sha(text), len(text))
            and set(ids) <= set(past_of(parents(x), self.accepted))
            for x in self.accepted.values())

    def trim(self, text):
        """A reader that gives up what stands below a checkpoint, and what is said of it."""
        ids = self.opened(text)
        for node in sorted(self.members.signers):
            if not self.has_signed(node, text, ids):
                raise Limit(f"Unsigned {node}")
        made = Reader(self, ids)
        return made, f"kept {len(made.kept())} of {len(made.accepted)}"

    # ---- what it reads

    def latest(self, key):
        return latest_in(key, self.accepted.values(), self.accepted)

    def read(self, key):
        return " ".join(self.shown(x, key) for x in self.latest(key))

    def shown(self, update, key):
        said = dict(update.writes)[key]
        name = f"{update.writer}/{update.seq}/{update.clock}"
        if said is None:
            return name + "!"
        value = self.held.get(said[0])
        return name + "=" + ("?" if value is None or len(value) != said[1] else value.hex())

    def wanted(self):
        names = [said for x in self.accepted.values() for _, said in x.writes if said is not None]
        return sorted({digest for digest, length in names if digest not in self.held or len(self.held[digest]) != length})[:1024]

    def hello(self):
        leaves = sorted((x.writer, x.id) for x in leaves_of(self.accepted.values()))
        wanted = self.wanted()
        convicted = sorted(self.proofs)
        text = b"".join([
            b"\x01\x03", u(2, self.me), self.members.hash, u(2, len(convicted)), *(u(2, node) for node in convicted),
            u(2, len(leaves)), *(u(2, writer) + some for writer, some in leaves), u(2, len(wanted)), *wanted,
        ])
        return text, f"convicted {len(convicted)} leaves {len(leaves)} wanted {len(wanted)}"

    def values_behind(self, update, sent):
        """The values of an update's writes, in their order, that are held and that no frame has yet."""
        found = []
        for _, said in update.writes:
            value = None if said is None else self.held.get(said[0])
            if value is not None and len(value) == said[1] and said[0] not in sent:
                sent.add(said[0])
                found.append(value)
        return found

    def bundle(self, text):
        try:
            reader, listed, convicted, leaves, wanted = whole(hello_in, text)
        except Fault as found:
            raise Limit(f"IllFormed {found.at}") from None
        if listed != self.members.hash:
            raise Limit("OtherRoster")
        if reader not in self.members.signers:
            raise Limit("IllFormed 2")
        known = past_of([some for some in leaves if some in self.accepted], self.accepted)
        updates = [x for x in self.accepted.values() if x.writer != reader and x.id not in known]
        new = [x.id for x in updates if x.writer != self.me and x.id not in self.mine_vouched]
        groups = [sorted(new[at:at + 256]) for at in range(0, len(new), 256)]
        if len(self.own) + len(groups) > 2**self.members.height_of(self.me):
            raise Limit(f"Spent {len(self.own)}")
        made = [whole(statement_in, voucher(self.me, len(self.own) + at, *group)) for at, group in enumerate(groups)]
        self.append(*(("vouch", x) for x in made))
        sent, values = set(), 0
        proofs = [frame(1, text) for node, text in self.proofs.items() if node not in convicted]
        names = {x.id for x in updates}
        vouchers = [x for x in self.own if isinstance(x, Voucher) and names & set(x.ids)]
        frames = proofs + [frame(2, self.signed(x)) for x in vouchers]
        for x in updates:
            behind = self.values_behind(x, sent)
            values += len(behind)
            frames += [frame(2, self.signed(x)), *(frame(3, value) for value in behind)]
        for digest in wanted:
            if digest in self.held and digest not in sent:
                values += 1
                frames.append(frame(3, self.held[digest]))
        counts = f"proofs {len(proofs)} vouchers {len(vouchers)} updates {len(updates)} values {values} whole"
        return b"".join(frames) + frame(4, b"\0"), counts

    def signed(self, statement):
        if statement.writer == self.me:
            return self.members.sign(self.me, statement.seq, statement.body)
        return next(s.text for s in self.foreign if s.statement.id == statement.id)

    def give(self, stream):
        """Takes a stream, and gives the report."""
        counts, refused, at, number, ended = {"new": 0, "known": 0}, [], 0, 0, None
        look = {1: self.look_at_proof, 2: self.look_at_statement, 3: self.look_at_value}
        ending = "bare"
        while at < len(stream):
            length = frame_at(stream, at, number, ended is not None)
            if length == "ill":
                ended, ending = None, f"ill-formed {at}"
                break
            if length == "open":
                ended, ending = None, f"cut {len(stream) - at}"
                break
            tag, payload = stream[at], stream[at + 5:at + 5 + length]
            at += 5 + length
            if tag == 4:
                ended = ["whole", "more"][payload[0]]
            else:
                try:
                    counts[self.take(look[tag], payload)] += 1
                except Refused as found:
                    refused.append(f" refused {number} {found.check}")
            number += 1
        report = f"accepted {counts['new']} known {counts['known']} refused {len(refused)} {ended or ending}"
        return "\n".join([report, *refused])


class Reader(Node):
    """What a node makes where these ids are listed. It goes on with what it takes, and has no disk: what it takes is lost with it."""

    def __init__(self, node, ids):
        self.me, self.members, self.armed = node.me, node.members, None
        self.start(list(node.records))
        below = past_of(ids, self.accepted)
        stays = {x.id for key in {key for x in below.values() for key, _ in x.writes} for x in latest_in(key, below.values(), self.accepted)}
        self.trimmed = {some: x for some, x in self.accepted.items() if some in below and some not in stays}
        self.held = {digest: value for digest, value in self.held.items() if self.is_named(digest, len(value))}

    def kept(self):
        return [x for x in self.accepted.values() if x.id not in self.trimmed]

    def is_named(self, digest, length):
        return any(said == (digest, length) for x in self.kept() for _, said in x.writes)

    def check_below(self, statement):
        for x in self.trimmed.values():
            is_update = isinstance(statement, Update)
            is_parent = is_update and x.id in parents(statement)
            is_beside = statement.writer == x.writer and (statement.seq == x.seq or is_update and statement.prev == x.prev)
            if is_parent or is_beside:
                raise Below(x.id)

    def tgive(self, stream):
        """Takes the frames in front of a stream, up to an End frame or the first that isn't whole."""
        counts, at, number = {"new": 0, "known": 0, "refused": 0, "below": 0}, 0, 0
        look = {1: self.look_at_proof, 2: self.look_at_statement, 3: self.look_at_value}
        while at < len(stream):
            length = frame_at(stream, at, number, False)
            if length in ("ill", "open") or stream[at] == 4:
                break
            try:
                counts[self.take(look[stream[at]], stream[at + 5:at + 5 + length])] += 1
            except Refused:
                counts["refused"] += 1
            except Below:
                counts["below"] += 1
            at, number = at + 5 + length, number + 1
        return f"accepted {counts['new']} known {counts['known']} refused {counts['refused']} below {counts['below']}"


def frame_at(stream, at, number, is_ended):
    """The length of the payload there, `ill` where no frame can come, or `open` where one may."""
    if is_ended or number == MOST_FRAMES or stream[at] not in (1, 2, 3, 4):
        return "ill"
    low, high = (1, 1) if stream[at] == 4 else (0, MOST_PAYLOAD)
    given = stream[at + 1:at + 5]
    least = int.from_bytes(given + bytes(4 - len(given)), "big")
    most = int.from_bytes(given + b"\xff" * (4 - len(given)), "big")
    if most < low or least > high:
        return "ill"
    if len(given) < 4 or at + 5 + least > len(stream):
        return "open"
    return "ill" if stream[at] == 4 and stream[at + 5] > 1 else least


def pair(kind, one, other):
    first, second = sorted([one, other], key=lambda x: x.statement.body)
    return whole(proof_in, proof(PAIRS[kind], first.text, second.text))


def point_of(made):
    """The first point behind the signatures at which a proof fails, or None."""
    if made.kind == "NotUpdate":
        return None if is_hollow(made.first.statement, made.second) else "NotContradictory NotUpdate"
    one, other = made.first.statement, made.second.statement
    if one.writer != other.writer:
        return f"TwoWriters {one.writer} {other.writer}"
    if one.body == other.body:
        return "Same"
    if one.body > other.body:
        return "WrongOrder"
    return None if contradict(one, other, made.kind) else f"NotContradictory {made.kind}"


def judged(members, text):
    try:
        made = whole(proof_in, text)
    except Fault as found:
        return f"IllFormed {found.at}"
    halves = [("first", made.first)] + ([] if made.kind == "NotUpdate" else [("second", made.second)])
    for _, half in halves:
        if half.statement.writer not in members.signers:
            return f"UnknownWriter {half.statement.writer}"
    for name, half in halves:
        if not members.is_signed(half):
            return f"BadSignature {name}"
    return point_of(made) or f"{made.first.statement.writer} {made.kind}"


def bytes_of(word):
    return b"" if word == "-" else bytes.fromhex(word)


def changes_of(word):
    """The changes of a word: (key, value) each, or (key, None) where it is deleted."""
    return [(bytes.fromhex(part[:-1]), None) if part.endswith("!") else (bytes.fromhex(part.split("=")[0]), bytes_of(part.split("=")[1]))
            for part in word.split(",")]


class NoRef(Exception):
    pass


# How many words of an event stand before the arrow.
HEAD = {"bundle": 4, "settled": 4, **dict.fromkeys(["put", "get", "hello", "give", "checkpoint", "sign", "tgive", "tget"], 3)}


def head_of(words):
    """What stands before the arrow; of `trim` the node and the name."""
    return " ".join([*words[:2], words[3]] if words[0] == "trim" else words[:HEAD.get(words[0], 2)])


class World:
    """What a schedule's events work on: its nodes, and its labels with their bytes and what they are of."""

    def __init__(self, lines):
        scheme, height = lines[1].split()[1:]
        self.events = [line for line in lines[2:] if line.split()[0] not in ("node", "faulty")]
        nodes = [line.split() for line in lines[2:] if line.split()[0] in ("node", "faulty")]
        self.members = Members(scheme, int(height), [int(number) for _, number in nodes])
        self.nodes = {int(number): Node(int(number), self.members) for kind, number in nodes if kind == "node"}
        self.bytes, self.signed, self.plain, self.known, self.readers = {}, {}, set(), {}, {}
        self.reads = {number: [] for number in self.nodes}

    def play(self):
        """The lines of the transcript."""
        return (self.line_of(event) for event in self.events)

    def line_of(self, event):
        """The line of the next event, and those behind it."""
        words = event.split(" ")
        label = {"hello": 2, "bundle": 3, "checkpoint": 2}.get(words[0])
        if label is not None:
            self.bytes[words[label]] = b""
        try:
            answer = getattr(self, words[0])(*words[1:])
        except Stopped:
            answer = f"stopped records {len(self.nodes[int(words[1])].records)}"
        except Limit as limit:
            answer = str(limit)
        except NoRef:
            answer = "NoRef"
            if words[0] not in ("receipt", "settled"):
                self.bytes[words[1]] = b""
        for node in self.nodes.values():
            self.known.update(node.accepted)
        return head_of(words) + " ->" + (" " + answer if answer else "")

    def put(self, node, key, value):
        return self.nodes[int(node)].put([(bytes.fromhex(key), bytes_of(value))])

    def puts(self, node, writes):
        return self.nodes[int(node)].put(changes_of(writes))

    def get(self, node, key):
        self.reads[int(node)].append([x.id for x in self.nodes[int(node)].latest(bytes.fromhex(key))])
        return self.nodes[int(node)].read(bytes.fromhex(key))

    def hello(self, node, label):
        self.bytes[label], answer = self.nodes[int(node)].hello()
        return answer

    def bundle(self, node, hello, label):
        self.bytes[label], answer = self.nodes[int(node)].bundle(self.bytes[hello])
        return answer

    def give(self, node, label, size=None):
        return self.nodes[int(node)].give(self.bytes[label])

    def receipt(self, node, refs):
        return self.nodes[int(node)].receipt([self.referred(ref).id for ref in refs.split(",")])

    def settled(self, node, ref, count):
        return self.nodes[int(node)].settled(self.referred(ref).id, int(count))

    def checkpoint(self, node, label):
        self.bytes[label], answer = self.nodes[int(node)].checkpoint()
        return answer

    def sign(self, node, label):
        return self.nodes[int(node)].sign(self.bytes[label])

    def trim(self, node, label, name):
        self.readers[name], answer = self.nodes[int(node)].trim(self.bytes[label])
        return answer

    def tgive(self, name, label):
        return self.readers[name].tgive(self.bytes[label]) if name in self.readers else ""

    def tget(self, name, key):
        return self.readers[name].read(bytes.fromhex(key)) if name in self.readers else ""

    def audit(self):
        """What is found, but for texts with one SHA-256: correct nodes keep the promises, unless somebody signs with the key of one."""
        from audit_model import found_between
        return found_between([(self.nodes[number], self.reads[number]) for number in sorted(self.nodes)])

    def restart(self, node):
        self.nodes[int(node)].restart()
        return f"records {len(self.nodes[int(node)].records)}"

    def stop(self, node, call, image):
        self.nodes[int(node)].armed = (int(call), int(image))
        return "armed"

    def referred(self, ref):
        """The update that a reference names."""
        if "." in ref:
            node, seq = (int(part) for part in ref.split("."))
            own = self.nodes[node].own
            if seq >= len(own) or not isinstance(own[seq], Update):
                raise NoRef
            return own[seq]
        if ref not in self.signed:
            raise NoRef
        return self.signed[ref].statement

    def update(self, label, writer, seq, clock, prev, key, value, deps, history):
        return self.write(label, int(writer), int(seq), int(clock), prev, [(bytes.fromhex(key), bytes_of(value))], deps, history)

    def updates(self, label, writer, seq, clock, prev, writes, deps, history):
        return self.write(label, int(writer), int(seq), int(clock), prev, changes_of(writes), deps, history)

    def write(self, label, writer, seq, clock, prev, changes, deps, history):
        prev = ZEROS if prev == "-" else self.referred(prev).id
        found = {} if deps == "-" else {x.id: x for x in map(self.referred, deps.split(","))}
        if any(x.writer == writer for x in found.values()):
            raise NoRef
        entries = sorted(((x.writer, x.clock, x.id) for x in found.values()), key=lambda entry: (entry[0], entry[2]))
        ids = ([] if prev == ZEROS else [prev]) + [entry[2] for entry in entries]
        right = history_of(past_of(ids, self.known).values()) if history == "right" else bytes.fromhex(history)
        text = self.members.sign(writer, seq, update_of(writer, seq, clock, prev, changes, entries, right))
        self.signed[label] = whole(signed_in, text)
        self.known.setdefault(self.signed[label].statement.id, self.signed[label].statement)
        values = list(dict.fromkeys(value for _, value in changes if value is not None))
        self.bytes[label] = frame(2, text) + b"".join(frame(3, value) for value in values)
        return f"{writer}/{seq}/{clock}"

    def voucher(self, label, node, seq, refs):
        ids = {sha(self.bytes[ref]) if ref in self.plain else self.referred(ref).id for ref in refs.split(",")}
        text = self.members.sign(int(node), int(seq), voucher(int(node), int(seq), *ids))
        self.signed[label] = whole(signed_in, text)
        self.bytes[label] = frame(2, text)
        return f"{node}/{seq} ids {len(ids)}"

    def proof(self, label, kind, one, other):
        if one not in self.signed or other not in self.signed:
            raise NoRef
        first, second = sorted([self.signed[one], self.signed[other]], key=lambda x: x.statement.body)
        self.bytes[label] = frame(1, proof(PAIRS[kind], first.text, second.text))
        return kind

    def hollow(self, label, of, text):
        if of not in self.signed or len(self.bytes[text]) > 65_536:
            raise NoRef
        self.bytes[label] = frame(1, hollow(self.signed[of].text, self.bytes[text]))
        return "NotUpdate"

    def judge(self, label):
        return judged(self.members, self.bytes[label][5:])

    def keep(self, label, made):
        self.plain.add(label)
        self.bytes[label] = made
        return f"{len(made)} bytes"

    def raw(self, label, digits):
        return self.keep(label, bytes_of(digits))

    def cut(self, label, source, start, count):
        return self.keep(label, self.bytes[source][int(start):int(start) + int(count)])

    def flip(self, label, source, place):
        made = bytearray(self.bytes[source])
        if int(place) < len(made):
            made[int(place)] ^= 1
        return self.keep(label, bytes(made))

    def join(self, label, one, other):
        return self.keep(label, self.bytes[one] + self.bytes[other])


def transcript_of(text):
    return "".join(line + "\n" for line in World(text.splitlines()).play())


# What fills a list that the model doesn't bound, or takes minutes in it.
TOO_LARGE = (
    "replay_as_many_branches_as_entries", "replay_one_branch_too_many", "replay_as_many_frames_as_a_stream_has", "replay_as_many_leaves_as_a_checkpoint_has",
    "replay_as_many_frames_as_a_reader_takes")


def plays(name):
    """Whether a case that is a replay has the transcript of the model, or None where it is no such case."""
    folder = os.path.join(CASES, name)
    path = os.path.join(folder, "data", "schedule")
    if name in TOO_LARGE or not os.path.isfile(path) or os.path.exists(os.path.join(folder, "status")):
        return None
    with open(path) as schedule, open(os.path.join(folder, "stdout")) as told:
        made, right = transcript_of(schedule.read()), told.read()
    if made == right:
        return True
    print(f"{name}: the transcript differs from the model's")
    for one, other in zip(right.splitlines(), made.splitlines()):
        if one != other:
            print(f"  told:  {one[:150]}\n  model: {other[:150]}")
            break
    return False


def main():
    if len(sys.argv) > 1:
        with open(sys.argv[1]) as file:
            sys.stdout.write(transcript_of(file.read()))
        return 0
    results = [plays(name) for name in sorted(os.listdir(CASES)) if name.startswith(("replay_", "example_"))]
    print(f"{results.count(True)} as told, {results.count(False)} not")
    return 1 if False in results else 0


if __name__ == "__main__":
    sys.exit(main())
