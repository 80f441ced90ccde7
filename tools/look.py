#!/usr/bin/env python3
"""Shows what a file of Depot holds, one line a fact: a journal, hello, stream, proof, roster, trace, checkpoint or log.

    python3 tools/look.py FILE                    the kind is found by reading; --kind KIND says it
    python3 tools/look.py FILE --whole            hashes in full, in place of their first 16 digits
    python3 tools/look.py JOURNAL --roster FILE   and how many statements the node has left
    python3 tools/look.py HELLO --journal FILE    and which of its leaves the journal has
    python3 tools/look.py FILE --proofs FOLDER    puts the proofs of a journal or a stream there, as files for `judge`
    python3 tools/look.py FILE --id 1/4/5         the id of this update of a journal, stream or log, as `receipt` takes it
    python3 tools/look.py JOURNAL --puts          the latest writes with whole values, as notes for `text.py script`
    python3 tools/look.py JOURNAL --brief --roster FILE   what is left, and who is convicted, for a monitor

It reads by docs/FORMATS.md, verifies no signature, and asks no program. Where a text isn't in its form, what stands
before the fault is shown, then a line that says where and why, and the status is 2; it is 3 where a file can't be read,
and 1 where the words are wrong, or name an update that isn't there.

Of a key with several latest writes `--puts` gives each as a comment: who knows which shall stand takes its # away. Keys
whose latest write is a deletion, receipts and signatures of checkpoints are left out. Each put takes one statement.

`--brief` begins with `well`, status 0; with `soon`, 1, where under a tenth of the statements, records or bytes is left, or
the node wants values; or with `now`, 2, where none is left, the journal isn't whole, or a node is convicted that
`--known 2,5` doesn't name. 3 is that the file can't be read, is no journal, or the roster isn't its own.
"""

import argparse
import os
import re
import signal
import sys

import formats as f
import summary
from words import NO_WORDS, Parser

KINDS = ["roster", "hello", "journal", "proof", "stream", "trace", "checkpoint", "log"]
ILL_FORMED, UNREADABLE = 2, 3
OLD = "it is an old copy, never run it"


class NoKind(Exception):
    """A file is of no kind that is known here; it is said what it looks like most."""


def say(line):
    print("look: %s" % line, file=sys.stderr)


class Page:
    """The lines about a file, as they are made."""

    def __init__(self, whole=False):
        self.lines, self.whole, self.fault = [], whole, None

    def say(self, line):
        self.lines.append(line)

    def hash(self, digest):
        return digest.hex() if self.whole else digest.hex()[:16]

    def key(self, key):
        """A key; that of a receipt by the id of the update that it is for, that of a checkpoint by the hash of its text."""
        kind = f.reserved_for(key)
        return "%s:%s" % (kind, self.hash(key[-32:])) if kind else f.shown(key)


def writes_line(update, values, page):
    """What an update writes: its values as text where they are held, else their hashes."""
    parts = []
    for write in update.writes:
        if write.hash is None:
            parts.append("%s deleted" % page.key(write.key))
        elif write.hash in values:
            parts.append("%s = %s" % (page.key(write.key), cut(f.shown(values[write.hash]))))
        else:
            parts.append("%s = ? (%d bytes, hash %s)" % (page.key(write.key), write.length, page.hash(write.hash)))
    return ", ".join(parts)


def cut(text, most=60):
    """The front of a long text."""
    return text if len(text) <= most else text[:most] + ".. (%d characters)" % len(text)


def bytes_line(what, data, page):
    return "%s of %d bytes, hash %s: %s" % (what, len(data), page.hash(f.sha256(data)), cut(f.shown(data)))


def parents_line(update, page):
    prev = "none" if update.prev == f.NO_UPDATE else page.hash(update.prev)
    entries = ["%d/%d %s" % (it.writer, it.clock, page.hash(it.id)) for it in update.entries]
    return "prev %s, entries %s" % (prev, "; ".join(entries) or "none")


def statement_lines(statement, values, page):
    """A line of what a statement is, and one of each kind of thing that it names."""
    if isinstance(statement, f.Voucher):
        ids = " ".join(page.hash(it) for it in statement.ids)
        return ["voucher %s for %d updates: %s" % (statement.name, len(statement.ids), ids)]
    return [
        "update %s, id %s" % (statement.name, page.hash(statement.id)),
        "  writes %s" % writes_line(statement, values, page),
        "  %s" % parents_line(statement, page),
    ]


def proof_line(proof, page):
    if isinstance(proof, f.Hollow):
        voucher = proof.voucher.statement
        why = "its voucher %s, and a text of %d bytes that is no update" % (voucher.name, len(proof.text))
    else:
        why = "%s and %s" % (proof.first.statement.name, proof.second.statement.name)
    return "proof against node %d, %s: %s" % (f.convicted_by(proof), proof.kind, why)


# ---- a page a kind; each raises IllFormed where the file is of another kind


def show_roster(data, page, options):
    members = f.read_roster(data)
    page.say("roster: %d members, hash %s" % (len(members), f.sha256(data).hex()))
    for it in members:
        page.say("member %d: %d statements (height %d), root %s" % (it.node, 2**it.height, it.height, it.root.hex()))


def say_leaves(leaves, roster, page, options):
    records = records_beside(roster, page, options.journal) if options.journal else None
    for leaf in leaves:
        writer, id = int.from_bytes(leaf[:2], "big"), leaf[2:]
        page.say("leaf of writer %d: %s%s" % (writer, page.hash(id), had_by(records, writer, id)))
    if records and not any(OLD in line for line in page.lines):
        page.say("nothing here shows that the journal is an old copy, which proves nothing")


def records_beside(roster, page, path):
    """The records of the journal that leaves are compared with; None, and a line that says why, where nothing follows from that."""
    try:
        with open(path, "rb") as file:
            records = f.read_journal(file.read()).records
    except f.IllFormed as fault:
        page.fault = "%s, %s" % (path, fault)
        return None
    if not records:
        page.say("the journal has no record up to its first closed gate: where it had any, never run it")
    elif isinstance(records[0].record, f.Birth) and records[0].record.roster != roster:
        page.say("the journal is of another roster, %s, so nothing follows from these leaves" % page.hash(records[0].record.roster))
        return None
    return records


def show_checkpoint(data, page, options):
    checkpoint = f.read_checkpoint(data)
    page.say("checkpoint for the roster %s, under the key %s" % (page.hash(checkpoint.roster), page.key(f.checkpoint_key(data))))
    say_leaves(checkpoint.leaves, checkpoint.roster, page, options)


def show_hello(data, page, options):
    hello = f.read_hello(data)
    page.say("hello of node %d, for the roster %s" % (hello.node, page.hash(hello.roster)))
    page.say("convicted: %s" % (", ".join(map(str, hello.convicted)) or "none"))
    say_leaves(hello.leaves, hello.roster, page, options)
    for value in hello.wanted:
        page.say("wants the value %s" % page.hash(value))


def had_by(records, writer, id):
    """What is said of a leaf beside a journal. An own leaf that the journal lacks shows that it is an old copy."""
    if records is None:
        return ""
    if id in {it.id for it in f.updates_of(records)}:
        return ", which the journal has"
    is_own = any(isinstance(it.record, f.Birth) and it.record.node == writer for it in records[:1])
    return ", which the journal lacks" + (": " + OLD if is_own else "")


def show_journal(data, page, options):
    """The records, and then what follows from them. Of a damaged journal the records before the damage are shown."""
    placed = []
    try:
        for gate, end in f.spans_of(data):
            placed.append(f.Placed(gate, end, f.read_record(data[gate + 5 : end], gate + 5)))
    except f.IllFormed as fault:
        page.fault = fault
    end = placed[-1].end if placed else 0
    if not placed and len(data) > LEAST_JOURNAL:
        page.fault = "at 0: the first gate is %02x, not 01, so no record counts, and a run would begin a new journal over it" % data[0]
    if page.fault:
        page.say("journal: %d whole records in %d bytes, and then damage" % (len(placed), end))
    else:
        told = "journal: %d records, %d bytes up to its closed gate, %d bytes behind it"
        page.say(told % (len(placed), min(end + 1, len(data)), max(0, len(data) - end - 1)))
    values = f.values_of(placed)
    for at, it in enumerate(placed):
        for line in record_lines(it.record, values, page):
            page.say("%d at %d: %s" % (at, it.gate, line))
    show_sums(placed, values, page, options.roster)


def show_trace(data, page, options):
    """The records, and then the reads, which name writes by the ids of their updates."""
    trace = f.read_trace(data)
    page.say("trace of node %d: %d records, %d reads" % (trace.node, len(trace.texts), len(trace.reads)))
    placed = []
    for at, text in enumerate(trace.texts):
        try:
            placed.append(f.Placed(0, 0, f.read_record(text)))
        except f.IllFormed as fault:
            page.fault = "record %d: %s" % (at, fault)
            return
    values = f.values_of(placed)
    for at, it in enumerate(placed):
        for line in record_lines(it.record, values, page):
            page.say("%d: %s" % (at, line))
    for at, read in enumerate(trace.reads):
        page.say("read %d at %d records of %s: %d writes" % (at, read.length, page.key(read.key), len(read.answer)))
        for listed in read.answer:
            told = {False: "whose value isn't held", None: "a deletion"}.get(listed.shown) or bytes_line("value", listed.shown, page)
            page.say("  update %s: %s" % (page.hash(listed.id), told))


def record_lines(record, values, page):
    if isinstance(record, f.Birth):
        return ["birth of node %d, roster %s" % (record.node, page.hash(record.roster))]
    if isinstance(record, f.Conviction):
        return ["conviction by a " + proof_line(record.proof, page)]
    if isinstance(record, f.Held):
        return [bytes_line("value", record.value, page)]
    statement, who = {
        f.OwnPut: lambda: (record.update, "own "),
        f.OwnVoucher: lambda: (record.voucher, "own "),
        f.Foreign: lambda: (record.signed.statement, ""),
    }[type(record)]()
    lines = statement_lines(statement, values, page)
    return [who + lines[0]] + lines[1:]


def show_sums(placed, values, page, roster):
    """What the records come to: statements, convictions, leaves and the latest writes of each key."""
    own = sum(isinstance(it.record, (f.OwnPut, f.OwnVoucher)) for it in placed)
    page.say("own statements: %d%s" % (own, left_of(placed, own, roster)))
    convicted = sorted({f.convicted_by(it.record.proof) for it in placed if isinstance(it.record, f.Conviction)})
    page.say("convicted: %s" % (", ".join(map(str, convicted)) or "none"))
    updates = f.updates_of(placed)
    for it in f.leaves_of(updates):
        page.say("leaf of writer %d: %s, %s" % (it.writer, page.hash(it.id), it.name))
    for key, latest in sorted(f.latest_by_key(updates).items()):
        page.say("key %s: %s" % (page.key(key), ", ".join(latest_line(key, it, values) for it in latest)))


def latest_line(key, update, values):
    write = next(it for it in update.writes if it.key == key)
    if write.hash is None:
        return update.name + "!"
    return "%s=%s" % (update.name, cut(f.shown(values[write.hash])) if write.hash in values else "?")


def left_of(placed, own, roster):
    """How many statements are left to the node by its entry in the roster, if that is given."""
    if roster is None or not placed:
        return ""
    with open(roster, "rb") as file:
        data = file.read()
    birth = placed[0].record
    if f.sha256(data) != birth.roster:
        return ", and the roster is another than the journal's"
    heights = [it.height for it in f.read_roster(data) if it.node == birth.node]
    return "".join(", %d of %d left" % (2**it - own, 2**it) for it in heights)


def show_proof(data, page, options):
    proof = f.read_proof(data)
    page.say(proof_line(proof, page))
    halves = [proof.voucher] if isinstance(proof, f.Hollow) else [proof.first, proof.second]
    for half in halves:
        for line in statement_lines(half.statement, {}, page):
            page.say(line)
    if isinstance(proof, f.Hollow):
        page.say(bytes_line("text", proof.text, page))


def show_stream(data, page, options):
    """The frames of a stream. Its end is a fault where no frame stands."""
    stream = f.read_stream(data)
    page.say("stream: %d frames, %s" % (len(stream.frames), stream.ending))
    values = {f.sha256(it.payload): it.payload for it in stream.frames if it.tag == f.VALUE}
    for at, frame in enumerate(stream.frames):
        for line in frame_lines(frame, values, page):
            page.say("%d at %d: %s" % (at, frame.offset, line))


def frame_lines(frame, values, page):
    try:
        if frame.tag == f.PROOF:
            return [proof_line(f.read_proof(frame.payload), page)]
        if frame.tag == f.STATEMENT:
            return statement_lines(f.read_signed(frame.payload).statement, values, page)
    except f.IllFormed as fault:
        return ["a payload that isn't in its form, %s" % fault]
    if frame.tag == f.VALUE:
        return [bytes_line("value", frame.payload, page)]
    return ["end: %s" % ("there is more" if frame.payload == b"\1" else "nothing was left")]


def show_log(data, page, options):
    updates = f.read_log(data)
    page.say("log: %d updates" % len(updates))
    for it in updates:
        for line in statement_lines(it, {}, page):
            page.say(line)


SHOW = {
    "roster": show_roster,
    "hello": show_hello,
    "journal": show_journal,
    "proof": show_proof,
    "stream": show_stream,
    "trace": show_trace,
    "checkpoint": show_checkpoint,
    "log": show_log,
}


# Behind a journal's first gate stands a birth, of 35 bytes; a gate that is closed there is a stop's in the first append, or damage.
BIRTH_HEAD = b"\0\0\0\43\1"
LEAST_JOURNAL = 1 + 4 + 35 + 1
WHOLE = [
    ("roster", f.read_roster), ("hello", f.read_hello), ("proof", f.read_proof), ("trace", f.read_trace), ("checkpoint", f.read_checkpoint),
    ("log", f.read_log),
]


def kind_of(data):
    """The kind of a file: a journal by its first bytes, what reads whole, or a stream that has a frame. Else NoKind."""
    if len(data) <= 1 or (data[1:6] == BIRTH_HEAD and data[0] not in (f.STATEMENT, f.VALUE, f.END)):
        return "journal"
    faults = []
    for kind, read in WHOLE:
        try:
            read(data)
            return kind
        except f.IllFormed as fault:
            faults.append((fault.offset, kind, fault))
    stream = f.read_stream(data)
    if stream.frames:
        return "stream"
    if stream.ending.startswith("cut"):
        faults.append((len(data), "stream", "at 0: the first frame is cut short"))
    offset, kind, fault = max(faults, key=lambda it: it[0])
    # What goes wrong at its version or its kind is none of them.
    raise NoKind("it is no %s or %s" % (", ".join(KINDS[:-1]), KINDS[-1]) if offset < 2 else "read as a %s, %s" % (kind, fault))


def look(data, options):
    """The page of a file of the kind that is asked for, or found."""
    page = Page(options.whole)
    try:
        SHOW[options.kind or kind_of(data)](data, page, options)
    except (f.IllFormed, NoKind) as fault:
        page.fault = fault
    return page


# ---- answers to one question


def updates_in(data):
    """The updates of a journal, a stream or a log."""
    kind = kind_of(data)
    if kind == "journal":
        return f.updates_of(f.read_journal(data).records)
    if kind == "log":
        return f.read_log(data)
    if kind == "stream":
        statements = [f.read_signed(it.payload).statement for it in f.read_stream(data).frames if it.tag == f.STATEMENT]
        return [it for it in statements if isinstance(it, f.Update)]
    raise NoKind("a %s has no updates" % kind)


def show_ids(data, name, path):
    """Prints the ids of the updates of this name; they are several where their writer forked."""
    ids = [it.id.hex() for it in updates_in(data) if it.name == name]
    if not ids:
        say("no update %s stands in %s" % (name, path))
        return NO_WORDS
    if len(ids) > 1:
        say("%d updates have the name %s, since node %s forked" % (len(ids), name, name.split("/")[0]))
    print("\n".join(ids))
    return 0


def show_puts(data):
    for line in summary.put_lines(f.read_journal(data).records):
        print(line)
    return 0


def show_brief(data, options):
    """Prints the brief form of a journal, for a monitor; its state is the status."""
    roster = None
    if options.roster:
        with open(options.roster, "rb") as file:
            roster = file.read()
    try:
        found = summary.summary_of(f.read_journal(data))
        if found is None:
            print("now: no birth of a node stands in it up to its first closed gate")
            return summary.NOW
        state, lines = summary.brief_lines(found, roster, options.known)
    except f.IllFormed as fault:
        print("now: not in its form: %s" % fault)
        return summary.NOW
    print("\n".join(lines))
    return state


def cut_out(data, folder):
    """Puts each proof that stands in the file into the folder, and gives their names."""
    os.makedirs(folder, exist_ok=True)
    names = []
    for text in f.proofs_in(data):
        proof = f.read_proof(text)
        name = os.path.join(folder, "node-%d-%s-%d" % (f.convicted_by(proof), proof.kind, len(names)))
        with open(name, "wb") as out:
            out.write(text)
        names.append(name)
    return names


def update_name(word):
    if not re.fullmatch("[0-9]+/[0-9]+/[0-9]+", word):
        raise argparse.ArgumentTypeError("%s is no WRITER/SEQ/CLOCK" % word)
    return word


def nodes(word):
    if not re.fullmatch("[0-9]+(,[0-9]+)*", word):
        raise argparse.ArgumentTypeError("%s isn't numbers of nodes with commas between" % word)
    return [int(it) for it in word.split(",")]


def options_of(words):
    parser = Parser(__doc__)
    parser.add_argument("file", metavar="FILE")
    parser.add_argument("--kind", choices=KINDS)
    parser.add_argument("--whole", action="store_true")
    parser.add_argument("--roster", metavar="FILE")
    parser.add_argument("--journal", metavar="FILE")
    questions = parser.add_mutually_exclusive_group()
    questions.add_argument("--proofs", metavar="FOLDER")
    questions.add_argument("--id", metavar="WRITER/SEQ/CLOCK", type=update_name)
    questions.add_argument("--puts", action="store_true")
    questions.add_argument("--brief", action="store_true")
    parser.add_argument("--known", metavar="NODE,NODE", type=nodes, default=[])
    return parser.parse_args(words)


def shown(options):
    """Prints what the words ask for; the status."""
    with open(options.file, "rb") as file:
        data = file.read()
    if options.proofs:
        names = cut_out(data, options.proofs)
        print("\n".join(names) if names else "no proof stands in this file")
        return 0
    if options.id:
        return show_ids(data, options.id, options.file)
    if (options.puts or options.brief) and kind_of(data) != "journal":
        raise NoKind("it is no journal")
    if options.puts:
        return show_puts(data)
    if options.brief:
        return show_brief(data, options)
    page = look(data, options)
    for line in page.lines:
        print(line)
    if page.fault:
        print("not in its form: %s" % page.fault)
        return ILL_FORMED
    return 0


def main(words):
    options = options_of(words)
    signal.signal(signal.SIGPIPE, signal.SIG_DFL)
    try:
        return shown(options)
    except (f.IllFormed, NoKind) as fault:
        say("%s isn't in its form, %s" % (options.file, fault))
        return UNREADABLE if options.brief else ILL_FORMED
    except summary.OtherRoster as why:
        say("%s: %s" % (options.file, why))
    except OSError as why:
        say("%s: %s" % (why.filename, why.strerror))
    return UNREADABLE


if __name__ == "__main__":
    sys.exit(main(sys.argv[1:]))
