"""What happened, as a picture needs it: who wrote what above what, what contradicts each other, who is convicted.

A story is read off a journal, or off a schedule and the transcript that `depot replay` printed of it. Of the second it
is found without any bytes: what a node has accepted follows from what the transcript says that it took and refused.
Frames of `cut` and `flip` are told by their source alone, those of `raw` and vouchers that contradict each other not at
all, and what a stop left of a stream is told only once the stream is given again. The text of a checkpoint is told by
the label that has it: where a faulty member puts the same bytes, they are told as another value. Readers aren't told.
"""

from typing import Dict, List, NamedTuple, Optional

import formats as f


class NoStory(Exception):
    """Files have no story that a picture could tell."""


class Box(NamedTuple):
    """An update: its id (of any kind), its name, its parents, and what is said of it."""

    id: object
    writer: int
    name: str
    seq: int
    prev: Optional[object]
    entries: list
    writes: str
    note: str
    is_kept: bool  # accepted, and not only known from a proof


class Quarrel(NamedTuple):
    """Two statements that contradict each other; of a hollow proof, its voucher and its text."""

    first: object
    second: object
    kind: str


class Story(NamedTuple):
    title: str
    boxes: List[Box]
    quarrels: List[Quarrel]
    convicted: Dict[int, str]  # by node, what is said of it
    mine: Optional[int]  # the node whose journal it is


# ---- off a journal


def short(text, most=18):
    return text if len(text) <= most else text[:most] + ".."


def write_of(write, values, names):
    """A write in short: a receipt by the name of what it is for, and a checkpoint by the front of its hash."""
    kind, digest = f.reserved_for(write.key), write.key[-32:]
    if kind:
        return "receipt for %s" % names.get(digest, digest.hex()[:8]) if kind == "receipt" else "checkpoint %s" % digest.hex()[:8]
    held = values.get(write.hash)
    what = " deleted" if write.hash is None else " = " + ("?" if held is None else short(f.shown(held)))
    return short(f.shown(write.key)) + what


def box_of(update, values, names, note="", is_kept=True):
    prev = None if update.prev == f.NO_UPDATE else update.prev
    entries = [entry.id for entry in update.entries]
    writes = ", ".join(write_of(it, values, names) for it in update.writes)
    return Box(update.id, update.writer, update.name, update.seq, prev, entries, writes, note, is_kept)


def of_journal(data):
    """The story of a journal's records."""
    placed = f.read_journal(data).records
    values, updates = f.values_of(placed), f.updates_of(placed)
    vouched, names = vouched_in(placed), {it.id: it.name for it in updates}
    boxes = [box_of(it, values, names, vouched.get(it.id, "")) for it in updates]
    known = {box.id for box in boxes}
    quarrels, convicted = [], {}
    for it in placed:
        if not isinstance(it.record, f.Conviction):
            continue
        proof = it.record.proof
        convicted[f.convicted_by(proof)] = proof.kind
        for box in halves_of(proof, values, names):
            if box.id not in known:
                known.add(box.id)
                boxes.append(box)
        if isinstance(proof, f.Pair):
            first, second = (f.sha256(half.statement.body) for half in (proof.first, proof.second))
            quarrels.append(Quarrel(first, second, proof.kind))
    births = [it.record.node for it in placed if isinstance(it.record, f.Birth)]
    title = "the journal of node %d" % births[0] if births else "a journal without records"
    return Story(title, boxes, quarrels, convicted, births[0] if births else None)


def vouched_in(placed):
    """Who vouches for which update, as it is said beside it."""
    by_id = {}
    for it in placed:
        voucher = getattr(it.record, "voucher", None) or getattr(getattr(it.record, "signed", None), "statement", None)
        if isinstance(voucher, f.Voucher):
            for id in voucher.ids:
                by_id.setdefault(id, set()).add(voucher.writer)
    return {id: "vouched by %s" % ", ".join(map(str, sorted(nodes))) for id, nodes in by_id.items()}


def halves_of(proof, values, names):
    """The updates among the halves of a proof, as boxes that were not accepted."""
    halves = [] if isinstance(proof, f.Hollow) else [proof.first.statement, proof.second.statement]
    return [box_of(it, values, names, "known from a proof", False) for it in halves if isinstance(it, f.Update)]


# ---- off a schedule and its transcript


class Node:
    """What a correct node has, by what the transcript tells of it."""

    def __init__(self, number):
        self.number = number
        self.accepted, self.held, self.convicted = [], set(), {}
        self.own, self.waiting = 0, None


class Telling:
    """Follows a schedule line by line beside its transcript."""

    def __init__(self):
        self.boxes, self.values, self.vouchers = {}, {}, {}
        self.nodes, self.frames, self.hellos, self.quarrels = {}, {}, {}, []

    def past(self, ids):
        found, waiting = set(), list(ids)
        while waiting:
            at = waiting.pop()
            if at in self.boxes and at not in found:
                found.add(at)
                box = self.boxes[at]
                waiting += [it for it in [box.prev] if it is not None] + box.entries
        return found

    def leaves(self, node):
        prevs = {self.boxes[it].prev for it in node.accepted}
        return [it for it in node.accepted if it not in prevs]

    def add(self, id, writer, name, prev, entries, writes):
        self.boxes[id] = Box(id, writer, name, int(name.split("/")[1]), prev, entries, writes, "", True)

    def put(self, node, writes, name, values):
        """The node's next own update; what a stop left of a put before it is added first where its number was used."""
        if node.waiting and int(name.split("/")[1]) == node.own + 1:
            clock = 1 + max([int(self.boxes[it].name.split("/")[2]) for it in node.accepted] or [0])
            told, node.waiting = node.waiting, None
            self.put(node, told[0], "%d/%d/%d" % (node.number, node.own, clock), told[1])
        mine = [it for it in node.accepted if self.boxes[it].writer == node.number]
        past = self.past(mine[-1:])
        others = [it for it in self.leaves(node) if self.boxes[it].writer != node.number and it not in past]
        id = "%d.%d" % (node.number, node.own)
        self.add(id, node.number, name, mine[-1] if mine else None, others, writes)
        self.values[id] = values
        node.accepted.append(id)
        node.held.update(values)
        node.own, node.waiting = node.own + 1, None

    def accept(self, node, id):
        if id in node.accepted:
            return
        for other in node.accepted:
            kind = kind_between(self.boxes[other], self.boxes[id])
            if kind:
                self.convict(node, self.boxes[id].writer, Quarrel(other, id, kind))
        node.accepted.append(id)

    def convict(self, node, writer, quarrel):
        """A node convicts a writer, if it didn't before."""
        if writer not in node.convicted:
            node.convicted[writer] = quarrel
            self.quarrels += [] if quarrel in self.quarrels else [quarrel]

    def writer_of(self, label):
        """Who signed what a label names."""
        return self.boxes[label].writer if label in self.boxes else self.vouchers[label]

    def candidates(self, node, reader, leaves):
        past = self.past([it for it in leaves if it in node.accepted])
        return [it for it in node.accepted if self.boxes[it].writer != reader and it not in past]

    def bundle(self, node, hello, answer):
        """The frames of a bundle: so many proofs, vouchers and updates, and the values that no frame before has."""
        counts = dict(zip(answer[0::2], answer[1::2]))
        reader, leaves, known = hello
        frames = [("proof", it) for it in node.convicted.items() if it[0] not in known][: int(counts["proofs"])]
        frames += [None] * int(counts["vouchers"])
        sent = set()
        for id in self.candidates(node, reader, leaves)[: int(counts["updates"])]:
            frames.append(("update", id))
            for value in self.values[id]:
                if value in node.held and value not in sent:
                    sent.add(value)
                    frames.append(("value", value))
        return frames

    def give(self, node, frames, answer, refusals):
        """What a node takes of frames: those that it told of, but for the refused ones."""
        if answer[:1] != ["accepted"]:
            return
        taken = sum(int(it) for it in answer[1:6:2])
        for place, frame in enumerate(frames[:taken]):
            if frame is None:
                continue
            kind, what = frame
            refused = refusals.get(place)
            if refused is None and kind == "update":
                self.accept(node, what)
            elif refused is None and kind == "value":
                node.held.add(what)
            elif refused is None:
                self.convict(node, *what)
            elif kind == "update" and refused[:2] == ["11", "Forked"]:
                other = next((it for it in node.accepted if kind_between(self.boxes[it], self.boxes[what])), what)
                self.convict(node, self.boxes[what].writer, Quarrel(other, what, refused[2]))

    def event(self, words, answer, refusals):
        """One event of the schedule, with the words of its answer and the checks of refused frames by their place."""
        verb, *rest = words
        is_told = answer not in (["NoRef"], [])
        if verb in ("put", "puts", "receipt", "checkpoint", "sign"):
            node, writes, values = self.nodes[rest[0]], *written(verb, rest[1:])
            if "/" in "".join(answer[:1]):
                self.put(node, writes, "%s/%s" % (rest[0], answer[0]), values)
            elif answer[:1] == ["stopped"]:
                node.waiting = (writes, values)
        elif verb == "hello" and is_told:
            node = self.nodes[rest[0]]
            self.hellos[rest[1]] = (node.number, self.leaves(node), set(node.convicted))
        elif verb == "bundle" and answer[:1] == ["proofs"] and rest[1] in self.hellos:
            self.frames[rest[2]] = self.bundle(self.nodes[rest[0]], self.hellos[rest[1]], answer)
        elif verb == "give":
            self.give(self.nodes[rest[0]], self.frames.get(rest[1], []), answer, refusals)
        elif verb in ("update", "updates") and is_told:
            label, writer, _, _, prev = rest[:5]
            writes, values = written("puts" if verb == "updates" else "put", rest[5:-2])
            entries = [] if rest[-2] == "-" else rest[-2].split(",")
            self.add(label, int(writer), answer[0], None if prev == "-" else prev, entries, writes)
            self.values[label] = values
            self.frames[label] = [("update", label)] + [("value", it) for it in dict.fromkeys(values)]
        elif verb in ("cut", "flip"):
            self.frames[rest[0]] = self.frames.get(rest[1], [])
        elif verb == "join":
            self.frames[rest[0]] = self.frames.get(rest[1], []) + self.frames.get(rest[2], [])
        elif verb == "voucher":
            self.vouchers[rest[0]] = int(rest[1])
            self.frames[rest[0]] = [None]
        elif verb in ("proof", "hollow") and is_told:
            first, second = rest[-2:]
            quarrel = Quarrel(first, second, answer[0])
            self.frames[rest[0]] = [("proof", (self.writer_of(first), quarrel))]


def kind_between(one, other):
    """In which kind two updates contradict each other, the first of the table; None where they don't."""
    if one.writer != other.writer or one.id == other.id:
        return None
    if one.seq == other.seq:
        return "SameNumber"
    if one.prev == other.prev:
        return "SamePrev"
    clock = lambda box: int(box.name.split("/")[2])
    for low, high in [(one, other), (other, one)]:
        if high.prev == low.id and (high.seq <= low.seq or clock(high) <= clock(low)):
            return "Backward"
    return None


def written(verb, words):
    """What an event writes, in short, and its values in hex."""
    if verb == "receipt":
        return "receipt for %s" % ", ".join(dict.fromkeys(words[0].split(","))), [""]
    if verb in ("checkpoint", "sign"):
        return "checkpoint %s" % words[0], ["checkpoint %s" % words[0]]
    writes = words[0].split(",") if verb == "puts" else ["%s=%s" % (words[0], words[1])]
    shown, values = [], []
    for write in writes:
        key, mark, value = write.partition("=")
        if mark:
            value = "" if value == "-" else value
            values.append(value)
            shown.append("%s = %s" % (short(f.shown(bytes.fromhex(key))), short(f.shown(bytes.fromhex(value)))))
        else:
            shown.append("%s deleted" % short(f.shown(bytes.fromhex(key.rstrip("!")))))
    return ", ".join(shown), values


class Answer(NamedTuple):
    """An event's line in a transcript: the event's first word, the words of the answer, the checks of refused frames by their place."""

    verb: str
    words: List[str]
    refusals: Dict[int, List[str]]


def answers_of(transcript):
    """For each event of a transcript its line."""
    answers = []
    for line in transcript.splitlines():
        if line.startswith(" refused "):
            _, place, *check = line.split()
            answers[-1].refusals[int(place)] = check
        else:
            answers.append(Answer(line.split(" ")[0], line.partition(" ->")[2].split(), {}))
    return answers


def told_events(schedule, transcript):
    """Follows a schedule, and yields what is told after each event, with its words and those of its answer."""
    telling = Telling()
    events = []
    for line in schedule.splitlines():
        words = line.split()
        if words[0] == "node":
            telling.nodes[words[1]] = Node(int(words[1]))
        elif words[0] not in ("depot", "scheme", "faulty"):
            events.append(words)
    answers = answers_of(transcript)
    if [words[0] for words in events] != [it.verb for it in answers]:
        raise NoStory("the transcript isn't that of the schedule: its lines aren't those of the %d events" % len(events))
    for words, answer in zip(events, answers):
        telling.event(words, answer.words, answer.refusals)
        yield telling, words, answer.words


def of_schedule(schedule, transcript):
    """The story of a schedule, by the transcript that was printed of it."""
    telling = Telling()
    try:
        for telling, _, _ in told_events(schedule, transcript):
            pass
    except (IndexError, KeyError, ValueError):
        raise NoStory("these are no schedule and its transcript")
    convicted = {}
    for node in telling.nodes.values():
        for writer, quarrel in node.convicted.items():
            convicted[writer] = convicted.get(writer, quarrel.kind + " at") + " %d" % node.number
    boxes = []
    for box in telling.boxes.values():
        having = [str(it.number) for it in telling.nodes.values() if box.id in it.accepted]
        note = "at %s" % ", ".join(having) if having else "at no node"
        boxes.append(box._replace(note=note, is_kept=bool(having)))
    return Story("a schedule", boxes, telling.quarrels, convicted, None)


if __name__ == "__main__":
    print(__doc__)
