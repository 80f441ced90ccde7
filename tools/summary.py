"""What the records of a journal come to: what is left to its node, and its latest writes as puts. `look.py` prints both."""

from typing import List, NamedTuple, Optional

import formats as f

# What is left is told as little once it is under this part of the whole.
LITTLE = 10
WELL, SOON, NOW = range(3)
WORDS = {WELL: "well", SOON: "soon", NOW: "now"}


class OtherRoster(Exception):
    """The roster isn't the one that the journal was begun under, or it lacks the node."""


class Left(NamedTuple):
    """How much of a kind is used, and how much there is of it."""

    what: str
    used: int
    whole: int

    @property
    def state(self) -> int:
        left = self.whole - self.used
        return NOW if left <= 0 else SOON if left * LITTLE < self.whole else WELL

    @property
    def line(self) -> str:
        return "%s: %d of %d left" % (self.what, max(0, self.whole - self.used), self.whole)


class Summary(NamedTuple):
    """What a journal's records come to."""

    node: int
    roster: bytes
    own: int  # statements that the node signed
    records: int
    bytes: int
    convicted: List[int]
    wanted: int  # values that accepted updates name, and that aren't held


def summary_of(journal: f.Journal) -> Optional[Summary]:
    """The summary of a journal; None where no birth stands in it."""
    placed = journal.records
    if not placed or not isinstance(placed[0].record, f.Birth):
        return None
    birth = placed[0].record
    own = sum(isinstance(it.record, (f.OwnPut, f.OwnVoucher)) for it in placed)
    convicted = sorted({f.convicted_by(it.record.proof) for it in placed if isinstance(it.record, f.Conviction)})
    named = {write.hash for update in f.updates_of(placed) for write in update.writes} - {None}
    wanted = len(named - f.values_of(placed).keys())
    return Summary(birth.node, birth.roster, own, len(placed), journal.end, convicted, wanted)


def height_in(roster: bytes, summary: Summary) -> int:
    """The height of the node's key by its roster."""
    if f.sha256(roster) != summary.roster:
        raise OtherRoster("the roster is another than the journal's")
    heights = [it.height for it in f.read_roster(roster) if it.node == summary.node]
    if not heights:
        raise OtherRoster("the roster has no node %d, whose journal this is" % summary.node)
    return heights[0]


def brief_lines(summary: Summary, roster: Optional[bytes], known: List[int]):
    """The state of a node, and the lines of its brief form: the first has the state's word, and what calls for it."""
    limits = [Left("records", summary.records, f.MOST_RECORDS), Left("bytes", summary.bytes, f.MOST_JOURNAL)]
    if roster is not None:
        limits.insert(0, Left("statements", summary.own, 2 ** height_in(roster, summary)))
    calling = [(it.state, it.line) for it in limits if it.state != WELL]
    calling += [(NOW, "node %d is convicted" % it) for it in summary.convicted if it not in known]
    calling += [(SOON, "values that it wants: %d" % summary.wanted)] * (summary.wanted > 0)
    state = max([it for it, _ in calling], default=WELL)
    lines = [": ".join([WORDS[state]] + ["; ".join(said for it, said in calling if it == state)] * bool(calling))]
    lines.append("node %d, own statements: %d" % (summary.node, summary.own))
    lines += [it.line for it in limits]
    lines.append("convicted: %s" % (", ".join(map(str, summary.convicted)) or "none"))
    return state, lines + ["wanted values: %d" % summary.wanted]


# ---- a script of puts


def choice_lines(key, name, write, values) -> List[str]:
    """A write that isn't put, or of which somebody decides whether it is, as notes that put nothing."""
    if write.hash is None:
        return ["# %s deletes it" % name]
    if write.hash in values:
        return ["# %s writes" % name, "#put %s %s" % (f.shown(key), f.shown(values[write.hash]))]
    return ["# %s: %s writes a value that isn't held, of %d bytes, hash %s" % (f.shown(key), name, write.length, write.hash.hex())]


def lines_of_key(key, writes, values) -> List[str]:
    """The notes for the latest writes of a key, each given with the name of its update."""
    if len(writes) == 1:
        write = writes[0][1]
        if write.hash is None:
            return []
        if write.hash in values:
            return ["put %s %s" % (f.shown(key), f.shown(values[write.hash]))]
        return choice_lines(key, *writes[0], values)
    lines = ["# %s has %d latest writes: take the # from the put that shall stand" % (f.shown(key), len(writes))]
    return lines + [line for name, write in writes for line in choice_lines(key, name, write, values)]


def put_lines(records) -> List[str]:
    """The latest writes as notes for `text.py script`, by their keys; the same lines of each journal that has the same writes and values.

    A deletion that is alone is left out, and so are receipts and signatures of checkpoints. Several latest writes are comments to be decided.
    """
    values, lines = f.values_of(records), []
    for key, latest in sorted(f.latest_by_key(f.updates_of(records)).items()):
        if not f.reserved_for(key):
            writes = [(it.name, next(write for write in it.writes if write.key == key)) for it in latest]
            lines += lines_of_key(key, writes, values)
    return lines


if __name__ == "__main__":
    print(__doc__)
