"""How much of a node's life is used, and what is said of it before it ends."""

from typing import List, NamedTuple

MOST_RECORDS, MOST_BYTES, MOST_LEAVES = 131_072, 1_073_741_824, 4_096
SOON, LATE = 75, 90  # per cent


class Part(NamedTuple):
    """Something that a node has only so much of: how it is called, how many are used, and how many there are."""

    name: str
    used: int
    most: int

    @property
    def left(self) -> int:
        """How many are left."""
        return max(0, self.most - self.used)

    @property
    def per_cent(self) -> int:
        """How many of a hundred are used, rounded down; 100 where none is left."""
        return 100 if not self.left else 100 * self.used // self.most


def parts_of(status) -> List[Part]:
    """What a node's status says of its statements, its records, its bytes, and leaves of other writers."""
    return [
        Part("statements", status.statements, status.can_sign),
        Part("records", status.records, MOST_RECORDS),
        Part("bytes", status.journal_bytes, MOST_BYTES),
        Part("leaves of others", status.foreign_leaves, MOST_LEAVES),
    ]


def warning(part: Part) -> str:
    """The line that is said of a part; empty while under 75 of a hundred are used."""
    if not part.left:
        return "no %s are left: this node is read-only; move to the next roster (LIFE.md)" % part.name
    if part.per_cent >= LATE:
        return "%d%% of the %s are used, %d are left: move to the next roster now (LIFE.md)" % (part.per_cent, part.name, part.left)
    if part.per_cent >= SOON:
        return "%d%% of the %s are used, %d are left: plan the move to the next roster (LIFE.md)" % (part.per_cent, part.name, part.left)
    return ""


def warnings(status) -> List[str]:
    """The lines that are due now."""
    return [line for line in map(warning, parts_of(status)) if line]


class Watch:
    """Says each step of each part once: at 75, at 90 and at 100 of a hundred."""

    def __init__(self, say):
        self.say, self.told = say, {}

    def look(self, status) -> None:
        """Says what is new since the last look."""
        for part in parts_of(status):
            step = sum(part.per_cent >= it for it in (SOON, LATE, 100))
            if step > self.told.get(part.name, 0):
                self.say(warning(part))
            self.told[part.name] = max(step, self.told.get(part.name, 0))
