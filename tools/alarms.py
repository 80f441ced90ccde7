"""What a refused frame says against the node that took it: whether others have its key, or a proof against it.

`16 AgainstMe` comes behind the signatures of both statements, and so is true. `3 NotMine` comes before: anybody can make a
statement in a node's name, and have it refused so. Its signature, in the stream that was taken, says whether it's forged.
"""

import io
import os
import re
from typing import NamedTuple, Optional

import formats as f
import guard as g
import signatures

HEAD = 5


class Alarm(NamedTuple):
    """What is to be remembered of a refused frame, if anything (as Guard.ring takes it), and what is said of it."""

    ring: Optional[str]
    told: str


def open_stream(path: str):
    """Opens a stream that is a file; a pipe has nothing to be looked at once more, and would be waited for."""
    return open(path, "rb") if os.path.isfile(path) else io.BytesIO()


class Frames:
    """The frames of a stream in an open file, asked for in rising order."""

    def __init__(self, file):
        self.file, self.place, self.offset = file, 0, 0

    def at(self, place: int) -> Optional[f.Frame]:
        """The frame of this number; None where it isn't there whole."""
        while True:
            self.file.seek(self.offset)
            head = self.file.read(HEAD)
            length = int.from_bytes(head[1:], "big")
            if len(head) < HEAD or length > f.MOST_PAYLOAD:
                return None
            if self.place == place:
                payload = self.file.read(length)
                return f.Frame(self.offset, head[0], payload) if len(payload) == length else None
            self.place, self.offset = self.place + 1, self.offset + HEAD + length

    def close(self) -> None:
        self.file.close()


def judge_not_mine(frame: Optional[f.Frame], member: f.Member) -> Alarm:
    """What a frame says that was refused as `3 NotMine`; there may be none to look at."""
    is_own = signatures.is_own(member, frame.payload) if frame and frame.tag == f.STATEMENT else None
    if is_own is None:
        told = "in node %d's name: the frame isn't to be had any more, so its signature can't be looked at. Take the stream again, as a file"
        return Alarm(None, told % member.node)
    if not is_own:
        told = "in node %d's name, and not signed by its key: whoever made the stream forged it. It says nothing against this node"
        return Alarm(None, told % member.node)
    return Alarm(f.sha256(f.read_signed(frame.payload).statement.body).hex(), "in node %d's name, and signed by its key" % member.node)


def alarm_by(check: str, frame, member: f.Member) -> Optional[Alarm]:
    """What the check of a refused frame says against the node; `frame` gives the frame, and is asked where it matters."""
    if check == "16 AgainstMe":
        return Alarm(g.AGAINST_ME, "a proof against node %d, by two statements that its key signed" % member.node)
    return judge_not_mine(frame(), member) if check == "3 NotMine" else None


class Listener:
    """Hears the lines of takes, and finds alarms. `opened` gives the stream of a name as an open file."""

    def __init__(self, member: f.Member, opened):
        self.member, self.opened = member, opened
        self.begin(b"")

    def begin(self, name: bytes) -> None:
        """The refused frames that follow are those of this stream."""
        self.name, self.frames, self.is_told = name, None, False

    def hear(self, line: bytes) -> Optional[Alarm]:
        """The alarm in a line, its text with the stream and the frame in front. Of those of a stream that are forged the first is told."""
        take = re.match(rb"take ([^ ]+) -> ", line)
        if take:
            self.close()
            self.begin(take.group(1))
        refused = re.fullmatch(rb" refused ([0-9]+) (3 NotMine|16 AgainstMe)\n?", line)
        found = refused and alarm_by(refused.group(2).decode("ascii"), lambda: self.frame(int(refused.group(1))), self.member)
        if not found or (self.is_told and found.ring is None):
            return None
        self.is_told = True
        return found._replace(told="frame %s of %s is %s" % (refused.group(1).decode("ascii"), self.name.decode("utf-8", "replace"), found.told))

    def frame(self, place: int) -> Optional[f.Frame]:
        """The frame of this number, if its stream is still there."""
        try:
            if self.frames is None:
                self.frames = Frames(self.opened(self.name))
            return self.frames.at(place)
        except (OSError, ValueError):
            return None

    def close(self) -> None:
        """Closes the stream."""
        if self.frames:
            self.frames.close()


if __name__ == "__main__":
    print(__doc__)
