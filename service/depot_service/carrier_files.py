"""The files of a carrier's folder: named by what they hold, read with bounds, trusted in nothing.

A file is `hello-NODE-NUMBER-HASH` or `stream-NODE-NUMBER-HASH`: NODE has five digits, NUMBER fifteen (milliseconds of its writer's
clock, so that later ones are greater), and HASH is SHA-256 of what it holds. Whoever can write in the folder can write any of
them. One whose bytes have another hash is none, or isn't there whole yet: it is looked at again once its size or time changes.
"""

import itertools
import os
import re
import secrets
import stat
import time
from typing import Dict, List, NamedTuple, Optional, Tuple

import formats

HELLO, STREAM = "hello", "stream"
NAME = re.compile(r"(hello|stream)-([0-9]{5})-([0-9]{15})-([0-9a-f]{64})")
PART = re.compile(r"\.part-([0-9]{5})-[0-9a-f]{16}")
MOST_FILE = 4 << 20
MOST_LISTED = 100_000
AHEAD = 86_400_000
PART_SECONDS = 3_600.0


class Name(NamedTuple):
    """What a file's name says."""

    kind: str
    node: int
    number: int
    hash: str

    def text(self) -> str:
        return "%s-%05d-%015d-%s" % self


def read_name(text: str) -> Optional[Name]:
    """The name of a file of the carrier; None for any other."""
    found = NAME.fullmatch(text)
    return Name(found.group(1), int(found.group(2)), int(found.group(3)), found.group(4)) if found else None


class Files:
    """A carrier's folder. Each call may raise OSError: the folder isn't there, or can't be read or written."""

    def __init__(self, folder: str, me: int, clock=time.time):
        self.folder, self.me, self.clock = folder, me, clock
        self.number = 0
        # Of files that don't hold what their names say: their size and time when that was seen.
        self.unfit: Dict[Name, Tuple[int, int]] = {}

    def list(self) -> List[Name]:
        """The files with names of their form, in rising order of their numbers. Those of another day than today's clock allows are none."""
        bound = int(self.clock() * 1000) + AHEAD
        with os.scandir(self.folder) as entries:
            names = [read_name(it.name) for it in itertools.islice(entries, MOST_LISTED)]
        found = sorted((it for it in names if it and it.number <= bound), key=lambda it: (it.number, it.hash))
        self.unfit = {it: self.unfit[it] for it in found if it in self.unfit}
        return found

    def read(self, name: Name, most: int) -> Optional[bytes]:
        """What a file holds; None where it is gone, isn't whole, has more bytes, or holds something else."""
        try:
            file = os.open(self.path(name), os.O_RDONLY | os.O_NOFOLLOW | os.O_NONBLOCK)
        except OSError:
            return None
        try:
            return self.read_open(name, file, most)
        except OSError:
            return None
        finally:
            os.close(file)

    def read_open(self, name: Name, file: int, most: int) -> Optional[bytes]:
        """What an open file holds, as `read` says. A folder, a pipe or a device holds nothing."""
        state = os.fstat(file)
        mark = state.st_size, state.st_mtime_ns
        if not stat.S_ISREG(state.st_mode) or state.st_size > most or self.unfit.get(name) == mark:
            return None
        data = b""
        while len(data) < state.st_size:
            piece = os.read(file, state.st_size - len(data))
            if not piece:
                break
            data += piece
        if formats.sha256(data).hex() != name.hash:
            self.unfit[name] = mark
            return None
        return data

    def path(self, name: Name) -> str:
        """Where a file lies."""
        return os.path.join(self.folder, name.text())

    def write(self, kind: str, data: bytes) -> Name:
        """Writes a file, whole or not at all; its name. Its number is above that of each one before."""
        self.number = max(self.number + 1, int(self.clock() * 1000))
        name = Name(kind, self.me, self.number, formats.sha256(data).hex())
        part = os.path.join(self.folder, ".part-%05d-%s" % (self.me, secrets.token_hex(8)))
        try:
            with open(part, "xb") as file:
                file.write(data)
                file.flush()
                os.fsync(file.fileno())
            os.replace(part, self.path(name))
        except OSError:
            self.remove(part)
            raise
        return name

    def remove(self, path: str) -> None:
        """Removes a file that may be gone."""
        try:
            os.remove(path)
        except OSError:
            pass

    def drop(self, names: List[Name], keep_seconds: float, most_files: int, most_bytes: int) -> None:
        """Drops this member's old files: those over their time or beyond the bounds, hellos but the two newest, and parts.

        The newest hello stays, however old it is.
        """
        oldest = (self.clock() - keep_seconds) * 1000
        hellos, kept, size = 0, 0, 0
        for name in (it for it in reversed(names) if it.node == self.me):
            hellos += name.kind == HELLO
            kept, size = kept + 1, size + self.size(name)
            is_old = name.number < oldest or kept > most_files or size > most_bytes
            if (is_old and (name.kind, hellos) != (HELLO, 1)) or (name.kind == HELLO and hellos > 2):
                self.remove(self.path(name))
        self.drop_parts()

    def size(self, name: Name) -> int:
        """How many bytes a file has; 0 where it is gone."""
        try:
            return os.lstat(self.path(name)).st_size
        except OSError:
            return 0

    def drop_parts(self) -> None:
        """Drops what this member began to write and never ended, as it was killed."""
        with os.scandir(self.folder) as entries:
            for entry in itertools.islice(entries, MOST_LISTED):
                found = PART.fullmatch(entry.name)
                if found and int(found.group(1)) == self.me and self.clock() - entry.stat(follow_symlinks=False).st_mtime > PART_SECONDS:
                    self.remove(entry.path)
