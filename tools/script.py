"""The script of a run: what its lines put, which files they name, and how far it went by what stands in the journal."""

import hashlib
import os
import stat
import sys

import formats as f
import guard as g

PUTS = ("put", "puts", "receipt", "checkpoint", "sign")
SIGNS = PUTS + ("bundle",)
NAMES = ("hello", "bundle", "take", "export", "checkpoint", "sign", "trim", "tgive")
HELLO, STREAM, TRACE, CHECKPOINT, JOURNAL = "a hello", "a stream", "a trace", "a checkpoint", "a journal"
# Of a line that stores a file: which of its words names that, and what is stored.
STORES = {"hello": (0, HELLO), "bundle": (1, STREAM), "export": (0, TRACE), "checkpoint": (0, CHECKPOINT)}
KINDS = {b"\1\3": HELLO, b"\1\5": TRACE, b"\1\6": CHECKPOINT}


class Refused(Exception):
    """A script that won't be run."""


def bytes_of(text):
    """A script's bytes, also where they are no UTF-8: the program says so then."""
    return text.encode("utf-8", "surrogateescape")


def path_of(folder, name):
    """The path that the program opens for a name of a script, by its bytes."""
    return os.path.join(folder, os.fsdecode(bytes_of(name)))


def read_script(name):
    """A script's text; `-` is standard input."""
    if name != "-":
        with open(name, "rb") as file:
            return file.read().decode("utf-8", "surrogateescape")
    if sys.stdin is None:
        raise Refused("standard input is closed, and the script was to come from there")
    return sys.stdin.buffer.read().decode("utf-8", "surrogateescape")


class Script:
    """A script's text and its lines. What stands behind the last LF is no line, and is given to the program, which says so."""

    def __init__(self, text):
        self.text, self.lines = text, text.split("\n")[:-1]
        self.mark = hashlib.sha256(bytes_of(text)).hexdigest()
        self.begin()

    def begin(self):
        self.counted, self.sum = 0, hashlib.sha256()

    def has(self, verbs):
        """Whether a line has one of these commands."""
        return any(line.split(" ")[0] in verbs for line in self.lines)

    def rest(self, passed):
        """What is left of its text behind so many lines."""
        return "\n".join(self.text.split("\n")[passed:])

    def front(self, done):
        """The hash of its first lines, which is counted on while more of them are done."""
        if done < self.counted:
            self.begin()
        for line in self.lines[self.counted : done]:
            self.sum.update(bytes_of(line + "\n"))
        self.counted = max(self.counted, done)
        return self.sum.hexdigest()

    def goes_on_from(self, place):
        """Whether it is the script that stopped there, or one whose first lines are those that were done."""
        if place.script in ("-", self.mark):
            return place.script == self.mark
        return 0 < place.done <= len(self.lines) and place.front == self.front(place.done)


# ---- what lines put


def key_and_values(line):
    """Of a line that puts, its keys, each with its value or None for a deletion; of another line None. A receipt is a put, too."""
    verb, *words = line.split(" ")
    if verb == "receipt" and len(words) == 1:
        return [(b"receipt:".hex() + words[0], "")]
    if verb == "put" and len(words) == 2:
        return [(words[0], "" if words[1] == "-" else words[1])]
    if verb != "puts" or len(words) != 1:
        return None
    found = []
    for part in words[0].split(","):
        key, mark, value = part.partition("=")
        found.append((key, "" if value == "-" else value) if mark else (part.rstrip("!"), None))
    return found


def written_by(record):
    """The same of an own update that stands in the journal."""
    values = iter(record.values)
    return [(it.key.hex(), None if it.hash is None else next(values).hex()) for it in record.update.writes]


def is_signature(line):
    """Whether a line signs a checkpoint, and so may put the text of one under its key."""
    return line.split(" ")[0] in ("checkpoint", "sign") and len(line.split(" ")) == 2


def is_of(line, record):
    """Whether a line may have made this own update."""
    if is_signature(line):
        [write, *more], values = record.update.writes, record.values
        return not more and len(values) == 1 and write.key == f.checkpoint_key(values[0])
    return key_and_values(line) == written_by(record)


def is_passed(line, record):
    """Whether a line stands before the one that made this own update: it puts nothing, or it is a receipt or a signature that wasn't given."""
    may_fail = line.startswith("receipt ") or is_signature(line)
    return not is_of(line, record) if may_fail else key_and_values(line) is None


def place_in(lines, place, puts):
    """How many lines are done: those that were told of, and those up to the last own update that stands in the journal."""
    done = place.done
    for record in puts[place.puts :]:
        following = next((at for at in range(done, len(lines)) if not is_passed(lines[at], record)), None)
        if following is None or not is_of(lines[following], record):
            raise Refused("the journal has an update that isn't the script's next put; --anew begins the script again")
        done = following + 1
    if place.done < done and lines[done - 1].startswith("checkpoint "):
        # It wasn't told of: its put stands, and its file may not. It is made again.
        done -= 1
    return done


# ---- what lines store over


def files_of(line):
    """The files that a line names."""
    verb, *words = line.split(" ")
    return words if verb in NAMES else []


def stored_by(line):
    """The file that a line stores, and what that is then; None and None of another line."""
    verb, *words = line.split(" ")
    place, kind = STORES.get(verb, (len(words), None))
    return (words[place], kind) if place < len(words) else (None, None)


def is_same(path, other):
    """Whether two names lead to one file, by whatever links, or would. No file's name has a zero byte."""
    if "\0" in path:
        return False
    if os.path.realpath(path) == os.path.realpath(other):
        return True
    return os.path.exists(path) and os.path.exists(other) and os.path.samefile(path, other)


def kinds_of(head):
    """What a file may be that begins with these bytes, of what a line stores: a front of one that a stop left, too."""
    if head.startswith(g.BIRTH):
        return [JOURNAL]
    if head[:2] in KINDS:
        return [KINDS[head[:2]]]
    if head == b"\1":
        return [*KINDS.values(), STREAM]
    is_frame = 1 <= head[0] <= 4 and int.from_bytes(head[1:5].ljust(4, b"\0"), "big") <= f.MOST_PAYLOAD
    return [STREAM] if is_frame else []


def refuse_loss(number, name, path, kind):
    """Refuses a line that stores over a file which is none of the kind that it stores, and isn't empty."""
    told = "line %d of the script would store %s over %s" % (number, kind, name)
    try:
        if not stat.S_ISREG(os.stat(path).st_mode):
            return
        with open(path, "rb") as file:
            head = file.read(len(g.BIRTH))
    except PermissionError as why:
        raise Refused("%s, and what that is can't be seen: %s" % (told, why.strerror))
    except OSError:
        # Nothing is there, or the program can't store there either, and says so.
        return
    found = kinds_of(head) if head else [kind]
    if kind not in found:
        raise Refused("%s, which is %s: that would be lost" % (told, found[0] if found else "none"))


def refuse_line(number, line, folder, own, read):
    """Refuses a line that names a file of the node itself, or stores over what the run reads, a node's journal or another's file."""
    stored, kind = stored_by(line)
    paths = [path_of(folder, name) for name in files_of(line)]
    for name, path in zip(files_of(line), paths):
        if any(is_same(path, it) for it in own):
            raise Refused("line %d of the script names %s, which is the node's own" % (number, name))
    if kind is None or "\0" in stored:
        return
    path = path_of(folder, stored)
    if any(is_same(path, it) for it in read):
        raise Refused("line %d of the script stores over %s, which the run reads" % (number, stored))
    if os.path.basename(os.path.realpath(path)) in (g.JOURNAL, g.KEPT, g.LOCK):
        raise Refused("line %d of the script stores over %s, which has the name of a node's journal" % (number, stored))
    if len(paths) > 1 and is_same(*paths):
        raise Refused("line %d of the script stores over %s, which it reads: the hello would be gone" % (number, stored))
    refuse_loss(number, stored, path, kind)


def refuse_files(lines, folder, own, read):
    """Refuses a script by the first of its lines that names what it must not. Each file is looked at once."""
    seen = set()
    for number, line in enumerate(lines, 1):
        if files_of(line) and line not in seen:
            seen.add(line)
            refuse_line(number, line, folder, own, read)


if __name__ == "__main__":
    print(__doc__)
