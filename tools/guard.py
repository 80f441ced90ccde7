"""What is remembered of a node's journal, and whether the journal that lies there may be run.

Who runs a journal that is older than what was signed with it makes the node a liar. So whoever runs one, be it
`tools/node.py`, a program over `bindings/depot.py` or a service, has a guard:

    guard = Guard(folder, Owner(1, roster_hash, "roster"), "seed")
    guard.begin()           # locks, and raises Unfit where the journal must not be run
    ..                      # the node runs
    guard.note()            # now and then, and at the end: remembers the journal as it is now
    guard.close()

A *note* is a file beside the journal, `depot.journal.kept`, and once more beside the seed, `SEEDFILE.node-ID.kept`, so
that it isn't put back together with one folder. It has the node and the roster of the journal, how long that was up to
its closed gate, its hash, how many statements of the node it had, how far a script went, which members are convicted,
and whether somebody else has the node's key. A journal is held against each note, and where one note can't be written
the other is. Nothing is noted of a journal that isn't the node's by the record of its birth.
"""

import contextlib
import dataclasses
import errno
import fcntl
import hashlib
import itertools
import os
import re
import sys
from typing import List, NamedTuple, Optional, Tuple

import formats as f

JOURNAL = "depot.journal"
KEPT, LOCK = JOURNAL + ".kept", JOURNAL + ".lock"
NEW = ".new"
LOST, CONVICTED = '(OPERATING, "A lost journal")', '(OPERATING, "A convicted node")'
BIRTH, BIRTH_END = b"\1\0\0\0\x23\1", 40
AGAINST_ME = "AgainstMe"
TOLD_OF_PROOF = "this node is convicted: whoever has the proof refuses what it signs from now on, so that is lost to the others " + CONVICTED
TOLD_OF_ANOTHER = (
    "somebody has a statement under this node's key that its journal lacks: that is an old copy, or the seed is stolen, and what it signs now "
    "may convict it " + LOST
)
BESIDE_JOURNAL = "see that its folder has room and that this user may write there"
BESIDE_SEED = (
    "beside the seed it is remembered how long the journal was, so that a node's folder that was put back is refused. Let this user write in "
    "that folder, or keep the seed in one where it may"
)


class Unfit(Exception):
    """A journal that must not be run, or can't be guarded; the text says why."""


class Locked(Unfit):
    """Another run has the folder or the seed: it may be tried again."""


class Lost(Unfit):
    """The journal, or what is remembered of it, is damaged, lost or old: nobody may go on without a look."""


class Unkept(Unfit):
    """Nothing can be remembered: there is no room, or no right to write."""


class Owner(NamedTuple):
    """Whose journal it has to be: the node, its roster's hash of 32 bytes, and how that roster is called where it is told of."""

    node: int
    roster: bytes
    name: str = "the roster"


def say_on_stderr(text: str) -> None:
    """Says something to who looks on."""
    if sys.stderr is not None:
        print("guard: %s" % text, file=sys.stderr, flush=True)


def told_of(why: BaseException) -> str:
    """What is said of a fault of the system: the file, and what is wrong with it."""
    return "%s: %s" % (why.filename, why.strerror) if getattr(why, "filename", None) else str(why)


# ---- notes


@dataclasses.dataclass
class Place:
    """How far a script went: its hash, that of its lines that are done, how many these are, and the node's own updates then."""

    script: str = "-"
    front: str = "-"
    done: int = 0
    puts: int = 0


@dataclasses.dataclass
class Note:
    """What is remembered of a journal. Where a note of an earlier version doesn't say, node is 0 and signed is -1."""

    length: int = 0
    hash: str = "-"
    node: int = 0
    roster: str = "-"
    signed: int = -1  # how many statements of the node it has
    serial: int = 0  # the greater, the later
    convicted: Tuple[int, ...] = ()
    alarm: str = "-"  # AgainstMe, or the id of a statement that the node signed and its journal lacks
    place: Place = dataclasses.field(default_factory=Place)

    def text(self) -> str:
        """Lines of a name and a word."""
        words = {**dataclasses.asdict(self), **dataclasses.asdict(self.place)}
        words["convicted"] = ",".join(map(str, self.convicted)) or "-"
        del words["place"]
        return "".join("%s %s\n" % it for it in words.items())

    def is_later(self, other: "Note") -> bool:
        """Whether it was written later; of notes that don't say, whether it is of a longer journal."""
        return (self.serial, self.length) > (other.serial, other.length)


def read_note(text: str) -> Note:
    """The note with this text; KeyError or ValueError where it is none."""
    words = dict(line.split(" ") for line in text.splitlines())
    names = words.get("convicted", "-")
    note = Note(
        length=int(words["length"]), hash=words.get("hash", "-"), node=int(words.get("node", 0)), roster=words.get("roster", "-"),
        signed=int(words.get("signed", -1)), serial=int(words.get("serial", 0)), alarm=words.get("alarm", "-"),
        convicted=() if names == "-" else tuple(map(int, names.split(","))),
        place=Place(words.get("script", "-"), words.get("front", "-"), int(words["done"]), int(words["puts"])),
    )
    if not re.fullmatch("-|AgainstMe|[0-9a-f]{64}", note.alarm) or min(note.length, note.place.done, note.place.puts) < 0:
        raise ValueError(text)
    return note


def note_at(path: str) -> Optional[Note]:
    """The note in a file; None where there is no file."""
    try:
        with open(path, encoding="ascii") as file:
            return read_note(file.read())
    except FileNotFoundError:
        return None


def write_beside(path: str, note: Note) -> None:
    """Writes beside a note, and syncs, what is to take its place."""
    with open(path + NEW, "w", encoding="ascii") as file:
        file.write(note.text())
        file.flush()
        os.fsync(file.fileno())


def write_note(path: str, note: Note) -> None:
    """Writes a note, whole or not at all."""
    write_beside(path, note)
    os.replace(path + NEW, path)


# ---- the journal


class Journal:
    """A journal's file, read up to its closed gate as it grows. `lacking` is the id of a statement to look for."""

    def __init__(self, path: str):
        self.path, self.lacking = path, "-"
        self.forget()

    def forget(self) -> None:
        """Begins as nothing was read."""
        self.gate, self.sum = 0, hashlib.sha256()
        self.signed, self.convictions, self.has_lacking = 0, [], False

    def size(self) -> Optional[int]:
        """How many bytes the file has; None where there is none."""
        try:
            return os.stat(self.path).st_size
        except FileNotFoundError:
            return None

    def is_begun(self) -> bool:
        """Whether it may have records: a file of at most one byte has none."""
        return (self.size() or 0) > 1

    def birth(self) -> f.Birth:
        """The record of its birth."""
        with open(self.path, "rb") as file:
            data = file.read(BIRTH_END)
        if data[:1] != b"\1":
            raise Lost("%s doesn't begin with 01: the program would begin a new journal over it %s" % (self.path, LOST))
        try:
            if data.startswith(BIRTH):
                return f.read_record(data[5:])
        except f.IllFormed:
            pass
        raise Lost("%s doesn't begin with the birth of a node: it is no journal, or is damaged %s" % (self.path, LOST))

    def read_on(self) -> None:
        """Reads the records behind those that were read: a record ends where the next gate stands, open or closed."""
        with open(self.path, "rb") as file:
            file.seek(self.gate)
            data = file.read()
        behind = 0
        for start, behind in f.spans_of(data):
            self.see(f.read_record(data[start + 5 : behind], self.gate + start + 5))
            self.sum.update(data[start:behind])
        self.gate += behind

    def see(self, record: f.Record) -> None:
        """Takes note of a record that was read."""
        if isinstance(record, f.Conviction):
            self.convictions.append(record.proof)
        elif isinstance(record, (f.OwnPut, f.OwnVoucher)):
            self.signed += 1
            if self.lacking != "-":
                body = record.update.body if isinstance(record, f.OwnPut) else record.voucher.body
                self.has_lacking = self.has_lacking or f.sha256(body).hex() == self.lacking

    def hash_of(self, length: int) -> str:
        """The hash of its first bytes."""
        with open(self.path, "rb") as file:
            return hashlib.sha256(file.read(length)).hexdigest()


# ---- locks


def lock(path: str, mode: str):
    """A file that this process has locked until it closes it; None where another one has. OSError where it can't be locked."""
    file = open(path, mode)
    try:
        fcntl.flock(file, fcntl.LOCK_EX | fcntl.LOCK_NB)
        return file
    except OSError as why:
        file.close()
        if why.errno in (errno.EWOULDBLOCK, errno.EACCES):
            return None
        raise OSError(why.errno, why.strerror, path)


def is_locked(path: str) -> bool:
    """Whether another process has a file locked, or its file system knows no locks."""
    with contextlib.suppress(OSError), open(path, "rb") as file:
        try:
            fcntl.flock(file, fcntl.LOCK_SH | fcntl.LOCK_NB)
        except OSError:
            return True
    return False


# ---- the guard


class Guard:
    """Guards the journal of a folder. Without an owner it knows the note beside the journal alone, and serves for `check`."""

    def __init__(self, folder: str, owner: Optional[Owner] = None, seed_file: Optional[str] = None, journal: Optional[Journal] = None,
                 say=say_on_stderr):
        self.folder, self.owner, self.say = folder, owner, say
        self.seed_file = seed_file if owner and seed_file and os.path.isfile(seed_file) else None
        self.journal = journal or Journal(os.path.join(folder, JOURNAL))
        self.paths = [os.path.join(folder, KEPT)]
        if self.seed_file:
            self.paths.append("%s.node-%d.kept" % (os.path.realpath(seed_file), owner.node))
        self.notes, self.damaged, self.pending, self.now = {}, [], [], Note()
        self.held, self.faults = [], {}

    def files(self) -> List[str]:
        """The files of the guard and the journal, which nothing else may write."""
        return [self.journal.path, os.path.join(self.folder, LOCK)] + [it + end for it in self.paths for end in ("", NEW)]

    # ---- what is remembered

    def load(self) -> None:
        """Reads the notes. The latest one says how far a script went; alarms and convictions are those of all."""
        self.notes, self.damaged, self.now = {}, [], Note()
        for path in self.paths:
            try:
                note = note_at(path)
            except (KeyError, ValueError):
                self.damaged.append(path)
                continue
            if note:
                self.notes[path] = note
        for note in self.notes.values():
            if note.is_later(self.now):
                self.now.serial, self.now.length, self.now.place = note.serial, note.length, dataclasses.replace(note.place)
            self.now.convicted = tuple(sorted({*self.now.convicted, *note.convicted}))
            if note.alarm != "-" and self.now.alarm != AGAINST_ME:
                self.now.alarm = note.alarm
        self.journal.lacking = self.now.alarm
        self.load_pending()

    def load_pending(self) -> None:
        """Reads what a run wrote beside the notes and was stopped before it noted."""
        self.pending = []
        for path in self.paths:
            try:
                note = note_at(path + NEW)
            except (KeyError, ValueError, OSError):
                continue
            if note and note.is_later(self.now):
                self.pending.append(note)

    def adopt_pending(self) -> None:
        """Notes where a run began that was stopped before it noted, if it did something: the journal has grown since."""
        begun = [it for it in self.pending if it.length < self.journal.gate and (not it.length or self.fits(it))]
        if begun:
            self.now.place, self.now.serial = begun[0].place, begun[0].serial
            self.note()

    # ---- whether the journal may be run

    def begin(self, is_first: bool = False) -> None:
        """Locks the folder and the seed, and refuses a journal that the node must not go on with. Nothing is noted.

        With `is_first` a folder without a journal is let through, and one whose journal has no statement of the node yet.
        Where that was begun under another roster it is set aside.
        """
        self.look(is_first)
        self.lock()
        try:
            self.look(is_first)
            if self.journal.is_begun():
                self.compare()
                self.say_what_lacks()
                self.adopt_pending()
                if is_first:
                    self.begin_again()
            self.see_convictions()
        except BaseException:
            self.close()
            raise

    def check(self) -> List[str]:
        """The same, and changes nothing: what each note lacks that isn't as new as the journal."""
        self.look(False)
        for path, what in self.locks():
            if is_locked(path):
                raise Locked("another run works %s: look when it is done" % what)
        self.compare()
        return [self.lack_of(it) for it in self.paths if self.lack_of(it)]

    def look(self, is_first: bool) -> None:
        """Looks whose journal lies there, before a file is made in the folder."""
        if not os.path.isdir(self.folder):
            raise Unfit("there is no folder %s" % self.folder)
        self.load()
        if self.journal.is_begun():
            self.refuse_another(self.journal.birth(), is_first)
        else:
            self.refuse_none(is_first)

    def refuse_none(self, is_first: bool) -> None:
        """Refuses a folder without a journal, but at the first run of a node of whose journal nothing is remembered."""
        size = self.journal.size()
        told = "there is no %s" % self.journal.path if size is None else "%s has %d bytes, and no record" % (self.journal.path, size)
        for path in self.damaged:
            raise Lost("%s, and %s, which says whether there was one, can't be read %s" % (told, path, LOST))
        for path, note in self.notes.items():
            if note.length and note.signed:
                lost = "%s, and by %s the node had one of %d bytes: another folder, or a lost journal, which can't be begun again %s"
                raise Lost(lost % (told, path, note.length, LOST))
        if not is_first:
            raise Unfit("%s: is this the node's folder? The first run of a node takes --first" % told)

    def refuse_another(self, birth: f.Birth, is_first: bool) -> None:
        """Refuses the journal of another node, one under another roster, and a note that is of another journal than this."""
        path, roster = self.journal.path, birth.roster.hex()
        if self.owner and birth.node != self.owner.node:
            raise Unfit("%s is that of node %d, and this is node %d" % (path, birth.node, self.owner.node))
        if self.owner and birth.roster != self.owner.roster and not is_first:
            told = "%s was begun under the roster %s, and %s is %s. Where it has no statement of the node yet, --first begins it anew"
            raise Unfit(told % (path, roster[:16], self.owner.name, self.owner.roster.hex()[:16]))
        for name, note in self.notes.items():
            if note.node not in (0, birth.node) or note.roster not in ("-", roster):
                told = "%s is of a journal of node %d under the roster %s, and %s is of node %d under %s: one of the two is in a wrong place"
                raise Unfit(told % (name, note.node, note.roster[:16], path, birth.node, roster[:16]))

    def compare(self) -> None:
        """Holds the journal against each note."""
        try:
            self.journal.read_on()
        except f.IllFormed as fault:
            raise Lost("%s isn't in its form, %s %s" % (self.journal.path, fault, LOST))
        notes = {path: note for path, note in self.notes.items() if note.length}
        fitting = [it for it in notes if self.fits(notes[it])]
        self.refuse_two(notes, fitting)
        for path in (it for it in notes if it not in fitting):
            self.refuse_by(path, notes[path])
        if self.damaged and not fitting:
            told = "%s can't be read, so nothing says whether %s is the newest. Remove it if you know that no other was run"
            raise Lost(told % (self.damaged[0], self.journal.path))
        if self.journal.has_lacking:
            self.now.alarm = "-"

    def fits(self, note: Note) -> bool:
        """Whether the journal is the one of a note, or has grown from it."""
        return note.length <= self.journal.gate and self.journal.hash_of(note.length) == note.hash

    def refuse_two(self, notes, fitting) -> None:
        """Refuses a node of which two journals were run: two notes that can't be of one."""
        for one, two in itertools.permutations(notes, 2):
            is_same_length = notes[one].length == notes[two].length and notes[one].hash != notes[two].hash
            if is_same_length or (one in fitting and two not in fitting and notes[two].length <= self.journal.gate):
                told = "two journals were run with this seed: by %s and by %s they differ in the first %d bytes %s"
                raise Lost(told % (one, two, notes[two].length, LOST))

    def refuse_by(self, path: str, note: Note) -> None:
        """Refuses a journal that isn't the one of a note."""
        if note.length > self.journal.gate:
            told = "%s has %d bytes of records, and by %s it had %d: an old copy, or a damaged gate %s"
            raise Lost(told % (self.journal.path, self.journal.gate, path, note.length, LOST))
        told = "%s isn't the journal that was here: by %s its first %d bytes were others %s"
        raise Lost(told % (self.journal.path, path, note.length, LOST))

    def lack_of(self, path: str) -> str:
        """What a note lacks: it is absent or no note, or older than the journal; no text where it lacks nothing."""
        if path in self.damaged:
            return "%s can't be read" % path
        if path not in self.notes:
            return "%s isn't there" % path
        length = self.notes[path].length
        return "" if length == self.journal.gate else "%s is behind: it has %d bytes of %d" % (path, length, self.journal.gate)

    def say_what_lacks(self) -> None:
        """Says of a note that isn't there or is none that nothing was compared with it; of a journal that is seen first, nothing."""
        for path in (it for it in self.paths if self.notes and it not in self.notes):
            self.say("%s: so %s isn't held against it this time" % (self.lack_of(path), self.journal.path))

    def begin_again(self) -> None:
        """Lets a first run through where the journal has no statement of the node; one under another roster is set aside."""
        journal, roster = self.journal, self.journal.birth().roster
        if journal.signed:
            raise Unfit("%s is there already, with statements of the node: --first begins a journal" % journal.path)
        if roster == self.owner.roster:
            return
        self.now = Note(serial=self.now.serial + 1)
        self.each(lambda path: write_note(path, self.now))
        aside = "%s.of-roster-%s" % (journal.path, roster.hex()[:16])
        os.replace(journal.path, aside)
        journal.forget()
        self.say("the journal under the roster %s has no statement of the node, and is %s now" % (roster.hex()[:16], aside))

    def refuse_alarm(self) -> None:
        """Refuses a node that must sign no more: others hold a proof against it, or a statement that its journal lacks."""
        if self.now.alarm != "-":
            raise Unfit(told_of_alarm(self.now.alarm))

    # ---- locks

    def locks(self):
        """What is locked while a node runs, and where a run is then: the folder's lock, and the seed, which copies of the folder share."""
        yield os.path.join(self.folder, LOCK), "in the folder %s" % self.folder
        if self.seed_file:
            yield self.seed_file, "with the seed %s" % self.seed_file

    def lock(self) -> None:
        """Locks the folder and the seed until this is closed, or the process ends, however it ends."""
        for path, what in self.locks():
            try:
                held = lock(path, "rb" if path == self.seed_file else "ab")
            except OSError as why:
                if path != self.seed_file:
                    raise
                self.say("%s, so a copy of the folder that runs at the same time isn't refused" % told_of(why))
                continue
            if held is None:
                self.close()
                raise Locked("another run works %s" % what)
            self.held.append(held)

    def close(self) -> None:
        """Lets go of the locks."""
        while self.held:
            self.held.pop().close()

    # ---- what is noted

    def prepare(self) -> None:
        """Writes beside each note where a run begins, so that one that is stopped before it notes is remembered. Refuses where it can't."""
        if self.journal.is_begun():
            self.remember()
        self.now.serial += 1
        if not self.each(lambda path: write_beside(path, self.now)):
            raise Unkept("nothing can remember how long the journal is, so the node isn't run")

    def withdraw(self) -> None:
        """Takes back what was prepared: the run did nothing."""
        for path in self.paths:
            with contextlib.suppress(OSError):
                os.remove(path + NEW)

    def has_grown(self) -> bool:
        """Whether the journal has more records than it had when it was read last."""
        gate = self.journal.gate
        try:
            if self.journal.is_begun():
                self.journal.read_on()
        except (OSError, f.IllFormed):
            pass
        return self.journal.gate > gate

    def note(self) -> None:
        """Remembers the journal as it is now. A note that can't be written is told of, and changes nothing else."""
        try:
            if self.journal.is_begun():
                self.journal.read_on()
                self.remember()
                self.see_convictions()
        except (OSError, f.IllFormed) as why:
            self.say("%s can't be read on: %s" % (self.journal.path, told_of(why)))
            return
        self.now.serial += 1
        self.each(lambda path: write_note(path, self.now))

    def remember(self) -> None:
        """Takes over what the journal says."""
        journal, birth = self.journal, self.journal.birth()
        self.now.length, self.now.hash, self.now.signed = journal.gate, journal.sum.hexdigest(), journal.signed
        self.now.node, self.now.roster = birth.node, birth.roster.hex()

    def each(self, write) -> bool:
        """Writes for each note, and says once of one that can't be written. Whether one was written."""
        is_done = False
        for path in self.paths:
            try:
                write(path)
                is_done = True
                self.faults.pop(path, None)
            except OSError as why:
                if self.faults.get(path) != why.errno:
                    self.say("%s can't be written: %s; %s" % (path, why.strerror, BESIDE_JOURNAL if path == self.paths[0] else BESIDE_SEED))
                self.faults[path] = why.errno
        return is_done

    # ---- alarms

    def see_convictions(self) -> None:
        """Says of each member whose conviction is new in the journal."""
        for proof in self.journal.convictions:
            node = f.convicted_by(proof)
            if node not in self.now.convicted:
                self.now.convicted = tuple(sorted({*self.now.convicted, node}))
                self.say("node %d is convicted since now: %s %s" % (node, proof.kind, CONVICTED))

    def ring(self, alarm: str) -> None:
        """Remembers that others hold a proof against the node (AgainstMe), or a statement of its own that its journal lacks (its id)."""
        if self.now.alarm != AGAINST_ME:
            self.now.alarm = alarm
        self.say(told_of_alarm(alarm))


def told_of_alarm(alarm: str) -> str:
    """What is said of an alarm."""
    return TOLD_OF_PROOF if alarm == AGAINST_ME else TOLD_OF_ANOTHER


if __name__ == "__main__":
    print(__doc__)
