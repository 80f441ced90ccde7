"""Depot in a Python process, by ctypes over a shared object that is linked of the static library (bindings/run.sh).

    lib = depot.load("./libdepot.so")
    with depot.open_node(lib, "one", "roster", 1, 12, "seed", is_first=True) as node:
        node.put({b"color": b"blue"})
        print(node.get(b"color"))

A node is in memory, and its journal keeps what it signs: a JournalFile, or another Journal, as one over a database. Each call
keeps the records that it adds before it answers, and there is no order to keep to: what can't be done raises. It stands alone
with depot_messages.py, and tools/guard.py, tools/alarms.py and tools/formats.py of the repository.

What is raised: where the node doesn't do what was asked, a NotDone with a name (Spent, Full, Unknown ..); BadRequest, where
it isn't in its form; at a start BadJournal or WrongIdentity; NoMemory; Closed, once the node is. All of these are Refused.
guard.Unfit comes before a start: the journal of the folder must not be run.
"""
import ctypes
import fcntl
import io
import os
import sys
import threading
import time

HERE = os.path.dirname(os.path.abspath(__file__))
sys.path += [HERE, os.path.join(HERE, os.pardir, "tools")]
import alarms  # noqa: E402
import depot_messages as m  # noqa: E402
import formats  # noqa: E402
import guard  # noqa: E402
from depot_messages import (  # noqa: E402,F401
    BadRequest, Full, IdTaken, IllFormed, Malformed, NotDone, NothingAccepted, OtherRoster, Refused, Spent, TooManyLeaves, TooManyTips, Unknown,
    ValueNotHeld,
)

LENGTH, COPY, RECORDS_LENGTH, RECORDS_COPY = 0, 1, 2, 3
ROSTER, KEY, START, END, CLEAR, MESSAGE, RECORDS = 4, 5, 6, 7, 8, 9, 10
ABI = 1
INPUT = 2
NO_MEMORY = 6
NOT_LAWFUL = 9
IDENTITY = 10
ORDER = 11


class BadJournal(Refused):
    """No node is started: the journal is damaged, or isn't lawful."""


class WrongIdentity(Refused):
    """No node is started: the key isn't the roster's, or the journal is of another node or roster."""


class NoMemory(Refused):
    """No memory was found. What a message asked may stand: ask what the node has."""


class Closed(Refused):
    """The node takes no more calls: it was closed, or its records couldn't be kept."""


class WrongThread(Refused):
    """A node stays on the thread that made it."""


REFUSALS = {INPUT: BadRequest, NO_MEMORY: NoMemory, NOT_LAWFUL: BadJournal, IDENTITY: WrongIdentity, ORDER: Closed}
# What is said where the library's answer has no words.
REASONS = {INPUT: "it isn't in its form", NO_MEMORY: "no memory was found", ORDER: "there is no node"}


def refusal(status, words, what=""):
    """What is raised for a status of a call."""
    return REFUSALS.get(status, Refused)(what + (words or REASONS.get(status, "status %d" % status)))


class Judged(ctypes.Structure):
    _fields_ = [("status", ctypes.c_uint32), ("node", ctypes.c_uint32), ("kind", ctypes.c_uint32)]


def load(path):
    """The library of a shared object."""
    lib = ctypes.CDLL(path)
    if not hasattr(lib, "depot_c_abi") or lib.depot_c_abi() != ABI:
        raise OSError("%s: the library has another ABI than %d" % (path, ABI))
    size, number = ctypes.c_size_t, ctypes.c_uint64
    lib.depot_c_size.restype = lib.depot_c_align.restype = size
    lib.depot_c_init.argtypes, lib.depot_c_init.restype = [ctypes.c_void_p], None
    lib.depot_c_call.argtypes = [ctypes.c_void_p, ctypes.c_uint32, number, ctypes.c_char_p, size, ctypes.c_char_p, size]
    lib.depot_c_call.restype = number
    lib.depot_c_judge.argtypes = [ctypes.c_char_p, size, ctypes.c_char_p, size]
    lib.depot_c_judge.restype = Judged
    return lib


def judge(lib, roster, proof):
    """The status, the node and the kind of a proof's judgement."""
    told = lib.depot_c_judge(roster, len(roster), proof, len(proof))
    return told.status, told.node, told.kind


def file_of(records):
    """The journal's file of records: 01, the length and the record of each, and then 00."""
    return b"".join(b"\1" + len(r).to_bytes(4, "big") + r for r in records) + b"\0"


def records_of(data):
    """The records of a run of them, or of a journal's file: each behind 01 and its length."""
    found, at = [], 0
    while data[at:at + 1] == b"\1":
        end = at + 5 + int.from_bytes(data[at + 1:at + 5], "big")
        found.append(data[at + 5:end])
        at = end
    return found


# ---- journals


class Journal:
    """What keeps a node's records. One over a database has `load` and `keep` of its own; records are bytes."""

    def load(self):
        """The journal's file of all records that were kept, in their order (file_of); no bytes at a node's first start."""
        raise NotImplementedError

    def keep(self, run):
        """Stores new records for good, in their order, all or a front of them, and returns once they are (records_of parts the run).

        Where it raises, the node is closed, and is to be started again over those that were kept.
        """
        raise NotImplementedError

    def heed(self, refusals, stream):
        """Is told of the refused frames of a stream that was taken: some are alarms."""

    def close(self):
        """Lets go of what it holds; the node closes its journal."""


class Forgetful(Journal):
    """Keeps nothing: for trials, and to look into an old journal. A node that signs over it and is started once more is a liar."""

    def __init__(self, file=b""):
        self.file = file

    def load(self):
        return self.file

    def keep(self, run):
        """Forgets them."""


class JournalFile(Journal):
    """The file `depot.journal` of a folder, locked and guarded (tools/guard.py), for one node under one roster.

    The first start of a node takes `is_first`. With a `seed_file` the journal is remembered beside that, too, so that a
    folder that was put back is refused; None where the seed is no file. guard.Unfit says why the journal must not be run:
    another run has it, it is lost, old, another node's or roster's, or the node is convicted, unless it is
    `though_convicted`. The calls on the file are those of the program's disk, in their order, as bindings/journal_file.h has them.
    """

    NOTED_EACH = 1.0

    def __init__(self, folder, roster, number, seed_file=None, is_first=False, though_convicted=False, say=guard.say_on_stderr):
        members = [it for it in formats.read_roster(roster) if it.node == number]
        if not members:
            raise guard.Unfit("the roster has no node %d" % number)
        self.member, self.is_stopped, self.noted, self.file = members[0], False, None, None
        owner = guard.Owner(number, formats.sha256(roster))
        self.birth = b"\1" + formats.number(2, number) + owner.roster
        self.guard = guard.Guard(folder, owner, seed_file, say=say)
        self.guard.begin(is_first)
        try:
            if not though_convicted:
                self.guard.refuse_alarm()
            self.guard.prepare()
            self.open(folder)
        except BaseException:
            self.close()
            raise

    def open(self, folder):
        """Opens the file, makes it where there is none, and locks it. One of at most one byte has no records, and gets a closed gate."""
        names = os.open(folder, os.O_RDONLY | os.O_DIRECTORY)
        try:
            self.file = os.open(guard.JOURNAL, os.O_RDWR | os.O_CREAT, 0o666, dir_fd=names)
            fcntl.flock(self.file, fcntl.LOCK_EX | fcntl.LOCK_NB)
            os.fsync(names)
            os.fdatasync(self.file)
        except BlockingIOError:
            raise guard.Locked("another run has %s open" % self.guard.journal.path)
        finally:
            os.close(names)
        # What counts is what stands there under the lock of the file, which a run of the program takes alone.
        if self.guard.journal.is_begun():
            self.guard.journal.read_on()
        self.gate = self.guard.journal.gate
        if not self.gate:
            self.write(b"\0", 0)

    def load(self):
        """The bytes of the file up to its closed gate; none where it has no records."""
        size, found = self.gate + 1 if self.gate else 0, bytearray()
        while len(found) < size:
            piece = os.pread(self.file, size - len(found), len(found))
            if not piece:
                raise OSError("the journal's file was cut short")
            found += piece
        return bytes(found)

    def write(self, data, at):
        """Writes bytes at a place, and syncs."""
        while data:
            count = os.pwrite(self.file, data, at)
            data, at = data[count:], at + count
        os.fdatasync(self.file)

    def keep(self, run):
        """Appends records behind the closed gate, and then opens that: by two syncs, be they many. A stop leaves all of them or none.

        An OSError ends it: the file is touched no more, and the node has to be started again from it.
        """
        if self.is_stopped:
            raise OSError("an earlier call on the journal's file failed")
        if not self.gate and records_of(run)[0] != self.birth:
            raise guard.Unfit("another node was started over %s, or under another roster" % self.guard.journal.path)
        self.is_stopped = True
        self.write(run[1:] + b"\0", self.gate + 1)
        self.write(run[:1], self.gate)
        self.gate += len(run)
        self.is_stopped = False
        if self.noted is None or time.monotonic() > self.noted + self.NOTED_EACH:
            self.note()

    def note(self):
        """Has the guard remember the journal as it is; keep() does so once a second, and close()."""
        self.guard.note()
        self.noted = time.monotonic()

    def heed(self, refusals, stream):
        """Says of alarms among the refused frames of a stream, and remembers those that aren't forged: the next start is refused then."""
        listener = alarms.Listener(self.member, lambda _: io.BytesIO(stream))
        listener.begin(b"a stream")
        for alarm in filter(None, (listener.hear(it.line().encode()) for it in refusals)):
            self.guard.say(alarm.told)
            if alarm.ring:
                self.guard.ring(alarm.ring)
                self.note()

    def close(self):
        """Lets go of the file and the locks, and has the guard remember what was kept."""
        if self.file is not None:
            os.close(self.file)
            self.file = None
        if self.guard.held:
            if self.noted is None:
                self.guard.withdraw()
            else:
                self.guard.note()
            self.guard.close()


# ---- nodes


def open_node(lib, folder, roster_file, number, height, seed_file, is_first=False, though_convicted=False, say=guard.say_on_stderr):
    """The node of this number over the journal of a folder, guarded: JournalFile says what is refused, and what `is_first` means.

    The seed's file has 64 hexadecimal digits, as `depot node` takes them.
    """
    with open(roster_file, "rb") as file:
        roster = file.read()
    with open(seed_file, "rb") as file:
        digits = file.read(200).strip()
    try:
        seed = bytes.fromhex(digits.decode("ascii"))
    except ValueError:
        raise BadRequest("%s has no seed" % seed_file) from None
    journal = JournalFile(folder, roster, number, seed_file, is_first, though_convicted, say)
    return Node(lib, roster, seed, height, number, journal)


class Node:
    """A node that stays open, in memory, over a journal that it starts from, and closes with itself. One thread has it, the one that made it.

    Each call keeps the records that it adds, and only then answers. Where they can't be kept it raises what the journal
    raised, and the node is closed: what the call would have answered was never told. Keys, values and ids are bytes.
    """

    def __init__(self, lib, roster, seed, height, number, journal):
        self.lib, self.journal, self.kept, self.at = lib, journal, 0, None
        self.closed, self.thread, self.nothing = "it was closed", threading.get_ident(), ctypes.create_string_buffer(1)
        align = lib.depot_c_align()
        self.room = ctypes.create_string_buffer(lib.depot_c_size() + align)
        try:
            self.at = (ctypes.addressof(self.room) + align - 1) // align * align
            lib.depot_c_init(self.at)
            self.start(roster, seed, height, number)
        except BaseException:
            self.close()
            raise

    def start(self, roster, seed, height, number):
        """Starts the node from what its journal loads."""
        file = self.journal.load()
        for what, operation, at, data in (("the roster: ", ROSTER, 0, roster), ("the seed: ", KEY, height, seed), ("", START, number, file)):
            status = self.call(operation, at, data)
            if status:
                raise refusal(status, self.lent(LENGTH, COPY).decode(), what)
        self.kept = len(records_of(file))
        self.keep()

    # ---- calls of the library

    def call(self, operation, number=0, data=b""):
        """A call of the library, as the header has it: its status."""
        if self.at is None:
            raise Closed(self.closed)
        self.look_at_thread()
        return self.lib.depot_c_call(self.at, operation, number, data, len(data), self.nothing, 0)

    def look_at_thread(self):
        """Refuses another thread."""
        if threading.get_ident() != self.thread:
            raise WrongThread("the node was made on another thread")

    def lent(self, length, copy):
        """The bytes of the last answer, or those of the records that are lent."""
        size = self.call(length)
        if not size:
            return b""
        found = bytearray(size)
        self.lib.depot_c_call(self.at, copy, 0, b"", 0, (ctypes.c_char * size).from_buffer(found), size)
        return bytes(found)

    def run(self, start):
        """The records from a place on, in one run of bytes."""
        status = self.call(RECORDS, start)
        if status:
            raise refusal(status, "")
        return self.lent(RECORDS_LENGTH, RECORDS_COPY)

    def keep(self):
        """Has the journal keep the records that it lacks, all at once."""
        try:
            run = self.run(self.kept)
            if run:
                self.journal.keep(run)
                self.kept += len(records_of(run))
        except BaseException as why:
            self.closed = "its records couldn't be kept (%s): start it again over those that were" % why
            self.close()
            raise

    def asked(self, body):
        """Has the node do what the body of a message asks: what raises the refusal, if there is one, and the body of the answer."""
        status = self.call(MESSAGE, 0, body)
        answer = self.lent(LENGTH, COPY)
        return (refusal(status, answer.decode()), b"") if status else (None, answer[4:])

    def message(self, body):
        """The body of the message that answers one of `depot serve`, once what it added is kept."""
        why, answer = self.asked(body)
        self.keep()
        if why:
            raise why
        return answer

    # ---- writing

    def put(self, changes):
        """One update: a dict of 1 to 16 keys with their values, where None deletes. Gives a Put: its id, seq and clock."""
        return m.read_put(self.message(m.put_body(changes)))

    def put_each(self, many):
        """Several updates, one for each dict, kept by one pair of syncs. Of each a Put, or the Refused that says why it wasn't done."""
        answers = [self.asked(body) for body in [m.put_body(changes) for changes in many]]
        self.keep()
        return [why or self.told_of_put(answer) for why, answer in answers]

    @staticmethod
    def told_of_put(answer):
        """The Put that an answer tells, or why it wasn't done."""
        try:
            return m.read_put(answer)
        except NotDone as why:
            return why

    def receipt(self, ids):
        """Gives receipts for 1 to 16 updates by their ids: the Put that says so."""
        return m.read_put(self.message(m.receipt_body(ids)))

    def checkpoint(self):
        """Makes a checkpoint of all that was accepted, and signs it."""
        return m.read_checkpoint(self.message(m.CHECKPOINT))

    def sign(self, text):
        """Signs a checkpoint by its text: the Put that says so."""
        return m.read_put(self.message(m.SIGN + text))

    # ---- exchanges

    def hello(self, is_far=False):
        """What the node has, for others' bundles. A far one names older updates, too: for an exchange behind a long silence."""
        return m.read_hello(self.message(m.FAR_HELLO if is_far else m.HELLO))

    def bundle(self, hello, most_bytes=1_048_576, most_vouchers=None, own=False):
        """What the maker of a hello lacks: a stream of at most so many bytes, that signs at most so many new vouchers (None: any number).

        Each voucher spends a leaf of the key, for whoever asks. With `own` it has updates of this node alone. Where `has_more`
        is told, the other takes this one and asks again with its new hello; where that is the old one, within wider bounds.
        """
        return m.read_bundle(self.message(m.bundle_body(hello, most_bytes, most_vouchers, own)))

    def take(self, stream):
        """Takes a stream, or whole frames of one. The journal hears of those that it refused: some are alarms."""
        taken = m.read_taken(self.message(m.TAKE + stream))
        self.journal.heed(taken.refused, stream)
        return taken

    # ---- what it knows

    def get(self, key):
        """The values of a key's latest writes that are held: mostly one, several where writers didn't see each other."""
        return [it.value for it in self.latest(key) if it.value is not None]

    def latest(self, key):
        """The latest writes of a key, in rising order of clock, writer, seq and id."""
        return m.read_latest(self.message(m.latest_body(key)))

    def keys(self):
        """All keys, rising, page by page as they are asked for."""
        page = m.Page((b"",), True)
        while page.has_more:
            page = m.read_keys(self.message(m.keys_body(page.entries[-1])))
            yield from page.entries

    def update(self, update):
        """What is known of the update with an id; None where none was accepted."""
        return m.read_update(self.message(m.update_body(update)))

    def updates(self, start=0):
        """The accepted updates from this number on, with their keys, page by page as they are asked for."""
        page = m.Page((), True)
        while page.has_more:
            page = m.read_updates(self.message(m.page_body(m.UPDATES, start)))
            start += len(page.entries)
            yield from page.entries

    def accepted(self, ids):
        """Which of 1 to 16 ids are those of accepted updates: a dict of the ids."""
        return dict(zip(sorted(set(ids)), m.read_accepted(self.message(m.accepted_body(ids)))))

    def settled(self, update, nodes):
        """Whether at least so many nodes gave a receipt for an update."""
        return m.read_settled(self.message(m.settled_body(update, nodes)))

    def status(self):
        """Who the node is, and how much it has."""
        return m.read_status(self.message(m.STATUS))

    def convictions(self, start=0):
        """The proofs among the records from a place on, page by page as they are asked for."""
        page = m.Page((), True)
        while page.has_more:
            page = m.read_convictions(self.message(m.page_body(m.CONVICTIONS, start)))
            start = page.entries[-1].place + 1 if page.entries else start
            yield from page.entries

    def trace(self):
        """The node's trace for an audit (`depot audit`), without reads."""
        return m.read_trace(self.message(m.EXPORT))

    def records(self):
        """All records of the node."""
        return records_of(self.run(0))

    def close(self):
        """Lets go of all, its journal too. It takes no more calls."""
        self.look_at_thread()
        if self.at is not None:
            self.lib.depot_c_call(self.at, CLEAR, 0, b"", 0, self.nothing, 0)
            self.at = None
        self.journal.close()

    def __enter__(self):
        return self

    def __exit__(self, *fault):
        self.close()
