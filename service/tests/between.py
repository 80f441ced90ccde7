"""Programs that stand between a service and `depot serve` in tests: they pass messages on, and look at them or cheat.

`watched_depot` remembers each read with the number of records that it was made at, in the file `reads.log` of the
folder, so that a trace can be made of it. `broken_depot` answers puts before their records are kept: it runs the node in
another folder, and brings the journal over late. That is what a service must never do, and what chaos.py has to catch.

The real program is $DEPOT_PROGRAM. What isn't `serve` is left to it.
"""

import contextlib
import os
import shutil
import subprocess
import sys
import tempfile
import time

import cases  # noqa: F401  (finds the service's parts)
from depot_service import messages as m

JOURNAL, READS = "depot.journal", "reads.log"
LATE_SECONDS, LATE_PUTS = 2.0, 30


def read_message(source):
    """The next message; None at the end."""
    head = source.read(4)
    if len(head) < 4:
        return None
    body = source.read(int.from_bytes(head, "big"))
    return body if len(body) == int.from_bytes(head, "big") else None


def write_message(sink, body):
    """Writes a message."""
    sink.write(m.frame(body))
    sink.flush()


def inherited():
    """The locks that the service hands to its child, and that this one hands on."""
    found = []
    for name in os.listdir("/proc/self/fd"):
        try:
            os.fstat(int(name))
        except OSError:
            continue
        if int(name) > 2:
            found.append(int(name))
    return found


class Passing:
    """Passes requests and replies on."""

    def __init__(self, words, folder):
        self.child = subprocess.Popen(
            [os.environ["DEPOT_PROGRAM"], *words], cwd=folder, stdin=subprocess.PIPE, stdout=subprocess.PIPE, pass_fds=inherited(),
            restore_signals=False)  # a file that is too long is a fault of the disk, and no signal

    def ask(self, request):
        """The node's reply to a request; None where it ended."""
        write_message(self.child.stdin, request)
        return read_message(self.child.stdout)

    def begin(self):
        """The node stands."""

    def heed(self, request, reply):
        """Looks at a request and the reply to it, before that goes on."""

    def end(self):
        """The input has ended: so does the node."""

    def run(self):
        """Passes all on, until one side ends; the node's status. A service that was killed hears nothing more."""
        try:
            self.pass_on()
        except BrokenPipeError:
            os.dup2(os.open(os.devnull, os.O_WRONLY), sys.stdout.fileno())
        with contextlib.suppress(BrokenPipeError):
            self.child.stdin.close()
        status = self.child.wait()
        self.end()
        return status

    def pass_on(self):
        """Passes what the node says first, and then requests and replies by turns."""
        first = read_message(self.child.stdout)
        if first is not None:
            if first[0] == m.STARTED:
                self.begin()
            write_message(sys.stdout.buffer, first)
        while first is not None and first[0] == m.STARTED:
            request = read_message(sys.stdin.buffer)
            if request is None:
                break
            reply = self.ask(request)
            if reply is None:
                break
            self.heed(request, reply)
            write_message(sys.stdout.buffer, reply)


def read_text(records, key, reply):
    """A read as a trace has it (docs/FORMATS.md, "Trace")."""
    parts = [m.number(4, records), m.number(1, len(key)), key, m.number(2, len(reply.writes))]
    for it in reply.writes:
        if it.write.is_deletion or it.write.value is None:
            parts += [it.id, b"\2" if it.write.is_deletion else b"\0"]
        else:
            parts += [it.id, b"\1", m.number(4, len(it.write.value)), it.write.value]
    return b"".join(parts)


class Watched(Passing):
    """Remembers reads. One that a kill cut short is left out of the trace."""

    def __init__(self, words, folder):
        super().__init__(words, folder)
        self.log = open(READS, "ab", buffering=0)

    def heed(self, request, reply):
        if request[0] == m.LATEST and reply[0] == m.LATEST:
            status = m.read_reply(self.ask(m.status_request()))
            text = read_text(status.records, request[2:], m.read_reply(reply))
            self.log.write(m.frame(text))


class Broken(Passing):
    """Runs the node elsewhere, and keeps its journal late."""

    def __init__(self, words, folder):
        words = [words[0], os.path.abspath(words[1]), *words[2:]]
        self.room, self.count, self.kept_at = tempfile.mkdtemp(dir=os.path.join(folder, os.pardir)), 0, time.monotonic()
        if os.path.exists(JOURNAL):
            shutil.copy(JOURNAL, self.room)
        super().__init__(words, self.room)

    def begin(self):
        self.keep()

    def keep(self):
        """Brings the journal over, whole: a stop meanwhile is no part of this."""
        shutil.copy(os.path.join(self.room, JOURNAL), JOURNAL + ".late")
        os.replace(JOURNAL + ".late", JOURNAL)
        self.count, self.kept_at = 0, time.monotonic()

    def heed(self, request, reply):
        self.count += request[0] == m.PUT
        if self.count > LATE_PUTS or time.monotonic() - self.kept_at > LATE_SECONDS:
            self.keep()

    def end(self):
        self.keep()
        shutil.rmtree(self.room)


def main(kind, words):
    """Runs `serve` with something between; leaves all else to the program."""
    if words[:1] != ["serve"]:
        os.execv(os.environ["DEPOT_PROGRAM"], [os.environ["DEPOT_PROGRAM"], *words])
    return kind(words, os.getcwd()).run()
