#!/usr/bin/env python3
"""Runs `depot serve` over pipes, as a program would that keeps a node, and says of each case whether what is replied, when, what is left and
how it ends are as they must: replies that come before the next request, messages byte by byte and many at once, a run that is killed, a second
run over a locked journal, inputs and outputs that are closed or fail, and a memory that a head alone can't take. Requests that come together
share their writes and syncs, and a kill leaves all that they bring or none.

    python3 acceptance/serving.py
"""

import os
import resource
import select
import signal
import subprocess
import sys
import tempfile
import time
from contextlib import contextmanager

sys.path.insert(0, os.path.join(os.path.dirname(os.path.abspath(__file__)), "makers"))

from make_cases import ROOT, u
import messages as say
from make_node_cases import JOURNAL, LISTED, fresh, script
from make_node_cases import words as node_words
from make_serve_cases import words

DEPOT = os.path.join(ROOT, "depot")
PATIENCE = 60
MOST_REQUESTS = 64  # of a group
PUT_A = say.put((b"k", b"a"))
STARTED = say.message(say.started(1, LISTED))


class Server:
    """A process that serves a node of the roster."""

    def __init__(self, folder, node=1, **how):
        self.process = subprocess.Popen([DEPOT, *words(node)], cwd=folder, stdin=subprocess.PIPE, stdout=subprocess.PIPE, **how)

    def take(self, count):
        """So many bytes of what it writes, or less where it writes no more."""
        text = b""
        while len(text) < count and self.speaks(PATIENCE):
            piece = os.read(self.process.stdout.fileno(), count - len(text))
            if not piece:
                break
            text += piece
        return text

    def speaks(self, seconds):
        """Whether something can be read within so many seconds, be it the end."""
        return bool(select.select([self.process.stdout], [], [], seconds)[0])

    def hear(self):
        """The body of its next message, or None where it writes no more."""
        head = self.take(4)
        return self.take(int.from_bytes(head, "big")) if len(head) == 4 else None

    def write(self, text):
        self.process.stdin.write(text)
        self.process.stdin.flush()

    def ask(self, body):
        self.write(say.message(body))
        return self.hear()

    def ends(self):
        """Ends its input; the status, and what it still writes."""
        self.process.stdin.close()
        rest = self.process.stdout.read()
        return self.process.wait(PATIENCE), rest

    def stop(self):
        self.process.kill()
        self.process.wait(PATIENCE)
        self.process.stdout.close()
        try:
            self.process.stdin.close()
        except BrokenPipeError:
            pass


@contextmanager
def server(folder, node=1, **how):
    made = Server(folder, node, **how)
    try:
        yield made
    finally:
        made.stop()


def place(folder, **files):
    os.makedirs(folder, exist_ok=True)
    for name, data in {"ROSTER": LISTED, **files}.items():
        with open(os.path.join(folder, name), "wb") as file:
            file.write(data)
    return folder


def journal(folder):
    with open(os.path.join(folder, JOURNAL), "rb") as file:
        return file.read()


def by_shell(folder, redirection, text=b""):
    """The status and the text of a run with this redirection, given by the shell."""
    ran = subprocess.run(["sh", "-c", f'exec "$0" "$@" {redirection}', DEPOT, *words(1)], cwd=folder, input=text, stdout=subprocess.PIPE, timeout=PATIENCE)
    return ran.returncode, ran.stdout


def by_node(folder, *lines):
    """Runs a script of the node there. Whether that ended well."""
    place(folder, SCRIPT=script(*lines))
    ran = subprocess.run([DEPOT, *node_words(1)], cwd=folder, stdout=subprocess.PIPE, timeout=PATIENCE)
    os.remove(os.path.join(folder, "SCRIPT"))
    return ran.returncode == 0


# ---- cases


def replies_before_the_next_request(room):
    """Each reply comes while nothing more is written: a thousand requests, one by one. Then the input ends."""
    place(room)
    with server(room) as run:
        started = run.hear()
        put = run.ask(PUT_A)
        reads = all(run.ask(say.get(b"k")) == say.was_read(" 1/0/1=61") for _ in range(1000))
        quiet = not run.speaks(0.05)
        return started == say.started(1, LISTED) and put == say.was_put(fresh().put(b"k", b"a").id, 0, 1) and reads and quiet and run.ends() == (0, b"")


def bytes_one_by_one(room):
    """A message may come byte by byte, and nothing is replied before its last."""
    place(room)
    text = say.message(PUT_A)
    with server(room) as run:
        run.hear()
        for at in range(len(text) - 1):
            run.write(text[at:at + 1])
        early = run.speaks(0.1)
        run.write(text[-1:])
        return not early and run.hear() == say.was_put(fresh().put(b"k", b"a").id, 0, 1) and run.ends() == (0, b"")


def many_at_once(room):
    """Requests that come together are answered in their order; the journal is that which a script of the same puts leaves."""
    here, there = place(os.path.join(room, "a")), place(os.path.join(room, "b"))
    requests = [say.put((b"k", b"%d" % at)) for at in range(3)] + [say.get(b"k")] * 200
    with server(here) as run:
        run.hear()
        run.write(say.messages(*requests))
        replies = [run.hear() for _ in requests]
        ended = run.ends()
    kinds = [reply[:1] for reply in replies] == [b"\x01"] * 3 + [b"\x02"] * 200
    reads = set(replies[3:]) == {say.was_read(" 1/2/3=32")}
    same = by_node(there, *["put 6b %s" % (b"%d" % at).hex() for at in range(3)]) and journal(here) == journal(there)
    return kinds and reads and ended == (0, b"") and same


def writes_of(run):
    """How many calls its process has made that write: to the journal, each followed by a sync, and to its output."""
    with open(f"/proc/{run.process.pid}/io", encoding="ascii") as file:
        return next(int(line.split()[1]) for line in file if line.startswith("syscw:"))


def puts_that_come_together(room):
    """Puts that wait together share two writes with their syncs, and the write of their replies; a put alone makes these three, too. Each is
    answered in order, a read among them with what was put before it."""
    place(room)
    one = fresh()
    puts = [one.put(b"k", b"%d" % at).id for at in range(3)]
    requests, replies = [], []
    for at, made in enumerate(puts):
        requests += [say.put((b"k", b"%d" % at)), say.get(b"k")]
        replies += [say.was_put(made, at, at + 1), say.was_read(" 1/%d/%d=%s" % (at, at + 1, (b"%d" % at).hex()))]
    with server(room) as run:
        run.hear()
        before = writes_of(run)
        run.write(say.messages(*requests))
        together = [run.hear() for _ in requests] == replies
        shared = writes_of(run) - before
        alone = run.ask(say.put((b"k", b"a"))) == say.was_put(one.put(b"k", b"a").id, 3, 4)
        return together and shared == 3 and alone and writes_of(run) - before == 6 and run.ends() == (0, b"") and journal(room) == one.file()


def a_run_that_is_killed(room):
    """What was replied stands, its lock ends with it, and the next run goes on. Without a reply it may stand or not."""
    place(room)
    one = fresh()
    a = one.put(b"k", b"a")
    before = one.file()
    with server(room) as run:
        run.hear()
        put = run.ask(PUT_A)
        run.process.kill()
        killed = run.process.wait(PATIENCE)
    kept = journal(room) == before
    b = one.put(b"k", b"b")
    with server(room) as run:
        again = run.hear() == say.started(1, LISTED, 1) and run.ask(say.get(b"k")) == say.was_read(" 1/0/1=61")
        run.write(say.message(say.put((b"k", b"b"))))
        run.process.kill()
        run.process.wait(PATIENCE)
    with server(room) as run:
        # An open gate behind the records is a front of the put, which counts for nothing.
        made = int.from_bytes(run.hear()[-4:], "big")
        read = run.ask(say.get(b"k"))
        asked_again = made == 2 or run.ask(say.put((b"k", b"b"))) == say.was_put(b.id, 1, 2)
        ended = run.ends()
    shows = read == say.was_read(" 1/0/1=61" if made == 1 else " 1/1/2=62")
    return put == say.was_put(a.id, 0, 1) and killed == -signal.SIGKILL and kept and again and made in (1, 2) and shows and asked_again and ended[0] == 0 and journal(room) == one.file()


def a_group_that_is_killed(room):
    """Of puts that came together all stand or none, at whatever moment the run is killed, and all where one was replied; the next run goes on."""
    one = fresh()
    puts = [one.put(b"k", b"%d" % at).id for at in range(3)]
    replies = say.messages(*[say.was_put(made, at, at + 1) for at, made in enumerate(puts)])
    stood = set()
    for step in range(16):
        folder = place(os.path.join(room, str(step)))
        with server(folder) as run:
            run.hear()
            run.write(say.messages(*[say.put((b"k", b"%d" % at)) for at in range(3)]))
            time.sleep(0.0002 * step)
            run.process.kill()
            told = run.take(len(replies))
        with server(folder) as run:
            made = int.from_bytes(run.hear()[-4:], "big")
            read, ended = run.ask(say.get(b"k")), run.ends()
        shows = {0: say.was_read(), 3: say.was_read(" 1/2/3=32")}.get(made)
        if read != shows or not replies.startswith(told) or told and made != 3 or ended != (0, b""):
            return False
        stood.add(made)
    return 3 in stood


def a_second_run(room):
    """Over a journal that is locked no run starts, be it of `serve` or of `node`, and the first goes on."""
    place(room)
    with server(room) as run:
        run.hear()
        first = run.ask(PUT_A)
        with server(room) as second:
            refused = second.hear() == say.not_started("disk") and second.ends() == (4, b"")
        refused = refused and not by_node(room, "put 6b 61")
        one = fresh()
        ids = [one.put(b"k", b"a").id, one.put(b"k", b"b").id]
        goes_on = run.ask(say.put((b"k", b"b"))) == say.was_put(ids[1], 1, 2)
        return first == say.was_put(ids[0], 0, 1) and refused and goes_on and run.ends() == (0, b"") and journal(room) == one.file()


def inputs_that_fail(room):
    """A closed input and a folder as input end the run with 13, behind the first message; an empty file with 0."""
    place(room)
    closed = all(by_shell(room, how) == (13, STARTED) for how in ("<&-", "<.", "<&- 2>&-"))
    return closed and by_shell(room, "</dev/null") == (0, STARTED) and journal(room) == fresh().file()


def outputs_that_fail(room):
    """An output that is closed or full ends the run with 5, and what was to be told goes nowhere. Nothing is done then."""
    place(room)
    text = say.message(PUT_A)
    failed = all(by_shell(room, how, text) == (5, b"") for how in (">&-", ">&- 2>&-", ">/dev/full"))
    both = by_shell(room, "<&- >&- 2>&-") == (5, b"")
    return failed and both and journal(room) == fresh().file()


def an_output_that_nobody_reads_any_more(room):
    """What a group's requests bring stands, though their replies can't be written, and nothing behind the group is done."""
    place(room)
    one = fresh()
    one.put(b"k", b"a")
    with server(room) as run:
        run.hear()
        run.process.stdout.close()
        run.write(say.messages(PUT_A, *[say.get(b"k")] * (MOST_REQUESTS - 1), say.put((b"k", b"b"))))
        status = run.process.wait(PATIENCE)
    return status == 5 and journal(room) == one.file()


def a_head_that_lies(room):
    """Memory is asked for what has come, not for what a head says: the greatest length is heard where the process may have little memory."""
    place(room)

    def little():
        resource.setrlimit(resource.RLIMIT_AS, (2**26, 2**26))

    with server(room, preexec_fn=little) as run:
        started = run.hear() == say.started(1, LISTED)
        run.write(u(4, 2**27) + bytes(1000))
        return started and run.ends() == (2, b"")


def a_message_that_ends_the_run(room):
    """The status comes at once, while the input is still open, and no byte behind is looked at."""
    place(room)
    with server(room) as run:
        run.hear()
        run.write(u(4, 0))
        return run.process.wait(PATIENCE) == 2 and run.process.stdout.read() == b""


def a_stop_by_signal(room):
    """A run that is told to stop ends, and what was replied stands."""
    for how in (signal.SIGTERM, signal.SIGINT, signal.SIGHUP):
        folder = place(os.path.join(room, how.name))
        with server(folder) as run:
            run.hear()
            run.ask(PUT_A)
            run.process.send_signal(how)
            if run.process.wait(PATIENCE) != -how or not by_node(folder, "put 6b 62"):
                return False
    return True


CASES = (
    replies_before_the_next_request,
    bytes_one_by_one,
    many_at_once,
    puts_that_come_together,
    a_run_that_is_killed,
    a_group_that_is_killed,
    a_second_run,
    inputs_that_fail,
    outputs_that_fail,
    an_output_that_nobody_reads_any_more,
    a_head_that_lies,
    a_message_that_ends_the_run,
    a_stop_by_signal,
)


def main():
    rights = []
    for case in CASES:
        with tempfile.TemporaryDirectory() as room:
            rights.append(case(room))
        print(f"{case.__name__}: " + ("as told" if rights[-1] else "not as told"))
    sys.exit(0 if all(rights) else 1)


if __name__ == "__main__":
    main()
