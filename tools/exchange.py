#!/usr/bin/env python3
"""Exchanges with another node over a pipe, as `ssh` makes one: hello and bundle both ways, and each side takes.

    python3 tools/exchange.py ROSTER SEEDFILE ID -- COMMAND ..      calls: COMMAND reaches the other side
    python3 tools/exchange.py --answer ROSTER SEEDFILE ID           answers on standard input and output

Each side runs its own node by `tools/node.py`, in its folder (--folder, else the current one) and with its program
(--program). An exchange that breaks off has changed nothing but what whole frames brought; the next one goes on from there.
Exchanges of one node may go on at one time: their runs wait for one another (`exchange.lock` in the folder). Any other run
that goes on in the folder ends them with 71.

    --peer N        refuses a hello of another node than N
    --last FILE     remembers the other side's hello there: where it comes again unchanged within an hour, though it was
                    sent something, that isn't sent once more (a member that can't take it would be sent it for ever)
    --seconds N     ends an exchange after so many seconds, 600 if nothing is said

What is printed are the lines of the two takes. The status is 0 where both took all, 1 for words that are none, 71 where this
side's run refused or failed, 75 where the other side wasn't reached, was cut off, or was too late: try again later; and 76
where a frame was refused for what no correct member sends (6 to 11 and 16 of docs/TROUBLESHOOTING.md, "A refused frame").
"""

import contextlib
import fcntl
import os
import re
import signal
import subprocess
import sys
import tempfile
import time

import formats as f
from words import Parser, positive

HERE = os.path.dirname(os.path.abspath(__file__))
LOCK = "exchange.lock"
GREETING = b"depot exchange 1\n"
MOST_HELLO, MOST_STREAM, MOST_REPORT = 172_620, 112 << 20, 1 << 20
MOST_ROUNDS = 16
WAIT = 3600
OWN_FAILS, NOT_REACHED, ALARM = 71, 75, 76
ALARMS = re.compile(r"^ refused \d+ (6|7|8|9|10|11|16) ", re.M)


class Failed(Exception):
    """An exchange that ends before its end, with a status."""

    def __init__(self, status, why):
        super().__init__(why)
        self.status = status


def say(text):
    print("exchange: %s" % text, file=sys.stderr, flush=True)


# ---- the pipe: each message is its length in four bytes, and then so many


class Pipe:
    def __init__(self, source, sink):
        self.source, self.sink = source, sink

    def send(self, data):
        try:
            self.sink.write(f.number(4, len(data)) + data)
            self.sink.flush()
        except OSError:
            raise Failed(NOT_REACHED, "the other side is gone")

    def take(self, count):
        data = self.source.read(count)
        if len(data) < count:
            raise Failed(NOT_REACHED, "the other side ended before its end")
        return data

    def receive(self, most, what):
        length = int.from_bytes(self.take(4), "big")
        if length > most:
            raise Failed(NOT_REACHED, "the other side announced %s of %d bytes, over %d" % (what, length, most))
        return self.take(length)

    def greet(self):
        try:
            self.sink.write(GREETING)
            self.sink.flush()
        except OSError:
            raise Failed(NOT_REACHED, "the other side is gone")

    def be_greeted(self):
        """Another greeting is another program's, or what a shell prints before it."""
        if self.take(len(GREETING)) != GREETING:
            raise Failed(NOT_REACHED, "what answers isn't tools/exchange.py --answer")


# ---- one side of an exchange


class Side:
    """A node here: its runs, and what it knows of the other side. Its files lie in a room that goes with the exchange."""

    def __init__(self, options, room):
        self.options, self.room = options, room
        self.has_alarm = False

    def path(self, name):
        return os.path.join(self.room, name)

    def stored(self, name, data):
        with open(self.path(name), "wb") as file:
            file.write(data)
        return self.path(name)

    def read(self, name):
        with open(self.path(name), "rb") as file:
            return file.read()

    def run(self, *lines):
        """Runs these lines on the node; what it printed. It fails where the run did."""
        options = self.options
        words = [sys.executable, os.path.join(HERE, "node.py"), "--folder", options.folder]
        words += ["--program", options.program] if options.program else []
        words += [options.roster, options.seedfile, str(options.id), "-"]
        script = "".join(line + "\n" for line in lines).encode()
        with self.turn():
            ran = subprocess.run(words, input=script, stdout=subprocess.PIPE)
        if ran.returncode:
            told = ran.stdout.decode("utf-8", "replace").splitlines()[-1:]
            raise Failed(OWN_FAILS, "; ".join(["the run of node %d ended with %d" % (options.id, ran.returncode)] + told))
        return ran.stdout.decode("utf-8", "replace")

    @contextlib.contextmanager
    def turn(self):
        """Exchanges of one node wait for one another's runs, and for nothing else of one another: so none waits for ever."""
        with open(os.path.join(self.options.folder, LOCK), "w") as file:
            fcntl.flock(file, fcntl.LOCK_EX)
            yield

    def hello(self):
        self.run("hello %s" % self.path("own"))
        return self.read("own")

    def check(self, hello):
        """Refuses what is no hello, or one of another node than the peer."""
        try:
            node = f.read_hello(hello).node
        except f.IllFormed as fault:
            raise Failed(NOT_REACHED, "the other side sent no hello: %s" % fault)
        if self.options.peer and node != self.options.peer:
            raise Failed(NOT_REACHED, "the hello is of node %d, and the peer is node %d" % (node, self.options.peer))
        self.stored("theirs", hello)

    def is_stuck(self, hello):
        """Whether this very hello came before, not long ago, and was sent something."""
        with contextlib.suppress(OSError, TypeError):
            with open(self.options.last, "rb") as file:
                is_same = file.read() == f.sha256(hello)
            return is_same and time.time() < os.path.getmtime(self.options.last) + WAIT
        return False

    def stream_for(self, hello, *lines):
        """The bundle for the other side's hello, behind these lines; no bytes where it wouldn't move for it."""
        if self.is_stuck(hello):
            say("its hello is as it was, so it isn't sent the same once more")
            return self.run(*lines), b""
        told = self.run(*lines, "bundle %s %s" % (self.path("theirs"), self.path("for-them")))
        stream = self.read("for-them")
        if self.options.last and not told.endswith("updates 0 values 0 whole\n"):
            with open(self.options.last, "wb") as file:
                file.write(f.sha256(hello))
        return told, stream

    def report(self, who, told):
        """The lines of a take, without the names of files here."""
        lines = [re.sub("^take .* -> ", "node %d took: " % who, line) for line in told.splitlines()]
        text = "".join(line + "\n" for line in lines if " took: " in line or line.startswith(" refused"))
        self.has_alarm = self.has_alarm or bool(ALARMS.search(text))
        return text


def answer(side, pipe):
    """Answers the other side, once."""
    pipe.greet()
    hello = pipe.receive(MOST_HELLO, "a hello")
    side.check(hello)
    _, stream = side.stream_for(hello, "hello %s" % side.path("own"))
    pipe.send(side.read("own"))
    pipe.send(stream)
    side.stored("for-us", pipe.receive(MOST_STREAM, "a stream"))
    pipe.send(side.report(side.options.id, side.run("take %s" % side.path("for-us"))).encode())


def call(side, pipe):
    """Calls the other side, once: the lines of both takes."""
    hello = side.hello()
    pipe.be_greeted()
    pipe.send(hello)
    theirs = pipe.receive(MOST_HELLO, "a hello")
    side.check(theirs)
    side.stored("for-us", pipe.receive(MOST_STREAM, "a stream"))
    told, stream = side.stream_for(theirs, "take %s" % side.path("for-us"))
    pipe.send(stream)
    return side.report(side.options.id, told) + pipe.receive(MOST_REPORT, "a report").decode("utf-8", "replace")


def called(side):
    """Calls until nothing is left, each time by the command."""
    for _ in range(MOST_ROUNDS):
        with subprocess.Popen(side.options.command, stdin=subprocess.PIPE, stdout=subprocess.PIPE) as run:
            try:
                report = call(side, Pipe(run.stdout, run.stdin))
            except BaseException:
                run.kill()
                with contextlib.suppress(OSError):
                    run.stdin.close()
                raise
        print(report, end="", flush=True)
        if " more\n" not in report:
            return
    say("more is left after %d rounds" % MOST_ROUNDS)


# ---- words


def options_of(words):
    at = words.index("--") if "--" in words else len(words)
    parser = Parser(__doc__)
    parser.add_argument("roster", metavar="ROSTER")
    parser.add_argument("seedfile", metavar="SEEDFILE")
    parser.add_argument("id", metavar="ID", type=positive)
    parser.add_argument("--answer", action="store_true")
    parser.add_argument("--folder", metavar="FOLDER", default=".")
    parser.add_argument("--program", metavar="PATH")
    parser.add_argument("--peer", metavar="N", type=positive)
    parser.add_argument("--last", metavar="FILE")
    parser.add_argument("--seconds", metavar="N", type=positive, default=600)
    options = parser.parse_args(words[:at])
    options.command = words[at + 1 :]
    if options.answer == bool(options.command):
        parser.error("a call has `--` and the command that reaches the other side behind it, and --answer has none")
    return options


def late(*_):
    raise Failed(NOT_REACHED, "the time of an exchange is over")


def main(words):
    options = options_of(words)
    signal.signal(signal.SIGALRM, late)
    signal.alarm(options.seconds)
    try:
        with tempfile.TemporaryDirectory(prefix="depot-exchange-") as room:
            side = Side(options, room)
            if options.answer:
                answer(side, Pipe(sys.stdin.buffer, sys.stdout.buffer))
            else:
                called(side)
            return ALARM if side.has_alarm else 0
    except Failed as why:
        say(why)
        return why.status
    except OSError as why:
        say("%s: %s" % (why.filename, why.strerror))
        return OWN_FAILS


if __name__ == "__main__":
    sys.exit(main(sys.argv[1:]))
