#!/usr/bin/env python3
"""Runs a script on a node with `depot node`, and guards the node's journal against the mistakes that lose a node.

    python3 tools/node.py ROSTER SEEDFILE ID SCRIPT             SCRIPT `-` is standard input
    python3 tools/node.py --first ROSTER SEEDFILE ID SCRIPT     the first run of a node, which begins its journal
    python3 tools/node.py --check ROSTER SEEDFILE ID            says whether the journal of the folder is good
    python3 tools/node.py --check                               the same, by what is remembered in the folder alone

The node's folder is the current one, or --folder FOLDER; its journal is `depot.journal` there. What the journal was at
last is remembered beside it, as `depot.journal.kept`, and beside the seed, as `SEEDFILE.node-ID.kept` (tools/guard.py). A
run is refused, before anything is changed,

- in a folder without a journal, but with --first; with --first where the journal has statements of the node, and where
  the node had one elsewhere;
- over the journal of another node, or one that was begun under another roster;
- over a journal that doesn't begin with 01, which the program would take for a new one;
- over a journal that is shorter than one of the two remembers it, or another: an old copy, a damaged gate, or the second
  of two that were run with this seed;
- while another run works in the folder or with the seed;
- of a script that names the journal, or one of these files, as its file, or stores over the seed, the roster, itself,
  another node's journal, or a file that is none of the kind that the line stores;
- of a script that signs, where the node is convicted, or somebody else has its key; --though-convicted runs it.

The lines of a script that puts are carried out once each: after a stop the same script goes on where it stopped, also
where a put stands in the journal and was not told. So does a script that was mended behind the lines that were done. Any
other one that puts is refused then; with --anew it begins with its first line, and where the other stopped is forgotten.
A script that ran to its end begins again by itself. One that puts nothing begins with its first line each time, and leaves
the place of another as it is.

SEEDFILE has the seed, 64 digits of hex; so it stands in no shell's history. While the program runs, `ps` shows it. The
names of ROSTER, SEEDFILE and SCRIPT are seen from the current folder, those inside the script from the node's.

The status is the program's, 1 for words that are none, 5 where the output fails, and 71 where the runner refuses. --check
ends with 0 where the journal is good and both files remember all of it, with 72 where one of them is lacking or behind, and
with 73 where the node is convicted or somebody else has its key. Behind `disk` and `shelf NAME` the runner says on standard
error what a look at the file finds, and behind each take whom it convicted, and whether a statement in the node's own name
is forged. The program is `depot` of this repository, or --program PATH.
"""

import argparse
import contextlib
import os
import re
import stat
import subprocess
import sys
import threading
import time

import alarms
import formats as f
from guard import Guard, Journal, Owner, Place, Unfit, is_locked, told_of, told_of_alarm
from script import PUTS, SIGNS, Refused, Script, bytes_of, is_same, place_in, read_script, refuse_files, stored_by

HERE = os.path.dirname(os.path.abspath(__file__))
REFUSED, LACKING, ALARM, NO_WORDS, SHELF, DISK, OUTPUT = 71, 72, 73, 1, 3, 4, 5
MOST_LOADED = 2**30
STDIN = b"/dev/stdin"
# With these the last line that was told is the one that ended the run: a text in no form, a limit, another roster.
ENDS_A_LINE = (2, 8, 10)


class OutputFails(Exception):
    """Standard output is closed or full."""


def say(text):
    """Says something to who looks on; what the program prints is apart from it."""
    if sys.stderr is not None:
        print("node: %s" % text, file=sys.stderr, flush=True)


def put_out(data):
    """Prints bytes. Once that failed, what is still to be written goes nowhere, so that nothing fails again at the end."""
    try:
        sys.stdout.buffer.write(data)
        sys.stdout.flush()
    except OSError:
        os.dup2(os.open(os.devnull, os.O_WRONLY), sys.stdout.fileno())
        raise OutputFails()


# ---- why a file failed


def cause_at(path, is_stored):
    """What a look finds that keeps a file from being loaded, or stored; None where it finds nothing."""
    folder = os.path.dirname(os.path.abspath(path))
    if not os.path.isdir(folder):
        return "its folder isn't there"
    if not os.path.exists(path):
        if os.path.islink(path):
            return "it is a link that leads nowhere"
        if not is_stored:
            return "it isn't there"
        if not os.access(folder, os.W_OK | os.X_OK):
            return "there is no right to write in its folder"
    else:
        found = os.stat(path)
        if stat.S_ISDIR(found.st_mode):
            return "it is a folder"
        if not stat.S_ISREG(found.st_mode):
            return "it is no regular file"
        if not os.access(path, os.W_OK if is_stored else os.R_OK):
            return "there is no right to %s it" % ("write" if is_stored else "read")
        if not is_stored and found.st_size > MOST_LOADED:
            return "it has %d bytes, over 1 GiB" % found.st_size
        if is_stored and is_locked(path):
            return "another run has it locked, or the file system knows no locks"
    return "its disk is full" if is_stored and os.statvfs(folder).f_bavail == 0 else None


# ---- a run


class OwnJournal(Journal):
    """A node's journal, and the own updates in it, which the lines of a script are held against."""

    def forget(self):
        super().forget()
        self.puts = []

    def see(self, record):
        super().see(record)
        if isinstance(record, f.OwnPut):
            self.puts.append(record)


class Runner:
    """A run, or a check, of a node in its folder."""

    def __init__(self, options):
        self.options, self.folder, self.last, self.place = options, options.folder, b"", Place()
        self.journal = OwnJournal(os.path.join(self.folder, "depot.journal"))
        self.member = owner = None
        if options.roster:
            self.member, digest = self.read_roster()
            owner = Owner(options.id, digest, options.roster)
        self.guard = Guard(self.folder, owner, options.seedfile, self.journal, say)
        self.listener = alarms.Listener(self.member, lambda name: alarms.open_stream(os.path.join(self.folder, os.fsdecode(name))))
        self.is_noted, self.noted = False, None

    def read_roster(self):
        """The node as a member of the roster, and the roster's hash."""
        with open(self.options.roster, "rb") as file:
            text = file.read()
        try:
            members = [it for it in f.read_roster(text) if it.node == self.options.id]
        except f.IllFormed as fault:
            raise Refused("%s isn't in its form, %s" % (self.options.roster, fault))
        if not members:
            raise Refused("the roster %s has no node %d" % (self.options.roster, self.options.id))
        return members[0], f.sha256(text)

    def seed(self):
        """The seed, as the program takes it."""
        with open(self.options.seedfile, "rb") as file:
            seed = file.read(100).strip()
        if not re.fullmatch(b"[0-9a-f]{64}", seed):
            raise Refused("%s has no seed: that is 64 digits of lower-case hex, in one line" % self.options.seedfile)
        return seed.decode("ascii")

    def program_words(self):
        """The words of `depot node`, with the roster's name as it is seen from the folder."""
        roster = os.path.relpath(self.options.roster, self.folder)
        if re.search(r"\s", roster):
            raise Refused("the roster's name, %r as it is seen from the folder, has a space, which the program doesn't take" % roster)
        words = [self.seed(), str(self.member.height), str(self.options.id), STDIN.decode()]
        return [self.options.program, "node", roster, *words]

    # ---- a check

    def check(self):
        """Says whether the journal is good, and what the notes lack; the status."""
        if self.options.seedfile and not os.path.exists(self.options.seedfile):
            raise Refused("there is no seed %s" % self.options.seedfile)
        lacking = self.guard.check()
        if len(self.guard.paths) == 1:
            lacking.append("it wasn't held against a note beside the seed: name ROSTER SEEDFILE ID, with a seed that is a file")
        alarm = self.guard.now.alarm
        told = "the journal is %s: %d bytes, %d own updates" % ("good" if self.guard.notes else "whole", self.journal.gate, len(self.journal.puts))
        lines = [told, *lacking] + ([told_of_alarm(alarm)] if alarm != "-" else [])
        put_out("".join(it + "\n" for it in lines).encode("utf-8", "surrogateescape"))
        return ALARM if alarm != "-" else LACKING if lacking else 0

    # ---- a script

    def run(self, script):
        """Carries out what is left of a script; the program's status."""
        read = [self.options.roster, self.options.seedfile] + [self.options.script] * (self.options.script != "-")
        refuse_files(script.lines, self.folder, self.guard.files(), read)
        words = self.program_words()
        self.guard.begin(self.options.first)
        self.heed_alarm(script)
        passed = self.find_place(script)
        if passed:
            say("goes on with line %d of %d" % (passed + 1, len(script.lines)) if passed < len(script.lines) else "all lines of the script are done")
        self.guard.prepare()
        try:
            status = self.tell(words, script, passed)
            status = self.end(script, status)
        finally:
            self.note_end(script)
        self.explain(status, script.lines)
        return status

    def heed_alarm(self, script):
        """Says that others have a proof against the node, or its key, and refuses a script that would sign."""
        alarm = self.guard.now.alarm
        if alarm == "-":
            return
        if script.has(SIGNS) and not self.options.though_convicted:
            raise Refused("%s. A script that signs nothing is let through, and with --though-convicted any" % told_of_alarm(alarm))
        say(told_of_alarm(alarm))

    def find_place(self, script):
        """How many lines of the script are done. One that puts nothing has no place, and leaves that of another."""
        if not script.has(PUTS):
            if self.guard.now.place.script == script.mark:
                # An earlier version gave it one, which would keep others out.
                self.guard.now.place = Place()
            self.place = Place()
            return 0
        self.place, puts = self.guard.now.place, self.journal.puts
        goes_on = script.goes_on_from(self.place) and not self.options.anew
        if not goes_on:
            self.refuse_second()
            self.place.done, self.place.puts = 0, len(puts)
        self.place.script = script.mark
        self.place.done, self.place.puts = place_in(script.lines, self.place, puts), len(puts)
        self.place.front = script.front(self.place.done)
        return self.place.done

    def refuse_second(self):
        """Refuses a script while another one is stopped that has put something."""
        place = self.place
        if place.script != "-" and (place.done or place.puts < len(self.journal.puts)) and not self.options.anew:
            told = "another script stopped at line %d, and this one begins otherwise: run that one to its end first. With --anew this one begins, "
            raise Refused(told % (place.done + 1) + "and where the other stopped is forgotten")

    def end(self, script, status):
        """The status of a run that ended: one with all lines told forgets the place."""
        if status == 0 and self.place.done < len(script.lines):
            say("%s ended with 0, and told of %d lines of %d: is it depot?" % (self.options.program, self.place.done, len(script.lines)))
            return REFUSED
        if status == 0:
            self.is_noted = True
            self.place.script, self.place.done = "-", 0
        return status

    def note_end(self, script):
        """Notes where a run ended that did something; one that the program refused changed nothing."""
        if self.guard.has_grown() or self.is_noted:
            self.note(script)
        else:
            self.guard.withdraw()

    def note(self, script):
        """Notes how long the journal is and how far the script went."""
        self.place.front = script.front(self.place.done) if self.place.script != "-" else "-"
        self.is_noted, self.noted = True, time.monotonic()
        self.guard.note()

    def tell(self, words, script, passed):
        """Runs the program, and hands on its lines; once a second it is noted how far they are. The program's status."""
        told, fails = 0, False
        # The program has the locks, too: where this is killed and the program goes on alone, no other run begins before it ends.
        locks = [it.fileno() for it in self.guard.held]
        with subprocess.Popen(words, cwd=self.folder, stdin=subprocess.PIPE, stdout=subprocess.PIPE, pass_fds=locks) as run:
            feeder = start_feeding(run, bytes_of(script.rest(passed)))
            try:
                for self.last in run.stdout:
                    told += self.hear(self.last)
                    if told and (self.noted is None or time.monotonic() > self.noted + 1):
                        self.note(script)
                    put_out(self.by_the_script(self.last, passed))
            except OutputFails:
                # The program meets a closed output, and ends.
                fails = True
                run.stdout.close()
            feeder.join()
        if run.returncode in ENDS_A_LINE and told and not fails:
            self.place.done -= 1
        if fails:
            return OUTPUT
        return run.returncode if run.returncode >= 0 else 128 - run.returncode

    def hear(self, line):
        """Counts a line that was told as done, and its update where it put one; whether it is one. Of others it hears alarms."""
        alarm = self.listener.hear(line)
        if alarm:
            say(alarm.told)
            if alarm.ring:
                self.guard.ring(alarm.ring)
                self.noted = None
        head, arrow, answer = line.partition(b" ->")
        if not arrow or line.startswith(b" "):
            return False
        self.place.done += 1
        if head.split(b" ")[0].decode("ascii", "replace") in PUTS and b"/" in answer:
            self.place.puts += 1
        return True

    def by_the_script(self, line, passed):
        """A line that tells a fault of the script, by the script's own name and lines; each other as it is."""
        fault = re.fullmatch(b"input %s line ([0-9]+) (.*\n)" % re.escape(STDIN), line)
        if not fault:
            return line
        name = STDIN if self.options.script == "-" else os.fsencode(self.options.script)
        return b"input %s line %d %s" % (name, passed + int(fault.group(1)), fault.group(2))

    def explain(self, status, lines):
        """Says what keeps a file from being read or written, where the program says that one failed."""
        if status == DISK:
            say_cause(self.journal.path, cause_at(self.journal.path, True))
        name = os.fsdecode(self.last[len(b"shelf ") : -1])
        if status == SHELF and self.last.startswith(b"shelf "):
            line = lines[self.place.done] if self.place.done < len(lines) else ""
            path, is_stored = os.path.join(self.folder, name), bytes_of(stored_by(line)[0] or "") == os.fsencode(name)
            is_own = is_stored and is_same(path, self.journal.path)
            say_cause(path, "it is the node's own journal" if is_own else cause_at(path, is_stored))


def say_cause(path, cause):
    say("%s: %s" % (path, cause or "a look at it finds no cause"))


def start_feeding(run, script):
    """Starts to give the program its script. Where no thread is to be had the program is ended: it waits for its script, and did nothing."""
    feeder = threading.Thread(target=feed, args=(run.stdin, script))
    try:
        feeder.start()
    except RuntimeError as why:
        run.kill()
        raise Refused("the program can't be given its script: %s" % why)
    return feeder


def feed(stream, data):
    """Gives the program its script; one that ends before leaves it unread."""
    try:
        stream.write(data)
        stream.close()
    except BrokenPipeError:
        pass


# ---- words


class Parser(argparse.ArgumentParser):
    """Ends as the program does where the words are none."""

    def error(self, message):
        self.print_usage(sys.stderr)
        say(message)
        self.exit(NO_WORDS)


def node_number(word):
    if not re.fullmatch("[1-9][0-9]{0,4}", word) or int(word) > 65535:
        raise argparse.ArgumentTypeError("%s is no number of a node, 1 to 65535" % word)
    return int(word)


def options_of(words):
    parser = Parser(description=__doc__, formatter_class=argparse.RawDescriptionHelpFormatter)
    parser.add_argument("roster", metavar="ROSTER", nargs="?")
    parser.add_argument("seedfile", metavar="SEEDFILE", nargs="?")
    parser.add_argument("id", metavar="ID", type=node_number, nargs="?")
    parser.add_argument("script", metavar="SCRIPT", nargs="?")
    parser.add_argument("--first", action="store_true")
    parser.add_argument("--anew", action="store_true")
    parser.add_argument("--check", action="store_true")
    parser.add_argument("--though-convicted", action="store_true")
    parser.add_argument("--folder", metavar="FOLDER", default=".")
    parser.add_argument("--program", metavar="PATH", default=os.path.join(HERE, os.pardir, "depot"))
    options = parser.parse_args(words)
    if options.script is None and not options.check:
        parser.error("a run takes ROSTER SEEDFILE ID SCRIPT")
    if options.check and options.roster is not None and options.id is None:
        parser.error("--check takes ROSTER SEEDFILE ID, or none of them")
    options.program = os.path.abspath(options.program)
    return options


def main(words):
    options = options_of(words)
    if sys.stdout is None:
        say("standard output is closed, so nothing was begun")
        return OUTPUT
    try:
        runner = Runner(options)
        with contextlib.closing(runner.guard):
            return runner.check() if options.check else runner.run(Script(read_script(options.script)))
    except KeyboardInterrupt:
        return 130
    except OutputFails:
        return OUTPUT
    except (Refused, Unfit, f.IllFormed, OSError) as why:
        say(told_of(why))
    except MemoryError:
        say("no memory was found")
    except UnicodeError as why:
        say("a name has letters that this locale doesn't have: %s" % why)
    return REFUSED


if __name__ == "__main__":
    sys.exit(main(sys.argv[1:]))
