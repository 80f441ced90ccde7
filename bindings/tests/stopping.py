"""Stops the C caller in each of its calls on the file, and starts from what it left by the library and by the program.

    python3 stopping.py PUTS PUTS_WITH_STOPS LIBRARY ROSTER SEED HEIGHT NUMBER

PUTS is puts.c, PUTS_WITH_STOPS the same with stop_at.c, and LIBRARY the shared object for puts.py. DEPOT names the program, which is else the launcher.
Each put that was told stands, and at most one more; both read the same records, and go on in the same way. Where a call
fails, none is made after it. Interrupted calls leave the file that the program makes, and where `strace` is there the calls
on the file are the program's, those of the Python caller too."""
import os
import re
import shutil
import subprocess
import sys
import tempfile

HERE = os.path.dirname(os.path.abspath(__file__))
DEPOT = os.environ.get("DEPOT", os.path.join(HERE, "..", "..", "depot"))
JOURNAL, PUTS = "depot.journal", 3


def script(count):
    """The puts of puts.c, for the program."""
    lines = ["put %s %s\n" % (("k%d" % (i % 7)).encode().hex(), ("v%d" % i).encode().hex()) for i in range(count)]
    return "".join(lines)


class Caller:
    def __init__(self, puts, stopping, library, roster, seed, height, number):
        self.puts, self.stopping, self.shared, self.who = puts, stopping, library, (roster, seed, height, number)

    def library(self, folder, count, stop=None, before=()):
        """The lines and the status of a run of the C caller."""
        words = [*before, self.stopping if stop else self.puts, *self.who, folder, str(count)]
        done = subprocess.run(words, stdout=subprocess.PIPE, env={**os.environ, **({"STOP": stop} if stop else {})}, check=False)
        return done.stdout.decode().splitlines(), done.returncode

    def python(self, folder, count, before=()):
        """The lines of a run of the Python caller."""
        words = [*before, sys.executable, "-B", os.path.join(HERE, "puts.py"), self.shared, *self.who, folder, str(count)]
        return subprocess.run(words, stdout=subprocess.PIPE, check=True).stdout.decode().splitlines()

    def program(self, folder, count, before=()):
        """The numbers that the program tells of the same puts, and its status."""
        roster, seed, height, number = self.who
        words = [*before, DEPOT, "node", os.path.abspath(roster), seed, height, number, "/dev/stdin"]
        done = subprocess.run(words, input=script(count).encode(), stdout=subprocess.PIPE, cwd=folder, check=False)
        return [line.split(" -> ")[1] for line in done.stdout.decode().splitlines()], done.returncode


def journal(folder):
    with open(os.path.join(folder, JOURNAL), "rb") as file:
        return file.read()


def front(data):
    """The records of a file with their gates, up to the closed one."""
    at = 0
    while len(data) > 1 and data[at] == 1:
        at += 5 + int.from_bytes(data[at + 1:at + 5], "big")
    return data[:at]


def seq_of(line):
    return int(line.split("/")[0])


def goes_on(caller, room, left, told):
    """Starts from what was left by both; each puts once more. All that was told stands, and at most one put more."""
    by_library, by_program = os.path.join(room, "library"), os.path.join(room, "program")
    for folder in (by_library, by_program):
        shutil.copytree(left, folder)
    lines, status = caller.library(by_library, 1)
    answers, program_status = caller.program(by_program, 1)
    assert status == 0 and program_status == 0, (status, program_status, lines, answers)
    assert lines[0] == answers[0], (lines, answers)
    assert seq_of(lines[0]) - len(told) in (0, 1), (lines, told)
    assert front(journal(by_library)) == front(journal(by_program))
    assert journal(by_library).startswith(front(journal(left)))
    shutil.rmtree(by_library)
    shutil.rmtree(by_program)


def stops(caller, kind, whole):
    """Stops it in the first call, in the second and so on, until it isn't stopped any more. Says how often it was."""
    for call in range(1, 1000):
        with tempfile.TemporaryDirectory() as room:
            folder = os.path.join(room, "left")
            os.mkdir(folder)
            told, status = caller.library(folder, PUTS, "%s %d" % (kind, call))
            if status == 0:
                assert journal(folder) == whole
                return call - 1
            assert status == (-9 if kind == "kill" else 4), (status, told)
            if kind == "fail":
                assert told.pop() == "disk"
            goes_on(caller, room, folder, told)
    raise AssertionError("it never ended")


def calls(run):
    """The calls on the file and its folder, as strace tells them: the lock, the syncs, and what is written where."""
    with tempfile.TemporaryDirectory() as room:
        log, folder, names = os.path.join(room, "log"), os.path.join(room, "node"), "flock|fsync|fdatasync|lseek|write|pwrite64"
        os.mkdir(folder)
        run(folder, PUTS, before=["strace", "-f", "-y", "-xx", "-s", "100000", "-e", "trace=" + names.replace("|", ","), "-o", log])
        with open(log, encoding="utf-8") as file:
            found = re.findall(r" (%s)\((\d+)<(.*?)>(?:, )?(.*)\) += " % names, file.read())
    at, told = 0, []
    for name, _, path, rest in found:
        path, words = re.sub(r"\\x(..)", lambda byte: chr(int(byte.group(1), 16)), path), rest.split(", ")
        if os.path.basename(path) not in (JOURNAL, "node"):
            continue
        if name == "lseek":
            at = int(words[0])
        elif name in ("write", "pwrite64"):
            told.append(("write", words[0], words[1], int(words[2]) if name == "pwrite64" else at))
        else:
            told.append((name, *words))
    return told


def main(*words):
    caller = Caller(*words)
    with tempfile.TemporaryDirectory() as room:
        one, two, three = (os.path.join(room, name) for name in ("one", "two", "three"))
        for folder in (one, two, three):
            os.mkdir(folder)
        assert caller.library(one, PUTS)[0][:-1] == caller.program(two, PUTS)[0]
        whole = journal(one)
        assert whole == journal(two)
        assert caller.library(three, PUTS, "interrupt 0")[1] == 0
        assert journal(three) == whole
        print("interrupted calls, one byte each: the same file")
    for kind in ("kill", "fail"):
        print("%s: stopped in %d calls, each time both go on" % (kind, stops(caller, kind, whole)))
    if shutil.which("strace"):
        of_program = calls(caller.program)
        for of_library in (calls(caller.library), calls(caller.python)):
            assert of_library == of_program, (of_library, of_program)
        print("strace: the same %d calls on the file" % len(of_program))


main(*sys.argv[1:])
