#!/usr/bin/env python3
"""Proves the libraries below a crate side by side, and then has `rt` do the rest, for the launcher and for builders.

Usage: build.py CRATE [--log FILE] WORDS ..    proves what is below the crate, and calls rt in its folder with these words
       build.py CRATE --plan                   tells how long the proof from nothing takes, and the longest way through the crates

WORDS are those of rt, as `check` or `run -- key SEED 2`. rt proves one library after another. Here as many are proved at once as there are
processors and memory: first those with the longest way behind them, each once those below it are proved, and with more jobs where
processors are idle. What is kept in out/ is rt's own, so that each can go on from the other, and an interrupt keeps what was proved. Standard
error tells once a minute how far it is, by the seconds of `times.txt`. What rt says goes into FILE, where one is named. With DEPOT_PROCESSORS=2 in
the environment two processors are used.
"""
import copy
import os
import signal
import subprocess
import sys
import tempfile
import threading
import time
from concurrent.futures import FIRST_COMPLETED, ThreadPoolExecutor, wait
from pathlib import Path

import rt as kit

ROOT = Path(__file__).resolve().parent.parent
# The most jobs of one check, those that rt itself gives a crate, and what each job beyond the first adds to its speed, as measured of depot_base.
MOST_JOBS = 4
JOBS_OF_RT = 2
MORE_SPEED = 0.6
# A crate gets a second, third and fourth job where its way is so many times as long as all that is left on all processors; and the least of a
# processor that has to be idle for another crate.
OVER = (0.9, 1.1, 1.5)
LEAST_IDLE = 0.6
# The memory that a check may take, in bytes, and each job beyond its first.
FOR_CHECK = 3_000_000_000
FOR_JOB = 1_000_000_000
# How often it is said how far the proof is, in seconds.
EACH = float(os.environ.get("DEPOT_SAYS_EACH", "60"))


def say_on(number):
    """What says a line to whoever looks on, on the file of this number."""
    return lambda text: os.write(number, f"depot: {text}\n".encode())


def log_to(file):
    """Has all that is printed from here on go into a file. Gives what says a line where errors went before."""
    said = say_on(os.dup(2))
    log = os.open(file, os.O_WRONLY | os.O_APPEND | os.O_CREAT, 0o666)
    for number in (1, 2):
        os.dup2(log, number)
    os.close(log)
    return said


def processors(rt=None):
    """How many processors are used: as many as the environment names, or as many as rt counts, which knows of quotas."""
    named = os.environ.get("DEPOT_PROCESSORS", "")
    counted = getattr(rt, "processors", lambda: len(os.sched_getaffinity(0)))
    return int(named) if named.isdigit() and int(named) else counted()


def uses_of_crates():
    """What each crate of crates.txt uses of the repository, by its name."""
    lines = [line.partition("#")[0].partition(":") for line in (ROOT / "crates.txt").read_text().splitlines()]
    uses = {head.split()[0]: tail.split() for head, colon, tail in lines if colon}
    return {name: [it for it in used if it in uses] for name, used in uses.items()}


def with_those_below(crate, uses):
    """The crate and all below it, each after those that it uses."""
    found = {}
    for name in uses[crate]:
        found.update(dict.fromkeys(with_those_below(name, uses)))
    return [*found, crate]


def seconds_of_crates():
    """The seconds of processor time of each crate, by its name."""
    lines = (ROOT / "tools/times.txt").read_text().splitlines()
    return {name: float(seconds) for name, seconds in (line.split() for line in lines if not line.startswith("#"))}


def speed(jobs):
    """How much faster a check is with these jobs than with one, and how many processors it keeps busy."""
    return 1 + MORE_SPEED * (jobs - 1)


class Order:
    """In which order crates are proved, the last of which rt itself proves: what each uses, and its seconds with one job."""

    def __init__(self, names, uses, seconds):
        self.top, self.uses = names[-1], {name: [it for it in uses[name] if it in names] for name in names}
        self.seconds = {name: seconds.get(name, 60.0) for name in names}
        self.behind = dict(self.seconds)
        for name in reversed(names):
            for it in self.uses[name]:
                self.behind[it] = max(self.behind[it], self.seconds[it] + self.behind[name])

    def ready(self, left, done):
        """Of the crates that are left those that could begin, first those with the longest way behind them."""
        return sorted((it for it in left if done.issuperset(self.uses[it])), key=lambda it: (-self.behind[it], it))

    def wanted(self, name, left, processors):
        """How many jobs a crate is worth: several where its way is longer than all that is left would take on all processors."""
        over = self.behind[name] * processors / sum(self.seconds[it] for it in left)
        return 1 + sum(over > it for it in OVER)

    def starts(self, left, done, idle, processors):
        """Which crates begin where so many processors are idle, and with how many jobs: the first ones, which share them."""
        ready = self.ready(left, done)
        for at, name in enumerate(ready):
            if idle < LEAST_IDLE:
                return
            most, wanted = min(processors, JOBS_OF_RT if name == self.top else MOST_JOBS), self.wanted(name, left, processors)
            fits = lambda jobs: speed(jobs) <= idle / (len(ready) - at) + 0.1 or jobs <= wanted and speed(jobs) <= idle + 0.3
            jobs = max(it for it in range(1, most + 1) if it == 1 or fits(it))
            idle -= speed(jobs)
            yield name, jobs

    def steps(self, left, done, processors, running=None):
        """How the rest goes by the seconds: each crate's name, when it ends and with how many jobs. What runs already is the seconds that it
        still takes and its jobs, by its name."""
        now, left, done, running = 0.0, set(left), set(done), dict(running or {})
        while left or running:
            idle = processors - sum(speed(jobs) for _, jobs in running.values())
            for name, jobs in list(self.starts(left, done, idle, processors)):
                left.remove(name)
                running[name] = now + self.seconds[name] / speed(jobs), jobs
            name = min(running, key=lambda it: running[it][0])
            now, jobs = running.pop(name)
            done.add(name)
            yield name, now, jobs

    def length(self, *given):
        """How many seconds the rest takes."""
        return max((end for _, end, _ in self.steps(*given)), default=0.0)

    def longest_way(self):
        """The crates of the longest way, the lowest first."""
        way, among = [], list(self.behind)
        while among:
            way.append(max(among, key=lambda it: self.behind[it]))
            among = [it for it in self.uses if way[-1] in self.uses[it]]
        return way


def tell_plan(order, processors):
    """Prints how long a proof from nothing takes by the seconds of each crate."""
    names = list(order.uses)
    for name, end, jobs in order.steps(names, (), processors):
        print(f"{end / 60:6.1f} min  {name} ({order.seconds[name]:.0f} s, jobs {jobs})")
    total = sum(order.seconds.values())
    print(f"processor time {total:.0f} s; on {processors} processors {order.length(names, (), processors) / 60:.1f} min")
    way = order.longest_way()
    print(f"longest way {sum(order.seconds[it] for it in way) / 60:.1f} min with one job each: {' '.join(way)}")


class Progress:
    """How far a proof is, by the seconds of the crates that are still to do."""

    def __init__(self, order, done, processors, say):
        self.order, self.done, self.processors, self.say = order, set(done), processors, say
        self.left = [it for it in order.uses if it not in self.done]
        self.all = len(self.left)
        self.whole = order.length(self.left, self.done, processors)
        self.begun, self.running, self.pace = time.monotonic(), {}, 1.0
        self.changing = threading.Lock()

    def begins(self, name, jobs):
        """Notes that a crate is begun."""
        with self.changing:
            self.left.remove(name)
            self.running[name] = time.monotonic(), jobs

    def ends(self, name):
        """Notes that a crate is proved."""
        with self.changing:
            del self.running[name]
            self.done.add(name)

    def again(self, name):
        """Notes that a crate is to be begun once more."""
        with self.changing:
            del self.running[name]
            self.left.append(name)

    def remaining(self):
        """The seconds that the rest takes on a machine as fast as that of the table."""
        now, rest = time.monotonic(), {}
        for name, (since, jobs) in self.running.items():
            takes = self.order.seconds[name] / speed(jobs)
            rest[name] = max(takes - (now - since) / self.pace, takes / 20), jobs
        return self.order.length(self.left, self.done, self.processors, rest)

    def line(self):
        """How far the proof is, for whoever waits."""
        with self.changing:
            rest, spent = self.remaining(), time.monotonic() - self.begun
            proved, now = self.all - len(self.left) - len(self.running), ", ".join(self.running)
        done = max(self.whole - rest, 0.0)
        if done >= self.whole / 20:
            self.pace = spent / done
        told = f"{proved} of {self.all} crates are proved; now {now or 'none'}; {int(spent // 60)} min so far"
        return f"{told}, some {int(100 * done / self.whole)}% of the time, some {int(rest * self.pace // 60) + 1} min to go"

    def tell(self):
        """Says how far it is, again and again."""
        while True:
            self.say(self.line())
            time.sleep(EACH)


def free_memory(rt):
    """The bytes of memory that are free, as rt counts them. Where it doesn't, all of the machine's."""
    return getattr(rt, "free", lambda: os.sysconf("SC_PAGE_SIZE") * os.sysconf("SC_PHYS_PAGES"))()


class Builder:
    """Proves libraries side by side by the kit's rt."""

    def __init__(self, rt, program, progress):
        self.crates = {it.name: it for it in program.below()}
        self.progress, self.processors, self.memory = progress, progress.processors, free_memory(rt)
        self.running, self.failed = {}, None

    def prove(self, name, jobs):
        """Proves a library and keeps it, as rt does. Gives the status and what was said."""
        crate = copy.copy(self.crates[name])
        with tempfile.TemporaryFile("w+", errors="replace") as crate.out:
            try:
                status = crate.build_rlib(["--jobs", str(jobs)], False)
            except (SystemExit, OSError) as error:
                status = 2
                print(f"depot: {error}", file=crate.out)
            crate.out.seek(0)
            return status, crate.out.read()

    def has_room(self, jobs):
        """Whether there is memory for a check with so many jobs beside those that run."""
        need = sum(FOR_CHECK + (it - 1) * FOR_JOB for _, it in [("", jobs), *self.running.values()])
        return not self.running or need <= self.memory

    def begin(self, pool):
        """Begins what can begin now."""
        told = self.progress
        idle = self.processors - sum(speed(jobs) for _, jobs in self.running.values())
        for name, jobs in list(told.order.starts(told.left, told.done, idle, self.processors)):
            jobs = next((it for it in range(jobs, 0, -1) if self.has_room(it)), 0)
            if jobs and not self.failed and name in self.crates:
                told.begins(name, jobs)
                self.running[pool.submit(self.prove, name, jobs)] = name, jobs

    def end(self, future):
        """Notes what came of a check. One that was killed, as for memory, is done again, and then one crate after another."""
        name, _ = self.running.pop(future)
        status, said = future.result()
        if status == -signal.SIGKILL and self.processors > 1:
            self.processors = 1
            self.progress.again(name)
            return
        print(f"== {name}\n{said}", end="", flush=True)
        if status:
            self.failed = self.failed or f"== {name}: not proved, so nothing above it is\n{said}"
        else:
            self.progress.ends(name)

    def all(self):
        """Proves all that is left, and gives what to say of the first crate that failed, if one did."""
        with ThreadPoolExecutor(self.processors) as pool:
            self.begin(pool)
            threading.Thread(target=self.progress.tell, daemon=True).start()
            while self.running:
                for future in wait(self.running, return_when=FIRST_COMPLETED).done:
                    self.end(future)
                self.begin(pool)
        return self.failed


def prove_below(rt, program, progress):
    """Proves the libraries below a crate, while no other rt works in their folders. Gives what to say where one failed."""
    held = rt.rtlib.lock([*program.below(), program])
    for crate in [*program.below(), program]:
        rt.rtlib.stop_on_links(crate.folder)
    failed = Builder(rt, program, progress).all()
    for it in held:
        os.close(it)
    return failed


def build(crate, words, say):
    """Proves the libraries below a crate, and calls rt in its folder with these words. Gives the status."""
    folder = ROOT / "crates" / crate
    os.chdir(folder)
    rt, order = kit.load(), order_below(crate)
    if rt is None:
        os.execvp("rt", ["rt", *words])
    # With a handler of its own, Python would wait for the checks.
    if signal.getsignal(signal.SIGINT) is signal.default_int_handler:
        signal.signal(signal.SIGINT, signal.SIG_DFL)
    rt.rtlib.guarded()
    program = rt.rtlib.Crate(str(folder), str(ROOT), {})
    kept = [it.name for it in program.below() if it.is_built()]
    progress = Progress(order, kept, processors(rt), say)
    failed = prove_below(rt, program, progress)
    if failed:
        print(failed, flush=True)
        return 1
    progress.begins(crate, JOBS_OF_RT)
    return rt.main(words)


def order_below(crate):
    """The order of a crate and all below it."""
    uses = uses_of_crates()
    return Order(with_those_below(crate, uses), uses, seconds_of_crates())


def main():
    words = sys.argv[1:]
    if len(words) < 2 or words[0] not in uses_of_crates():
        asked = words in (["-h"], ["--help"])
        print(__doc__, file=sys.stdout if asked else sys.stderr)
        sys.exit(0 if asked else 1)
    if words[1:] == ["--plan"]:
        return tell_plan(order_below(words[0]), processors())
    has_log = words[1] == "--log" and len(words) > 3
    say = log_to(words[2]) if has_log else say_on(2)
    return build(words[0], words[3 if has_log else 1 :], say)


if __name__ == "__main__":
    sys.exit(main())
