"""Members on this machine for tests and measures: their files, their processes, and links between them that can be bad."""

import asyncio
import os
import random
import resource
import shutil
import signal
import subprocess
import sys
import time
from typing import Dict, List, Optional

import cases
import formats
from asking import Client, Gone
from depot_service import making
from stand_in import free_ports

DEPOTD = os.path.join(cases.SERVICE, "depotd")
PROGRAM = os.environ.get("DEPOT_PROGRAM", os.path.normpath(os.path.join(cases.SERVICE, os.pardir, "depot")))
WATCHED, BROKEN = os.path.join(cases.HERE, "watched_depot"), os.path.join(cases.HERE, "broken_depot")
SOON = {"round": 1, "push": 0.05, "again": 0.2, "most again": 1, "unmoved": 1, "most unmoved": 5, "convicted": 3}
LOCKED = 75
GIVEN = set()


class Failed(Exception):
    """What has to hold doesn't. `status` is that of a process that ended by itself."""

    def __init__(self, why: str, status: Optional[int] = None):
        super().__init__(why)
        self.status = status


def free_port() -> int:
    """A port of loopback that nobody listens at now, that isn't given twice, and that no call takes as its own end."""
    while True:
        port = free_ports(1)[0]
        if port not in GIVEN:
            GIVEN.add(port)
            return port


def section(name: str, words: dict) -> str:
    """A section of a config."""
    return "[%s]\n%s\n" % (name, "".join("%s = %s\n" % it for it in words.items()))


class Proxy:
    """A link from one process to another: up, cut, slow, or one that flips bits."""

    def __init__(self, target: int, draw: random.Random):
        self.port, self.target, self.draw, self.mode, self.open = free_port(), target, draw, "up", set()

    async def start(self):
        """Listens; itself."""
        self.server = await asyncio.start_server(self.accept, "127.0.0.1", self.port)
        return self

    def set(self, mode: str) -> None:
        """Changes what the link does; a cut one loses what is under way."""
        self.mode = mode
        for writer in list(self.open) if mode == "cut" else ():
            writer.transport.abort()

    async def accept(self, reader, writer) -> None:
        """Carries bytes both ways."""
        if self.mode == "cut":
            writer.transport.abort()
            return
        try:
            there, back = await asyncio.open_connection("127.0.0.1", self.target)
        except OSError:
            writer.transport.abort()
            return
        pair = {writer, back}
        self.open |= pair
        try:
            await asyncio.gather(self.carry(reader, back), self.carry(there, writer))
        except asyncio.CancelledError:
            pass
        finally:
            self.open -= pair

    async def carry(self, reader, writer) -> None:
        """Carries bytes one way, as the mode says."""
        try:
            while True:
                data = await reader.read(65_536)
                if not data:
                    break
                if self.mode == "slow":
                    await asyncio.sleep(0.05 + len(data) / 200_000)
                if self.mode == "flip" and self.draw.random() < 0.3:
                    data = bytearray(data)
                    data[self.draw.randrange(len(data))] ^= 1 << self.draw.randrange(8)
                writer.write(data)
                await writer.drain()
        except OSError:
            pass
        finally:
            writer.close()


class Process:
    """A service's process, that can be ended in several ways. What it says goes into a file beside its config."""

    def __init__(self, config: str, http: int, env: Optional[dict] = None):
        self.config, self.http, self.env = config, http, dict(os.environ, DEPOT_PROGRAM=PROGRAM, **(env or {}))
        self.log, self.process, self.is_first = config + ".log", None, True
        self.most_memory, self.seconds, self.last = 0, 0.0, 0.0
        self.client = Client(http)

    def start(self, *words: str, limit: Optional[int] = None) -> "Process":
        """Starts it, for the first time with --first; `limit` bounds the bytes of its files."""
        words = words or (("--first",) if self.is_first else ())
        self.is_first, self.last = False, 0.0
        before = (lambda: resource.setrlimit(resource.RLIMIT_FSIZE, (limit, limit))) if limit else None
        with open(self.log, "ab") as log:
            self.process = subprocess.Popen(
                [sys.executable, "-B", DEPOTD, self.config, *words], stdout=log, stderr=log, stdin=subprocess.DEVNULL, env=self.env, preexec_fn=before)
        return self

    def is_alive(self) -> bool:
        """Whether it runs."""
        return self.process is not None and self.process.poll() is None

    def said(self, most: int = 1_500) -> str:
        """What it said last, so many characters at most."""
        with open(self.log, encoding="utf-8", errors="replace") as file:
            return file.read()[-most:]

    def pids(self) -> List[int]:
        """Its own and those of its children, and of theirs."""
        found, at = [self.process.pid], 0
        while at < len(found):
            try:
                with open("/proc/%d/task/%d/children" % (found[at], found[at]), encoding="ascii") as file:
                    found += map(int, file.read().split())
            except OSError:
                pass
            at += 1
        return found

    def look(self) -> None:
        """Measures the memory and the processor time of it and its children."""
        memory, seconds = 0, 0.0
        for pid in self.pids() if self.is_alive() else []:
            try:
                with open("/proc/%d/statm" % pid, encoding="ascii") as file:
                    memory += int(file.read().split()[1]) * resource.getpagesize()
                with open("/proc/%d/stat" % pid, encoding="ascii") as file:
                    words = file.read().rsplit(")", 1)[1].split()
                seconds += (int(words[11]) + int(words[12])) / os.sysconf("SC_CLK_TCK")
            except (OSError, IndexError):
                pass
        self.most_memory = max(self.most_memory, memory)
        if seconds > self.last:
            self.seconds, self.last = self.seconds + seconds - self.last, seconds

    def kill(self, is_all: bool = True) -> None:
        """Kills it, and at the same time its children where that is said."""
        if self.is_alive():
            self.look()
            for pid in self.pids() if is_all else [self.process.pid]:
                try:
                    os.kill(pid, signal.SIGKILL)
                except ProcessLookupError:
                    pass
            self.process.wait()
        self.client.close()

    async def end(self, seconds: float = 60.0) -> Optional[int]:
        """Ends it by SIGTERM; its status, or None where it had to be killed."""
        if self.is_alive():
            self.look()
            os.kill(self.process.pid, signal.SIGTERM)
        return await self.ended(seconds)

    async def ended(self, seconds: float = 60.0) -> Optional[int]:
        """Its status once it ends; None where it has to be killed."""
        until = time.monotonic() + seconds
        while self.process.poll() is None:
            if time.monotonic() > until:
                self.kill()
                return None
            await asyncio.sleep(0.02)
        self.client.close()
        return self.process.returncode

    async def ready(self, seconds: float = 90.0) -> "Process":
        """Waits until it answers. One whose journal is still locked by a child of the run before is started again."""
        until = time.monotonic() + seconds
        while time.monotonic() < until:
            if not self.is_alive():
                if self.process.returncode != LOCKED:
                    raise Failed("%s ended with %s: %s" % (self.config, self.process.returncode, self.said()), self.process.returncode)
                await asyncio.sleep(0.1)
                self.start()
            try:
                if (await self.client.ask("GET", "/healthz")).code == 200:
                    return self
            except Gone:
                pass
            await asyncio.sleep(0.03)
        raise Failed("%s isn't ready: %s" % (self.config, self.said()))


class Cluster:
    """The files of members on this machine: seeds, certificates, a roster, and configs that a test writes."""

    def __init__(self, folder: str, heights: Dict[int, int], program: str = WATCHED):
        shutil.rmtree(folder, ignore_errors=True)
        os.makedirs(folder)
        self.folder, self.program, self.roster = folder, program, os.path.join(folder, "roster")
        self.made = {node: making.make_member(self.home(node), node, height, PROGRAM) for node, height in heights.items()}
        self.listen = {node: free_port() for node in heights}
        with open(self.roster, "wb") as file:
            file.write(formats.roster_text([it.member for it in self.made.values()]))

    def home(self, node: int) -> str:
        """The folder of a member's files."""
        return os.path.join(self.folder, "member%d" % node)

    def journal(self, node: int) -> str:
        """The file of a member's journal."""
        return os.path.join(self.home(node), "node", "depot.journal")

    def config(self, node: int, peers: Dict[int, int], home: str = "", listen: int = 0, name: str = "", program: str = "", **more) -> Process:
        """The process of a member that calls these others at these ports. `more` are sections beside those that are always there."""
        made, home, http = self.made[node], home or self.home(node), free_port()
        text = section("member", {
            "number": node, "height": made.member.height, "roster": self.roster, "seed": os.path.join(home, "seed"),
            "folder": os.path.join(home, "node"), "program": program or self.program})
        text += section("http", {"listen": "127.0.0.1:%d" % http})
        if peers:
            text += section("links", {
                "listen": "127.0.0.1:%d" % (listen or self.listen[node]), "certificate": os.path.join(home, "certificate.pem"),
                "key": os.path.join(home, "key.pem")})
        for other, port in peers.items():
            text += section("peer %d" % other, {"address": "127.0.0.1:%d" % port, "certificate": self.made[other].certificate})
        for title, words in dict({"pace": SOON}, **more).items():
            text += section(title, words)
        path = os.path.join(self.folder, "%s.conf" % (name or node))
        with open(path, "w", encoding="utf-8") as file:
            file.write(text)
        return Process(path, http)

    def mesh(self, nodes, **more) -> Dict[int, Process]:
        """Processes of members that call each other, without proxies."""
        return {it: self.config(it, {other: self.listen[other] for other in nodes if other != it}, **more) for it in nodes}


# ---- what processes are asked together


async def in_step(processes, seconds: float = 90.0) -> float:
    """How long it takes until all have the same updates and show the same; Failed where they don't in time."""
    begun, told = time.monotonic(), []
    while time.monotonic() - begun < seconds:
        told = [await it.client.status() for it in processes]
        if len({(it["updates"], tuple(it["convicted"])) for it in told}) == 1 and len({str(it) for it in await views(processes)}) == 1:
            return time.monotonic() - begun
        await asyncio.sleep(0.1)
    raise Failed("not in step: %s" % [(it["node"], it["updates"], it["convicted"]) for it in told])


async def views(processes) -> list:
    """What each process shows of all keys."""

    async def view(it):
        return [(key, await it.client.writes(cases.bytes_of_key(key))) for key in await it.client.keys()]

    return [await view(it) for it in processes]


async def ended(processes) -> None:
    """Ends all well; Failed where one doesn't."""
    statuses = await asyncio.gather(*(it.end() for it in processes))
    if any(statuses):
        raise Failed("statuses of ends: %s" % statuses)


# ---- what lies on the disk


def records_of(path: str) -> list:
    """The records of a journal."""
    with open(path, "rb") as file:
        return formats.read_journal(file.read()).records


def ids_of(path: str) -> set:
    """The ids of all updates in a journal."""
    return {it.id for it in formats.updates_of(records_of(path))}


def trace_of(folder: str, node: int) -> bytes:
    """The trace of a node's folder: its journal's records and the reads that watched_depot wrote. One that is cut is left out."""
    with open(os.path.join(folder, "depot.journal"), "rb") as file:
        data = file.read()
    texts, reads, at = [data[gate + 5 : end] for gate, end in formats.spans_of(data)], [], 0
    try:
        with open(os.path.join(folder, "reads.log"), "rb") as file:
            log = file.read()
    except FileNotFoundError:
        log = b""
    while at + 4 <= len(log):
        end = at + 4 + int.from_bytes(log[at : at + 4], "big")
        if end <= len(log):
            reads.append(log[at + 4 : end])
        at = end
    parts = [b"\1\5", formats.number(2, node), formats.number(4, len(texts))]
    parts += [formats.number(4, len(it)) + it for it in texts]
    return b"".join(parts + [formats.number(4, len(reads))] + reads)


def run_program(*words: str):
    """What the program prints, and its status."""
    done = subprocess.run([PROGRAM, *words], stdout=subprocess.PIPE, check=False)
    return done.returncode, done.stdout.decode("utf-8", "replace").strip()


def audit(cluster: Cluster, nodes) -> str:
    """What an audit over the traces of all says."""
    paths = []
    for node in nodes:
        paths.append(os.path.join(cluster.folder, "trace%d" % node))
        with open(paths[-1], "wb") as file:
            file.write(trace_of(os.path.join(cluster.home(node), "node"), node))
    return run_program("audit", cluster.roster, *paths)[1]
