"""HTTP on loopback for the programs beside a node: values in and out, who holds them, and how the node does (HTTP.md).

A program asks by a path and a method; what isn't in order is answered by one line. Nothing here signs or keeps: each
request becomes one of the node's, and its answer is the node's reply.
"""

import asyncio
import base64
import contextlib
import inspect
import json
import logging
import re
import time
from typing import NamedTuple

from aiohttp import web

from . import asked, life, messages
from .ends import LOCKED, PROOF, Ends
from .metrics import METHODS, carrier_shown, peers_shown, samples_of, text_of
from .node import Busy, Refused
from .receipts import Waiting

import formats

TEXT, JSON, BYTES, METRICS = "text/plain", "application/json", "application/octet-stream", "text/plain; version=0.0.4"
LOCAL = re.compile(r"(127(\.[0-9]{1,3}){3}|localhost|\[::1\])(:[0-9]{1,5})?")
STOP_SECONDS = 3.0
MOST_LISTED = 8_388_608  # bytes of values in one list of writes; those beyond are told by their length
REFUSALS = {"spent": 507, "full": 507, "tips": 507, "unknown": 404, "not-held": 503}
STATES = {
    "read-only": (507, "this node is read-only: its statements or records are used up"),
    "starting": (503, "the node is starting"),
    "stopping": (503, "the service is stopping"),
}
CONVICTED = 409, "this node is convicted: what it signs counts nowhere"


class Declined(Exception):
    """An answer that says no: its HTTP status and one line."""

    def __init__(self, code, line):
        super().__init__(line)
        self.code = code


class Bounds(NamedTuple):
    """What the service bounds of local programs."""

    connections: int = 64
    idle_seconds: float = 60.0  # of a connection without a request
    body_seconds: float = 30.0  # between two pieces of a body
    waiting: int = 256  # puts that wait for receipts


# ---- answers


def line(code, text, **fields):
    """An answer of one line."""
    return web.Response(status=code, body=text.encode("utf-8", "replace") + b"\n", content_type=TEXT, headers=fields)


def declined(code, text):
    """An answer that says no; one that may be asked again says when."""
    return line(code, text, **({"Retry-After": "1"} if code == 503 else {}))


def listed(told, code=200):
    """An answer in JSON."""
    return web.Response(status=code, body=json.dumps(told).encode("ascii") + b"\n", content_type=JSON)


def text64(data: bytes) -> str:
    """Bytes in base64."""
    return base64.b64encode(data).decode("ascii")


def put_shown(put, writer) -> dict:
    """An update that was put."""
    return {"id": put.id.hex(), "writer": writer, "seq": put.seq, "clock": put.clock}


def write_shown(it, room: int) -> dict:
    """A latest write; its value where it is held and has no more bytes than there is room."""
    told = {"id": it.id.hex(), "writer": it.writer, "seq": it.seq, "clock": it.clock}
    if it.write.is_deletion:
        return dict(told, mark="deleted")
    if it.write.value is None:
        return dict(told, mark="not held", length=it.write.length)
    if len(it.write.value) > room:
        return dict(told, mark="left out", length=it.write.length)
    return dict(told, mark="value", value=text64(it.write.value))


def writes_shown(writes) -> dict:
    """All latest writes of a key."""
    told, room = [], MOST_LISTED
    for it in writes:
        told.append(write_shown(it, room))
        room -= len(it.write.value or b"") if told[-1]["mark"] == "value" else 0
    return {"writes": told}


def names_of(it) -> dict:
    """The fields of an answer's head that name a write's update."""
    return {"Depot-Id": it.id.hex(), "Depot-Writer": str(it.writer), "Depot-Seq": str(it.seq), "Depot-Clock": str(it.clock)}


def value_answer(writes):
    """The answer to a GET: the value that stands alone, or that there is none, or a list of several writes."""
    if not writes:
        return line(404, "nobody wrote this key")
    if len(writes) > 1:
        return listed(writes_shown(writes), 300)
    it = writes[0]
    if it.write.is_deletion:
        return line(404, "deleted", **names_of(it))
    if it.write.value is None:
        return line(503, "its value isn't held here yet", **dict(names_of(it), **{"Retry-After": "1"}))
    return web.Response(body=it.write.value, content_type=BYTES, headers=names_of(it))


# ---- connections


def known_to_library(**options) -> dict:
    """Those of the options that the library's connections know: the versions of systems with Python 3.8 lack some."""
    known = inspect.signature(web.RequestHandler.__init__).parameters
    return {name: it for name, it in options.items() if name in known}


class Server(web.Server):
    """A server that holds so many connections, and closes those that ask nothing for too long."""

    def __init__(self, handler, bounds):
        quiet = logging.getLogger("depot_service.http")
        quiet.addHandler(logging.NullHandler())  # a stranger's bad request is answered, and fills no log
        quiet.propagate = False
        options = known_to_library(auto_decompress=False, lingering_time=1.0)
        super().__init__(self.timed, logger=quiet, access_log=None, keepalive_timeout=bounds.idle_seconds, **options)
        self.handler, self.bounds, self.since = handler, bounds, {}

    def connection_made(self, handler, transport):
        super().connection_made(handler, transport)
        self.since[handler] = time.monotonic()
        if len(self.connections) > self.bounds.connections:
            transport.abort()

    def connection_lost(self, handler, exc=None):
        super().connection_lost(handler, exc)
        self.since.pop(handler, None)

    async def timed(self, request):
        """Answers a request; the connection isn't idle meanwhile."""
        self.since.pop(request.protocol, None)
        try:
            return await self.handler(request)
        finally:
            self.since[request.protocol] = time.monotonic()

    async def sweep(self):
        """Closes idle connections, for ever."""
        while True:
            await asyncio.sleep(min(5.0, self.bounds.idle_seconds / 2))
            due = time.monotonic() - self.bounds.idle_seconds
            for handler, since in list(self.since.items()):
                if since < due and handler.transport is not None:
                    handler.transport.abort()


class Web:
    """The HTTP of a service (depotd.Service): its node, its state, and how it does with the other members."""

    def __init__(self, service, bounds=Bounds()):
        self.service, self.node, self.bounds = service, service.node, bounds
        self.waiting = Waiting(service.node, self.ask_receipts, bounds.waiting)
        self.counts, self.members = {}, ()
        self.server, self.runner, self.sweeper = None, None, None
        self.paths = {
            ("GET", "/v1/keys"): self.keys, ("GET", "/v1/status"): self.status, ("GET", "/v1/convictions"): self.convictions,
            ("GET", "/v1/updates"): self.updates, ("GET", "/healthz"): self.health, ("GET", "/metrics"): self.metrics,
            ("POST", "/v1/put"): self.put_several,
        }
        self.fronts = {
            ("GET", "/v1/values/"): self.get, ("PUT", "/v1/values/"): self.put, ("DELETE", "/v1/values/"): self.delete,
            ("GET", "/v1/settled/"): self.settled,
        }

    async def start(self) -> int:
        """Listens; gives the port. Ends where another listens there."""
        with open(self.service.config.member.roster, "rb") as file:
            self.members = tuple(it.node for it in formats.read_roster(file.read()))
        at = self.service.config.http.listen
        self.server = Server(self.handle, self.bounds)
        self.runner = web.ServerRunner(self.server)
        await self.runner.setup()
        try:
            await web.TCPSite(self.runner, at.host, at.port, backlog=128).start()
        except OSError as why:
            raise Ends(LOCKED, "the service can't listen at %s for local programs: %s" % (at, why.strerror or why))
        self.sweeper = asyncio.ensure_future(self.server.sweep())
        return self.runner.addresses[0][1]

    async def stop(self) -> None:
        """Answers what was asked, and listens no more."""
        if self.sweeper:
            self.sweeper.cancel()
        self.waiting.close()
        if self.runner:
            with contextlib.suppress(asyncio.TimeoutError):
                await asyncio.wait_for(self.runner.cleanup(), STOP_SECONDS)

    async def ask_receipts(self, ids) -> None:
        """Asks the other members to sign that they have these updates."""
        if self.service.rounds is not None:
            await self.service.rounds.ask_receipts(ids)

    def state(self) -> str:
        """The service's state, or that somebody holds a proof against its node."""
        over = self.node.over
        return "convicted" if over.done() and over.result().status == PROOF else self.service.state

    # ---- one request

    async def handle(self, request):
        """The answer to a request, whatever it is."""
        answer = await self.answered(request)
        name = request.method if request.method in METHODS else "other", answer.status
        self.counts[name] = self.counts.get(name, 0) + 1
        if not request.content.at_eof():
            answer.force_close()  # what is left of a body isn't read
        return answer

    async def answered(self, request):
        """The answer, or the line that says why there is none."""
        try:
            self.demand_local(request)
            return await self.route(request)
        except asked.Bad as why:
            return line(400, str(why))
        except messages.BadRequest as why:
            return line(400, str(why))
        except Declined as why:
            return declined(why.code, str(why))
        except Refused as why:
            return declined(REFUSALS.get(why.reason.limit or why.reason.kind, 500), str(why))
        except Busy as why:
            return declined(503, "the queue is full: %s" % why)
        except Ends:
            return declined(503, "the node has ended")

    def demand_local(self, request):
        """Refuses what a browser sends for a page from elsewhere: a foreign Host, any Origin, or another site's picture or link."""
        fields = request.headers
        is_sent_by_page = "Origin" in fields or fields.get("Sec-Fetch-Site", "none") != "none"
        if is_sent_by_page or not LOCAL.fullmatch(fields.get("Host", "localhost")):
            raise Declined(403, "only programs of this machine ask here")

    async def route(self, request):
        """Finds what a path means."""
        path, _, query = request.raw_path.partition("?")
        if (request.method, path) in self.paths:
            return await self.paths[request.method, path](request, query)
        for (method, front), function in self.fronts.items():
            if method == request.method and path.startswith(front):
                return await function(request, query, path[len(front) :])
        known = {it for _, it in self.paths}
        if path in known or any(path.startswith(it) for _, it in self.fronts):
            raise Declined(405, "%s isn't done to this path" % request.method[:20])
        raise Declined(404, "no such path")

    async def body_of(self, request, most: int) -> bytes:
        """The body, up to so many bytes."""
        if "Content-Encoding" in request.headers:
            raise Declined(400, "a body is taken as it is: it has no Content-Encoding here")
        if (request.content_length or 0) > most:
            raise Declined(413, "a body has at most %d bytes here" % most)
        data = bytearray()
        try:
            while len(data) <= most:
                piece = await asyncio.wait_for(request.content.readany(), self.bounds.body_seconds)
                if not piece:
                    return bytes(data)
                data += piece
        except asyncio.TimeoutError:
            raise Declined(408, "the body came too slowly")
        except Exception:  # the library has many names for a body that is cut, or is none
            raise Declined(400, "the body was cut, or isn't in its form")
        raise Declined(413, "a body has at most %d bytes here" % most)

    # ---- values

    async def get(self, _, query, name):
        """GET /v1/values/KEY[?all=1]"""
        key, words = asked.key_in(asked.bytes_of(name)), asked.query_of(query, ("all",))
        is_all = asked.number_in(words, "all", 1, 0)
        found = (await self.node.latest(key)).writes
        return listed(writes_shown(found)) if is_all else value_answer(found)

    async def put(self, request, query, name):
        """PUT /v1/values/KEY[?copies=K&wait=S]"""
        key, copies = asked.written(asked.bytes_of(name)), self.copies_of(query)
        value = asked.value_in(await self.body_of(request, asked.MOST_VALUE))
        return await self.changed([asked.Change(key, value)], copies)

    async def delete(self, _, query, name):
        """DELETE /v1/values/KEY[?copies=K&wait=S]"""
        return await self.changed([asked.Change(asked.written(asked.bytes_of(name)), None)], self.copies_of(query))

    async def put_several(self, request, query):
        """POST /v1/put[?copies=K&wait=S]"""
        copies = self.copies_of(query)
        return await self.changed(asked.changes_of(await self.body_of(request, asked.MOST_CHANGES_BODY)), copies)

    def copies_of(self, query):
        """How many receipts a put waits for; no more than there are other members."""
        copies = asked.copies_in(asked.query_of(query, ("copies", "wait")))
        others = len(self.members) - 1
        if copies.count > others:
            raise asked.Bad("copies is %d, and there are %d other members" % (copies.count, others))
        return copies

    async def changed(self, changes, copies):
        """Puts an update, and waits for receipts where that was asked."""
        state = self.state()
        if state != "ready":
            raise Declined(*STATES.get(state, CONVICTED))
        put = await self.node.put(changes)
        told = put_shown(put, self.service.config.member.node)
        if not copies.count:
            return listed(told)
        try:
            is_settled = await self.waiting.settled(put.id, copies.count, copies.wait)
        except (Busy, Ends):  # the put stands: who were told to ask again would put twice
            is_settled = False
        return listed(dict(told, copies=copies.count, settled=is_settled), 200 if is_settled else 202)

    async def settled(self, _, query, name):
        """GET /v1/settled/ID?copies=K[&wait=S]"""
        id, copies = asked.id_in(name), asked.copies_in(asked.query_of(query, ("copies", "wait")))
        if not copies.count:
            raise asked.Bad("copies is lacking: how many members are to have given a receipt")
        wait = copies.wait if "wait=" in query else 0.0
        return listed({"id": name, "copies": copies.count, "settled": await self.waiting.settled(id, copies.count, wait)})

    # ---- what the node knows

    async def keys(self, _, query):
        """GET /v1/keys[?above=KEY]"""
        above = asked.bytes_of(asked.query_of(query, ("above",)).get("above", ""))
        found = await self.node.keys(asked.key_in(above) if above else b"")
        return listed({"keys": [asked.percent(it) for it in found.keys], "more": found.has_more})

    async def updates(self, _, query):
        """GET /v1/updates[?from=N]"""
        start = asked.number_in(asked.query_of(query, ("from",)), "from", 2**32 - 1, 0)
        found = await self.node.updates(start)
        told = [
            dict(item=start + at, id=it.id.hex(), writer=it.writer, seq=it.seq, clock=it.clock, keys=[asked.percent(key) for key in it.keys])
            for at, it in enumerate(found.updates)
        ]
        return listed({"updates": told, "more": found.has_more, "next": start + len(told)})

    async def convictions(self, _, query):
        """GET /v1/convictions[?from=N]"""
        start = asked.number_in(asked.query_of(query, ("from",)), "from", 2**32 - 1, 0)
        found = await self.node.convictions(start)
        told = [dict(record=it.record, node=it.node, proof=text64(it.text)) for it in found.proofs]
        return listed({"convictions": told, "more": found.has_more, "next": told[-1]["record"] + 1 if told else start})

    async def status(self, _, query):
        """GET /v1/status"""
        asked.query_of(query, ())
        it = await self.node.status()
        told = {
            "node": it.node, "roster": it.roster.hex(), "statements": it.statements, "statements_left": it.left(), "records": it.records,
            "records_left": max(0, life.MOST_RECORDS - it.records), "journal_bytes": it.journal_bytes, "updates": it.updates,
            "foreign_leaves": it.foreign_leaves, "convicted": list(it.convicted), "state": self.state(), "why": self.service.why,
            "warnings": life.warnings(it), "peers": peers_shown(self.service.rounds),
            "carrier": carrier_shown(self.service.carrier),
        }
        return listed(told)

    async def health(self, _, query):
        """GET /healthz"""
        asked.query_of(query, ())
        state = self.state()
        return line(200 if state in ("ready", "read-only") else 503, state)

    async def metrics(self, _, query):
        """GET /metrics"""
        asked.query_of(query, ())
        status = await self.node.status()
        text = text_of(status, self.state(), self.counts, samples_of(self.service))
        return web.Response(body=text.encode("utf-8"), headers={"Content-Type": METRICS})
