"""A small client of a node's HTTP on asyncio, with one connection kept open: for tests and measures."""

import asyncio
import base64
import contextlib
import json
from typing import NamedTuple
from urllib.parse import quote_from_bytes

ENDS = (OSError, asyncio.TimeoutError, asyncio.IncompleteReadError, asyncio.LimitOverrunError, ValueError)


class Gone(Exception):
    """No answer came: what was asked may have been done or not."""


class Answer(NamedTuple):
    """What the service answered."""

    code: int
    fields: dict
    body: bytes

    def json(self):
        """The body as JSON."""
        return json.loads(self.body)


def path_of(key: bytes) -> str:
    """The path of a key."""
    return "/v1/values/" + quote_from_bytes(key, safe="")


def changes_of(changes: dict) -> bytes:
    """The body of a put of several keys; None deletes."""
    told = []
    for key, value in changes.items():
        entry = {"key": quote_from_bytes(key, safe="")}
        entry.update({"delete": True} if value is None else {"value": base64.b64encode(value).decode()})
        told.append(entry)
    return json.dumps({"changes": told}).encode()


class Client:
    """One connection to a service on 127.0.0.1."""

    def __init__(self, port: int, timeout: float = 60.0):
        self.port, self.timeout, self.reader, self.writer = port, timeout, None, None

    async def ask(self, method: str, path: str, body: bytes = b"", wait: float = 0.0) -> Answer:
        """One request and its answer; Gone where none came. A read is asked again where the connection was closed meanwhile."""
        is_again = self.writer is not None and method == "GET"
        try:
            return await asyncio.wait_for(self.exchange(method, path, body), self.timeout + wait)
        except ENDS as why:
            self.close()
            if is_again:
                return await self.ask(method, path, body, wait)
            raise Gone(repr(why))
        except asyncio.CancelledError:
            self.close()  # else the answer would be taken for that to the next request
            raise

    async def exchange(self, method: str, path: str, body: bytes) -> Answer:
        """The same without a bound."""
        if self.writer is None:
            self.reader, self.writer = await asyncio.open_connection("127.0.0.1", self.port, limit=1 << 20)
        head = "%s %s HTTP/1.1\r\nHost: 127.0.0.1\r\nContent-Length: %d\r\n\r\n" % (method, path, len(body))
        self.writer.write(head.encode() + body)
        lines = (await self.reader.readuntil(b"\r\n\r\n")).decode("latin-1").split("\r\n")
        fields = {name.strip().lower(): value.strip() for name, _, value in (it.partition(":") for it in lines[1:] if it)}
        told = await self.reader.readexactly(int(fields["content-length"]))
        if fields.get("connection", "").lower() == "close":
            self.close()
        return Answer(int(lines[0].split(" ")[1]), fields, told)

    async def put(self, key: bytes, value: bytes) -> Answer:
        """Puts a value."""
        return await self.ask("PUT", path_of(key), value)

    async def writes(self, key: bytes) -> list:
        """The latest writes of a key, as the service lists them."""
        return (await self.ask("GET", path_of(key) + "?all=1")).json()["writes"]

    async def status(self) -> dict:
        """What the service says of itself."""
        return (await self.ask("GET", "/v1/status")).json()

    async def keys(self) -> list:
        """All keys, percent-encoded."""
        found, above = [], ""
        while True:
            told = (await self.ask("GET", "/v1/keys?above=" + above)).json()
            found += told["keys"]
            if not told["more"]:
                return found
            above = told["keys"][-1]

    async def convictions(self) -> list:
        """All convictions: record, node, and the proof as bytes."""
        told = (await self.ask("GET", "/v1/convictions")).json()["convictions"]
        return [dict(it, proof=base64.b64decode(it["proof"])) for it in told]

    async def metrics(self) -> dict:
        """The numbers of /metrics by their names and labels."""
        text = (await self.ask("GET", "/metrics")).body.decode()
        pairs = (line.rsplit(" ", 1) for line in text.splitlines() if not line.startswith("#"))
        return {name: float(value) for name, value in pairs}

    def close(self) -> None:
        """Closes the connection; the next request opens another."""
        if self.writer is not None:
            with contextlib.suppress(RuntimeError):  # the loop may be over
                self.writer.close()
        self.reader = self.writer = None
