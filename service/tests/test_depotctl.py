"""The client, as a process, against a service over a node in memory: what it prints, and its statuses."""

import asyncio
import os
import sys
import tempfile
import unittest

import cases
from depot_service import messages as m
from depot_service import web
from depot_service.ends import PROOF, Ends
from depot_service.node import Busy, Refused

TOOL = os.path.join(cases.SERVICE, "depotctl")


def value(number, data):
    """A latest write that is a value."""
    return m.LatestWrite(cases.id_of(number), 2, number, number + 1, m.Write(False, data, b"", len(data)))


def running(test):
    """A test with a service that listens."""

    def run(self):
        async def work():
            with tempfile.TemporaryDirectory() as self.room:
                self.service = cases.service_of(os.path.join(self.room, "roster"))
                self.node, self.web = self.service.node, web.Web(self.service)
                self.port = await self.web.start()
                try:
                    await test(self)
                finally:
                    await self.web.stop()

        asyncio.run(asyncio.wait_for(work(), 120))

    return run


class Client(unittest.TestCase):
    """Each command."""

    async def ctl(self, *words, data=b"", at=None):
        """A run: its status, its output, and what it said."""
        pipe, words = asyncio.subprocess.PIPE, ["--at", at or "127.0.0.1:%d" % self.port, *words]
        it = await asyncio.create_subprocess_exec(sys.executable, "-B", TOOL, *words, stdin=pipe, stdout=pipe, stderr=pipe, cwd=self.room)
        out, said = await it.communicate(data)
        self.assertNotIn(b"Traceback", said)
        return it.returncode, out, said.decode()

    @running
    async def test_puts(self):
        told = (cases.id_of(1).hex() + " 1 0 1\n").encode()
        self.assertEqual(await self.ctl("put", "a%2F", "h\u00ed"), (0, told, ""))
        self.assertEqual((await self.ctl("put", "k", "-", data=b"\0\xff"))[0], 0)
        self.assertEqual((await self.ctl("delete", "k"))[0], 0)
        with open(os.path.join(self.room, "file"), "wb") as file:
            file.write(b"\xfe")
        self.assertEqual((await self.ctl("puts", "b=@file", "a=1=2", "c%00!"))[0], 0)
        one = [[(b"a/", "h\u00ed".encode())], [(b"k", b"\0\xff")], [(b"k", None)]]
        self.assertEqual(self.node.puts, one + [[(b"a", b"1=2"), (b"b", b"\xfe"), (b"c\0", None)]])

    @running
    async def test_gets(self):
        self.node.shown = {b"one": [value(1, b"\0\n")], b"two": [value(1, b"a"), value(2, b"b c")]}
        self.assertEqual(await self.ctl("get", "one"), (0, b"\0\n", ""))
        self.assertEqual((await self.ctl("get", "none"))[:2], (2, b""))
        status, out, said = await self.ctl("get", "two")
        self.assertEqual((status, out, said.count("\n")), (3, b"", 3))
        status, out, _ = await self.ctl("get", "two", "--all")
        self.assertEqual((status, out.decode().splitlines()[1]), (0, cases.id_of(2).hex() + " 2/2/3 value b%20c"))
        self.assertEqual((await self.ctl("keys"))[1], b"one\ntwo\n")

    @running
    async def test_receipts(self):
        self.assertEqual((await self.ctl("put", "k", "v", "--copies", "1", "--wait", "0.1"))[0], 4)
        self.assertEqual((await self.ctl("settle", cases.id_of(1).hex(), "1"))[:2], (4, b"no\n"))
        self.node.given[cases.id_of(1)] = 1
        self.assertEqual((await self.ctl("settle", cases.id_of(1).hex(), "1"))[:2], (0, b"yes\n"))

    @running
    async def test_what_the_node_knows(self):
        self.node.listed = [m.UpdateKeys(cases.id_of(it), 2, it, it + 1, (b"k/",)) for it in range(3)]
        self.assertEqual((await self.ctl("updates", "1"))[1].decode().splitlines()[1], "2 %s 2/2/3 k%%2F" % cases.id_of(2).hex())
        self.node.proofs = [m.ProofAt(5, 3, b"proof")]
        self.assertEqual((await self.ctl("convictions", self.room))[:2], (0, b"3 record 5\n"))
        with open(os.path.join(self.room, "proof-3-5"), "rb") as file:
            self.assertEqual(file.read(), b"proof")
        self.assertEqual((await self.ctl("convictions", self.room))[0], 10)
        self.assertIn(b"statements_left 4\n", (await self.ctl("status"))[1])

    @running
    async def test_statuses(self):
        put = "put", "k", "v"
        for words in ((), ("put", "k"), ("get", ""), ("get", "k" * 256), (*put, "--copies", "0"), (*put, "--wait", "x"), ("puts", "k"), ("fly",)):
            self.assertEqual((await self.ctl(*words))[0], 1, words)
        self.assertEqual((await self.ctl("status", at="nowhere"))[0], 1)
        self.assertEqual((await self.ctl("status", at="127.0.0.1:1"))[0], 5)
        self.assertEqual((await self.ctl("put", "k", "v", "--copies", "9"))[0], 9)
        self.node.refuses = Busy("full")
        self.assertEqual((await self.ctl("put", "k", "v"))[0], 5)
        self.node.refuses = Refused(m.NotDone("limit", "spent", "spent"))
        self.assertEqual((await self.ctl("put", "k", "v"))[0], 6)
        self.node.over.set_result(Ends(PROOF, "a proof"))
        self.assertEqual((await self.ctl("put", "k", "v"))[0], 7)

    @running
    async def test_no_answer(self):
        async def cut(reader, writer):
            await reader.read(10)
            writer.close()

        server = await asyncio.start_server(cut, "127.0.0.1", 0)
        self.assertEqual((await self.ctl("put", "k", "v", at="127.0.0.1:%d" % server.sockets[0].getsockname()[1]))[0], 8)
        server.close()


if __name__ == "__main__":
    unittest.main()
