"""The HTTP of a service over a node in memory: what each path answers, and what it refuses."""

import asyncio
import base64
import gzip
import json
import os
import tempfile
import types
import unittest

import cases
from asking import Client, changes_of, path_of
from depot_service import messages as m
from depot_service import metrics, web
from depot_service.depotd import READ_ONLY, READY, STARTING, STOPPING
from depot_service.ends import PROOF, Ends
from depot_service.node import Busy, Refused


def value(number, data, writer=1):
    """A latest write that is a value."""
    return m.LatestWrite(cases.id_of(number), writer, number, number + 1, m.Write(False, data, b"", len(data)))


def running(test, seconds=30.0):
    """A test with a service that listens, and a client of it. What does nothing is let go behind so many seconds."""

    def run(self):
        async def work():
            with tempfile.TemporaryDirectory() as room:
                self.service = cases.service_of(os.path.join(room, "roster"))
                self.node = self.service.node
                self.web = web.Web(self.service, web.Bounds(connections=4, idle_seconds=seconds, body_seconds=seconds))
                self.client = Client(await self.web.start())
                try:
                    await test(self)
                finally:
                    self.client.close()
                    await self.web.stop()

        asyncio.run(asyncio.wait_for(work(), 120))

    return run


def hurried(test):
    """The same where who does nothing is let go soon."""
    return running(test, 0.4)


class Paths(unittest.TestCase):
    """What is asked as it should be."""

    @running
    async def test_values_come_back_as_they_were(self):
        self.node.shown[b"k\0/%"] = [value(7, b"\0\xff", writer=2)]
        found = await self.client.ask("GET", path_of(b"k\0/%"))
        self.assertEqual((found.code, found.body), (200, b"\0\xff"))
        names = [found.fields["depot-" + it] for it in ("id", "writer", "seq", "clock")]
        self.assertEqual(names, [cases.id_of(7).hex(), "2", "7", "8"])

    @running
    async def test_no_value_is_told_from_a_deletion(self):
        self.node.shown[b"d"] = [m.LatestWrite(cases.id_of(1), 1, 1, 2, m.Write(True))]
        for key, told in ((b"n", b"nobody wrote this key\n"), (b"d", b"deleted\n")):
            found = await self.client.ask("GET", path_of(key))
            self.assertEqual((found.code, found.body), (404, told))

    @running
    async def test_several_writes_are_a_list(self):
        lacked = m.LatestWrite(cases.id_of(3), 3, 0, 1, m.Write(False, None, bytes(32), 9))
        self.node.shown[b"k"] = [value(1, b"a"), m.LatestWrite(cases.id_of(2), 2, 0, 1, m.Write(True)), lacked]
        found = await self.client.ask("GET", path_of(b"k"))
        self.assertEqual(found.code, 300)
        self.assertEqual([it["mark"] for it in found.json()["writes"]], ["value", "deleted", "not held"])
        self.assertEqual(base64.b64decode(found.json()["writes"][0]["value"]), b"a")

    @running
    async def test_a_value_that_is_not_held_is_asked_for_again(self):
        self.node.shown[b"k"] = [m.LatestWrite(cases.id_of(3), 3, 0, 1, m.Write(False, None, bytes(32), 9))]
        found = await self.client.ask("GET", path_of(b"k"))
        self.assertEqual((found.code, found.fields["retry-after"]), (503, "1"))

    @running
    async def test_great_values_beyond_the_bound_are_left_out(self):
        great = bytes(65_536)
        self.node.shown[b"k"] = [value(it, great) for it in range(130)]
        told = (await self.client.ask("GET", path_of(b"k"))).json()["writes"]
        self.assertEqual([it["mark"] for it in told].count("value"), 128)
        self.assertEqual((told[-1]["mark"], told[-1]["length"]), ("left out", 65_536))

    @running
    async def test_a_put_is_one_update(self):
        found = await self.client.ask("PUT", path_of(b"k"), b"\0v")
        self.assertEqual(found.json(), {"id": cases.id_of(1).hex(), "writer": 1, "seq": 0, "clock": 1})
        await self.client.ask("DELETE", path_of(b"k"))
        await self.client.ask("POST", "/v1/put", changes_of({b"b": b"2", b"a\xff": None}))
        self.assertEqual(self.node.puts, [[(b"k", b"\0v")], [(b"k", None)], [(b"a\xff", None), (b"b", b"2")]])

    @running
    async def test_text_and_base64_keys_are_taken(self):
        body = {"changes": [{"key64": "AAE=", "text": "h\u00ed"}, {"key": "%41", "value": ""}]}
        self.assertEqual((await self.client.ask("POST", "/v1/put", json.dumps(body).encode())).code, 200)
        self.assertEqual(self.node.puts, [[(b"\0\1", "h\u00ed".encode()), (b"A", b"")]])

    @running
    async def test_lists_come_page_by_page(self):
        self.node.listed = [m.UpdateKeys(cases.id_of(it), 2, it, it + 1, (b"k/",)) for it in range(3)]
        told = (await self.client.ask("GET", "/v1/updates?from=0")).json()
        self.assertEqual((len(told["updates"]), told["more"], told["next"]), (2, True, 2))
        told = (await self.client.ask("GET", "/v1/updates?from=2")).json()
        self.assertEqual((told["updates"][0]["item"], told["updates"][0]["keys"], told["more"]), (2, ["k%2F"], False))
        self.node.proofs = [m.ProofAt(5, 3, b"proof")]
        told = (await self.client.ask("GET", "/v1/convictions")).json()
        self.assertEqual((told["convictions"][0]["node"], told["next"]), (3, 6))
        self.assertEqual(base64.b64decode(told["convictions"][0]["proof"]), b"proof")

    @running
    async def test_the_end_of_a_key_is_told_before_it_comes(self):
        self.assertEqual((await self.client.status())["warnings"], [])
        for used, word in ((3, "75%"), (4, "read-only")):
            self.node.now = m.Status(1, bytes(32), used, 4, 1, 41, 0, 0, (2,))
            told = await self.client.status()
            self.assertIn(word, told["warnings"][0])
        self.assertEqual((told["convicted"], told["statements_left"]), ([2], 0))

    @running
    async def test_metrics_are_in_the_form_of_prometheus(self):
        self.service.counts.update(refused_Missing=2, wire_in_bytes=9, rounds=1)
        await self.client.ask("GET", "/healthz")
        text = (await self.client.ask("GET", "/metrics")).body.decode()
        for line in text.splitlines():
            self.assertRegex(line, r'^(# (HELP|TYPE) [a-z_]+ .+|[a-z_]+(\{[a-z]+="[^"]*"(,[a-z]+="[^"]*")*\})? [0-9.]+)$')
        self.assertIn('depot_limit{of="statements"} 4\n', text)
        for line in ('depot_refused_frames_total{check="Missing"} 2', 'depot_wire_bytes_total{way="in"} 9', 'depot_events_total{what="rounds"} 1'):
            self.assertIn(line + "\n", text)
        self.assertIn('depot_http_answers_total{code="200",method="GET"} 1\n', text)
        for line in ('depot_leaves_for_others{for="receipts"} 64', 'depot_leaves_for_others{for="vouchers"} 200', 'depot_state{state="stopping"} 0'):
            self.assertIn(line + "\n", text)
        self.assertEqual([it for it in (STARTING, READY, READ_ONLY, STOPPING) if it not in metrics.STATES], [])

    @running
    async def test_a_folder_is_told_of_as_links_are(self):
        self.assertIsNone((await self.client.status())["carrier"])
        told = types.SimpleNamespace(why="/all: No such file", members={2: types.SimpleNamespace(in_step_at=1.0), 3: types.SimpleNamespace(in_step_at=0.0)})
        self.service.carrier = told
        found = (await self.client.status())["carrier"]
        self.assertEqual((found["why"], found["members"]["3"]), (told.why, {"in_step_seconds_ago": -1.0}))
        text = (await self.client.ask("GET", "/metrics")).body.decode()
        self.assertIn("depot_carrier_usable 0\n", text)
        self.assertIn('depot_carrier_in_step_seconds{member="3"} -1\n', text)

    @running
    async def test_methods_of_any_name_are_counted_together(self):
        for name in ("PATCH", "PURGE"):
            await self.client.ask(name, "/healthz")
        self.assertTrue({method for method, _ in self.web.counts} <= {"other", *metrics.METHODS}, self.web.counts)


class Copies(unittest.TestCase):
    """Puts that wait for receipts."""

    @running
    async def test_a_put_that_stands_is_never_told_to_come_again(self):
        for fault in (Busy("256 requests wait"), Ends(PROOF, "a proof")):
            async def fail(_it, _copies, urgency=None, fault=fault):
                raise fault

            self.node.settled = fail
            found = await self.client.ask("PUT", path_of(b"k") + "?copies=2&wait=5", b"v")
            self.assertEqual((found.code, found.json()["settled"]), (202, False))

    @running
    async def test_a_put_waits_for_receipts(self):
        async def give():
            while not self.service.rounds.asked:
                await asyncio.sleep(0.01)
            self.node.given[cases.id_of(1)] = 2
            self.node.grow("take")

        giving = asyncio.ensure_future(give())
        found = await self.client.ask("PUT", path_of(b"k") + "?copies=2&wait=5", b"v")
        await giving
        self.assertEqual((found.code, found.json()["settled"]), (200, True))
        self.assertEqual(self.service.rounds.asked, [[cases.id_of(1)]])

    @running
    async def test_too_few_receipts_are_told(self):
        found = await self.client.ask("PUT", path_of(b"k") + "?copies=1&wait=0.1", b"v")
        self.assertEqual((found.code, found.json()["settled"], len(self.node.puts)), (202, False, 1))
        found = await self.client.ask("GET", "/v1/settled/%s?copies=1" % cases.id_of(1).hex())
        self.assertEqual((found.code, found.json()["settled"]), (200, False))

    @running
    async def test_more_copies_than_members_are_refused_before_the_put(self):
        found = await self.client.ask("PUT", path_of(b"k") + "?copies=3", b"v")
        self.assertEqual((found.code, self.node.puts), (400, []))


class Refusals(unittest.TestCase):
    """What is refused, each by one line."""

    async def refused(self, code, method, path, body=b""):
        """Asks for something, and wants this status and one line."""
        found = await self.client.ask(method, path, body)
        self.assertEqual(found.code, code, (path, found.body))
        self.assertEqual(found.body.count(b"\n"), 1, found.body)
        self.assertEqual(self.node.puts, [])
        return found

    @running
    async def test_bad_words(self):
        for path in ("/v1/values/", path_of(b"k" * 256), "/v1/values/%zz", "/v1/values/%4", path_of(b"k") + "?x=1", path_of(b"k") + "?all=2"):
            await self.refused(400, "GET", path)
        for path in (path_of(b"receipt:" + b"r" * 32), path_of(b"checkpoint:" + b"c" * 32), path_of(b"k") + "?copies=-1", path_of(b"k") + "?wait=nan",
                     path_of(b"k") + "?copies=1&copies=1", path_of(b"k") + "?wait=601"):
            await self.refused(400, "PUT", path)
        for path in ("/v1/settled/00?copies=1", "/v1/settled/" + "0" * 64, "/v1/updates?from=99999999999", "/v1/keys?above=%", "/v1/status?a=b"):
            await self.refused(400, "GET", path)

    @running
    async def test_bad_changes(self):
        key = {"key": "a", "delete": True}
        for body in ([], {}, {"changes": []}, {"changes": [key] * 2}, {"changes": [dict(key, key="k%d" % it) for it in range(17)]},
                     {"changes": [{"key": "a"}]}, {"changes": [dict(key, delete=False)]}, {"changes": [dict(key, value="YQ==")]},
                     {"changes": [{"key": "a", "value": "YQ"}]}, {"changes": [{"key": "a", "value": "YR=="}]}, {"changes": [{"key": "", "text": ""}]},
                     {"changes": [{"key": "a", "text": "x" * 65_537}]}, {"changes": [{"key": 1, "text": ""}]}, {"changes": [key], "more": 1},
                     {"changes": [{"key": "receipt:" + "r" * 32, "text": ""}]}, {"changes": [{"key": "\ud800", "text": ""}]}):
            await self.refused(400, "POST", "/v1/put", json.dumps(body).encode())
        for body in (b"", b"\xff", b"[" * 100_000, b"{"):
            await self.refused(400, "POST", "/v1/put", body)

    @running
    async def test_great_bodies(self):
        await self.refused(413, "PUT", path_of(b"k"), bytes(65_537))
        await self.refused(413, "POST", "/v1/put", bytes(2_000_001))

    @running
    async def test_a_body_that_is_packed_is_refused(self):
        reader, writer = await asyncio.open_connection("127.0.0.1", self.client.port)
        head = "PUT %s HTTP/1.1\r\nHost: 127.0.0.1\r\nContent-Encoding: gzip\r\nContent-Length: 20\r\n\r\n" % path_of(b"k")
        writer.write(head.encode() + gzip.compress(b"")[:20])
        self.assertRegex(await reader.readline(), b"^HTTP/1.1 400 ")
        writer.close()
        self.assertEqual(self.node.puts, [])

    def test_options_that_the_library_lacks_are_left_out(self):
        self.assertEqual(web.known_to_library(lingering_time=1.0, no_such_option=1), {"lingering_time": 1.0})

    @running
    async def test_other_paths_and_methods(self):
        await self.refused(404, "GET", "/")
        await self.refused(405, "POST", path_of(b"k"))
        await self.refused(405, "PUT", "/v1/status")

    @running
    async def test_pages_from_elsewhere(self):
        local = "Host: 127.0.0.1\r\n"
        for field in ("Host: evil.example", local + "Origin: http://evil.example", "Host: [::1", local + "Sec-Fetch-Site: cross-site", "Host: 127.0.0.1.evil.example"):
            reader, writer = await asyncio.open_connection("127.0.0.1", self.client.port)
            writer.write(("PUT %s HTTP/1.1\r\n%s\r\nContent-Length: 1\r\n\r\nv" % (path_of(b"k"), field)).encode())
            self.assertRegex(await reader.readline(), b"^HTTP/1.1 40[03] ")
            writer.close()
        self.assertEqual(self.node.puts, [])
        for field in ("Host: 127.0.0.2:7100", "Host: localhost", "Host: [::1]:7100", local + "Sec-Fetch-Site: none"):
            reader, writer = await asyncio.open_connection("127.0.0.1", self.client.port)
            writer.write(("GET /healthz HTTP/1.1\r\n%s\r\n\r\n" % field.strip()).encode())
            self.assertRegex(await reader.readline(), b"^HTTP/1.1 200 ")
            writer.close()

    @running
    async def test_the_nodes_refusals(self):
        for reason, code in ((m.NotDone("limit", "spent", "spent"), 507), (m.NotDone("limit", "full", "full"), 507), (m.NotDone("limit", "tips", "tips"), 507)):
            self.node.refuses = Refused(reason)
            await self.refused(code, "PUT", path_of(b"k"), b"v")
        self.node.refuses = Busy("256 requests wait")
        found = await self.refused(503, "PUT", path_of(b"k"), b"v")
        self.assertEqual(found.fields["retry-after"], "1")

    @running
    async def test_states(self):
        for state, code, health in (("read-only", 507, 200), ("starting", 503, 503), ("stopping", 503, 503)):
            self.service.state = state
            await self.refused(code, "PUT", path_of(b"k"), b"v")
            self.assertEqual((await self.client.ask("GET", "/healthz")).code, health)
        self.node.over.set_result(Ends(PROOF, "a proof"))
        await self.refused(409, "PUT", path_of(b"k"), b"v")


class Strangers(unittest.TestCase):
    """Connections that do nothing good."""

    @hurried
    async def test_idle_and_slow_connections_are_closed(self):
        idle = await asyncio.open_connection("127.0.0.1", self.client.port)
        slow = await asyncio.open_connection("127.0.0.1", self.client.port)
        slow[1].write(b"PUT /v1/values/k HTTP/1.1\r\nHost: 127.0.0.1\r\nContent-Length: 9\r\n\r\nv")
        self.assertEqual(await asyncio.wait_for(idle[0].read(), 60), b"")
        self.assertIn(b" 408 ", await asyncio.wait_for(slow[0].readline(), 60))
        for it in (idle, slow):
            it[1].close()

    @running
    async def test_so_many_connections_are_held(self):
        held = [await asyncio.open_connection("127.0.0.1", self.client.port) for _ in range(4)]
        reader, writer = await asyncio.open_connection("127.0.0.1", self.client.port)
        with self.assertRaises((ConnectionError, asyncio.IncompleteReadError)):
            writer.write(b"GET /healthz HTTP/1.1\r\nHost: 127.0.0.1\r\n\r\n")
            await asyncio.wait_for(reader.readexactly(1), 60)
        for it in held + [(reader, writer)]:
            it[1].close()

    @hurried
    async def test_a_body_that_is_cut_or_turns_bad_is_put_nowhere(self):
        head = b"PUT /v1/values/k HTTP/1.1\r\nHost: 127.0.0.1\r\n"
        reader, writer = await asyncio.open_connection("127.0.0.1", self.client.port)
        writer.write(head + b"Transfer-Encoding: chunked\r\n\r\n1\r\nv\r\n")
        await writer.drain()
        await asyncio.sleep(0.1)
        writer.write(b"zz\r\n")
        self.assertRegex(await asyncio.wait_for(reader.readline(), 60), b" 40[08] ")
        writer.close()
        _, writer = await asyncio.open_connection("127.0.0.1", self.client.port)
        writer.write(head + b"Content-Length: 9\r\n\r\nv")
        await writer.drain()
        writer.close()
        await asyncio.sleep(0.1)
        self.assertEqual((await self.client.ask("GET", "/healthz")).code, 200)
        self.assertEqual(self.node.puts, [])

    @running
    async def test_a_stop_answers_puts_that_wait(self):
        asked = asyncio.ensure_future(self.client.ask("PUT", path_of(b"k") + "?copies=1&wait=15", b"v"))
        while not self.node.puts:
            await asyncio.sleep(0.01)
        await asyncio.sleep(0.1)
        begun = asyncio.get_running_loop().time()
        await self.web.stop()
        self.assertEqual((await asked).code, 202)
        self.assertLess(asyncio.get_running_loop().time() - begun, 12)

    @hurried
    async def test_rubbish_gets_one_answer_and_harms_nobody(self):
        for rubbish in (b"\0" * 100, b"GET / HTTP/9.9\r\n\r\n", b"PUT /v1/values/k HTTP/1.1\r\nContent-Length: -5\r\n\r\n", b"A" * 20_000,
                        b"PUT /v1/values/k HTTP/1.1\r\nTransfer-Encoding: chunked\r\n\r\nzz\r\n", b"GET / HTTP/1.1\r\n" + b"a: b\r\n" * 5_000):
            reader, writer = await asyncio.open_connection("127.0.0.1", self.client.port)
            writer.write(rubbish)
            answer = await asyncio.wait_for(reader.read(), 60)
            self.assertNotIn(b"Traceback", answer)
            writer.close()
        self.assertEqual((await self.client.ask("GET", "/healthz")).code, 200)
        self.assertEqual(self.node.puts, [])


if __name__ == "__main__":
    unittest.main()
