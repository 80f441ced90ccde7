"""The bytes of docs/CLIENT.md: they are those of the formats, and their hashes are what the page says."""

import os
import re
import sys
import unittest

from cases import ROOT, data_of, f, frame

sys.path.insert(0, os.path.join(ROOT, "acceptance", "makers"))
import make_cases  # noqa: E402

PAGE = data_of("docs", "CLIENT.md").decode()
# The blocks whose lines begin with hex, in the order of the page. Of FRONTS a part is shown alone.
NAMES = [
    "roster", "first", "past", "thrice", "second", "third", "stream", "voucher", "bundle", "hello", "hello of two", "receipt", "checkpoint",
    "signing", "proof",
]
FRONTS = ["stream", "bundle", "proof"]


def bytes_of(block):
    """Of each line of a block the hex in front of its words; None where a line has another thing there."""
    fields = [re.split(r"\s{3,}", line)[0].replace(" ", "") for line in block.splitlines()]
    return bytes.fromhex("".join(fields)) if all(re.fullmatch("([0-9a-f]{2})+", it) for it in fields) else None


def texts():
    """The texts of the page by their names."""
    found = [bytes_of(block) for block in re.findall(r"```\n(.*?)```", PAGE, re.S)]
    named = zip(NAMES, [it for it in found if it is not None])
    return {name: text for name, text in named if name not in FRONTS}


def statement(signer, body):
    """A signed statement of a client, by the leaf of its seq."""
    return make_cases.signed(body, signer.sign(f.read_statement(body).seq, body))


class Client:
    """What the page tells of, made by hashlib alone: members, updates, and what they send."""

    def __init__(self):
        self.text = texts()
        self.one, self.two = (make_cases.Signer(it, bytes([it]) * 32, 2) for it in (1, 2))
        self.three = make_cases.Signer(3, b"\3" * 32, 13)
        self.roster = make_cases.roster(*(it.entry() for it in (self.one, self.two, self.three)))
        self.first, self.second, self.third = (f.read_update(self.text[it]) for it in ("first", "second", "third"))
        self.others = [f.read_update(make_cases.update(2, *it)) for it in self.branches()]

    def branches(self):
        """The three first updates of member 2, in the order of their seqs: seq, clock, prev, key, value."""
        return [(seq, seq + 1, make_cases.ZEROS, b"k", value) for seq, value in enumerate([b"b", b"x", b"y"])]

    def proof(self):
        halves = sorted(self.others[:2], key=lambda it: it.body)
        return make_cases.proof(2, *(statement(self.two, it.body) for it in halves))

    def bundle(self):
        """What member 1 sends to member 3, which has nothing."""
        frames = [frame(f.STATEMENT, statement(self.one, self.text["voucher"]))]
        for signer, update, value in [
            (self.one, self.first, b"a"), (self.two, self.others[0], b"b"), (self.one, self.second, b"c"), (self.one, self.third, b"v"),
        ]:
            frames += [frame(f.STATEMENT, statement(signer, update.body)), frame(f.VALUE, value)]
        return b"".join(frames) + frame(f.END, b"\0")

    def far(self):
        """The update of member 3 that is signed with leaf 300."""
        return make_cases.update(3, 300, 1, make_cases.ZEROS, b"k", b"a")


class Page(unittest.TestCase):
    def setUp(self):
        self.client = Client()
        self.text = self.client.text

    def shown(self, *values):
        for value in values:
            self.assertTrue(value.hex() in PAGE, value.hex())

    def test_hashes(self):
        self.shown(*(f.sha256(it) for name, it in self.text.items() if name not in ("voucher", "hello", "hello of two")))
        lengths = [74, 120, 84, 126, 162, 125, 42, 76, 110, 201, 104, 162]
        self.assertEqual([len(it) for it in self.text.values()], lengths)
        for length in lengths[:3] + lengths[4:]:
            self.assertTrue(re.search(r"\b%d\s+bytes\b" % length, PAGE), length)

    def test_the_roster(self):
        self.assertEqual([it[:2] for it in f.read_roster(self.text["roster"])], [(1, 2), (2, 2)])
        self.shown(*(it.root for it in f.read_roster(self.client.roster)))

    def test_the_updates(self):
        first, second, third, other = self.client.first, self.client.second, self.client.third, self.client.others[0]
        self.assertEqual((first.name, second.name, second.prev), ("1/0/1", "1/1/2", first.id))
        self.assertEqual(first.history, f.history_hash([]))
        self.assertEqual(second.entries, [f.Entry(2, 1, other.id)])
        self.assertEqual(second.history, f.history_hash([first, other]))
        self.assertEqual((third.name, third.prev, third.entries), ("1/2/3", second.id, []))
        self.assertEqual(third.history, f.history_hash([first, second, other]))

    def test_three_rows_of_one_writer(self):
        rows = sorted(self.client.others, key=lambda it: it.id)
        self.assertEqual([it.clock for it in rows], [3, 2, 1])
        self.assertEqual(self.text["thrice"], b"".join(f.number(2, 2) + f.number(8, it.clock) + it.id for it in rows))
        self.assertEqual(f.sha256(self.text["thrice"]), f.history_hash(self.client.others))

    def test_the_signature(self):
        one, bottom, first = self.client.one, make_cases.BOTTOM, self.text["first"]
        signature, secret = one.sign(0, first), make_cases.secret(bottom, one.seed, 0, 0)
        digest = make_cases.sha(b"\5", one.root, f.number(4, 0), first)
        steps = [make_cases.walk(bottom, 0, 0, 0, count, secret) for count in (0, 1, 15)]
        self.shown(one.root, *steps, *one.levels[0][:2], digest, signature[4:36], signature[-32:], f.sha256(signature))
        self.assertEqual((len(signature), make_cases.digits(digest)[-3:]), (2212, [1, 15, 9]))
        self.shown(f.sha256(one.sign(2, self.text["third"])), f.sha256(one.sign(3, self.text["voucher"])))

    def test_a_key_of_two_layers(self):
        three, body = self.client.three, self.client.far()
        bottom, signature = three.bottom(1)[-1][0], three.sign(300, body)
        digest = make_cases.sha(b"\5", three.root, f.number(4, 300), body)
        above = make_cases.sha(b"\x0a", three.root, f.number(4, 1), bottom)
        self.shown(f.sha256(body), bottom, digest, above, f.sha256(signature))
        self.assertEqual(len(signature), 4708)

    def test_the_voucher_and_the_bundle(self):
        voucher = f.read_statement(self.text["voucher"])
        self.assertEqual((voucher.name, voucher.ids), ("1/3", [self.client.others[0].id]))
        bundle = self.client.bundle()
        self.shown(f.sha256(bundle))
        told = re.findall(r"^(0[234]) ([0-9a-f]{8})   (?:\.\.\.|[0-9a-f]{2}) {2,}", PAGE, re.M)[3:]
        self.assertEqual(told, [("%02x" % it.tag, "%08x" % len(it.payload)) for it in f.read_stream(bundle).frames])
        self.assertEqual((len(bundle), "These 11,724 bytes" in PAGE), (11724, True))

    def test_the_proof(self):
        proof = self.client.proof()
        self.shown(f.sha256(proof))
        read = f.read_proof(proof)
        self.assertEqual((read.kind, read.first.statement.name, read.second.statement.name, len(proof)), ("SamePrev", "2/0/1", "2/1/2", 4682))
        self.assertEqual(proof[2:6] + proof[126:130], f.number(4, 0x78) + f.number(4, 0x8A4))

    def test_the_hellos(self):
        listed = [(1, self.client.first)], [(1, self.client.second), (2, self.client.others[0])]
        for name, leaves in zip(("hello", "hello of two"), listed):
            hello = f.read_hello(self.text[name])
            self.assertEqual((hello.node, hello.roster, hello.convicted, hello.wanted), (1, f.sha256(self.text["roster"]), [], []))
            self.assertEqual(hello.leaves, [f.number(2, writer) + it.id for writer, it in leaves])

    def test_receipts_and_checkpoints(self):
        receipt, signing = f.read_update(self.text["receipt"]), f.read_update(self.text["signing"])
        third, other, checkpoint = self.client.third, self.client.others[0], self.text["checkpoint"]
        self.assertEqual((receipt.name, receipt.prev, receipt.writes[0].length), ("2/1/4", other.id, 0))
        self.assertEqual((receipt.writes[0].key, receipt.writes[0].hash), (b"receipt:" + third.id, f.sha256(b"")))
        self.assertEqual(receipt.history, f.history_hash([other, third]))
        self.assertEqual(f.read_checkpoint(checkpoint).leaves, [b"\0\1" + third.id, b"\0\2" + receipt.id])
        self.assertEqual((signing.name, signing.prev), ("2/2/5", receipt.id))
        self.assertEqual(signing.writes, [f.Write(f.checkpoint_key(checkpoint), f.sha256(checkpoint), len(checkpoint))])
        self.assertEqual(signing.history, f.history_hash([receipt, third]))


if __name__ == "__main__":
    unittest.main()
