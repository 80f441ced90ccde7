"""The check of signatures, beside those that acceptance/makers/make_cases.py makes: keys of one layer and of two, and each part spoilt."""

import os
import sys
import unittest

from cases import ROOT, f, named, update_body, voucher_body

import signatures as s

sys.path.insert(0, os.path.join(ROOT, "acceptance", "makers"))
import make_cases  # noqa: E402

SEED = bytes(range(32))


def spoilt(data, place):
    return data[:place] + bytes([data[place] ^ 1]) + data[place + 1 :]


class Signatures(unittest.TestCase):
    def signer(self, height):
        made = make_cases.Signer(1, SEED, height)
        return made, f.Member(1, height, made.root)

    def test_one_layer(self):
        for height in (2, 4):
            signer, member = self.signer(height)
            for seq in (0, 1, 2**height - 1):
                update = f.read_statement(update_body(named(b"k", b"v"), seq=seq))
                signature = signer.sign(seq, update.body)
                self.assertTrue(s.verifies(member, update, signature))
                for place in (0, 3, 4, 4 + 32 * 66, 4 + s.VALUES - 1, 4 + s.VALUES, len(signature) - 1):
                    self.assertFalse(s.verifies(member, update, spoilt(signature, place)), (height, seq, place))

    def test_two_layers(self):
        signer, member = self.signer(13)
        voucher = f.read_statement(voucher_body(b"i" * 32, node=1, seq=300))
        signature = signer.sign(300, voucher.body)
        low = 4 + s.VALUES + 32 * 8
        self.assertTrue(s.verifies(member, voucher, signature))
        for place in (3, 4, low - 1, low, low + s.VALUES - 1, low + s.VALUES, len(signature) - 1):
            self.assertFalse(s.verifies(member, voucher, spoilt(signature, place)), place)
        self.assertFalse(s.verifies(f.Member(1, 14, member.root), voucher, signature))

    def test_another_body_leaf_or_length(self):
        signer, member = self.signer(2)
        update = f.read_statement(update_body(named(b"k", b"v"), seq=1))
        signature = signer.sign(1, update.body)
        other = f.read_statement(update_body(named(b"k", b"w"), seq=1))
        for statement, bytes_of in [(other, signature), (update, signer.sign(0, update.body)), (update, signature + b"\0"), (update, b"")]:
            self.assertFalse(s.verifies(member, statement, bytes_of))
        late = f.read_statement(update_body(named(b"k", b"v"), seq=5))
        self.assertFalse(s.verifies(member, late, f.number(4, 5) + signer.sign(1, late.body)[4:]))

    def test_payloads(self):
        signer, member = self.signer(2)
        body = update_body(named(b"k", b"v"))
        payload = make_cases.signed(body, signer.sign(0, body))
        self.assertEqual([s.is_own(member, it) for it in (payload, spoilt(payload, len(payload) - 1))], [True, False])
        self.assertIsNone(s.is_own(member, payload[:-1]))
        self.assertIsNone(s.is_own(f.Member(2, 2, member.root), payload))


if __name__ == "__main__":
    unittest.main()
