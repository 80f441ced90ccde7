"""A client hands in the bytes of docs/CLIENT.md, and a node makes the same ones: DEPOT_PROGRAM names the program."""

import os
import sys
import unittest

from cases import ROOT, f, frame
from test_client_page import Client, statement
from test_program import Nodes

sys.path.insert(0, os.path.join(ROOT, "acceptance", "makers"))
import make_cases  # noqa: E402

END = frame(f.END, b"\0")


class Clients(Nodes):
    def setUp(self):
        super().setUp()
        self.client = Client()
        self.text = self.client.text

    def begin(self, roster, *numbers):
        """The files of these members, whose keys are those of the page."""
        self.put("roster", roster)
        for number in numbers:
            self.put("seed%d" % number, b"%02x" % number * 32)
            os.mkdir(self.path(str(number)))

    def took(self, number, name, *frames, first=False):
        """What a node prints where it takes these frames."""
        self.put(name, b"".join(frames))
        return self.run_node(number, "take ../%s" % name, first=first)[1]

    def data(self, name):
        with open(self.path(name), "rb") as file:
            return file.read()

    def own(self, number):
        """The bodies of a node's own updates, by its journal."""
        records = [it.record for it in f.read_journal(self.data("%d/depot.journal" % number)).records]
        return [it.update.body for it in records if isinstance(it, f.OwnPut)]

    def of_one(self):
        """The frames of what member 1 wrote, a statement and a value each."""
        client = self.client
        values = [(client.first, b"a"), (client.second, b"c"), (client.third, b"v")]
        return [frame(f.STATEMENT, statement(client.one, it.body)) + frame(f.VALUE, value) for it, value in values]

    def of_two(self):
        return frame(f.STATEMENT, statement(self.client.two, self.client.others[0].body)) + frame(f.VALUE, b"b")

    def test_a_receipt_and_a_checkpoint(self):
        """Node 2 takes what a client signed as member 1, and its own receipt and checkpoint are those of the page."""
        client, text = self.client, self.text
        self.begin(text["roster"], 2)
        self.put("of-one", b"".join(self.of_one()) + END)
        self.put("hello", text["hello"])
        lines = ['put "k" "b"', "take ../of-one", "bundle ../hello ../out", "receipt %s" % client.third.id.hex(), "checkpoint ../checkpoint"]
        told = self.run_node(2, *lines, first=True)[1]
        self.assertEqual(told[1], "take ../of-one -> accepted 6 known 0 refused 0 whole")
        self.assertEqual((self.data("out"), self.data("checkpoint")), (self.of_two() + END, text["checkpoint"]))
        self.assertEqual(self.own(2)[1:], [text["receipt"], text["signing"]])

    def test_hellos_and_a_whole_bundle(self):
        """Node 1 writes what the page has; its hello of two leaves and its bundle for member 3 are those of the page."""
        self.begin(self.client.roster, 1)
        self.put("stream", self.of_two() + END)
        self.put("of-three", b"\1\3\0\3" + f.sha256(self.client.roster) + bytes(6))
        lines = ['put "k" "a"', "take ../stream", 'put "k" "c"', "hello ../own", 'puts "k"!, "l"="v"', "bundle ../of-three ../out"]
        told = self.run_node(1, *lines, first=True)[1]
        self.assertEqual(told[-1], "bundle ../of-three ../out -> proofs 0 vouchers 1 updates 4 values 4 whole")
        self.assertEqual(self.data("out"), self.client.bundle())
        hello = self.data("own")
        self.assertEqual(hello[:4] + hello[36:], self.text["hello of two"][:4] + self.text["hello of two"][36:])
        for leaves, count in ([b"\0\1" + b"\xff" * 32], 4), (sorted([b"\0\1" + b"\xff" * 32, b"\0\1" + self.client.second.id]), 1):
            front = b"\1\3\0\3" + f.sha256(self.client.roster) + b"\0\0"
            self.put("older", front + f.number(2, len(leaves)) + b"".join(leaves) + b"\0\0")
            told = self.run_node(1, "bundle ../older ../out")[1][0]
            self.assertIn("updates %d " % count, told)

    def test_a_fork_and_a_key_of_two_layers(self):
        """Node 1 takes three branches of member 2, for which member 3 vouches by a key of height 13, and its next update has their rows."""
        client, [_, *others] = self.client, self.client.others
        self.begin(client.roster, 1)
        self.put("proof", client.proof())
        self.assertEqual(self.depot("judge", "roster", "proof"), (0, "2 SamePrev\n"))
        self.assertEqual(self.depot("key", "03" * 32, "13"), (0, client.three.root.hex() + "\n"))
        frames = [frame(f.STATEMENT, statement(client.three, make_cases.voucher(3, 0, *(it.id for it in others))))]
        frames += [frame(f.STATEMENT, statement(client.two, it.body)) for it in others]
        frames += [frame(f.VALUE, it) for it in (b"x", b"y")]
        told = self.took(1, "branches", self.of_two(), *frames, END, first=True)
        self.assertEqual(told, ["take ../branches -> accepted 7 known 0 refused 0 whole"])
        told = self.run_node(1, 'put "k" "d"', "hello ../own")[1]
        self.assertEqual((told[0], told[1].split(" leaves")[0]), ('put "k" -> 0/4', "hello ../own -> convicted 1"))
        self.assertEqual(f.read_update(self.own(1)[0]).history, f.sha256(self.text["thrice"]))
        far = frame(f.STATEMENT, statement(client.three, client.far()))
        self.assertEqual(self.took(1, "far", far, frame(f.VALUE, b"a"), END), ["take ../far -> accepted 2 known 0 refused 0 whole"])


if __name__ == "__main__":
    unittest.main()
