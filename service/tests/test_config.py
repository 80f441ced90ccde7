"""Configs: a good one, and each mistake as one line with status 78."""

import os
import tempfile
import unittest

import stand_in  # noqa: F401
from depot_service.config import Address, read_config
from depot_service.ends import CONFIG, Ends

PRINT = "ab" * 32
MEMBER = "[member]\nnumber = 1\nheight = 12\nroster = roster\nseed = secret/seed\nfolder = one\n"
LINKS = "[links]\nlisten = 127.0.0.1:7001\ncertificate = c.pem\nkey = k.pem\n"
PEER = "[peer 2]\naddress = [::1]:7002\ncertificate = %s\n" % PRINT


class Configs(unittest.TestCase):
    def setUp(self):
        room = tempfile.TemporaryDirectory()
        self.addCleanup(room.cleanup)
        self.folder = room.name

    def read(self, text: str):
        """The config of a text."""
        path = os.path.join(self.folder, "1.conf")
        with open(path, "w", encoding="utf-8") as file:
            file.write(text)
        return read_config(path)

    def test_the_least_that_has_to_be_there(self):
        found = self.read(MEMBER)
        self.assertEqual((found.member.node, found.member.height, found.peers, found.links, found.http, found.carrier), (1, 12, {}, None, None, None))
        self.assertEqual(found.member.seed, os.path.join(self.folder, "secret", "seed"))
        self.assertTrue(found.member.program.endswith("/depot"))

    def test_all_parts(self):
        more = "[http]\nlisten = 127.0.0.1:7101\n[carrier]\nfolder = /mnt/all\nmost files = 9\n[pace]\nround = 2.5\n[leaves]\nvouchers a day = 10\n[limits]\nlinks = 3\n"
        found = self.read("# a comment\n" + MEMBER + LINKS + PEER + more)
        self.assertEqual(found.peers[2].address, Address("::1", 7002))
        self.assertEqual(str(found.peers[2].address), "[::1]:7002")
        self.assertEqual(found.peers[2].certificate, bytes.fromhex(PRINT))
        self.assertEqual((found.carrier.folder, found.carrier.most_files, found.carrier.pace), ("/mnt/all", 9, 5.0))
        self.assertEqual((found.pace.round, found.leaves.vouchers_a_day, found.limits.links), (2.5, 10.0, 3))

    def test_a_peer_that_calls_has_no_address(self):
        found = self.read(MEMBER + "[links]\ncertificate = c\nkey = k\n" + "[peer 2]\ncertificate = %s\n" % PRINT)
        self.assertIsNone(found.peers[2].address)
        self.assertIsNone(found.links.listen)

    def test_a_fingerprint_with_colons(self):
        colons = ":".join(["AB"] * 32)
        self.assertEqual(self.read(MEMBER + LINKS + "[peer 2]\ncertificate = %s\n" % colons).peers[2].certificate, bytes.fromhex(PRINT))

    def test_addresses_of_loopback(self):
        for host in ("127.0.0.1", "127.1.2.3", "localhost", "[::1]", "[0:0:0:0:0:0:0:1]"):
            self.assertEqual(self.read(MEMBER + "[http]\nlisten = %s:80\n" % host).http.listen.port, 80)
        for host in ("127.0.0.1.example.org", "127.example.org", "127", "10.0.0.1", "[::]", "[::ffff:10.0.0.1]", "example.org"):
            with self.subTest(host), self.assertRaises(Ends):
                self.read(MEMBER + "[http]\nlisten = %s:80\n" % host)

    def test_each_mistake_is_one_line(self):
        other = "[peer 3]\naddress = 127.0.0.1:7003\ncertificate = %s\n"
        cases = [
            ("", "[member] number: it has to be there"),
            (MEMBER.replace("number = 1\n", ""), "[member] number: it has to be there"),
            (MEMBER.replace("number = 1", "number = 0"), "'0' is no whole number from 1 to 65535"),
            (MEMBER.replace("height = 12", "height = 18"), "'18' is no whole number from 2 to 17"),
            (MEMBER.replace("height = 12", "height = 1e1"), "'1e1' is no whole number"),
            (MEMBER.replace("roster = roster", "roster ="), "[member] roster: it names no file"),
            (MEMBER + "name = x\n", "[member] name: there is no such option here"),
            (MEMBER + "number = 2\n", "option 'number' in section 'member' already exists"),
            (MEMBER + "[other]\n", "[other]: there is no such section"),
            (MEMBER + PEER, "there are peers, and no [links]"),
            (MEMBER + LINKS.replace("key = k.pem\n", ""), "[links] key: it has to be there"),
            (MEMBER + LINKS.replace(":7001", ""), "'127.0.0.1' isn't HOST:PORT"),
            (MEMBER + LINKS.replace(":7001", ":70000"), "isn't HOST:PORT"),
            (MEMBER + LINKS + PEER.replace("peer 2", "peer 1"), "[peer 1]: node 1 stands twice"),
            (MEMBER + LINKS + PEER.replace("peer 2", "peer x"), "[peer x]: 'x' is no whole number"),
            (MEMBER + LINKS + PEER + other % PRINT, "[peer 3] certificate: another peer has it"),
            (MEMBER + LINKS + PEER.replace(PRINT, "ab"), "'ab' isn't a SHA-256 in hex"),
            (MEMBER + "[http]\nlisten = 0.0.0.0:80\n", "0.0.0.0:80 isn't an address of loopback"),
            (MEMBER + "[http]\n", "[http] listen: it has to be there"),
            (MEMBER + "[carrier]\n", "[carrier] folder: it has to be there"),
            (MEMBER + "[pace]\nround = soon\n", "[pace] round: 'soon' is no number"),
            (MEMBER + "[pace]\nround = 0\n", "[pace] round: '0' is no number from 0.01"),
            (MEMBER + "[limits]\nleast rate = -1\n", "[limits] least rate: '-1' is no whole number"),
            (MEMBER + "what\n", "contains parsing errors"),
            ("number = 1\n", "contains no section headers"),
        ]
        for text, told in cases:
            with self.subTest(told):
                with self.assertRaises(Ends) as caught:
                    self.read(text)
                self.assertEqual(caught.exception.status, CONFIG)
                self.assertIn(told, caught.exception.why)
                self.assertNotIn("\n", caught.exception.why)

    def test_a_file_that_isnt_there_or_is_no_text(self):
        with self.assertRaises(Ends) as caught:
            read_config(os.path.join(self.folder, "none.conf"))
        self.assertIn("No such file", caught.exception.why)
        with open(os.path.join(self.folder, "raw"), "wb") as file:
            file.write(b"\xff\xfe")
        with self.assertRaises(Ends) as caught:
            read_config(os.path.join(self.folder, "raw"))
        self.assertEqual(caught.exception.status, CONFIG)


if __name__ == "__main__":
    unittest.main()
