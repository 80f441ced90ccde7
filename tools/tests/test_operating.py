"""The procedures of docs/OPERATING.md, typed as they stand there, as far as one machine can: DEPOT_PROGRAM names the program.

Folders of a room stand for machines.
"""

import os
import re
import shlex
import shutil
import subprocess
import sys
import unittest

from cases import ROOT, data_of, f, frame, path_of, update_body, named
from test_program import PROGRAM
from test_walks import Checkout, blocks_of

sys.path.insert(0, os.path.join(ROOT, "acceptance", "makers"))
import make_cases  # noqa: E402

SSH = """#!/usr/bin/env python3
import os, sys
number = sys.argv[-1].split("-")[1]
words = [sys.executable, "-B", "tools/exchange.py", "--answer", "--folder", "n" + number, "roster", "seed" + number, number]
os.execv(sys.executable, words)
"""


def built():
    """The program that was built. DEPOT_PROGRAM may name the launcher, which keeps it under the checksum of the sources."""
    path = os.path.realpath(PROGRAM)
    with open(path, "rb") as file:
        if file.read(4) == b"\x7fELF":
            return path
    top = os.path.dirname(path)
    ran = subprocess.run([os.path.join(top, "tools", "sources.sh")], stdout=subprocess.PIPE, check=True)
    return os.path.join(top, "crates", "depot_tool", "out", "launcher", ran.stdout.decode().strip())


def blocks(title):
    return blocks_of("docs/OPERATING.md", title)


class Procedures(Checkout):
    def machine(self, name):
        """A folder with the tools and the program, which stands for a machine."""
        os.makedirs(self.path(name), exist_ok=True)
        for link in ("tools", "depot"):
            os.symlink(os.path.join(self.room, link), os.path.join(self.path(name), link))
        os.symlink(built(), os.path.join(self.path(name), "program"))

    def at(self, machine, *blocks):
        """What these blocks print there, and the status of the last one."""
        ran = subprocess.run(["bash"], input="\n".join(blocks).encode(), cwd=self.path(machine), stdout=subprocess.PIPE, stderr=subprocess.STDOUT)
        return ran.returncode, ran.stdout.decode().splitlines()

    def member(self, number, seed="seed", height=4):
        """A seed that is for show, and the word that names its member."""
        seed_text = "%02x" % number * 32
        self.put(seed, seed_text.encode())
        root = make_cases.Signer(number, bytes([number]) * 32, height).root.hex()
        return "%d:%d:%s" % (number, height, root)

    def one_node(self, machine):
        """The node 1 of the pages, whose files are `roster`, `seed` and `one`, behind its first run."""
        self.machine(machine)
        word = self.member(1, machine + "/seed")
        self.put(machine + "/script", b"put 6b 61\n")
        begin = "python3 tools/node.py --first --folder one roster seed 1 script"
        told = self.at(machine, "python3 tools/roster.py roster %s >hash; mkdir one" % word, begin)
        self.assertEqual(told, (0, ["put 6b -> 0/1"]))

    def test_a_machine_without_the_kit(self):
        self.machine("here")
        status, lines = self.at("here", blocks("A machine without the kit")[1])
        self.assertEqual((status, len(lines)), (0, 4))
        self.assertRegex(lines[0], "^[0-9a-f]{64}  program$")
        self.assertRegex(lines[1], r"^GLIBC_[0-9.]+$")
        self.assertEqual(lines[3], make_cases.Signer(1, bytes(32), 2).root.hex())
        self.assertIn(lines[3][:8], blocks("A machine without the kit")[1])

    def test_moving_a_node(self):
        self.one_node("here")
        self.machine("there")
        pack, unpack, destroy = blocks("Moving a node")
        status, told = self.at("here", pack)
        self.assertEqual(status, 0)
        os.rename(self.path("here/moved"), self.path("there/moved"))
        self.assertEqual(os.stat(self.path("there/moved")).st_mode & 0o77, 0)
        self.assertEqual(self.at("there", unpack), (0, told))
        self.at("here", "touch moved", destroy)
        self.assertEqual(sorted(os.listdir(self.path("here"))), ["depot", "hash", "program", "roster", "script", "tools"])
        self.put("there/script", b"put 6b 62\nget 6b\n")
        told = self.at("there", "rm moved; python3 tools/node.py --folder one roster seed 1 script")
        self.assertEqual(told, (0, ["put 6b -> 1/2", "get 6b -> 1/1/2=62"]))

    def test_a_backup(self):
        self.one_node("here")
        keep, restore = blocks("Backups, and why never to restore one")
        self.assertEqual(self.at("here", keep), (0, ["put 6b -> 1/2"]))
        status, told = self.at("here", "rm -r one", restore)
        self.assertEqual((status, told[0].split(":")[0]), (0, "the journal is good"))
        self.assertEqual(self.at("here", "python3 tools/node.py --folder one roster seed 1 script"), (0, ["put 6b -> 2/3"]))
        status, told = self.at("here", "rm -r one", restore)
        self.assertEqual((status, any("an old copy" in it for it in told)), (71, True))

    def two_members(self):
        """Nodes 1 and 2 in a room of their own, with one key that both wrote; the rest they have in common."""
        self.machine("here")
        words = [self.member(number, "here/seed%d" % number) for number in (1, 2)]
        self.at("here", "python3 tools/roster.py roster %s; mkdir one two" % " ".join(words))
        self.put("here/s1", b"put 6b 61\nput 6c 01\n")
        self.put("here/s2", b"put 6b 62\nputs 6d=76,6e=77\n")
        self.run_pair("--first", "s1", "s2")
        self.meet()

    def run_pair(self, option, first, second):
        for name, number, script in (("one", 1, first), ("two", 2, second)):
            words = "python3 tools/node.py %s --folder %s roster seed%d %d %s" % (option, name, number, number, script)
            self.assertEqual(self.at("here", words)[0], 0)

    def meet(self, machine="here", roster="roster", folders=("one", "two"), seed="seed"):
        words = "--folder %s %s %s%d %d"
        one, two = (words % (folder, roster, seed, number, number) for folder, number in zip(folders, (1, 2)))
        told = self.at(machine, "python3 tools/exchange.py %s -- python3 tools/exchange.py --answer %s" % (one, two))
        self.assertEqual((told[0], len(told[1])), (0, 2), told)

    def test_beginning_anew(self):
        notes, script, begin = blocks("Beginning anew")
        self.two_members()
        told = [self.at("here", it) for it in (notes, notes.replace("one/depot.journal notes", "two/depot.journal notes2"))]
        self.assertEqual(told[0], told[1])
        self.assertEqual((told[0][0], told[0][1][1]), (0, "4 keys, of which 1 are to be decided"))
        self.assertEqual(self.at("here", script)[0], 1)
        self.at("here", "sed -i 's/^decide \"k\"$/put \"k\" \"b\"/' notes")
        made = [self.at("here", script), self.at("here", script.replace("one/", "two/").replace("renewed", "renewed2"))]
        self.assertEqual(made[0], made[1])
        self.assertEqual((made[0][0], made[0][1][1]), (0, "4 keys in 1 statements"))
        words = [self.member(number + 10, "here/seed.new%d" % number) for number in (1, 2)]
        words = [re.sub(r"^\d+", str(number), word) for number, word in enumerate(words, 1)]
        self.at("here", "python3 tools/roster.py roster.new %s; mv seed.new1 seed.new" % " ".join(words))
        self.assertEqual(self.at("here", begin), (0, ["puts -> 0/1"]))
        self.put("here/read", b"get 6b\nget 6c\nget 6d\nget 6e\n")
        told = self.at("here", "python3 tools/node.py --folder new roster.new seed.new 1 read")[1]
        self.assertEqual([it.split("=")[1] for it in told], ["62", "01", "76", "77"])

    def test_the_crontab(self):
        """Its lines run by sh, with a stand-in for ssh that answers here."""
        self.two_members()
        self.at("here", "mv one n1; mv two n2; ln -s n1 one; mkdir bin; ln -s seed1 seed")
        self.put("here/bin/ssh", SSH.encode())
        os.chmod(self.path("here/bin/ssh"), 0o755)
        for number in (1, 2):
            self.put("here/s", b"put 6b 7%d\n" % number)
            self.at("here", "python3 tools/node.py --folder n%d roster seed%d %d s" % (number, number, number))
        lines = data_of("examples", "units", "crontab").decode().splitlines()
        given = dict(it.split("=", 1) for it in lines if re.match("[A-Z]+=", it))
        given = {name: it.replace("/srv/depot-seed", ".").replace("/srv/depot", ".") for name, it in given.items()}
        commands = [it.split(None, 5)[5] for it in lines if re.match(r"\d", it)]
        self.assertEqual(["$CALL" in it for it in commands], [True, True, True, False, False])
        told = []
        for command in commands:
            path = self.path("here/bin") + ":" + os.environ["PATH"]
            ran = subprocess.run(["sh", "-c", command], cwd=self.path("here"), env=dict(given, PATH=path), stdout=subprocess.PIPE, stderr=subprocess.PIPE)
            told.append(ran.stdout.decode().splitlines())
        self.assertEqual(told, [[]] * 5)
        with open(self.path("here/log")) as file:
            log = file.read().splitlines()
        self.assertEqual(log[:2], ["node %d took: accepted 2 known 0 refused 0 whole" % number for number in (1, 2)])
        self.assertIn("the journal is good", log[2])
        self.assertEqual(log[3], "well")
        self.assertTrue(os.path.exists(self.path("here/last-of-2")))

    def test_the_units(self):
        """The words of the services are those that the tools take, and each service and timer has its pair."""
        names = {it for it in os.listdir(os.path.join(ROOT, "examples", "units"))}
        self.assertEqual({it.replace(".timer", ".service") for it in names if it.endswith(".timer")} - names, set())
        for name in names - {"crontab"}:
            text = data_of("examples", "units", name).decode().replace("\\\n", "")
            for line in re.findall("^ExecStart=(.*)$", text, re.M):
                words = shlex.split(line)
                if "tools" in line:
                    self.assertTrue(os.path.exists(os.path.join(ROOT, os.path.relpath(words[2], "/srv/depot"))), words)
        if shutil.which("systemd-analyze"):
            paths = sorted(os.path.join(ROOT, "examples", "units", it) for it in names - {"crontab"})
            ran = subprocess.run(["systemd-analyze", "verify", *paths], stdout=subprocess.PIPE, stderr=subprocess.STDOUT)
            self.assertEqual((ran.returncode, ran.stdout), (0, b""))

    def test_a_receipt(self):
        self.two_members()
        [words] = re.findall(r"`(python3 tools/look\.py one/depot\.journal --id) 1/4/5`", data_of("docs", "OPERATING.md").decode())
        status, [id] = self.at("here", words + " 1/0/1")
        self.put("here/s", b"receipt %s\nsettled %s 1\nsettled %s 2\n" % ((id.encode(),) * 3))
        told = self.at("here", "python3 tools/node.py --folder two roster seed2 2 s")
        self.assertEqual((status, told[0], [it.split(" -> ")[1] for it in told[1]]), (0, 0, ["2/3", "yes", "no"]))

    def test_what_an_earlier_version_meets(self):
        """A record and a frame of a version that this program doesn't know: it refuses them, and changes nothing."""
        self.two_members()
        body = update_body(named(b"k", b"v"), writer=2, seq=7)
        unknown = b"\3" + body[1:]
        statement = make_cases.signed(unknown, b"sig")
        self.put("here/stream", frame(f.STATEMENT, statement) + frame(f.END, b"\0"))
        self.put("here/s", b"take ../stream\n")
        status, told = self.at("here", "python3 tools/node.py --folder one roster seed1 1 s")
        self.assertEqual((status, told[:2]), (0, ["take ../stream -> accepted 0 known 0 refused 1 whole", " refused 0 1 IllFormed 4"]))
        self.at("here", "mkdir bare; cp one/depot.journal bare/")
        with open(self.path("here/bare/depot.journal"), "r+b") as file:
            journal = f.read_journal(file.read())
            record = b"\2" + f.number(4, len(unknown)) + unknown + b"v"
            file.seek(journal.end)
            file.write(b"\1" + f.number(4, len(record)) + record + b"\0")
        with open(self.path("here/bare/depot.journal"), "rb") as file:
            before = file.read()
        status, told = self.at("here/bare", "../depot node ../roster %s 4 1 ../s" % ("01" * 32))
        self.assertEqual((status, told), (9, ["not lawful %d Ill 5" % len(journal.records)]))
        with open(self.path("here/bare/depot.journal"), "rb") as file:
            self.assertEqual(file.read(), before)

    def test_what_rings_and_what_convicts(self):
        """An unsigned statement in a node's name is `3 NotMine` there. A wrong history convicts nobody, and a step back does."""
        self.two_members()
        forged = make_cases.signed(update_body(named(b"k", b"v"), writer=1, seq=9), b"sig")
        two = make_cases.Signer(2, b"\2" * 32, 4)
        with open(self.path("here/two/depot.journal"), "rb") as file:
            last = [it for it in f.updates_of(f.read_journal(file.read()).records) if it.writer == 2][-1]
        bodies = [update_body(named(b"k", b"v"), writer=2, seq=9, clock=clock, prev=last.id) for clock in (99, 1)]
        wrong, back = (frame(f.STATEMENT, make_cases.signed(it, two.sign(9, it))) for it in bodies)
        end = frame(f.END, b"\0")
        self.put("here/stream", frame(f.STATEMENT, forged) + wrong + end)
        self.put("here/back", back + end)
        self.put("here/s", b"take ../stream\nhello ../h\ntake ../back\nhello ../h\n")
        told = self.at("here", "python3 tools/node.py --folder one roster seed1 1 s")[1]
        checks = [it for it in told if it.startswith(" refused")]
        self.assertEqual(checks, [" refused 0 3 NotMine", " refused 1 10 BadHistory", " refused 0 7 Backward"])
        self.assertEqual([it.split(" -> ")[1].split(" leaves")[0] for it in told if it.startswith("hello")], ["convicted 0", "convicted 1"])
        told = self.at("here", "python3 tools/node.py --folder two roster seed2 2 s")[1]
        self.assertIn(" refused 0 4 BadSignature 1", told)

    def test_the_plans(self):
        """The table of plans has the leaves and the rounds that a replay shows."""
        ran = subprocess.run([sys.executable, path_of("bench", "make_plans.py"), "./depot"], cwd=self.room, stdout=subprocess.PIPE)
        page = data_of("docs", "OPERATING.md").decode()
        found = re.findall(r"^(.*): (\d+) streams, (\d+) rounds, (\d+) leaves of one, (\d+) of all$", ran.stdout.decode(), re.M)
        self.assertEqual(len(found), 5)
        for name, streams, rounds, most, all in found:
            row = "| %s | %s | %s round%s | %s | %s |" % (name, streams, rounds, "s" * (rounds != "1"), most, all)
            self.assertIn(row, page)


if __name__ == "__main__":
    unittest.main()
