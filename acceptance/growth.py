#!/usr/bin/env python3
"""Refuses each growth of memory in turn, one a run, on the built program, and says what came of it: whether each run ended for want of
memory with a front of its text, and whether what it left on its disk goes on. It takes a C compiler.

    python3 acceptance/growth.py           # each growth of a replay with a join, of a node that puts, and of a judge and a node that
                                           # are shown a voucher for what is no update
    python3 acceptance/growth.py STRIDE    # only each STRIDE-th
"""

import os
import shutil
import subprocess
import sys
import tempfile

sys.path.insert(0, os.path.join(os.path.dirname(os.path.abspath(__file__)), "makers"))
from make_cases import Signer, frame, hollow, roster, sha, signed, voucher  # noqa: E402

HERE = os.path.dirname(os.path.abspath(__file__))
DEPOT = os.path.join(os.path.dirname(HERE), "crates/depot_tool/out/depot_tool")
MEMORY = 6


class Refusing:
    """A run of the program in a folder of its own, of which some growth is refused."""

    def __init__(self, room, words, files):
        self.room, self.words, self.files = room, words, files
        self.shim = os.path.join(room, "refuse_growth.so")
        subprocess.run(["cc", "-shared", "-fPIC", "-O1", "-o", self.shim, os.path.join(HERE, "refuse_growth.c"), "-ldl"], check=True)

    def place(self):
        """A new folder with the files."""
        place = os.path.join(self.room, "run")
        shutil.rmtree(place, ignore_errors=True)
        os.mkdir(place)
        for name, data in self.files.items():
            with open(os.path.join(place, name), "wb") as file:
                file.write(data)
        return place

    def run(self, place, refused=0):
        """The status and the text of a run there, and how many growths there were."""
        count = os.path.join(self.room, "count")
        env = {"LD_PRELOAD": self.shim, "GROWTH_REFUSED": str(refused), "GROWTH_COUNT": count}
        ran = subprocess.run([DEPOT, *self.words], cwd=place, env=env, capture_output=True, timeout=60)
        with open(count) as file:
            return ran.returncode, ran.stdout, int(file.read())


def is_front(whole, status, written):
    """Whether a run that ended for want of memory wrote a front of the whole text, or the text where no growth counted."""
    return (status, written) == (0, whole) or status == MEMORY and whole.startswith(written)


def tried(name, runs, stride, goes_on):
    """Refuses each growth of a run in turn. Gives whether all ended as they must."""
    status, whole, count = runs.run(runs.place())
    assert status == 0, (name, status, whole)
    wrong, ended = [], 0
    for refused in range(1, count + 1, stride):
        place = runs.place()
        status, written, _ = runs.run(place, refused)
        ended += status == MEMORY
        if not is_front(whole, status, written) or not goes_on(runs, place, whole):
            wrong.append((refused, status, written))
    print(f"{name}: {count} growths, each {stride}. refused: {ended} ended for want of memory, {len(wrong)} otherwise than they must {wrong[:3]}")
    return not wrong


def leaves_nothing(runs, place, whole):
    """A replay and a judge leave no files behind."""
    return sorted(os.listdir(place)) == sorted(runs.files)


def starts_again(runs, place, whole):
    """The same run over what stands on the disk ends well: the put is the node's next one."""
    status, written, _ = runs.run(place)
    return status == 0 and written in (whole, b"put 6b -> 1/2\n")


def takes_it_then(runs, place, whole):
    """The same run over what stands on the disk ends well: the proof is taken, or was."""
    status, written, _ = runs.run(place)
    return status == 0 and written in (whole, whole.replace(b"accepted 1 known 0", b"accepted 0 known 1"))


def shown_a_hollow_voucher(room):
    """A judge and a node that are shown a voucher of node 9 for a long text, which is no update's."""
    one, nine = (Signer(node, bytes([node]) * 32, 2) for node in (1, 9))
    text = b"text" * 10_000
    body = voucher(9, 0, sha(text))
    proof = hollow(signed(body, nine.sign(0, body)), text)
    files = {"ROSTER": roster(one.entry(), nine.entry()), "PROOF": proof, "STREAM": frame(1, proof), "SCRIPT": b"take STREAM\n"}
    judge = Refusing(room, ["judge", "ROSTER", "PROOF"], files)
    node = Refusing(room, ["node", "ROSTER", one.seed.hex(), "2", "1", "SCRIPT"], files)
    return judge, node


def main():
    stride = int(sys.argv[1]) if len(sys.argv) > 1 else 1
    with tempfile.TemporaryDirectory() as room, open(os.path.join(HERE, "cases", "replay_a_join_supersedes_both/data/schedule"), "rb") as file:
        replay = Refusing(room, ["replay", "SCHEDULE"], {"SCHEDULE": file.read()})
        seed = "00" * 32
        root = bytes.fromhex(subprocess.run([DEPOT, "key", seed, "2"], capture_output=True, text=True, check=True).stdout)
        files = {"ROSTER": roster((1, 2, root)), "SCRIPT": b"put 6b 61\n"}
        node = Refusing(room, ["node", "ROSTER", seed, "2", "1", "SCRIPT"], files)
        good = tried("replay of a join", replay, stride, leaves_nothing)
        good = tried("node that puts", node, stride, starts_again) and good
        judge, taker = shown_a_hollow_voucher(room)
        good = tried("judge of a hollow proof", judge, stride, leaves_nothing) and good
        good = tried("node that takes a hollow proof", taker, stride, takes_it_then) and good
    sys.exit(0 if good else 1)


if __name__ == "__main__":
    main()
