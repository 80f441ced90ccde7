#!/usr/bin/env python3
"""Writes the files of examples/fork, which docs/TUTORIAL.md walks through: a writer who forks, and the proof that convicts it.

    python3 examples/make_fork.py

Node 9 signs two updates of the key `k` (6b in hex) under one prev, `a` for some readers and `b` for others. Node 1 comes to know both
and writes a third update above them. The bytes are made by the functions of acceptance/makers/make_cases.py, apart from the program.

    branches.log   the two branches
    joined.log     the same, and node 1's update, which names both
    roster         nodes 1 and 9, with trees of height 2
    proof          the two branches, signed: a proof against node 9
    forged         the same with the last bit of the second signature changed
"""
import os
import sys

HERE = os.path.dirname(os.path.abspath(__file__))
sys.path.insert(0, os.path.join(HERE, "..", "acceptance", "makers"))
from make_cases import CASES, Signer, ZEROS, case, history_of, log, proof, roster, sha, signed, update  # noqa: E402

FOLDER = os.path.join(HERE, "fork")


def main():
    one = Signer(1, b"\x01" * 32, 2)
    nine = Signer(9, b"\x09" * 32, 2)
    x = update(9, 0, 1, ZEROS, b"k", b"a")
    y = update(9, 1, 2, ZEROS, b"k", b"b")
    leaves = sorted([(9, 1, sha(x)), (9, 2, sha(y))], key=lambda entry: entry[2])
    join = update(1, 0, 3, ZEROS, b"k", b"c", leaves, history_of(leaves))
    halves = [signed(body, nine.sign(seq, body)) for seq, body in enumerate([x, y])]
    assert x < y
    good = proof(2, *halves)
    files = {
        "branches.log": log(x, y),
        "joined.log": log(x, y, join),
        "roster": roster(one.entry(), nine.entry()),
        "proof": good,
        "forged": good[:-1] + bytes([good[-1] ^ 1]),
    }
    os.makedirs(FOLDER, exist_ok=True)
    for name, data in files.items():
        with open(os.path.join(FOLDER, name), "wb") as out:
            out.write(data)

    def told(name, args, stdout, status=0):
        case(name, args, stdout, status)
        with open(os.path.join(CASES, name, "folder"), "w") as out:
            out.write("examples/fork\n")

    told("fork_both_branches_are_read", ["scan", "branches.log", "6b"], "9/0/1=%s\n9/1/2=%s\n" % (sha(b"a").hex(), sha(b"b").hex()))
    told("fork_a_join_supersedes_both", ["scan", "joined.log", "6b"], "1/0/3=%s\n" % sha(b"c").hex())
    told("fork_convicts_its_writer", ["judge", "roster", "proof"], "9 SamePrev\n")
    told("fork_a_forged_proof_convicts_nobody", ["judge", "roster", "forged"], "BadSignature second\n", 7)


if __name__ == "__main__":
    main()
