#!/usr/bin/env python3
"""A stand-in for `depot node` in the tests of the runner: it puts and reads over a journal, and checks nothing.

STOP in the environment says where it ends as if it were killed: `told 3` behind the third line that it tells of,
`put 3` once the third put stands in the journal and before it is told of, `limit 3` at the third line by a limit,
`shelf 3` there by a file, `disk 3` by the journal's; `fault 3` says at once that this line is faulty; `identity 0` says that
the key is another's, and touches nothing; `slow 3` waits 3 tenths of a second before it does anything.

`take NAME` tells what stands in the file NAME.told, and appends the record in the file NAME.record, if they are there.
"""

import os
import signal
import sys
import time

sys.path.insert(0, os.path.join(os.path.dirname(os.path.abspath(__file__)), os.pardir))
import formats as f  # noqa: E402

JOURNAL = "depot.journal"


def append(body):
    with open(JOURNAL, "r+b") as file:
        end = f.read_journal(file.read()).end
        file.seek(end)
        file.write(b"\1" + f.number(4, len(body)) + body + b"\0")


def own_updates():
    with open(JOURNAL, "rb") as file:
        return f.updates_of(f.read_journal(file.read()).records)


def put(node, key, value):
    """Appends the next own update of one key; gives its seq and clock."""
    before = own_updates()
    prev = before[-1].id if before else f.NO_UPDATE
    seq, clock = len(before), len(before) + 1
    body = b"".join([
        b"\1\1", f.number(2, node), f.number(4, seq), f.number(8, clock), prev, f.number(1, len(key)), key,
        f.sha256(value), f.number(4, len(value)), f.number(2, 0), f.history_hash(before[-1:]),
    ])
    append(b"\2" + f.number(4, len(body)) + body + value)
    return "%d/%d" % (seq, clock)


def contents(name):
    """What stands in a file, or no bytes where there is none."""
    if not os.path.exists(name):
        return b""
    with open(name, "rb") as file:
        return file.read()


def take(name):
    """What is told of a take."""
    if contents(name + ".record"):
        append(contents(name + ".record"))
    return contents(name + ".told").decode() or "accepted 0 known 0 refused 0 whole"


def main(words):
    _, roster, _, _, node, script = words
    mood, place = (os.environ.get("STOP") or "none 0").split()
    if mood == "identity":
        print("identity OtherKey", flush=True)
        return 10
    if mood == "slow":
        time.sleep(int(place) / 10)
    if not os.path.exists(JOURNAL) or os.path.getsize(JOURNAL) < 2:
        with open(JOURNAL, "wb") as file:
            file.write(b"\0")
        with open(roster, "rb") as file:
            append(b"\1" + f.number(2, int(node)) + f.sha256(file.read()))
    puts = 0
    sys.stdout.reconfigure(encoding="utf-8", errors="surrogateescape")
    with open(script, encoding="utf-8", errors="surrogateescape") as file:
        lines = file.read().splitlines()
    if mood == "fault":
        print("input %s line %s Hex" % (script, place), flush=True)
        return 2
    for told, line in enumerate(lines, 1):
        verb, *rest = line.split(" ")
        if mood in ("shelf", "disk") and told == int(place):
            print("shelf %s" % rest[-1] if mood == "shelf" else "disk", flush=True)
            return 3 if mood == "shelf" else 4
        if mood == "limit" and told == int(place):
            print("%s -> Spent 4" % " ".join([verb] + rest[:1]), flush=True)
            return 8
        answer = take(*rest) if verb == "take" else "nothing"
        if verb == "put":
            answer = put(int(node), bytes.fromhex(rest[0]), bytes.fromhex(rest[1]))
            puts += 1
            if mood == "put" and puts == int(place):
                os.kill(os.getpid(), signal.SIGKILL)
        print("%s -> %s" % (" ".join([verb] + rest[:1]), answer), flush=True)
        if mood == "told" and told == int(place):
            os.kill(os.getpid(), signal.SIGKILL)
    return 0


if __name__ == "__main__":
    try:
        sys.exit(main(sys.argv[1:]))
    except BrokenPipeError:
        os._exit(5)
