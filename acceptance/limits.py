#!/usr/bin/env python3
"""Replays schedules that reach the limits, and starts nodes over journals that pass them, and says of each whether it prints what it must. They
are told as those of make_replays.py and of make_node_cases.py, and are too large to be kept as files.

    python3 acceptance/limits.py
"""

import os
import subprocess
import sys
import tempfile

sys.path.insert(0, os.path.join(os.path.dirname(os.path.abspath(__file__)), "makers"))
from make_cases import ROOT, ZEROS, checkpoint, checkpoint_key, frame, history_of, roster, sha, update  # noqa: E402
from make_node_cases import JOURNAL, LISTED, words  # noqa: E402
from make_replays import (  # noqa: E402
    REFUSED, REFUSED_ONE, TOOK, TOOK_ONE, branches, doubled, hello_of, id_of, members, raw, root_of, schedule, sign, signed_update, signed_voucher, transcript,
)

DEPOT = os.path.join(ROOT, "depot")
# The bytes of a frame of an update without entries, under a key of one byte.
SHORT = 5 + 4 + 120 + 4 + 32
WIDE = ["depot schedule 1", "scheme plain 12"]


def long_values():
    """Values of 65,536 bytes are put and taken, and none is that is longer."""
    long = "76" * 65_536
    return members("node 1", "faulty 9"), [
        ("update x 9 0 1 - 6b 61 - right", "9/0/1"),
        (f"update y 9 1 2 x 6c {long} - right", "9/1/2"),
        ("give 1 x", TOOK),
        ("give 1 y 1460", TOOK),
        raw("z", frame(3, b"v" * 65_537)),
        ("give 1 z", REFUSED_ONE, "refused 0 1 IllFormed 65536"),
        (f"put 1 6d {long}", "0/3"),
        ("put 1 6b 62", "1/4"),
        ("restart 1", "records 7"),
        ("get 1 6b", "1/1/4=62"),
        ("get 1 6c", f"9/1/2={long}"),
        ("get 1 6d", f"1/0/3={long}"),
    ]


def many_branches():
    """Others have 4,096 branches at most."""
    return WIDE + ["node 1", "faulty 8", "faulty 9"], branches(4096, "Tips 4096", [
        ("update x 8 16 1 - 6b 62 - right", "8/16/1"),
        ("give 1 x", "accepted 0 known 0 refused 0 full writers 4096"),
        ("restart 1", f"records {1 + 16 + 1 + 4096 + 4096}"),
    ])


def many_records():
    """A journal has 131,072 records at most: the birth, an update, and vouchers for an update that nobody has."""
    update = frame(2, signed_update(34, 0, 1, b"a"))
    count = 131_070
    vouchers = [frame(2, signed_voucher(2 + at // 4096, at % 4096, ZEROS)) for at in range(count)]
    full = "accepted 0 known 0 refused 0 full records 131072"
    return WIDE + ["node 1"] + [f"faulty {node}" for node in range(2, 35)], [
        raw("a", update + b"".join(vouchers)),
        ("give 1 a 65536", f"accepted {1 + count} known 0 refused 0 bare"),
        raw("b", frame(2, signed_voucher(34, 1, ZEROS))),
        ("give 1 b", full),
        raw("c", frame(3, b"a")),
        ("give 1 c", full),
        ("put 1 6b 62", "full records 131072"),
        raw("d", hello_of(2, 12, *range(1, 35))),
        ("bundle 1 d e", "full records 131072"),
        ("give 1 a", f"accepted 0 known {1 + count} refused 0 bare"),
        ("restart 1", "records 131072"),
    ]


def many_updates():
    """Who gave receipts is asked of all updates: here of 100,001 of another, and then of the node's own."""
    count, prev, frames = 100_001, ZEROS, []
    for seq in range(count):
        made = signed_update(9, seq, seq + 1, b"a", prev, history=history_of([(9, seq, prev)] if seq else []))
        frames.append(frame(2, made))
        prev = id_of(made)
    return ["depot schedule 1", "scheme plain 17", "node 1", "faulty 9"], [
        raw("a", b"".join(frames)),
        ("give 1 a 65536", f"accepted {count} known 0 refused 0 bare"),
        ("put 1 6b 62", f"0/{count + 1}"),
        ("settled 1 1.0 1", "no"),
        ("receipt 1 1.0", f"1/{count + 2}"),
        ("settled 1 1.0 1", "yes"),
        ("settled 1 1.0 2", "no"),
    ]


def signed_by_all(most):
    """The text of a checkpoint of members 1 to this number, over the first update of the last one, and the frames of that update and of all that
    sign the text but node 1."""
    first = signed_update(most, 0, 1, b"a")
    leaf = id_of(first)
    text = checkpoint(sha(roster(*((node, 12, root_of(node)) for node in range(1, most + 1)))), (most, leaf))
    past = history_of([(most, 1, leaf)])
    signing = [(node, 4095, ZEROS, [(most, 1, leaf)]) for node in range(2, most)] + [(most, 1, leaf, [])]
    made = [first] + [sign(node, seq, update(node, seq, 2, prev, checkpoint_key(text), text, deps, past)) for node, seq, prev, deps in signing]
    return text, [frame(2, some) for some in made]


def wide_reader():
    """A reader is made under a roster of 256 members, each of which signed."""
    text, signed = signed_by_all(256)
    return WIDE + ["node 1"] + [f"faulty {node}" for node in range(2, 257)], [
        raw("k", text),
        raw("a", b"".join(signed[:-1])),
        ("give 1 a", "accepted 255 known 0 refused 0 bare"),
        ("sign 1 k", "0/3"),
        ("trim 1 k r", "Unsigned 256"),
        ("tget r 6b", ""),
        raw("b", signed[-1]),
        ("give 1 b", TOOK_ONE),
        ("trim 1 k t", "kept 257 of 257"),
        ("tget t 6b", "256/0/1=?"),
    ]


def full_reader(most=131_072):
    """A reader counts the records of its node when it was made, and what it takes but for values: 131,072 at most."""
    text, signed = signed_by_all(34)
    # The birth, the first update, 34 that sign, and vouchers up to two records less than a journal has.
    count = most - 2 - 36
    vouchers = [frame(2, signed_voucher(2 + at // 4095, at % 4095, ZEROS)) for at in range(count)]
    more = [frame(2, signed_voucher(34, seq, ZEROS)) for seq in range(2, 6)]
    return WIDE + ["node 1"] + [f"faulty {node}" for node in range(2, 35)], [
        raw("k", text),
        raw("a", b"".join(signed) + b"".join(vouchers)),
        ("give 1 a", f"accepted {34 + count} known 0 refused 0 bare"),
        ("sign 1 k", "0/3"),
        ("trim 1 k t", "kept 35 of 35"),
        raw("b", more[0] + frame(3, b"no") + more[1] + signed[0] + more[2] + more[3]),
        ("tgive t b", f"accepted 2 known 1 refused 1 below 0 full records {most}"),
        raw("c", more[2]),
        ("tgive t c", f"accepted 0 known 0 refused 0 below 0 full records {most}"),
        # What is known, refused or a value still comes to its answer.
        raw("d", signed[0] + frame(3, b"no") + frame(3, b"a") + frame(3, b"a") + more[1] + more[3] + frame(3, b"a")),
        ("tget t 6b", "34/0/1=?"),
        ("tgive t d", f"accepted 1 known 3 refused 1 below 0 full records {most}"),
        ("tget t 6b", "34/0/1=61"),
        # The node itself has room for two more.
        ("give 1 b", f"accepted 2 known 1 refused 1 full records {most}", "refused 1 14 Unwanted"),
        ("restart 1", f"records {most}"),
        ("tgive t d", f"accepted 0 known 4 refused 1 below 0 full records {most}"),
    ]


def long_bundle():
    """The updates and values of a bundle have 67,108,864 bytes at most: with its value each of these takes 165 and 65,541."""
    return WIDE + ["node 1", "node 2"], [
        *[(f"put 1 6b {seq:04x}{'00' * 65_534}", f"{seq}/{seq + 1}") for seq in range(1022)],
        ("hello 2 a", "convicted 0 leaves 0 wanted 0"),
        ("bundle 1 a b", "proofs 0 vouchers 0 updates 1021 values 1021 more"),
        ("give 2 b 65536", "accepted 2042 known 0 refused 0 more"),
        ("hello 2 c", "convicted 0 leaves 1 wanted 0"),
        ("bundle 1 c d", "proofs 0 vouchers 0 updates 1 values 1 whole"),
        ("give 2 d", "accepted 2 known 0 refused 0 whole"),
    ]


def longest_put():
    """A put of 16 keys of 255 bytes and values of 65,536, with 1,024 entries, has the longest body and the longest record. It is sent, taken and opened again."""
    keys = ["ff" * 254 + f"{at:02x}" for at in range(16)]
    values = [f"{at:02x}" + "00" * 65_535 for at in range(16)]
    # Behind its proof of 324 bytes stand the update, the 16 values and End.
    length = 5 + 324 + 5 + 4 + 47_779 + 4 + 32 + 16 * (5 + 65_536) + 6
    return WIDE + ["node 1", "node 2", "faulty 8", "faulty 9"], branches(1024, "", [])[:-1] + [
        ("puts 1 " + ",".join(f"{key}={value}" for key, value in zip(keys, values)), "0/2"),
        raw("h", hello_of(9, 12, 1, 2, 8, 9)),
        ("bundle 1 h b", "proofs 1 vouchers 0 updates 1 values 16 whole"),
        ("cut c b 0 10000000", f"{length} bytes"),
        ("restart 1", f"records {1 + 4 + 1 + 1024 + 1024 + 1}"),
        (f"get 1 {keys[15]}", f"1/0/2={values[15]}"),
        ("hello 2 i", "convicted 0 leaves 0 wanted 0"),
        ("bundle 1 i d", "proofs 1 vouchers 4 updates 1025 values 1040 whole"),
        ("give 2 d 65536", f"accepted {1 + 4 + 1025 + 1040} known 0 refused 0 whole"),
        ("restart 2", f"records {1 + 1 + 4 + 1025 + 1040}"),
        (f"get 2 {keys[0]}", f"1/0/2={values[0]}"),
        ("puts 2 " + ",".join(f"{key}!" for key in keys), "Tips 1025"),
    ]


def many_frames():
    """A stream has 524,288 frames at most: values without bytes, which nobody wants."""
    refusals = [f"refused {frame} 14 Unwanted" for frame in range(524_288)]
    return members("node 1"), doubled("f", "0300000000", 19) + [
        ("join g f19 f0", "2621445 bytes"),
        ("give 1 g", "accepted 0 known 0 refused 524288 ill-formed 2621440", *refusals),
    ]


def many_wanted():
    """A hello wants 1,024 values, though more are lacking; a voucher has 256 ids; and a newcomer takes updates of others, however many they are."""
    count = 1100
    events = []
    for seq in range(count):
        prev = f"u{seq - 1}" if seq else "-"
        events += [
            (f"update u{seq} 9 {seq} {seq + 1} {prev} 6b {seq:04x} - right", f"9/{seq}/{seq + 1}"),
            (f"cut c{seq} u{seq} 0 {SHORT}", f"{SHORT} bytes"),
            (f"give 1 c{seq}", TOOK_ONE),
        ]
    return WIDE + ["node 1", "node 2", "faulty 9"], events + [
        ("hello 1 a", "convicted 0 leaves 1 wanted 1024"),
        ("hello 2 b", "convicted 0 leaves 0 wanted 0"),
        ("bundle 1 b c", f"proofs 0 vouchers 5 updates {count} values 0 whole"),
        ("give 2 c", f"accepted {5 + count} known 0 refused 0 whole"),
        ("hello 2 d", "convicted 0 leaves 1 wanted 1024"),
    ]


def wide_proof():
    """A frame has more than 65,536 bytes: a proof of two updates with 1,024 entries each, which is made, told and taken."""
    count = 1024
    named = ",".join(f"u{seq}" for seq in range(count))
    return WIDE + ["node 1", "node 2", "faulty 7", "faulty 8", "faulty 9"], branches(count, "0/2", [
        (f"update x 7 0 2 - 6b 62 {named} right", "7/0/2"),
        (f"update y 7 0 2 - 6b 63 {named} right", "7/0/2"),
        ("give 1 x", TOOK),
        ("give 1 y", REFUSED, "refused 0 11 Forked SameNumber", "refused 1 14 Unwanted"),
        ("hello 2 h", "convicted 0 leaves 0 wanted 0"),
        ("bundle 1 h b", f"proofs 2 vouchers 5 updates {count + 2} values {count + 2} whole"),
        ("give 2 b", f"accepted {2 + 5 + 2 * (count + 2)} known 0 refused 0 whole"),
    ])


def plays(name, header, events):
    with tempfile.TemporaryDirectory() as room:
        with open(os.path.join(room, "schedule"), "w") as out:
            out.write(schedule(header, events))
        run = subprocess.run([DEPOT, "replay", "schedule"], cwd=room, capture_output=True, text=True)
    good = run.returncode == 0 and run.stdout == transcript(events)
    print(f"{name}: " + ("as told" if good else f"status {run.returncode}, not as told"))
    return good


def too_many_records(file):
    """A journal of one record more than there may be. They have no bytes, so each takes five: the last one's gate is told."""
    file.write(b"\1\0\0\0\0" * 131_073 + b"\0")
    return 5 * 131_072


def too_many_bytes(file):
    """A journal whose one record is a byte too long for it. It has no content, so that it takes no room."""
    length = 2**30 - 5
    file.write(b"\1" + length.to_bytes(4, "big"))
    file.truncate(5 + length + 1)
    return 0


def is_damaged(name, write):
    """Whether a node over such a journal says where it is damaged, and leaves it as it was."""
    with tempfile.TemporaryDirectory() as room:
        path = os.path.join(room, JOURNAL)
        for file, data in (("ROSTER", LISTED), ("SCRIPT", b"")):
            with open(os.path.join(room, file), "wb") as out:
                out.write(data)
        with open(path, "wb") as file:
            offset = write(file)
        before = os.stat(path)
        ran = subprocess.run([DEPOT, *words(1)], cwd=room, capture_output=True, text=True)
        after = os.stat(path)
    good = (ran.returncode, ran.stdout) == (9, f"damaged {offset}\n") and (before.st_size, before.st_mtime_ns) == (after.st_size, after.st_mtime_ns)
    print(f"{name}: " + ("as told" if good else f"not as told: status {ran.returncode}, {ran.stdout[:80]!r}"))
    return good


def main():
    cases = (long_values, many_branches, many_records, many_updates, wide_reader, full_reader, long_bundle, longest_put, many_frames, many_wanted, wide_proof)
    results = [plays(case.__name__, *case()) for case in cases]
    results += [is_damaged(write.__name__, write) for write in (too_many_records, too_many_bytes)]
    sys.exit(0 if all(results) else 1)


if __name__ == "__main__":
    main()
