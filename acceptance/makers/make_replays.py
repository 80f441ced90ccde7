#!/usr/bin/env python3
"""Writes the cases of this folder that replay schedules.

    python3 acceptance/makers/make_replays.py

A case is told as data: the header, and each event with what is printed behind its arrow, further lines behind it. What stands
before the arrow follows from docs/FORMATS.md ("Transcripts"). Nothing here is the program's own output.
"""

import os
import shutil

from make_cases import CASES, ROOT, ZEROS, frame, history_of, proof, roster, sha, signed, u, update

# How many words of an event stand before the arrow.
HEAD = {"bundle": 4, "settled": 4, **dict.fromkeys(["put", "get", "hello", "give", "checkpoint", "sign", "tgive", "tget"], 3)}

PLAIN = ["depot schedule 1", "scheme plain 4"]


def members(*lines):
    return PLAIN + list(lines)


def schedule(header, events):
    """The schedule's text: its lines, each with LF."""
    return "".join(line + "\n" for line in header + [event for event, *_ in events])


def transcript(events):
    """What is printed: a line an event, and the lines behind it."""
    lines = []
    for event, answer, *behind in events:
        words = event.split(" ")
        # `trim` prints the node and the name, without the label between them.
        head = " ".join([*words[:2], words[3]] if words[0] == "trim" else words[: HEAD.get(words[0], 2)])
        lines.append(head + " ->" + (" " + answer if answer else ""))
        lines += [" " + line for line in behind]
    return "".join(line + "\n" for line in lines)


# ---- what no event makes: signed texts of the plain scheme, and hellos


def root_of(node):
    """The root of a node's key: its seed is 30 zero bytes and its number."""
    return sha(bytes(30) + u(2, node))


def sign(writer, seq, body):
    return signed(body, sha(b"\x06", root_of(writer), u(4, seq), body))


def signed_update(writer, seq, clock, value, prev=ZEROS, deps=(), history=None, length=None):
    """The signed text of an update of the key k, which names this length where it isn't the value's."""
    body = update(writer, seq, clock, prev, b"k", value, deps, history)
    return sign(writer, seq, body if length is None else body[:82] + u(4, length) + body[86:])


def signed_voucher(node, seq, *ids):
    return sign(node, seq, b"\x01\x02" + u(2, node) + u(4, seq) + u(2, len(ids)) + b"".join(ids))


def id_of(signed_text):
    """The id of an update, by its signed text: the body stands between its length and the signature with its length."""
    return sha(signed_text[4:-36])


def damaged(signed_text):
    """The same, but for the last bit of the signature."""
    return signed_text[:-1] + bytes([signed_text[-1] ^ 1])


def hello_of(node, height, *members):
    """The hello of a node that has nothing."""
    return b"\x01\x03" + u(2, node) + sha(roster(*[(m, height, root_of(m)) for m in members])) + bytes(6)


def raw(label, made):
    return (f"raw {label} {made.hex() or '-'}", f"{len(made)} bytes")


def refusals(label, frames):
    """Node 1 is given these frames, which stand beside the checks that refuse them."""
    checks = [f"refused {at} {check}" for at, (_, check) in enumerate(frames)]
    return [raw(label, b"".join(made for made, _ in frames)), (f"give 1 {label}", f"accepted 0 known 0 refused {len(frames)} bare", *checks)]


# ---- cases


def write(name, args, stdout, status=0, files=None):
    folder = os.path.join(CASES, name)
    shutil.rmtree(folder, ignore_errors=True)
    os.makedirs(folder)
    with open(os.path.join(folder, "args"), "w") as out:
        out.write("".join(arg + "\n" for arg in args))
    with open(os.path.join(folder, "stdout"), "w") as out:
        out.write(stdout)
    if status:
        with open(os.path.join(folder, "status"), "w") as out:
            out.write(f"{status}\n")
    for file, text in (files or {}).items():
        os.makedirs(os.path.join(folder, "data"), exist_ok=True)
        with open(os.path.join(folder, "data", file), "w") as out:
            out.write(text)


def play(name, header, events):
    write("replay_" + name, ["replay", "schedule"], transcript(events), files={"schedule": schedule(header, events)})


def example(name, file, header, events):
    """A case whose schedule is one of the examples."""
    with open(os.path.join(ROOT, "examples", file), "w") as out:
        out.write(schedule(header, events))
    write("example_" + name, ["replay", file], transcript(events))
    with open(os.path.join(CASES, "example_" + name, "folder"), "w") as out:
        out.write("examples\n")


def refuse(name, lines, line, fault):
    text = "".join(line + "\n" for line in lines)
    write("replay_" + name, ["replay", "schedule"], f"input schedule line {line} {fault}\n", 2, {"schedule": text})


TOOK = "accepted 2 known 0 refused 0 bare"
TOOK_ONE = "accepted 1 known 0 refused 0 bare"
KNEW = "accepted 0 known 2 refused 0 bare"
KNEW_ONE = "accepted 0 known 1 refused 0 bare"
REFUSED_ONE = "accepted 0 known 0 refused 1 bare"
REFUSED = "accepted 0 known 0 refused 2 bare"
UNWANTED = "refused 1 14 Unwanted"

ONE = [("put 1 6b 61", "0/1"), ("get 1 6b", "1/0/1=61")]

MEET = [
    ("put 1 6b 61", "0/1"),
    ("put 2 6b 62", "0/1"),
    ("hello 1 a", "convicted 0 leaves 1 wanted 0"),
    ("hello 2 b", "convicted 0 leaves 1 wanted 0"),
    ("bundle 1 b c", "proofs 0 vouchers 0 updates 1 values 1 whole"),
    ("bundle 2 a d", "proofs 0 vouchers 0 updates 1 values 1 whole"),
    ("give 1 d", "accepted 2 known 0 refused 0 whole"),
    ("give 2 c", "accepted 2 known 0 refused 0 whole"),
    ("get 1 6b", "1/0/1=61 2/0/1=62"),
    ("get 2 6b", "1/0/1=61 2/0/1=62"),
]

JOIN = MEET + [
    ("put 1 6b 63", "1/2"),
    ("hello 2 e", "convicted 0 leaves 2 wanted 0"),
    ("bundle 1 e f", "proofs 0 vouchers 0 updates 1 values 1 whole"),
    ("give 2 f 1", "accepted 2 known 0 refused 0 whole"),
    ("get 2 6b", "1/1/2=63"),
    ("hello 3 g", "convicted 0 leaves 0 wanted 0"),
    ("bundle 1 g h", "proofs 0 vouchers 1 updates 3 values 3 whole"),
    ("get 3 6b", ""),
    ("give 3 h 100", "accepted 7 known 0 refused 0 whole"),
    ("get 3 6b", "1/1/2=63"),
    ("put 1 6b 64", "3/3"),
    ("give 3 h", "accepted 0 known 7 refused 0 whole"),
    ("restart 3", "records 8"),
    ("get 3 6b", "1/1/2=63"),
]

ORPHAN = [
    ("update x 9 0 1 - 6b 61 - right", "9/0/1"),
    ("update y 9 1 2 x 6b 62 - right", "9/1/2"),
    ("give 1 y", REFUSED, "refused 0 5 Missing", UNWANTED),
    ("give 1 x", TOOK),
    ("give 1 y", TOOK),
    ("get 1 6b", "9/1/2=62"),
    ("restart 1", "records 5"),
    ("give 1 y", KNEW),
    ("get 1 6b", "9/1/2=62"),
]

FORK = [("update x 9 0 1 - 6b 61 - right", "9/0/1"), ("update y 9 1 2 - 6b 62 - right", "9/1/2")]

REJOIN = FORK + [
    ("give 1 x", TOOK),
    ("give 2 y", TOOK),
    ("hello 1 a", "convicted 0 leaves 1 wanted 0"),
    ("bundle 2 a b", "proofs 0 vouchers 1 updates 1 values 1 whole"),
]

CONVICTED = FORK + [
    ("give 1 x", TOOK),
    ("give 1 y", REFUSED, "refused 0 11 Forked SamePrev", UNWANTED),
    ("restart 1", "records 4"),
    ("update z 9 2 3 x 6b 63 - right", "9/2/3"),
    ("give 1 z", REFUSED, "refused 0 12 Convicted 9", UNWANTED),
]

PROOFS = [
    ("voucher v 9 5 z", "9/5 ids 1"),
    ("give 1 v", "accepted 0 known 0 refused 1 bare", "refused 0 13 VoucherConvicted 9"),
    ("proof p SamePrev x y", "SamePrev"),
    ("judge p", "9 SamePrev"),
    ("flip q p 326", "327 bytes"),
    ("judge q", "BadSignature second"),
    ("cut a p 0 7", "7 bytes"),
    ("cut f p 7 160", "160 bytes"),
    ("cut s p 167 160", "160 bytes"),
    ("join t a s", "167 bytes"),
    ("join u t f", "327 bytes"),
    ("judge u", "WrongOrder"),
    ("join m a f", "167 bytes"),
    ("join n m f", "327 bytes"),
    ("judge n", "Same"),
    ("proof o Backward x z", "Backward"),
    ("judge o", "NotContradictory Backward"),
    ("update w 9 3 4 x 6b 64 y right", "NoRef"),
    ("proof l SamePrev w x", "NoRef"),
    ("judge l", "IllFormed 0"),
    ("give 1 y", REFUSED, "refused 0 12 Convicted 9", UNWANTED),
    ("restart 1", "records 4"),
]

CLOCKS = [
    ("update x 9 0 65536 - 6b 61 - right", "9/0/65536"),
    ("give 1 x", TOOK),
    ("update y 9 1 131073 x 6b 62 - right", "9/1/131073"),
    ("give 1 y", REFUSED, "refused 0 9 ClockFar 65536", UNWANTED),
    ("update z 9 2 131072 x 6b 63 - right", "9/2/131072"),
    ("give 1 z", TOOK),
    ("restart 1", "records 5"),
    ("put 1 6b 64", "0/131073"),
]

CHECKS = [
    ("update y 8 0 5 - 6b 61 - right", "8/0/5"),
    ("give 1 y", TOOK),
    ("update a 9 0 5 - 6b 62 y right", "9/0/5"),
    ("give 1 a", REFUSED, "refused 0 8 ClockLow", UNWANTED),
    ("update b 9 0 6 y 6b 63 - right", "9/0/6"),
    ("give 1 b", REFUSED, "refused 0 6 WrongDep 0", UNWANTED),
    ("update c 9 0 1 - 6b 64 - " + "0" * 64, "9/0/1"),
    ("give 1 c", REFUSED, "refused 0 10 BadHistory", UNWANTED),
    ("flip d a 206", "213 bytes"),
    ("give 1 d", REFUSED, "refused 0 4 BadSignature 9", UNWANTED),
    ("update e 9 0 6 - 6b 65 y " + "0" * 64, "9/0/6"),
    ("give 1 e", REFUSED, "refused 0 10 BadHistory", UNWANTED),
    ("restart 1", "records 3"),
    ("update f 9 0 6 - 6b 66 y right", "9/0/6"),
    ("give 1 f", TOOK),
    ("get 1 6b", "9/0/6=66"),
]

HOSTILE = [
    ("raw a -", "0 bytes"),
    ("give 1 a", "accepted 0 known 0 refused 0 bare"),
    ("raw b 02", "1 bytes"),
    ("give 1 b", "accepted 0 known 0 refused 0 cut 1"),
    ("raw c 09", "1 bytes"),
    ("give 1 c", "accepted 0 known 0 refused 0 ill-formed 0"),
    ("raw d 020000000100", "6 bytes"),
    ("give 1 d", "accepted 0 known 0 refused 1 bare", "refused 0 1 IllFormed 0"),
    ("raw e 04000000010004", "7 bytes"),
    ("give 1 e", "accepted 0 known 0 refused 0 ill-formed 6"),
    ("raw f 00", "1 bytes"),
    ("bundle 1 f g", "IllFormed 0"),
    ("raw h 01030001" + "0" * 64 + "000000000000", "42 bytes"),
    ("bundle 1 h i", "OtherRoster"),
    ("give 1 i", "accepted 0 known 0 refused 0 bare"),
]


def stopped(image):
    """A put that stops in its third call: the gate is written, and not yet synced."""
    kept = image == 1
    read = ("get 1 6b", "1/0/1=61" if kept else "")
    return [
        (f"stop 1 3 {image}", "armed"),
        ("put 1 6b 61", "stopped records 2" if kept else "stopped records 1"),
        read,
        ("put 1 6b 62", "1/2" if kept else "0/1"),
    ]


ORPHAN_STOPPED = [
    ("update x 9 0 1 - 6b 61 - right", "9/0/1"),
    ("stop 1 7 0", "armed"),
    ("give 1 x", "stopped records 2"),
    ("get 1 6b", "9/0/1=?"),
    ("give 1 x", "accepted 1 known 1 refused 0 bare"),
]

REJOIN_STOPPED = REJOIN + [
    ("stop 1 9 0", "armed"),
    ("give 1 b", "stopped records 5"),
    ("get 1 6b", "9/0/1=61"),
    ("give 1 b", "accepted 2 known 1 refused 0 whole"),
    ("get 1 6b", "9/0/1=61 9/1/2=62"),
]

RESTARTED = [
    ("put 1 6b 61", "0/1"),
    ("stop 1 1 2", "armed"),
    ("restart 1", "stopped records 2"),
    ("stop 1 1 0", "armed"),
    ("stop 1 5 0", "armed"),
    ("restart 1", "records 2"),
    ("put 1 6b 62", "stopped records 2"),
    ("restart 1", "records 2"),
]


# A disk that stops in the third of a put's four calls, the write that opens the record's gate: what it holds then is as before, or has the record.
STOP = [
    ("put 1 6b 61", "0/1"),
    ("stop 1 3 0", "armed"),
    ("put 1 6b 62", "stopped records 2"),
    ("get 1 6b", "1/0/1=61"),
    ("put 1 6b 62", "1/2"),
    ("stop 1 3 1", "armed"),
    ("put 1 6b 63", "stopped records 4"),
    ("get 1 6b", "1/2/3=63"),
    ("put 1 6b 64", "3/4"),
]

# A stream that is cut, forged, followed by what is no frame, sent again, and contradicted by another.
STREAMS = [
    ("update x 9 0 1 - 6b 61 - right", "9/0/1"),
    ("cut a x 0 100", "100 bytes"),
    ("give 1 a", "accepted 0 known 0 refused 0 cut 100"),
    ("flip b x 164", "171 bytes"),
    ("give 1 b", REFUSED, "refused 0 4 BadSignature 9", UNWANTED),
    ("raw c ffff", "2 bytes"),
    ("join d x c", "173 bytes"),
    ("give 1 d", "accepted 2 known 0 refused 0 ill-formed 171"),
    ("give 1 x", "accepted 0 known 2 refused 0 bare"),
    ("update y 9 1 2 - 6b 62 - right", "9/1/2"),
    ("give 1 y", REFUSED, "refused 0 11 Forked SamePrev", UNWANTED),
    ("hello 1 h", "convicted 1 leaves 1 wanted 0"),
    ("put 1 6b 63", "0/2"),
    ("get 1 6b", "1/0/2=63"),
]


# ---- stories of a node, and what it tells once it is started again

AGAIN = [
    ("put 1 6b -", "0/1"),
    ("restart 1", "records 2"),
    ("get 1 6b", "1/0/1="),
    ("get 1 6c", ""),
    ("put 1 6b 62", "1/2"),
    ("get 1 6b", "1/1/2=62"),
    ("restart 1", "records 3"),
]

SPENT = [(f"put 1 6b 6{i}", f"{i - 1}/{i}" if i < 5 else "Spent 4") for i in range(1, 6)] + [
    ("restart 1", "records 5"),
    ("put 1 6b 66", "Spent 4"),
    ("get 1 6b", "1/3/4=64"),
]

# A node that has signed all it can vouches for nothing that it took.
SPENT_VOUCHER = [
    ("put 1 6b 61", "0/1"),
    ("put 1 6b 62", "1/2"),
    ("put 1 6b 63", "2/3"),
    ("put 2 6b 64", "0/1"),
    ("hello 1 a", "convicted 0 leaves 1 wanted 0"),
    ("bundle 2 a b", "proofs 0 vouchers 0 updates 1 values 1 whole"),
    ("give 1 b", "accepted 2 known 0 refused 0 whole"),
    ("put 1 6b 65", "3/4"),
    ("hello 3 c", "convicted 0 leaves 0 wanted 0"),
    ("bundle 1 c d", "Spent 4"),
    ("give 3 d", "accepted 0 known 0 refused 0 bare"),
    ("restart 1", "records 7"),
]

# The value of an update comes before it, behind it and again; and one of another length than its update names.
VALUES = [
    ("update x 9 0 1 - 6b 61 - right", "9/0/1"),
    ("cut s x 0 165", "165 bytes"),
    ("cut v x 165 6", "6 bytes"),
    ("put 1 6b 62", "0/1"),
    ("give 1 v", REFUSED_ONE, "refused 0 14 Unwanted"),
    ("give 1 s", TOOK_ONE),
    ("get 1 6b", "1/0/1=62 9/0/1=?"),
    ("hello 1 a", "convicted 0 leaves 2 wanted 1"),
    ("give 1 v", TOOK_ONE),
    ("give 1 v", KNEW_ONE),
    ("get 1 6b", "1/0/1=62 9/0/1=61"),
    raw("w", frame(2, signed_update(8, 0, 1, b"c", length=2)) + frame(3, b"c")),
    ("give 1 w", "accepted 1 known 0 refused 1 bare", UNWANTED),
    ("hello 1 b", "convicted 0 leaves 3 wanted 1"),
    ("restart 1", "records 5"),
    ("give 1 v", KNEW_ONE),
    ("get 1 6b", "1/0/1=62 8/0/1=? 9/0/1=61"),
    ("put 1 6b 64", "1/2"),
    ("get 1 6b", "1/1/2=64"),
]

# The update d stands behind c, and has entries for a and b. Three others do so too, whose entries say something else of a or b.
A, B, C = (signed_update(writer, 0, 1, value) for writer, value in ((7, b"a"), (8, b"b"), (9, b"c")))


def joining(*entries):
    history = history_of([(7, 1, id_of(A)), (8, 1, id_of(B)), (9, 1, id_of(C))])
    return frame(2, signed_update(9, 1, 2, b"d", prev=id_of(C), deps=entries, history=history))


ENTRIES = [
    ("update a 7 0 1 - 6b 61 - right", "7/0/1"),
    ("update b 8 0 1 - 6b 62 - right", "8/0/1"),
    ("update c 9 0 1 - 6b 63 - right", "9/0/1"),
    ("update d 9 1 2 c 6b 64 b,a right", "9/1/2"),
    ("give 1 c", TOOK),
    ("give 1 d", REFUSED, "refused 0 5 Missing", UNWANTED),
    ("give 1 a", TOOK),
    ("give 1 d", REFUSED, "refused 0 5 Missing", UNWANTED),
    ("give 1 b", TOOK),
    *refusals("e", [
        (joining((7, 0, id_of(A)), (8, 1, id_of(B))), "6 WrongDep 1"),
        (joining((7, 1, id_of(A)), (8, 0, id_of(B))), "6 WrongDep 2"),
        (joining((6, 1, id_of(A)), (8, 1, id_of(B))), "6 WrongDep 1"),
    ]),
    ("give 1 d", TOOK),
    ("get 1 6b", "9/1/2=64"),
    ("restart 1", "records 9"),
    ("give 1 d", KNEW),
]

# Behind x, y has no greater clock and z no greater number.
BACKWARD = [
    ("update x 9 1 3 - 6b 61 - right", "9/1/3"),
    ("update y 9 2 3 x 6b 62 - right", "9/2/3"),
    ("update z 9 1 4 x 6b 63 - right", "9/1/4"),
    ("give 1 x", TOOK),
    ("give 1 y", REFUSED, "refused 0 7 Backward", UNWANTED),
    ("restart 1", "records 4"),
    ("give 1 z", REFUSED, "refused 0 7 Backward", UNWANTED),
    ("give 1 y", REFUSED, "refused 0 7 Backward", UNWANTED),
    ("get 1 6b", "9/1/3=61"),
    ("restart 1", "records 4"),
]

# What node 1 signed and never wrote, a proof that it did, and what is signed by no member.
MINE, ALSO_MINE, STRANGE = signed_update(1, 0, 1, b"a"), signed_update(1, 1, 2, b"b"), signed_update(7, 0, 1, b"a")

STRANGERS = [
    *refusals("s", [
        (frame(2, MINE), "3 NotMine"),
        (frame(1, proof(2, MINE, ALSO_MINE)), "16 AgainstMe"),
        (frame(2, STRANGE), "2 UnknownWriter 7"),
    ]),
    ("get 1 6b", ""),
    ("restart 1", "records 1"),
]

# Another writer vouches for the second branch of a fork.
VOUCHED = FORK + [
    ("voucher v 2 0 y", "2/0 ids 1"),
    ("give 1 x", TOOK),
    ("give 1 v", TOOK_ONE),
    ("give 1 y", TOOK),
    ("get 1 6b", "9/0/1=61 9/1/2=62"),
    ("restart 1", "records 7"),
    ("give 1 y", KNEW),
    ("give 1 v", KNEW_ONE),
    ("get 1 6b", "9/0/1=61 9/1/2=62"),
]

# A writer of vouchers is convicted; what it had vouched for is taken all the same.
VOUCHERS = FORK + [
    ("voucher v 2 0 y", "2/0 ids 1"),
    ("voucher w 2 0 x", "2/0 ids 1"),
    ("voucher z 2 1 x", "2/1 ids 1"),
    ("give 1 v", TOOK_ONE),
    ("give 1 v", KNEW_ONE),
    ("give 1 w", REFUSED_ONE, "refused 0 11 Forked SameNumber"),
    ("give 1 z", REFUSED_ONE, "refused 0 13 VoucherConvicted 2"),
    ("restart 1", "records 3"),
    ("give 1 x", TOOK),
    ("give 1 y", TOOK),
    ("hello 1 a", "convicted 2 leaves 2 wanted 0"),
    ("restart 1", "records 8"),
]

X, Y, W = signed_update(9, 0, 1, b"a"), signed_update(9, 1, 2, b"b"), signed_update(8, 0, 1, b"a")

NO_PROOFS = [
    (proof(5, X, Y), "1 IllFormed 1"),
    (proof(2, STRANGE, Y), "2 UnknownWriter 7"),
    (proof(2, X, STRANGE), "2 UnknownWriter 7"),
    (proof(2, damaged(X), Y), "4 BadSignature 9"),
    (proof(2, X, damaged(Y)), "4 BadSignature 9"),
    (proof(1, X, Y), "15 NotContradictory"),
    (proof(3, X, Y), "15 NotContradictory"),
    (proof(2, Y, X), "15 NotContradictory"),
    (proof(2, X, X), "15 NotContradictory"),
    (proof(2, W, X), "15 NotContradictory"),
]

# Proofs of each kind convict once, and the update of a convicted writer is refused.
CONVICTIONS = [
    *refusals("a", [(frame(1, made), check) for made, check in NO_PROOFS]),
    ("restart 1", "records 1"),
    *FORK,
    ("proof p SamePrev x y", "SamePrev"),
    ("update v 8 0 1 - 6b 61 - right", "8/0/1"),
    ("update w 8 0 2 - 6b 62 - right", "8/0/2"),
    ("proof q SameNumber v w", "SameNumber"),
    ("update s 6 1 3 - 6b 61 - right", "6/1/3"),
    ("update t 6 2 3 s 6b 61 - right", "6/2/3"),
    ("proof r Backward s t", "Backward"),
    ("give 1 p", TOOK_ONE),
    ("give 1 q", TOOK_ONE),
    ("give 1 r", TOOK_ONE),
    ("hello 1 b", "convicted 3 leaves 0 wanted 0"),
    ("restart 1", "records 4"),
    ("give 1 p", KNEW_ONE),
    ("give 1 q", KNEW_ONE),
    ("give 1 r", KNEW_ONE),
    ("give 1 v", REFUSED, "refused 0 12 Convicted 8", UNWANTED),
    ("restart 1", "records 4"),
]


# ---- stops of a disk in each call of an event, with each image

# The nodes to which it happens, one for each call and image: at most 32 of them, from 11 on.
FIRST = 11


def stops(calls):
    return [(FIRST + 3 * (call - 1) + image, call, image) for call in range(1, calls + 1) for image in range(3)]


def stopping(calls):
    return [f"node {node}" for node, _, _ in stops(calls)]


def left(before, call, image):
    """How many records are left. Each takes four calls: its text is written and synced, then its gate. A stop in one of the last two
    leaves the record where the image has what was written, and no other stop does."""
    return before + (call - 1) // 4 + (image == 1 and call % 4 in (3, 0))


def stops_of_puts():
    events = []
    for node, call, image in stops(4):
        records = left(1, call, image)
        events += [
            (f"stop {node} {call} {image}", "armed"),
            (f"put {node} 6b 61", f"stopped records {records}"),
            (f"get {node} 6b", ["", f"{node}/0/1=61"][records - 1]),
            (f"put {node} 6b 62", ["0/1", "1/2"][records - 1]),
        ]
    return events


def stops_of_takes():
    events = [("update x 9 0 1 - 6b 61 - right", "9/0/1")]
    for node, call, image in stops(8):
        records = left(1, call, image)
        events += [
            (f"stop {node} {call} {image}", "armed"),
            (f"give {node} x", f"stopped records {records}"),
            (f"get {node} 6b", ["", "9/0/1=?", "9/0/1=61"][records - 1]),
            (f"give {node} x", [TOOK, "accepted 1 known 1 refused 0 bare", KNEW][records - 1]),
        ]
    return events


def stops_of_forks():
    """The second branch comes with the proof that convicts its writer, which is kept first."""
    events = FORK + [("voucher v 2 0 y", "2/0 ids 1"), ("cut s y 0 165", "165 bytes")]
    for node, call, image in stops(8):
        records = left(4, call, image)
        events += [
            (f"give {node} x", TOOK),
            (f"give {node} v", TOOK_ONE),
            (f"stop {node} {call} {image}", "armed"),
            (f"give {node} s", f"stopped records {records}"),
            (f"hello {node} h{node}", "convicted %d leaves %d wanted %d" % [(0, 1, 0), (1, 1, 0), (1, 2, 1)][records - 4]),
            (f"give {node} s", [TOOK_ONE, TOOK_ONE, KNEW_ONE][records - 4]),
            (f"restart {node}", "records 6"),
        ]
    return events


def stops_of_bundles():
    """A bundle that needs a voucher hands nothing out before that is kept."""
    events = [("update x 9 0 1 - 6b 61 - right", "9/0/1"), ("hello 1 h", "convicted 0 leaves 0 wanted 0")]
    for node, call, image in stops(4):
        events += [
            (f"give {node} x", TOOK),
            (f"stop {node} {call} {image}", "armed"),
            (f"bundle {node} h a{node}", f"stopped records {left(3, call, image)}"),
            (f"give 1 a{node}", "accepted 0 known 0 refused 0 bare"),
            (f"bundle {node} h b{node}", "proofs 0 vouchers 1 updates 1 values 1 whole"),
            (f"restart {node}", "records 4"),
        ]
    return events


def stops_of_starts():
    events = []
    for node, call, image in stops(3):
        events += [
            (f"put {node} 6b 61", "0/1"),
            (f"stop {node} {call} {image}", "armed"),
            (f"restart {node}", "stopped records 2"),
            (f"get {node} 6b", f"{node}/0/1=61"),
            (f"put {node} 6b 62", "1/2"),
        ]
    return events


# ---- streams


def both_ways(label, *answer, nodes=(1, 1)):
    """A stream is given whole to the first of these nodes, and byte by byte to the second."""
    return [(f"give {nodes[0]} {label}", *answer), (f"give {nodes[1]} {label} 1", *answer)]


def cut_streams():
    """The frames of an update, of 165 bytes, and of its value, cut behind each byte. Where the update is whole a new node takes it."""
    events = [("update x 9 0 1 - 6b 61 - right", "9/0/1")]
    for count in range(1, 171):
        taken, rest = divmod(count, 165)
        nodes = (FIRST + 2 * rest, FIRST + 2 * rest + 1) if taken else (1, 1)
        ending = f"cut {rest}" if rest else "bare"
        events.append((f"cut c{count} x 0 {count}", f"{count} bytes"))
        events += both_ways(f"c{count}", f"accepted {taken} known 0 refused 0 {ending}", nodes=nodes)
    return events


# Bytes, and what a stream of them is; none of them changes the node.
BYTES = [
    ("02", "accepted 0 known 0 refused 0 cut 1"),
    ("030001", "accepted 0 known 0 refused 0 cut 3"),
    ("03000200", "accepted 0 known 0 refused 0 cut 4"),
    ("030003", "accepted 0 known 0 refused 0 ill-formed 0"),
    ("0300020001", "accepted 0 known 0 refused 0 ill-formed 0"),
    ("0301", "accepted 0 known 0 refused 0 ill-formed 0"),
    ("040000", "accepted 0 known 0 refused 0 cut 3"),
    ("0401", "accepted 0 known 0 refused 0 ill-formed 0"),
    ("0400000002", "accepted 0 known 0 refused 0 ill-formed 0"),
    ("0400000001", "accepted 0 known 0 refused 0 cut 5"),
    ("040000000100", "accepted 0 known 0 refused 0 whole"),
    ("040000000101", "accepted 0 known 0 refused 0 more"),
    ("040000000102", "accepted 0 known 0 refused 0 ill-formed 0"),
    ("04000000010004", "accepted 0 known 0 refused 0 ill-formed 6"),
    ("00", "accepted 0 known 0 refused 0 ill-formed 0"),
    ("05", "accepted 0 known 0 refused 0 ill-formed 0"),
    ("0200000000", REFUSED_ONE, "refused 0 1 IllFormed 0"),
    ("0100000000" "0300000001" "07" "040000000100", "accepted 0 known 0 refused 2 whole", "refused 0 1 IllFormed 0", "refused 1 14 Unwanted"),
]


def streams_of_bytes():
    events = []
    for at, (made, *answer) in enumerate(BYTES):
        events += [(f"raw b{at} {made}", f"{len(made) // 2} bytes"), *both_ways(f"b{at}", *answer)]
    return events


# End behind an update, and twice.
ENDS = [
    ("update x 9 0 1 - 6b 61 - right", "9/0/1"),
    ("raw e 040000000100", "6 bytes"),
    ("join a x e", "177 bytes"),
    ("join b a e", "183 bytes"),
    ("give 1 a", "accepted 2 known 0 refused 0 whole"),
    ("give 2 b", "accepted 2 known 0 refused 0 ill-formed 177"),
    ("give 2 b 1", "accepted 0 known 2 refused 0 ill-formed 177"),
]


def doubled(label, made, times):
    """The labels from LABEL0 on have these bytes once, twice, four times and so on."""
    events = [(f"raw {label}0 {made}", f"{len(made) // 2} bytes")]
    return events + [(f"join {label}{n} {label}{n - 1} {label}{n - 1}", f"{len(made) // 2 * 2**n} bytes") for n in range(1, times + 1)]


# A value that is a byte longer than the longest.
LONGER = doubled("z", "00", 16) + [
    ("raw h 0300010001", "5 bytes"),
    ("join i h z16", "65541 bytes"),
    ("join j i z0", "65542 bytes"),
    ("give 1 j", REFUSED_ONE, "refused 0 1 IllFormed 65536"),
]

# As many frames as a stream may have, and one more: values without bytes, which the node has.
FRAMES = [("put 1 6b -", "0/1")] + doubled("f", "0300000000", 19) + [
    ("give 1 f19 1000000", "accepted 0 known 524288 refused 0 bare"),
    ("join g f19 f0", "2621445 bytes"),
    ("give 1 g", "accepted 0 known 524288 refused 0 ill-formed 2621440"),
    ("raw e 040000000100", "6 bytes"),
    ("cut l f19 0 2621435", "2621435 bytes"),
    ("join m l e", "2621441 bytes"),
    ("give 1 m", "accepted 0 known 524287 refused 0 whole"),
]


def branches(count, answer, entries):
    """Writer 9 signs so many branches, which writer 8 vouches for; node 1 names them all, or meets the limit of entries."""
    events = []
    for seq in range(count):
        word = f"{seq:04x}"
        events.append((f"update u{seq} 9 {seq} 1 - {word} {word} - right", f"9/{seq}/1"))
    for start in range(0, count, 256):
        part = range(start, min(start + 256, count))
        number = start // 256
        refs = ",".join(f"u{seq}" for seq in part)
        events.append((f"voucher v{number} 8 {number} {refs}", f"8/{number} ids {len(part)}"))
        events.append((f"give 1 v{number}", "accepted 1 known 0 refused 0 bare"))
    for seq in range(count):
        events.append((f"give 1 u{seq}", TOOK))
    return events + [("put 1 6b 61", answer)] + entries


def main():
    play("one_node", members("node 1"), ONE)
    play("nothing_was_written", members("node 1"), [("get 1 6b", ""), ("put 1 6b -", "0/1"), ("get 1 6b", "1/0/1=")])
    play("a_join_supersedes_both", members("node 1", "node 2", "node 3"), JOIN)
    play("a_child_before_its_parent", members("node 1", "faulty 9"), ORPHAN)
    play("a_fork_rejoins", members("node 1", "node 2", "faulty 9"), REJOIN + [
        ("give 1 b", "accepted 3 known 0 refused 0 whole"),
        ("get 1 6b", "9/0/1=61 9/1/2=62"),
        ("hello 1 c", "convicted 1 leaves 2 wanted 0"),
        ("restart 1", "records 7"),
        ("hello 2 d", "convicted 0 leaves 1 wanted 0"),
        ("bundle 1 d e", "proofs 1 vouchers 1 updates 1 values 1 whole"),
        ("give 2 e 1", "accepted 4 known 0 refused 0 whole"),
        ("get 2 6b", "9/0/1=61 9/1/2=62"),
        ("bundle 1 d f", "proofs 1 vouchers 1 updates 1 values 1 whole"),
        ("restart 1", "records 8"),
    ])
    play("a_proof_is_judged", members("node 1", "faulty 9"), CONVICTED + PROOFS)
    play("clocks", members("node 1", "faulty 9"), CLOCKS)
    play("spent", ["depot schedule 1", "scheme plain 2", "node 1"], SPENT)
    play("a_spent_node_vouches_for_nothing", ["depot schedule 1", "scheme plain 2", "node 1", "node 2", "node 3"], SPENT_VOUCHER)
    play("checks_of_an_update", members("node 1", "faulty 8", "faulty 9"), CHECKS)
    play("what_was_put_is_read_again", members("node 1"), AGAIN)
    play("a_value_comes_behind_its_update", members("node 1", "faulty 8", "faulty 9"), VALUES)
    play("each_entry_is_looked_at", members("node 1", "faulty 7", "faulty 8", "faulty 9"), ENTRIES)
    play("a_step_back_convicts_once", members("node 1", "faulty 9"), BACKWARD)
    play("strangers_are_refused", members("node 1", "faulty 9"), STRANGERS)
    play("a_vouched_branch_is_taken", members("node 1", "faulty 2", "faulty 9"), VOUCHED)
    play("a_convicted_voucher_goes_on_counting", members("node 1", "faulty 2", "faulty 9"), VOUCHERS)
    play("proofs_convict_once", members("node 1", "faulty 6", "faulty 8", "faulty 9"), CONVICTIONS)
    play("hostile_bytes", members("node 1"), HOSTILE)
    play("streams_of_any_bytes", members("node 1"), streams_of_bytes())
    play("streams_that_end_twice", members("node 1", "node 2", "faulty 9"), ENDS)
    play("streams_that_are_cut", members("node 1", *[f"node {node}" for node in range(FIRST, FIRST + 12)], "faulty 9"), cut_streams())
    play("a_value_that_is_too_long", members("node 1"), LONGER)
    play("as_many_frames_as_a_stream_has", members("node 1"), FRAMES)
    for image in range(3):
        play(f"a_stop_leaves_image_{image}", members("node 1"), stopped(image))
    play("a_stop_between_records", members("node 1", "faulty 9"), ORPHAN_STOPPED)
    play("a_stop_behind_a_conviction", members("node 1", "node 2", "faulty 9"), REJOIN_STOPPED)
    play("a_stop_in_a_start", members("node 1"), RESTARTED)
    play("stops_in_each_call_of_a_put", members(*stopping(4)), stops_of_puts())
    play("stops_in_each_call_of_a_take", members(*stopping(8), "faulty 9"), stops_of_takes())
    play("stops_in_each_call_of_a_conviction", members(*stopping(8), "faulty 2", "faulty 9"), stops_of_forks())
    play("stops_in_each_call_of_a_bundle", members("node 1", *stopping(4), "faulty 9"), stops_of_bundles())
    play("stops_in_each_call_of_a_start", members(*stopping(3)), stops_of_starts())
    wide = ["depot schedule 1", "scheme plain 12", "node 1", "faulty 8", "faulty 9"]
    play("as_many_branches_as_entries", wide, branches(1024, "0/2", [
        ("get 1 6b", "1/0/2=61"),
        # The bundle for node 9, which signed the branches, has a proof of 324 bytes and the new update, whose body has 1,024 entries of 42 bytes.
        raw("h", hello_of(9, 12, 1, 8, 9)),
        ("bundle 1 h b", "proofs 1 vouchers 0 updates 1 values 1 whole"),
        ("cut c b 0 100000", f"{5 + 324 + 5 + 4 + 120 + 1024 * 42 + 4 + 32 + 5 + 1 + 5 + 1} bytes"),
    ]))
    play("one_branch_too_many", wide, branches(1025, "Tips 1025", [("get 1 6b", "")]))
    play("winternitz", ["depot schedule 1", "scheme winter 2", "node 1", "node 2", "faulty 9"], REJOIN + [
        ("give 1 b", "accepted 3 known 0 refused 0 whole"),
        ("get 1 6b", "9/0/1=61 9/1/2=62"),
        ("proof p SamePrev x y", "SamePrev"),
        ("judge p", "9 SamePrev"),
    ])
    play("no_event", members("node 1"), [])
    example("a_stop_inside_a_put", "stop.schedule", members("node 1"), STOP)
    example("a_hostile_stream", "hostile.schedule", members("node 1", "faulty 9"), STREAMS)
    write("replay_an_absent_file", ["replay", "none"], "shelf none\n", 3)
    refuse("a_height_of_one", ["depot schedule 1", "scheme plain 1", "node 1"], 2, "Number")
    refuse("no_node", members(), 3, "Header")
    refuse("an_unknown_event", members("node 1") + ["leave 1"], 4, "Word")
    play("as_many_correct_nodes_as_may_be", members(*(f"node {n}" for n in range(1, 33))), [("put 32 6b 61", "0/1"), ("get 32 6b", "32/0/1=61"), ("audit", "yes")])
    refuse("a_correct_node_too_many", members(*(f"node {n}" for n in range(1, 34))), 35, "Header")
    play("as_many_members_as_may_be", members("node 1", *(f"faulty {n}" for n in range(2, 257))), ONE)
    refuse("a_member_too_many", members("node 1", *(f"faulty {n}" for n in range(2, 258))), 259, "Header")
    write("words_replay_alone", ["replay"], "words\n", 1)


if __name__ == "__main__":
    main()
