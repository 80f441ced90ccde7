#!/usr/bin/env python3
"""Writes the cases that replay schedules of several keys at once and of deletions.

    python3 acceptance/makers/make_change_replays.py

They are told as those of make_replays.py are.
"""

import os

from make_cases import CASES, ZEROS, body_of, frame, named, sha, several, u, update_of
from make_replays import (
    FIRST, KNEW, KNEW_ONE, REFUSED, REFUSED_ONE, TOOK, TOOK_ONE, UNWANTED, damaged, id_of, left, members, play, raw, schedule, sign, stopping, stops, write,
)

# The signed text of an update by the plain scheme that gives values to three keys of one byte and deletes one: its body has 83 bytes beside its writes.
SIGNED_FOUR = 4 + 83 + 3 * 39 + 3 + 4 + 32

BOTH = "proofs 0 vouchers 0 updates 1 values 1 whole"

# Two keys are written at once, one of them is deleted, and another node reads both.
DELETED = [
    ("puts 1 6b=61,6c=62", "0/1"),
    ("puts 1 6b!", "1/2"),
    ("get 1 6b", "1/1/2!"),
    ("get 1 6c", "1/0/1=62"),
    ("hello 2 a", "convicted 0 leaves 0 wanted 0"),
    ("bundle 1 a b", "proofs 0 vouchers 0 updates 2 values 2 whole"),
    ("give 2 b", "accepted 4 known 0 refused 0 whole"),
    ("put 2 6b 63", "0/3"),
    ("get 2 6b", "2/0/3=63"),
]

# Both are started again: what was deleted stays so, and a deletion is no value that is wanted.
DELETED_AGAIN = DELETED + [
    ("get 2 6c", "1/0/1=62"),
    ("restart 1", "records 3"),
    ("restart 2", "records 6"),
    ("get 1 6b", "1/1/2!"),
    ("get 2 6b", "2/0/3=63"),
    ("hello 2 c", "convicted 0 leaves 2 wanted 0"),
    ("puts 2 6b!,6c!,6d=-", "1/4"),
    ("get 2 6b", "2/1/4!"),
    ("get 2 6c", "2/1/4!"),
    ("get 2 6d", "2/1/4="),
    ("puts 1 6b!", "2/3"),
    ("restart 1", "records 4"),
]

# Two nodes write at once, each one key and deletes another: both writes of a key are read, a deletion too, until one joins them.
CONCURRENT = [
    ("puts 1 6b=61,6c!", "0/1"),
    ("puts 2 6b!,6c=62", "0/1"),
    ("hello 1 a", "convicted 0 leaves 1 wanted 0"),
    ("hello 2 b", "convicted 0 leaves 1 wanted 0"),
    ("bundle 1 b c", BOTH),
    ("bundle 2 a d", BOTH),
    ("give 1 d 7", "accepted 2 known 0 refused 0 whole"),
    ("give 2 c 1", "accepted 2 known 0 refused 0 whole"),
    ("get 1 6b", "1/0/1=61 2/0/1!"),
    ("get 2 6b", "1/0/1=61 2/0/1!"),
    ("get 1 6c", "1/0/1! 2/0/1=62"),
    ("puts 1 6b=63,6d=64", "1/2"),
    ("get 1 6b", "1/1/2=63"),
    ("get 1 6c", "1/0/1! 2/0/1=62"),
    ("puts 1 6c!", "2/3"),
    ("get 1 6c", "1/2/3!"),
    ("hello 2 e", "convicted 0 leaves 2 wanted 0"),
    ("bundle 1 e f", "proofs 0 vouchers 0 updates 2 values 2 whole"),
    ("give 2 f", "accepted 4 known 0 refused 0 whole"),
    ("get 2 6b", "1/1/2=63"),
    ("get 2 6c", "1/2/3!"),
    ("get 2 6d", "1/1/2=64"),
    ("hello 3 g", "convicted 0 leaves 0 wanted 0"),
    ("bundle 2 g h", "proofs 0 vouchers 1 updates 4 values 4 whole"),
    ("give 3 h", "accepted 9 known 0 refused 0 whole"),
    ("get 3 6b", "1/1/2=63"),
    ("get 3 6c", "1/2/3!"),
    ("restart 3", "records 10"),
    ("get 3 6c", "1/2/3!"),
]

# A value that stands under several keys is held and sent once.
SHARED = [
    ("puts 1 6b=61,6c=61,6d=61", "0/1"),
    ("put 1 6e 61", "1/2"),
    ("hello 2 a", "convicted 0 leaves 0 wanted 0"),
    ("bundle 1 a b", "proofs 0 vouchers 0 updates 2 values 1 whole"),
    ("give 2 b", "accepted 3 known 0 refused 0 whole"),
    ("get 2 6b", "1/0/1=61"),
    ("get 2 6d", "1/0/1=61"),
    ("get 2 6e", "1/1/2=61"),
    ("restart 2", "records 4"),
    ("restart 1", "records 3"),
    ("updates x 9 0 1 - 6b=62,6c=61,6d=62,6e! - right", "9/0/1"),
    # The frames of its statement and of its two values.
    ("cut l x 0 100000", f"{5 + SIGNED_FOUR + 6 + 6} bytes"),
    ("give 2 x", "accepted 2 known 1 refused 0 bare"),
    # Each value stands where it is first needed: the front that ends behind one value has that of the first key.
    ("cut f x 0 %d" % (5 + SIGNED_FOUR + 6), f"{5 + SIGNED_FOUR + 6} bytes"),
    ("give 3 f", TOOK),
    ("get 3 6b", "9/0/1=62"),
    ("get 3 6c", "9/0/1=?"),
    ("get 3 6d", "9/0/1=62"),
    ("give 3 x", "accepted 1 known 2 refused 0 bare"),
    ("give 3 x", "accepted 0 known 3 refused 0 bare"),
    ("get 3 6b", "9/0/1=62"),
    ("get 3 6c", "9/0/1=61"),
    ("get 3 6d", "9/0/1=62"),
    ("get 3 6e", "9/0/1!"),
    ("hello 3 c", "convicted 0 leaves 1 wanted 0"),
]

# The values of an update come one by one, and what is missing is wanted.
PIECEMEAL = [
    ("updates x 9 0 1 - 6b=61,6c!,6d=6263,6e=- - right", "9/0/1"),
    (f"cut s x 0 {5 + SIGNED_FOUR}", f"{5 + SIGNED_FOUR} bytes"),
    ("give 1 s", TOOK_ONE),
    ("get 1 6b", "9/0/1=?"),
    ("get 1 6c", "9/0/1!"),
    ("get 1 6d", "9/0/1=?"),
    ("get 1 6e", "9/0/1=?"),
    ("hello 1 a", "convicted 0 leaves 1 wanted 3"),
    raw("v", frame(3, b"bc") + frame(3, b"cb")),
    ("give 1 v", "accepted 1 known 0 refused 1 bare", UNWANTED),
    ("get 1 6d", "9/0/1=6263"),
    ("hello 1 b", "convicted 0 leaves 1 wanted 2"),
    ("restart 1", "records 3"),
    ("give 2 x", "accepted 4 known 0 refused 0 bare"),
    # Node 2 has all, and sends the two values that node 1 wants.
    ("bundle 2 b c", "proofs 0 vouchers 0 updates 0 values 2 whole"),
    ("give 1 c", "accepted 2 known 0 refused 0 whole"),
    ("get 1 6b", "9/0/1=61"),
    ("get 1 6e", "9/0/1="),
    ("hello 1 d", "convicted 0 leaves 1 wanted 0"),
    ("restart 1", "records 5"),
]


def text_of(writes, seq=0, clock=1, prev=ZEROS, history=None, version=2):
    """The frame of an update of node 9 with these bytes for what it writes."""
    return frame(2, sign(9, seq, body_of(version, 9, seq, clock, prev, writes, history=history)))


A = sha(b"a")

# A writer names the hash of `a` with its length and with another one, under two keys: the first has its value, and the second never gets one.
LENGTHS = [
    raw("x", text_of(several((b"k", A + u(4, 1)), (b"l", A + u(4, 2)))) + frame(3, b"a")),
    ("give 1 x", TOOK),
    ("get 1 6b", "9/0/1=61"),
    ("get 1 6c", "9/0/1=?"),
    ("hello 1 a", "convicted 0 leaves 1 wanted 1"),
    ("give 1 x", KNEW),
    ("hello 2 b", "convicted 0 leaves 0 wanted 0"),
    ("bundle 1 b c", "proofs 0 vouchers 1 updates 1 values 1 whole"),
    ("give 2 c", "accepted 3 known 0 refused 0 whole"),
    ("hello 2 d", "convicted 0 leaves 1 wanted 1"),
    ("bundle 1 d e", "proofs 0 vouchers 0 updates 0 values 1 whole"),
    ("give 2 e", "accepted 0 known 1 refused 0 whole"),
    ("restart 1", "records 4"),
    ("get 1 6c", "9/0/1=?"),
    # The other way round, at a third node.
    raw("y", text_of(several((b"k", A + u(4, 2)), (b"l", A + u(4, 1)))) + frame(3, b"a") + frame(3, b"aa")),
    ("give 3 y", "accepted 2 known 0 refused 1 bare", "refused 2 14 Unwanted"),
    ("get 3 6b", "9/0/1=?"),
    ("get 3 6c", "9/0/1=61"),
    ("restart 3", "records 3"),
]

K, L = (b"k", named(b"a")), (b"l", None)
FRONT = 4 + 49

# Texts of updates that are none, beside the offset at which each goes wrong: that of its body stands from 4 of the frame's payload.
BAD_TEXTS = [
    (text_of(several(K, L), version=3), 4),
    (text_of(several(K, L))[:10] + b"\2" + text_of(several(K, L))[11:], 5),
    (text_of(several()), 4 + 48),
    (text_of(u(1, 17) + several(*[(bytes([at]), None) for at in range(17)])[1:]), 4 + 48),
    (text_of(several(K)), FRONT + 2),
    (text_of(several((b"k", None))[:-1] + b"\2"), FRONT + 2),
    (text_of(several(L, K)), FRONT + 3),
    (text_of(several(K, (b"k", None))), FRONT + 39),
    (text_of(several(K, (b"", None))), FRONT + 39),
    (text_of(several(K, L)[:-1] + b"\2"), FRONT + 39 + 2),
    (text_of(several((b"k", A + u(4, 65_537)), L)), FRONT + 3 + 32),
    (text_of(u(1, 3) + several(K, L)[1:]), FRONT + 39 + 3),
]

ILL_FORMED = [
    raw("a", b"".join(made for made, _ in BAD_TEXTS)),
    ("give 1 a", f"accepted 0 known 0 refused {len(BAD_TEXTS)} bare", *[f"refused {at} 1 IllFormed {place}" for at, (_, place) in enumerate(BAD_TEXTS)]),
    ("restart 1", "records 1"),
]

# A write of two keys goes through the checks as any other: its history, its signature, and a fork, of which the second branch deletes.
X2 = sign(9, 0, update_of(9, 0, 1, ZEROS, [(b"k", b"a"), (b"l", None)]))
CHECKED = [
    ("updates x 9 0 1 - 6b=61,6c! - right", "9/0/1"),
    ("updates b 9 0 1 - 6b=61,6c! - " + "0" * 64, "9/0/1"),
    ("give 1 b", REFUSED, "refused 0 10 BadHistory", UNWANTED),
    raw("d", frame(2, damaged(X2))),
    ("give 1 d", REFUSED_ONE, "refused 0 4 BadSignature 9"),
    ("updates y 9 1 2 x 6b! - right", "9/1/2"),
    ("give 1 y", REFUSED_ONE, "refused 0 5 Missing"),
    ("give 1 x", TOOK),
    ("give 1 y", TOOK_ONE),
    ("get 1 6b", "9/1/2!"),
    ("get 1 6c", "9/0/1!"),
    ("updates z 9 1 2 x 6b=61 - right", "9/1/2"),
    ("give 1 z", "accepted 0 known 1 refused 1 bare", "refused 0 11 Forked SameNumber"),
    ("updates w 9 2 2 x 6d! - right", "9/2/2"),
    ("proof p SamePrev w y", "SamePrev"),
    ("judge p", "9 SamePrev"),
    ("give 1 w", REFUSED_ONE, "refused 0 12 Convicted 9"),
    ("restart 1", "records 5"),
    ("hello 1 h", "convicted 1 leaves 1 wanted 0"),
    # What the node signed itself, of several keys, is known to it; another text of it is not.
    ("puts 1 6b=61,6c=62", "0/3"),
    ("hello 2 i", "convicted 0 leaves 0 wanted 0"),
    ("bundle 1 i j", "proofs 1 vouchers 1 updates 3 values 2 whole"),
    ("give 1 j", "accepted 0 known 7 refused 0 whole"),
    ("give 2 j", "accepted 7 known 0 refused 0 whole"),
    raw("m", frame(2, sign(1, 1, update_of(1, 1, 1, ZEROS, [(b"k", None)])))),
    ("give 1 m", REFUSED_ONE, "refused 0 3 NotMine"),
]

# One write that is no deletion has the text of version 1, whichever event makes it: its frames are the same bytes.
SINGLE = [
    ("update x 9 0 1 - 6b 61 - right", "9/0/1"),
    ("updates y 9 0 1 - 6b=61 - right", "9/0/1"),
    ("give 1 x", TOOK),
    ("give 1 y", KNEW),
    ("proof p SameNumber x y", "SameNumber"),
    ("judge p", "Same"),
    ("puts 1 6c=62", "0/2"),
    ("hello 2 a", "convicted 0 leaves 0 wanted 0"),
    ("bundle 1 a b", "proofs 0 vouchers 1 updates 2 values 2 whole"),
    # The frames of the update and of its value stand before the End frame: its body has the 120 bytes of version 1 and 42 for its entry.
    ("cut c b 0 100000", f"{5 + 4 + 42 + 4 + 32 + 5 + 160 + 6 + 5 + 202 + 6 + 6} bytes"),
    ("updates z 9 1 2 x 6b! x right", "NoRef"),
    ("give 1 z", "accepted 0 known 0 refused 0 bare"),
]


def stops_of_changes():
    """A put of two keys and a deletion is one record: all of it is there behind a stop, or nothing."""
    events = []
    for node, call, image in stops(4):
        records = left(1, call, image)
        kept = records == 2
        events += [
            (f"stop {node} {call} {image}", "armed"),
            (f"puts {node} 6b=61,6c!,6d=62", f"stopped records {records}"),
            (f"get {node} 6b", f"{node}/0/1=61" if kept else ""),
            (f"get {node} 6c", f"{node}/0/1!" if kept else ""),
            (f"get {node} 6d", f"{node}/0/1=62" if kept else ""),
            (f"puts {node} 6c=63,6d!", "1/2" if kept else "0/1"),
            (f"get {node} 6b", f"{node}/0/1=61" if kept else ""),
        ]
    return events


def stops_of_their_takes():
    """An update of two values is taken by three records, each of which takes four calls."""
    events = [("updates x 9 0 1 - 6b=61,6c=62 - right", "9/0/1")]
    for node in range(FIRST, FIRST + 12):
        call = 1 + node - FIRST
        records = left(1, call, 0)
        count = records - 1
        events += [
            (f"stop {node} {call} 0", "armed"),
            (f"give {node} x", f"stopped records {records}"),
            (f"get {node} 6b", ["", "9/0/1=?", "9/0/1=61"][count]),
            (f"get {node} 6c", ["", "9/0/1=?", "9/0/1=?"][count]),
            (f"give {node} x", f"accepted {3 - count} known {count} refused 0 bare"),
            (f"restart {node}", "records 4"),
        ]
    return events


# Limits of a put are those of a put of several keys.
LIMITS = [(f"puts 1 6b=6{at},6c!", f"{at}/{at + 1}") for at in range(4)] + [
    ("puts 1 6b!", "Spent 4"),
    ("puts 1 6b=61,6c!", "Spent 4"),
    ("get 1 6b", "1/3/4=63"),
    ("restart 1", "records 5"),
]

KEYS = [f"{at:02x}" for at in range(17)]
PARTS = {
    "two_equal_keys": "6b=61,6b=62",
    "keys_that_fall": "6c=61,6b=62",
    "a_key_that_falls_behind_its_prefix": "6b61!,6b!",
    "seventeen": ",".join(key + "!" for key in KEYS),
    "no_value": "6b=",
    "no_key": "=61",
    "nothing_deleted": "!",
    "an_empty_key": "-=61",
    "an_empty_key_deleted": "-!",
    "a_value_and_a_deletion": "6b=61!",
    "two_values": "6b=61=62",
    "deleted_twice": "6b!!",
    "a_mark_in_front": "!6b",
    "a_key_alone": "6b",
    "an_empty_part": "6b=61,,6c=62",
    "an_empty_part_in_front": ",6b=61",
    "an_empty_part_behind": "6b=61,",
    "no_part": ",",
    "an_odd_key": "6=61",
    "an_odd_value": "6b=6",
    "a_key_in_capitals": "6B=61",
    "a_value_in_capitals": "6b=6A",
    "a_long_key": "6b" * 256 + "!",
    "a_long_value": "6b=" + "61" * 65_537,
    "a_minus_behind_a_value": "6b=61-",
}

# Lines behind a schedule's header, with the fault of the last. Node 1 is correct, and 9 isn't.
LINES = [(f"puts 1 {part}", "Hex") for part in PARTS.values()] + [
    (f"updates x 9 0 1 - {part} - right", "Hex") for name, part in PARTS.items() if name in ("two_equal_keys", "no_value", "seventeen", "an_empty_part")
] + [
    ("puts 1", "Fields"),
    ("puts 1 6b=61 6c=62", "Fields"),
    ("puts 9 6b=", "Node"),
    ("puts 2 6b=61", "Node"),
    ("puts 0 6b=61", "Number"),
    ("puts x 6b=61", "Number"),
    ("updates x 9 0 1 - 6b=61 -", "Fields"),
    ("updates x 9 0 1 - 6b 61 - right", "Fields"),
    ("updates 6 9 0 1 - 6b=61 - right", "Label"),
    ("updates x 1 0 1 - 6b=61 - right", "Node"),
    ("updates x 9 16 1 - 6b=61 - right", "Number"),
    ("updates x 9 0 0 - 6b=61 - right", "Number"),
    ("updates x 9 0 1 y 6b= - right", "Label"),
    ("updates x 9 0 1 - 6b= y right", "Hex"),
    ("updates x 9 0 1 - 6b=61 y right", "Label"),
    ("updates x 9 0 1 - 6b=61 - left", "Hex"),
    ("update x 9 0 1 - 6b=61 61 - right", "Hex"),
    ("put 1 6b! 61", "Hex"),
    ("get 1 6b!", "Hex"),
    ("puts 1 6b=61,6c", "Hex"),
]


def many(name, header, lines):
    """One case of many runs: a schedule for each of these lines, which stands behind the header and is refused."""
    first = len(header) + 1
    stdout = "".join(f"input schedule{at} line {first} {fault}\n" for at, (_, fault) in enumerate(lines))
    files = {f"schedule{at}": schedule(header, [(line,)]) for at, (line, _) in enumerate(lines)}
    write("replay_" + name, ["replay", "schedule0"], stdout, files=files)
    folder = os.path.join(CASES, "replay_" + name)
    with open(os.path.join(folder, "status"), "w") as out:
        out.write("2\n" * len(lines))
    for at in range(1, len(lines)):
        with open(os.path.join(folder, f"args.{at + 1}"), "w") as out:
            out.write(f"replay\nschedule{at}\n")


# Labels of updates of several keys are references as those of one are.
REFERENCES = [
    ("updates x 9 0 1 - 6b=61,6c! - right", "9/0/1"),
    ("puts 1 6b!,6d=62", "0/1"),
    ("updates y 8 0 2 - 6b! x,1.0 right", "8/0/2"),
    ("updates z 9 1 2 x 6c=- 1.0 right", "9/1/2"),
    ("give 1 y", REFUSED_ONE, "refused 0 5 Missing"),
    ("give 1 x", TOOK),
    ("give 1 y", TOOK_ONE),
    ("give 1 z", TOOK),
    ("get 1 6b", "8/0/2!"),
    ("get 1 6c", "9/1/2="),
    ("get 1 6d", "1/0/1=62"),
    ("voucher v 8 1 x,y,z,1.0", "8/1 ids 4"),
    ("give 1 v", TOOK_ONE),
    ("updates w 9 2 3 z 6b! 1.1 right", "NoRef"),
    ("restart 1", "records 8"),
    ("puts 1 6b=61", "1/3"),
    ("get 1 6b", "1/1/3=61"),
]


def main():
    play("several_keys_and_a_deletion", members("node 1", "node 2"), DELETED)
    play("what_was_deleted_stays_so", members("node 1", "node 2"), DELETED_AGAIN)
    play("writes_and_deletions_meet", members("node 1", "node 2", "node 3"), CONCURRENT)
    play("a_value_under_several_keys", members("node 1", "node 2", "node 3", "faulty 9"), SHARED)
    play("values_come_one_by_one", members("node 1", "node 2", "faulty 9"), PIECEMEAL)
    play("one_hash_of_two_lengths", members("node 1", "node 2", "node 3", "faulty 9"), LENGTHS)
    play("bodies_of_several_keys_that_are_none", members("node 1", "faulty 9"), ILL_FORMED)
    play("several_keys_are_checked", members("node 1", "node 2", "faulty 9"), CHECKED)
    play("one_write_has_the_old_text", members("node 1", "node 2", "faulty 9"), SINGLE)
    play("several_keys_are_referred_to", members("node 1", "faulty 8", "faulty 9"), REFERENCES)
    play("several_keys_spend_a_leaf", ["depot schedule 1", "scheme plain 2", "node 1"], LIMITS)
    play("stops_in_each_call_of_a_put_of_several", members(*stopping(4)), stops_of_changes())
    play("stops_in_each_call_of_their_take", members(*[f"node {node}" for node in range(FIRST, FIRST + 12)], "faulty 9"), stops_of_their_takes())
    many("faults_of_writes", members("node 1", "faulty 9"), LINES)


if __name__ == "__main__":
    main()
