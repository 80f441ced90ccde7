#!/usr/bin/env python3
"""Writes the cases of this folder that replay receipts, and ask whether enough nodes gave some.

    python3 acceptance/makers/make_receipt_replays.py

They are told as those of make_replays.py are. A receipt for an update is an own update whose key is `receipt:` and the update's id,
with no bytes as its value; `N.SEQ` is the own update of node N with the number SEQ.
"""

from make_cases import ZEROS, history_of, sha, update
from make_change_replays import many
from make_replays import TOOK, TOOK_ONE, left, members, play, stopping, stops

# The key of a receipt for the first update of node 1, where that gives 6b (k) the value 61 (a) and comes before all others.
FIRST_ID = sha(update(1, 0, 1, ZEROS, b"k", b"a", (), history_of(())))
KEY = (b"receipt:" + FIRST_ID).hex()

# A put is settled at two nodes. The later receipt supersedes the earlier one, and both count.
SETTLED = [
    ("put 1 6b 61", "0/1"),
    ("hello 2 a", "convicted 0 leaves 0 wanted 0"),
    ("bundle 1 a b", "proofs 0 vouchers 0 updates 1 values 1 whole"),
    ("give 2 b", "accepted 2 known 0 refused 0 whole"),
    ("receipt 2 1.0", "0/2"),
    ("receipt 3 1.0", "Unknown"),
    ("settled 1 1.0 1", "no"),
    ("hello 1 c", "convicted 0 leaves 1 wanted 0"),
    ("bundle 2 c d", "proofs 0 vouchers 0 updates 1 values 1 whole"),
    ("give 1 d", "accepted 2 known 0 refused 0 whole"),
    ("settled 1 1.0 1", "yes"),
    ("receipt 1 1.0", "1/3"),
    ("settled 1 1.0 2", "yes"),
    ("get 1 " + KEY, "1/1/3="),
    ("settled 1 1.0 3", "no"),
    ("settled 1 1.0 256", "no"),
    ("settled 2 1.0 1", "yes"),
    ("settled 2 1.0 2", "no"),
    ("settled 3 1.0 1", "no"),
    ("restart 1", "records 5"),
    ("settled 1 1.0 2", "yes"),
    ("settled 1 2.0 1", "no"),
    ("settled 1 2.1 1", "NoRef"),
]

# No receipt is given for an update without its value.
WITHOUT_VALUE = [
    ("update x 9 0 1 - 6b 61 - right", "9/0/1"),
    ("cut s x 0 165", "165 bytes"),
    ("give 1 s", "accepted 1 known 0 refused 0 bare"),
    ("receipt 1 x", "NoValue"),
    ("restart 1", "records 2"),
    ("receipt 1 x", "NoValue"),
    ("settled 1 x 1", "no"),
    ("give 1 x", "accepted 1 known 1 refused 0 bare"),
    ("receipt 1 x", "0/2"),
    ("settled 1 x 1", "yes"),
    ("settled 1 x 2", "no"),
]

# One update has the receipts for several, each once. What references name is looked for first, then an unknown update, then a value.
SEVERAL = [
    ("update x 9 0 1 - 6b 61 - right", "9/0/1"),
    ("update y 9 1 2 x 6c 62 - right", "9/1/2"),
    ("receipt 1 x", "Unknown"),
    ("receipt 1 1.0", "NoRef"),
    ("put 1 6b 63", "0/1"),
    ("receipt 1 1.0,x", "Unknown"),
    ("receipt 1 x,1.1", "NoRef"),
    ("settled 1 1.1 1", "NoRef"),
    ("settled 1 x 1", "no"),
    ("cut s x 0 165", "165 bytes"),
    ("give 1 s", TOOK_ONE),
    ("receipt 1 x,1.0", "NoValue"),
    ("receipt 1 x,y", "Unknown"),
    ("receipt 1 y,x", "Unknown"),
    ("give 1 x", "accepted 1 known 1 refused 0 bare"),
    ("give 1 y", TOOK),
    ("receipt 1 y,1.0,x,1.0,y", "1/3"),
    ("settled 1 x 1", "yes"),
    ("settled 1 y 1", "yes"),
    ("settled 1 1.0 1", "yes"),
    ("settled 1 1.1 1", "no"),
    ("receipt 1 1.1", "2/4"),
    ("settled 1 1.1 1", "yes"),
    ("settled 1 1.2 1", "no"),
    ("hello 2 a", "convicted 0 leaves 0 wanted 0"),
    # It vouches for both updates of node 9.
    ("bundle 1 a b", "proofs 0 vouchers 1 updates 5 values 4 whole"),
    ("give 2 b", "accepted 10 known 0 refused 0 whole"),
    ("settled 2 x 1", "yes"),
    ("settled 2 1.1 1", "yes"),
    ("receipt 2 x,1.2", "0/5"),
    ("settled 2 x 2", "yes"),
    ("settled 2 y 2", "no"),
]

SIXTEEN = [f"u{at}" for at in range(16)]


def sixteen():
    """As many receipts as an update has keys."""
    events = []
    for at, label in enumerate(SIXTEEN):
        prev = f"u{at - 1}" if at else "-"
        events += [(f"update {label} 9 {at} {at + 1} {prev} 6b 61 - right", f"9/{at}/{at + 1}"), (f"give 1 {label}", "accepted 1 known 1 refused 0 bare" if at else TOOK)]
    return events + [
        ("receipt 1 " + ",".join(reversed(SIXTEEN)), "0/17"),
        *[(f"settled 1 {label} 1", "yes") for label in SIXTEEN],
        ("receipt 1 " + ",".join(["u7"] * 16), "1/18"),
        ("settled 1 u7 2", "no"),
        ("restart 1", "records 20"),
        ("hello 2 a", "convicted 0 leaves 0 wanted 0"),
        ("bundle 1 a b", "proofs 0 vouchers 1 updates 18 values 2 whole"),
        ("give 2 b 1", "accepted 21 known 0 refused 0 whole"),
        ("settled 2 u0 1", "yes"),
        ("settled 2 u15 1", "yes"),
    ]


# What was deleted has no value that could be lacking.
DELETIONS = [
    ("puts 1 6b!", "0/1"),
    ("receipt 1 1.0", "1/2"),
    ("settled 1 1.0 1", "yes"),
    ("updates x 9 0 1 - 6b=61,6c! - right", "9/0/1"),
    ("updates y 9 1 2 x 6b!,6d! - right", "9/1/2"),
    ("cut s x 0 170", "170 bytes"),
    ("give 1 s", TOOK_ONE),
    ("give 1 y", TOOK_ONE),
    ("receipt 1 x,y", "NoValue"),
    ("receipt 1 y", "2/3"),
    ("settled 1 y 1", "yes"),
    ("give 1 x", "accepted 1 known 1 refused 0 bare"),
    ("receipt 1 x,y", "3/4"),
    ("settled 1 x 1", "yes"),
]

# A node that gives two counts once.
TWICE = [
    ("put 1 6b 61", "0/1"),
    ("receipt 1 1.0", "1/2"),
    ("receipt 1 1.0", "2/3"),
    ("settled 1 1.0 1", "yes"),
    ("settled 1 1.0 2", "no"),
    ("get 1 " + KEY, "1/2/3="),
]

# A faulty node may write what it will under the key. Each value counts, also one that isn't held or that was deleted later; a deletion
# alone doesn't, nor does another key.
COUNTED = [
    ("put 1 6b 61", "0/1"),
    (f"update x 9 0 2 - {KEY} 61 1.0 right", "9/0/2"),
    ("settled 1 1.0 1", "no"),
    ("give 1 x", "accepted 1 known 1 refused 0 bare"),
    ("settled 1 1.0 1", "yes"),
    ("settled 1 1.0 2", "no"),
    (f"updates y 8 0 2 - {KEY}! 1.0 right", "8/0/2"),
    ("give 1 y", TOOK_ONE),
    ("settled 1 1.0 2", "no"),
    (f"updates z 9 1 3 x {KEY}! - right", "9/1/3"),
    ("give 1 z", TOOK_ONE),
    ("get 1 " + KEY, "8/0/2! 9/1/3!"),
    ("settled 1 1.0 1", "yes"),
    (f"update w 8 1 3 y {KEY[:-2]} - - right", "8/1/3"),
    ("give 1 w", TOOK),
    (f"update v 8 2 4 w {KEY}00 - - right", "8/2/4"),
    ("give 1 v", "accepted 1 known 1 refused 0 bare"),
    ("settled 1 1.0 2", "no"),
    (f"update u 8 3 5 v {KEY} 62 - right", "8/3/5"),
    ("cut s u 0 204", "204 bytes"),
    ("give 1 s", TOOK_ONE),
    ("get 1 " + KEY, "9/1/3! 8/3/5=?"),
    ("settled 1 1.0 2", "yes"),
    ("receipt 1 u", "NoValue"),
    ("receipt 1 y,z", "1/6"),
]


def stops_of_receipts():
    """A stop in each call of a receipt, which is given again."""
    events = []
    for node, call, image in stops(4):
        records = left(2, call, image)
        kept = records == 3
        events += [
            (f"put {node} 6b 61", "0/1"),
            (f"stop {node} {call} {image}", "armed"),
            (f"receipt {node} {node}.0", f"stopped records {records}"),
            (f"settled {node} {node}.0 1", "yes" if kept else "no"),
            (f"receipt {node} {node}.0", "2/3" if kept else "1/2"),
            (f"settled {node} {node}.0 1", "yes"),
            (f"settled {node} {node}.0 2", "no"),
            (f"restart {node}", f"records {records + 1}"),
            (f"settled {node} {node}.0 1", "yes"),
        ]
    return events


# What makes no call on the disk leaves a stop that waits there.
WAITING = [
    ("put 1 6b 61", "0/1"),
    ("update x 9 0 1 - 6b 61 - right", "9/0/1"),
    ("stop 1 1 0", "armed"),
    ("settled 1 1.0 1", "no"),
    ("receipt 1 1.1", "NoRef"),
    ("receipt 1 x", "Unknown"),
    ("settled 1 1.1 1", "NoRef"),
    ("receipt 1 1.0", "stopped records 2"),
    ("stop 1 5 0", "armed"),
    ("receipt 1 1.0", "1/2"),
    ("settled 1 1.0 1", "yes"),
    ("receipt 1 1.0", "stopped records 3"),
    ("receipt 1 1.0", "2/3"),
]

# A receipt takes a leaf, as each update does.
SPENT = [
    ("put 1 6b 61", "0/1"),
    ("receipt 1 1.0", "1/2"),
    ("receipt 1 1.0", "2/3"),
    ("receipt 1 1.0", "3/4"),
    ("receipt 1 1.0", "Spent 4"),
    ("settled 1 1.0 1", "yes"),
    ("restart 1", "records 5"),
]

# Lines behind those of HEADER, with the fault of the last: x is of an update of a faulty node, r of bytes.
HEADER = members("node 1", "node 2", "faulty 9", "update x 9 0 1 - 6b 61 - right", "raw r 00")
LINES = [
    (f"put 1 {KEY} -", "Hex"),
    (f"put 1 {KEY} 61", "Hex"),
    (f"puts 1 {KEY}=-", "Hex"),
    (f"puts 1 {KEY}!", "Hex"),
    (f"puts 1 6b=61,{KEY}=-", "Hex"),
    (f"put 9 {KEY} -", "Node"),
    ("receipt 1", "Fields"),
    ("receipt 1 x 1", "Fields"),
    ("receipt 9 x", "Node"),
    ("receipt 3 x", "Node"),
    ("receipt 0 x", "Number"),
    ("receipt 65536 x", "Number"),
    ("receipt x x", "Number"),
    ("receipt 1 y", "Label"),
    ("receipt 1 r", "Label"),
    ("receipt 1 -", "Label"),
    ("receipt 1 x,", "Label"),
    ("receipt 1 ,x", "Label"),
    ("receipt 1 9.0", "Node"),
    ("receipt 1 1.16", "Number"),
    ("receipt 1 1.", "Number"),
    ("receipt 1 1.0.0", "Number"),
    ("receipt 1 " + ",".join(["1.0"] * 17), "Label"),
    ("receipt 1 " + ",".join(["1.0"] * 17 + ["9.0"]), "Node"),
    ("settled 1 x", "Fields"),
    ("settled 1 x 1 1", "Fields"),
    ("settled 9 x 1", "Node"),
    ("settled 1 y 1", "Label"),
    ("settled 1 r 1", "Label"),
    ("settled 1 x,x 1", "Label"),
    ("settled 1 9.0 1", "Node"),
    ("settled 1 x 0", "Number"),
    ("settled 1 x 257", "Number"),
    ("settled 1 x 01", "Number"),
    ("settled 1 x two", "Number"),
    ("settled 1 x -", "Number"),
    ("settled 1 y 0", "Label"),
    ("receipts 1 x", "Word"),
]


def main():
    play("a_put_is_settled", members("node 1", "node 2", "node 3"), SETTLED)
    play("no_receipt_without_the_value", members("node 1", "faulty 9"), WITHOUT_VALUE)
    play("one_update_has_several_receipts", members("node 1", "node 2", "faulty 9"), SEVERAL)
    play("as_many_receipts_as_keys", members("node 1", "node 2", "faulty 9"), sixteen())
    play("receipts_for_deletions", members("node 1", "faulty 9"), DELETIONS)
    play("a_node_that_gives_two_receipts_counts_once", members("node 1"), TWICE)
    play("what_counts_as_a_receipt", members("node 1", "faulty 8", "faulty 9"), COUNTED)
    play("stops_in_each_call_of_a_receipt", members(*stopping(4)), stops_of_receipts())
    play("a_stop_waits_over_receipts_that_are_refused", members("node 1", "faulty 9"), WAITING)
    play("receipts_spend_leaves", ["depot schedule 1", "scheme plain 2", "node 1"], SPENT)
    many("faults_of_receipts", HEADER, LINES)


if __name__ == "__main__":
    main()
