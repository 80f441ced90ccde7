#!/usr/bin/env python3
"""Writes the cases of this folder that replay checkpoints: how nodes make and sign them, and which texts and readers are refused.

    python3 acceptance/makers/make_checkpoint_replays.py

They are told as those of make_replays.py are. A checkpoint's text lists the leaves that a node has accepted. A node signs it by an update of its own,
whose key is `checkpoint:` and the text's SHA-256 and whose value is the text; a member that is faulty signs by an `update` of these.
"""

from make_cases import ZEROS, checkpoint, checkpoint_key, roster, sha, u, update
from make_change_replays import many
from make_replays import TOOK, TOOK_ONE, branches, left, members, play, raw, root_of, stopping, stops
from model import World


def bytes_behind(header, events, label):
    """The bytes that a label has behind these events, by the plain model: no case could tell them without."""
    world = World(header)
    for event, *_ in events:
        world.line_of(event)
    return world.bytes[label]


def listed(*nodes, height=4):
    """The hash of the roster of these members."""
    return sha(roster(*((node, height, root_of(node)) for node in nodes)))


def signs(text):
    """The words for the key and the value of an update that signs a checkpoint."""
    return f"{checkpoint_key(text).hex()} {text.hex()}"


# ---- two nodes, both of which sign

TWO = members("node 1", "node 2")
# Node 2 may be trimmed once it has signed; the reader then goes on with what node 1 wrote later.
SIGNED = [
    ("put 1 6b 61", "0/1"),
    ("put 1 6b 62", "1/2"),
    ("checkpoint 1 k", "2/3"),
    ("hello 2 a", "convicted 0 leaves 0 wanted 0"),
    ("bundle 1 a b", "proofs 0 vouchers 0 updates 3 values 3 whole"),
    ("give 2 b", "accepted 6 known 0 refused 0 whole"),
    ("trim 2 k u", "Unsigned 2"),
    ("sign 2 k", "0/4"),
    ("trim 2 k t", "kept 3 of 4"),
    ("tget t 6b", "1/1/2=62"),
]
# The name of a reader whose trim was refused reads and takes nothing.
REFUSED_NAMES = SIGNED + [
    ("tget u 6b", ""),
    ("tgive u b", ""),
    ("raw z 00", "1 bytes"),
    ("trim 2 z v", "IllFormed 0"),
    ("tgive v b", ""),
    ("tget v 6b", ""),
    ("trim 1 k w", "Unsigned 2"),
    ("tget w 6b", ""),
    ("tget t 6b", "1/1/2=62"),
]

# ---- lines with faults, and texts that are refused

KEY = checkpoint_key(b"").hex()
HEADER = members(
    "node 1", "node 2", "faulty 9", "update x 9 0 1 - 6b 61 - right", "raw r 00", "voucher v 9 1 r", "checkpoint 1 k", "trim 1 k t")
CHECKPOINT_LINES = [
    (f"put 1 {KEY} -", "Hex"),
    (f"put 1 {KEY} 61", "Hex"),
    (f"put 1 {KEY} 6", "Hex"),
    (f"put 9 {KEY} -", "Node"),
    (f"puts 1 {KEY}=-", "Hex"),
    (f"puts 1 {KEY}!", "Hex"),
    (f"puts 1 61=61,{KEY}=61", "Hex"),
    (f"puts 1 61!,{KEY}!,6b=61", "Hex"),
    (f"puts 9 {KEY}!", "Node"),
    ("checkpoint 1", "Fields"),
    ("checkpoint 1 a b", "Fields"),
    ("checkpoint 9 a", "Node"),
    ("checkpoint 3 a", "Node"),
    ("checkpoint 0 a", "Number"),
    ("checkpoint 65536 a", "Number"),
    ("checkpoint 01 a", "Number"),
    ("checkpoint one a", "Number"),
    ("checkpoint 1 A", "Label"),
    ("checkpoint 1 1a", "Label"),
    ("checkpoint 1 -", "Label"),
    ("checkpoint 1 " + "a" * 33, "Label"),
    ("checkpoint 1 k", "Label"),
    ("checkpoint 1 x", "Label"),
    ("checkpoint 1 t", "Label"),
    ("checkpoint 9 k", "Node"),
    ("sign 1", "Fields"),
    ("sign 1 r r", "Fields"),
    ("sign 9 r", "Node"),
    ("sign 0 r", "Number"),
    ("sign 1 y", "Label"),
    ("sign 1 R", "Label"),
    ("sign 1 t", "Label"),
    ("sign 9 y", "Node"),
    # Its label is of bytes, which no update and no plain event made.
    ("receipt 1 k", "Label"),
    ("settled 1 k 1", "Label"),
    ("voucher w 9 2 k", "Label"),
    ("voucher w 9 2 r,k", "Label"),
    ("hollow h v k", "Label"),
    ("proof p SamePrev x k", "Label"),
    ("update y 9 1 2 k 6b 61 - right", "Label"),
    ("update y 9 1 2 - 6b 61 k right", "Label"),
    ("raw k 00", "Label"),
    ("checkpoints 1 a", "Word"),
    ("signs 1 k", "Word"),
]
READER_LINES = [
    ("trim 1 k", "Fields"),
    ("trim 1 k u w", "Fields"),
    ("trim 9 k u", "Node"),
    ("trim 0 k u", "Number"),
    ("trim 1 y u", "Label"),
    ("trim 1 u u", "Label"),
    ("trim 1 t u", "Label"),
    ("trim 1 k t", "Label"),
    ("trim 1 k k", "Label"),
    ("trim 1 k r", "Label"),
    ("trim 1 k U", "Label"),
    ("trim 1 k 1u", "Label"),
    ("trim 1 k " + "u" * 33, "Label"),
    ("trim 9 y u", "Node"),
    ("tgive t", "Fields"),
    ("tgive t r 1", "Fields"),
    ("tgive r r", "Label"),
    ("tgive k r", "Label"),
    ("tgive x r", "Label"),
    ("tgive u r", "Label"),
    ("tgive 1 r", "Label"),
    ("tgive t t", "Label"),
    ("tgive t y", "Label"),
    ("tget t", "Fields"),
    ("tget t 6b 6b", "Fields"),
    ("tget r 6b", "Label"),
    ("tget k 6b", "Label"),
    ("tget u 6b", "Label"),
    ("tget 1 6b", "Label"),
    ("tget t -", "Hex"),
    ("tget t 6B", "Hex"),
    ("tget t 6", "Hex"),
    ("tget t " + "6b" * 256, "Hex"),
    ("tget r -", "Label"),
    # The name of a reader is no label of bytes.
    ("give 1 t", "Label"),
    ("give 1 t 1", "Label"),
    ("bundle 1 t b", "Label"),
    ("judge t", "Label"),
    ("cut c t 0 1", "Label"),
    ("flip c t 0", "Label"),
    ("join c r t", "Label"),
    ("join c t r", "Label"),
    ("voucher w 9 2 t", "Label"),
    ("hollow h v t", "Label"),
    ("proof p SamePrev x t", "Label"),
    ("receipt 1 t", "Label"),
    ("settled 1 t 1", "Label"),
    ("update y 9 1 2 t 6b 61 - right", "Label"),
    ("update y 9 1 2 - 6b 61 t right", "Label"),
    # Nor is a label made with it.
    ("raw t 00", "Label"),
    ("hello 1 t", "Label"),
    ("bundle 1 r t", "Label"),
    ("update t 9 1 2 - 6b 61 - right", "Label"),
    ("trims 1 k u", "Word"),
    ("treceipt t x", "Word"),
]

# Keys that are like one of a checkpoint are free, and in what others sign and in reads such a key may stand.
LIKE = [(b"checkpoint:" + bytes(31)).hex(), (b"checkpoint:" + bytes(33)).hex(), (b"checkpoint;" + bytes(32)).hex()]
KEYS = [
    *[(f"put 1 {key} 61", f"{at}/{at + 1}") for at, key in enumerate(LIKE)],
    (f"puts 1 {LIKE[0]}!", "3/4"),
    (f"update x 9 0 1 - {KEY} - - right", "9/0/1"),
    ("give 1 x", TOOK),
    (f"updates y 9 1 2 x {KEY}! - right", "9/1/2"),
    ("give 1 y", TOOK_ONE),
    (f"get 1 {KEY}", "9/1/2!"),
    (f"get 1 {LIKE[0]}", "1/3/4!"),
    (f"get 1 {LIKE[1]}", "1/1/2=61"),
]

# Nothing is accepted yet. The label is made, and holds nothing.
EMPTY = [
    ("checkpoint 1 k", "Empty"),
    ("sign 1 k", "IllFormed 0"),
    ("trim 1 k t", "IllFormed 0"),
    ("tget t 6b", ""),
    ("tgive t k", ""),
    ("give 1 k", "accepted 0 known 0 refused 0 bare"),
    ("cut c k 0 9", "0 bytes"),
    ("join j k k", "0 bytes"),
    ("judge k", "IllFormed 0"),
    ("bundle 1 k b", "IllFormed 0"),
    ("restart 1", "records 1"),
    ("put 1 6b 61", "0/1"),
    ("sign 1 k", "IllFormed 0"),
    ("checkpoint 1 l", "1/2"),
    ("trim 1 l u", "kept 2 of 2"),
    ("tget u 6b", "1/0/1=61"),
]

# Node 1 gives 6b (k) the value 61 (a), and node 9 gives it 62 (b). Node 2 has nothing.
A, B = sha(update(1, 0, 1, ZEROS, b"k", b"a")), sha(update(9, 0, 1, ZEROS, b"k", b"b"))
MINE = listed(1, 2, 9)
GOOD = checkpoint(MINE, (1, A), (9, B))
LATE = max(A, B)


def changed(at, *parts):
    """The good text with these bytes at an offset in place of its own."""
    made = b"".join(parts)
    return GOOD[:at] + made + GOOD[at + len(made):]


# Texts that are no checkpoint's, or that nobody here may sign, and the answer to `sign` and to `trim`.
TEXTS = [
    (b"", "IllFormed 0"),
    (changed(0, b"\2"), "IllFormed 0"),
    (changed(0, b"\0"), "IllFormed 0"),
    (GOOD[:1], "IllFormed 1"),
    (changed(1, b"\3"), "IllFormed 1"),
    (changed(1, b"\7"), "IllFormed 1"),
    (GOOD[:2], "IllFormed 2"),
    (GOOD[:33], "IllFormed 2"),
    (GOOD[:34], "IllFormed 34"),
    (GOOD[:35], "IllFormed 34"),
    (changed(34, u(2, 0)), "IllFormed 34"),
    (checkpoint(MINE), "IllFormed 34"),
    (changed(34, u(2, 1025)), "IllFormed 34"),
    (checkpoint(MINE, *((9, u(32, at)) for at in range(1025))), "IllFormed 34"),
    (GOOD[:36], "IllFormed 36"),
    (GOOD[:37], "IllFormed 36"),
    (GOOD[:38], "IllFormed 38"),
    (GOOD[:69], "IllFormed 38"),
    (GOOD[:70], "IllFormed 70"),
    (GOOD[:71], "IllFormed 70"),
    (GOOD[:72], "IllFormed 72"),
    (GOOD[:-1], "IllFormed 72"),
    (changed(34, u(2, 3)), "IllFormed 104"),
    (changed(34, u(2, 1024)), "IllFormed 104"),
    (changed(34, u(2, 1)), "IllFormed 70"),
    (GOOD + b"\0", "IllFormed 104"),
    (changed(36, u(2, 0)), "IllFormed 36"),
    (changed(70, u(2, 0)), "IllFormed 70"),
    (checkpoint(MINE, (9, B), (1, A)), "IllFormed 70"),
    (checkpoint(MINE, (1, A), (1, A)), "IllFormed 70"),
    (checkpoint(MINE, (9, LATE), (9, min(A, B))), "IllFormed 70"),
    # An entry that is cut short, or that has no writer, is told before its order.
    (checkpoint(MINE, (9, B), (1, A))[:-1], "IllFormed 72"),
    (checkpoint(MINE, (9, B), (0, A)), "IllFormed 70"),
    # A fault of the text comes before another roster, and that before what is unknown.
    (checkpoint(ZEROS, (9, B), (1, A)), "IllFormed 70"),
    (checkpoint(ZEROS, (1, A), (9, B)), "OtherRoster"),
    (checkpoint(listed(1, 2), (1, A), (9, B)), "OtherRoster"),
    (checkpoint(listed(1, 2, 9, height=5), (1, A), (9, B)), "OtherRoster"),
    (checkpoint(ZEROS, (1, B)), "OtherRoster"),
    (checkpoint(MINE, (1, ZEROS)), "Unknown"),
    (checkpoint(MINE, (1, A), (9, ZEROS)), "Unknown"),
    # An update of another writer, also of one that the roster lacks.
    (checkpoint(MINE, (1, B)), "Unknown"),
    (checkpoint(MINE, (9, A)), "Unknown"),
    (checkpoint(MINE, (1, A), (2, B)), "Unknown"),
    (checkpoint(MINE, (1, A), (9, B), (65535, A)), "Unknown"),
]


def bad_texts():
    events = [("put 1 6b 61", "0/1"), ("update x 9 0 1 - 6b 62 - right", "9/0/1"), ("give 1 x", TOOK), ("voucher v 9 1 x", "9/1 ids 1"), ("give 1 v", TOOK_ONE)]
    for at, (text, answer) in enumerate(TEXTS):
        events += [raw(f"c{at}", text), (f"sign 1 c{at}", answer), (f"trim 1 c{at} t{at}", answer), (f"tget t{at} 6b", "")]
    # The id of a voucher that was accepted is of no update.
    of_voucher = sha(b"\x01\x02" + u(2, 9) + u(4, 1) + u(2, 1) + B)
    return events + [
        raw("w", checkpoint(MINE, (9, of_voucher))), ("sign 1 w", "Unknown"), ("trim 1 w s", "Unknown"),
        raw("g", GOOD), ("sign 2 g", "Unknown"), ("trim 2 g t", "Unknown"), ("trim 1 g u", "Unsigned 1"), ("restart 1", "records 5"), ("sign 1 g", "1/2"),
        ("trim 1 g w1", "Unsigned 2"), ("sign 1 g", "2/3"), ("restart 1", "records 7"), ("restart 2", "records 1"),
    ]


# The leaves are spent: a limit comes behind all faults of the text, and a reader needs no leaf. A label whose checkpoint met a limit is empty.
SPENT = [
    ("put 1 6b 61", "0/1"),
    ("checkpoint 1 k", "1/2"),
    ("put 1 6b 62", "2/3"),
    ("sign 1 k", "3/4"),
    ("sign 1 k", "Spent 4"),
    ("checkpoint 1 l", "Spent 4"),
    ("sign 1 l", "IllFormed 0"),
    ("cut c l 0 9", "0 bytes"),
    raw("o", checkpoint(ZEROS, (1, A))),
    ("sign 1 o", "OtherRoster"),
    raw("n", checkpoint(listed(1, height=2), (1, ZEROS))),
    ("sign 1 n", "Unknown"),
    ("trim 1 k t", "kept 4 of 4"),
    ("tget t 6b", "1/2/3=62"),
    ("restart 1", "records 5"),
]

# As many leaves as a checkpoint has, and then one more: the put that signs it is a leaf.
LEAVES = branches(1024, "0/2", [])[:-1] + [
    ("checkpoint 1 k", "0/2"),
    ("cut c k 0 100000", f"{36 + 34 * 1024} bytes"),
    ("trim 1 k t", "Unsigned 8"),
    ("checkpoint 1 l", "Many 1025"),
    ("sign 1 l", "IllFormed 0"),
    ("sign 1 k", "1/3"),
    ("get 1 0400", ""),
]

# ---- who signed

# The first of the roster that didn't sign is told, in rising order, as far as the node knows.
THREE = members("node 3", "node 1", "node 2")
UNSIGNED = [
    ("put 2 6b 61", "0/1"),
    ("checkpoint 2 k", "1/2"),
    ("trim 2 k a1", "Unsigned 1"),
    ("trim 1 k a2", "Unknown"),
    ("hello 1 a", "convicted 0 leaves 0 wanted 0"),
    ("bundle 2 a b", "proofs 0 vouchers 0 updates 2 values 2 whole"),
    ("give 1 b", "accepted 4 known 0 refused 0 whole"),
    ("give 3 b", "accepted 4 known 0 refused 0 whole"),
    ("sign 3 k", "0/3"),
    ("trim 3 k a3", "Unsigned 1"),
    ("sign 1 k", "0/3"),
    ("trim 1 k a4", "Unsigned 3"),
    ("trim 2 k a5", "Unsigned 1"),
    ("hello 2 c", "convicted 0 leaves 1 wanted 0"),
    ("bundle 1 c d", "proofs 0 vouchers 0 updates 1 values 1 whole"),
    ("give 2 d", "accepted 1 known 1 refused 0 whole"),
    ("trim 2 k a6", "Unsigned 3"),
    ("bundle 3 c e", "proofs 0 vouchers 0 updates 1 values 1 whole"),
    ("give 1 e", "accepted 1 known 1 refused 0 whole"),
    ("trim 1 k a7", "kept 4 of 4"),
    ("trim 2 k a8", "Unsigned 3"),
    ("tget a7 6b", "2/0/1=61"),
    ("tget a6 6b", ""),
    ("tgive a6 e", ""),
    ("tgive a7 e", "accepted 0 known 2 refused 0 below 0"),
]

# ---- faulty members that sign by what they put

FAULTY = members("node 1", "node 2", "faulty 8", "faulty 9")
# Node 9's write is superseded by one of node 1, so it will be trimmed. It is a leaf until node 9 signs.
BASE = [
    ("update x 9 0 1 - 6b 61 - right", "9/0/1"),
    ("give 1 x", TOOK),
    ("put 1 6b 62", "0/2"),
    ("checkpoint 1 k", "1/3"),
]
SIGNS = signs(bytes_behind(FAULTY, BASE, "k"))
# All four sign, node 2 last; of six updates one is trimmed.
AGREED = BASE + [
    (f"update s 9 1 3 x {SIGNS} 1.0 right", "9/1/3"),
    (f"update r 8 0 3 - {SIGNS} 1.0 right", "8/0/3"),
    ("give 1 s", "accepted 1 known 1 refused 0 bare"),
    ("give 1 r", "accepted 1 known 1 refused 0 bare"),
    ("hello 2 a", "convicted 0 leaves 0 wanted 0"),
    ("bundle 1 a b", "proofs 0 vouchers 1 updates 5 values 3 whole"),
    ("give 2 b", "accepted 9 known 0 refused 0 whole"),
    ("sign 2 k", "0/4"),
    ("trim 2 k t", "kept 5 of 6"),
]

# What counts as a signature of another: an update that puts the text under the key, alone or among others, with each listed id in its past. The
# value needn't be held. One good update is enough, whatever else the writer put there.
KEY_WORD, VALUE_WORD = SIGNS.split()
FAULTY_SIGNS = BASE + [
    ("sign 1 k", "2/4"),
    # The first lacks both listed ids in its past, the second that of node 1's put.
    (f"update r1 8 0 1 - {SIGNS} - right", "8/0/1"),
    (f"update r2 8 1 2 r1 {SIGNS} x right", "8/1/2"),
    ("trim 1 k a1", "Unsigned 2"),
    ("give 1 r1", "accepted 1 known 1 refused 0 bare"),
    ("give 1 r2", "accepted 1 known 1 refused 0 bare"),
    ("hello 2 h", "convicted 0 leaves 0 wanted 0"),
    ("bundle 1 h i", "proofs 0 vouchers 1 updates 6 values 3 whole"),
    ("give 2 i", "accepted 10 known 0 refused 0 whole"),
    ("sign 2 k", "0/5"),
    ("hello 1 j", "convicted 0 leaves 3 wanted 0"),
    ("bundle 2 j l", "proofs 0 vouchers 0 updates 1 values 1 whole"),
    ("give 1 l", "accepted 1 known 1 refused 0 whole"),
    ("trim 1 k a2", "Unsigned 8"),
    # Another value under the key, and a deletion of it.
    (f"update r3 8 2 9 r2 {KEY_WORD} 61 1.0 right", "8/2/9"),
    (f"updates r4 8 3 10 r3 {KEY_WORD}! - right", "8/3/10"),
    ("give 1 r3", "accepted 1 known 1 refused 0 bare"),
    ("give 1 r4", TOOK_ONE),
    ("trim 1 k a3", "Unsigned 8"),
    # The text under another key.
    (f"update r5 8 4 11 r4 {checkpoint_key(b'').hex()} {VALUE_WORD} - right", "8/4/11"),
    ("give 1 r5", "accepted 1 known 1 refused 0 bare"),
    ("trim 1 k a4", "Unsigned 8"),
    # Among other keys; each listed id is in its past by what came before.
    (f"updates r6 8 5 12 r5 61=-,{KEY_WORD}={VALUE_WORD},6b! - right", "8/5/12"),
    ("give 1 r6", "accepted 2 known 1 refused 0 bare"),
    ("trim 1 k a5", "Unsigned 9"),
    # It lacks the id of node 1's update.
    (f"update s1 9 1 2 x {SIGNS} - right", "9/1/2"),
    ("give 1 s1", "accepted 1 known 1 refused 0 bare"),
    ("trim 1 k a6", "Unsigned 9"),
    (f"update s2 9 2 3 s1 {SIGNS} 1.0 right", "9/2/3"),
    ("give 1 s2", "accepted 1 known 1 refused 0 bare"),
    ("trim 1 k a7", "kept 12 of 13"),
    # A later deletion of the key takes nothing back.
    (f"updates s3 9 3 4 s2 {KEY_WORD}! - right", "9/3/4"),
    ("give 1 s3", TOOK_ONE),
    ("trim 1 k a8", "kept 13 of 14"),
    ("tget a7 6b", "8/5/12!"),
    ("tget a6 6b", ""),
    ("audit", "yes"),
]

# A member signs by its update alone: whether the text came behind it isn't asked.
UNHELD_HEADER = members("node 1", "faulty 9")
UNHELD_TEXT = checkpoint(listed(1, 9), (9, sha(update(9, 0, 1, ZEROS, b"k", b"a"))))
UNHELD = [
    ("update x 9 0 1 - 6b 61 - right", "9/0/1"),
    (f"update s 9 1 2 x {signs(UNHELD_TEXT)} - right", "9/1/2"),
    (f"cut c s 0 {5 + 4 + 87 + 43 + 32 + 4 + 32}", "207 bytes"),
    ("give 1 x", TOOK),
    ("give 1 c", TOOK_ONE),
    raw("k", UNHELD_TEXT),
    ("trim 1 k u", "Unsigned 1"),
    # The put of node 1 has the text.
    ("sign 1 k", "0/3"),
    ("trim 1 k t", "kept 3 of 3"),
    (f"tget t {checkpoint_key(UNHELD_TEXT).hex()}", f"1/0/3={UNHELD_TEXT.hex()}"),
]

# ---- stops

# What touches no disk leaves a stop that waits there, also where it is refused.
WAITING = SIGNED[:6] + [
    ("stop 2 1 0", "armed"),
    ("trim 2 k u", "Unsigned 2"),
    raw("z", b""),
    ("sign 2 z", "IllFormed 0"),
    ("trim 2 z v", "IllFormed 0"),
    raw("o", checkpoint(ZEROS, (1, A))),
    ("sign 2 o", "OtherRoster"),
    raw("n", checkpoint(listed(1, 2), (2, A))),
    ("sign 2 n", "Unknown"),
    ("sign 2 k", "stopped records 7"),
    ("sign 2 k", "0/4"),
    ("stop 2 2 0", "armed"),
    ("trim 2 k t", "kept 3 of 4"),
    ("tget t 6b", "1/1/2=62"),
    ("put 1 6b 63", "3/4"),
    ("hello 2 e", "convicted 0 leaves 2 wanted 0"),
    ("bundle 1 e f", "proofs 0 vouchers 0 updates 1 values 1 whole"),
    ("tgive t f", "accepted 2 known 0 refused 0 below 0"),
    ("tget t 6b", "1/3/4=63"),
    ("give 2 f", "stopped records 8"),
    ("tget t 6b", "1/3/4=63"),
    ("give 2 f", "accepted 2 known 0 refused 0 whole"),
    ("stop 1 1 0", "armed"),
    ("checkpoint 1 l", "stopped records 5"),
    ("sign 2 l", "IllFormed 0"),
    ("trim 1 k y", "Unsigned 2"),
]
# Of a node that has nothing, or no leaf left.
WAITING_MORE = [
    ("stop 1 1 0", "armed"),
    ("checkpoint 1 k", "Empty"),
    ("put 1 6b 61", "stopped records 1"),
    *[("put 1 6b 61", f"{at}/{at + 1}") for at in range(4)],
    ("stop 1 1 0", "armed"),
    ("checkpoint 1 l", "Spent 4"),
    ("restart 1", "stopped records 5"),
]


def stops_of_checkpoints():
    """A stop in each call of a checkpoint's put: its label is empty then, even where the record stands. It is made again."""
    events = []
    for node, call, image in stops(4):
        records = left(2, call, image)
        kept = records == 3
        events += [
            (f"put {node} 6b 61", "0/1"),
            (f"stop {node} {call} {image}", "armed"),
            (f"checkpoint {node} a{node}", f"stopped records {records}"),
            (f"sign {node} a{node}", "IllFormed 0"),
            (f"trim {node} a{node} t{node}", "IllFormed 0"),
            (f"get {node} 6b", f"{node}/0/1=61"),
            (f"checkpoint {node} b{node}", "2/3" if kept else "1/2"),
            (f"restart {node}", f"records {records + 1}"),
            (f"cut c{node} b{node} 0 100", "70 bytes"),
        ]
    return events


def stops_of_signatures():
    """The same of a text that the node made, which it signs once more."""
    events = []
    for node, call, image in stops(4):
        records = left(3, call, image)
        kept = records == 4
        events += [
            (f"put {node} 6b 61", "0/1"),
            (f"checkpoint {node} k{node}", "1/2"),
            (f"stop {node} {call} {image}", "armed"),
            (f"sign {node} k{node}", f"stopped records {records}"),
            (f"trim {node} k{node} t{node}", f"Unsigned {11 if node != 11 else 12}"),
            (f"sign {node} k{node}", "3/4" if kept else "2/3"),
            (f"restart {node}", f"records {records + 1}"),
        ]
    return events


def main():
    play("names_of_refused_readers", TWO, REFUSED_NAMES)
    many("faults_of_checkpoints", HEADER, CHECKPOINT_LINES)
    many("faults_of_readers", HEADER, READER_LINES)
    play("keys_that_are_like_a_checkpoint", members("node 1", "faulty 9"), KEYS)
    play("a_checkpoint_of_nothing", members("node 1"), EMPTY)
    play("texts_that_are_no_checkpoint", members("node 1", "node 2", "faulty 9"), bad_texts())
    play("checkpoints_spend_leaves", ["depot schedule 1", "scheme plain 2", "node 1"], SPENT)
    play("as_many_leaves_as_a_checkpoint_has", ["depot schedule 1", "scheme plain 12", "node 1", "faulty 8", "faulty 9"], LEAVES)
    play("nodes_that_did_not_sign", THREE, UNSIGNED)
    play("faulty_members_sign", FAULTY, FAULTY_SIGNS)
    play("a_signature_without_its_value", UNHELD_HEADER, UNHELD)
    play("a_stop_waits_over_readers", TWO, WAITING)
    play("a_stop_waits_over_a_refused_checkpoint", ["depot schedule 1", "scheme plain 2", "node 1"], WAITING_MORE)
    play("stops_in_each_call_of_a_checkpoint", members(*stopping(4)), stops_of_checkpoints())
    play("stops_in_each_call_of_a_signature", members(*stopping(4)), stops_of_signatures())


if __name__ == "__main__":
    main()
