#!/usr/bin/env python3
"""Writes the cases of this folder that replay readers, which are made where every node of the roster has signed a checkpoint.

    python3 acceptance/makers/make_trim_replays.py

They are told as those of make_replays.py are. A reader gives up the updates below the checkpoint of which no key has its latest write there, and
takes what comes later.
"""

from make_cases import ZEROS, checkpoint, checkpoint_key, frame, history_of, sha, update
from make_checkpoint_replays import A, AGREED, FAULTY, SIGNED, TWO, bytes_behind, listed, signs
from make_replays import TOOK, TOOK_ONE, doubled, id_of, members, play, raw, sign, signed_update

# Node 2 has signed and makes a reader, which goes on with what node 1 wrote later.
READ = SIGNED + [
    ("put 1 6b 63", "3/4"),
    ("hello 2 e", "convicted 0 leaves 2 wanted 0"),
    ("bundle 1 e f", "proofs 0 vouchers 0 updates 1 values 1 whole"),
    ("tgive t f", "accepted 2 known 0 refused 0 below 0"),
    ("tget t 6b", "1/3/4=63"),
    ("tgive t f", "accepted 0 known 2 refused 0 below 0"),
]
# What the reader took, its node didn't.
APART = READ + [
    ("get 2 6b", "1/1/2=62"),
    ("give 2 f", "accepted 2 known 0 refused 0 whole"),
    ("get 2 6b", "1/3/4=63"),
    # The whole stream of the first exchange again: the trimmed update is known, and its value, which was dropped, isn't wanted.
    ("tgive t b", "accepted 0 known 5 refused 1 below 0"),
    # A statement in node 1's name, which that node never made, with the trimmed update as its prev.
    raw("z", frame(2, sign(1, 4, update(1, 4, 9, A, b"l", b"c", history=history_of([(1, 1, A)]))))),
    ("tgive t z", "accepted 0 known 0 refused 0 below 1"),
    ("tget t 6c", ""),
    ("tget t 6b", "1/3/4=63"),
    ("get 1 6b", "1/3/4=63"),
    ("restart 1", "records 5"),
    ("restart 2", "records 10"),
    ("tget t 6b", "1/3/4=63"),
    ("audit", "yes"),
]

# The id of what node 9 wrote first in AGREED.
X_ID = sha(update(9, 0, 1, ZEROS, b"k", b"a"))

# ---- what a reader is given

# x was trimmed. What names it stands below: as its prev, as an entry, with its number, as another first update, a voucher by its number alone.
BELOW = AGREED + [
    ("update y 9 2 4 x 6c 63 - right", "9/2/4"),
    ("tgive t y", "accepted 0 known 0 refused 1 below 1"),
    ("update z 8 1 4 r 6c 63 x right", "8/1/4"),
    ("tgive t z", "accepted 0 known 0 refused 1 below 1"),
    ("update w 9 0 4 s 6c 63 - right", "9/0/4"),
    ("tgive t w", "accepted 0 known 0 refused 1 below 1"),
    ("update f 9 5 1 - 6c 63 - right", "9/5/1"),
    ("tgive t f", "accepted 0 known 0 refused 1 below 1"),
    ("voucher v 9 0 1.0", "9/0 ids 1"),
    ("tgive t v", "accepted 0 known 0 refused 0 below 1"),
    # Nothing of it is kept, so it stands below again.
    ("tgive t v", "accepted 0 known 0 refused 0 below 1"),
    ("join yz y z", "384 bytes"),
    ("tgive t yz", "accepted 0 known 0 refused 2 below 2"),
    # Vouchers for x stand above.
    ("voucher m 8 6 x", "8/6 ids 1"),
    ("tgive t m", "accepted 1 known 0 refused 0 below 0"),
    ("voucher n 9 6 x", "9/6 ids 1"),
    ("tgive t n", "accepted 1 known 0 refused 0 below 0"),
    ("tgive t n", "accepted 0 known 1 refused 0 below 0"),
    # What lacks a parent beside x stands below as well; what lacks one and names no trimmed update is refused.
    ("update l 8 7 5 z 6c 63 - right", "8/7/5"),
    ("tgive t l", "accepted 0 known 0 refused 2 below 0"),
    ("update o 9 7 9 x 6c 63 l right", "9/7/9"),
    ("tgive t o", "accepted 0 known 0 refused 1 below 1"),
    # x itself is known, with whatever signature; its value was dropped. What names it is refused where its signature is bad.
    ("tgive t x", "accepted 0 known 1 refused 1 below 0"),
    ("flip xf x 164", "171 bytes"),
    ("tgive t xf", "accepted 0 known 1 refused 1 below 0"),
    ("flip yf y 164", "171 bytes"),
    ("tgive t yf", "accepted 0 known 0 refused 2 below 0"),
    # So are those of strangers and of the reader's node, and texts that go wrong.
    raw("q", frame(2, sign(7, 0, update(7, 0, 4, ZEROS, b"l", b"c", [(9, 1, X_ID)])))),
    ("tgive t q", "accepted 0 known 0 refused 1 below 0"),
    raw("p", frame(2, sign(2, 9, update(2, 9, 4, ZEROS, b"l", b"c", [(9, 1, X_ID)])))),
    ("tgive t p", "accepted 0 known 0 refused 1 below 0"),
    ("raw e 0200000000", "5 bytes"),
    ("tgive t e", "accepted 0 known 0 refused 1 below 0"),
    # None of all this told against node 9: what goes on from its kept update is taken.
    ("update g 9 3 4 s 6d 64 - right", "9/3/4"),
    ("tgive t g", "accepted 2 known 0 refused 0 below 0"),
    ("tget t 6d", "9/3/4=64"),
    ("tget t 6c", ""),
    ("tget t 6b", "1/0/2=62"),
    # Node 2 itself keeps all, and takes what it may of the same.
    ("give 2 z", TOOK),
    ("get 2 6c", "8/1/4=63"),
    ("tgive t l", "accepted 0 known 0 refused 2 below 0"),
    ("audit", "yes"),
]

# What contradicts a kept update convicts its writer at the reader. Below, nothing convicts, vouched for or not.
CONVICTED = AGREED + [
    ("update y 9 4 4 x 6c 63 - right", "9/4/4"),
    ("voucher v 8 1 y", "8/1 ids 1"),
    ("tgive t v", "accepted 1 known 0 refused 0 below 0"),
    ("tgive t y", "accepted 0 known 0 refused 1 below 1"),
    ("update g 9 2 4 s 6d 64 - right", "9/2/4"),
    ("tgive t g", "accepted 2 known 0 refused 0 below 0"),
    # It has the number of s, which is kept.
    ("update h 9 1 5 g 6e 65 - right", "9/1/5"),
    ("tgive t h", "accepted 0 known 0 refused 2 below 0"),
    ("update i 9 3 5 g 6e 65 - right", "9/3/5"),
    ("tgive t i", "accepted 0 known 0 refused 2 below 0"),
    ("voucher w 9 7 r", "9/7 ids 1"),
    ("tgive t w", "accepted 0 known 0 refused 1 below 0"),
    ("voucher u 8 2 i", "8/2 ids 1"),
    ("tgive t u", "accepted 1 known 0 refused 0 below 0"),
    ("tgive t i", "accepted 2 known 0 refused 0 below 0"),
    ("tget t 6e", "9/3/5=65"),
    # A convicted writer's update below stands below, not refused.
    ("tgive t y", "accepted 0 known 0 refused 1 below 1"),
    ("proof p SameNumber s h", "SameNumber"),
    ("tgive t p", "accepted 0 known 1 refused 0 below 0"),
    # A proof of two updates of node 8, of which the reader has neither, convicts; node 2 wasn't told of either.
    ("update d 8 5 4 r 6f 66 - right", "8/5/4"),
    ("update c 8 5 5 r 6f 67 - right", "8/5/5"),
    ("proof q SameNumber d c", "SameNumber"),
    ("tgive t q", "accepted 1 known 0 refused 0 below 0"),
    ("tgive t d", "accepted 0 known 0 refused 2 below 0"),
    ("give 2 d", TOOK),
    ("hello 2 j", "convicted 0 leaves 4 wanted 0"),
    ("get 2 6f", "8/5/4=66"),
]

# A proof about trimmed updates convicts as any other does.
PROOF_BELOW = AGREED + [
    ("update y 9 4 4 x 6c 63 - right", "9/4/4"),
    ("proof p SamePrev s y", "SamePrev"),
    ("tgive t p", "accepted 1 known 0 refused 0 below 0"),
    ("tgive t p", "accepted 0 known 1 refused 0 below 0"),
    ("update f 9 5 1 - 6c 63 - right", "9/5/1"),
    ("proof q SamePrev x f", "SamePrev"),
    ("tgive t q", "accepted 0 known 1 refused 0 below 0"),
    ("update g 9 2 4 s 6d 64 - right", "9/2/4"),
    ("tgive t g", "accepted 0 known 0 refused 2 below 0"),
    ("proof o SameNumber x s", "SameNumber"),
    ("tgive t o", "accepted 0 known 0 refused 1 below 0"),
    ("proof n SamePrev x r", "SamePrev"),
    ("tgive t n", "accepted 0 known 0 refused 1 below 0"),
]

# A past may have a trimmed leaf: node 8's next update names r, which names node 1's put, above x. Its history has x among its leaves.
# The body of r stands behind its frame's tag and two lengths; it has a key of 43 bytes and one entry.
BODY_OF_8 = bytes_behind(FAULTY, AGREED, "r")[9:9 + 87 + 43 + 42 + 32]
BODY_OF_1 = update(1, 0, 2, ZEROS, b"k", b"b", [(9, 1, X_ID)], history_of([(9, 1, X_ID)]))
WITHOUT_X = history_of([(1, 2, sha(BODY_OF_1)), (8, 3, sha(BODY_OF_8))]).hex()
HISTORY = AGREED + [
    (f"update e 8 1 4 r 6d 65 - {WITHOUT_X}", "8/1/4"),
    ("tgive t e", "accepted 0 known 0 refused 2 below 0"),
    ("give 2 e", "accepted 0 known 0 refused 2 bare", "refused 0 10 BadHistory", "refused 1 14 Unwanted"),
    ("update g 8 1 4 r 6d 65 - right", "8/1/4"),
    ("tgive t g", "accepted 2 known 0 refused 0 below 0"),
    ("tget t 6d", "8/1/4=65"),
    # So it goes on: an update that joins both writers, above what the reader took.
    ("update h 9 2 5 s 6d 66 g right", "9/2/5"),
    ("tgive t h", "accepted 2 known 0 refused 0 below 0"),
    ("tget t 6d", "9/2/5=66"),
    ("update i 8 2 6 g 6d 67 h,2.0,1.1 right", "8/2/6"),
    ("tgive t i", "accepted 2 known 0 refused 0 below 0"),
    ("tget t 6d", "8/2/6=67"),
    ("give 2 g", TOOK),
    ("give 2 h", TOOK),
    ("give 2 i", TOOK),
    ("get 2 6d", "8/2/6=67"),
]

# The value of the trimmed update was dropped. It is refused until a kept update names it.
DROPPED = AGREED + [
    raw("a1", frame(3, b"a")),
    ("tgive t a1", "accepted 0 known 0 refused 1 below 0"),
    ("give 2 a1", "accepted 0 known 1 refused 0 bare"),
    ("update g 9 2 4 s 6e 61 - right", "9/2/4"),
    ("cut c g 0 165", "165 bytes"),
    ("tgive t c", "accepted 1 known 0 refused 0 below 0"),
    ("tget t 6e", "9/2/4=?"),
    ("tgive t a1", "accepted 1 known 0 refused 0 below 0"),
    ("tget t 6e", "9/2/4=61"),
    ("tgive t a1", "accepted 0 known 1 refused 0 below 0"),
    ("tgive t g", "accepted 0 known 2 refused 0 below 0"),
    ("tget t 6b", "1/0/2=62"),
    # At the node that keeps all the value was held all the time.
    ("give 2 c", TOOK_ONE),
    ("get 2 6e", "9/2/4=61"),
    ("raw no 030000000163", "6 bytes"),
    ("tgive t no", "accepted 0 known 0 refused 1 below 0"),
    # The value of the write that superseded it is held.
    ("raw ok 030000000162", "6 bytes"),
    ("tgive t ok", "accepted 0 known 1 refused 0 below 0"),
]

# Node 9 names the hash of the value 61 (a) with a length of 2, above an update that names it with its own. The value is held for that one alone,
# and goes with it.
SHORT = signed_update(9, 0, 1, b"a")
SHORT_ID = id_of(SHORT)
LONG = signed_update(9, 1, 2, b"a", prev=SHORT_ID, history=history_of([(9, 1, SHORT_ID)]), length=2)
LONG_ID = id_of(LONG)
LONG_TEXT = checkpoint(listed(1, 9), (9, LONG_ID))
SIGNS_LONG = sign(9, 2, update(9, 2, 3, LONG_ID, checkpoint_key(LONG_TEXT), LONG_TEXT, history=history_of([(9, 2, LONG_ID)])))
LENGTHS = [
    raw("x", frame(2, SHORT) + frame(3, b"a") + frame(2, LONG)),
    ("give 1 x", "accepted 3 known 0 refused 0 bare"),
    ("get 1 6b", "9/1/2=?"),
    ("checkpoint 1 k", "0/3"),
    ("cut c k 0 100", "70 bytes"),
    raw("s", frame(2, SIGNS_LONG)),
    ("give 1 s", TOOK_ONE),
    ("trim 1 k t", "kept 3 of 4"),
    ("tget t 6b", "9/1/2=?"),
    raw("a", frame(3, b"a")),
    ("tgive t a", "accepted 0 known 0 refused 1 below 0"),
    ("give 1 a", "accepted 0 known 1 refused 0 bare"),
    ("tgive t x", "accepted 0 known 2 refused 1 below 0"),
    # Under another key it is named with its own length: there it is shown, once it came.
    raw("n", frame(2, sign(9, 3, update(9, 3, 4, id_of(SIGNS_LONG), b"l", b"a", history=history_of([(9, 3, id_of(SIGNS_LONG))]))))),
    ("tgive t n", "accepted 1 known 0 refused 0 below 0"),
    ("tget t 6c", "9/3/4=?"),
    ("tgive t a", "accepted 1 known 0 refused 0 below 0"),
    ("tget t 6c", "9/3/4=61"),
    ("tget t 6b", "9/1/2=?"),
]

# What is taken supersedes a kept write to which a path leads through trimmed updates alone.
PATHS = [
    ("put 1 6b 61", "0/1"),
    ("put 1 6c 61", "1/2"),
    ("put 1 6c 62", "2/3"),
    ("put 1 6c 63", "3/4"),
    ("checkpoint 1 k", "4/5"),
    ("hello 2 a", "convicted 0 leaves 0 wanted 0"),
    ("bundle 1 a b", "proofs 0 vouchers 0 updates 5 values 4 whole"),
    ("give 2 b", "accepted 9 known 0 refused 0 whole"),
    ("sign 2 k", "0/6"),
    ("trim 2 k t", "kept 4 of 6"),
    ("tget t 6b", "1/0/1=61"),
    ("tget t 6c", "1/3/4=63"),
    ("put 1 6b 64", "5/6"),
    ("hello 2 c", "convicted 0 leaves 2 wanted 0"),
    ("bundle 1 c d", "proofs 0 vouchers 0 updates 1 values 1 whole"),
    ("tgive t d", "accepted 2 known 0 refused 0 below 0"),
    ("tget t 6b", "1/5/6=64"),
    ("tget t 6c", "1/3/4=63"),
    # The value 61 was named by a trimmed update too, and is held for the kept one, though that is read no more.
    raw("v", frame(3, b"a")),
    ("tgive t v", "accepted 0 known 1 refused 0 below 0"),
]

# ---- several keys, deletions

# An update is kept where it is the latest below the checkpoint of any of its keys; a deletion is a write like others.
SEVERAL = [
    ("puts 1 6b=61,6c=62", "0/1"),
    ("puts 1 6b!,6d=63", "1/2"),
    ("put 1 6d 64", "2/3"),
    ("puts 1 6e!", "3/4"),
    ("puts 1 6e=65,6f!", "4/5"),
    ("put 1 6e 66", "5/6"),
    ("puts 1 6f=67", "6/7"),
    ("checkpoint 1 k", "7/8"),
    ("trim 1 k t", "kept 6 of 8"),
    ("tget t 6b", "1/1/2!"),
    ("tget t 6c", "1/0/1=62"),
    ("tget t 6d", "1/2/3=64"),
    ("tget t 6e", "1/5/6=66"),
    ("tget t 6f", "1/6/7=67"),
    ("tget t 70", ""),
    # The values 61 and 63 are named by kept updates, 65 was by a trimmed one alone.
    *[event for digits, answer in [("61", "known 1 refused 0"), ("63", "known 1 refused 0"), ("65", "known 0 refused 1"), ("67", "known 1 refused 0")]
      for event in [raw("v" + digits, frame(3, bytes.fromhex(digits))), (f"tgive t v{digits}", f"accepted 0 {answer} below 0")]],
    ("puts 1 6b=68", "8/9"),
    ("tget t 6b", "1/1/2!"),
    ("trim 1 k u", "kept 7 of 9"),
    ("tget u 6b", "1/8/9=68"),
]

# One value under two updates: it stays as long as one of them is kept.
SHARED = [
    ("put 1 6b 61", "0/1"),
    ("put 1 6b 62", "1/2"),
    ("put 1 6c 61", "2/3"),
    ("put 1 6d -", "3/4"),
    ("puts 1 6d!", "4/5"),
    ("checkpoint 1 k", "5/6"),
    ("trim 1 k t", "kept 4 of 6"),
    ("tget t 6c", "1/2/3=61"),
    ("tget t 6d", "1/4/5!"),
    raw("a", frame(3, b"a")),
    ("tgive t a", "accepted 0 known 1 refused 0 below 0"),
    raw("e", frame(3, b"")),
    ("tgive t e", "accepted 0 known 0 refused 1 below 0"),
]

# What was put after the checkpoint counts for nothing there: the latest write below stays, though another one is read. Of an older moment a node
# may sign as well; what stands beside isn't below.
OLDER = [
    ("put 1 6b 61", "0/1"),
    ("put 1 6b 62", "1/2"),
    ("put 1 6b 63", "2/3"),
    raw("k", checkpoint(listed(1), (1, A))),
    ("trim 1 k a", "Unsigned 1"),
    ("sign 1 k", "3/4"),
    ("trim 1 k t", "kept 4 of 4"),
    ("tget t 6b", "1/2/3=63"),
    ("checkpoint 1 l", "4/5"),
    ("put 1 6b 64", "5/6"),
    ("put 1 6b 65", "6/7"),
    ("trim 1 l u", "kept 5 of 7"),
    ("tget u 6b", "1/6/7=65"),
    ("tget t 6b", "1/2/3=63"),
    ("checkpoint 1 m", "7/8"),
    ("trim 1 m v", "kept 4 of 8"),
    ("tget v 6b", "1/6/7=65"),
    # The put of a checkpoint is below the next one, and the latest write of its key there.
    ("checkpoint 1 n", "8/9"),
    ("trim 1 n w", "kept 5 of 9"),
    ("trim 1 k x", "kept 9 of 9"),
]

# ---- forks

# Two branches of node 9 are vouched for and read as two writers' writes. The one is superseded, and trimmed; the rest of its branch is kept.
FORK = [
    ("update x 9 0 1 - 6b 61 - right", "9/0/1"),
    ("update y 9 1 1 - 6b 62 - right", "9/1/1"),
    ("update z 9 2 2 x 6b 63 - right", "9/2/2"),
    ("voucher v 8 0 x,y,z", "8/0 ids 3"),
    ("give 1 v", TOOK_ONE),
    ("give 1 x", TOOK),
    ("give 1 y", TOOK),
    ("give 1 z", TOOK),
    ("get 1 6b", "9/1/1=62 9/2/2=63"),
    ("checkpoint 1 k", "0/3"),
]
FORK_SIGNS = signs(bytes_behind(members("node 1", "faulty 8", "faulty 9"), FORK, "k"))
FORKS = FORK + [
    (f"update s 9 3 4 z {FORK_SIGNS} 1.0 right", "9/3/4"),
    (f"update r 8 1 4 - {FORK_SIGNS} 1.0 right", "8/1/4"),
    ("give 1 r", "accepted 1 known 1 refused 0 bare"),
    ("give 1 s", "accepted 0 known 1 refused 1 bare", "refused 0 12 Convicted 9"),
    ("trim 1 k a", "Unsigned 9"),
    ("voucher w 8 2 s", "8/2 ids 1"),
    ("give 1 w", TOOK_ONE),
    ("give 1 s", "accepted 1 known 1 refused 0 bare"),
    ("trim 1 k t", "kept 5 of 6"),
    ("get 1 6b", "9/1/1=62 9/2/2=63"),
    ("tget t 6b", "9/1/1=62 9/2/2=63"),
    # Each branch is extended where it is vouched for; beside the one of z another branch stands below.
    ("update y2 9 4 4 y 6c 64 - right", "9/4/4"),
    ("update s2 9 5 5 s 6c 65 - right", "9/5/5"),
    ("update x2 9 6 4 x 6c 66 - right", "9/6/4"),
    ("update o2 9 7 1 - 6c 67 - right", "9/7/1"),
    ("tgive t y2", "accepted 0 known 0 refused 2 below 0"),
    ("tgive t x2", "accepted 0 known 0 refused 1 below 1"),
    ("voucher u 8 3 y2,s2,x2,o2", "8/3 ids 4"),
    ("tgive t u", "accepted 1 known 0 refused 0 below 0"),
    ("tgive t y2", "accepted 2 known 0 refused 0 below 0"),
    ("tgive t s2", "accepted 2 known 0 refused 0 below 0"),
    ("tgive t x2", "accepted 0 known 0 refused 1 below 1"),
    ("tgive t o2", "accepted 0 known 0 refused 1 below 1"),
    ("tget t 6c", "9/4/4=64 9/5/5=65"),
    # Node 1 keeps all, and takes all four.
    ("give 1 u", TOOK_ONE),
    ("give 1 y2", TOOK),
    ("give 1 s2", TOOK),
    ("give 1 x2", TOOK),
    ("give 1 o2", TOOK),
    ("get 1 6c", "9/7/1=67 9/4/4=64 9/6/4=66 9/5/5=65"),
]

# ---- streams

# `f` has an update, a value and an End frame.
STREAMS = SIGNED + [
    ("put 1 6b 63", "3/4"),
    ("hello 2 e", "convicted 0 leaves 2 wanted 0"),
    ("bundle 1 e f", "proofs 0 vouchers 0 updates 1 values 1 whole"),
    ("cut whole f 0 1000", "177 bytes"),
    # What is no frame, or an open one, is left, and the line is the same.
    *[event for name, digits in [("n0", "00"), ("n1", "05"), ("n2", "02"), ("n3", "0200"), ("n4", "0200020001"), ("n5", "0400000002"), ("n6", "040000000102"),
                                 ("n7", "04000000"), ("n8", "040000000100"), ("n9", "040000000101"), ("none", "-")]
      for event in [raw(name, bytes.fromhex(digits.strip("-"))), (f"tgive t {name}", "accepted 0 known 0 refused 0 below 0")]],
    # The front of a stream whose second frame stands open, and the rest, which begins within a frame.
    ("cut c1 f 0 170", "170 bytes"),
    ("cut c2 f 1 170", "170 bytes"),
    ("cut c3 f 0 164", "164 bytes"),
    ("tgive t c2", "accepted 0 known 0 refused 0 below 0"),
    ("tgive t c3", "accepted 0 known 0 refused 0 below 0"),
    ("tgive t c1", "accepted 1 known 0 refused 0 below 0"),
    ("tget t 6b", "1/3/4=?"),
    # Frames behind an End frame are left, as are those behind what is no frame.
    ("join j1 n8 f", "183 bytes"),
    ("tgive t j1", "accepted 0 known 0 refused 0 below 0"),
    ("join j2 n9 f", "183 bytes"),
    ("tgive t j2", "accepted 0 known 0 refused 0 below 0"),
    ("join j3 n6 f", "183 bytes"),
    ("tgive t j3", "accepted 0 known 0 refused 0 below 0"),
    # The open frame of a value is filled by the byte behind it.
    ("join j4 c1 f", "347 bytes"),
    ("tgive t j4", "accepted 0 known 1 refused 1 below 0"),
    ("cut c4 f 0 171", "171 bytes"),
    ("join j5 c4 n0", "172 bytes"),
    ("tgive t j5", "accepted 1 known 1 refused 0 below 0"),
    ("tget t 6b", "1/3/4=63"),
    ("join j6 c4 f", "348 bytes"),
    ("tgive t j6", "accepted 0 known 4 refused 0 below 0"),
    ("join j7 f c4", "348 bytes"),
    ("tgive t j7", "accepted 0 known 2 refused 0 below 0"),
    # A payload that isn't in its grammar is refused, and the stream goes on.
    ("raw g 01000000000200000000", "10 bytes"),
    ("join j8 g f", "187 bytes"),
    ("tgive t j8", "accepted 0 known 2 refused 2 below 0"),
    # Labels of other kinds are bytes like others.
    ("tgive t k", "accepted 0 known 0 refused 0 below 0"),
    ("tgive t a", "accepted 0 known 0 refused 0 below 0"),
    ("give 2 k", "accepted 0 known 0 refused 0 ill-formed 0"),
    ("judge k", "IllFormed 0"),
    ("bundle 2 k bk", "IllFormed 1"),
    ("tgive t bk", "accepted 0 known 0 refused 0 below 0"),
    ("sign 2 f", "IllFormed 0"),
    ("trim 2 e w", "IllFormed 1"),
]

# As many frames as a stream may have, and one more, which is left: values without bytes, which the reader has.
FRAMES = [("put 1 6b -", "0/1"), ("checkpoint 1 k", "1/2"), ("trim 1 k t", "kept 2 of 2")] + doubled("f", "0300000000", 19) + [
    ("tgive t f19", "accepted 0 known 524288 refused 0 below 0"),
    ("join g f19 f0", "2621445 bytes"),
    ("tgive t g", "accepted 0 known 524288 refused 0 below 0"),
    ("tget t 6b", "1/0/1="),
]

# ---- exchanges, restarts and stops

# A reader goes on over all that becomes of its node. It stays the node that it was made from: what that node signs later isn't its own there.
EXCHANGES_HEADER = members("node 1", "node 2", "node 3")
EXCHANGES = [
    ("put 1 6b 61", "0/1"),
    ("put 1 6b 62", "1/2"),
    ("checkpoint 1 k", "2/3"),
    ("hello 3 a", "convicted 0 leaves 0 wanted 0"),
    ("bundle 1 a b", "proofs 0 vouchers 0 updates 3 values 3 whole"),
    ("give 2 b", "accepted 6 known 0 refused 0 whole"),
    ("give 3 b", "accepted 6 known 0 refused 0 whole"),
    ("sign 3 k", "0/4"),
    ("hello 2 c", "convicted 0 leaves 1 wanted 0"),
    ("bundle 3 c d", "proofs 0 vouchers 0 updates 1 values 1 whole"),
    ("give 2 d", "accepted 1 known 1 refused 0 whole"),
    ("sign 2 k", "0/5"),
    ("trim 2 k t", "kept 4 of 5"),
    ("restart 2", "records 9"),
    ("tget t 6b", "1/1/2=62"),
    ("put 3 6c 63", "1/5"),
    ("hello 1 e", "convicted 0 leaves 1 wanted 0"),
    ("bundle 3 e f", "proofs 0 vouchers 0 updates 2 values 2 whole"),
    ("give 1 f", "accepted 3 known 1 refused 0 whole"),
    ("put 1 6b 64", "3/6"),
    ("stop 2 3 0", "armed"),
    ("put 2 6b 65", "stopped records 9"),
    ("tget t 6b", "1/1/2=62"),
    ("stop 2 1 1", "armed"),
    ("restart 2", "stopped records 9"),
    ("put 2 6b 65", "1/6"),
    ("hello 2 g", "convicted 0 leaves 3 wanted 0"),
    # A bundle of node 1 has its new put, and node 3's, which it vouches for.
    ("bundle 1 g h", "proofs 0 vouchers 1 updates 2 values 2 whole"),
    ("tgive t h", "accepted 5 known 0 refused 0 below 0"),
    ("tget t 6b", "1/3/6=64"),
    ("tget t 6c", "3/1/5=63"),
    # Node 2 didn't take it yet. What it wrote since is not its reader's.
    ("get 2 6b", "2/1/6=65"),
    ("hello 1 i", "convicted 0 leaves 2 wanted 0"),
    # Node 2 knows none of the leaves of that hello, and vouches for node 3's signature as well.
    ("bundle 2 i j", "proofs 0 vouchers 1 updates 3 values 2 whole"),
    ("tgive t j", "accepted 0 known 3 refused 3 below 0"),
    ("give 1 j", "accepted 4 known 2 refused 0 whole"),
    # What names node 2's put of since lacks a parent there, also where the reader is given all.
    ("put 1 6b 66", "5/7"),
    ("bundle 1 g l", "proofs 0 vouchers 1 updates 3 values 3 whole"),
    ("tgive t l", "accepted 0 known 5 refused 2 below 0"),
    ("give 2 l", "accepted 7 known 0 refused 0 whole"),
    ("get 2 6b", "1/5/7=66"),
    ("tget t 6b", "1/3/6=64"),
    # A reader that is made anew has all.
    ("trim 2 k u", "kept 8 of 9"),
    ("tget u 6b", "1/5/7=66"),
    ("tget u 6c", "3/1/5=63"),
    ("tgive u l", "accepted 0 known 7 refused 0 below 0"),
    ("tgive u b", "accepted 0 known 5 refused 1 below 0"),
    ("audit", "yes"),
]

# A second checkpoint, above the first: a second reader is made, and the first goes on beside it.
SECOND = READ + [
    ("give 2 f", "accepted 2 known 0 refused 0 whole"),
    ("checkpoint 2 l", "1/5"),
    ("hello 1 m", "convicted 0 leaves 1 wanted 0"),
    ("bundle 2 m n", "proofs 0 vouchers 0 updates 2 values 2 whole"),
    ("give 1 n", "accepted 3 known 1 refused 0 whole"),
    ("sign 1 l", "4/6"),
    ("trim 1 l v", "kept 4 of 7"),
    ("trim 1 k w", "kept 6 of 7"),
    ("trim 2 l a1", "Unsigned 1"),
    ("hello 2 o", "convicted 0 leaves 2 wanted 0"),
    ("bundle 1 o p", "proofs 0 vouchers 0 updates 1 values 1 whole"),
    ("tgive t p", "accepted 0 known 0 refused 2 below 0"),
    ("give 2 p", "accepted 1 known 1 refused 0 whole"),
    ("trim 2 l x", "kept 4 of 7"),
    ("tget t 6b", "1/3/4=63"),
    ("tget v 6b", "1/3/4=63"),
    ("tget w 6b", "1/3/4=63"),
    ("tget x 6b", "1/3/4=63"),
    ("put 1 6b 64", "5/7"),
    ("hello 2 q", "convicted 0 leaves 2 wanted 0"),
    ("bundle 1 q r", "proofs 0 vouchers 0 updates 1 values 1 whole"),
    ("tgive x r", "accepted 2 known 0 refused 0 below 0"),
    ("tget x 6b", "1/5/7=64"),
    ("tgive t r", "accepted 0 known 0 refused 2 below 0"),
    ("tget t 6b", "1/3/4=63"),
    ("tgive v r", "accepted 0 known 0 refused 2 below 0"),
    ("tget v 6b", "1/3/4=63"),
    # Streams of before: all their updates are known.
    ("tgive x b", "accepted 0 known 4 refused 2 below 0"),
    ("tgive x f", "accepted 0 known 2 refused 0 below 0"),
]

def main():
    play("a_reader_is_made_and_goes_on", TWO, APART)
    play("a_reader_of_winternitz_keys", ["depot schedule 1", "scheme winter 2", "node 1", "node 2"], READ)
    play("statements_below_a_checkpoint", FAULTY, BELOW)
    play("a_reader_convicts_above", FAULTY, CONVICTED)
    play("a_reader_takes_proofs_of_what_it_gave_up", FAULTY, PROOF_BELOW)
    play("a_past_has_a_trimmed_leaf", FAULTY, HISTORY)
    play("a_value_is_dropped_and_comes_again", FAULTY, DROPPED)
    play("a_value_is_dropped_for_its_length", members("node 1", "faulty 9"), LENGTHS)
    play("a_path_leads_through_trimmed_updates", TWO, PATHS)
    play("several_keys_are_kept", members("node 1"), SEVERAL)
    play("a_value_of_two_updates_is_kept", members("node 1"), SHARED)
    play("checkpoints_of_several_moments", members("node 1"), OLDER)
    play("a_trimmed_branch", members("node 1", "faulty 8", "faulty 9"), FORKS)
    play("streams_for_a_reader", TWO, STREAMS)
    play("as_many_frames_as_a_reader_takes", members("node 1"), FRAMES)
    play("a_reader_over_exchanges_and_stops", EXCHANGES_HEADER, EXCHANGES)
    play("a_second_checkpoint", TWO, SECOND)


if __name__ == "__main__":
    main()
