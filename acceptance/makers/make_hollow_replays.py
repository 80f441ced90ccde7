#!/usr/bin/env python3
"""Writes the cases that replay schedules of vouchers for what is no update.

    python3 acceptance/makers/make_hollow_replays.py

They are told as those of make_replays.py are.
"""

from make_cases import ZEROS, frame, hollow, sha, signed, u, update, update_of, voucher
from make_change_replays import many
from make_replays import (
    CONVICTED, KNEW_ONE, REFUSED, REFUSED_ONE, TOOK, TOOK_ONE, UNWANTED, damaged, doubled, hello_of, members, play, raw, refusals, root_of, sign,
)

HOLLOW = [
    ("raw t 00", "1 bytes"),
    ("voucher v 9 0 t", "9/0 ids 1"),
    ("hollow p v t", "NotUpdate"),
    ("judge p", "9 NotUpdate"),
    ("give 1 p", TOOK_ONE),
    ("update x 9 1 1 - 6b 61 - right", "9/1/1"),
    ("give 1 x", REFUSED, "refused 0 12 Convicted 9", UNWANTED),
    ("cut b x 9 120", "120 bytes"),
    ("voucher w 9 2 x", "9/2 ids 1"),
    ("hollow q w b", "NotUpdate"),
    ("judge q", "NotContradictory NotUpdate"),
]

# It convicts once, a node keeps it, and what convicts nobody is refused.
KEPT = HOLLOW + [
    ("give 1 p", KNEW_ONE),
    ("give 1 q", REFUSED_ONE, "refused 0 15 NotContradictory"),
    ("give 1 w", REFUSED_ONE, "refused 0 13 VoucherConvicted 9"),
    ("hello 1 h", "convicted 1 leaves 0 wanted 0"),
    ("restart 1", "records 2"),
    ("give 1 p", KNEW_ONE),
    ("give 1 x", REFUSED, "refused 0 12 Convicted 9", UNWANTED),
]

# A node that was told of it tells others: the proof stands in front of a bundle, and convicts at a third node.
TOLD = [
    ("update x 9 0 1 - 6b 61 - right", "9/0/1"),
    ("give 1 x", TOOK),
    ("give 3 x", TOOK),
    ("raw t 68656c6c6f", "5 bytes"),
    ("voucher v 9 1 t,x", "9/1 ids 2"),
    ("hollow p v t", "NotUpdate"),
    ("give 1 v", TOOK_ONE),
    ("give 1 p", TOOK_ONE),
    ("put 1 6b 62", "0/2"),
    ("hello 2 a", "convicted 0 leaves 0 wanted 0"),
    ("bundle 1 a b", "proofs 1 vouchers 1 updates 2 values 2 whole"),
    # Its first frame is the proof.
    ("cut f b 0 %d" % (5 + 2 + 4 + 74 + 4 + 32 + 4 + 5), "130 bytes"),
    ("judge f", "9 NotUpdate"),
    ("give 2 b 3", "accepted 6 known 0 refused 0 whole"),
    ("hello 2 c", "convicted 1 leaves 2 wanted 0"),
    ("get 2 6b", "1/0/2=62"),
    ("hello 3 d", "convicted 0 leaves 1 wanted 0"),
    ("bundle 2 d e", "proofs 1 vouchers 1 updates 1 values 1 whole"),
    ("give 3 e", "accepted 4 known 0 refused 0 whole"),
    ("hello 3 g", "convicted 1 leaves 2 wanted 0"),
    ("update y 9 2 2 x 6b 63 - right", "9/2/2"),
    ("give 3 y", REFUSED, "refused 0 12 Convicted 9", UNWANTED),
    # Once it convicted, another proof against the node is known, and no bundle for node 1 has one.
    ("update z 9 2 3 x 6b 64 - right", "9/2/3"),
    ("proof r SameNumber y z", "SameNumber"),
    ("give 3 r", KNEW_ONE),
    ("hello 1 i", "convicted 1 leaves 2 wanted 0"),
    ("bundle 3 i j", "proofs 0 vouchers 0 updates 0 values 0 whole"),
    ("restart 3", "records 7"),
    ("restart 2", "records 8"),
]

# Each kind of text: an update's, of both versions, convicts nobody, and every other one does.
X = update(9, 0, 1, ZEROS, b"k", b"a")
Y = update_of(9, 1, 2, ZEROS, [(b"k", None), (b"l", b"a")])
Z = update_of(9, 1, 2, ZEROS, [(b"k", None)])
GOOD = {
    "none": b"",
    "one": b"\0",
    "voucher": voucher(9, 0, ZEROS),
    "hello": hello_of(9, 4, 1, 9),
    "longer": X + b"\0",
    "shorter": Y[:-1],
    "signed": sign(9, 0, X),
    # Of what the texts of updates say, a count of one write and the mark of a value don't go together.
    "lone": X[:1].replace(b"\1", b"\2") + X[1:48] + b"\1\1k\1" + X[50:],
}
BAD = {"x": X, "y": Y, "z": Z}
NAMED = {name: text for name, text in [*GOOD.items(), *BAD.items()]}

TEXTS = [raw(name, text) for name, text in NAMED.items()] + [
    (f"voucher v 9 3 {','.join(NAMED)}", f"9/3 ids {len(NAMED)}"),
    *[event for name in NAMED for event in [
        (f"hollow p{name} v {name}", "NotUpdate"),
        (f"judge p{name}", "9 NotUpdate" if name in GOOD else "NotContradictory NotUpdate"),
    ]],
    *[(f"give 1 p{name}", REFUSED_ONE, "refused 0 15 NotContradictory") for name in BAD],
    # A text that the voucher doesn't name.
    raw("other", b"\1"),
    ("hollow pother v other", "NotUpdate"),
    ("judge pother", "NotContradictory NotUpdate"),
    ("give 1 pother", REFUSED_ONE, "refused 0 15 NotContradictory"),
    ("restart 1", "records 1"),
    ("give 1 pvoucher", TOOK_ONE),
    ("give 1 pnone", KNEW_ONE),
    ("restart 1", "records 2"),
]

# A text of 65,536 bytes is taken, and one byte more is none that a proof can have.
LONG = doubled("z", "00", 16) + [
    ("join y z16 z0", "65537 bytes"),
    ("voucher v 9 0 z16,y", "9/0 ids 2"),
    ("hollow p v z16", "NotUpdate"),
    ("judge p", "9 NotUpdate"),
    ("hollow q v y", "NoRef"),
    ("judge q", "IllFormed 0"),
    ("give 1 q", "accepted 0 known 0 refused 0 bare"),
    ("give 1 p 1000", TOOK_ONE),
    ("restart 1", "records 2"),
    ("hello 1 h", "convicted 1 leaves 0 wanted 0"),
    ("hello 2 i", "convicted 0 leaves 0 wanted 0"),
    ("bundle 1 i b", "proofs 1 vouchers 0 updates 0 values 0 whole"),
    ("give 2 b", "accepted 1 known 0 refused 0 whole"),
    ("hello 2 j", "convicted 1 leaves 0 wanted 0"),
]

# A correct node never vouches for what is no update, but anyone can forge a voucher of the plain scheme: the node that it names isn't convicted.
MINE = sign(1, 0, voucher(1, 0, sha(b"t")))
STRANGER = sign(7, 0, voucher(7, 0, sha(b"t")))
THEIRS = sign(9, 0, voucher(9, 0, sha(b"t")))
FORGED = signed(voucher(9, 0, sha(b"t")), sha(b"\x06", root_of(1), u(4, 0), voucher(9, 0, sha(b"t"))))
OTHER_SEQ = signed(voucher(9, 0, sha(b"t")), sha(b"\x06", root_of(9), u(4, 1), voucher(9, 0, sha(b"t"))))
UPDATE = sign(9, 0, X)

NO_PROOFS = [
    (hollow(MINE, b"t"), "16 AgainstMe"),
    (hollow(MINE, b"u"), "15 NotContradictory"),
    (hollow(damaged(MINE), b"t"), "4 BadSignature 1"),
    (hollow(STRANGER, b"t"), "2 UnknownWriter 7"),
    (hollow(damaged(THEIRS), b"t"), "4 BadSignature 9"),
    (hollow(damaged(THEIRS), b"u"), "4 BadSignature 9"),
    (hollow(FORGED, b"t"), "4 BadSignature 9"),
    (hollow(OTHER_SEQ, b"t"), "4 BadSignature 9"),
    (hollow(THEIRS, b"u"), "15 NotContradictory"),
    (hollow(THEIRS, b""), "15 NotContradictory"),
    (hollow(UPDATE, b"t"), "15 NotContradictory"),
    (hollow(UPDATE, X), "15 NotContradictory"),
    (hollow(THEIRS, b"t")[:-1], "1 IllFormed %d" % (2 + len(THEIRS) + 4)),
    (hollow(THEIRS, b"t") + b"\0", "1 IllFormed %d" % (2 + len(THEIRS) + 5)),
    (hollow(THEIRS, b"t")[:2 + len(THEIRS) + 2], "1 IllFormed %d" % (2 + len(THEIRS))),
    (b"\1\4" + THEIRS + u(4, 65_537) + bytes(65_537), "1 IllFormed %d" % (2 + len(THEIRS))),
    (b"\1\4" + THEIRS + THEIRS, "1 IllFormed %d" % (2 + len(THEIRS) + 4 + 42)),
    (b"\1\2" + hollow(THEIRS, b"t")[2:], "1 IllFormed %d" % (2 + len(THEIRS) + 4)),
    (b"\1\5" + hollow(THEIRS, b"t")[2:], "1 IllFormed 1"),
    (b"\2" + hollow(THEIRS, b"t")[1:], "1 IllFormed 0"),
]

REFUSED_PROOFS = [
    *refusals("a", [(frame(1, made), check) for made, check in NO_PROOFS]),
    ("restart 1", "records 1"),
    raw("b", frame(1, hollow(THEIRS, b"t"))),
    ("give 1 b", TOOK_ONE),
    ("hello 1 h", "convicted 1 leaves 0 wanted 0"),
]

# A bit is changed in each part of a proof, whose frame has 5 bytes before it: the version, the kind, the length of the body, each of its fields, the length
# of the signature, the signature, the length of the text and the text.
PARTS = [
    (5, "IllFormed 0"),
    (6, "IllFormed 1"),
    (10, "IllFormed 48"),
    (11, "IllFormed 6"),
    (12, "IllFormed 7"),
    (14, "UnknownWriter 8"),
    (18, "BadSignature first"),
    (20, "IllFormed 14"),
    (21, "BadSignature first"),
    (52, "BadSignature first"),
    (56, "IllFormed 89"),
    (57, "BadSignature first"),
    (88, "BadSignature first"),
    (92, "IllFormed 88"),
    (93, "NotContradictory NotUpdate"),
    (94, "9 NotUpdate"),
]

FLIPPED = [
    ("raw t 74", "1 bytes"),
    ("voucher v 9 0 t", "9/0 ids 1"),
    ("hollow p v t", "NotUpdate"),
    ("cut l p 0 1000", "94 bytes"),
    *[event for place, told in PARTS for event in [(f"flip p{place} p {place}", "94 bytes"), (f"judge p{place}", told)]],
]

# In what a voucher names a label of plain bytes stands for their hash, and bytes that stand there twice count once.
REFERENCES = CONVICTED + [
    ("raw a 00", "1 bytes"),
    ("cut b a 0 1", "1 bytes"),
    ("raw c -", "0 bytes"),
    ("flip d a 0", "1 bytes"),
    ("join e a d", "2 bytes"),
    ("cut l x 9 120", "120 bytes"),
    ("voucher v 8 0 a,b,c,d,e,l,x,1.0", "NoRef"),
    ("put 1 6c 61", "0/2"),
    ("voucher w 8 0 a,b,c,d,e,l,x,1.0", "8/0 ids 6"),
    ("hollow m v a", "NoRef"),
    ("judge m", "IllFormed 0"),
    ("hollow n w b", "NotUpdate"),
    ("judge n", "8 NotUpdate"),
    ("hollow o w c", "NotUpdate"),
    ("judge o", "8 NotUpdate"),
    ("hollow p w e", "NotUpdate"),
    ("judge p", "8 NotUpdate"),
    ("hollow q w l", "NotUpdate"),
    ("judge q", "NotContradictory NotUpdate"),
    # A label of bytes that were cut out of nothing names the hash of nothing.
    ("cut f v 0 10", "0 bytes"),
    ("voucher r 8 1 f", "8/1 ids 1"),
    ("hollow s r c", "NotUpdate"),
    ("judge s", "8 NotUpdate"),
    ("proof g SameNumber w r", "SameNumber"),
    ("judge g", "NotContradictory SameNumber"),
    ("give 1 w", TOOK_ONE),
    ("give 1 n", TOOK_ONE),
    ("give 1 o", KNEW_ONE),
]

# A node vouches for updates alone, so what it vouches for convicts nobody, whatever text is shown for it.
CORRECT = [
    ("update x 9 0 1 - 6b 61 - right", "9/0/1"),
    ("updates y 9 1 2 x 6b!,6c=62 - right", "9/1/2"),
    ("give 1 x", TOOK),
    ("give 1 y", TOOK),
    ("hello 2 a", "convicted 0 leaves 0 wanted 0"),
    ("bundle 1 a b", "proofs 0 vouchers 1 updates 2 values 2 whole"),
    # Its voucher stands first: a signed text of 114 bytes. A proof is made of it by hand, with the body of each update.
    ("cut s b 5 %d" % (4 + 74 + 4 + 32), "114 bytes"),
    ("cut u x 9 120", "120 bytes"),
    ("cut w y 9 %d" % (83 + 3 + 39), "125 bytes"),
    ("raw g 0100000000" "0104", "7 bytes"),
    ("raw i 00000078", "4 bytes"),
    ("raw j 0000007d", "4 bytes"),
    ("join k g s", "121 bytes"),
    ("join l k i", "125 bytes"),
    ("join m l u", "245 bytes"),
    ("judge m", "NotContradictory NotUpdate"),
    ("join n k j", "125 bytes"),
    ("join o n w", "250 bytes"),
    ("judge o", "NotContradictory NotUpdate"),
    ("give 2 b", "accepted 5 known 0 refused 0 whole"),
    ("hello 2 c", "convicted 0 leaves 1 wanted 0"),
]

FORE = ("raw t 00", "update x 9 0 1 - 6b 61 - right", "voucher v 9 1 t", "hello 1 h", "proof p SamePrev x x", "hollow q v t")

# Lines behind these, with the fault of each.
LINES = [
    ("hollow p2 v", "Fields"),
    ("hollow p2 v t t", "Fields"),
    ("hollow v v t", "Label"),
    ("hollow 2 v t", "Label"),
    ("hollow p2 x t", "Label"),
    ("hollow p2 t t", "Label"),
    ("hollow p2 q t", "Label"),
    ("hollow p2 n t", "Label"),
    ("hollow p2 v x", "Label"),
    ("hollow p2 v v", "Label"),
    ("hollow p2 v h", "Label"),
    ("hollow p2 v p", "Label"),
    ("hollow p2 v q", "Label"),
    ("hollow p2 v n", "Label"),
    ("hollow p2 v p2", "Label"),
    ("proof p2 NotUpdate x v", "Label"),
    ("proof p2 SameNumber t v", "Label"),
    ("proof p2 SameNumber q v", "Label"),
    ("voucher w 9 2 h", "Label"),
    ("voucher w 9 2 p", "Label"),
    ("voucher w 9 2 v", "Label"),
    ("voucher w 9 2 q", "Label"),
    ("voucher w 9 2 w", "Label"),
    ("voucher w 9 2 t,n", "Label"),
    ("voucher w 9 2 -", "Label"),
    ("update y 9 2 2 t 6b 61 - right", "Label"),
    ("update y 9 2 2 - 6b 61 t right", "Label"),
    ("updates y 9 2 2 t 6b! - right", "Label"),
    ("updates y 9 2 2 - 6b! x,t right", "Label"),
]


def main():
    play("a_hollow_voucher_convicts", members("node 1", "faulty 9"), HOLLOW)
    play("a_hollow_voucher_convicts_once", members("node 1", "faulty 9"), KEPT)
    play("a_hollow_voucher_is_told_on", members("node 1", "node 2", "node 3", "faulty 9"), TOLD)
    play("vouchers_for_texts_of_each_kind", members("node 1", "faulty 9"), TEXTS)
    play("a_voucher_for_a_long_text", members("node 1", "node 2", "faulty 9"), LONG)
    play("hollow_proofs_that_are_refused", members("node 1", "faulty 9"), REFUSED_PROOFS)
    play("a_bit_of_a_hollow_proof_is_changed", members("node 1", "faulty 9"), FLIPPED)
    play("vouchers_name_plain_bytes", members("node 1", "faulty 8", "faulty 9"), REFERENCES)
    play("a_correct_node_vouches_for_updates", members("node 1", "node 2", "faulty 9"), CORRECT)
    many("faults_of_hollow_lines", members("node 1", "faulty 9") + list(FORE), LINES)


if __name__ == "__main__":
    main()
