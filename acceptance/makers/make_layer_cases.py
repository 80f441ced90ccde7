#!/usr/bin/env python3
"""Writes the cases of keys of two layers: heights 13 to 17.

    python3 acceptance/makers/make_layer_cases.py

They are told as those of make_cases.py, make_node_cases.py and make_replays.py are.
"""

from copy import deepcopy

from make_cases import ZEROS, Signer, case, frame, hollow, proof, roster, sha, signed, u, update, voucher
from make_node_cases import TWO, Case, Node, script, seed, words
from make_replays import JOIN, REFUSED, REFUSED_ONE, REJOIN, TOOK, TOOK_ONE, UNWANTED, play, raw, refuse

FORK_REJOINS = REJOIN + [
    ("give 1 b", "accepted 3 known 0 refused 0 whole"),
    ("get 1 6b", "9/0/1=61 9/1/2=62"),
    ("hello 1 c", "convicted 1 leaves 2 wanted 0"),
    ("restart 1", "records 7"),
]


def layers(*lines, height=13):
    return ["depot schedule 1", f"scheme winter {height}", *lines]


# The frame of a statement whose body has 120 bytes, and where the parts of its signature start: the leaf, the bottom values and siblings, and those of the top.
LENGTH = 5 + 4 + 120 + 4 + 4708
PARTS = [133, 136, 137, 2280, 2281, 2536, 2537, 4680, 4681, LENGTH - 1]
TOP_PART = 2537

# A writer signs with the last leaf of a bottom tree, with the first of the next, and with the last of all.
BORDER = [
    ("update x 9 255 1 - 6b 61 - right", "9/255/1"),
    ("update y 9 256 2 x 6b 62 - right", "9/256/2"),
    ("update z 9 8191 3 y 6b 63 - right", "9/8191/3"),
    ("cut l x 0 10000", f"{LENGTH + 6} bytes"),
    *[event for place in PARTS for event in [
        (f"flip f{place} x {place}", f"{LENGTH + 6} bytes"),
        (f"give 1 f{place}", REFUSED, "refused 0 4 BadSignature 9", UNWANTED),
    ]],
    # The bottom part of the one signature with the top part of the next, which signs another bottom tree.
    (f"cut b x 0 {TOP_PART}", f"{TOP_PART} bytes"),
    (f"cut t y {TOP_PART} 2304", "2304 bytes"),
    ("join m b t", f"{LENGTH} bytes"),
    ("give 1 m", REFUSED_ONE, "refused 0 4 BadSignature 9"),
    (f"cut w x {TOP_PART} 2304", "2304 bytes"),
    ("join n b w", f"{LENGTH} bytes"),
    ("give 1 n", TOOK_ONE),
    ("give 1 x", "accepted 1 known 1 refused 0 bare"),
    ("give 1 y", TOOK),
    ("give 1 z", TOOK),
    ("get 1 6b", "9/8191/3=63"),
    ("restart 1", "records 7"),
    ("raw o 00", "1 bytes"),
    ("voucher v 9 512 o", "9/512 ids 1"),
    ("hollow p v o", "NotUpdate"),
    ("judge p", "9 NotUpdate"),
    ("update s 9 255 1 - 6b 64 - right", "9/255/1"),
    ("proof q SameNumber x s", "SameNumber"),
    ("judge q", "9 SameNumber"),
]

# As many statements may be signed as a journal has records. The plain scheme has that height, too.
HIGHEST = [
    ("put 1 6b 61", "0/1"),
    ("update x 9 131071 1 - 6b 62 - right", "9/131071/1"),
    ("give 1 x", TOOK),
    ("get 1 6b", "1/0/1=61 9/131071/1=62"),
]


def border_with_stops():
    """A node whose disk stops around the put of its 256th statement, the last of its first bottom tree, in calls that lose it and in one that
    keeps it. Afterwards it signs that one and the next: a proof of both comes to nothing, but behind the points on signatures."""
    one, two = (Signer(node, bytes(30) + u(2, node), 13) for node in (1, 2))
    node = Node(one, roster(one.entry(), two.entry()))
    for at in range(255):
        last = node.put(b"k", u(2, at))
    hello = b"\1\3" + u(2, 2) + sha(node.listed) + u(2, 0) + u(2, 1) + u(2, 1) + last.id + u(2, 0)
    kept = node.put(b"k", b"b"), node.put(b"k", b"d")
    stream = b"".join(made.frames() for made in kept)
    length = len(kept[0].text)
    second = 5 + length + 6 + 5
    return [(f"put 1 6b {at:04x}", f"{at}/{at + 1}") for at in range(255)] + [
        ("stop 1 2 1", "armed"),
        ("put 1 6b 61", "stopped records 256"),
        ("stop 1 3 0", "armed"),
        ("put 1 6b 61", "stopped records 256"),
        ("get 1 6b", "1/254/255=00fe"),
        ("stop 1 3 1", "armed"),
        ("put 1 6b 62", "stopped records 257"),
        ("get 1 6b", "1/255/256=62"),
        ("stop 1 4 2", "armed"),
        ("put 1 6b 63", "stopped records 257"),
        ("put 1 6b 64", "256/257"),
        ("restart 1", "records 258"),
        raw("h", hello),
        ("bundle 1 h b", "proofs 0 vouchers 0 updates 2 values 2 whole"),
        ("cut l b 0 100000", f"{len(stream) + 6} bytes"),
        raw("g", frame(1, b"")[:5] + b"\1\1"),
        (f"cut m b 5 {length}", f"{length} bytes"),
        (f"cut n b {second} {len(kept[1].text)}", f"{len(kept[1].text)} bytes"),
        ("join o g m", f"{7 + length} bytes"),
        ("join p o n", f"{7 + 2 * length} bytes"),
        ("judge p", "NotContradictory SameNumber"),
        (f"flip q p {7 + length - 1}", f"{7 + 2 * length} bytes"),
        ("judge q", "BadSignature first"),
        (f"flip r p {7 + 2 * length - 1}", f"{7 + 2 * length} bytes"),
        ("judge r", "BadSignature second"),
        raw("s", stream),
        ("give 1 s", "accepted 0 known 4 refused 0 bare"),
    ]


def over_the_border():
    """A node that stopped in the put of its 256th statement is started again, puts another one with that leaf, the last of its first
    bottom tree, in a further run one with the first of the next, and in a third signs both."""
    one = Signer(1, seed(1), 13)
    listed = roster(one.entry(), TWO.entry())
    node, other = Node(one, listed), Node(TWO, listed)
    for at in range(255):
        made = node.put(b"k", u(2, at))
    # The stop came behind the write of the record: its gate, which ends the file of those before, is closed.
    stopped = deepcopy(node)
    stopped.put(b"k", b"lost")
    before = node.file() + u(4, len(stopped.records[-1])) + stopped.records[-1] + b"\0"
    # Node 2 has the first 255 of its updates, and tells so.
    other.accepted.append(made)
    hello = b"\1\3" + u(2, 2) + sha(listed) + u(2, 0) + u(2, 1) + u(2, 1) + made.id + u(2, 0)
    node.put(b"k", b"last")
    node.put(b"l", b"next")
    told = "get 6b -> 1/255/256=6c617374"
    Case("node_goes_on_over_a_bottom_tree").data(
        ROSTER=listed, TWO=hello, journal=before, FIRST=script("get 6b", "put 6b 6c617374", "get 6b"), SECOND=script("get 6b", "put 6c 6e657874"),
        THIRD=script("bundle TWO B"),
    ).after(B=node.bundle(other), journal=node.file()).run(
        words(1, script="FIRST", height=13), ["get 6b -> 1/254/255=00fe", "put 6b -> 255/256", told]).run(
        words(1, script="SECOND", height=13), [told, "put 6c -> 256/257"]).run(
        words(1, script="THIRD", height=13), ["bundle TWO B -> proofs 0 vouchers 0 updates 2 values 2 whole"])


def judgements():
    nine, eight = Signer(9, b"\x09" * 32, 13), Signer(8, b"\x08" * 32, 17)
    known = roster(eight.entry(), nine.entry())
    x, y = update(9, 255, 1, ZEROS, b"k", b"a"), update(9, 256, 2, ZEROS, b"k", b"b")
    good = proof(2, signed(x, nine.sign(255, x)), signed(y, nine.sign(256, y)))
    far = voucher(8, 131_071, sha(b"t"))
    vouched = hollow(signed(far, eight.sign(131_071, far)), b"t")

    def judged(name, text, stdout, status=7, listed=known):
        case("judge_" + name, ["judge", "ROSTER", "PROOF"], stdout + "\n", status, ROSTER=listed, PROOF=text)

    def flipped(place):
        return good[:place] + bytes([good[place] ^ 1]) + good[place + 1:]

    end = len(good)
    judged("statements_of_two_bottom_trees", good, "9 SamePrev", 0)
    judged("a_bad_bottom_value", flipped(2 + 4 + 120 + 4 + 4), "BadSignature first")
    judged("a_bad_bottom_sibling", flipped(end - 160 - 2144 - 1), "BadSignature second")
    judged("a_bad_top_value", flipped(end - 160 - 1), "BadSignature second")
    judged("a_bad_top_sibling", flipped(end - 1), "BadSignature second")
    judged("the_last_leaf_of_the_greatest_height", vouched, "8 NotUpdate", 0)
    judged("a_roster_with_a_great_height", good, "input ROSTER at 6", 2, roster((9, 18, nine.root)))
    judged("a_key_of_two_layers_as_one_of_one", good, "BadSignature first", listed=roster((9, 12, nine.root)))
    judged("a_key_of_another_height", good, "BadSignature first", listed=roster((9, 14, nine.root)))


def main():
    play("winternitz_of_two_layers_joins", layers("node 1", "node 2", "node 3"), JOIN)
    play("winternitz_of_two_layers_forks", layers("node 1", "node 2", "faulty 9"), FORK_REJOINS)
    play("signatures_over_a_bottom_tree", layers("node 1", "faulty 9"), BORDER)
    play("stops_over_a_bottom_tree", layers("node 1", "node 2"), border_with_stops())
    play("the_greatest_height", layers("node 1", "faulty 9", height=17), HIGHEST)
    play("the_greatest_height_of_the_plain_scheme", ["depot schedule 1", "scheme plain 17", "node 1", "faulty 9"], HIGHEST)
    refuse("a_height_of_eighteen", ["depot schedule 1", "scheme plain 18", "node 1"], 2, "Number")
    refuse("a_winternitz_height_of_eighteen", layers("node 1", height=18), 2, "Number")
    refuse("a_number_past_the_greatest_height", [*layers("node 1", "faulty 9", height=17), "update x 9 131072 1 - 6b 61 - right"], 5, "Number")
    refuse("a_number_past_the_height", [*layers("node 1", "faulty 9"), "voucher x 9 8192 1.0"], 5, "Number")
    over_the_border()
    judgements()


if __name__ == "__main__":
    main()
