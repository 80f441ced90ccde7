#!/usr/bin/env python3
"""Writes the cases that need bytes: logs, rosters, proofs with Winternitz signatures.

    python3 acceptance/makers/make_cases.py

It uses hashlib alone and is written from docs/FORMATS.md, apart from the program: what a case expects is never the program's
own output. Each case is a folder of acceptance/cases: args (one word a line), stdout, status (0 where there is none), data/.
"""

import hashlib
import os
import shutil
import sys

ROOT = os.path.normpath(os.path.join(os.path.dirname(os.path.abspath(__file__)), os.pardir, os.pardir))
CASES = os.path.join(ROOT, "acceptance", "cases")
# What makes a case may ask a model.
sys.path.append(os.path.join(ROOT, "acceptance", "models"))
ZEROS = bytes(32)


def sha(*parts):
    return hashlib.sha256(b"".join(parts)).digest()


def u(size, number):
    return number.to_bytes(size, "big")


# ---- texts


def named(value):
    """What a write says of a key: the hash and the length of its value."""
    return sha(value) + u(4, len(value))


def body_of(version, writer, seq, clock, prev, written, deps=(), history=None):
    """The body of an update, with these bytes for what it writes; deps are (writer, clock, id), rising by (writer, id)."""
    history = sha() if history is None else history
    entries = b"".join(u(2, w) + u(8, c) + i for w, c, i in deps)
    front = u(1, version) + b"\x01" + u(2, writer) + u(4, seq) + u(8, clock) + prev
    return front + written + u(2, len(deps)) + entries + history


def several(*marked):
    """What an update of version 2 writes: its count, and each key with what is said of it, or with None where it is deleted."""
    return u(1, len(marked)) + b"".join(u(1, len(k)) + k + (b"\0" if n is None else b"\1" + n) for k, n in marked)


def update(writer, seq, clock, prev, key, value, deps=(), history=None):
    """The body of an update of one key, which gets a value: its version is 1."""
    return body_of(1, writer, seq, clock, prev, u(1, len(key)) + key + named(value), deps, history)


def update_of(writer, seq, clock, prev, changes, deps=(), history=None):
    """The body of an update with these changes, (key, value) each, rising by key; a key without a value is deleted."""
    changes = list(changes)
    if len(changes) == 1 and changes[0][1] is not None:
        return update(writer, seq, clock, prev, *changes[0], deps, history)
    marked = [(key, None if value is None else named(value)) for key, value in changes]
    return body_of(2, writer, seq, clock, prev, several(*marked), deps, history)


def voucher(node, seq, *ids):
    """The body of a voucher for these ids, which are put in order."""
    return b"\x01\x02" + u(2, node) + u(4, seq) + u(2, len(ids)) + b"".join(sorted(ids))


def checkpoint(listed, *leaves):
    """The text of a checkpoint of the roster with this hash; leaves are (writer, id) each, in the order in which they are to stand."""
    return b"\x01\x06" + listed + u(2, len(leaves)) + b"".join(u(2, writer) + id for writer, id in leaves)


def checkpoint_key(text):
    """The key that a checkpoint's text is put under."""
    return b"checkpoint:" + sha(text)


def history_of(leaves):
    """The history hash of a past with these leaves, (writer, clock, id) each."""
    return sha(b"".join(u(2, w) + u(8, c) + i for w, c, i in sorted(leaves, key=lambda x: (x[0], x[2]))))


def log(*bodies):
    return b"".join(u(4, len(body)) + body for body in bodies)


def signed(body, signature):
    return u(4, len(body)) + body + u(4, len(signature)) + signature


def frame(tag, payload):
    return u(1, tag) + u(4, len(payload)) + payload


def proof(kind, first, second):
    return b"\x01" + u(1, kind) + first + second


def hollow(signed_voucher, text):
    """The proof that a voucher names a text of no update."""
    return b"\x01\x04" + signed_voucher + u(4, len(text)) + text


def roster(*entries):
    """Entries are (node, height, root)."""
    return b"\x01\x04" + u(2, len(entries)) + b"".join(u(2, n) + u(1, h) + r for n, h, r in entries)


# ---- Winternitz signatures, of one layer of trees up to height 12 and of two layers above


class Layer:
    """The tags of a layer: those of its secrets, steps, leaves and digests."""

    def __init__(self, *tags):
        self.secret, self.step, self.leaf, self.digest = (u(1, tag) for tag in tags)


BOTTOM, TOP = Layer(1, 2, 3, 5), Layer(7, 8, 9, 10)
MOST_ONE_LAYER, BOTTOM_HEIGHT = 12, 8


def walk(layer, i, j, p, count, value):
    for at in range(p, p + count):
        value = sha(layer.step, u(4, i), u(2, j), u(1, at), value)
    return value


def secret(layer, seed, i, j):
    return sha(layer.secret, seed, u(4, i), u(2, j))


def leaf(layer, seed, i):
    return sha(layer.leaf, u(4, i), *[walk(layer, i, j, 0, 15, secret(layer, seed, i, j)) for j in range(67)])


def tree(layer, seed, first, height):
    """The levels of the tree over the leaves from the first on, up to its root."""
    levels = [[leaf(layer, seed, first + i) for i in range(2**height)]]
    while len(levels[-1]) > 1:
        row = levels[-1]
        levels.append([sha(b"\x04", row[k], row[k + 1]) for k in range(0, len(row), 2)])
    return levels


def digits(digest):
    own = [d for byte in digest for d in (byte // 16, byte % 16)]
    total = sum(15 - d for d in own)
    return own + [total // 256, total // 16 % 16, total % 16]


def layer_part(layer, seed, i, digest, levels):
    """The values and siblings of the leaf i in the tree of these levels."""
    values = [walk(layer, i, j, 0, d, secret(layer, seed, i, j)) for j, d in enumerate(digits(digest))]
    siblings = [row[(i >> n) % len(row) ^ 1] for n, row in enumerate(levels[:-1])]
    return b"".join(values + siblings)


class Signer:
    def __init__(self, node, seed, height):
        self.node, self.seed, self.height = node, seed, height
        self.has_two = height > MOST_ONE_LAYER
        self.levels = tree(TOP, seed, 0, height - BOTTOM_HEIGHT) if self.has_two else tree(BOTTOM, seed, 0, height)
        self.root = self.levels[-1][0]
        self.bottoms = {}

    def entry(self):
        return (self.node, self.height, self.root)

    def bottom(self, q):
        """The levels of the bottom tree q of a key of two layers."""
        if q not in self.bottoms:
            self.bottoms[q] = tree(BOTTOM, self.seed, 2**BOTTOM_HEIGHT * q, BOTTOM_HEIGHT)
        return self.bottoms[q]

    def sign(self, i, body):
        digest = sha(BOTTOM.digest, self.root, u(4, i), body)
        if not self.has_two:
            return u(4, i) + layer_part(BOTTOM, self.seed, i, digest, self.levels)
        q = i // 2**BOTTOM_HEIGHT
        levels = self.bottom(q)
        above = sha(TOP.digest, self.root, u(4, q), levels[-1][0])
        return u(4, i) + layer_part(BOTTOM, self.seed, i, digest, levels) + layer_part(TOP, self.seed, q, above, self.levels)


# ---- cases


def case(name, args, stdout, status=0, out=None, **files):
    folder = os.path.join(CASES, name)
    shutil.rmtree(folder, ignore_errors=True)
    os.makedirs(folder)

    def write(path, data):
        with open(path, "wb") as out:
            out.write(data)

    write(os.path.join(folder, "args"), b"".join((a if isinstance(a, bytes) else a.encode()) + b"\n" for a in args))
    write(os.path.join(folder, "stdout"), stdout.encode())
    if status:
        write(os.path.join(folder, "status"), b"%d\n" % status)
    if out:
        write(os.path.join(folder, "out"), out.encode() + b"\n")
    for file, data in files.items():
        path = os.path.join(folder, "data", file)
        os.makedirs(os.path.dirname(path), exist_ok=True)
        write(path, data)


def scans():
    one = update(1, 0, 1, ZEROS, b"k", b"abc")
    line = "1/0/1=ba7816bf8f01cfea414140de5dae2223b00361a396177a9cb410ff61f20015ad\n"
    assert len(one) == 120
    case("scan_one_update", ["scan", "LOG", "6b"], line, LOG=log(one))
    case("scan_another_key", ["scan", "LOG", "6c"], "", LOG=log(one))
    case("scan_an_empty_log", ["scan", "LOG", "6b"], "", LOG=b"")
    case("scan_a_cut_log", ["scan", "LOG", "6b"], "input LOG at 0\n", 2, LOG=log(one)[:100])
    case("scan_a_cut_length", ["scan", "LOG", "6b"], "input LOG at 124\n", 2, LOG=log(one) + b"\0\0\0")
    case("scan_a_wrong_version", ["scan", "LOG", "6b"], "input LOG at 4\n", 2, LOG=log(b"\x03" + one[1:]))
    case("scan_a_text_of_another_version", ["scan", "LOG", "6b"], "input LOG at 54\n", 2, LOG=log(b"\x02" + one[1:]))
    case("scan_a_voucher", ["scan", "LOG", "6b"], "input LOG at 5\n", 2,
         LOG=log(b"\x01\x02" + u(2, 1) + u(4, 0) + u(2, 1) + ZEROS))
    case("scan_a_zero_writer", ["scan", "LOG", "6b"], "input LOG at 6\n", 2, LOG=log(one[:2] + b"\0\0" + one[4:]))
    case("scan_trailing_bytes", ["scan", "LOG", "6b"], "input LOG at 124\n", 2, LOG=log(one + b"\0"))
    case("scan_a_repeat", ["scan", "LOG", "6b"], line, LOG=log(one, one))
    orphan = update(1, 0, 1, b"\x11" * 32, b"k", b"abc")
    case("scan_a_missing_parent", ["scan", "LOG", "6b"], "not lawful 0 5 Missing\n", 9, LOG=log(orphan))
    later = update(1, 1, 2, sha(one), b"k", b"def", history=history_of([(1, 1, sha(one))]))
    case("scan_a_parent_that_comes_later", ["scan", "LOG", "6b"], "not lawful 0 5 Missing\n", 9, LOG=log(later, one))
    case("scan_a_later_write_supersedes", ["scan", "LOG", "6b"],
         "1/1/2=%s\n" % sha(b"def").hex(), LOG=log(one, later))
    case("scan_an_absent_file", ["scan", "NOWHERE", "6b"], "shelf NOWHERE\n", 3)

    # Two writers at once, and then a write that has seen both.
    two = update(2, 0, 1, ZEROS, b"k", b"other")
    both = "1/0/1=%s\n2/0/1=%s\n" % (sha(b"abc").hex(), sha(b"other").hex())
    case("scan_concurrent_writes", ["scan", "LOG", "6b"], both, LOG=log(two, one))
    join = update(1, 1, 2, sha(one), b"k", b"joined", [(2, 1, sha(two))],
                  history_of([(1, 1, sha(one)), (2, 1, sha(two))]))
    case("scan_a_join_supersedes_both", ["scan", "LOG", "6b"],
         "1/1/2=%s\n" % sha(b"joined").hex(), LOG=log(one, two, join))
    over = update(1, 1, 2, sha(one), b"other key", b"x", [(2, 1, sha(two))],
                  history_of([(1, 1, sha(one)), (2, 1, sha(two))]))
    case("scan_a_write_of_another_key_supersedes_none", ["scan", "LOG", "6b"], both, LOG=log(one, two, over))
    entries = update(3, 0, 2, ZEROS, b"k", b"y", [(2, 1, sha(two)), (1, 1, sha(one))])
    case("scan_entries_out_of_order", ["scan", "LOG", "6b"], "input LOG at %d\n" % (124 + 124 + 4 + 88 + 42), 2,
         LOG=log(one, two, entries))
    case("scan_a_folder", ["scan", "LOG", "6b"], "shelf LOG\n", 3, **{"LOG/one": one})
    case("scan_into_a_full_sink", ["scan", "LOG", "6b"], "", 5, out="/dev/full", LOG=log(one))


def scans_of_several_keys():
    def scan(name, key, stdout, *bodies, status=0):
        case("scan_" + name, ["scan", "LOG", key], stdout, status, LOG=log(*bodies))

    one = update(1, 0, 1, ZEROS, b"k", b"abc")
    abc, deleted = sha(b"abc").hex(), [(b"k", None)]
    gone = update_of(1, 1, 2, sha(one), deleted, history=history_of([(1, 1, sha(one))]))
    back = update_of(1, 2, 3, sha(gone), [(b"k", b"abc")], history=history_of([(1, 2, sha(gone))]))
    scan("a_deletion", "6b", "1/1/2!\n", one, gone)
    scan("a_deletion_of_nothing", "6b", "1/0/1!\n", update_of(1, 0, 1, ZEROS, deleted))
    scan("a_write_behind_a_deletion", "6b", f"1/2/3={abc}\n", one, gone, back)
    several = update_of(2, 0, 1, ZEROS, [(b"a", b"abc"), (b"k", None), (b"l", b"abc"), (b"m", b"")])
    scan("a_deletion_beside_a_write", "6b", f"1/0/1={abc}\n2/0/1!\n", several, one)
    scan("one_of_several_keys", "6c", f"2/0/1={abc}\n", several, one)
    scan("the_last_of_several_keys", "6d", f"2/0/1={sha().hex()}\n", several)
    scan("none_of_several_keys", "6e", "", several)
    join = update_of(1, 1, 2, sha(one), [(b"a", None), (b"k", b"joined")], [(2, 1, sha(several))],
                     history_of([(1, 1, sha(one)), (2, 1, sha(several))]))
    scan("several_keys_supersede_both", "6b", f"1/1/2={sha(b'joined').hex()}\n", several, one, join)
    scan("a_deletion_among_several_keys", "61", "1/1/2!\n", several, one, join)
    scan("a_key_that_several_leave", "6c", f"2/0/1={abc}\n", several, one, join)

    def refused(name, at, body):
        scan(name, "6b", f"input LOG at {at}\n", body, status=2)

    lone, count = update_of(1, 0, 1, ZEROS, deleted), 4 + 48
    refused("no_write", count, lone[:48] + b"\0" + lone[49:])
    refused("seventeen_writes", count, update_of(1, 0, 1, ZEROS, [(u(1, at), None) for at in range(17)]))
    refused("a_value_alone_in_the_other_text", count + 3, lone[:51] + b"\1" + named(b"abc") + lone[52:])
    refused("an_unknown_mark", count + 3, lone[:51] + b"\2" + lone[52:])
    refused("keys_that_fall", count + 4, update_of(1, 0, 1, ZEROS, [(b"l", None), (b"k", None)]))
    refused("a_key_twice", count + 4, update_of(1, 0, 1, ZEROS, [(b"k", None), (b"k", b"abc")]))
    refused("a_deletion_of_no_key", count + 1, update_of(1, 0, 1, ZEROS, [(b"", None)]))
    refused("a_voucher_of_another_version", 5, b"\x02\x02" + lone[2:])


def words():
    for name, args in {
        "words_none": [],
        "words_help": ["help", "scan"],
        "words_too_few": ["scan", "LOG"],
        "words_too_many": ["scan", "LOG", "6b", "6b"],
        "words_key_in_capitals": ["scan", "LOG", "6B"],
        "words_key_of_odd_length": ["scan", "LOG", "6b6"],
        "words_key_empty": ["scan", "LOG", ""],
        "words_key_too_long": ["scan", "LOG", "61" * 256],
        "words_name_with_a_space": ["scan", "A LOG", "6b"],
        "words_height_below": ["key", "00" * 32, "1"],
        "words_height_above": ["key", "00" * 32, "18"],
        "words_height_with_a_zero": ["key", "00" * 32, "02"],
        "words_height_with_a_sign": ["key", "00" * 32, "-2"],
        "words_seed_too_short": ["key", "0" * 63, "2"],
        "words_seed_too_long": ["key", "0" * 65, "2"],
        "words_seed_in_capitals": ["key", "AB" * 32, "2"],
        "words_unknown_command": ["play", "SCHEDULE"],
        "words_that_are_no_text": ["scan", b"\xff", "6b"],
        "words_load_alone": ["load"],
        "words_load_of_two_numbers": ["load", "1", "2"],
        "words_load_of_no_number": ["load", "one"],
        "words_load_with_a_zero": ["load", "01"],
        "words_load_with_a_sign": ["load", "+1"],
        "words_load_above": ["load", str(2**32)],
    }.items():
        case(name, args, "words\n", 1)


def keys():
    for name, seed, height in [("key_of_zeros", ZEROS, 2), ("key_of_height_five", bytes(range(32)), 5), ("key_of_twelve", ZEROS, 12),
                               ("key_of_thirteen", ZEROS, 13), ("key_of_the_greatest_height", ZEROS, 17)]:
        root = Signer(0, seed, height).root
        case(name, ["key", seed.hex(), str(height)], root.hex() + "\n")


def judgements():
    nine = Signer(9, b"\x09" * 32, 2)
    eight = Signer(8, b"\x08" * 32, 2)
    known = roster(eight.entry(), nine.entry())
    x = update(9, 0, 1, ZEROS, b"k", b"a")
    y = update(9, 1, 2, ZEROS, b"k", b"b")
    z = update(9, 2, 3, sha(x), b"k", b"c", history=history_of([(9, 1, sha(x))]))
    w = update(8, 0, 1, ZEROS, b"k", b"a")
    sx, sy, sz = (signed(b, nine.sign(i, b)) for i, b in enumerate([x, y, z]))
    sw = signed(w, eight.sign(0, w))
    same_number = update(9, 0, 1, ZEROS, b"k", b"d")
    sn = signed(same_number, nine.sign(0, same_number))
    back = update(9, 3, 1, sha(x), b"k", b"e")
    sb = signed(back, nine.sign(3, back))
    # Whose body is the smaller decides the order of halves.
    assert w < x < y < z and x < back

    def judged(name, text, stdout, status, listed=known):
        case(name, ["judge", "ROSTER", "PROOF"], stdout, status, ROSTER=listed, PROOF=text)

    good = proof(2, sx, sy)
    judged("judge_same_prev", good, "9 SamePrev\n", 0)
    first, second = sorted([(x, sx), (same_number, sn)])
    judged("judge_same_number", proof(1, first[1], second[1]), "9 SameNumber\n", 0)
    judged("judge_backward", proof(3, sx, sb), "9 Backward\n", 0)
    judged("judge_a_bad_second_signature", good[:-1] + bytes([good[-1] ^ 1]), "BadSignature second\n", 7)
    flipped = bytearray(good)
    flipped[2 + 4 + len(x) + 4 + 5] ^= 1
    judged("judge_a_bad_first_signature", bytes(flipped), "BadSignature first\n", 7)
    judged("judge_an_empty_text", b"", "IllFormed 0\n", 7)
    judged("judge_a_cut_text", good[:-1], "IllFormed %d\n" % (len(good) - len(nine.sign(0, x))), 7)
    judged("judge_a_trailing_byte", good + b"\0", "IllFormed %d\n" % len(good), 7)
    judged("judge_an_unknown_kind", b"\x01\x05" + good[2:], "IllFormed 1\n", 7)
    judged("judge_a_pair_as_a_hollow_proof", b"\x01\x04" + good[2:], "IllFormed %d\n" % (2 + len(sx) + 4 + 120), 7)
    judged("judge_halves_swapped", proof(2, sy, sx), "WrongOrder\n", 7)
    judged("judge_one_half_twice", proof(2, sx, sx), "Same\n", 7)
    judged("judge_no_contradiction", proof(3, sx, sz), "NotContradictory Backward\n", 7)
    judged("judge_two_writers", proof(2, sw, sx), "TwoWriters 8 9\n", 7)
    judged("judge_an_unknown_first_writer", proof(2, sw, sx), "UnknownWriter 8\n", 7, roster(nine.entry()))
    judged("judge_an_unknown_second_writer", proof(2, sw, sx), "UnknownWriter 9\n", 7, roster(eight.entry()))
    judged("judge_a_number_signed_by_another_leaf", proof(2, sx, signed(y, nine.sign(2, y))), "BadSignature second\n", 7)
    judged("judge_an_empty_roster", good, "input ROSTER at 2\n", 2, b"\x01\x04\0\0")
    judged("judge_a_roster_with_a_node_twice", good, "input ROSTER twice 9\n", 2, roster(nine.entry(), nine.entry()))
    judged("judge_a_roster_of_too_many", good, "input ROSTER many 257\n", 2, b"\x01\x04" + u(2, 257))
    judged("judge_a_roster_with_a_low_height", good, "input ROSTER at 6\n", 2, roster((9, 1, nine.root)))
    case("judge_an_absent_roster", ["judge", "ROSTER", "PROOF"], "shelf ROSTER\n", 3, PROOF=good)
    case("judge_an_absent_proof", ["judge", "ROSTER", "PROOF"], "shelf PROOF\n", 3, ROSTER=known)


def hollow_judgements():
    """Proofs that a voucher names what is no update."""
    nine, eight = Signer(9, b"\x09" * 32, 2), Signer(8, b"\x08" * 32, 2)
    known = roster(eight.entry(), nine.entry())
    x = update(9, 0, 1, ZEROS, b"k", b"a")
    y = update_of(9, 0, 1, ZEROS, [(b"k", None), (b"l", b"a")])
    named_texts = [b"no update", b"", x, y]
    body = voucher(9, 1, *map(sha, named_texts))
    vouched = signed(body, nine.sign(1, body))
    good = hollow(vouched, b"no update")

    def judged(name, text, stdout, status=7, listed=known):
        case("judge_" + name, ["judge", "ROSTER", "PROOF"], stdout + "\n", status, ROSTER=listed, PROOF=text)

    start = 2 + len(vouched)
    judged("a_voucher_for_no_update", good, "9 NotUpdate", 0)
    judged("a_voucher_for_an_empty_text", hollow(vouched, b""), "9 NotUpdate", 0)
    judged("a_voucher_for_an_update", hollow(vouched, x), "NotContradictory NotUpdate")
    judged("a_voucher_for_an_update_of_several_keys", hollow(vouched, y), "NotContradictory NotUpdate")
    judged("a_voucher_for_another_text", hollow(vouched, b"no updates"), "NotContradictory NotUpdate")
    judged("an_update_for_a_voucher", hollow(signed(x, nine.sign(0, x)), b"no update"), "NotContradictory NotUpdate")
    judged("a_voucher_of_an_unknown_node", good, "UnknownWriter 9", listed=roster(eight.entry()))
    judged("a_voucher_that_is_forged", hollow(signed(body, eight.sign(1, body)), b"no update"), "BadSignature first")
    judged("a_voucher_that_another_leaf_signed", hollow(signed(body, nine.sign(2, body)), b"no update"), "BadSignature first")
    judged("a_hollow_proof_that_is_cut", good[:-1], f"IllFormed {start + 4}")
    judged("a_hollow_proof_without_a_text", good[:start], f"IllFormed {start}")
    judged("a_hollow_proof_that_goes_on", good + b"\0", f"IllFormed {len(good)}")
    judged("a_hollow_proof_of_a_long_text", b"\x01\x04" + vouched + u(4, 65_537) + bytes(65_537), f"IllFormed {start}")
    judged("a_voucher_for_a_longest_text", hollow(vouched, bytes(65_536)), "NotContradictory NotUpdate")
    judged("a_voucher_of_another_version", hollow(vouched[:4] + b"\2" + vouched[5:], b""), "IllFormed 7")


if __name__ == "__main__":
    scans()
    scans_of_several_keys()
    words()
    keys()
    judgements()
    hollow_judgements()
