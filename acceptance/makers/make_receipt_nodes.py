#!/usr/bin/env python3
"""Writes the cases of `depot node` over receipts, and over puts that are settled.

    python3 acceptance/makers/make_receipt_nodes.py

They are told as those of make_node_cases.py are. A receipt for an update is an own update whose key is `receipt:` and the id, with no bytes as
its value.
"""

from make_cases import frame
from make_node_cases import END, LISTED, TWO, X, Case, fresh, script, words

RECEIPT = b"receipt:"


def of(id):
    """The change that gives a receipt for an id."""
    return RECEIPT + id, b""


def settled():
    """A put is settled at two of three nodes; the node that is opened anew reads it from its journal."""
    one, two = fresh(), fresh(TWO)
    a = one.put(b"k", b"a")
    id = a.id.hex()
    to_two = one.bundle(two)
    two.take(a)
    b = two.puts(of(a.id))
    one_hello = one.hello()
    to_one = two.bundle(one)
    one.take(b)
    one.puts(of(a.id))
    case = Case("node_settles_a_put_at_two_nodes").data(
        ROSTER=LISTED, from_two=fresh(TWO).hello(),
        one__put=script("put 6b 61", f"settled {id} 1", "hello ../from_one", "bundle ../from_two ../to_two"),
        two__take=script(f"receipt {id}", "take ../to_two", f"receipt {id}", f"settled {id} 1", f"settled {id} 2", "bundle ../from_one ../to_one"),
        one__take=script("take ../to_one", f"settled {id} 1", f"settled {id} 2", f"receipt {id}", f"settled {id} 2", f"settled {id} 3"),
        one__look=script(f"settled {id} 2", f"settled {id} 3", f"settled {id} 256", f"settled {b.id.hex()} 1", f"get {of(a.id)[0].hex()}"))
    case.after(from_one=one_hello, to_two=to_two, to_one=to_one, one__journal=one.file(), two__journal=two.file())

    def run(node, at, name, *lines):
        case.run(words(node, "../ROSTER", name), lines, at=at)

    run(1, "one", "put", "put 6b -> 0/1", f"settled {id} 1 -> no", "hello ../from_one -> convicted 0 leaves 1 wanted 0",
        "bundle ../from_two ../to_two -> proofs 0 vouchers 0 updates 1 values 1 whole")
    run(2, "two", "take", f"receipt {id} -> Unknown", "take ../to_two -> accepted 2 known 0 refused 0 whole", f"receipt {id} -> 0/2",
        f"settled {id} 1 -> yes", f"settled {id} 2 -> no", "bundle ../from_one ../to_one -> proofs 0 vouchers 0 updates 1 values 1 whole")
    run(1, "one", "take", "take ../to_one -> accepted 2 known 0 refused 0 whole", f"settled {id} 1 -> yes", f"settled {id} 2 -> no", f"receipt {id} -> 1/3",
        f"settled {id} 2 -> yes", f"settled {id} 3 -> no")
    run(1, "one", "look", f"settled {id} 2 -> yes", f"settled {id} 3 -> no", f"settled {id} 256 -> no", f"settled {b.id.hex()} 1 -> no",
        f"get {of(a.id)[0].hex()} -> 1/1/3=")


def not_given():
    """No receipt is given for what isn't accepted, or not held whole; neither ends the run."""
    one = fresh()
    one.records.append(b"\x04" + X.text)
    one.accepted.append(X)
    one.records.append(b"\x06x")
    one.hold(b"x")
    one.puts(of(X.id))
    id = X.id.hex()
    Case("node_gives_no_receipt_without_the_value").data(
        ROSTER=LISTED, S=frame(2, X.text) + END, V=frame(3, b"x") + END,
        SCRIPT=script(f"receipt {id}", "take S", f"receipt {id}", "take V", f"receipt {id}", f"settled {id} 1")).after(journal=one.file()).run(
        words(1), [f"receipt {id} -> Unknown", "take S -> accepted 1 known 0 refused 0 whole", f"receipt {id} -> NoValue",
                   "take V -> accepted 1 known 0 refused 0 whole", f"receipt {id} -> 0/2", f"settled {id} 1 -> yes"])

    # A receipt takes a leaf, as each update does; its limit ends the run.
    one = fresh()
    id = one.put(b"k", b"a").id
    for at in range(3):
        one.puts(of(id))
    Case("node_spends_its_leaves_on_receipts").data(
        ROSTER=LISTED, SCRIPT=script("put 6b 61", *[f"receipt {id.hex()}"] * 4, f"settled {id.hex()} 1")).after(journal=one.file()).run(
        words(1), ["put 6b -> 0/1"] + [f"receipt {id.hex()} -> %d/%d" % (i, i + 1) for i in range(1, 4)] + [f"receipt {id.hex()} -> Spent 4"], 8)


def keys():
    """Only `receipt` writes the key of a receipt; keys that are like one are free."""
    one = fresh()
    short, long, other = RECEIPT + bytes(31), RECEIPT + bytes(33), b"receipt;" + bytes(32)
    for key in (short, long, other):
        one.put(key, b"a")
    Case("node_puts_keys_that_are_like_a_receipt").data(ROSTER=LISTED, SCRIPT=script(*(f"put {key.hex()} 61" for key in (short, long, other)))).after(
        journal=one.file()).run(words(1), [f"put {key.hex()} -> {at}/{at + 1}" for at, key in enumerate((short, long, other))])
    taken, id = (RECEIPT + bytes(32)).hex(), "00" * 32
    good = "put 6b 61"
    for name, lines, fault in [
        ("that_puts_a_receipt", [good, f"put {taken} -"], "Hex"),
        ("that_puts_a_receipt_among_others", [good, f"puts 6b=61,{taken}=-"], "Hex"),
        ("that_deletes_a_receipt", [good, f"puts 6b=61,{taken}!"], "Hex"),
        ("of_a_short_id", [good, f"receipt {id[2:]}"], "Hex"),
        ("of_two_ids", [good, f"receipt {id} {id}"], "Fields"),
        ("settled_by_none", [good, f"settled {id} 0"], "Number"),
        ("settled_by_too_many", [good, f"settled {id} 257"], "Number"),
        ("settled_by_no_number", [good, f"settled {id} two"], "Number"),
    ]:
        Case("node_script_" + name).data(ROSTER=LISTED, SCRIPT=script(*lines)).run(words(1), ["input SCRIPT line 2 %s" % fault], 2)


if __name__ == "__main__":
    settled()
    not_given()
    keys()
