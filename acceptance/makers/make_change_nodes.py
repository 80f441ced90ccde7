#!/usr/bin/env python3
"""Writes the cases of `depot node` over updates of several keys and deletions, and over proofs that a voucher names what is no update.

    python3 acceptance/makers/make_change_nodes.py

They are told as those of make_node_cases.py and make_journal_cases.py are.
"""

from make_cases import ZEROS, body_of, frame, history_of, hollow, named, roster, several, sha, signed, u, update, update_of, voucher
from make_change_replays import PARTS
from make_journal_cases import convict, foreign, held, own_put
from make_node_cases import END, LISTED, NINE, ONE, THREE, TWO, Case, Update, birth, fresh, journal, script, words

BIRTH = birth(1, LISTED)


def of_nine(seq, clock, *changes, prev=ZEROS, history=None):
    body = update_of(9, seq, clock, prev, changes, history=history)
    return Update(body, *[value for _, value in changes if value is not None], signature=NINE.sign(seq, body))


def puts():
    one, two = fresh(), fresh(TWO)
    one.puts((b"k", b"a"), (b"l", None), (b"m", b""))
    one.puts((b"k", None))
    hello, file = one.hello(), one.bundle(two)
    text = script("puts 6b=61,6c!,6d=-", "get 6b", "get 6c", "get 6d", "get 6e", "puts 6b!", "get 6b", "hello H", "bundle TWO B", "take B")
    told = ["puts -> 0/1", "get 6b -> 1/0/1=61", "get 6c -> 1/0/1!", "get 6d -> 1/0/1=", "get 6e ->", "puts -> 1/2", "get 6b -> 1/1/2!",
            "hello H -> convicted 0 leaves 1 wanted 0", "bundle TWO B -> proofs 0 vouchers 0 updates 2 values 2 whole", "take B -> accepted 0 known 4 refused 0 whole"]
    Case("node_puts_several_keys").data(ROSTER=LISTED, SCRIPT=text, TWO=two.hello()).after(H=hello, B=file, journal=one.file()).run(words(1), told)

    # It goes on from there: what was deleted stays so, and a key that gets a value again has the old text.
    before = one.file()
    one.put(b"k", b"b")
    one.puts((b"k", b"b"), (b"l", b"b"))
    Case("node_goes_on_from_several_keys").data(
        ROSTER=LISTED, journal=before, SCRIPT=script("get 6b", "get 6c", "puts 6b=62", "get 6b", "puts 6b=62,6c=62", "get 6c", "puts 6b!", "get 6b")
    ).after(journal=one.file()).run(
        words(1), ["get 6b -> 1/1/2!", "get 6c -> 1/0/1!", "puts -> 2/3", "get 6b -> 1/2/3=62", "puts -> 3/4", "get 6c -> 1/3/4=62", "puts -> Spent 4"], 8)


def exchanges():
    """A writer's updates of several keys are taken, with one value under two keys; what is missing is wanted."""
    x = of_nine(0, 1, (b"k", b"x"), (b"l", None), (b"m", b"x"))
    y = of_nine(1, 2, (b"k", None), (b"l", b"y"), prev=x.id, history=history_of([x.leaf()]))
    one, two, three = fresh(), fresh(TWO), fresh(THREE)
    one.take(x)
    one.records.append(foreign(y.text))
    one.accepted.append(y)
    before = one.hello()
    stream = one.bundle(two)
    one.records.append(held(b"y"))
    one.hold(b"y")
    after, whole = one.hello(), one.bundle(three)
    Case("node_takes_several_keys").data(
        ROSTER=LISTED, X=x.frames() + frame(2, y.text) + END, V=frame(3, b"y") + frame(3, b"x"), TWO=two.hello(), THREE=three.hello(),
        SCRIPT=script("take X", "get 6b", "get 6c", "get 6d", "hello H", "bundle TWO B", "take V", "get 6c", "hello G", "bundle THREE C"),
    ).after(H=before, B=stream, G=after, C=whole, journal=one.file()).run(
        words(1), ["take X -> accepted 3 known 0 refused 0 whole", "get 6b -> 9/1/2!", "get 6c -> 9/1/2=?", "get 6d -> 9/0/1=78",
                   "hello H -> convicted 0 leaves 1 wanted 1", "bundle TWO B -> proofs 0 vouchers 1 updates 2 values 1 whole",
                   "take V -> accepted 1 known 1 refused 0 bare", "get 6c -> 9/1/2=79", "hello G -> convicted 0 leaves 1 wanted 0",
                   "bundle THREE C -> proofs 0 vouchers 1 updates 2 values 2 whole"])


def put_of(*changes, values=None):
    """The record of a first put, with these values in place of its own."""
    made = fresh().puts(*changes)
    return own_put(made, None if values is None else b"".join(values))


TWO_VALUES = ((b"k", b"ab"), (b"l", b"c"))
GONE = fresh().puts((b"k", None))
TEXT = fresh().puts(*TWO_VALUES)
LENGTH = 5 + len(TEXT.body)


def wrong(version, writes):
    """The record of an own update whose writes are these bytes, with the values `ab` and `c`."""
    body = body_of(version, 1, 0, 1, ZEROS, writes)
    return b"\x02" + u(4, len(body)) + body + b"abc"


AB, C = named(b"ab"), named(b"c")
HOLLOW_BODY = voucher(9, 0, sha(b"text"), sha(update(9, 0, 1, ZEROS, b"k", b"x")))
VOUCHED = signed(HOLLOW_BODY, NINE.sign(0, HOLLOW_BODY))
HOLLOW = hollow(VOUCHED, b"text")
MINE_BODY = voucher(1, 0, sha(b"text"))
MINE = hollow(signed(MINE_BODY, ONE.sign(0, MINE_BODY)), b"text")

# The records of a journal behind its birth, and the fault of the first that can't stand there.
UNLAWFUL = {
    "a_put_of_swapped_values": ([put_of((b"k", b"a"), (b"l", b"b"), values=[b"b", b"a"])], "1 NotNext"),
    "a_put_of_swapped_values_of_two_lengths": ([put_of(*TWO_VALUES, values=[b"c", b"ab"])], "1 NotNext"),
    "a_put_of_several_of_another_value": ([put_of(*TWO_VALUES, values=[b"ab", b"d"])], "1 NotNext"),
    "a_put_of_a_cut_value": ([put_of(*TWO_VALUES)[:-2]], f"1 Ill {LENGTH}"),
    "a_put_of_a_cut_last_value": ([put_of(*TWO_VALUES)[:-1]], f"1 Ill {LENGTH + 2}"),
    "a_put_of_no_values": ([put_of(*TWO_VALUES, values=[])], f"1 Ill {LENGTH}"),
    "a_put_of_a_value_too_many": ([put_of(*TWO_VALUES) + b"d"], f"1 Ill {LENGTH + 3}"),
    "a_deletion_with_a_value": ([own_put(GONE, b"a")], f"1 Ill {5 + 86}"),
    "a_deletion_that_is_not_next": ([own_put(GONE), own_put(GONE, b"")], "2 NotNext"),
    "a_put_of_keys_that_fall": ([wrong(2, several((b"l", AB), (b"k", C)))], f"1 Ill {5 + 49 + 39}"),
    "a_put_of_one_value_in_the_other_text": ([wrong(2, several((b"k", AB)))], f"1 Ill {5 + 51}"),
    "a_put_of_no_key": ([wrong(2, several())], f"1 Ill {5 + 48}"),
    "a_put_of_another_version": ([wrong(3, several((b"k", AB), (b"l", C)))], "1 Ill 5"),
    "an_own_voucher_of_another_version": ([b"\x03\x02" + voucher(1, 0, ZEROS)[1:]], "1 Ill 1"),
    "a_hollow_proof_of_an_update": ([convict(hollow(VOUCHED, update(9, 0, 1, ZEROS, b"k", b"x")))], "1 15 NotContradictory"),
    "a_hollow_proof_of_another_text": ([convict(hollow(VOUCHED, b"texts"))], "1 15 NotContradictory"),
    "a_hollow_proof_that_is_forged": ([convict(hollow(signed(HOLLOW_BODY, NINE.sign(1, HOLLOW_BODY)), b"text"))], "1 4 BadSignature 9"),
    "a_hollow_proof_against_itself": ([convict(MINE)], "1 16 AgainstMe"),
    "a_hollow_proof_twice": ([convict(HOLLOW), convict(HOLLOW)], "2 Idle"),
    "a_hollow_proof_that_is_cut": ([convict(HOLLOW[:-1])], f"1 Ill {1 + 2 + len(VOUCHED) + 4}"),
    "an_update_behind_a_hollow_proof": ([convict(HOLLOW), foreign(of_nine(1, 1, (b"k", None)).text)], "2 12 Convicted 9"),
}


def starts():
    for name, (records, fault) in UNLAWFUL.items():
        Case("node_over_" + name).data(ROSTER=LISTED, SCRIPT=script("put 6b 61", "hello H"), journal=journal(BIRTH, *records)).run(
            words(1), ["not lawful " + fault], 9)


def hollow_vouchers():
    """A stream's hollow proof convicts, is kept, and is sent on; another proof against the node is known then."""
    one, two = fresh(), fresh(TWO)
    x = of_nine(1, 1, (b"k", b"x"))
    one.take(x)
    one.records.append(convict(HOLLOW))
    one.proofs[9] = HOLLOW
    hello, file = one.hello(), one.bundle(two)
    fork = hollow(VOUCHED, b"other")
    Case("node_convicts_by_a_hollow_voucher").data(
        ROSTER=LISTED, X=x.frames(), P=frame(1, fork) + frame(1, MINE) + frame(1, HOLLOW) + frame(1, HOLLOW) + frame(2, VOUCHED), TWO=two.hello(), PROOF=HOLLOW,
        SCRIPT=script("take X", "take P", "hello H", "bundle TWO B")).after(H=hello, B=file, journal=one.file()).run(
        words(1), ["take X -> accepted 2 known 0 refused 0 bare", "take P -> accepted 1 known 1 refused 3 bare", " refused 0 15 NotContradictory",
                   " refused 1 16 AgainstMe", " refused 4 13 VoucherConvicted 9", "hello H -> convicted 1 leaves 1 wanted 0",
                   "bundle TWO B -> proofs 1 vouchers 1 updates 1 values 1 whole"]).run(["judge", "ROSTER", "PROOF"], ["9 NotUpdate"])
    Case("node_goes_on_from_a_hollow_proof").data(
        ROSTER=LISTED, X=x.frames() + frame(1, HOLLOW), journal=journal(BIRTH, convict(HOLLOW)), SCRIPT=script("take X", "hello H")).after(
        journal=journal(BIRTH, convict(HOLLOW)), H=b"\1\3" + u(2, 1) + sha(LISTED) + u(2, 1) + u(2, 9) + u(2, 0) + u(2, 0)).run(
        words(1), ["take X -> accepted 0 known 1 refused 2 bare", " refused 0 12 Convicted 9", " refused 1 14 Unwanted", "hello H -> convicted 1 leaves 0 wanted 0"])


# Lines of a script, and the fault of each.
LINES = [(f"puts {part}", "Hex") for part in PARTS.values()] + [
    ("puts", "Fields"),
    ("puts 6b=61 6c=62", "Fields"),
    ("put 6b! 61", "Hex"),
    ("get 6b!", "Hex"),
]


def scripts():
    case = Case("node_script_with_faults_of_writes").data(
        ROSTER=LISTED, **{f"SCRIPT{at}": script("get 6b", line) for at, (line, _) in enumerate(LINES)})
    for at, (_, fault) in enumerate(LINES):
        case.run(words(1, script=f"SCRIPT{at}"), [f"input SCRIPT{at} line 2 {fault}"], 2)


if __name__ == "__main__":
    puts()
    exchanges()
    starts()
    hollow_vouchers()
    scripts()
