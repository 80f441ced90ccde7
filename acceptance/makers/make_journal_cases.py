#!/usr/bin/env python3
"""Writes the cases of `depot node` over journals that no node writes, and over one with all kinds of records.

    python3 acceptance/makers/make_journal_cases.py

They are told as those of make_node_cases.py are.
"""

from make_cases import ZEROS, signed, u, update, voucher
from make_node_cases import LISTED, TWO, X, Y, Case, birth, fork_proof, fresh, journal, script, words

BIRTH = birth(1, LISTED)


def own_put(made, value=None):
    """The record of an own update, with this value in place of its own."""
    return b"\x02" + u(4, len(made.body)) + made.body + (b"".join(made.values) if value is None else value)


def own_voucher(node, seq, *ids):
    return b"\x03" + voucher(node, seq, *ids)


def foreign(text):
    return b"\x04" + text


def convict(text):
    return b"\x05" + text


def held(value):
    return b"\x06" + value


PUT = fresh().put(b"k", b"a")
VOUCHER_TEXT = signed(voucher(2, 0, Y.id), TWO.sign(0, voucher(2, 0, Y.id)))
VOUCHER = foreign(VOUCHER_TEXT)
PROOF = convict(fork_proof("SamePrev", X, Y))
NO_CLOCK = update(1, 0, 0, ZEROS, b"k", b"a")

# The records of a journal behind its birth, and the fault of the first that can't stand there. The birth is record 0.
UNLAWFUL = {
    "an_empty_record": ([b""], "1 Ill 0"),
    "a_put_without_a_clock": ([b"\x02" + u(4, len(NO_CLOCK)) + NO_CLOCK + b"a"], "1 Ill 13"),
    "a_put_of_another_value": ([own_put(PUT, b"b")], "1 NotNext"),
    "a_put_twice": ([own_put(PUT), own_put(PUT)], "2 NotNext"),
    "an_own_voucher_of_another_node": ([foreign(X.text), own_voucher(2, 0, X.id)], "2 OwnVoucher"),
    "an_own_voucher_of_another_number": ([foreign(X.text), own_voucher(1, 1, X.id)], "2 OwnVoucher"),
    "an_own_voucher_for_no_update": ([own_voucher(1, 0, X.id)], "1 OwnVoucher"),
    "an_update_that_it_never_wrote": ([foreign(PUT.text)], "1 3 NotMine"),
    "a_value_that_no_update_names": ([held(b"x")], "1 14 Unwanted"),
    "a_proof_of_no_contradiction": ([convict(fork_proof("SameNumber", X, Y))], "1 15 NotContradictory"),
    "a_vouched_branch_without_a_conviction": ([foreign(X.text), VOUCHER, foreign(Y.text)], "3 ProofDue"),
    "a_voucher_twice": ([VOUCHER, VOUCHER], "2 Idle"),
    "a_conviction_twice": ([PROOF, PROOF], "2 Idle"),
    "a_value_twice": ([foreign(X.text), held(b"x"), held(b"x")], "3 Idle"),
}


def longer(file, gate):
    """The length behind this gate is one more than the record's."""
    at = gate + 1
    return file[:at] + u(4, int.from_bytes(file[at:at + 4], "big") + 1) + file[at + 4:]


def main():
    text = script("put 6b 61", "hello H")

    def start(name, line, file):
        Case("node_over_" + name).data(ROSTER=LISTED, SCRIPT=text, journal=file).run(words(1), [line], 9)

    for name, (records, fault) in UNLAWFUL.items():
        start(name, "not lawful " + fault, journal(BIRTH, *records))
    whole = journal(BIRTH, own_put(PUT))
    start("a_long_first_record", "damaged 0", longer(journal(BIRTH), 0))
    start("a_first_record_that_is_no_text", "not lawful 0 Ill 1", journal(b"\x01"))
    start("a_long_last_record", "damaged 40", longer(whole, 40))

    # Behind a closed first gate nothing stands: the birth is written there, and a closed gate behind it.
    Case("node_over_a_closed_first_gate").data(ROSTER=LISTED, SCRIPT=b"", journal=b"\0" + whole[1:]).after(
        journal=whole[:40] + b"\0" + whole[41:]).run(words(1), [])

    one, two = fresh(), fresh(TWO)
    one.put(b"k", b"c")
    one.take(X)
    one.records.append(VOUCHER)
    one.convict("SamePrev", X, Y)
    one.records.append(foreign(Y.text))
    one.accepted.append(Y)
    one.bundle(two)
    file, hello = one.file(), one.hello()
    one.put(b"k", b"d")
    Case("node_goes_on_from_records_of_all_kinds").data(
        ROSTER=LISTED, SCRIPT=script("get 6b", "hello H", "put 6b 64", "get 6b"), journal=file).after(H=hello, journal=one.file()).run(
        words(1), ["get 6b -> 1/0/1=63 9/0/1=78 9/1/2=?", "hello H -> convicted 1 leaves 3 wanted 1", "put 6b -> 2/3", "get 6b -> 1/2/3=64"])


if __name__ == "__main__":
    main()
