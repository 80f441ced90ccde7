#!/usr/bin/env python3
"""Writes the cases of audits: traces that a script exports, the command `audit`, and the event.

    python3 acceptance/makers/make_audit_cases.py

They are told as those of make_node_cases.py and make_replays.py are. A trace is the texts of a node's records, and its reads: each with the
number of records then, the key, and the writes that it listed, each by its update's id and what was shown of it.
"""

from make_cases import ZEROS, Signer, frame, roster, sha, u, update
from make_node_cases import END, LISTED, NINE, ONE, TWO, X, Y, Case, Node, Update, fresh, journal, script, words
from texts import body_in, whole
from make_replays import REFUSED_ONE, REJOIN, TOOK_ONE, UNWANTED, members, play, raw, refuse, sign

HELD, LACKS, GONE = b"\1", b"\0", b"\2"


def latest(node, key):
    """The latest writes of a key, in the order in which they are listed."""
    writes = [t for t in node.accepted if any(k == key for k, _ in t.changes)]
    return sorted((t for t in writes if not any(t.id in node.past([o.id]) for o in writes if o is not t)),
                  key=lambda t: (t.clock, t.writer, whole(body_in, t.body).seq, t.id))


def shown(node, key, update):
    """What is shown of an update's write of a key: a mark, and behind 1 the value."""
    value = dict(update.changes)[key]
    if value is None:
        return GONE
    return HELD + u(4, len(value)) + value if value in node.held else LACKS


def read(node, key, *answer):
    """A read of a key now; or one that tells this answer, (id, mark and what it calls for) each."""
    answer = answer or [(t.id, shown(node, key, t)) for t in latest(node, key)]
    return u(4, len(node.records)) + u(1, len(key)) + key + u(2, len(answer)) + b"".join(id + told for id, told in answer)


NOTHING = [(b"", b"")]


def reads_nothing(node, key):
    return u(4, len(node.records)) + u(1, len(key)) + key + u(2, 0)


def trace(node, *reads, records=None):
    records = node.records if records is None else records
    texts = b"".join(u(4, len(text)) + text for text in records)
    return b"\x01\x05" + u(2, node.me) + u(4, len(records)) + texts + u(4, len(reads)) + b"".join(reads)


class Told(Node):
    """A node whose updates know what they changed."""

    def puts(self, *changes):
        made = super().puts(*changes)
        made.changes = list(changes)
        return made


X.changes, Y.changes = [(b"k", b"x")], [(b"k", b"y")]


def node(signer=ONE):
    return Told(signer, LISTED)


def audit(name, *traces, line="yes", status=0, **files):
    """An audit of these traces, under the names A, B and so on."""
    names = [chr(65 + at) for at in range(len(traces))]
    return Case("audit_" + name).data(ROSTER=LISTED, **dict(zip(names, traces)), **files).run(["audit", "ROSTER", *names], [line], status)


def exports():
    """A node hands out its trace, with the reads of this run so far; another run begins with none."""
    one = node()
    one.put(b"k", b"a")
    reads = [reads_nothing(one, b"l"), read(one, b"k")]
    first = trace(one, *reads)
    one.puts((b"k", None), (b"l", b"b"))
    reads += [read(one, b"k"), read(one, b"l")]
    second = trace(one, *reads)
    X_lacking = Update(X.body, b"x", signature=NINE.sign(0, X.body))
    X_lacking.changes = X.changes
    one.records.append(b"\x04" + X.text)
    one.accepted.append(X_lacking)
    third = trace(one, read(one, b"k"))
    Case("node_exports_its_trace").data(
        ROSTER=LISTED, FIRST=script("put 6b 61", "get 6c", "get 6b", "export E", "puts 6b!,6c=62", "get 6b", "get 6c", "export F"),
        SECOND=script("export G", "take S", "get 6b", "export H"), S=frame(2, X.text) + END,
    ).after(E=first, F=second, G=trace(one, records=one.records[:-1]), H=third, journal=one.file()).run(
        words(1, script="FIRST"), ["put 6b -> 0/1", "get 6c ->", "get 6b -> 1/0/1=61", "export E -> records 2 reads 2", "puts -> 1/2", "get 6b -> 1/1/2!",
                                   "get 6c -> 1/1/2=62", "export F -> records 3 reads 4"]).run(
        words(1, script="SECOND"), ["export G -> records 3 reads 0", "take S -> accepted 1 known 0 refused 0 whole", "get 6b -> 9/0/1=? 1/1/2!",
                                    "export H -> records 4 reads 1"]).run(
        ["audit", "ROSTER", "F"], ["yes"]).run(["audit", "ROSTER", "H"], ["yes"])
    Case("node_script_of_an_export_without_a_file").data(ROSTER=LISTED, SCRIPT=script("put 6b 61", "export")).run(words(1), ["input SCRIPT line 2 Fields"], 2)


def two_nodes():
    """Two nodes that took each other's updates, each with its reads."""
    one, two = node(), node(TWO)
    a = one.put(b"k", b"a")
    first = read(one, b"k")
    two.take(a)
    b = two.put(b"k", b"b")
    one.take(b)
    return one, two, [first, read(one, b"k")], [read(two, b"k")], a, b


def reads():
    one, two, of_one, of_two, a, b = two_nodes()
    audit("of_two_nodes", trace(two, *of_two), trace(one, *of_one))
    audit("of_a_node_without_reads", trace(one))
    # The node's own records don't bear these out.
    for name, told in [
        ("lost_a_write", reads_nothing(one, b"k")),
        ("shows_an_older_write", read(one, b"k", (a.id, shown(one, b"k", a)))),
        ("shows_a_write_too_many", read(one, b"k", (a.id, shown(one, b"k", a)), (b.id, shown(one, b"k", b)))),
        ("shows_another_value", read(one, b"k", (b.id, HELD + u(4, 1) + b"c"))),
        ("lacks_a_value_that_is_held", read(one, b"k", (b.id, LACKS))),
        ("shows_a_deletion", read(one, b"k", (b.id, GONE))),
        ("of_more_records_than_there_are", u(4, 9) + read(one, b"k")[4:]),
        ("of_no_records", u(4, 0) + reads_nothing(one, b"k")[4:]),
    ]:
        audit("a_read_" + name, trace(one, of_one[0], told), trace(two, *of_two), line="no answer 1 1", status=11)
    audit("a_read_that_goes_back", trace(one, of_one[1], of_one[0]), line="no answer 1 1", status=11)
    audit("two_bad_reads", trace(two, read(two, b"k", (b.id, LACKS))), trace(one, reads_nothing(one, b"k")), line="no answer 1 0", status=11)


def records():
    one, two, of_one, of_two, a, b = two_nodes()
    cut = one.records[:2] + one.records[3:]
    audit("a_record_is_missing", trace(one, records=cut), line="no record 1 2 14 Unwanted", status=11)
    audit("no_birth", trace(one, records=one.records[1:]), line="no record 1 0 Birth", status=11)
    audit("a_birth_of_another_node", trace(one, records=two.records), line="no record 1 0 Birth", status=11)
    flipped = bytearray(one.records[2])
    flipped[-1] ^= 1
    audit("a_forged_record", trace(one, records=one.records[:2] + [bytes(flipped)] + one.records[3:]), line="no record 1 2 4 BadSignature 2", status=11)
    # The node whose start is refused as `node_over_a_forged_record` says.
    bad = bytearray(X.text)
    bad[4 + 49] ^= 1
    audit("a_forged_key", trace(one, records=one.records[:1] + [b"\x04" + bytes(bad)]), line="no record 1 1 4 BadSignature 9", status=11)
    audit("a_record_comes_twice", trace(one, records=one.records + one.records[-1:]), line="no record 1 4 Idle", status=11)
    # The records of all nodes are looked at before any reads.
    audit("records_before_reads", trace(one, reads_nothing(one, b"k")), trace(two, records=two.records[:1] + two.records[2:]),
          line="no record 2 1 14 Unwanted", status=11)


def forks():
    """A member lost its disk and signed a number again; another member, who took both branches, convicts it."""
    lost, again, one = node(NINE), node(NINE), node()
    x, y = lost.put(b"k", b"x"), again.put(b"k", b"y")
    one.take(x)
    one.convict("SameNumber", x, y)
    audit("a_convicted_node", trace(one, read(one, b"k")), trace(lost), line="no named 1 3", status=11)
    audit("a_conviction_of_no_node_handed_in", trace(one, read(one, b"k")))
    # A wrong read is told first: it lists what its writer never put.
    audit("a_wrong_read_before_a_conviction", trace(one, read(one, b"k")), trace(again), line="no fjc 4 r1.0", status=11)
    # A read that lists a write which its writer never put, by the writer's own records.
    two = node()
    two.take(x)
    audit("a_read_of_what_its_writer_never_put", trace(two, read(two, b"k")), trace(again), line="no fjc 4 r1.0", status=11)
    audit("a_read_of_what_its_writer_put", trace(two, read(two, b"k")), trace(lost))


def files():
    one, two, of_one, of_two, a, b = two_nodes()
    good = trace(one, *of_one)
    long = good[:-1]
    stranger = trace(one)[:2] + u(2, 4) + trace(one)[4:]
    for name, args, data, line, status in [
        ("an_absent_file", ["A"], {}, "shelf A", 3),
        ("an_absent_second_file", ["A", "B"], {"A": good}, "shelf B", 3),
        ("a_cut_file", ["A"], {"A": long}, "input A at %d" % (len(good) - 1), 2),
        ("a_file_that_goes_on", ["A"], {"A": good + b"\0"}, "input A at %d" % len(good), 2),
        ("an_empty_file", ["A"], {"A": b""}, "input A at 0", 2),
        ("another_kind_of_file", ["A"], {"A": LISTED}, "input A at 1", 2),
        ("one_node_twice", ["A", "B"], {"A": good, "B": trace(one)}, "input B twice 1", 2),
        ("a_node_that_the_roster_lacks", ["A"], {"A": stranger}, "input A at 2", 2),
        ("a_key_of_no_bytes", ["A"], {"A": trace(one, reads_nothing(one, b""))}, "input A at %d" % (len(trace(one)) + 4), 2),
        ("an_unknown_mark", ["A"], {"A": trace(one, read(one, b"k", (a.id, b"\3")))}, "input A at %d" % (len(trace(one)) + 4 + 2 + 2 + 32), 2),
    ]:
        Case("audit_" + name).data(ROSTER=LISTED, **data).run(["audit", "ROSTER", *args], [line], status)
    Case("audit_without_a_roster").data(A=good).run(["audit", "ROSTER", "A"], ["shelf ROSTER"], 3)
    Case("words_audit_of_no_trace").run(["audit", "ROSTER"], ["words"], 1)
    Case("words_audit_of_too_many_traces").run(["audit", "ROSTER"] + ["A"] * 33, ["words"], 1)
    Case("words_audit_with_a_space").run(["audit", "ROSTER", "A B"], ["words"], 1)


def many():
    """As many traces as an audit may have: of each member of a roster of 32."""
    signers = [Signer(number, bytes([number]) * 32, 2) for number in range(1, 33)]
    listed = roster(*(signer.entry() for signer in signers))
    nodes = [Told(signer, listed) for signer in signers]
    nodes[31].take(nodes[0].put(b"k", b"a"))
    reads = [[] for _ in nodes]
    reads[31] = [read(nodes[31], b"k")]
    names = [f"T{number}" for number in range(1, 33)]
    for name, last, line, status in [("as_many_traces_as_may_be", reads[31][0], "yes", 0), ("the_last_of_as_many_traces", reads_nothing(nodes[31], b"k"), "no answer 32 0", 11)]:
        traces = [trace(some, *told) for some, told in zip(nodes, reads[:31] + [[last]])]
        Case("audit_" + name).data(ROSTER=listed, **dict(zip(names, traces))).run(["audit", "ROSTER", *names], [line], status)


def replays():
    play("an_audit_of_a_fork_that_rejoined", members("node 1", "node 2", "faulty 9"), REJOIN + [("audit", "yes")])
    play("audits_between_events", members("node 3", "node 1"), [
        ("audit", "yes"), ("get 1 6b", ""), ("put 3 6b 61", "0/1"), ("get 3 6b", "3/0/1=61"), ("audit", "yes"), ("stop 3 1 1", "armed"), ("audit", "yes"),
        ("put 3 6b 62", "stopped records 2"), ("get 3 6b", "3/0/1=61"), ("restart 3", "records 2"), ("get 3 6b", "3/0/1=61"), ("audit", "yes")])
    # The plain scheme signs nothing: anybody makes a statement of node 1, with its root.
    forged = raw("z", frame(2, sign(1, 0, update(1, 0, 1, ZEROS, b"k", b"z"))))
    play("an_audit_of_what_a_node_never_put", members("node 3", "node 2", "node 1"), [
        forged, ("get 2 6b", ""), ("give 2 z", TOOK_ONE), ("get 2 6b", "1/0/1=?"), ("audit", "no fjc 4 r2.1"), ("give 3 z", TOOK_ONE), ("get 3 6b", "1/0/1=?"),
        ("audit", "no fjc 4 r2.1"), ("restart 2", "records 2"), ("audit", "no fjc 4 r2.1")])
    play("an_audit_of_a_conviction_that_names_a_node", members("node 3", "node 1", "node 2"), [
        ("put 1 6b 61", "0/1"), ("hello 2 a", "convicted 0 leaves 0 wanted 0"), ("bundle 1 a b", "proofs 0 vouchers 0 updates 1 values 1 whole"),
        ("give 2 b", "accepted 2 known 0 refused 0 whole"), ("audit", "yes"), forged, ("give 2 z", REFUSED_ONE, "refused 0 11 Forked SameNumber"),
        ("audit", "no named 2 3"), ("give 3 z", TOOK_ONE), ("give 3 b", "accepted 0 known 0 refused 2 whole", "refused 0 11 Forked SameNumber", UNWANTED),
        ("get 3 6b", "1/0/1=?"), ("audit", "no fjc 4 r3.0")])
    refuse("an_audit_of_a_node", ["depot schedule 1", "scheme plain 4", "node 1", "audit 1"], 4, "Fields")


def main():
    exports()
    reads()
    records()
    forks()
    files()
    many()
    replays()


if __name__ == "__main__":
    main()
