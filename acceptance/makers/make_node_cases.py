#!/usr/bin/env python3
"""Writes the cases of `depot node`: scripts, journals, hellos and bundles.

    python3 acceptance/makers/make_node_cases.py

As in make_cases.py, whose texts and signatures it takes, all is written from docs/FORMATS.md, apart from the program. `Node` is a node as
the documents define it, without any of the checks that these cases don't need; what a case prints is written out by hand.
"""

import os
import shutil

from make_cases import CASES, ZEROS, Signer, frame, history_of, proof, roster, sha, signed, u, update, update_of, voucher
from texts import body_in, parents, whole

JOURNAL = "depot.journal"
HEIGHT = 2
KINDS = ["SameNumber", "SamePrev"]


def seed(node):
    return bytes([node]) * 32


END, MORE = frame(4, b"\0"), frame(4, b"\1")


def journal(*records):
    """The file of these records: an open gate before each, and a closed one at the end."""
    return b"".join(b"\x01" + u(4, len(body)) + body for body in records) + b"\0"


def birth(node, listed):
    return b"\x01" + u(2, node) + sha(listed)


def half(statement, other):
    return sorted([statement, other], key=lambda x: x.body)


class Update:
    """An update and its values, in the order of the writes that have one."""

    def __init__(self, body, *values, signature=None):
        read = whole(body_in, body)
        self.body, self.values, self.id = body, list(values), read.id
        self.writer, self.clock, self.prev = read.writer, read.clock, read.prev
        self.names = [said[0] for _, said in read.writes if said is not None]
        self.parents = parents(read)
        self.text = None if signature is None else signed(body, signature)

    def leaf(self):
        return (self.writer, self.clock, self.id)

    def frames(self):
        return frame(2, self.text) + b"".join(frame(3, value) for value in dict.fromkeys(self.values))


class Node:
    def __init__(self, signer, listed):
        self.signer, self.me, self.listed = signer, signer.node, listed
        self.records = [birth(self.me, listed)]
        self.accepted, self.own, self.proofs, self.held, self.vouchers = [], 0, {}, [], []

    def past(self, ids):
        found = {}
        ids = list(ids)
        while ids:
            x = ids.pop()
            if x not in found:
                found[x] = next(t for t in self.accepted if t.id == x)
                ids += found[x].parents
        return found

    def leaves(self):
        prevs = {t.prev for t in self.accepted}
        return [t for t in self.accepted if t.id not in prevs]

    def put(self, key, value):
        return self.puts((key, value))

    def puts(self, *changes):
        """Puts these changes, (key, value) each; a key without a value is deleted."""
        mine = [t for t in self.accepted if t.writer == self.me]
        prev = mine[-1].id if mine else ZEROS
        known = self.past([prev] if mine else [])
        deps = sorted([t.leaf() for t in self.leaves() if t.writer != self.me and t.id not in known], key=lambda x: (x[0], x[2]))
        clock = 1 + max([t.clock for t in self.accepted], default=0)
        body = update_of(self.me, self.own, clock, prev, changes, deps, history_of([t.leaf() for t in self.leaves()]))
        values = [value for _, value in changes if value is not None]
        made = Update(body, *values, signature=self.signer.sign(self.own, body))
        self.records.append(b"\x02" + u(4, len(body)) + body + b"".join(values))
        self.accepted.append(made)
        self.own += 1
        self.hold(*values)
        return made

    def hold(self, *values):
        self.held += [value for value in dict.fromkeys(values) if value not in self.held]

    def take(self, *updates):
        """Takes each update, which must be new, and its values."""
        for came in updates:
            self.records.append(b"\x04" + came.text)
            self.accepted.append(came)
            new = [value for value in dict.fromkeys(came.values) if value not in self.held]
            self.records += [b"\x06" + value for value in new]
            self.hold(*new)

    def convict(self, kind, one, other):
        text = fork_proof(kind, one, other)
        self.records.append(b"\x05" + text)
        self.proofs[one.writer] = text

    def hello(self):
        leaves = sorted(u(2, t.writer) + t.id for t in self.leaves())
        values = {sha(value) for value in self.held}
        wanted = sorted({name for t in self.accepted for name in t.names} - values)
        return b"".join([
            b"\x01\x03", u(2, self.me), sha(self.listed),
            u(2, len(self.proofs)), *[u(2, n) for n in sorted(self.proofs)],
            u(2, len(leaves)), *leaves, u(2, len(wanted)), *wanted,
        ])

    def bundle(self, other):
        """The bundle for the hello of another node that wants no value."""
        known = self.past([t.id for t in other.leaves() if t.id in {x.id for x in self.accepted}])
        sent = [t for t in self.accepted if t.writer != other.me and t.id not in known]
        vouched = {x for ids, _ in self.vouchers for x in ids}
        new = [t.id for t in sent if t.writer != self.me and t.id not in vouched]
        if new:
            body = voucher(self.me, self.own, *new)
            self.records.append(b"\x03" + body)
            self.vouchers.append((new, signed(body, self.signer.sign(self.own, body))))
            self.own += 1
        frames = [frame(1, text) for node, text in self.proofs.items() if node not in other.proofs]
        frames += [frame(2, text) for ids, text in self.vouchers if {t.id for t in sent} & set(ids)]
        values = []
        for t in sent:
            behind = [value for value in dict.fromkeys(t.values) if value in self.held and value not in values]
            frames += [frame(2, t.text), *(frame(3, value) for value in behind)]
            values += behind
        return b"".join(frames) + END

    def file(self):
        return journal(*self.records)


def fork_proof(kind, one, other):
    first, second = half(one, other)
    return proof(1 + KINDS.index(kind), first.text, second.text)


# ---- cases


class Case:
    """A folder that is written command by command."""

    def __init__(self, name):
        self.folder = os.path.join(CASES, name)
        self.count, self.statuses, self.lines = 0, [], b""
        shutil.rmtree(self.folder, ignore_errors=True)

    def write(self, path, data):
        path = os.path.join(self.folder, path)
        os.makedirs(os.path.dirname(path), exist_ok=True)
        with open(path, "wb") as out:
            out.write(data)

    def data(self, **files):
        return self.lay("data", files)

    def after(self, **files):
        return self.lay("after", files)

    def lay(self, place, files):
        for name, data in files.items():
            self.write(os.path.join(place, name.replace("__", "/").replace("journal", JOURNAL)), data)
        return self

    def run(self, args, lines, status=0, at=None):
        """A command, run in the folder `at` if that is given, and what it prints."""
        self.count += 1
        end = "" if self.count == 1 else ".%d" % self.count
        self.write("args" + end, "".join(word + "\n" for word in args).encode())
        if at:
            self.write("at" + end, at.encode() + b"\n")
        self.statuses.append(status)
        self.lines += "".join(line + "\n" for line in lines).encode()
        self.write("stdout", self.lines)
        if any(self.statuses):
            self.write("status", "".join("%d\n" % s for s in self.statuses).encode())
        return self


def words(node, listed="ROSTER", script="SCRIPT", height=HEIGHT, key=None):
    return ["node", listed, seed(node if key is None else key).hex(), str(height), str(node), script]


def script(*lines):
    return "".join(line + "\n" for line in lines).encode()


ONE, TWO, THREE, NINE = (Signer(n, seed(n), HEIGHT) for n in (1, 2, 3, 9))
LISTED = roster(*(s.entry() for s in (ONE, TWO, THREE, NINE)))


def branch(seq, clock, value, prev=ZEROS, history=None, key=b"k"):
    body = update(9, seq, clock, prev, key, value, history=history)
    return Update(body, value, signature=NINE.sign(seq, body))


X, Y = branch(0, 1, b"x"), branch(1, 2, b"y")


def fresh(node=ONE):
    return Node(node, LISTED)


def first_runs():
    one, two = fresh(), fresh(TWO)
    one.put(b"k", b"a")
    hello, file = one.hello(), one.bundle(two)
    assert len(hello) == 76
    text = script("put 6b 61", "get 6b", "get 6c", "hello H", "bundle H E", "bundle TWO B", "take B", "take E")
    Case("node_puts_and_reads").data(ROSTER=LISTED, SCRIPT=text, TWO=two.hello()).after(H=hello, E=END, B=file, journal=one.file()).run(
        words(1), ["put 6b -> 0/1", "get 6b -> 1/0/1=61", "get 6c ->", "hello H -> convicted 0 leaves 1 wanted 0",
                   "bundle H E -> proofs 0 vouchers 0 updates 0 values 0 whole",
                   "bundle TWO B -> proofs 0 vouchers 0 updates 1 values 1 whole",
                   "take B -> accepted 0 known 2 refused 0 whole", "take E -> accepted 0 known 0 refused 0 whole"])
    Case("node_of_an_empty_script").data(ROSTER=LISTED, SCRIPT=b"").after(journal=fresh().file()).run(words(1), [])
    before = one.file()
    one.put(b"k", b"b")
    text = script("put 6b 62", "get 6b")
    told = ["put 6b -> 1/2", "get 6b -> 1/1/2=62"]
    Case("node_goes_on_from_its_journal").data(ROSTER=LISTED, SCRIPT=text, journal=before).after(journal=one.file()).run(words(1), told)
    Case("node_overwrites_what_follows_a_closed_gate").data(ROSTER=LISTED, SCRIPT=text, journal=before + b"rest").after(
        journal=one.file()).run(words(1), told)
    one.put(b"k", b"-"[:0])
    Case("node_runs_three_times").data(ROSTER=LISTED, FIRST=script("put 6b 61"), SECOND=text, THIRD=script("put 6b -", "get 6b")).after(
        journal=one.file()).run(words(1, script="FIRST"), ["put 6b -> 0/1"]).run(words(1, script="SECOND"), told).run(
        words(1, script="THIRD"), ["put 6b -> 2/3", "get 6b -> 1/2/3="])


def exchanges():
    one, two, three = fresh(), fresh(TWO), fresh(THREE)
    a = one.put(b"k", b"a")
    two_hello = two.hello()
    to_two = one.bundle(two)
    two.take(a)
    b = two.put(b"k", b"b")
    to_three = two.bundle(three)
    one_hello = one.hello()
    to_one = two.bundle(one)
    one.take(b)
    case = Case("node_exchanges_with_another").data(
        ROSTER=LISTED, from_three=three.hello(), one__put=script("put 6b 61", "hello ../from_one"), two__greet=script("hello ../from_two"),
        one__send=script("bundle ../from_two ../to_two"),
        two__take=script("get 6b", "take ../to_two", "get 6b", "put 6b 62", "bundle ../from_three ../to_three", "bundle ../from_one ../to_one"),
        one__take=script("take ../to_one", "get 6b", "take ../to_one"))
    case.after(from_one=one_hello, from_two=two_hello, to_two=to_two, to_three=to_three, to_one=to_one,
               one__journal=one.file(), two__journal=two.file())

    def run(node, at, name, *lines):
        case.run(words(node, "../ROSTER", name), lines, at=at)

    run(1, "one", "put", "put 6b -> 0/1", "hello ../from_one -> convicted 0 leaves 1 wanted 0")
    run(2, "two", "greet", "hello ../from_two -> convicted 0 leaves 0 wanted 0")
    run(1, "one", "send", "bundle ../from_two ../to_two -> proofs 0 vouchers 0 updates 1 values 1 whole")
    run(2, "two", "take", "get 6b ->", "take ../to_two -> accepted 2 known 0 refused 0 whole", "get 6b -> 1/0/1=61", "put 6b -> 0/2",
        "bundle ../from_three ../to_three -> proofs 0 vouchers 1 updates 2 values 2 whole",
        "bundle ../from_one ../to_one -> proofs 0 vouchers 0 updates 1 values 1 whole")
    run(1, "one", "take", "take ../to_one -> accepted 2 known 0 refused 0 whole", "get 6b -> 2/0/2=62",
        "take ../to_one -> accepted 0 known 2 refused 0 whole")

    # A writer signs two branches: the second is refused, the writer is convicted, and another node is told.
    one, two = fresh(), fresh(TWO)
    one.take(X)
    one.convict("SamePrev", X, Y)
    hello, file = one.hello(), one.bundle(two)
    two.proofs[9] = one.proofs[9]
    two.records.append(b"\x05" + one.proofs[9])
    # The voucher comes before the update that it names, which is taken though its writer is convicted.
    two.records.append(b"\x04" + one.vouchers[0][1])
    two.take(X)
    Case("node_convicts_a_fork").data(
        ROSTER=LISTED, BRANCHES=X.frames() + Y.frames() + END, TWO=fresh(TWO).hello(),
        one__SCRIPT=script("take ../BRANCHES", "get 6b", "hello ../H", "bundle ../TWO ../B"), two__SCRIPT=script("take ../B", "get 6b"),
    ).after(H=hello, B=file, one__journal=one.file(), two__journal=two.file()).run(
        words(1, "../ROSTER"), ["take ../BRANCHES -> accepted 2 known 0 refused 2 whole", " refused 2 11 Forked SamePrev", " refused 3 14 Unwanted",
                                "get 6b -> 9/0/1=78", "hello ../H -> convicted 1 leaves 1 wanted 0",
                                "bundle ../TWO ../B -> proofs 1 vouchers 1 updates 1 values 1 whole"], at="one").run(
        words(2, "../ROSTER"), ["take ../B -> accepted 4 known 0 refused 0 whole", "get 6b -> 9/0/1=78"], at="two")

    # Where the writer showed each of two nodes one branch, the voucher of the one lets the other take both, and it convicts.
    one, two = fresh(), fresh(TWO)
    one.take(X)
    two.take(Y)
    hello, file = two.hello(), one.bundle(two)
    two.records.append(b"\x04" + one.vouchers[0][1])
    two.convict("SamePrev", X, Y)
    two.take(X)
    Case("node_takes_both_branches").data(
        ROSTER=LISTED, Y=Y.frames() + END, B=file, PROOF=two.proofs[9], SCRIPT=script("take Y", "hello G", "take B", "get 6b", "hello H"),
    ).after(G=hello, H=two.hello(), journal=two.file()).run(
        words(2), ["take Y -> accepted 2 known 0 refused 0 whole", "hello G -> convicted 0 leaves 1 wanted 0",
                   "take B -> accepted 3 known 0 refused 0 whole", "get 6b -> 9/0/1=78 9/1/2=79", "hello H -> convicted 1 leaves 2 wanted 0"]).run(
        ["judge", "ROSTER", "PROOF"], ["9 SamePrev"])

    orphan = branch(1, 2, b"z", prev=X.id)
    bad = bytearray(X.text)
    bad[4 + 49] ^= 1
    stream = frame(2, orphan.text) + frame(2, bytes(bad)) + frame(3, b"z") + frame(1, b"") + X.frames()[:-3]
    one = fresh()
    one.records.append(b"\x04" + X.text)
    one.accepted.append(X)
    Case("node_refuses_frames").data(ROSTER=LISTED, S=stream, SCRIPT=script("take S", "get 6b", "hello H")).after(
        journal=one.file(), H=one.hello()).run(
        words(1), ["take S -> accepted 1 known 0 refused 4 cut 3", " refused 0 5 Missing", " refused 1 4 BadSignature 9", " refused 2 14 Unwanted",
                   " refused 3 1 IllFormed 0", "get 6b -> 9/0/1=?", "hello H -> convicted 0 leaves 1 wanted 1"])


def refused_starts():
    """Runs of a node that doesn't start: what it is over or with, the line, the status, the journal, the node, the roster, and whose key it has."""
    bad = bytearray(X.text)
    bad[4 + 49] ^= 1
    mine = birth(1, LISTED)
    yield "over_a_forged_record", "not lawful 1 4 BadSignature 9", 9, journal(mine, b"\x04" + bytes(bad)), 1, LISTED, 1
    yield "over_a_record_of_no_kind", "not lawful 1 Ill 0", 9, journal(mine, b"\x07"), 1, LISTED, 1
    yield "over_a_second_birth", "not lawful 1 Birth", 9, journal(mine, mine), 1, LISTED, 1
    yield "over_a_journal_without_birth", "not lawful 0 Birth", 9, journal(b"\x04" + X.text), 1, LISTED, 1
    yield "over_a_repeated_record", "not lawful 2 Idle", 9, journal(mine, b"\x04" + X.text, b"\x04" + X.text), 1, LISTED, 1
    yield "over_a_hidden_fork", "not lawful 2 11 Forked SamePrev", 9, journal(mine, b"\x04" + X.text, b"\x04" + Y.text), 1, LISTED, 1
    other = update(1, 0, 2, ZEROS, b"k", b"a")
    yield "over_a_put_that_is_not_next", "not lawful 1 NotNext", 9, journal(mine, b"\x02" + u(4, len(other)) + other + b"a"), 1, LISTED, 1
    whole = journal(mine)
    assert len(whole) == 41
    yield "over_an_open_gate", "damaged 40", 9, whole[:-1] + b"\x01", 1, LISTED, 1
    yield "over_a_cut_length", "damaged 0", 9, b"\x01\0", 1, LISTED, 1
    yield "over_a_cut_record", "damaged 40", 9, whole[:-1] + b"\x01" + u(4, 6) + b"\x06ab", 1, LISTED, 1
    yield "over_a_record_without_a_gate", "damaged 0", 9, whole[:-1], 1, LISTED, 1
    yield "with_another_key", "identity OtherKey", 10, None, 1, LISTED, 2
    yield "that_the_roster_lacks", "identity UnknownMe", 10, None, 4, LISTED, 4
    yield "over_a_journal_of_another", "identity OtherNode", 10, journal(birth(2, LISTED)), 1, LISTED, 1
    yield "over_a_journal_of_another_roster", "identity OtherRoster", 10, whole, 1, roster(ONE.entry(), TWO.entry()), 1


def starts():
    """Journals and rosters at which a node doesn't start; each journal stays as it was."""
    text = script("put 6b 61", "hello H")
    for name, line, status, file, node, listed, key in refused_starts():
        files = {} if file is None else {"journal": file}
        Case("node_" + name).data(ROSTER=listed, SCRIPT=text, **files).run(words(node, key=key), [line], status)
    one = fresh()
    one.put(b"k", b"a")
    for name, file in {"node_over_an_empty_journal": b"", "node_over_a_journal_of_one_byte": b"\x01", "node_over_a_closed_gate": b"\0"}.items():
        Case(name).data(ROSTER=LISTED, SCRIPT=text, journal=file).after(journal=one.file(), H=one.hello()).run(
            words(1), ["put 6b -> 0/1", "hello H -> convicted 0 leaves 1 wanted 0"])


def stops():
    """Commands at which a run ends; what was done before stays, and what stands behind isn't done."""
    one = fresh()
    for at in range(4):
        one.put(b"k", b"a")
    Case("node_spends_its_leaves").data(ROSTER=LISTED, SCRIPT=script(*["put 6b 61"] * 5, "get 6b", "hello H")).after(journal=one.file()).run(
        words(1), ["put 6b -> %d/%d" % (i, i + 1) for i in range(4)] + ["put 6b -> Spent 4"], 8)
    one = fresh()
    one.take(X)
    for at in range(4):
        one.put(b"l", b"a")
    two = fresh(TWO)
    Case("node_has_no_leaf_for_a_voucher").data(
        ROSTER=LISTED, S=X.frames() + END, TWO=two.hello(),
        SCRIPT=script("take S", *["put 6c 61"] * 4, "bundle TWO B", "get 6b")).after(journal=one.file()).run(
        words(1), ["take S -> accepted 2 known 0 refused 0 whole"] + ["put 6c -> %d/%d" % (i, i + 2) for i in range(4)] + ["bundle TWO B -> Spent 4"], 8)

    one = fresh()
    one.put(b"k", b"a")
    hello = fresh(TWO).hello()

    def stop(name, command, line, status, done=one, **files):
        Case(name).data(ROSTER=LISTED, SCRIPT=script("put 6b 61", command, "get 6b", "hello F"), **files).after(journal=done.file()).run(
            words(1), ["put 6b -> 0/1", line], status)

    stop("node_reads_an_ill_formed_hello", "bundle H F", "bundle H F -> IllFormed 0", 2, H=b"\x02" + hello[1:])
    stop("node_reads_an_empty_hello", "bundle H F", "bundle H F -> IllFormed 0", 2, H=b"")
    stop("node_reads_a_cut_hello", "bundle H F", "bundle H F -> IllFormed 40", 2, H=hello[:-1])
    stop("node_reads_a_hello_of_no_member", "bundle H F", "bundle H F -> IllFormed 2", 2, H=hello[:2] + u(2, 4) + hello[4:])
    stop("node_reads_a_hello_of_another_roster", "bundle H F", "bundle H F -> OtherRoster", 10, H=hello[:4] + ZEROS + hello[36:])
    stop("node_reads_an_absent_hello", "bundle H F", "shelf H", 3)
    stop("node_takes_an_absent_stream", "take S", "shelf S", 3)
    stop("node_takes_an_ill_formed_stream", "take S", "take S -> accepted 0 known 0 refused 0 ill-formed 0", 2, S=b"\x05")
    taken = fresh()
    taken.put(b"k", b"a")
    taken.take(X)
    stop("node_takes_a_front_of_a_stream", "take S", "take S -> accepted 2 known 0 refused 0 ill-formed %d" % len(X.frames()), 2, taken,
         S=X.frames() + b"\x02\0\x02\0\x01")
    stop("node_takes_frames_behind_the_end", "take S", "take S -> accepted 0 known 0 refused 0 ill-formed 6", 2, S=END + END)


def inputs():
    """Words, rosters and scripts that are none: no journal is made."""
    good = script("put 6b 61")

    def script_of(name, text, number, fault):
        Case("node_script_" + name).data(ROSTER=LISTED, SCRIPT=text).run(words(1), ["input SCRIPT line %d %s" % (number, fault)], 2)

    script_of("of_an_unknown_word", good + script("give 1 x"), 2, "Word")
    script_of("with_an_empty_line", good + b"\n" + good, 2, "Word")
    script_of("with_two_spaces", script("put  6b 61"), 1, "Word")
    script_of("with_too_few_words", good + script("put 6b"), 2, "Fields")
    script_of("with_too_many_words", script("get 6b 6c"), 1, "Fields")
    script_of("with_a_key_of_odd_length", script("get 6"), 1, "Hex")
    script_of("with_an_empty_key", good + script("get -"), 2, "Hex")
    script_of("with_a_long_key", script("get " + "61" * 256), 1, "Hex")
    script_of("with_a_value_in_capitals", script("put 6b 6B"), 1, "Hex")
    script_of("with_a_long_name", good + script("hello " + "n" * 4097), 2, "Label")
    script_of("with_a_name_that_is_no_text", b"take \xff\n", 1, "Label")
    script_of("without_an_end", good + b"get 6b", 2, "End")
    for name, args in {
        "words_node_zero": words(1)[:4] + ["0", "SCRIPT"],
        "words_node_too_great": words(1)[:4] + ["65536", "SCRIPT"],
        "words_node_height_above": words(1, height=18),
        "words_node_height_below": words(1, height=1),
        "words_node_without_a_script": words(1)[:5],
        "words_node_seed_too_short": ["node", "ROSTER", "01" * 31, "2", "1", "SCRIPT"],
    }.items():
        Case(name).data(ROSTER=LISTED, SCRIPT=good).run(args, ["words"], 1)
    Case("node_without_a_roster").data(SCRIPT=good).run(words(1), ["shelf ROSTER"], 3)
    Case("node_without_a_script").data(ROSTER=LISTED).run(words(1), ["shelf SCRIPT"], 3)
    Case("node_with_an_empty_roster").data(ROSTER=b"\x01\x04\0\0", SCRIPT=b"x").run(words(1), ["input ROSTER at 2"], 2)
    Case("node_with_a_roster_that_lists_twice").data(ROSTER=roster(ONE.entry(), ONE.entry()), SCRIPT=good).run(words(1), ["input ROSTER twice 1"], 2)


if __name__ == "__main__":
    first_runs()
    exchanges()
    starts()
    stops()
    inputs()
