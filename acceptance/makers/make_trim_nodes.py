#!/usr/bin/env python3
"""Writes the cases of `depot node` over checkpoints, and over the readers that are made where every node of the roster has signed one.

    python3 acceptance/makers/make_trim_nodes.py

They are told as those of make_node_cases.py are.
"""

from make_audit_cases import read, trace
from make_cases import ZEROS, checkpoint, checkpoint_key, frame, history_of, roster, sha, signed, update, voucher
from make_node_cases import END, MORE, NINE, ONE, TWO, Case, Node, Update, script, words

SOLO, PAIR, DUO = roster(ONE.entry()), roster(ONE.entry(), TWO.entry()), roster(ONE.entry(), NINE.entry())


class Trimmed(Node):
    """A node whose updates know what they changed, and that makes checkpoints and signs them."""

    def puts(self, *changes):
        made = super().puts(*changes)
        made.changes = list(changes)
        return made

    def checkpoint(self):
        """The text over all leaves, which is signed."""
        text = checkpoint(sha(self.listed), *sorted((t.writer, t.id) for t in self.leaves()))
        self.sign(text)
        return text

    def sign(self, text):
        return self.puts((checkpoint_key(text), text))


def two_nodes():
    """Both sign, and one of them makes a reader, which is gone when its run is over; another run makes it again."""
    one, two = Trimmed(ONE, PAIR), Trimmed(TWO, PAIR)
    first_hello = two.hello()
    a, b = one.put(b"k", b"a"), one.put(b"k", b"b")
    text = one.checkpoint()
    to_two = one.bundle(two)
    two.take(a, b, one.accepted[-1])
    two.sign(text)
    second_hello = two.hello()
    c = one.put(b"k", b"c")
    more = one.bundle(two)
    two.take(c)
    case = Case("node_makes_a_reader").data(
        ROSTER=PAIR, hello=first_hello,
        one__first=script("put 6b 61", "put 6b 62", "checkpoint ../CHECKPOINT", "trim ../CHECKPOINT", "bundle ../hello ../to_two"),
        two__first=script("tget 6b", "tgive ../nowhere", "trim ../CHECKPOINT", "take ../to_two", "trim ../CHECKPOINT", "tget 6b", "tgive ../nowhere",
                          "sign ../CHECKPOINT", "tget 6b", "trim ../CHECKPOINT", "tget 6b", "tget 6c", "hello ../again"),
        one__second=script("put 6b 63", "bundle ../again ../more"),
        two__second=script("tget 6b", "tgive ../more", "trim ../CHECKPOINT", "tgive ../more", "tget 6b", "get 6b", "tgive ../more", "tgive ../to_two",
                           "take ../more", "get 6b", "trim ../CHECKPOINT", "tget 6b", "tgive ../more"))
    case.after(CHECKPOINT=text, to_two=to_two, again=second_hello, more=more, one__journal=one.file(), two__journal=two.file())

    def run(node, at, name, *lines):
        case.run(words(node, "../ROSTER", name), lines, at=at)

    run(1, "one", "first", "put 6b -> 0/1", "put 6b -> 1/2", "checkpoint ../CHECKPOINT -> 2/3", "trim ../CHECKPOINT -> Unsigned 2",
        "bundle ../hello ../to_two -> proofs 0 vouchers 0 updates 3 values 3 whole")
    run(2, "two", "first", "tget 6b ->", "tgive ../nowhere ->", "trim ../CHECKPOINT -> Unknown", "take ../to_two -> accepted 6 known 0 refused 0 whole",
        "trim ../CHECKPOINT -> Unsigned 2", "tget 6b ->", "tgive ../nowhere ->", "sign ../CHECKPOINT -> 0/4", "tget 6b ->",
        "trim ../CHECKPOINT -> kept 3 of 4", "tget 6b -> 1/1/2=62", "tget 6c ->", "hello ../again -> convicted 0 leaves 2 wanted 0")
    run(1, "one", "second", "put 6b -> 3/4", "bundle ../again ../more -> proofs 0 vouchers 0 updates 1 values 1 whole")
    run(2, "two", "second", "tget 6b ->", "tgive ../more ->", "trim ../CHECKPOINT -> kept 3 of 4", "tgive ../more -> accepted 2 known 0 refused 0 below 0",
        "tget 6b -> 1/3/4=63", "get 6b -> 1/1/2=62", "tgive ../more -> accepted 0 known 2 refused 0 below 0",
        "tgive ../to_two -> accepted 0 known 5 refused 1 below 0", "take ../more -> accepted 2 known 0 refused 0 whole", "get 6b -> 1/3/4=63",
        "trim ../CHECKPOINT -> kept 4 of 5", "tget 6b -> 1/3/4=63", "tgive ../more -> accepted 0 known 2 refused 0 below 0")


def of_nine(seq, clock, key, value, prev=ZEROS, deps=(), past=()):
    """An update of node 9, with the leaves of its past."""
    body = update(9, seq, clock, prev, key, value, deps, history_of(past))
    return Update(body, value, signature=NINE.sign(seq, body))


def below():
    """Node 9 signs by what it puts. What names its trimmed update stands below, and ends nothing."""
    one = Trimmed(ONE, DUO)
    x = of_nine(0, 1, b"k", b"x")
    one.take(x)
    b = one.put(b"k", b"b")
    text = one.checkpoint()
    s = of_nine(1, 3, checkpoint_key(text), text, x.id, [b.leaf()], [b.leaf(), x.leaf()])
    one.take(s)
    y = of_nine(2, 4, b"l", b"y", x.id, (), [x.leaf()])
    z = of_nine(3, 4, b"l", b"x", s.id, (), [b.leaf(), s.leaf()])
    v = voucher(9, 0, b.id)
    forged = bytearray(y.text)
    forged[-1] ^= 1
    stream = frame(2, y.text) + frame(3, b"y") + frame(2, signed(v, NINE.sign(0, v))) + frame(2, bytes(forged)) + x.frames() + END
    Case("node_reads_above_a_checkpoint").data(
        ROSTER=DUO, X=x.frames() + END, S=s.frames() + END, B=stream, Z=frame(2, z.text) + END, V=frame(3, b"x") + MORE,
        SCRIPT=script("take X", "put 6b 62", "checkpoint C", "trim C", "take S", "trim C", "tget 6b", "tgive B", "tgive V", "tgive Z", "tget 6c", "tgive V",
                      "tget 6c", "tgive V", "get 6c", "get 6b"),
    ).after(C=text, journal=one.file()).run(
        words(1), ["take X -> accepted 2 known 0 refused 0 whole", "put 6b -> 0/2", "checkpoint C -> 1/3", "trim C -> Unsigned 9",
                   "take S -> accepted 1 known 1 refused 0 whole", "trim C -> kept 3 of 4", "tget 6b -> 1/0/2=62",
                   # Refused are both values and what is forged; below stand the update and the voucher; x is known.
                   "tgive B -> accepted 0 known 1 refused 3 below 2", "tgive V -> accepted 0 known 0 refused 1 below 0",
                   "tgive Z -> accepted 1 known 0 refused 0 below 0", "tget 6c -> 9/3/4=?", "tgive V -> accepted 1 known 0 refused 0 below 0",
                   "tget 6c -> 9/3/4=78", "tgive V -> accepted 0 known 1 refused 0 below 0", "get 6c ->", "get 6b -> 1/0/2=62"])


def solo(count=1):
    """A node whose roster is itself alone, with so many puts of the key k, and the words of a script that made them."""
    one = Trimmed(ONE, SOLO)
    for at in range(count):
        one.put(b"k", b"abcd"[at:at + 1])
    return one, [f"put 6b 6{at + 1}" for at in range(count)], [f"put 6b -> {at}/{at + 1}" for at in range(count)]


def refusals():
    """A refused `trim` leaves the last reader; what isn't accepted or signed ends nothing, and an empty node makes no checkpoint."""
    one, puts, told = solo()
    older = checkpoint(sha(SOLO), (1, one.accepted[0].id))
    unknown = checkpoint(sha(SOLO), (1, ZEROS))
    other_writer = checkpoint(sha(SOLO), (2, one.accepted[0].id))
    text = one.checkpoint()
    # The text over the first put alone is that of the checkpoint which was made there.
    assert older == text
    b = one.put(b"k", b"b")
    later = checkpoint(sha(SOLO), (1, b.id))
    Case("node_keeps_its_last_reader").data(
        ROSTER=SOLO, U=unknown, W=other_writer, L=later,
        SCRIPT=script("checkpoint EMPTY", *puts, "trim U", "tget 6b", "checkpoint C", "trim C", "tget 6b", "put 6b 62", "trim L", "tget 6b", "trim U", "sign U",
                      "trim W", "sign W", "tget 6b", "get 6b", "trim C", "tget 6b"),
    ).after(C=text, journal=one.file()).run(
        words(1), ["checkpoint EMPTY -> Empty", *told, "trim U -> Unknown", "tget 6b ->", "checkpoint C -> 1/2", "trim C -> kept 2 of 2",
                   "tget 6b -> 1/0/1=61", "put 6b -> 2/3", "trim L -> Unsigned 1", "tget 6b -> 1/0/1=61", "trim U -> Unknown", "sign U -> Unknown",
                   "trim W -> Unknown", "sign W -> Unknown", "tget 6b -> 1/0/1=61", "get 6b -> 1/2/3=62", "trim C -> kept 3 of 3", "tget 6b -> 1/2/3=62"])

    # What was refused stored nothing.
    one = Trimmed(ONE, SOLO)
    Case("node_makes_no_checkpoint_of_nothing").data(ROSTER=SOLO, SCRIPT=script("checkpoint C", "sign C")).after(journal=one.file()).run(
        words(1), ["checkpoint C -> Empty", "shelf C"], 3)


def endings():
    """Texts that are no checkpoint's, another roster, a limit, and files that are missing end the run."""
    def ends(name, lines, told, status, made=1, sign=(), after=(), **files):
        one, puts, said = solo(made)
        for text in sign:
            one.sign(text)
        Case("node_" + name).data(ROSTER=SOLO, SCRIPT=script(*puts, *lines, "get 6b"), **files).after(journal=one.file(), **dict(after)).run(
            words(1), [*said, *told], status)

    good = checkpoint(sha(SOLO), (1, solo()[0].accepted[0].id))
    other = checkpoint(sha(PAIR), (1, solo()[0].accepted[0].id))
    for word in ("sign", "trim"):
        name = {"sign": "signs", "trim": "trims"}[word]
        ends(f"{name}_no_text", [f"{word} F"], [f"{word} F -> IllFormed 0"], 2, F=b"")
        ends(f"{name}_a_text_that_goes_on", [f"{word} F"], [f"{word} F -> IllFormed 70"], 2, F=good + b"\0")
        ends(f"{name}_a_text_that_is_cut", [f"{word} F"], [f"{word} F -> IllFormed 38"], 2, F=good[:-1])
        ends(f"{name}_a_roster", [f"{word} ROSTER"], [f"{word} ROSTER -> IllFormed 1"], 2)
        ends(f"{name}_for_another_roster", [f"{word} F"], [f"{word} F -> OtherRoster"], 10, F=other)
        ends(f"{name}_an_absent_text", [f"{word} F"], ["shelf F"], 3)
    ends("signs_with_no_leaf_left", ["sign F"], ["sign F -> Spent 4"], 8, made=4, F=good)
    ends("makes_a_checkpoint_with_no_leaf_left", ["checkpoint F"], ["checkpoint F -> Spent 4"], 8, made=4)
    # A fault of the text comes before the limit; and a reader is made without a leaf.
    ends("signs_for_another_roster_with_no_leaf_left", ["sign F"], ["sign F -> OtherRoster"], 10, made=4, F=other)
    ends("gives_a_reader_an_absent_stream", ["sign F", "trim F", "tgive S"], ["sign F -> 1/2", "trim F -> kept 2 of 2", "shelf S"], 3, sign=[good], F=good)


def streams():
    """A reader takes whole frames, and refuses no file."""
    one, puts, told = solo()
    text = one.checkpoint()
    value = frame(3, b"a")
    files = {"NONE": b"", "CUT": value[:-1], "ILL": b"\5", "BEHIND": END + value, "MORE": value + MORE + value, "FRONT": value + value[:3], "ENDS": END + END,
             "FIRST": value + b"\0" + value, "TEXT": text}
    counts = {"MORE": 1, "FRONT": 1, "FIRST": 1}
    Case("node_gives_a_reader_any_files").data(
        ROSTER=SOLO, **files, SCRIPT=script(*puts, "checkpoint C", "trim C", *(f"tgive {name}" for name in files), "tget 6b", "tgive ROSTER", "tgive SCRIPT"),
    ).after(C=text, journal=one.file()).run(
        words(1), [*told, "checkpoint C -> 1/2", "trim C -> kept 2 of 2",
                   *(f"tgive {name} -> accepted 0 known {counts.get(name, 0)} refused 0 below 0" for name in files), "tget 6b -> 1/0/1=61",
                   "tgive ROSTER -> accepted 0 known 0 refused 0 below 0", "tgive SCRIPT -> accepted 0 known 0 refused 0 below 0"])


def traces():
    """What a reader shows is no read of its node."""
    one, puts, told = solo()
    text = one.checkpoint()
    Case("node_exports_no_read_of_a_reader").data(
        ROSTER=SOLO, SCRIPT=script(*puts, "checkpoint C", "trim C", "tget 6b", "export E", "get 6b", "tget 6b", "export F"),
    ).after(C=text, E=trace(one), F=trace(one, read(one, b"k")), journal=one.file()).run(
        words(1), [*told, "checkpoint C -> 1/2", "trim C -> kept 2 of 2", "tget 6b -> 1/0/1=61", "export E -> records 3 reads 0", "get 6b -> 1/0/1=61",
                   "tget 6b -> 1/0/1=61", "export F -> records 3 reads 1"]).run(["audit", "ROSTER", "F"], ["yes"])


def keys():
    """Only `checkpoint` and `sign` write the key of a checkpoint; keys that are like one are free, and each is read."""
    one = Trimmed(ONE, SOLO)
    like = [b"checkpoint:" + bytes(31), b"checkpoint:" + bytes(33), b"checkpoint;" + bytes(32)]
    for key in like:
        one.put(key, b"a")
    taken = checkpoint_key(b"").hex()
    Case("node_puts_keys_that_are_like_a_checkpoint").data(
        ROSTER=SOLO, SCRIPT=script(*(f"put {key.hex()} 61" for key in like), f"get {taken}", f"tget {taken}")).after(journal=one.file()).run(
        words(1), [*(f"put {key.hex()} -> {at}/{at + 1}" for at, key in enumerate(like)), f"get {taken} ->", f"tget {taken} ->"])


TAKEN = checkpoint_key(b"").hex()
LINES = [
    (f"put {TAKEN} -", "Hex"),
    (f"put {TAKEN} 61", "Hex"),
    (f"puts {TAKEN}=-", "Hex"),
    (f"puts {TAKEN}!", "Hex"),
    (f"puts 61=61,{TAKEN}!,6b=-", "Hex"),
    ("checkpoint", "Fields"),
    ("checkpoint F G", "Fields"),
    ("checkpoint " + "f" * 4097, "Label"),
    ("sign", "Fields"),
    ("sign F G", "Fields"),
    ("sign " + "f" * 4097, "Label"),
    ("trim", "Fields"),
    ("trim F G", "Fields"),
    ("trim " + "f" * 4097, "Label"),
    ("tgive", "Fields"),
    ("tgive F G", "Fields"),
    ("tgive F 1", "Fields"),
    ("tgive " + "f" * 4097, "Label"),
    ("tget", "Fields"),
    ("tget 6b 6b", "Fields"),
    ("tget -", "Hex"),
    ("tget 6", "Hex"),
    ("tget 6B", "Hex"),
    ("tget " + "6b" * 256, "Hex"),
    ("tget  6b", "Word"),
    ("checkpoints F", "Word"),
    ("tput 6b 61", "Word"),
    ("Trim F", "Word"),
]


def scripts():
    case = Case("node_script_with_faults_of_readers").data(
        ROSTER=SOLO, BYTES=b"put 6b 61\ntrim \xff\n", **{f"SCRIPT{at}": script("put 6b 61", line) for at, (line, _) in enumerate(LINES)})
    for at, (_, fault) in enumerate(LINES):
        case.run(words(1, script=f"SCRIPT{at}"), [f"input SCRIPT{at} line 2 {fault}"], 2)
    case.run(words(1, script="BYTES"), ["input BYTES line 2 Label"], 2)


if __name__ == "__main__":
    two_nodes()
    below()
    refusals()
    endings()
    streams()
    traces()
    keys()
    scripts()
