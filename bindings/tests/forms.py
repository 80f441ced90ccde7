"""Messages whose bytes are in their form, and such whose aren't: these are refused with the offset of the fault, and nothing is
appended. And what each method answers.

    python3 forms.py LIBRARY ROSTER SEED HEIGHT NUMBER"""
import os
import sys

sys.path.insert(0, os.path.join(os.path.dirname(os.path.abspath(__file__)), ".."))
import depot  # noqa: E402

LOW, HIGH = bytes(31) + b"\1", bytes(31) + b"\2"
A, B = b"\1a\1\0\0\0\1" b"1", b"\1b\0"
MANY = b"".join(b"\3k%02d\1\0\0\0\0" % i for i in range(17))
# a body, and the kind of the answer, or at which offset it goes wrong
CASES = [
    (b"\1\1\1a\1\0\0\0\2vw", 1),
    (b"\1\1\1a\0", 1),
    (b"\1\2" + A + B, 1),
    (b"\1\x10" + MANY[:16 * 9], 1),
    (b"\1\1\xff" + b"k" * 255 + b"\1\0\1\0\0" + bytes(65536), 1),
    (b"\1\0", "IllFormed 1"),
    (b"\1\x11" + MANY, "IllFormed 1"),
    (b"\1\1" + A + B, "IllFormed 10"),
    (b"\1\2" + A, "IllFormed 10"),
    (b"\1\2" + B + A, "IllFormed 5"),
    (b"\1\2" + A + A, "IllFormed 10"),
    (b"\1\1" + A[:-1], "IllFormed 9"),
    (b"\1\1" + A + b"\0", "IllFormed 10"),
    (b"\1\1\1a\2", "IllFormed 4"),
    (b"\1\1\0\0", "IllFormed 2"),
    (b"\1\1\1a\1\0\1\0\1" + bytes(65537), "IllFormed 5"),
    (b"\6\0", "IllFormed 1"),
    (b"\6\x11" + bytes(17 * 32), "IllFormed 1"),
    (b"\6\1" + LOW[:31], "IllFormed 2"),
    (b"\6\1" + LOW + HIGH, "IllFormed 34"),
    (b"\6\2" + HIGH + LOW, "IllFormed 34"),
    (b"\6\2" + LOW + LOW, "IllFormed 34"),
    (b"\6\2" + LOW + HIGH, 8),
    (b"\7" + LOW[:31], "IllFormed 1"),
    (b"\7" + LOW + b"\xff\xff\xff\xff", 6),
    (b"\x09", 8),
    (b"\4", 8),
    (b"\x21\0\0\0\0\0\0\0\0\0", "IllFormed 1"),
    (b"\x21\0\0\1\0\0\0\0\0\2", "IllFormed 9"),
    (b"\x21\0\0\1\0\0\0\0\0\1", 8),
    (b"", "IllFormed 0"),
    (b"\0", "IllFormed 0"),
    (b"\x7f", "IllFormed 0"),
    (b"\x20\0", "IllFormed 1"),
]


def told_of(node, body):
    """The kind of the answer, or the words of the refusal."""
    try:
        return node.message(body)[0]
    except depot.BadRequest as refused:
        return refused.words


def raises(kind, call):
    try:
        call()
    except depot.Refused as refused:
        assert type(refused) is kind, (type(refused), kind)
        return refused.words
    raise AssertionError("nothing was raised: %s was to be" % kind.__name__)


def methods(node):
    """What each method answers, on a node that has the updates of CASES."""
    before = len(node.records())
    put = node.put({b"color": b"blue", b"gone": None})
    assert len(node.records()) == before + 1 == node.kept
    assert put.seq == before - 1 and not node.settled(put.id, 1)
    receipt = node.receipt([put.id])
    assert receipt.seq == put.seq + 1 and node.settled(put.id, 0) and node.settled(put.id, 1) and not node.settled(put.id, 2)
    checkpoint = node.checkpoint()
    assert node.sign(checkpoint.text).seq == checkpoint.seq + 1
    assert node.get(b"color") == [b"blue"] and node.get(b"gone") == [] == node.get(b"none")
    [write] = node.latest(b"gone")
    assert write[:6] == (put.id, node.status().node, put.seq, put.clock, True, None)
    assert [it for it in node.keys() if not it.startswith((b"k", b"receipt:", b"checkpoint:"))] == [b"a", b"b", b"color", b"gone"]
    status = node.status()
    assert (status.statements, status.records, status.convicted) == (before + 3, before + 4, ())
    assert status.journal_bytes == len(depot.file_of(node.records()))
    found = node.update(put.id)
    assert (found.item, found.seq, [key for key, _ in found.writes]) == (before - 1, put.seq, [b"color", b"gone"])
    assert node.update(LOW) is None and node.accepted([put.id, LOW]) == {LOW: False, put.id: True}
    assert [it.id for it in node.updates(before - 1)][:2] == [put.id, receipt.id] and list(node.convictions()) == []
    assert node.hello()[:4] == node.hello(is_far=True)[:4]
    many = node.put_each([{b"color": b"green"}, {b"color": b"red"}])
    assert [it.seq for it in many] == [status.statements, status.statements + 1] and node.kept == status.records + 2
    assert node.take(b"").line() == "accepted 0 known 0 refused 0 bare"
    assert node.take(b"\0").line().startswith("accepted 0 known 0 refused 0 ")


def refusals(node):
    """What isn't done raises by its name."""
    assert raises(depot.Unknown, lambda: node.receipt([LOW])) == "Unknown"
    assert raises(depot.IllFormed, lambda: node.bundle(b"")) == "IllFormed 0"
    assert raises(depot.IllFormed, lambda: node.sign(b"")) == "IllFormed 0"
    other = bytearray(node.hello())
    other[4] ^= 1
    raises(depot.OtherRoster, lambda: node.bundle(bytes(other)))
    for call in (lambda: node.put({}), lambda: node.put({b"": b""}), lambda: node.latest(b""), lambda: node.update(b""), lambda: node.bundle(b"", 0)):
        raises(depot.BadRequest, call)


def spent(make):
    """A key of four leaves: the fifth statement isn't made, and what was is kept."""
    with make() as node:
        count = node.status().signable
        told = node.put_each([{b"k": b"%d" % i} for i in range(count + 1)])
        assert [it.seq for it in told[:-1]] == list(range(count)) and told[-1].words == "Spent %d" % count
        raises(depot.Spent, lambda: node.put({b"k": b""}))
        assert node.kept == count + 1 == len(node.records())


def main(library, roster, seed, height, number):
    lib = depot.load(library)
    with open(roster, "rb") as file:
        roster = file.read()
    who = roster, bytes.fromhex(seed), int(height), int(number)
    make = lambda: depot.Node(lib, *who, depot.Forgetful())
    with make() as node:
        raises(depot.NothingAccepted, node.checkpoint)
        for body, want in CASES:
            count = len(node.records())
            told = told_of(node, body)
            assert told == want, (body[:40], told, want)
            assert len(node.records()) - count == (told == 1), body[:40]
        methods(node)
        refusals(node)
    raises(depot.Closed, node.status)
    spent(make)
    raises(depot.WrongIdentity, lambda: depot.Node(lib, who[0], bytes(32), *who[2:], depot.Forgetful()))
    raises(depot.BadJournal, lambda: depot.Node(lib, *who, depot.Forgetful(b"\1\0\0\0\1x\1")))
    raises(depot.BadRequest, lambda: depot.Node(lib, b"", *who[1:], depot.Forgetful()))
    print("%d messages by their bytes" % len(CASES))


main(*sys.argv[1:])
