#!/usr/bin/env python3
"""Writes the cases of `depot serve`: what comes over standard input, what is replied, and what it leaves of the journal.

    python3 acceptance/makers/make_serve_cases.py

As in make_node_cases.py, whose nodes these are, all is written from docs/FORMATS.md, apart from the program. Each field of a message is put
together in acceptance/models/messages.py.
"""

# make_cases puts acceptance/models on the path, where messages.py is.
from make_cases import ZEROS, checkpoint, checkpoint_key, frame, sha, u
import messages as say
from make_audit_cases import trace
from make_node_cases import END, LISTED, MORE, ONE, THREE, TWO, Case, X, Y, branch, fresh, refused_starts, script, seed
from make_node_cases import words as node_words
from make_receipt_nodes import of as receipt_of
from make_trim_nodes import PAIR, Trimmed

HEIGHT = 2


def words(node, listed="ROSTER", height=HEIGHT, key=None):
    return ["serve", listed, seed(node if key is None else key).hex(), str(height), str(node)]


class ServeCase(Case):
    """A case of runs of `serve`."""

    def __init__(self, name, listed=LISTED, **files):
        super().__init__(name)
        self.listed = listed
        self.data(ROSTER=listed, **files)

    def comes(self, text):
        """What comes over the input of the next run."""
        self.write("stdin" + ("" if self.count == 0 else ".%d" % (self.count + 1)), text)

    def writes(self, text):
        """What the last run writes."""
        self.lines += text
        self.write("stdout", self.lines)
        return self

    def serve(self, node, requests, replies, status=0, made=0, at=None, behind=b""):
        """A run of a node that had made so many statements: what it is asked, what else comes behind that, and what it replies."""
        self.comes(say.messages(*requests) + behind)
        self.run(words(node, "../ROSTER" if at else "ROSTER"), [], status, at)
        return self.writes(say.messages(say.started(node, self.listed, made), *replies))


def put_and_read():
    one = fresh()
    a = one.put(b"k", b"a")
    b = one.puts((b"k", b"b"), (b"l", None))
    c = one.put(b"k", b"")
    hello = one.hello()
    ServeCase("serve_puts_and_reads").after(journal=one.file()).serve(
        1, [say.put((b"k", b"a")), say.get(b"k"), say.get(b"l"), say.put((b"k", b"b"), (b"l", None)), say.get(b"k"), say.get(b"l"), say.put((b"k", b"")),
            say.get(b"k"), say.HELLO],
        [say.was_put(a.id, 0, 1), say.was_read(" 1/0/1=61"), say.was_read(), say.was_put(b.id, 1, 2), say.was_read(" 1/1/2=62"), say.was_read(" 1/1/2!"),
         say.was_put(c.id, 2, 3), say.was_read(" 1/2/3="), say.greeted(hello)])
    ServeCase("serve_of_nothing").after(journal=fresh().file()).serve(1, [], [])


def goes_on():
    """A run goes on from the journal that the last one left, be it of `serve` or of `node`: both leave one journal for the same commands."""
    one = fresh()
    a = one.put(b"k", b"a")
    before = one.file()
    b, c = one.put(b"k", b"b"), one.put(b"k", b"c")
    ServeCase("serve_and_node_in_turn", FIRST=script("put 6b 61"), LAST=script("put 6b 63", "get 6b")).after(journal=one.file()).run(
        node_words(1, script="FIRST"), ["put 6b -> 0/1"]).serve(1, [say.get(b"k"), say.put((b"k", b"b"))], [say.was_read(" 1/0/1=61"), say.was_put(b.id, 1, 2)], made=1).run(
        node_words(1, script="LAST"), ["put 6b -> 2/3", "get 6b -> 1/2/3=63"])
    ServeCase("serve_goes_on_from_its_journal", journal=before).after(journal=one.file()).serve(1, [say.put((b"k", b"b"))], [say.was_put(b.id, 1, 2)], made=1).serve(
        1, [say.put((b"k", b"c")), say.get(b"k")], [say.was_put(c.id, 2, 3), say.was_read(" 1/2/3=63")], made=2)


def exchange():
    """Two nodes exchange by messages alone, and a receipt settles a put at both."""
    one, two = fresh(), fresh(TWO)
    two_hello = two.hello()
    a = one.put(b"k", b"a")
    to_two = one.bundle(two)
    one_hello = one.hello()
    two.take(a)
    r = two.puts(receipt_of(a.id))
    to_one = two.bundle(one)
    one.take(r)
    own = one.puts(receipt_of(a.id))
    case = ServeCase("serve_exchanges_with_another", one__no=b"", two__no=b"").after(one__journal=one.file(), two__journal=two.file())
    case.serve(1, [say.put((b"k", b"a")), say.settled(a.id, 1), say.BUNDLE + two_hello],
               [say.was_put(a.id, 0, 1), say.is_settled(False), say.bundled(to_two, updates=1, values=1)], at="one")
    case.serve(2, [say.HELLO, say.receipt(a.id), say.TAKE + to_two, say.TAKE + to_two, say.get(b"k"), say.receipt(a.id), say.settled(a.id, 1), say.settled(a.id, 2),
                   say.BUNDLE + one_hello],
               [say.greeted(two_hello), say.not_done(say.unknown(a.id)), say.taken(2, 0), say.taken(0, 2), say.was_read(" 1/0/1=61"), say.was_put(r.id, 0, 2),
                say.is_settled(True), say.is_settled(False), say.bundled(to_one, updates=1, values=1)], at="two")
    case.serve(1, [say.TAKE + to_one, say.receipt(a.id), say.settled(a.id, 2), say.settled(a.id, 3)],
               [say.taken(2, 0), say.was_put(own.id, 1, 3), say.is_settled(True), say.is_settled(False)], made=1, at="one")


def questions():
    """What a node knows, before it wrote anything and behind two updates."""
    one = fresh()
    empty = len(one.file())
    a = one.put(b"k", b"a")
    b = one.puts((b"k", None), (b"l", b"b"))
    known = sorted([a.id, b.id, sha(b"no update")])
    ServeCase("serve_says_what_it_knows").after(journal=one.file()).serve(
        1, [say.STATUS, say.keys(), say.updates(0), say.put((b"k", b"a")), say.put((b"k", None), (b"l", b"b")), say.STATUS,
            say.keys(), say.keys(b"k"), say.keys(b"l"), say.latest(b"k"), say.latest(b"l"), say.latest(b"m"),
            say.update(a.id), say.update(b.id), say.update(sha(b"no update")), say.accepted(*known),
            say.updates(0), say.updates(1), say.updates(2), say.updates(say.ANY), say.convictions(0)],
        [say.is_status(1, LISTED, 0, 4, 1, empty, 0, 0), say.page(b"\x12"), say.page(b"\x16"), say.was_put(a.id, 0, 1), say.was_put(b.id, 1, 2),
         say.is_status(1, LISTED, 2, 4, 3, len(one.file()), 2, 0),
         say.page(b"\x12", say.key(b"k"), say.key(b"l")), say.page(b"\x12", say.key(b"l")), say.page(b"\x12"),
         say.are_latest((b, 1, say.DELETED)), say.are_latest((b, 1, say.value(b"b"))), say.are_latest(),
         say.is_update(0, a, 0, (b"k", b"a")), say.is_update(1, b, 1, (b"k", None), (b"l", b"b")), say.NO_UPDATE,
         say.are_accepted(*(id != sha(b"no update") for id in known)),
         say.page(b"\x16", say.update_keys(a, 0, b"k"), say.update_keys(b, 1, b"k", b"l")), say.page(b"\x16", say.update_keys(b, 1, b"k", b"l")),
         say.page(b"\x16"), say.page(b"\x16"), say.page(b"\x11")])

    one = fresh()
    one.records.append(b"\x04" + X.text)
    one.accepted.append(X)
    one.convict("SamePrev", X, Y)
    proof = one.proofs[9]
    ServeCase("serve_says_whom_it_convicted").after(journal=one.file()).serve(
        1, [say.TAKE + X.frames()[:-6] + Y.frames()[:-6] + END, say.STATUS, say.convictions(0), say.convictions(2), say.convictions(3), say.latest(b"k")],
        [say.taken(1, 0, refused=[(1, b"\x0b" + X.id + Y.id + b"\x02")]), say.is_status(1, LISTED, 0, 4, 3, len(one.file()), 1, 1, (9,)),
         say.page(b"\x11", say.conviction(2, 9, proof)), say.page(b"\x11", say.conviction(2, 9, proof)), say.page(b"\x11"),
         say.are_latest((X, 0, say.not_held(b"x")))])


def exports():
    """A node hands its trace in: first with its birth alone, then with what it put and what it took. A read isn't in it."""
    one, two = fresh(), fresh(TWO)
    first = trace(one)
    a = one.put(b"k", b"a")
    b = two.put(b"k", b"b")
    to_one = two.bundle(one)
    one.take(b)
    last = trace(one)
    case = ServeCase("serve_hands_its_trace_in", A=last, B=trace(two)).after(journal=one.file())
    case.serve(1, [say.EXPORT, say.put((b"k", b"a")), say.get(b"k"), say.TAKE + to_one, say.EXPORT, say.EXPORT],
               [say.exported(first), say.was_put(a.id, 0, 1), say.was_read(" 1/0/1=61"), say.taken(2, 0), say.exported(last), say.exported(last)])
    case.run(["audit", "ROSTER", "A", "B"], ["yes"])


def far_hello(node, chain):
    """The hello of a node that has a chain of four, and nothing else: it names the last, and the ids 1 and 3 back."""
    head = node.hello()[: len(b"\x01\x03") + 2 + 32 + 2]
    named = sorted(u(2, chain[number].writer) + chain[number].id for number in (3, 2, 0))
    return head + u(2, len(named)) + b"".join(named) + u(2, 0)


def sends():
    """Bundles within bounds, and hellos that go further back."""
    one, two = fresh(), fresh(TWO)
    a, b = one.put(b"k", b"a"), one.put(b"k", b"b")
    hello = two.hello()
    whole = one.bundle(two)
    case = ServeCase("serve_sends_within_bounds", journal=one.file()).after(journal=one.file())
    case.serve(1, [say.bounded(hello, 1), say.bounded(hello, len(a.frames())), say.bounded(hello, len(a.frames() + b.frames())), say.bounded(hello, 67108864, own=True),
                   say.bounded(hello, 67108864, 0), say.bounded(hello[:-1], 1), say.BUNDLE + hello],
               [say.bundled(a.frames() + MORE, updates=1, values=1, more=True), say.bundled(a.frames() + MORE, updates=1, values=1, more=True),
                *[say.bundled(whole, updates=2, values=2)] * 3, say.not_done(say.ill_formed(len(hello) - 2)), say.bundled(whole, updates=2, values=2)], made=2)

    one = fresh()
    one.take(X)
    c = one.put(b"l", b"c")
    before = one.file()
    nothing = say.bundled(MORE, more=True)
    whole = one.bundle(fresh(TWO))
    case = ServeCase("serve_sends_what_needs_no_voucher", journal=before).after(journal=one.file())
    case.serve(1, [say.bounded(hello, 67108864, 0), say.bounded(hello, 67108864, 0, own=True), say.bounded(hello, 67108864, 1)],
               [nothing, say.bundled(c.frames() + END, updates=1, values=1), say.bundled(whole, vouchers=1, updates=2, values=2)], made=1)

    one = fresh()
    four = [one.put(b"k", u(1, number)) for number in range(4)]
    one.take(X)
    own = b"".join(it.frames() for it in four)
    ServeCase("serve_sends_what_it_can_where_no_leaf_is_left", journal=one.file()).after(journal=one.file()).serve(
        1, [say.BUNDLE + hello, say.bounded(hello, 67108864), say.bounded(hello, 67108864, 1)],
        [say.not_done(say.spent(4)), say.not_done(say.spent(4)), say.bundled(own + MORE, updates=4, values=4, more=True)], made=4)

    one, two, three = fresh(), fresh(TWO), fresh(THREE)
    chain = [one.put(b"k", u(1, number)) for number in range(4)]
    two.take(*chain)
    three.take(*chain[:3])
    before = three.file()
    whole = three.bundle(two)
    ServeCase("serve_says_a_hello_that_goes_back", journal=one.file()).after(journal=one.file()).serve(
        1, [say.FAR_HELLO, say.HELLO], [say.greeted(far_hello(one, chain)), say.greeted(one.hello())], made=4)
    # The reader is an update ahead: by its leaf alone all is sent, by the ids further back nothing.
    ServeCase("serve_answers_a_hello_that_goes_back", journal=before).after(journal=three.file()).serve(
        3, [say.BUNDLE + far_hello(two, chain), say.BUNDLE + two.hello()], [say.bundled(END), say.bundled(whole, vouchers=1, updates=3, values=3)])


def checkpoints():
    """A node makes a checkpoint, and another one signs it."""
    one, two = Trimmed(ONE, PAIR), Trimmed(TWO, PAIR)
    two_hello = two.hello()
    a = one.put(b"k", b"a")
    text = one.checkpoint()
    made = one.accepted[-1]
    to_two = one.bundle(two)
    two.take(a, made)
    signs = two.sign(text)
    case = ServeCase("serve_makes_and_signs_a_checkpoint", PAIR, one__no=b"", two__no=b"").after(one__journal=one.file(), two__journal=two.file())
    case.serve(1, [say.CHECKPOINT, say.put((b"k", b"a")), say.CHECKPOINT, say.BUNDLE + two_hello],
               [say.not_done(say.NOTHING_ACCEPTED), say.was_put(a.id, 0, 1), say.checkpoint_was_put(made.id, 1, 2, text), say.bundled(to_two, updates=2, values=2)],
               at="one")
    stranger = checkpoint(sha(LISTED), (1, a.id))
    case.serve(2, [say.SIGN + text, say.TAKE + to_two, say.SIGN + text[:-1], say.SIGN + stranger, say.SIGN + text, say.get(checkpoint_key(text))],
               [say.not_done(say.unknown(a.id)), say.taken(4, 0), say.not_done(say.ill_formed(len(text) - 32)), say.not_done(say.other_roster(sha(LISTED))),
                say.was_put(signs.id, 0, 3), say.was_read(" 2/0/3=" + text.hex())], at="two")


def streams():
    """What becomes of frames: a fork is found, and frames are refused, each with its number and its check; and each way in which a stream ends."""
    one = fresh()
    one.take(X)
    one.convict("SamePrev", X, Y)
    ServeCase("serve_convicts_a_fork").after(journal=one.file()).serve(
        1, [say.TAKE + X.frames() + Y.frames() + END, say.get(b"k"), say.HELLO],
        [say.taken(2, 0, refused=[(2, b"\x0b" + X.id + Y.id + b"\x02"), (3, b"\x0e" + sha(b"y"))]), say.was_read(" 9/0/1=78"), say.greeted(one.hello())])

    orphan, bad = branch(1, 2, b"z", prev=X.id), bytearray(X.text)
    bad[4 + 49] ^= 1
    one = fresh()
    one.records.append(b"\x04" + X.text)
    one.accepted.append(X)
    ServeCase("serve_refuses_frames").after(journal=one.file()).serve(
        1, [say.TAKE + frame(2, orphan.text) + frame(2, bytes(bad)) + frame(3, b"z") + frame(1, b"") + X.frames()[:-3], say.get(b"k"), say.receipt(X.id)],
        [say.taken(1, 0, say.open_frame(3), [(0, b"\x05" + X.id), (1, b"\x04" + u(2, 9)), (2, b"\x0e" + sha(b"z")), (3, b"\x01" + u(4, 0))]),
         say.was_read(" 9/0/1=?"), say.not_done(say.no_value(X.id))])

    one = fresh()
    one.take(X)
    ServeCase("serve_takes_streams_that_end_in_each_way").after(journal=one.file()).serve(
        1, [say.TAKE, say.TAKE + END, say.TAKE + MORE, say.TAKE + b"\x05", say.TAKE + b"\x02\x00", say.TAKE + END + END, say.TAKE + X.frames(),
            say.TAKE + X.frames() + b"\x02\x00\x02\x00\x01"],
        [say.taken(0, 0, say.BARE), say.taken(0, 0), say.taken(0, 0, say.MORE_IS_LEFT), say.taken(0, 0, say.CLOSED, closing=say.closed_at(0)),
         say.taken(0, 0, say.open_frame(2)), say.taken(0, 0, say.CLOSED, closing=say.closed_at(6)), say.taken(2, 0, say.BARE),
         say.taken(0, 2, say.CLOSED, closing=say.closed_at(len(X.frames())))])


def not_done():
    """What isn't done is replied, and the run goes on, also behind a limit."""
    one = fresh()
    hello = fresh(TWO).hello()
    ids = []
    for at in range(4):
        ids.append(one.put(b"k", b"a").id)
    ServeCase("serve_goes_on_behind_what_is_not_done").after(journal=one.file()).serve(
        1, [say.put((b"k", b"a"))] * 5 + [say.receipt(ids[0]), say.CHECKPOINT, say.BUNDLE, say.BUNDLE + hello[:-1], say.BUNDLE + hello[:2] + u(2, 4) + hello[4:],
            say.BUNDLE + hello[:4] + ZEROS + hello[36:], say.receipt(ZEROS), say.settled(ZEROS, 0), say.settled(ZEROS, 1), say.SIGN, say.get(b"k")],
        [say.was_put(id, at, at + 1) for at, id in enumerate(ids)] + [say.not_done(say.spent(4))] * 3 + [say.not_done(say.ill_formed(0)), say.not_done(say.ill_formed(40)),
         say.not_done(say.ill_formed(2)), say.not_done(say.other_roster(ZEROS)), say.not_done(say.unknown(ZEROS)), say.is_settled(True), say.is_settled(False), say.not_done(say.ill_formed(0)),
         say.was_read(" 1/3/4=61")])


def no_requests():
    """What is no request ends the run with status 2, behind the replies before it. Nothing behind it is done."""
    one = fresh()
    a = one.put(b"k", b"a")
    put, told = say.put((b"k", b"a")), say.was_put(a.id, 0, 1)
    taken_key = b"receipt:" + ZEROS
    for name, text in {
        "a_length_of_zero": u(4, 0), "a_length_over_the_limit": u(4, 2**27 + 1), "the_greatest_length": u(4, 2**32 - 1), "a_length_that_is_cut": b"\x00\x00\x00",
        "a_message_that_is_cut": say.message(put)[:-1], "a_message_that_is_cut_behind_its_length": u(4, 2), "a_message_that_is_cut_behind_the_greatest_length": u(4, 2**27),
        "kind_zero": say.message(b"\x00"), "an_unknown_kind": say.message(b"\xfe"), "a_put_of_nothing": say.message(say.put()),
        "a_put_of_too_many": say.message(say.put(*((u(1, at), None) for at in range(17)))), "a_put_of_one_key_twice": say.message(say.put((b"k", b"a"), (b"k", None))),
        "a_put_of_keys_that_fall": say.message(say.put((b"l", None), (b"k", None))), "a_put_of_an_empty_key": say.message(say.put((b"", b"a"))),
        "a_put_of_a_receipt": say.message(say.put((taken_key, b""))), "a_put_with_another_mark": say.message(put[:-6] + b"\x02"),
        "a_put_of_a_long_value": say.message(say.put((b"k", bytes(65_537)))), "a_put_that_goes_on": say.message(put + b"\x00"), "a_get_of_an_empty_key": say.message(say.get(b"")),
        "a_get_that_is_cut": say.message(say.get(b"kl")[:-1]), "a_get_that_goes_on": say.message(say.get(b"k") + b"k"), "a_hello_that_goes_on": say.message(say.HELLO + b"\x00"),
        "a_receipt_for_nothing": say.message(say.receipt()), "a_receipt_for_ids_that_fall": say.message(say.receipt(b"b" * 32, b"a" * 32)),
        "a_settled_that_is_cut": say.message(say.settled(ZEROS, 1)[:-1]), "a_checkpoint_that_goes_on": say.message(say.CHECKPOINT + b"\x00"),
        "an_export_that_goes_on": say.message(say.EXPORT + b"\x00"),
    }.items():
        # What stands behind would be a request, had the text before it been one.
        behind = b"" if "cut" in name and "get" not in name and "settled" not in name else say.message(put)
        ServeCase("serve_ends_at_" + name).after(journal=one.file()).serve(1, [put], [told], 2, behind=text + behind)


def starts():
    """A node that isn't started says so by one message, and reads nothing. Its journal stays as it was."""
    for name, line, status, file, node, listed, key in refused_starts():
        case = ServeCase("serve_" + name, listed, **({} if file is None else {"journal": file}))
        case.comes(say.message(say.put((b"k", b"a"))))
        case.run(words(node, key=key), [], status).writes(say.message(say.not_started(line)))


def words_and_rosters():
    """Before a node is looked for, what is wrong is told by a line, as `node` does."""
    good = words(1)
    for name, args in {"without_an_id": good[:4], "with_a_word_too_many": [*good, "SCRIPT"], "with_a_cut_seed": [*good[:2], good[2][:-1], *good[3:]],
                       "with_a_height_of_18": [*good[:3], "18", "1"], "with_the_id_zero": [*good[:4], "0"], "with_a_name_of_no_file": ["serve", "A B", *good[2:]]}.items():
        ServeCase("serve_" + name).run(args, ["words"], 1)
    ServeCase("serve_without_its_roster").run(words(1, "NONE"), ["shelf NONE"], 3)
    case = ServeCase("serve_with_a_cut_roster", LISTED[:-1])
    case.comes(say.message(say.put((b"k", b"a"))))
    case.run(words(1), ["input ROSTER at %d" % (len(LISTED) - 32)], 2)


def main():
    for make in (put_and_read, goes_on, exchange, questions, exports, sends, checkpoints, streams, not_done, no_requests, starts, words_and_rosters):
        make()


if __name__ == "__main__":
    main()
