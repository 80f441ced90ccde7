"""Two nodes in one process: they put, exchange, give a receipt, sign a checkpoint, meet a fork and judge it. One
keeps its records in a file, the other in a database.

    python3 two_nodes.py LIBRARY ROSTER SEED1 SEED2 HEIGHT FOLDER
"""
import sqlite3
import sys

import depot


class Table(depot.Journal):
    """Records in a table of a database: those of a call are committed together before it answers."""

    def __init__(self, base, name):
        self.base, self.name = base, name
        with base:
            base.execute("create table if not exists %s (place integer primary key, record blob)" % name)

    def load(self):
        records = [row[0] for row in self.base.execute("select record from %s order by place" % self.name)]
        return depot.file_of(records) if records else b""

    def keep(self, run):
        with self.base:
            self.base.executemany("insert into %s (record) values (?)" % self.name, [(it,) for it in depot.records_of(run)])


def told(who, put):
    print("%s put %d/%d" % (who, put.seq, put.clock))


def exchange(sender, reader):
    """Until the sender has no more for the reader, within wider bounds where the reader had all of it: here at once."""
    most_bytes, hello, has_more = 1 << 20, reader.hello(), True
    while has_more and most_bytes <= 1 << 26:
        bundle = sender.bundle(hello, most_bytes)
        taken = reader.take(bundle.stream)
        print(taken.line(), *(it.line() for it in taken.refused), sep="\n")
        was, hello, has_more = hello, reader.hello(), bundle.has_more
        most_bytes = 2 * most_bytes if hello == was else 1 << 20


def show(node, key):
    print(*[key.decode()] + [it.words() for it in node.latest(key)])


def main(library, roster, one_seed, two_seed, height, folder):
    lib = depot.load(library)
    with open(roster, "rb") as text:
        roster = text.read()
    one_is = roster, bytes.fromhex(one_seed), int(height), 1
    two_is = roster, bytes.fromhex(two_seed), int(height), 2
    table = Table(sqlite3.connect(":memory:"), "two")
    one = depot.Node(lib, *one_is, depot.JournalFile(folder, roster, 1, is_first=True))  # a service has its seed in a file, too: depot.open_node
    two = depot.Node(lib, *two_is, table)
    told("one", one.put({b"color": b"blue"}))
    green = two.put({b"color": b"green"})
    told("two", green)
    copy = one.records()
    told("one", one.put({b"a": b"1", b"b": b"2"}))
    exchange(one, two)
    exchange(two, one)
    show(one, b"color")  # two: neither had seen the other
    two.close()
    two = depot.Node(lib, *two_is, table)  # again, from its records
    for put in two.put_each([{b"color": b"red"}, {b"a": None}]):  # a is deleted
        told("two", put)
    exchange(two, one)
    told("one", one.receipt([green.id]))  # it holds what two put first
    print("settled", "yes" if one.settled(green.id, 1) else "no")
    checkpoint = one.checkpoint()
    told("one", checkpoint)
    exchange(one, two)
    told("two", two.sign(checkpoint.text))
    one.close()
    one = depot.Node(lib, *one_is, depot.JournalFile(folder, roster, 1))  # again, from its file
    show(one, b"color")
    show(one, b"a")
    old = depot.Node(lib, *one_is, depot.Forgetful(depot.file_of(copy)))  # node one from an old copy of its journal: a fork
    told("old", old.put({b"color": b"black"}))
    exchange(old, two)
    for conviction in two.convictions():
        print("judged %d: node %d, kind %d" % depot.judge(lib, roster, conviction.proof))
    for node in (one, two, old):
        node.close()


main(*sys.argv[1:])
