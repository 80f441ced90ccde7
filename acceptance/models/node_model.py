#!/usr/bin/env python3
"""Runs the commands of the cases of nodes and of judgements as docs/FORMATS.md tells, apart from the program, and says which cases differ.

    python3 acceptance/models/node_model.py

It knows the keys of the seeds that the cases use. A script whose lines have faults, words that are none and files that are too large are left out.
"""

import glob
import os
import sys

sys.path.insert(0, os.path.join(os.path.dirname(os.path.abspath(__file__)), os.pardir, "makers"))
from make_cases import CASES, ROOT, Signer, sha, u  # noqa: E402
from model import Limit, Members, Node, Refused, changes_of, bytes_of, judged  # noqa: E402
from texts import Fault, record_in, whole  # noqa: E402

JOURNAL = "depot.journal"
SIGNERS = {}


class End(Exception):
    """A run ends with this status, and this line where there is one."""

    def __init__(self, status, line=None):
        super().__init__(status)
        self.status, self.line = status, line


def signer_of(node, height, root):
    """The signer of a key that a case uses, or one that signs nothing."""
    if (node, height, root) not in SIGNERS:
        made = Signer(node, bytes([node % 256]) * 32, height)
        made.root = root if made.root != root else made.root
        SIGNERS[node, height, root] = made
    return SIGNERS[node, height, root]


def entries_in(fields):
    fields.number(1, 1, 1)
    fields.number(1, 4, 4)
    count = fields.number(2, 1)
    if count > 256:
        raise End(2, f"many {count}")
    entries = []
    for _ in range(count):
        start = fields.here()
        entry = (fields.node(), fields.number(1, 2, 17), fields.take(32))
        if entries and entry[0] == entries[-1][0]:
            raise End(2, f"twice {entry[0]}")
        if entries and entry[0] < entries[-1][0]:
            raise Fault(start)
        entries.append(entry)
    return entries


class Roster(Members):
    def __init__(self, name, text):
        try:
            entries = whole(entries_in, text)
        except Fault as found:
            raise End(2, f"input {name} at {found.at}") from None
        except End as end:
            raise End(2, f"input {name} {end.line}") from None
        self.signers = {entry[0]: signer_of(*entry) for entry in entries}
        self.hash, self.good = sha(text), {}


def bodies_of(file):
    """The bodies of the records of a journal's file."""
    bodies, at = [], 0
    while len(file) > 1 and file[at] == 1:
        length = int.from_bytes(file[at + 1:at + 5], "big")
        if at + 5 + length >= len(file):
            raise End(9, f"damaged {at}")
        bodies.append(file[at + 5:at + 5 + length])
        at += 5 + length
    return bodies


def text_of(record):
    """The body of a record of the model."""
    tag, what = record
    if tag == "birth":
        return b"\1" + what
    if tag == "put":
        return b"\2" + u(4, len(what[0].body)) + what[0].body + b"".join(what[1])
    if tag == "vouch":
        return b"\3" + what.body
    return {"foreign": b"\4", "convict": b"\5", "held": b"\6"}[tag] + (what if tag == "held" else what.text)


class Start:
    """A node that is started over the records of a file."""

    def __init__(self, me, members, file):
        self.node = Node(me, members)
        bodies = bodies_of(file)
        birth = u(2, me) + members.hash
        self.node.records = [("birth", birth)]
        if not bodies:
            return
        try:
            tag, first = whole(record_in, bodies[0])
        except Fault as found:
            raise End(9, f"not lawful 0 Ill {found.at}") from None
        if tag != 1:
            raise End(9, "not lawful 0 Birth")
        if first[0] != me:
            raise End(10, "identity OtherNode")
        if first[1] != members.hash:
            raise End(10, "identity OtherRoster")
        for place, body in enumerate(bodies[1:]):
            wrong = self.fault_of(body)
            if wrong:
                raise End(9, f"not lawful {place + 1} {wrong}")

    def fault_of(self, body):
        """What is wrong with the next record; one that is right is added."""
        try:
            tag, what = whole(record_in, body)
        except Fault as found:
            return f"Ill {found.at}"
        if tag == 1:
            return "Birth"
        if tag == 2:
            return self.fault_of_put(*what)
        if tag == 3:
            return self.fault_of_voucher(what)
        look = {4: self.node.look_at_statement, 5: self.node.look_at_proof, 6: self.node.look_at_value}[tag]
        try:
            records = look(what if tag == 6 else what.text)
        except Refused as found:
            return found.check
        if len(records) != 1:
            return "ProofDue" if records else "Idle"
        return self.node.add(records[0])

    def is_full(self):
        return len(self.node.own) >= 2**self.node.members.height_of(self.node.me)

    def fault_of_put(self, update, values):
        left = list(values)
        changes = [(key, None if said is None else left.pop(0)) for key, said in update.writes]
        body, entries = self.node.next_own(changes)
        if body != update.body or update.id in self.node.accepted or entries > 1024 or self.is_full():
            return "NotNext"
        return self.node.add(("put", (update, values)))

    def fault_of_voucher(self, voucher):
        node = self.node
        are_foreign = all(some in node.accepted and node.accepted[some].writer != node.me for some in voucher.ids)
        if (voucher.writer, voucher.seq) != (node.me, len(node.own)) or not are_foreign or self.is_full():
            return "OwnVoucher"
        return node.add(("vouch", voucher))


class Run:
    """A run of the program in a folder of files, and what it prints."""

    def __init__(self, files, at):
        self.files, self.at, self.lines = files, at, []

    def path(self, name):
        return os.path.normpath(os.path.join(self.at, name))

    def load(self, name):
        if self.path(name) not in self.files:
            raise End(3, f"shelf {name}")
        return self.files[self.path(name)]

    def run(self, words):
        try:
            {"node": self.node, "judge": self.judge, "audit": self.audit}[words[0]](*words[1:])
            return 0
        except End as end:
            if end.line is not None:
                self.lines.append(end.line)
            return end.status

    def judge(self, listed, name):
        members = Roster(listed, self.load(listed))
        told = judged(members, self.load(name))
        raise End(0 if told.split()[0].isdigit() else 7, told)

    def audit(self, listed, *names):
        from audit_model import audit
        raise End(*audit(Roster(listed, self.load(listed)), self.load, names))

    def node(self, listed, seed, height, me, script):
        members, me = Roster(listed, self.load(listed)), int(me)
        lines = self.load(script).decode().splitlines()
        if me not in members.signers:
            raise End(10, "identity UnknownMe")
        signer = Signer(me, bytes.fromhex(seed), int(height))
        if (signer.height, signer.root) != (members.signers[me].height, members.signers[me].root):
            raise End(10, "identity OtherKey")
        SIGNERS[me, signer.height, signer.root] = members.signers[me] = signer
        node = Start(me, members, self.files.get(self.path(JOURNAL), b"")).node
        self.reads, self.reader = [], None
        try:
            for line in lines:
                self.command(node, *line.split(" "))
        finally:
            # What stands behind the last gate stays where nothing is written over it.
            old = self.files.get(self.path(JOURNAL), b"")
            if len(node.records) > len(bodies_of(old)):
                made = b"".join(b"\1" + u(4, len(text)) + text for text in map(text_of, node.records)) + b"\0"
                self.files[self.path(JOURNAL)] = made + old[len(made):]

    def command(self, node, name, *words):
        head = " ".join([name, *{"put": words[:1], "puts": ()}.get(name, words)]) + " ->"
        try:
            answer, status = getattr(self, "do_" + name)(node, *words), 0
        except Limit as limit:
            answer = str(limit)
            status = {"IllFormed": 2, "OtherRoster": 10, "Unknown": 0, "Unsigned": 0}.get(answer.split()[0], 8)
        if name == "take" and " ill-formed " in answer.splitlines()[0]:
            status = 2
        self.lines.append(head + (" " + answer if answer else ""))
        if status:
            raise End(status)

    def do_put(self, node, key, value):
        return node.put([(bytes.fromhex(key), bytes_of(value))])

    def do_puts(self, node, writes):
        return node.put(changes_of(writes))

    def do_get(self, node, key):
        from audit_model import answer_of
        key = bytes.fromhex(key)
        shown = [id + bytes([mark]) + (u(4, len(value)) + value if mark == 1 else b"") for id, mark, value in answer_of(node, key)]
        self.reads.append((len(node.records), key, shown))
        return node.read(key)

    def do_export(self, node, name):
        from audit_model import trace_text
        self.files[self.path(name)] = trace_text(node.me, list(map(text_of, node.records)), self.reads)
        return f"records {len(node.records)} reads {len(self.reads)}"

    def do_hello(self, node, name):
        self.files[self.path(name)], answer = node.hello()
        return answer

    def do_bundle(self, node, hello, name):
        made, answer = node.bundle(self.load(hello))
        self.files[self.path(name)] = made
        return answer

    def do_receipt(self, node, some):
        return node.receipt([bytes.fromhex(some)])

    def do_settled(self, node, some, count):
        return node.settled(bytes.fromhex(some), int(count))

    def do_take(self, node, name):
        return node.give(self.load(name))

    def do_checkpoint(self, node, name):
        text, answer = node.checkpoint()
        if text:
            self.files[self.path(name)] = text
        return answer

    def do_sign(self, node, name):
        return node.sign(self.load(name))

    def do_trim(self, node, name):
        self.reader, answer = node.trim(self.load(name))
        return answer

    def do_tgive(self, node, name):
        return self.reader.tgive(self.load(name)) if self.reader else ""

    def do_tget(self, node, key):
        return self.reader.read(bytes.fromhex(key)) if self.reader else ""


def files_in(folder):
    files = {}
    for at, _, names in os.walk(folder):
        for name in names:
            path = os.path.join(at, name)
            with open(path, "rb") as file:
                files[os.path.relpath(path, folder)] = file.read()
    return files


def words_of(path):
    with open(path, "rb") as file:
        return file.read().decode(errors="surrogateescape").splitlines()


def differs(folder):
    """How a case differs from the model, or None."""
    place = os.path.join(folder, "folder")
    files = files_in(os.path.join(ROOT, words_of(place)[0]) if os.path.exists(place) else os.path.join(folder, "data"))
    after = {**files, **files_in(os.path.join(folder, "after"))}
    lines, statuses = [], []
    count = len(glob.glob(os.path.join(folder, "args*")))
    for number in range(1, count + 1):
        end = "" if number == 1 else f".{number}"
        place = os.path.join(folder, "at" + end)
        at = words_of(place)[0] if os.path.exists(place) else ""
        run = Run(files, at)
        statuses.append(run.run(words_of(os.path.join(folder, "args" + end))))
        lines += run.lines
    with open(os.path.join(folder, "stdout")) as file:
        told = file.read()
    made = "".join(line + "\n" for line in lines)
    path = os.path.join(folder, "status")
    wanted = [int(word) for word in words_of(path)] if os.path.exists(path) else []
    if made != told:
        pairs = [(one, other) for one, other in zip(told.splitlines() + ["-"], made.splitlines() + ["-"]) if one != other]
        return f"told {pairs[0][0][:140]!r}, the model {pairs[0][1][:140]!r}"
    if statuses != wanted + [0] * (count - len(wanted)):
        return f"statuses {wanted}, the model's {statuses}"
    names = [name for name in {*files, *after} if files.get(name) != after.get(name)]
    return f"other files: {', '.join(sorted(names))}" if names else None


def is_modelled(folder):
    words = words_of(os.path.join(folder, "args")) if os.path.exists(os.path.join(folder, "args")) else []
    name = os.path.basename(folder)
    return words[:1] in (["node"], ["judge"], ["audit"]) and "script_" not in name and not name.startswith("words_")


def main():
    results = []
    for folder in sorted(glob.glob(os.path.join(CASES, "*"))):
        if is_modelled(folder):
            results.append(differs(folder))
            if results[-1]:
                print(f"{os.path.basename(folder)}: {results[-1]}")
    print(f"{results.count(None)} as told, {len(results) - results.count(None)} not")
    return 0 if set(results) == {None} else 1


if __name__ == "__main__":
    sys.exit(main())
