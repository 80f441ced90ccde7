"""Runs commands by chance on nodes of the library and by the program, and compares each line, each file and each journal.

    python3 sessions.py LIBRARY COUNT [SEED]

Nodes of a roster are run by `depot node`, a script of some commands each, over a journal in a folder. The library's nodes do
the same in this process, and stay open or are started again from their records. DEPOT names the program, which is else the
launcher. Then journals are damaged by chance, and both say the same of them."""
import os
import random
import subprocess
import sys
import tempfile

HERE = os.path.dirname(os.path.abspath(__file__))
sys.path[:0] = [os.path.join(HERE, ".."), os.path.join(HERE, "..", "..", "tools")]
import depot  # noqa: E402
import depot_messages as m  # noqa: E402
import formats  # noqa: E402

DEPOT = os.environ.get("DEPOT", os.path.join(HERE, "..", "..", "depot"))
JOURNAL = "depot.journal"
# With what status the program ends on each.
STATUSES = {
    depot.Spent: 8, depot.TooManyTips: 8, depot.IdTaken: 8, depot.Full: 8, depot.TooManyLeaves: 8, depot.IllFormed: 2, depot.OtherRoster: 10,
    depot.Unknown: 0, depot.ValueNotHeld: 0, depot.NothingAccepted: 0,
}
KEYS = [b"a", b"b", b"b\0", b"color", b"k" * 255]


def program(*words, script=b"", folder=None):
    done = subprocess.run([DEPOT, *map(str, words)], input=script, stdout=subprocess.PIPE, cwd=folder, check=False)
    return done.stdout, done.returncode


def counts_of_hello(text):
    """The counts that the line of a hello has."""
    counts, at = [], 36
    for size in (2, 34, 32):
        count = int.from_bytes(text[at:at + 2], "big")
        counts.append(count)
        at += 2 + size * count
    return "convicted %d leaves %d wanted %d" % tuple(counts)


class World:
    """Nodes of a roster, by the program in folders and by the library in this process, and the files that both have."""

    def __init__(self, lib, draw, room):
        self.lib, self.draw, self.room, self.files, self.ids, self.count = lib, draw, room, {}, [], 0
        self.height = draw.choice([3, 5, 6, 7])
        self.numbers = draw.sample(range(1, 65536), 3)
        self.seeds = {number: draw.randbytes(32) for number in self.numbers}
        members = []
        for number in sorted(self.numbers):
            root = program("key", self.seeds[number].hex(), self.height)[0].decode().split()[-1]
            members.append(formats.Member(number, self.height, bytes.fromhex(root)))
            os.mkdir(self.folder(number))
        os.mkdir(os.path.join(room, "files"))
        self.roster = formats.roster_text(members)
        with open(os.path.join(room, "roster"), "wb") as file:
            file.write(self.roster)
        self.nodes = {number: self.start(number, b"") for number in self.numbers}

    def folder(self, number):
        return os.path.join(self.room, "node%d" % number)

    def start(self, number, file):
        return depot.Node(self.lib, self.roster, self.seeds[number], self.height, number, depot.Forgetful(file))

    def name(self, kind):
        self.count += 1
        return "../files/%s%d" % (kind, self.count)

    # ---- commands: their words, and the line and the status of the library

    def put(self, node):
        key, value = self.draw.choice(KEYS), self.draw.randbytes(self.draw.choice([0, 1, 20, 300, 300, 65536]))
        return ("put %s %s" % (key.hex(), value.hex() or "-"), "put %s ->" % key.hex(), lambda: self.put_line(lambda: node.put({key: value})))

    def puts(self, node):
        keys = sorted(self.draw.sample(KEYS, self.draw.randint(1, 4)))
        changes = {key: self.draw.choice([None, b"", self.draw.randbytes(9)]) for key in keys}
        words = ",".join(k.hex() + ("!" if v is None else "=" + (v.hex() or "-")) for k, v in changes.items())
        return "puts " + words, "puts ->", lambda: self.put_line(lambda: node.put(changes))

    def put_line(self, put):
        try:
            made = put()
        except depot.NotDone as refused:
            return self.refusal(refused)
        self.ids.append(made.id)
        return " %d/%d" % (made.seq, made.clock), 0

    def refusal(self, refused):
        """What isn't there ends no script of the program."""
        return " " + refused.words, STATUSES[type(refused)]

    def get(self, node):
        key = self.draw.choice(KEYS)
        return "get " + key.hex(), "get %s ->" % key.hex(), lambda: ("".join(" " + it.words() for it in node.latest(key)), 0)

    def hello(self, node):
        name = self.name("hello")
        return "hello " + name, "hello %s ->" % name, lambda: (" " + self.keep(name, node.hello(), counts_of_hello), 0)

    def keep(self, name, text, line_of):
        self.files[name] = text
        return line_of(text)

    def some_file(self, kind):
        """A late file, mostly one of this kind."""
        names = [name for name in self.files if kind in name or self.draw.random() < 0.02]
        return self.draw.choice(names[-6:]) if names else None

    def bundle(self, node):
        hello, name = self.some_file("hello"), self.name("bundle")
        return hello and ("bundle %s %s" % (hello, name), "bundle %s %s ->" % (hello, name), lambda: self.bundle_line(node, hello, name))

    def bundle_line(self, node, hello, name):
        """By the message without bounds, or by the widest: both are the bundle of the program."""
        try:
            if self.draw.random() < 0.5:
                bundle = node.bundle(self.files[hello], m.MOST_BUNDLE)
            else:
                bundle = m.read_bundle(node.message(b"\4" + self.files[hello]))
        except depot.NotDone as refused:
            return self.refusal(refused)
        self.files[name] = bundle.stream
        return " proofs %d vouchers %d updates %d values %d " % bundle[:4] + ("more" if bundle.has_more else "whole"), 0

    def take(self, node):
        name = self.some_file("bundle")
        return name and ("take " + name, "take %s ->" % name, lambda: self.take_line(node, self.files[name]))

    def take_line(self, node, stream):
        taken = node.take(stream)
        status = 2 if taken.how.startswith("ill-formed") else 8 if taken.how.startswith("full") else 0
        return " " + taken.line() + "".join("\n" + it.line() for it in taken.refused), status

    def some_id(self):
        """The id of a late update, or now and then of none."""
        return self.draw.choice(self.ids[-12:]) if self.ids and self.draw.random() < 0.95 else self.draw.randbytes(32)

    def receipt(self, node):
        update = self.some_id()
        return "receipt " + update.hex(), "receipt %s ->" % update.hex(), lambda: self.put_line(lambda: node.receipt([update]))

    def settled(self, node):
        update, nodes = self.some_id(), self.draw.randint(1, 4)
        words = "settled %s %d" % (update.hex(), nodes)
        return words, words + " ->", lambda: (" yes" if node.settled(update, nodes) else " no", 0)

    def checkpoint(self, node):
        name = self.name("checkpoint")
        return "checkpoint " + name, "checkpoint %s ->" % name, lambda: self.checkpoint_line(node, name)

    def checkpoint_line(self, node, name):
        try:
            made = node.checkpoint()
        except depot.NotDone as refused:
            return self.refusal(refused)
        self.files[name] = made.text
        return " %d/%d" % (made.seq, made.clock), 0

    def sign(self, node):
        name = self.some_file("checkpoint")
        return name and ("sign " + name, "sign %s ->" % name, lambda: self.put_line(lambda: node.sign(self.files[name])))

    # ---- scripts

    def spoil(self):
        """A file that was changed on its way."""
        name = self.some_file("bundle")
        if name and self.files[name]:
            text = bytearray(self.files[name])
            if self.draw.random() < 0.5:
                text = text[:self.draw.randrange(len(text))]
            else:
                text[self.draw.randrange(len(text))] ^= 1 << self.draw.randrange(8)
            new = self.name("bundle")
            self.files[new] = bytes(text)
            with open(os.path.join(self.folder(self.numbers[0]), new), "wb") as file:
                file.write(text)

    def asked(self, node):
        """A command by chance: its words, and what the library does for it."""
        kinds = [(self.put, 4), (self.puts, 3), (self.get, 4), (self.hello, 3), (self.bundle, 4), (self.take, 5)]
        kinds += [(self.receipt, 2), (self.settled, 2), (self.checkpoint, 1), (self.sign, 1)]
        command = None
        while not command:
            command = self.draw.choices([it[0] for it in kinds], [it[1] for it in kinds])[0](node)
        return command

    def script(self, length):
        """A script on a node: by the library command by command, and then by the program. Gives how many lines were compared."""
        number = self.draw.choice(self.numbers)
        if self.draw.random() < 0.2:
            records = self.nodes[number].records()
            self.nodes[number].close()
            self.nodes[number] = self.start(number, depot.file_of(records))
        if self.draw.random() < 0.3:
            self.spoil()
        lines, words, status = [], [], 0
        for _ in range(length):
            word, front, do = self.asked(self.nodes[number])
            words.append(word)
            answer, status = do()
            lines.append(front + answer + "\n")
            if status:
                break
        text = "".join(word + "\n" for word in words).encode()
        told, program_status = program("node", os.path.join(self.room, "roster"), self.seeds[number].hex(), self.height, number, "/dev/stdin",
                                       script=text, folder=self.folder(number))
        assert (told.decode(), program_status) == ("".join(lines), status), (told, lines, program_status, status)
        with open(os.path.join(self.folder(number), JOURNAL), "rb") as file:
            assert file.read() == depot.file_of(self.nodes[number].records())
        for name, kept in self.files.items():
            path = os.path.join(self.folder(number), name)
            with open(path, "rb") as file:
                assert file.read() == kept, name
        return len(lines)

    def damaged(self):
        """A journal that was changed: both start from it, or both say why not. Says whether it was refused."""
        number = self.draw.choice(self.numbers)
        folder = os.path.join(self.room, "damaged")
        os.makedirs(folder, exist_ok=True)
        text = bytearray(depot.file_of(self.nodes[number].records()))
        if self.draw.random() < 0.3:
            text = text[:self.draw.randrange(len(text))]
        else:
            text[self.draw.randrange(len(text))] ^= 1 << self.draw.randrange(8)
        with open(os.path.join(folder, JOURNAL), "wb") as file:
            file.write(text)
        told, status = program("node", os.path.join(self.room, "roster"), self.seeds[number].hex(), self.height, number, "/dev/stdin", folder=folder)
        try:
            node = self.start(number, bytes(text))
        except depot.Refused as refused:
            want = 9 if isinstance(refused, depot.BadJournal) else 10
            assert (told.decode(), status) == (refused.words + "\n", want), (told, status, refused)
            return 1
        assert (told, status) == (b"", 0), (told, status)
        with open(os.path.join(folder, JOURNAL), "rb") as file:
            program_file, kept = file.read(), depot.file_of(node.records())
        assert program_file[:len(kept) - 1] == kept[:-1] and program_file[len(kept) - 1:len(kept)] != b"\1"
        node.close()
        return 0

    def close(self):
        for node in self.nodes.values():
            node.close()


def main(library, count, seed="1"):
    lib, done, worlds, starts, refused, seed = depot.load(library), 0, 0, 0, 0, int(seed)
    while done < int(count):
        draw = random.Random(seed + worlds)
        with tempfile.TemporaryDirectory() as room:
            world = World(lib, draw, room)
            for _ in range(40):
                done += world.script(draw.randint(1, 60))
            for _ in range(10):
                refused += world.damaged()
                starts += 1
            world.close()
        worlds += 1
    print("%d commands in %d worlds: the same lines, files and journals; %d starts from damaged journals, %d refused alike" % (done, worlds, starts, refused))


main(*sys.argv[1:])
