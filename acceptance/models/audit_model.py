"""The audit as docs/FORMATS.md tells it ("Audits"), apart from the program, for traces in which no two texts have one SHA-256."""

from model import Node
from node_model import Start
from texts import Fault, record_in, whole


# ---- traces


def answered_in(fields):
    id, mark = fields.take(32), fields.number(1, 0, 2)
    return id, mark, fields.take(fields.number(4, 0, 65_536)) if mark == 1 else b""


def read_in(fields):
    length, key = fields.number(4), fields.take(fields.number(1, 1, 255))
    return length, key, [answered_in(fields) for _ in range(fields.number(2, 0, 4_097))]


class Trace:
    def __init__(self, fields):
        fields.number(1, 1, 1)
        fields.number(1, 5, 5)
        self.node = fields.node()
        self.texts = [fields.take(fields.number(4)) for _ in range(fields.number(4, 1, 131_072))]
        self.reads = [read_in(fields) for _ in range(fields.number(4, 0, 1_000_000))]


def trace_text(node, texts, reads):
    """The text of a node's trace; of each read its number of records, its key and its answer as texts."""
    def u(size, number):
        return number.to_bytes(size, "big")
    told = [u(4, at) + u(1, len(key)) + key + u(2, len(answer)) + b"".join(answer) for at, key, answer in reads]
    return b"".join([b"\1\5", u(2, node), u(4, len(texts)), *(u(4, len(text)) + text for text in texts), u(4, len(told)), *told])


def answer_of(node, key):
    """What a read shows of a key: (id, mark, value) each."""
    shown = []
    for x in node.latest(key):
        said = dict(x.writes)[key]
        if said is None:
            shown.append((x.id, 2, b""))
        elif said[0] in node.held and len(node.held[said[0]]) == said[1]:
            shown.append((x.id, 1, node.held[said[0]]))
        else:
            shown.append((x.id, 0, b""))
    return shown


# ---- one node


class Audited(Start):
    """A node as its trace makes it: the first record that isn't lawful, and the first read that isn't what its records showed."""

    def __init__(self, members, trace):
        self.fault, self.bad = None, None
        self.node = Node(trace.node, members)
        self.trace, last = trace, 0
        for place, text in enumerate(trace.texts):
            wrong = self.fault_of_first(text, members) if place == 0 else self.fault_of(text)
            if wrong:
                self.fault = (place, wrong)
                return
            for number, (length, key, answer) in enumerate(trace.reads):
                if length == place + 1 and answer != answer_of(self.node, key):
                    self.bad = number if self.bad is None else min(self.bad, number)
        for number, (length, _, _) in enumerate(trace.reads):
            if not max(1, last) <= length <= len(trace.texts):
                self.bad = number if self.bad is None else min(self.bad, number)
                break
            last = length

    def fault_of_first(self, text, members):
        try:
            tag, first = whole(record_in, text)
        except Fault as found:
            return f"Ill {found.at}"
        if tag != 1 or first != (self.trace.node, members.hash):
            return "Birth"
        self.node.records = [("birth", None)]
        return None


# ---- all nodes


def found_between(nodes):
    """What an audit finds in nodes, by rising number, whose records and reads are as they should be: each with the ids that its reads list."""
    puts = {node.me: {x.id for x in node.own if hasattr(x, "writes")} for node, _ in nodes}
    for node, reads in nodes:
        for number, ids in enumerate(reads):
            writers = [(node.accepted[id].writer, id) for id in ids]
            if any(writer in puts and id not in puts[writer] for writer, id in writers):
                return f"no fjc 4 r{node.me}.{number}"
    for node, _ in nodes:
        for place, (tag, what) in enumerate(node.records):
            if tag == "convict" and what.first.statement.writer in puts:
                return f"no named {node.me} {place}"
    return "yes"


def audited(members, traces):
    """What an audit finds."""
    nodes = [Audited(members, trace) for trace in sorted(traces, key=lambda trace: trace.node)]
    for some in nodes:
        if some.fault:
            return "no record %d %d %s" % (some.trace.node, *some.fault)
    for some in nodes:
        if some.bad is not None:
            return f"no answer {some.trace.node} {some.bad}"
    return found_between([(some.node, [[id for id, _, _ in answer] for _, _, answer in some.trace.reads]) for some in nodes])


def audit(members, load, names):
    """The command: each file is loaded and held against the roster and those before it, and then all are audited. The status and the line."""
    traces = []
    for name in names:
        text = load(name)
        try:
            trace = whole(Trace, text)
        except Fault as found:
            return 2, f"input {name} at {found.at}"
        if any(trace.node == other.node for other in traces):
            return 2, f"input {name} twice {trace.node}"
        if trace.node not in members.signers:
            return 2, f"input {name} at 2"
        traces.append(trace)
    found = audited(members, traces)
    return (0 if found == "yes" else 11), found
