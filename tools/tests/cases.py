"""What the tests share: files of acceptance/, a tool run on words, and texts made byte by byte."""

import os
import subprocess
import sys

HERE = os.path.dirname(os.path.abspath(__file__))
TOOLS = os.path.join(HERE, os.pardir)
ROOT = os.path.join(TOOLS, os.pardir)
sys.path.insert(0, TOOLS)
import formats as f  # noqa: E402


def path_of(*names):
    """A file of acceptance/ or examples/."""
    return os.path.join(ROOT, *names)


def data_of(*names):
    with open(path_of(*names), "rb") as file:
        return file.read()


def run_tool(name, *words, data=b""):
    """A run of a tool: its status, what it printed, and what it said of faults."""
    words = [sys.executable, "-B", os.path.join(TOOLS, name), *words]
    pipes = {"stdout": subprocess.PIPE, "stderr": subprocess.PIPE}
    ran = subprocess.run(words, input=data, env=dict(os.environ, PYTHONUTF8="1"), **pipes)
    return ran.returncode, ran.stdout.decode(), ran.stderr.decode()


def named(key, value):
    """A write of a value: key length, key, hash, length."""
    return bytes([len(key)]) + key + f.sha256(value) + f.number(4, len(value))


def update_body(writes, version=1, writer=1, seq=0, clock=1, prev=f.NO_UPDATE, entries=b"\0\0", history=f.sha256()):
    """An update's body, with its writes as they are given."""
    head = bytes([version, 1]) + f.number(2, writer) + f.number(4, seq) + f.number(8, clock) + prev
    return head + writes + entries + history


def marked(key, value):
    """A write of version 2: key length, key, and mark 01 with the hash and the length, or mark 00."""
    if value is None:
        return bytes([len(key)]) + key + b"\0"
    return bytes([len(key)]) + key + b"\1" + f.sha256(value) + f.number(4, len(value))


def signed(body):
    return f.number(4, len(body)) + body + f.number(4, 3) + b"sig"


def voucher_body(*ids, node=9, seq=0):
    return b"\1\2" + f.number(2, node) + f.number(4, seq) + f.number(2, len(ids)) + b"".join(ids)


def frame(tag, payload):
    return bytes([tag]) + f.number(4, len(payload)) + payload


def journal(*bodies):
    return b"".join(b"\1" + f.number(4, len(it)) + it for it in bodies) + b"\0"


def birth(node=1, roster=bytes(32)):
    return b"\1" + f.number(2, node) + roster


def own_put(body, *values):
    return b"\2" + f.number(4, len(body)) + body + b"".join(values)


def world(writers, rounds, keys):
    """Updates of several writers, of one key each; now and then one names the last of another as a parent."""
    updates, tips = [], {}
    for at in range(rounds):
        for writer in range(1, writers + 1):
            prev, other = tips.get(writer), tips.get(writer % writers + 1)
            names = [other] if other and at % 3 == writer % 3 else []
            entries = f.number(2, len(names)) + b"".join(f.number(2, it.writer) + f.number(8, it.clock) + it.id for it in names)
            clock = 1 + max([it.clock for it in names + [prev] * bool(prev)], default=0)
            key = b"key %d" % ((at * writer) % keys)
            body = update_body(named(key, b"%d" % at), writer=writer, seq=at, clock=clock, prev=prev.id if prev else f.NO_UPDATE, entries=entries)
            tips[writer] = f.read_update(body)
            updates.append(tips[writer])
    return updates
