#!/usr/bin/env python3
"""What lives on where a roster ends: notes of a journal's latest writes, and of these the script for the next roster.

    python3 tools/renew.py notes JOURNAL NOTES             of each key a line, with who wrote it
    python3 tools/renew.py script JOURNAL NOTES SCRIPT     the same as a script of puts, once each key is decided

NOTES and SCRIPT are written and printed by their SHA-256; a file that is there already is not written over. Each member
makes both of its own journal. Where the hashes are the same, all have the same keys, values and decisions.

NOTES has for each key what its last writer wrote, whole, and the update that did it. A key that several wrote without
knowing of one another, and one whose value isn't held, is open: its choices stand as comments, with who decides, and then
a line `decide KEY`. Put in its place one of these, and change nothing else:

    put KEY VALUE       a choice, or another value: text in double quotes, where \\" and \\\\ stand for " and \\, or hex
    drop KEY            the key doesn't live on

`script` refuses notes in which a key is open, or that differ elsewhere from those of the journal. SCRIPT has up to 16 keys
a line. Deleted keys, receipts and checkpoints aren't carried over.

The status is 1 for words or notes that aren't in order, 2 where the journal isn't in its form, 3 where a file fails.
"""

import re
import sys
from typing import List, NamedTuple, Optional

import formats as f

FAULTY, ILL_FORMED, NO_FILE = 1, 2, 3


class Refused(Exception):
    """The words or the notes aren't in order."""


# ---- notes


class Choice(NamedTuple):
    """A latest write of a key: its update, and what it wrote: bytes, None for a deletion, or False where it isn't held."""

    update: f.Update
    value: object


class Key(NamedTuple):
    key: bytes
    choices: List[Choice]

    @property
    def is_open(self) -> bool:
        """Whether somebody has to decide: its latest writes differ, or a value isn't held."""
        values = {it.value for it in self.choices}
        return len(values) > 1 or False in values


def choice_of(key, update, values) -> Choice:
    write = next(it for it in update.writes if it.key == key)
    return Choice(update, None if write.hash is None else values.get(write.hash, False))


class World(NamedTuple):
    """What a journal comes to: its roster's hash, its keys in order, and who is convicted."""

    roster: bytes
    keys: List[Key]
    convicted: set


def world_of(data: bytes) -> World:
    records = f.read_journal(data).records
    if not records or not isinstance(records[0].record, f.Birth):
        raise f.IllFormed(0, "no record of a birth stands here, so this is no journal")
    values, latest = f.values_of(records), f.latest_by_key(f.updates_of(records))
    keys = [Key(key, [choice_of(key, it, values) for it in latest[key]]) for key in sorted(latest) if not f.reserved_for(key)]
    convicted = {f.convicted_by(it.record.proof) for it in records if isinstance(it.record, f.Conviction)}
    return World(records[0].record.roster, keys, convicted)


def deciders(key: Key, convicted) -> str:
    """Who decides on an open key: those that wrote it, but for the convicted, and else the members that go on."""
    writers = sorted({it.update.writer for it in key.choices} - convicted)
    return "decided by " + ", ".join("member %d" % it for it in writers) if writers else "decided by all that go on"


def choice_line(key: bytes, choice: Choice) -> str:
    shown = {None: "deleted", False: "a value that isn't held here"}
    value = choice.value
    told = shown[value] if value is None or value is False else "put %s %s" % (f.shown(key), f.shown(value))
    return "#   %s, id %s: %s" % (choice.update.name, choice.update.id.hex()[:16], told)


def key_lines(key: Key, convicted) -> List[str]:
    """The lines of a key: who wrote it, and what; or its choices, and that it is to be decided."""
    by = " and ".join(it.update.name for it in key.choices)
    if key.is_open:
        lines = ["# %s has several latest writes, or lacks a value; it is %s:" % (f.shown(key.key), deciders(key, convicted))]
        return lines + [choice_line(key.key, it) for it in key.choices] + ["decide %s" % f.shown(key.key)]
    value = key.choices[0].value
    if value is None:
        return ["# %s was deleted by %s" % (f.shown(key.key), by)]
    return ["# by %s" % by, "put %s %s" % (f.shown(key.key), f.shown(value))]


def notes_of(world: World) -> List[str]:
    lines = ["# What lives on of the roster %s, by tools/renew.py" % world.roster.hex()]
    for key in world.keys:
        lines += key_lines(key, world.convicted)
    return lines


# ---- from notes to a script


QUOTED = r'"((?:\\["\\]|[^"\\])*)"'
HEX = "((?:[0-9a-f]{2})+)"


def value_in(word: str) -> Optional[bytes]:
    """The bytes of a value's word, or None where it is none."""
    quoted, digits = re.fullmatch(QUOTED, word), re.fullmatch(HEX, word)
    if quoted:
        return re.sub(r'\\(["\\])', r"\1", quoted.group(1)).encode("utf-8")
    return bytes.fromhex(digits.group(1)) if digits else None


def decided(key: bytes, line: str, place: str):
    """The value that a line decides for an open key, or None where it drops it."""
    name = f.shown(key)
    if line == "drop %s" % name:
        return None
    front = "put %s " % name
    value = value_in(line[len(front) :]) if line.startswith(front) else None
    if value is None:
        raise Refused("%s: %s isn't decided: put `put %s VALUE` or `drop %s` in the place of this line" % (place, name, name, name))
    if len(value) > f.MOST_VALUE:
        raise Refused("%s: a value has at most %d bytes" % (place, f.MOST_VALUE))
    return value


def values_of_notes(world: World, lines: List[str], name: str) -> dict:
    """What is to be put under each key, by notes that differ from the journal's in lines that decide, and nowhere else."""
    found, at = {}, 1
    for key in world.keys:
        own = key_lines(key, world.convicted)
        told = lines[at : at + len(own)]
        place = "%s line %d" % (name, at + len(own))
        same = own[:-1] if key.is_open else own
        if told[: len(same)] != same or len(told) < len(own):
            raise Refused("%s: what stands there up to the key %s isn't what this journal has" % (place, f.shown(key.key)))
        found[key.key] = decided(key.key, told[-1], place) if key.is_open else key.choices[0].value
        at += len(own)
    if lines[:1] != notes_of(world)[:1] or len(lines) != at:
        raise Refused("%s has other lines at its head or its end than the notes of this journal" % name)
    return {key: value for key, value in found.items() if value is not None}


def script_of(values: dict) -> List[str]:
    """The puts of these values, up to 16 keys a line."""
    words = ["%s=%s" % (key.hex(), value.hex() or "-") for key, value in sorted(values.items())]
    groups = [words[at : at + f.MOST_WRITES] for at in range(0, len(words), f.MOST_WRITES)]
    return ["puts %s" % ",".join(group) for group in groups]


# ---- words


def written(path: str, lines: List[str]) -> str:
    """Writes the lines into a file that isn't there yet; its hash."""
    data = "".join(line + "\n" for line in lines).encode("utf-8")
    with open(path, "xb") as out:
        out.write(data)
    return f.sha256(data).hex()


def make_notes(journal, notes):
    world = world_of(journal)
    print("SHA-256 %s" % written(notes, notes_of(world)))
    count = sum(it.is_open for it in world.keys)
    print("%d keys, of which %d are to be decided" % (len(world.keys), count))


def make_script(journal, notes, script):
    with open(notes, encoding="utf-8", newline="\n") as file:
        lines = file.read().split("\n")
    if lines.pop() != "":
        raise Refused("the last line of %s has no line end" % notes)
    values = values_of_notes(world_of(journal), lines, notes)
    made = script_of(values)
    print("SHA-256 %s" % written(script, made))
    print("%d keys in %d statements" % (len(values), len(made)))


def main(words):
    makers = {("notes", 3): make_notes, ("script", 4): make_script}
    maker = makers.get((words[0] if words else "", len(words)))
    if words in (["--help"], ["-h"]):
        print(__doc__)
        return 0
    if maker is None:
        print(__doc__, file=sys.stderr)
        return FAULTY
    try:
        with open(words[1], "rb") as file:
            journal = file.read()
        maker(journal, *words[2:])
        return 0
    except f.IllFormed as fault:
        print("renew: %s isn't in its form, %s" % (words[1], fault), file=sys.stderr)
        return ILL_FORMED
    except Refused as why:
        print("renew: %s" % why, file=sys.stderr)
        return FAULTY
    except UnicodeDecodeError:
        print("renew: %s isn't UTF-8" % words[2], file=sys.stderr)
        return FAULTY
    except OSError as why:
        print("renew: %s: %s" % (why.filename, why.strerror), file=sys.stderr)
        return NO_FILE


if __name__ == "__main__":
    sys.exit(main(sys.argv[1:]))
