#!/usr/bin/env python3
"""Writes a roster, and prints its hash in groups, to be read aloud to every member.

    python3 tools/roster.py OUT NUMBER:HEIGHT:ROOT ..

NUMBER is 1 to 65535, each once; HEIGHT is 2 to 17, and ROOT what `depot key SEED HEIGHT` prints, each once: a key is one
member's. The members are put in order. A file that is there already is not written over: journals are bound to the
roster that they were begun with. `tools/look.py OUT` shows a roster again, with its hash.
"""

import re
import sys

import formats as f


class BadWords(Exception):
    """The words are no members."""


def member_of(word):
    """The member that a word NUMBER:HEIGHT:ROOT names."""
    parts = word.split(":")
    if len(parts) != 3 or not all(part.isascii() and part.isdecimal() for part in parts[:2]):
        raise BadWords("%s isn't NUMBER:HEIGHT:ROOT" % word)
    node, height = int(parts[0]), int(parts[1])
    if not 1 <= node <= 65535:
        raise BadWords("%s: a number is 1 to 65535" % word)
    if not f.LEAST_HEIGHT <= height <= f.GREATEST_HEIGHT:
        raise BadWords("%s: a height is %d to %d" % (word, f.LEAST_HEIGHT, f.GREATEST_HEIGHT))
    if len(parts[2]) != 64 or set(parts[2]) - set("0123456789abcdef"):
        raise BadWords("%s: a root is 64 digits of lower-case hex" % word)
    return f.Member(node, height, bytes.fromhex(parts[2]))


def members_of(words):
    """The members of a roster, 1 to 256, each number once and each root once."""
    members = [member_of(word) for word in words]
    if not 1 <= len(members) <= f.MOST_NODES:
        raise BadWords("a roster has 1 to %d members" % f.MOST_NODES)
    numbers, having = set(), {}
    for it in members:
        if it.node in numbers:
            raise BadWords("member %d stands twice" % it.node)
        numbers.add(it.node)
        other = having.setdefault(it.root, it.node)
        if other != it.node:
            raise BadWords("members %d and %d have one root: with one key for both, each can be forged" % (other, it.node))
    return members


def read_aloud(digest):
    """The digits of a hash in groups of four."""
    digits = digest.hex()
    return " ".join(digits[at : at + 4] for at in range(0, len(digits), 4))


def refuse_member(name):
    """Refuses a name of the roster that has the form of a member: OUT was forgotten then."""
    if re.match("[0-9]+:[0-9]+:", name):
        raise BadWords("%s is a member, and the first word names the file: OUT is lacking" % name)


def main(words):
    if words and words[0] in ("-h", "--help"):
        print(__doc__)
        return 0
    if len(words) < 2 or words[0].startswith("-"):
        print(__doc__, file=sys.stderr)
        return 1
    try:
        refuse_member(words[0])
        text = f.roster_text(members_of(words[1:]))
        with open(words[0], "xb") as out:
            out.write(text)
    except BadWords as why:
        print("roster: %s" % why, file=sys.stderr)
        return 1
    except OSError as why:
        print("roster: %s can't be written: %s" % (words[0], why.strerror), file=sys.stderr)
        return 3
    print(read_aloud(f.sha256(text)))
    return 0


if __name__ == "__main__":
    sys.exit(main(sys.argv[1:]))
