#!/usr/bin/env python3
"""lists.py --write, lists.py --print, lists.py --families [CRATE..]: what is made of the tree: the drawing of the crates in
docs/ARCHITECTURE.md, the numbers in docs/TESTING.md, and the families of proofs, which are on no page.

A crate has in its row of the drawing those that it stands on, but for those that others in the row stand on already. With --write
drawing and numbers are put into their pages, between the lines that begin and end them; with --print they are printed. A family of
proofs is a file of proofs/, or of a folder there in which several lie: --families prints its name, behind its folder's, and the first
sentence of its head, of these crates or of all, lowest first.
"""

import glob
import os
import re
import sys
import textwrap

TOP = os.path.normpath(os.path.join(os.path.dirname(os.path.abspath(__file__)), ".."))
FRONT = "depot_"


def read(*names):
    with open(os.path.join(TOP, *names), encoding="utf-8") as file:
        return file.read()


def crates(text):
    """Each crate of crates.txt in its order, and those of this repository that it stands on."""
    rows = [line.split("#")[0].split(":") for line in text.splitlines()]
    listed = {row[0].split()[0]: row[1].split() for row in rows if len(row) == 2}
    return {name: [it for it in uses if it in listed] for name, uses in listed.items()}


def below(name, uses):
    """All crates that one stands on."""
    return set(uses[name]).union(*(below(it, uses) for it in uses[name]))


def edges(name, uses):
    """Those that a crate stands on, and that no other of these stands on."""
    return [it for it in uses[name] if not any(it in below(other, uses) for other in uses[name])]


def height(name, uses):
    """How many crates stand in the longest chain down from one, itself among them."""
    return 1 + max((height(it, uses) for it in uses[name]), default=0)


def drawing(uses):
    """A line a crate, by heights, and by names where these are alike."""
    wide = max(len(name) - len(FRONT) for name in uses)
    lines, last = ["```"], 0
    for name in sorted(uses, key=lambda it: (height(it, uses), it)):
        level = height(name, uses)
        rests = " ".join(it[len(FRONT):] for it in edges(name, uses))
        row = "%2s  %-*s  %s" % (level if level != last else "", wide, name[len(FRONT):], "<- " + rests if rests else "")
        lines.append(row.rstrip())
        last = level
    return "\n".join(lines + ["```"]) + "\n"


def titled(path, place):
    """A family's name, as seen from proofs/, and what it is: the comment at its head, up to its first full stop."""
    with open(path, encoding="utf-8") as file:
        head = re.match(r"(?:--.*\n)*", file.read()).group()
    words = " ".join(line.lstrip("- ") for line in head.splitlines())
    row = "- `%s`: %s" % (os.path.relpath(path, place)[: -len(".antt")], re.split(r"(?<=\.) ", words.strip())[0])
    return "\n".join(textwrap.wrap(row, 118, subsequent_indent="  ", break_long_words=False, break_on_hyphens=False))


def families(uses, wanted=()):
    """The families of each crate that has some, of those that are wanted or of all, lowest crate first. The list of a folder's files has
    the folder's name, which begins with a small letter, and is none."""
    parts = []
    for name in sorted(wanted or uses, key=lambda it: (height(it, uses), it)):
        place = os.path.join(TOP, "crates", name, "proofs")
        others = ("Lib", "Answers", "Invariants", "Proof")
        there = sorted(glob.glob(os.path.join(place, "**", "[A-Z]*.antt"), recursive=True))
        found = [titled(it, place) for it in there if os.path.basename(it)[: -len(".antt")] not in others]
        if found:
            parts.append("### %s\n\n%s\n" % (name, "\n".join(found)))
    return "\n".join(parts)


def paths(*names):
    """The files and folders of the tree that a pattern names."""
    return glob.glob(os.path.join(TOP, *names), recursive=True)


def count(pattern, *names):
    """How often a regular expression is found in the files that a pattern names."""
    return sum(len(re.findall(pattern, read(it))) for it in paths(*names))


def first_word(path):
    """That of a case: its command."""
    with open(path, "rb") as file:
        return file.readline().strip().decode("utf-8", "replace")


def numbers():
    """What there is of a kind, and how much: a row each."""
    sources = ("crates", "*", "src", "**", "*.rt")
    words = [first_word(it) for it in paths("acceptance", "cases", "*", "args")]
    commands = sorted({it for it in words if words.count(it) > 1}, key=lambda it: (-words.count(it), it))
    tests = count(r"#\[test\]", *sources)
    rows = [
        ("functions of the crates, each proved against its contract", count(r"(?m)^ *(?:pub(?:\(\w+\))? )?(?:extern .C. )?fn \w", *sources) - tests),
        ("of these, public ones", count(r"(?m)^ *pub (?:extern .C. )?fn \w", *sources)),
        ("wrong bodies that the check has to refuse: in the gate", len(paths("crates", "*", "must-fail", "*.edit"))),
        ("the same by hand", len(paths("edits", "*", "*.edit"))),
        ("tests of public calls, each proved too", tests),
        ("cases of the built program: " + ", ".join("%s %d" % (it, words.count(it)) for it in commands), len(words)),
        ("tests of the tools", count(r"(?m)^ *def test_", "tools", "tests", "*.py")),
    ]
    return "\n".join(["| what | how many |", "|---|---|", *("| %s | %d |" % it for it in rows)]) + "\n"


def marks(what):
    """The lines of a page between which stands what is made."""
    return "<!-- %s: made by tools/lists.py -->\n" % what, "<!-- end -->\n"


def with_list(page, what, text):
    """The page with this text between its marks."""
    begin, end = marks(what)
    front, rest = page.split(begin)
    return front + begin + text + end + rest.split(end, 1)[1]


def made():
    """Each page that has something made, and how it is to read."""
    uses = crates(read("crates.txt"))
    lists = {"ARCHITECTURE.md": ("the drawing", drawing(uses)), "TESTING.md": ("numbers", numbers())}
    for name, (what, text) in lists.items():
        yield os.path.join("docs", name), with_list(read("docs", name), what, text)


def main(words):
    if words == ["--write"]:
        for name, page in list(made()):
            with open(os.path.join(TOP, name), "w", encoding="utf-8") as file:
                file.write(page)
        return 0
    uses = crates(read("crates.txt"))
    if words == ["--print"]:
        print("\n".join((drawing(uses), numbers())), end="")
        return 0
    if words[:1] == ["--families"] and set(words[1:]) <= set(uses):
        print(families(uses, words[1:]), end="")
        return 0
    asked = words in (["-h"], ["--help"])
    print(__doc__.strip(), file=sys.stdout if asked else sys.stderr)
    return 0 if asked else 1


if __name__ == "__main__":
    sys.exit(main(sys.argv[1:]))
