#!/usr/bin/env python3
"""Keys and values as text, both ways: a filter between people and `depot node`.

    python3 tools/text.py script <NOTES >SCRIPT     lines with text in quotes become lines of a script, with hex
    python3 tools/text.py answers <ANSWERS          what `depot node` or `depot replay` printed, with text in quotes

In NOTES a key or a value is text in double quotes, or hex as in a script. In quotes \\" and \\\\ stand for " and \\,
\\n and \\t for a line's end and a tab, and \\x00 to \\xff for a byte. A value may also be @FILE, the bytes of a file as
it is seen from here. Empty lines and those with # in front fall away.

    # what node 1 knows of the user
    put "user:1" "Ada"
    put "picture:1" @ada.png
    delete "user:4"
    puts "user:2"="Grace", "user:3"!        several keys in one update; ! deletes; they are put in order
    get "user:1"
    take ../for-one

Notes with a faulty line make no script at all: the line and the fault are told, and the status is 1. In a pipe into
`node.py` that is seen with `set -o pipefail`.

`answers` shows keys and values in quotes where they are text that can be printed, and else as hex, as they were.
"""

import os
import re
import signal
import sys

import formats as f

OUTPUT = 5
ESCAPE = re.compile(r'\\(x[0-9a-f]{2}|["\\nt])')
# A word is text in quotes or stands between blanks, `=`, `!` and `,`, which in a line of `puts` are words of their own.
QUOTED = r'"(?:\\.|[^"\\])*"'
WORD = re.compile(QUOTED + r"|[^\s\"]+")
PART = re.compile(QUOTED + r'|[=!,]|[^\s"=!,]+')
# How many words stand behind each command but `puts`; `delete` is a word of notes alone.
WORDS = {
    "put": 2, "delete": 1, "get": 1, "tget": 1, "hello": 1, "bundle": 2, "take": 1, "receipt": 1, "settled": 2, "export": 1, "checkpoint": 1,
    "sign": 1, "trim": 1, "tgive": 1,
}
WITH_KEYS = ("get", "tget")
WITH_IDS = ("receipt", "settled")
BYTES = {"n": b"\n", "t": b"\t", '"': b'"', "\\": b"\\"}


class BadLine(Exception):
    """A line of the notes can't be read."""


def unquoted(text):
    """The bytes of the text between quotes."""
    found, at = b"", 0
    while at < len(text):
        match = ESCAPE.match(text, at)
        if text[at] == "\\" and not match:
            raise BadLine("a backslash stands before neither of \" \\ n t x00")
        if match:
            mark = match.group(1)
            found += bytes.fromhex(mark[1:]) if mark[0] == "x" else BYTES[mark]
            at = match.end()
        else:
            found += text[at].encode("utf-8")
            at += 1
    return found


def hex_of(word):
    """The digits of a key's or a value's word, which is text in quotes, or hex, or `-` for nothing."""
    if word.startswith('"'):
        return unquoted(word[1:-1]).hex()
    if word == "-":
        return ""
    if not re.fullmatch("(?:[0-9a-f]{2})+", word):
        raise BadLine("%s is neither text in quotes nor lower-case hex, two digits a byte" % word)
    return word


def key_of(word):
    """A key's word as a script has it."""
    digits = hex_of(word)
    if not 1 <= len(digits) // 2 <= f.MOST_KEY:
        raise BadLine("a key has 1 to %d bytes, and this one %d" % (f.MOST_KEY, len(digits) // 2))
    return digits


def written_key_of(word):
    """The same of a key that is written: none that is reserved."""
    digits = key_of(word)
    kind = f.reserved_for(bytes.fromhex(digits))
    if kind:
        raise BadLine("a key that is `%s:` and 32 bytes is reserved for %ss" % (kind, kind))
    return digits


def digits_at(name):
    """The bytes of a file, in hex."""
    try:
        with open(name, "rb") as file:
            return file.read(f.MOST_VALUE + 1).hex()
    except OSError as why:
        raise BadLine("%s can't be read: %s" % (name, why.strerror))


def value_of(word):
    """A value's word as a script has it: `-` where it is empty."""
    digits = digits_at(word[1:]) if word.startswith("@") else hex_of(word)
    if word.startswith("@") and len(digits) // 2 > f.MOST_VALUE:
        raise BadLine("a value has at most %d bytes, and %s more" % (f.MOST_VALUE, word[1:]))
    if len(digits) // 2 > f.MOST_VALUE:
        raise BadLine("a value has at most %d bytes, and this one %d" % (f.MOST_VALUE, len(digits) // 2))
    return digits or "-"


def words_in(line, pattern):
    """The words of a line; nothing but blanks may stand between them."""
    rest = pattern.sub("", line)
    if rest.strip():
        raise BadLine("a quote without its end: %s" % rest.strip())
    return pattern.findall(line)


def spaced_words(line):
    """The words of a line that stand apart by blanks."""
    words = words_in(line, WORD)
    if len(WORD.sub("x", line).split()) != len(words):
        raise BadLine("words stand apart by blanks, and here some don't")
    return words


def writes_of(words):
    """The words behind `puts` as one word of a script: KEY=VALUE and KEY! with commas, in the order of the keys."""
    parts, at = {}, 0
    while at < len(words):
        key, mark = written_key_of(words[at]), words[at + 1 : at + 2]
        if key in parts:
            raise BadLine("the key %s stands twice, and an update writes each once" % words[at])
        if mark == ["!"]:
            parts[key] = key + "!"
            at += 2
        elif mark == ["="] and at + 2 < len(words):
            parts[key] = key + "=" + value_of(words[at + 2])
            at += 3
        else:
            raise BadLine("a write is KEY=VALUE or KEY!")
        if at < len(words) and words[at] != ",":
            raise BadLine("writes stand apart by commas")
        at += 1
    if len(parts) > f.MOST_WRITES:
        raise BadLine("an update writes at most %d keys, and this one %d" % (f.MOST_WRITES, len(parts)))
    return ",".join(parts[key] for key in sorted(parts))


def id_of(word):
    """An update's id as a script has it."""
    if not re.fullmatch("[0-9a-f]{64}", word):
        raise BadLine("an id is 64 digits of lower-case hex, and %s isn't; look.py JOURNAL --id WRITER/SEQ/CLOCK prints one" % word)
    return word


def script_line(line):
    """The line of a script for a line of notes, or None for one that says nothing."""
    line = line.strip()
    if not line or line.startswith("#"):
        return None
    if line.split()[0] == "puts":
        return "puts " + writes_of(words_in(line, PART)[1:])
    verb, *words = spaced_words(line)
    if verb not in WORDS:
        raise BadLine("%s is no command" % verb)
    if len(words) != WORDS[verb]:
        raise BadLine("%s has %d words behind it, and takes %d; a note has a line of its own" % (verb, len(words), WORDS[verb]))
    if verb == "delete":
        return "puts %s!" % written_key_of(words[0])
    if verb == "put":
        return "put %s %s" % (written_key_of(words[0]), value_of(words[1]))
    if verb in WITH_KEYS:
        return "%s %s" % (verb, key_of(words[0]))
    if verb in WITH_IDS:
        return " ".join([verb, id_of(words[0])] + words[1:])
    if any(word.startswith('"') for word in words):
        raise BadLine("the names of files, and ids, stand without quotes, and have no blanks")
    return " ".join([verb] + words)


def quoted(digits):
    """Bytes in hex as text in quotes, where they are text; `-` and no digits are the empty text."""
    try:
        return f.shown(bytes.fromhex("" if digits == "-" else digits))
    except ValueError:
        return digits


def shown_write(word):
    """A write of an answer: WRITER/SEQ/CLOCK=VALUE, or as it stands where it is a deletion or isn't held."""
    name, mark, value = word.partition("=")
    return word if not mark or value == "?" else "%s=%s" % (name, quoted(value))


def answer_line(line):
    """A line of answers with its key and its values as text."""
    head, arrow, answer = line.partition(" ->")
    words = head.split(" ")
    if not arrow or words[0] not in ("put", "get", "tget") or len(words) not in (2, 3):
        return line
    answers = answer.split(" ")
    if words[0] in ("get", "tget"):
        answers = [shown_write(it) for it in answers]
    return " ".join(words[:-1] + [quoted(words[-1])]) + arrow + " ".join(answers)


def text_in(data):
    try:
        return data.decode("utf-8")
    except UnicodeDecodeError:
        raise BadLine("it isn't UTF-8")


def to_script(lines, out):
    """All lines, or none where one is faulty: a front of a script would be carried out."""
    made = []
    for number, line in enumerate(lines, 1):
        try:
            made.append(script_line(text_in(line)))
        except BadLine as why:
            print("text: line %d: %s; no script is made" % (number, why), file=sys.stderr)
            return 1
    out.writelines(line.encode("utf-8") + b"\n" for line in made if line is not None)
    return 0


def to_answers(lines, out):
    for line in lines:
        shown = answer_line(line.decode("utf-8", "surrogateescape").rstrip("\n"))
        out.write(shown.encode("utf-8", "surrogateescape") + b"\n")
        out.flush()
    return 0


def main(words):
    ways = {"script": to_script, "answers": to_answers}
    if words in (["-h"], ["--help"]):
        print(__doc__)
        return 0
    if len(words) != 1 or words[0] not in ways:
        print(__doc__, file=sys.stderr)
        return 1
    signal.signal(signal.SIGPIPE, signal.SIG_DFL)
    try:
        status = ways[words[0]](sys.stdin.buffer, sys.stdout.buffer)
        sys.stdout.flush()
        return status
    except OSError as why:
        print("text: %s" % why.strerror, file=sys.stderr)
        os.dup2(os.open(os.devnull, os.O_WRONLY), sys.stdout.fileno())
        return OUTPUT


if __name__ == "__main__":
    sys.exit(main(sys.argv[1:]))
