"""What a local program asks over HTTP, read strictly: keys, changes and numbers. Each fault is one line for its answer."""

import base64
import binascii
import json
import re
from typing import List, NamedTuple, Optional
from urllib.parse import quote_from_bytes

MOST_KEY, MOST_VALUE, MOST_WRITES = 255, 65_536, 16
MOST_CHANGES_BODY = 2_000_000  # 16 values of 64 KiB in base64, their keys, and what JSON adds
MOST_COPIES, MOST_WAIT, USUAL_WAIT = 256, 600.0, 10.0
FIELDS = {"key", "key64", "value", "text", "delete"}


class Bad(Exception):
    """What was asked isn't in order; the text is one line that says why."""


class Change(NamedTuple):
    """What a put does to a key: a value, or a deletion where that is None."""

    key: bytes
    value: Optional[bytes]


class Copies(NamedTuple):
    """How many members' receipts to wait for, and for how many seconds; none for 0."""

    count: int
    wait: float


def percent(key: bytes) -> str:
    """A key as text: its bytes percent-encoded, but for letters, digits and `_.~-`."""
    return quote_from_bytes(key, safe="")


def bytes_of(text: str) -> bytes:
    """The bytes of percent-encoded text. A `%` without two hex digits behind it is refused, and not taken as it is."""
    try:
        raw = text.encode("utf-8")
    except UnicodeEncodeError:
        raise Bad("the key isn't UTF-8")
    if re.search(rb"%(?![0-9A-Fa-f]{2})", raw):
        raise Bad("in a key a % stands before two hex digits")
    return re.sub(rb"%(..)", lambda it: bytes([int(it.group(1), 16)]), raw)


def reserved(key: bytes) -> bool:
    """Whether the key is that of a receipt or of a checkpoint, which no put writes."""
    return (len(key) == 40 and key.startswith(b"receipt:")) or (len(key) == 43 and key.startswith(b"checkpoint:"))


def key_in(key: bytes) -> bytes:
    """A key that may be read: 1 to 255 bytes."""
    if not 1 <= len(key) <= MOST_KEY:
        raise Bad("a key has 1 to %d bytes" % MOST_KEY)
    return key


def written(key: bytes) -> bytes:
    """A key that may be put."""
    if reserved(key_in(key)):
        raise Bad("keys of receipts and checkpoints aren't put by hand")
    return key


def value_in(value: bytes) -> bytes:
    """A value: at most 65,536 bytes."""
    if len(value) > MOST_VALUE:
        raise Bad("a value has at most %d bytes" % MOST_VALUE)
    return value


def base64_of(word, what: str) -> bytes:
    """The bytes of a word in base64, which has one spelling."""
    try:
        data = base64.b64decode(word, validate=True)
        if base64.b64encode(data).decode("ascii") == word:
            return data
    except (binascii.Error, ValueError, TypeError):
        pass
    raise Bad("%s isn't base64" % what)


def exactly_one(entry: dict, names, what: str) -> str:
    """The one of these names that the entry has."""
    found = [name for name in names if name in entry]
    if len(found) != 1:
        raise Bad("a change has one of %s: %s" % (", ".join(names), what))
    return found[0]


def change_of(entry) -> Change:
    """A change: `key` percent-encoded or `key64`, and `value` in base64, `text`, or `delete` that is true."""
    if not isinstance(entry, dict) or set(entry) - FIELDS:
        raise Bad("a change is an object with %s alone" % ", ".join(sorted(FIELDS)))
    name = exactly_one(entry, ("key", "key64"), "what is written")
    if not isinstance(entry[name], str):
        raise Bad("%s is a string" % name)
    key = written(bytes_of(entry["key"]) if name == "key" else base64_of(entry["key64"], "key64"))
    kind = exactly_one(entry, ("value", "text", "delete"), "what it is now")
    if kind == "delete":
        if entry["delete"] is not True:
            raise Bad("delete is true")
        return Change(key, None)
    if not isinstance(entry[kind], str):
        raise Bad("%s is a string" % kind)
    if kind == "value":
        return Change(key, value_in(base64_of(entry["value"], "value")))
    try:
        return Change(key, value_in(entry["text"].encode("utf-8")))
    except UnicodeEncodeError:
        raise Bad("text isn't UTF-8")


def changes_of(body: bytes) -> List[Change]:
    """The changes of `{"changes": [..]}`, 1 to 16 with each key once, in the order of their keys."""
    try:
        asked = json.loads(body)
    except (ValueError, RecursionError):
        raise Bad("the body isn't JSON")
    if not isinstance(asked, dict) or set(asked) != {"changes"} or not isinstance(asked["changes"], list):
        raise Bad('the body is {"changes": [..]}')
    if not 1 <= len(asked["changes"]) <= MOST_WRITES:
        raise Bad("a put has 1 to %d changes" % MOST_WRITES)
    changes = sorted((change_of(it) for it in asked["changes"]), key=lambda it: it.key)
    if len({it.key for it in changes}) < len(changes):
        raise Bad("a key stands twice")
    return changes


def number_in(words: dict, name: str, most: int, usual: int) -> int:
    """A whole number of the query, 0 to `most`; `usual` where it isn't there."""
    word = words.get(name)
    if word is None:
        return usual
    if not re.fullmatch("[0-9]{1,10}", word, re.ASCII) or int(word) > most:
        raise Bad("%s is a number, 0 to %d" % (name, most))
    return int(word)


def copies_in(words: dict) -> Copies:
    """`copies` and `wait` of the query."""
    word = words.get("wait", "%g" % USUAL_WAIT)
    if not re.fullmatch(r"[0-9]{1,3}(\.[0-9]{1,3})?", word, re.ASCII) or float(word) > MOST_WAIT:
        raise Bad("wait is a number of seconds, 0 to %g" % MOST_WAIT)
    return Copies(number_in(words, "copies", MOST_COPIES, 0), float(word))


def query_of(text: str, names) -> dict:
    """The words `NAME=VALUE` of a query, each of these names at most once, as they stand."""
    found = {}
    for word in text.split("&") if text else []:
        name, equals, value = word.partition("=")
        if name not in names or not equals or name in found:
            raise Bad("behind ? stand %s, each once" % " and ".join("%s=.." % it for it in names) if names else "nothing stands behind ?")
        found[name] = value
    return found


def id_in(text: str) -> bytes:
    """An update's id: 64 lower-case hex digits."""
    if not re.fullmatch("[0-9a-f]{64}", text, re.ASCII):
        raise Bad("an id is 64 digits of lower-case hex")
    return bytes.fromhex(text)
