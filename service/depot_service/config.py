"""The config of a member: one file of sections and options (service/README.md, "Options"). Each mistake is one line, and status 78.

Names of files are as seen from the config's folder.
"""

import configparser
import dataclasses
import ipaddress
import os
import re
from typing import Callable, Dict, Optional

from .ends import CONFIG, Ends
from .node import MOST_WAITING, Member
from . import ROOT


@dataclasses.dataclass(frozen=True)
class Address:
    """Where to listen, or whom to call."""

    host: str
    port: int

    def __str__(self) -> str:
        return "%s:%d" % ("[%s]" % self.host if ":" in self.host else self.host, self.port)

    def is_loopback(self) -> bool:
        """Whether only programs of this machine reach it. A name but `localhost` may be that of any machine."""
        try:
            return self.host == "localhost" or ipaddress.ip_address(self.host).is_loopback
        except ValueError:
            return False


@dataclasses.dataclass(frozen=True)
class Peer:
    """Another member: where it listens (None: it calls, and isn't called), and SHA-256 of its certificate."""

    node: int
    address: Optional[Address]
    certificate: bytes


@dataclasses.dataclass(frozen=True)
class Links:
    """Where this member listens for others, with its certificate and the key of that (files of PEM)."""

    listen: Optional[Address]
    certificate: str
    key: str


@dataclasses.dataclass(frozen=True)
class Leaves:
    """How many leaves of the key go to others: a bucket each that fills so fast a day, and holds so many at most."""

    vouchers_a_day: float = 400.0
    most_vouchers: int = 200
    receipts_a_day: float = 400.0
    most_receipts: int = 64


@dataclasses.dataclass(frozen=True)
class Pace:
    """Seconds: between pushes and rounds with one member, of waits behind a fault, of those who don't move or are convicted."""

    push: float = 0.05
    round: float = 10.0
    again: float = 0.5
    most_again: float = 60.0
    unmoved: float = 5.0
    most_unmoved: float = 600.0
    convicted: float = 60.0


@dataclasses.dataclass(frozen=True)
class Limits:
    """What a link may take: bytes of a bundle, new vouchers in one, links at once, seconds, bytes a second."""

    bundle_bytes: int = 262_144
    vouchers: int = 4
    links: int = 64
    links_each: int = 4
    greet_seconds: float = 10.0
    wait_seconds: float = 30.0
    idle_seconds: float = 120.0
    exchange_seconds: float = 600.0
    least_rate: int = 4_096
    waiting: int = MOST_WAITING
    stop_seconds: float = 10.0


@dataclasses.dataclass(frozen=True)
class Carrier:
    """A folder that all can write: seconds between looks, until what nobody answered is relayed, until a file is dropped; bounds."""

    folder: str
    pace: float = 5.0
    relay: float = 60.0
    keep: float = 86_400.0
    most_files: int = 256
    most_bytes: int = 67_108_864


@dataclasses.dataclass(frozen=True)
class Http:
    """Where the local program's requests come in; on loopback alone."""

    listen: Address


@dataclasses.dataclass(frozen=True)
class Config:
    """All of it. What isn't there is None, or empty."""

    path: str
    member: Member
    links: Optional[Links]
    peers: Dict[int, Peer]
    http: Optional[Http]
    carrier: Optional[Carrier]
    leaves: Leaves
    pace: Pace
    limits: Limits


class Wrong(Exception):
    """A value that isn't right; the text says why."""


# ---- values


def whole(least: int, most: int) -> Callable[[str], int]:
    """Reads a whole number in a range."""

    def read(word: str) -> int:
        if not re.fullmatch("[0-9]{1,12}", word) or not least <= int(word) <= most:
            raise Wrong("%r is no whole number from %d to %d" % (word, least, most))
        return int(word)

    return read


def decimal(least: float, most: float) -> Callable[[str], float]:
    """Reads a number in a range."""

    def read(word: str) -> float:
        if not re.fullmatch(r"[0-9]{1,12}(\.[0-9]{1,6})?", word) or not least <= float(word) <= most:
            raise Wrong("%r is no number from %g to %g" % (word, least, most))
        return float(word)

    return read


def address(word: str) -> Address:
    """Reads HOST:PORT, of which HOST may stand in brackets."""
    found = re.fullmatch(r"(?:\[([0-9A-Fa-f:.]+)\]|([A-Za-z0-9.-]+)):([0-9]{1,5})", word)
    if not found or not 1 <= int(found.group(3)) <= 65535:
        raise Wrong("%r isn't HOST:PORT" % word)
    return Address(found.group(1) or found.group(2), int(found.group(3)))


def loopback(word: str) -> Address:
    """Reads the address of a loopback interface."""
    found = address(word)
    if not found.is_loopback():
        raise Wrong("%s isn't an address of loopback, as 127.0.0.1: whoever reaches it writes in this member's name" % found)
    return found


def fingerprint(word: str) -> bytes:
    """Reads SHA-256 of a certificate; colons between bytes are as `openssl x509 -fingerprint` prints them."""
    digits = word.replace(":", "").lower()
    if not re.fullmatch("[0-9a-f]{64}", digits):
        raise Wrong("%r isn't a SHA-256 in hex" % word)
    return bytes.fromhex(digits)


NODE, COUNT, SECONDS = whole(1, 65535), whole(1, 1_000_000), decimal(0.01, 31_536_000)
READERS = {
    "number": NODE, "height": whole(2, 17), "listen": address, "address": address,
    "vouchers_a_day": decimal(0, 10_000_000), "receipts_a_day": decimal(0, 10_000_000),
    "most_vouchers": whole(0, 131_072), "most_receipts": whole(0, 131_072), "vouchers": whole(0, 1_000_000),
    "bundle_bytes": whole(4_096, 8_388_608), "least_rate": whole(1, 1_000_000_000), "most_bytes": whole(1_048_576, 1 << 40),
    "most_files": whole(4, 100_000), "links": COUNT, "links_each": COUNT, "waiting": COUNT,
}


class Section:
    """One section of a config."""

    def __init__(self, config: "Reader", name: str):
        self.config, self.name = config, name
        self.words = dict(config.parser[name]) if config.parser.has_section(name) else {}

    def wrong(self, option: str, why: str) -> Ends:
        """The fault of an option."""
        return Ends(CONFIG, "%s: [%s] %s: %s" % (self.config.path, self.name, option, why))

    def value(self, option: str, read, default=None):
        """The value of an option; `default` where it isn't there, or a fault where that is None."""
        word = self.words.pop(option, None)
        if word is None:
            if default is None:
                raise self.wrong(option, "it has to be there")
            return default
        try:
            return read(word.strip())
        except Wrong as why:
            raise self.wrong(option, str(why))

    def path(self, option: str, default=None) -> str:
        """The name of a file, as seen from the current folder."""

        def read(word: str) -> str:
            if not word:
                raise Wrong("it names no file")
            return os.path.normpath(os.path.join(os.path.dirname(self.config.path), word))

        return self.value(option, read, default)

    def over(self, defaults):
        """A record of numbers, with what the section says in place of its defaults."""
        found = {}
        for field in dataclasses.fields(defaults):
            if field.type in (int, float):
                option, default = field.name.replace("_", " "), getattr(defaults, field.name)
                found[field.name] = self.value(option, READERS.get(field.name, SECONDS), default)
        return dataclasses.replace(defaults, **found)

    def end(self) -> None:
        """No other option may stand there."""
        for option in self.words:
            raise self.wrong(option, "there is no such option here")


class Reader:
    """Reads one config."""

    def __init__(self, path: str):
        self.path = path
        self.parser = configparser.ConfigParser(interpolation=None, default_section="\0", delimiters=("=",), comment_prefixes=("#",))
        try:
            with open(path, encoding="utf-8") as file:
                self.parser.read_file(file)
        except OSError as why:
            raise Ends(CONFIG, "%s: %s" % (path, why.strerror))
        except (configparser.Error, UnicodeDecodeError) as why:
            raise Ends(CONFIG, "%s: %s" % (path, " ".join(str(why).split())))

    def section(self, name: str) -> Section:
        """A section, that may not be there."""
        return Section(self, name)

    def has(self, name: str) -> bool:
        """Whether a section is there."""
        return self.parser.has_section(name)

    def read(self) -> Config:
        """The config."""
        for name in self.parser.sections():
            if name not in ("member", "links", "http", "carrier", "leaves", "pace", "limits") and not name.startswith("peer "):
                raise Ends(CONFIG, "%s: [%s]: there is no such section" % (self.path, name))
        member = self.member()
        peers = self.peers(member.node)
        links = self.links() if self.has("links") else None
        if peers and links is None:
            raise Ends(CONFIG, "%s: there are peers, and no [links] with this member's certificate" % self.path)
        return Config(self.path, member, links, peers, self.http(), self.carrier(), *(self.numbers(*it) for it in NUMBERS))

    def numbers(self, name: str, defaults):
        """A section of numbers alone."""
        section = self.section(name)
        found = section.over(defaults)
        section.end()
        return found

    def member(self) -> Member:
        """The section of the member."""
        section = self.section("member")
        number, height = section.value("number", NODE), section.value("height", READERS["height"])
        roster, seed, folder = section.path("roster"), section.path("seed"), section.path("folder")
        found = Member(number, height, roster, seed, folder, section.path("program", os.path.join(ROOT, "depot")))
        section.end()
        return found

    def links(self) -> Links:
        """The section of links to others. Without `listen` the member calls alone."""
        section = self.section("links")
        listen = section.value("listen", address) if "listen" in section.words else None
        found = Links(listen, section.path("certificate"), section.path("key"))
        section.end()
        return found

    def peers(self, own: int) -> Dict[int, Peer]:
        """The other members, each a section of its own."""
        found: Dict[int, Peer] = {}
        for name in (it for it in self.parser.sections() if it.startswith("peer ")):
            peer = self.peer(name)
            if peer.node == own or peer.node in found:
                raise Ends(CONFIG, "%s: [%s]: node %d stands twice" % (self.path, name, peer.node))
            if any(it.certificate == peer.certificate for it in found.values()):
                raise Ends(CONFIG, "%s: [%s] certificate: another peer has it" % (self.path, name))
            found[peer.node] = peer
        return found

    def peer(self, name: str) -> Peer:
        """One other member. Without `address` it isn't called, and calls."""
        section = self.section(name)
        try:
            node = NODE(name[len("peer ") :].strip())
        except Wrong as why:
            raise Ends(CONFIG, "%s: [%s]: %s" % (self.path, name, why))
        where = section.value("address", address) if "address" in section.words else None
        found = Peer(node, where, section.value("certificate", fingerprint))
        section.end()
        return found

    def http(self) -> Optional[Http]:
        """Where the local program asks, if anywhere."""
        if not self.has("http"):
            return None
        section = self.section("http")
        found = Http(section.value("listen", loopback))
        section.end()
        return found

    def carrier(self) -> Optional[Carrier]:
        """The folder of exchange, if there is one."""
        if not self.has("carrier"):
            return None
        section = self.section("carrier")
        found = section.over(Carrier(section.path("folder")))
        section.end()
        return found


NUMBERS = (("leaves", Leaves()), ("pace", Pace()), ("limits", Limits()))


def read_config(path: str) -> Config:
    """The config in a file; Ends with status 78 and one line of what is wrong where it is none."""
    return Reader(path).read()
