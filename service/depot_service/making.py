"""Makes what a member needs: a seed, a certificate with its key, a folder for the journal; and members on one machine.

    make_member FOLDER NUMBER HEIGHT [--program PATH]           prints what the others have to know of it
    make_local FOLDER HEIGHT COUNT [--port PORT] [--program PATH]   COUNT members on loopback, with roster and configs
"""

import argparse
import os
import secrets
import ssl
import subprocess
import sys
from typing import List, NamedTuple

from . import ROOT
from .ends import CONFIG, Ends

import formats
from words import Parser, positive

SUBJECT = "/CN=depot-member-%d"
DAYS = 36_500
MOST_LOCAL = 50
FAST = "round = 2\n"


class Made(NamedTuple):
    """What the others have to know of a member: its place in the roster, and SHA-256 of its certificate."""

    member: formats.Member
    certificate: str


def run(words: List[str], what: str) -> str:
    """What a program prints; Ends where it can't be run or refuses."""
    try:
        ran = subprocess.run(words, stdout=subprocess.PIPE, stderr=subprocess.PIPE, stdin=subprocess.DEVNULL)
    except OSError as why:
        raise Ends(CONFIG, "%s can't be run, which %s: %s" % (words[0], what, why.strerror))
    if ran.returncode:
        told = (ran.stderr or ran.stdout).decode("utf-8", "replace").split("\n")[0]
        raise Ends(CONFIG, "%s, which %s, ended with %d: %s" % (words[0], what, ran.returncode, told))
    return ran.stdout.decode("ascii", "replace")


def write_secret(path: str, text: str) -> None:
    """Writes a file that this user alone may read, and that wasn't there."""
    with open(path, "x", encoding="ascii", opener=lambda name, flags: os.open(name, flags, 0o600)) as file:
        file.write(text)


def fingerprint_of(path: str) -> str:
    """SHA-256 of a certificate in a file of PEM."""
    with open(path, encoding="ascii") as file:
        return formats.sha256(ssl.PEM_cert_to_DER_cert(file.read())).hex()


def make_certificate(folder: str, node: int) -> str:
    """Makes a key and a certificate that it signs itself; SHA-256 of that."""
    key, certificate = os.path.join(folder, "key.pem"), os.path.join(folder, "certificate.pem")
    write_secret(key, "")
    curve = ["-newkey", "ec", "-pkeyopt", "ec_paramgen_curve:prime256v1", "-nodes"]
    words = ["openssl", "req", "-x509", *curve, "-days", str(DAYS), "-subj", SUBJECT % node, "-keyout", key, "-out", certificate]
    run(words, "makes the certificate")
    return fingerprint_of(certificate)


def make_member(folder: str, node: int, height: int, program: str) -> Made:
    """Makes the files of a member in a folder that wasn't there."""
    try:
        os.makedirs(folder, 0o700)
        os.mkdir(os.path.join(folder, "node"))
        seed = secrets.token_hex(32)
        write_secret(os.path.join(folder, "seed"), seed + "\n")
        certificate = make_certificate(folder, node)
    except OSError as why:
        raise Ends(CONFIG, "%s: %s" % (why.filename, why.strerror))
    root = run([program, "key", seed, str(height)], "makes the key").strip()
    try:
        return Made(formats.Member(node, height, bytes.fromhex(root)), certificate)
    except ValueError:
        raise Ends(CONFIG, "%s printed no root of a key: %s" % (program, root))


def local_config(made: Made, others: List[Made], port: int, program: str) -> str:
    """The config of a member on loopback."""
    node = made.member.node
    parts = [
        "[member]\nnumber = %d\nheight = %d\nroster = roster\n" % (node, made.member.height),
        "seed = member%d/seed\nfolder = member%d/node\nprogram = %s\n\n" % (node, node, os.path.abspath(program)),
        "[links]\nlisten = 127.0.0.1:%d\ncertificate = member%d/certificate.pem\nkey = member%d/key.pem\n\n" % (port + node, node, node),
        "[http]\nlisten = 127.0.0.1:%d\n\n[pace]\n%s" % (port + 100 + node, FAST),
    ]
    for it in others:
        parts.append("\n[peer %d]\naddress = 127.0.0.1:%d\ncertificate = %s\n" % (it.member.node, port + it.member.node, it.certificate))
    return "".join(parts)


def make_local(folder: str, height: int, count: int, port: int, program: str) -> List[str]:
    """Makes members on loopback; the names of their configs."""
    found = [make_member(os.path.join(folder, "member%d" % node), node, height, program) for node in range(1, count + 1)]
    paths = []
    with open(os.path.join(folder, "roster"), "xb") as file:
        file.write(formats.roster_text([it.member for it in found]))
    for made in found:
        paths.append(os.path.join(folder, "%d.conf" % made.member.node))
        with open(paths[-1], "x", encoding="utf-8") as file:
            file.write(local_config(made, [it for it in found if it is not made], port, program))
    return paths


# ---- words


def in_range(least: int, most: int):
    """Reads a whole number in a range."""

    def read(word: str) -> int:
        if not (word.isascii() and word.isdecimal() and least <= int(word) <= most):
            raise argparse.ArgumentTypeError("%s is no number from %d to %d" % (word, least, most))
        return int(word)

    return read


def parser() -> Parser:
    """What both have in common."""
    found = Parser(__doc__)
    found.add_argument("folder", metavar="FOLDER")
    found.add_argument("--program", metavar="PATH", default=os.path.join(ROOT, "depot"))
    return found


def told(make) -> int:
    """Prints what was made; one line, and the status, where it wasn't."""
    try:
        print("\n".join(make()))
        return 0
    except (Ends, OSError) as why:
        print("depot: %s" % why, file=sys.stderr)
        return getattr(why, "status", CONFIG)


def member_main(words: List[str]) -> int:
    """The tool make_member."""
    reader = parser()
    reader.add_argument("number", metavar="NUMBER", type=in_range(1, 65535))
    reader.add_argument("height", metavar="HEIGHT", type=in_range(formats.LEAST_HEIGHT, formats.GREATEST_HEIGHT))
    it = reader.parse_args(words)

    def make():
        made = make_member(it.folder, it.number, it.height, it.program)
        root = "%d:%d:%s" % (it.number, it.height, made.member.root.hex())
        return ["for tools/roster.py: %s" % root, "for the others' [peer %d]: certificate = %s" % (it.number, made.certificate)]

    return told(make)


def local_main(words: List[str]) -> int:
    """The tool make_local."""
    reader = parser()
    reader.add_argument("height", metavar="HEIGHT", type=in_range(formats.LEAST_HEIGHT, formats.GREATEST_HEIGHT))
    reader.add_argument("count", metavar="COUNT", type=in_range(1, MOST_LOCAL))
    reader.add_argument("--port", metavar="PORT", type=positive, default=17_000)
    it = reader.parse_args(words)
    return told(lambda: make_local(it.folder, it.height, it.count, it.port, it.program))
