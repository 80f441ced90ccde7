#!/usr/bin/env python3
"""Builds the static library of `depot_c` over the libraries that a run of `rt ci` left in crates/*/out/rlib.

    python3 tools/library.py OUT

`rt lib` takes no library that `rt ci` made, and so proves them all once more. This proves `depot_c` alone, over those: it is for the gate, which
has just made them of the same sources. Where one is lacking it ends with status 1, and builds nothing.
"""
import subprocess
import sys
from pathlib import Path

ROOT = Path(__file__).resolve().parent.parent
CRATE = "depot_c"


def uses_of_crates():
    """What each crate of crates.txt uses, by its name."""
    uses = {}
    for line in (ROOT / "crates.txt").read_text().splitlines():
        head, colon, tail = line.partition("#")[0].partition(":")
        if colon:
            uses[head.split()[0]] = tail.split()
    return uses


def below(crate, uses):
    """The crates of the repository on which a crate stands."""
    found = []
    for name in uses[crate]:
        if name in uses:
            found += [it for it in [*below(name, uses), name] if it not in found]
    return found


def words_over(crate, kit, uses, jobs):
    """The compiler's words for a crate over the libraries that stand."""
    rlib = lambda name: ROOT / "crates" / name / "out/rlib" / f"{name}.rlib" if name in uses else kit / "rlibs" / f"{name}.rlib"
    libraries = below(crate, uses)
    lacking = [name for name in libraries if not rlib(name).is_dir()]
    if lacking:
        sys.exit(f"no library {lacking[0]} stands: run rt ci first, or rt lib in crates/{crate}")
    given = [word for name in ["std", *uses[crate]] for word in ("--extern", f"{name}={rlib(name)}")]
    folders = [word for folder in [kit / "rlibs", *(rlib(name).parent for name in libraries)] for word in ("-L", f"dependency={folder}")]
    logic = ["--antt-project", kit / "rattle/logic/antt-project.json", "--logic-built", kit / "logic_built", "--jobs", jobs]
    return [*given, *folders, *logic, "--links", f"{crate}="]


def kit_folder():
    """Where the kit stands."""
    page = subprocess.run(["rt", "doc"], stdout=subprocess.PIPE, text=True, check=True).stdout.strip()
    return Path(page).parent


def words(kit, uses, out):
    """The compiler's words for the static library."""
    kind = ["--crate-type", "staticlib", "--toolchain", kit / "toolchain"]
    return [kit / "bin/rattle", "build", "--crate-name", CRATE, "src/lib.rt", *words_over(CRATE, kit, uses, "4"), *kind, "-o", out]


def main():
    if len(sys.argv) != 2 or sys.argv[1].startswith("-"):
        asked = sys.argv[1:] in (["-h"], ["--help"])
        print(__doc__, file=sys.stdout if asked else sys.stderr)
        sys.exit(0 if asked else 1)
    ran = subprocess.run(words(kit_folder(), uses_of_crates(), Path(sys.argv[1]).resolve()), cwd=ROOT / "crates" / CRATE)
    sys.exit(ran.returncode)


if __name__ == "__main__":
    main()
