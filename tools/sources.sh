#!/usr/bin/env bash
# Prints one checksum over the names and the bytes of all sources of the program, 64 hex digits. It sees removed files,
# and no times.
[ $# -eq 0 ] || exec sed -n 's/^# //p' "$0"
cd "$(dirname "$(readlink -f "${BASH_SOURCE[0]}")")/.." || exit 1
find crates crates.txt -name out -prune -o -type f \( -name '*.rt' -o -name '*.antt' -o -name crates.txt \) -print0 |
  LC_ALL=C sort -z | xargs -0 sha256sum | sha256sum | cut -c 1-64
