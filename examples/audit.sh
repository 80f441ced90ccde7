#!/usr/bin/env bash
# Two nodes hand out what they have and read, and are audited; then one of them claims a read that it never had.
#
#     examples/audit.sh
#
# As in two-nodes.sh each node is a folder, and all lies in a room that is removed at the end.
set -euo pipefail
here=$(cd "$(dirname "$0")" && pwd)
depot=$here/../depot
room=$(mktemp -d)
trap 'rm -rf "$room"' EXIT
cd "$room"
mkdir one two

# Seeds for show; a real one comes from /dev/urandom.
seed() { printf "0$1%.0s" {1..32}; }
root() { "$depot" key "$(seed "$1")" 4; }
python3 "$here/../tools/roster.py" roster "1:4:$(root 1)" "2:4:$(root 2)" >/dev/null

# Runs node NUMBER in the folder NAME through the commands that come in, and shows what it prints.
node() {
  echo "node $2:"
  cat >"$1/script"
  (cd "$1" && "$depot" node ../roster "$(seed "$2")" 4 "$2" script) | sed 's/^/    /'
}

# Audits the traces of these names, and shows what it prints and its status.
audit() {
  local status=0
  "$depot" audit roster "$@" >told || status=$?
  echo "audit of $*: $(cat told), status $status"
}

echo "-- Node 1 puts; node 2 takes that, reads it, puts above it. Each hands out its trace: its records and its reads."
node two 2 <<<'hello ../hello-of-two'
node one 1 <<'END'
put 6b 61
bundle ../hello-of-two ../for-two
get 6b
export ../trace-of-one
END
node two 2 <<'END'
take ../for-two
get 6b
put 6b 62
get 6b
export ../trace-of-two
END
audit trace-of-one trace-of-two

echo "-- Node 2 changes the value of its read in its trace, from 62 to 63: its own records don't bear that out."
python3 - <<'END'
text = bytearray(open("trace-of-two", "rb").read())
assert text[-1] == 0x62
text[-1] = 0x63
open("forged", "wb").write(text)
END
audit trace-of-one forged

echo "-- Node 1 leaves its put out of its trace: then node 2 has read a write that node 1 never made."
node one 1 <<<'export ../whole' >/dev/null
python3 - <<'END'
text = open("whole", "rb").read()
first = 8 + 4 + int.from_bytes(text[8:12], "big")
open("hidden", "wb").write(text[:4] + (1).to_bytes(4, "big") + text[8:first] + bytes(4))
END
audit hidden trace-of-two
