#!/usr/bin/env bash
# Two nodes sign a checkpoint, and one of them makes a reader, which gives up what was superseded below it.
#
#     examples/checkpoint.sh
#
# As in two-nodes.sh each node is a folder, and all lies in a room that is removed at the end.
set -euo pipefail
here=$(cd "$(dirname "$0")" && pwd)
depot=$here/../depot
room=$(mktemp -d)
trap 'rm -rf "$room"' EXIT
cd "$room"
mkdir one two

# Seeds for show; a real one comes from /dev/urandom.
seed() { printf "0$1%.0s" {1..32}; }
root() { "$depot" key "$(seed "$1")" 4; }
python3 "$here/../tools/roster.py" roster "1:4:$(root 1)" "2:4:$(root 2)" >/dev/null

# Runs node NUMBER in the folder NAME through the commands that come in, and shows what it prints.
node() {
  echo "node $2:"
  cat >"$1/script"
  (cd "$1" && "$depot" node ../roster "$(seed "$2")" 4 "$2" script) | sed 's/^/    /'
}

echo "-- Node 1 puts twice, makes a checkpoint of what it has, and signs it. All that goes to node 2."
node two 2 <<<'hello ../hello-of-two'
node one 1 <<'END'
put 6b 61
put 6b 62
checkpoint ../checkpoint
bundle ../hello-of-two ../for-two
END

echo "-- No reader is made before node 2 has signed as well. The one that is made then gives up the first put."
node two 2 <<'END'
take ../for-two
trim ../checkpoint
sign ../checkpoint
trim ../checkpoint
tget 6b
hello ../hello-of-two
END

echo "-- Node 1 goes on. A reader is gone with its run; it is made again, and takes what its node doesn't have."
node one 1 <<'END'
put 6b 63
bundle ../hello-of-two ../for-two
END
node two 2 <<'END'
tget 6b
trim ../checkpoint
tgive ../for-two
tget 6b
get 6b
tgive ../for-two
END
