#!/usr/bin/env bash
# A put is settled at two of three nodes: each of the two says by a signed receipt that it holds it.
#
#     examples/settled.sh
#
# As in two-nodes.sh each node is a folder, and all lies in a room that is removed at the end.
set -euo pipefail
here=$(cd "$(dirname "$0")" && pwd)
depot=$here/../depot
room=$(mktemp -d)
trap 'rm -rf "$room"' EXIT
cd "$room"
mkdir one two

# Seeds for show; a real one comes from /dev/urandom. Node 3 is a member that isn't run here.
seed() { printf "0$1%.0s" {1..32}; }
root() { "$depot" key "$(seed "$1")" 4; }
python3 "$here/../tools/roster.py" roster "1:4:$(root 1)" "2:4:$(root 2)" "3:4:$(root 3)" >/dev/null

# Runs node NUMBER in the folder NAME through the commands that come in, and shows what it prints.
node() {
  echo "node $2:"
  cat >"$1/script"
  (cd "$1" && "$depot" node ../roster "$(seed "$2")" 4 "$2" script) | sed 's/^/    /'
}

echo "-- Node 1 puts. Its update has an id, which look.py shows; node 2 hasn't accepted it yet, and gives no receipt for it."
node one 1 <<<'put 6b 61'
id=$(python3 "$here/../tools/look.py" --whole one/depot.journal | sed -n 's/.*own update .*, id //p')
node two 2 <<END
receipt $id
hello ../hello-of-two
END

echo "-- Node 2 takes the update and its value, says by a receipt that it holds them, and sends that back."
node one 1 <<'END'
bundle ../hello-of-two ../for-two
hello ../hello-of-one
END
node two 2 <<END
take ../for-two
receipt $id
bundle ../hello-of-one ../for-one
END

echo "-- Node 1 takes the receipt and gives its own: the put is settled at two nodes, and not at three."
node one 1 <<END
take ../for-one
settled $id 1
receipt $id
settled $id 2
settled $id 3
END
