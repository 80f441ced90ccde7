#!/usr/bin/env bash
# Two nodes exchange what they wrote by files, and a third, who signs two branches, is convicted.
#
#     examples/two-nodes.sh
#
# Each node is a folder: its journal (depot.journal) is all that it keeps, and it runs from there. All lies in a room
# that is removed at the end.
set -euo pipefail
here=$(cd "$(dirname "$0")" && pwd)
depot=$here/../depot
room=$(mktemp -d)
trap 'rm -rf "$room"' EXIT
cd "$room"
mkdir one two

# A node's seed is its secret: who has it signs as that node. These are for show; a real one comes from /dev/urandom.
seed() { printf "0$1%.0s" {1..32}; }
root() { "$depot" key "$(seed "$1")" 4; }

# The roster says who is a member: for each node its number, the height of its key and its root. Both nodes are given the
# same one. Node 9 is a member too.
python3 "$here/../tools/roster.py" roster "1:4:$(root 1)" "2:4:$(root 2)" "9:4:$(root 9)" >/dev/null

# Runs node NUMBER in the folder NAME through the commands that come in, and shows what it prints.
node() {
  echo "node $2:"
  cat >"$1/script"
  (cd "$1" && "$depot" node ../roster "$(seed "$2")" 4 "$2" script) | sed 's/^/    /'
}

echo "-- Both write under one key (6b is k in hex), neither knowing of the other; each says in a hello what it has."
node one 1 <<'END'
put 6b 61
hello ../hello-of-one
END
node two 2 <<'END'
put 6b 62
hello ../hello-of-two
END

echo "-- Each makes a bundle of what the other's hello lacks, and takes the one that was made for it. Both read both writes."
node one 1 <<'END'
bundle ../hello-of-two ../for-two
END
node two 2 <<'END'
bundle ../hello-of-one ../for-one
take ../for-two
get 6b
END
node one 1 <<<$'take ../for-one\nget 6b'

echo "-- Node 1 writes above both, and node 2 takes that: the two older writes are superseded."
node two 2 <<<'hello ../hello-of-two'
node one 1 <<'END'
put 6b 63
bundle ../hello-of-two ../for-two
END
node two 2 <<<$'take ../for-two\nget 6b'

# Node 9 isn't run by depot. It signs two first updates, x and y: one for some readers, the other for others. A frame is a
# tag, a length and what it holds; 2 is a signed statement, 3 a value. The proof is the two statements, the smaller body
# first.
python3 - "$here/../acceptance/makers" <<'END'
import sys
sys.dont_write_bytecode = True
sys.path.insert(0, sys.argv[1])
from make_cases import Signer, ZEROS, proof, signed, u, update
nine = Signer(9, b"\x09" * 32, 4)
halves = []
for seq, value in enumerate([b"x", b"y"]):
    body = update(9, seq, seq + 1, ZEROS, b"k", value)
    halves.append(signed(body, nine.sign(seq, body)))
    with open("branch-%d" % seq, "wb") as out:
        out.write(b"".join(u(1, tag) + u(4, len(held)) + held for tag, held in [(2, halves[seq]), (3, value)]))
open("proof", "wb").write(proof(2, *halves))
END

echo "-- Node 9 shows x to node 1 and y to node 2. Node 1 vouches for x when it passes it on, so node 2 takes x beside y,"
echo "   convicts node 9, and reads both branches. Its hello says that one node is convicted."
node one 1 <<<'take ../branch-0'
node two 2 <<'END'
take ../branch-1
hello ../hello-of-two
END
node one 1 <<<'bundle ../hello-of-two ../for-two'
node two 2 <<'END'
take ../for-two
get 6b
hello ../hello-of-two
END

echo "-- Anyone who has the roster judges the proof."
"$depot" judge roster proof | sed 's/^/    /'
