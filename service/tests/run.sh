#!/usr/bin/env bash
# The tests of the service, on 127.0.0.1 alone: a line a test, and a last line of counts. Each is bounded in time.
#   service/tests/run.sh [NAME ..]     DEPOT_PROGRAM: the program, by default the launcher `depot` of this tree
#                                      JOBS: how many of those that take long run at one time (2)
cd "$(dirname "$0")" || exit 1
export DEPOT_PROGRAM=${DEPOT_PROGRAM:-${DEPOT:-$PWD/../../depot}} PYTHONDONTWRITEBYTECODE=1
export DEPOT=$DEPOT_PROGRAM
room=$(mktemp -d) || exit 1
trap 'rm -rf "$room"' EXIT
export TMPDIR=$room
# Makes the program ready once, so that no test waits for it.
"$DEPOT_PROGRAM" key 0000000000000000000000000000000000000000000000000000000000000000 2 >"$room/ready" || exit 1

# Runs one test, and says how it went; what it printed follows where it failed.
one() {
  local name=$1 begun=$SECONDS out words
  out=$room/$(echo "$name" | tr -c 'a-z_\n' -)
  read -ra words <<<"$name"
  [ "${name#test_}" = "$name" ] || words=(-m unittest -q "${name%.py}")
  if timeout -k 5 600 /usr/bin/python3 -B -W ignore::ResourceWarning "${words[@]}" >"$out" 2>&1 </dev/null; then
    touch "$out.ok"
    echo "ok   $name ($((SECONDS - begun)) s)"
  else
    echo "FAIL $name ($((SECONDS - begun)) s)"
    tail -n 30 "$out"
  fi
}

short=(test_*.py)
long=("ends.py" "chaos.py" "chaos.py --broken --seconds 10" "carrier.py" "move.py")
if [ $# -ne 0 ]; then
  short=() long=("$@")
fi
for it in "${short[@]}"; do one "$it"; done
for it in "${long[@]}"; do
  while [ "$(jobs -rp | wc -l)" -ge "${JOBS:-2}" ]; do wait -n; done
  one "$it" &
done
wait
count=$((${#short[@]} + ${#long[@]}))
passed=$(find "$room" -maxdepth 1 -name '*.ok' | wc -l)
echo "service: $passed of $count tests passed"
[ "$passed" -eq "$count" ]
