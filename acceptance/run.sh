#!/usr/bin/env bash
# Runs each case of cases/ on the built program, and prints 'N passed, N failed'.
#
# A case is a folder: args (one word a line), stdout (what the program must write), status (its exit status, 0 where there
# is no such file), data/ (the files that lie where it runs, if it reads any) or folder (the folder of this repository that
# they are copied from), stdin (what comes over standard input, if anything), and out (the file that it writes to in place
# of the one that is compared, if any). Where it is run more than once, the further words are in args.2, args.3 and so on,
# and what comes in stdin.2 and so on; status then has a line a run, and stdout is of all of them. Where it runs deeper than
# where the files lie, at (at.2, at.3) names the folder. Afterwards the files that lie there are those of after/, if there is
# one, and those of data/ that it doesn't have, and no others. Names of cases may be given as words.
here=$(cd "$(dirname "$0")" && pwd)
passed=0
failed=0
room=$(mktemp -d)
trap 'rm -rf "$room"' EXIT

# The program is built before the first case, so that no case waits for it.
"$here/../depot" key "$(printf '0%.0s' {1..64})" 2 >/dev/null

# The words of a run, one a line, its folder, the file that it writes to and the one that comes in.
run_once() {
  local words
  mapfile -t words <"$1"
  (cd "$2" && "$here/../depot" "${words[@]}" >>"$3" <"$4")
}

run_case() {
  local case=$1 place="$room/$2" wanted="$room/$2.wanted" written="$room/$2.stdout" status statuses out input end="" number=1 deeper
  mkdir -p "$place"
  touch "$written"
  [ ! -d "$case/data" ] || cp -r "$case/data/." "$place"
  [ ! -f "$case/folder" ] || cp -r "$here/../$(cat "$case/folder")/." "$place"
  cp -r "$place" "$wanted"
  [ ! -d "$case/after" ] || cp -r "$case/after/." "$wanted"
  mapfile -t statuses < <(cat "$case/status" 2>/dev/null)
  out=$(cat "$case/out" 2>/dev/null || echo "$written")
  while [ -f "$case/args$end" ]; do
    deeper=$(cat "$case/at$end" 2>/dev/null)
    input=$case/stdin$end
    [ -f "$input" ] || input=/dev/null
    run_once "$case/args$end" "$place/$deeper" "$out" "$input"
    status=$?
    if [ "$status" -ne "${statuses[number - 1]:-0}" ]; then
      echo "$2: status $status of args$end, wanted ${statuses[number - 1]:-0}"
      return 1
    fi
    number=$((number + 1))
    end=.$number
  done
  if ! cmp -s "$written" "$case/stdout"; then
    echo "$2: wrote other text than $case/stdout"
    diff "$case/stdout" "$written" | head -n 5
    return 1
  fi
  diff -rq "$wanted" "$place" >"$room/$2.diff" && return 0
  echo "$2: left other files"
  head -n 5 "$room/$2.diff"
  return 1
}

for args in "$here"/cases/*/args; do
  case=$(dirname "$args")
  name=$(basename "$case")
  [ $# -eq 0 ] || [[ " $* " == *" $name "* ]] || continue
  if run_case "$case" "$name"; then passed=$((passed + 1)); else failed=$((failed + 1)); fi
done
echo "$passed passed, $failed failed"
[ "$failed" -eq 0 ] && [ "$passed" -gt 0 ]
