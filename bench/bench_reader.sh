#!/usr/bin/env bash
# Prints what a reader keeps and what its takes cost, beside the node that it is made of: a journal of 20,000 updates of five writers who know
# nothing of one another, on 40 keys, of values of 1,000 bytes, which all five signed off. All keys have height 12. Memory is the resident set
# of the one process in which the node and then also the reader live, at rest; processor time is that of the command alone, in seconds and in
# units of `depot key` of height 12. COUNT is the number of updates: `COUNT=2000 bench/bench_reader.sh` is quick. Run it by hand; it is no
# timed test.
set -eu
here=$(cd "$(dirname "$0")" && pwd)
count=${COUNT:-20000}
room=$(mktemp -d)
trap 'rm -rf "$room"' EXIT
cd "$room"
. "$here/measure.sh"

seed() { printf "0$1%.0s" {1..32}; }
{
  printf 01040005
  for number in {1..5}; do printf '%04x0c%s' "$number" "$("$depot" key "$(seed "$number")" 12)"; done
} | python3 -c 'import sys; sys.stdout.buffer.write(bytes.fromhex(sys.stdin.read()))' >roster

# Runs node NUMBER in its folder through the commands that come in, under a NAME.
node() {
  mkdir -p "$1"
  cat >"$1/script"
  (cd "$1" && measure "$2" "$depot" node ../roster "$(seed "$1")" 12 "$1" script) || exit 1
}

# COUNT puts of a WRITER on 40 keys, of values of 1,000 bytes, each different from all others, from a number on.
puts() { awk -v count="$1" -v writer="$2" -v from="$3" 'BEGIN { for (i = from; i < from + count; i++) printf "put %02x %02x%01998x\n", 1 + i % 40, writer, i }'; }

echo "-- five writers put; node 1 takes what the others put, and makes a checkpoint"
for number in 1 2; do node "$number" "node $number says hello" <<<"hello ../hello-$number"; done
for number in {1..5}; do
  { puts $((count / 5)) "$number" 0; echo "bundle ../hello-$((number == 1 ? 2 : 1)) ../put-$number"; } | node "$number" "$((count / 5)) puts of node $number, and their bundle"
done
{ printf 'take ../put-%s\n' {2..5}; echo 'checkpoint ../checkpoint'; echo 'hello ../hello-1'; } | node 1 'node 1 takes, and makes a checkpoint'

echo "-- the others take as much, and sign it; node 1 takes that"
for number in {2..5}; do
  {
    for other in {1..5}; do [ "$other" = "$number" ] || echo "take ../put-$other"; done
    echo 'sign ../checkpoint'
    echo "bundle ../hello-1 ../signed-$number"
  } | node "$number" "node $number takes, and signs it"
done
{ printf 'take ../signed-%s\n' {2..5}; echo 'hello ../hello-1'; } | node 1 'node 1 takes that'
{ puts 90 2 $((count / 5)); echo 'bundle ../hello-1 ../more'; } | node 2 'node 2 puts 90 times more, and bundles that'

# Runs node 1, in a copy of its folder, through the commands that come in, with a file that it waits for behind those that end in a space. Of each wait it
# tells the memory that is held, and the time since the one before; what stands behind the first bar is then given, and behind the second what is told.
waits() {
  rm -rf waiting
  cp -r 1 waiting
  cat >waiting/commands
  (
    cd waiting && python3 - "$unit" "$depot" node ../roster "$(seed 1)" 12 1 script <<'END_OF_PROGRAM'
import os, subprocess, sys, time

unit, words = float(sys.argv[1]), sys.argv[2:]
lines = [line.split("|") for line in open("commands").read().splitlines()]

def opened(run, pipe):
    """The pipe, once the program waits for it; None where the program has ended."""
    while run.poll() is None:
        try:
            return os.open(pipe, os.O_WRONLY | os.O_NONBLOCK)
        except OSError:
            time.sleep(0.01)

def give(pipe, name):
    """Gives the program what a file has, or nothing."""
    os.set_blocking(pipe, True)
    with open(pipe, "wb") as out:
        if name:
            with open(name, "rb") as file:
                out.write(file.read())

with open("script", "w") as script:
    for place, line in enumerate(lines):
        if line[0].endswith(" "):
            os.mkfifo(f"pipe-{place}")
            line[0] += f"pipe-{place}"
        script.write(line[0] + "\n")
run = subprocess.Popen(words, stdout=open("printed", "wb"))
before = None
for place, line in enumerate(lines):
    if len(line) < 3:
        continue
    pipe = opened(run, f"pipe-{place}")
    if pipe is None:
        sys.exit(open("printed").read())
    now = time.clock_gettime((~run.pid << 3) | 2)
    held = next(int(fact.split()[1]) for fact in open(f"/proc/{run.pid}/status") if fact.startswith("VmRSS"))
    since = "" if before is None else f", {now - before:.3f} s, {(now - before) / unit:.3f} units"
    print(f"{line[2]}: {held / 1000:.1f} MB{since}", flush=True)
    before = now
    give(pipe, line[1])
sys.exit(run.wait())
END_OF_PROGRAM
  ) || exit 1
}

echo "-- the node by itself"
waits <<'END_OF_SCRIPT'
take ||the node
take |../more|a take of nothing
take ||it takes 90 updates and their values
END_OF_SCRIPT

echo "-- the node, and its reader"
waits <<'END_OF_SCRIPT'
take ||the node
trim ../checkpoint
tgive ||a reader is made: the two
tgive |../more|a take of nothing
tgive ||the reader takes 90 updates and their values
END_OF_SCRIPT
