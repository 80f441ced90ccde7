#!/usr/bin/env bash
# Builds the static library and runs the callers of this folder whose compiler is there, and the tests of tests/. It says
# what it left out. RATTLE_KIT is the kit's folder, and DEPOT the program, which is else the launcher.
cd "$(dirname "$0")/.." || exit 1
kit=${RATTLE_KIT:-/opt/rattle}
export DEPOT=${DEPOT:-$PWD/depot}
work=$(mktemp -d) || exit 1
trap 'rm -rf "$work"' EXIT
status=0
if [ -z "$DEPOT_C" ]; then
    (cd crates/depot_c && rt lib) >"$work/log" 2>&1 || { tail -5 "$work/log"; exit 1; }
    DEPOT_C=crates/depot_c/out/libdepot_c.a
fi
cp "$DEPOT_C" "$work/libdepot_c.a" || exit 1
libraries=("$work/libdepot_c.a" "$kit/c/liblibc_c.a")
one=$(printf '01%.0s' {1..32})
two=$(printf '02%.0s' {1..32})
python3 tools/roster.py "$work/roster" "1:4:$("$DEPOT" key "$one" 4)" "2:4:$("$DEPOT" key "$two" 4)" >/dev/null || exit 1

fails() {
    echo "FAIL uses: $1"
    tail -n 5 "$work/told"
    status=1
}

check() { # what, and the command
    local what=$1
    shift
    "$@" >"$work/told" 2>&1 || { fails "$what"; return; }
    echo "ok uses: $what"
}

nodes() { # a caller of two nodes prints what the others print
    mkdir "$work/$1" || return
    "${@:2}" >"$work/$1.stdout" || return
    diff "$work/$1.stdout" bindings/two_nodes.stdout
}

judged() { # a judge: each case with a proof ends as its file `status` says
    local case words roster proof want got count=0
    for case in acceptance/cases/judge_*; do
        mapfile -t words <"$case/args"
        roster=$case/data/${words[1]} proof=$case/data/${words[2]}
        [ -e "$roster" ] && [ -e "$proof" ] || continue
        want=$(cat "$case/status" 2>/dev/null || echo 0)
        "$@" "$roster" "$proof" >/dev/null
        got=$?
        [ "$got" = "$want" ] || { echo "$case: $got and not $want"; return 1; }
        count=$((count + 1))
    done
    [ "$count" -gt 0 ]
}

if command -v cc >/dev/null; then
    flags=(-std=c11 -Wall -Wextra -O1 -g -Ibindings)
    cc "${flags[@]}" -fsanitize=address,undefined -fno-sanitize-recover bindings/two_nodes.c "${libraries[@]}" -o "$work/two_nodes" &&
        check "two nodes in C, under the sanitizers and the check for leaks" nodes c "$work/two_nodes" "$work/roster" "$one" "$two" 4 "$work/c" || status=1
    cc -shared -o "$work/libdepot.so" -Wl,--whole-archive "${libraries[0]}" -Wl,--no-whole-archive "${libraries[1]}" || exit 1
    check "two nodes in Python" nodes python python3 -B bindings/two_nodes.py "$work/libdepot.so" "$work/roster" "$one" "$two" 4 "$work/python"
    cc "${flags[@]}" bindings/tests/puts.c "${libraries[@]}" -o "$work/puts" &&
        cc "${flags[@]}" -Wl,--wrap=pwrite,--wrap=fdatasync bindings/tests/puts.c bindings/tests/stop_at.c "${libraries[@]}" -o "$work/stops" &&
        check "stops in each call on the file" python3 -B bindings/tests/stopping.py "$work/puts" "$work/stops" "$work/libdepot.so" \
            "$work/roster" "$one" 4 1 || status=1
    check "puts under the keys of receipts and checkpoints, which are refused" python3 -B bindings/tests/keys.py "$work/libdepot.so" \
        "$work/roster" "$one" 4 1
    check "messages by their bytes, and each method" python3 -B bindings/tests/forms.py "$work/libdepot.so" \
        "$work/roster" "$one" 4 1
    check "${OPERATIONS:-10000} commands by chance, as the program" python3 -B bindings/tests/sessions.py "$work/libdepot.so" "${OPERATIONS:-10000}"
else
    echo "left out uses: C and Python, for want of cc"
fi
if command -v rustc >/dev/null; then
    links=(-C "link-arg=${libraries[0]}" -C "link-arg=${libraries[1]}")
    rustc --edition 2024 -O bindings/two_nodes.rs -o "$work/two_nodes_of_rust" "${links[@]}" &&
        check "two nodes in Rust" nodes rust "$work/two_nodes_of_rust" "$work/roster" "$one" "$two" 4 || status=1
    rustc --edition 2024 -O bindings/judge.rs -o "$work/judge" "${links[@]}" &&
        check "the proofs of the acceptance cases, judged from Rust" judged "$work/judge" || status=1
else
    echo "left out uses: Rust, for want of rustc"
fi
exit "$status"
