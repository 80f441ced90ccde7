# Read by the scripts that measure the program (with `.`), which name this folder as $here: the program, built, as $depot, unless DEPOT
# names one; the unit of time; and how a run is measured in it. A run that ends otherwise than with status 0 ends the script.

[ -n "${DEPOT:-}" ] || "$here/../depot" key "$(printf '0%.0s' {1..64})" 2 >/dev/null
depot=${DEPOT:-$here/../crates/depot_tool/out/depot_tool}

# The processor time of a run, in seconds: the least of three where MANY is 3.
seconds() {
  local many=$1 TIMEFORMAT='%3U %3S' turn
  shift
  : >taken
  for ((turn = 0; turn < many; turn++)); do
    { time "$@" >printed; } 2>>taken || { cat printed >&2; exit 1; }
  done
  awk 'NR == 1 || $1 + $2 < least { least = $1 + $2 } END { print least }' taken
}

unit=$(seconds 3 "$depot" key "$(printf '01%.0s' {1..32})" 12) || exit 1
echo "key of height 12, the unit: $unit s"

# Measures a run, whose name comes first.
measure() {
  local name=$1 taken
  shift
  taken=$(seconds "${many:-1}" "$@") || exit 1
  awk -v name="$name" -v taken="$taken" -v unit="$unit" 'BEGIN { printf "%s: %.2f s, %.2f units\n", name, taken, taken / unit }'
}
