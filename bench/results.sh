#!/usr/bin/env bash
# Times, at the last position of each record, a list of results by layers, the walk over all lists of steps that finds
# nothing, and `prove SIDE 1` where it answers no. Where a yardstick in plain Rust lies in ../shared/yardstick beside the
# repository, its records are taken, its lists are timed in the same run, and lines `ratio NAME VALUE` give the project's
# speed over the yardstick's list (more is faster). Each figure is the least processor time of some interleaved runs, each
# of which makes so many lists or walks that the start of the program counts for little. Before it is timed, the list by
# layers is compared with the walk's, place by place; where they differ the script ends with status 1.
#
#   bench/results.sh [NAME..]
#
# NAME names a record without its ending; all are taken where none is named. It needs `rt` on the path, and for `prove`
# the built program. ROUNDS sets the number of runs, and NO_PROVE=1 leaves out `prove`.
set -euo pipefail
top=$(cd "$(dirname "${BASH_SOURCE[0]}")/.." && pwd)
. "$top/bench/measure.sh"
yardstick=$top/../shared/yardstick/yardstick.sh
rounds=${ROUNDS:-3}
(cd "$top/crates/arimaa_results_bench" && rt run </dev/null >/dev/null)
bench=$top/crates/arimaa_results_bench/out/arimaa_results_bench
records=$(mktemp -d)
trap 'rm -rf "$records" "$records".*' EXIT
[ ! -x "$yardstick" ] || "$yardstick" next <"$top/../shared/yardstick/positions/rabbits.txt" >/dev/null
[ -n "${NO_PROVE:-}" ] || "$top/arimaa" judge </dev/null >/dev/null

if [ -d "$top/../shared/yardstick/positions" ]; then
  cp "$top"/../shared/yardstick/positions/*.txt "$records"
else
  echo 'start 2g [rrrddrrrrhcemchr                                RHCMECHRRRRDDRRR]' >"$records/opening.txt"
  echo 'start 9g [   r r  rr  m rr chde d     E hc HCM       D C  RRR DR RR  R    ]' >"$records/middle.txt"
  echo 'start 2g [                       r                                R       ]' >"$records/rabbits.txt"
fi

# The side to move and the board text after a lawful record of a start line, or of setups and turns.
position() {
  awk '
    function square(name) { return (substr(name, 2, 1) - 1) * 8 + index("abcdefgh", substr(name, 1, 1)) - 1 }
    BEGIN { for (s = 0; s < 64; s++) board[s] = " "; way["n"] = 8; way["e"] = 1; way["s"] = -8; way["w"] = -1 }
    $1 == "start" {
      side = substr($2, length($2)) == "g" ? "gold" : "silver"
      text = substr($0, index($0, "[") + 1, 64)
      for (s = 0; s < 64; s++) board[s] = substr(text, (7 - int(s / 8)) * 8 + s % 8 + 1, 1)
      next
    }
    /^[0-9]+[gs]/ {
      side = substr($1, length($1)) == "g" ? "silver" : "gold"
      for (i = 2; i <= NF; i++) {
        from = square(substr($i, 2, 2)); action = substr($i, 4)
        if (action == "") board[from] = substr($i, 1, 1)
        else {
          board[from] = " "
          if (action != "x") board[from + way[action]] = substr($i, 1, 1)
        }
      }
    }
    END {
      text = ""
      for (row = 7; row >= 0; row--) for (column = 0; column < 8; column++) text = text board[row * 8 + column]
      print side
      print "[" text "]"
    }' "$1"
}

# The least processor seconds of one list or walk: runs the bench with so many rounds.
bench_seconds() {
  local word=$1 rounds=$2
  record=/dev/null
  processor_seconds "$bench" "$word" "$side" "$board" "$rounds" | awk -v rounds="$rounds" '{ printf "%.9f\n", $1 / rounds }'
}

# How many lists or walks take about a second, by the least time of ten.
rounds_for() {
  "$bench" "$1" "$side" "$board" 10 | awk '{ rounds = int(1e9 / $4); print (rounds < 1 ? 1 : rounds > 100000 ? 100000 : rounds) }'
}

# The processor seconds of `prove SIDE 1` for a side.
prove_seconds() {
  record=$1
  processor_seconds "$top/crates/arimaa/out/arimaa" prove "$2" 1
}

# The processor seconds of one of the yardstick's lists: it makes lists for a second and a half, and tells how many a second.
yardstick_seconds() {
  record=$1
  local seconds
  seconds=$(processor_seconds "$yardstick" next)
  awk -v seconds="$seconds" '{ printf "%.9f\n", seconds / (1.5 * $6) }' "$record.out"
}

for path in "$records"/*.txt; do
  name=$(basename "$path" .txt)
  [ $# -eq 0 ] || [[ " $* " == *" $name "* ]] || continue
  { IFS= read -r side; IFS= read -r board; } < <(position "$path")
  places=$("$bench" list "$side" "$board" 1 | awk '{ print $2 }')
  "$bench" agree "$side" "$board" | grep -q '^agree true' || { echo "the layers and the walk differ: $name"; exit 1; }
  lists=$(rounds_for list)
  walks=$(rounds_for walk)
  asked=
  if [ -z "${NO_PROVE:-}" ]; then
    for attacker in gold silver; do
      [ -n "$asked" ] || ! ("$top/arimaa" prove "$attacker" 1 <"$path" || true) | head -n 1 | grep -q '^no' || asked=$attacker
    done
  fi
  for _ in $(seq "$rounds"); do
    echo "list $(bench_seconds list "$lists")"
    echo "walk $(bench_seconds walk "$walks")"
    [ -z "$asked" ] || echo "prove $(prove_seconds "$path" "$asked")"
    [ ! -x "$yardstick" ] || echo "yardstick $(yardstick_seconds "$path")"
  done | awk -v name="$name" -v places="$places" '
    !($1 in least) || $2 < least[$1] { least[$1] = $2 }
    END {
      list = least["list"]
      printf "%s: %d places, list %.3f ms (%.0f lists and %.2f million places a second), walk %.2f ms", name, places,
        list * 1e3, 1 / list, places / list / 1e6, least["walk"] * 1e3
      if ("prove" in least) printf ", prove %.1f ms", least["prove"] * 1e3
      if ("yardstick" in least) printf ", yardstick %.3f ms", least["yardstick"] * 1e3
      printf "\n"
      if ("yardstick" in least) {
        printf "ratio list_%s %.3f\n", name, least["yardstick"] / list
        printf "ratio walk_%s %.4f\n", name, least["yardstick"] / least["walk"]
        if (least["prove"] > 0) printf "ratio prove_%s %.5f\n", name, least["yardstick"] / least["prove"]
      }
    }'
done
