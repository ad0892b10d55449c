#!/usr/bin/env bash
# Measures the prover on some questions: questions opened a second on one worker, with every question
# counted, then the seconds with 1, 2 and 4 workers. Where a yardstick in plain Rust lies in
# ../shared/yardstick beside the repository, its speed on the same questions is measured in the same run.
# On one worker both programs say themselves how long the asking took, the making of their memory included:
# the yardstick is started by a script, whose own time would count for as much as a short question.
# Lines `ratio prove_NAME VALUE` give the project's questions a second over the yardstick's on one worker,
# `ratio asking_NAME VALUE` the same beside the making of the project's memory, which is the time of the question
# at depth 0. The yardstick's memory is handed out as it asks, so its time is taken whole.
# `ratio efficiency_N_NAME VALUE` the seconds of one worker over N times those of N workers, and
# `ratio work_N_NAME VALUE` the processor time of one worker over that of N workers together: below 1 where
# they do work twice or hinder each other. Each figure is the least of interleaved runs. Run it on a machine
# that does nothing else: with N workers, N processors have to be free. ROUNDS sets the number of runs. It
# needs `rt` on the path.
set -euo pipefail
top=$(cd "$(dirname "${BASH_SOURCE[0]}")/.." && pwd)
yardstick=$top/../shared/yardstick/yardstick.sh
rounds=${ROUNDS:-3}
lines=${LINES_OF_TABLE:-65536}
(cd "$top/crates/arimaa_pool_bench" && rt run </dev/null >/dev/null)
bench=$top/crates/arimaa_pool_bench/out/arimaa_pool_bench
record=$(mktemp)
trap 'rm -f "$record" "$record.out"' EXIT

# Runs a command with the record, and prints its processor seconds and its real seconds.
seconds() {
  local TIMEFORMAT='%U %S %R'
  { time "$@" <"$record" >"$record.out" 2>&1; } 2>&1 | awk '{ print $1 + $2, $3 }'
}

# question NAME MOVER ATTACKER DEPTH BOARD
question() {
  local name=$1 mover=$2 attacker=$3 depth=$4 board=$5 mark
  mark=$([ "$mover" = gold ] && echo 2g || echo 2s)
  echo "start $mark $board" >"$record"
  for _ in $(seq "$rounds"); do
    "$bench" count "$mover" "$attacker" "$depth" 1 "$lines" "$board" | awk '/^questions/ { print "one", $4 / 1e9, 0, $2 }'
    "$bench" count "$mover" "$attacker" 0 1 "$lines" "$board" | awk '/^questions/ { print "memory", $4 / 1e9, 0, $2 }'
    if [ -x "$yardstick" ]; then
      "$yardstick" prove "$attacker" "$depth" 1 "$lines" <"$record" | awk '/opened/ { print "yardstick", $4 / $7, 0, $4 }'
    fi
    for workers in 1 2 4; do
      echo "workers$workers $(seconds "$bench" prove "$mover" "$attacker" "$depth" "$workers" "$lines" "$board")"
    done
  done | awk -v name="$name" '
    { time = ($1 ~ /^workers/) ? $3 : $2 }
    !($1 in least) || time < least[$1] { least[$1] = time }
    !($1 in work) || $2 < work[$1] { work[$1] = $2 }
    $1 == "one" { opened = $4 }
    $1 == "yardstick" { theirs = $4 }
    function max(a, b) { return a > b ? a : b }
    END {
      one = least["one"]
      memory = least["memory"]
      printf "%s: %d questions, %.4f seconds on one worker, %.4f of them for its memory, %.0f questions a second\n", name, opened, one, memory, opened / one
      printf "  seconds with 1, 2 and 4 workers: %.3f, %.3f, %.3f\n", least["workers1"], least["workers2"], least["workers4"]
      if ("yardstick" in least) {
        other = least["yardstick"]
        printf "  yardstick: %d questions, %.4f seconds, %.0f a second\n", theirs, other, theirs / other
        printf "ratio prove_%s %.3f\n", name, (opened / one) / (theirs / other)
        printf "ratio asking_%s %.3f\n", name, (opened / max(one - memory, 1e-6)) / (theirs / other)
      }
      printf "ratio efficiency_2_%s %.3f\n", name, least["workers1"] / max(2 * least["workers2"], 0.001)
      printf "ratio efficiency_4_%s %.3f\n", name, least["workers1"] / max(4 * least["workers4"], 0.001)
      printf "ratio work_4_%s %.3f\n", name, work["workers1"] / max(work["workers4"], 0.001)
    }'
}

# some small boards, positions of random play, and a long question, which takes some seconds at depth 4
question rabbits gold gold 3 '[                       r                                R       ]'
question middle_1 gold gold 1 '[ r r        ddr h   Er m c   e HRR RRrh     DR r R D  R       R ]'
question middle_3 gold gold 1 '[r m  r rh          dr   RRe  Crr     hR H   E R  R  D H   RD  RR]'
question middle_4 silver silver 1 '[      r rcrd r   hrc   CH e  DrhR m   RRM   R R   RRH       D E ]'
question middle_5 silver gold 2 '[           d   r    R    r R dr  Hr   rR    D  R       RD   R   ]'
question long gold gold 3 '[ r r                   E        r           R                   ]'
question longer gold gold 4 '[ r r                   E        r           R                   ]'
