#!/usr/bin/env bash
# Asks for a win in one turn at the end of games in which 10, 1,000 and 100,000 positions are barred, and
# prints the processor time and the peak memory of each, and beside it those of `judge`, which reads the same
# record and asks nothing. The difference is what the question costs.
#
#   bench/barred.sh [RUNS]
#
# The least processor time of several interleaved runs counts. It needs the built program and a shell with awk.
set -euo pipefail
top=$(cd "$(dirname "${BASH_SOURCE[0]}")/.." && pwd)
. "$top/bench/measure.sh"
runs=${1:-3}
"$top/arimaa" judge </dev/null >/dev/null
program=$top/crates/arimaa/out/arimaa
record=$(mktemp)
trap 'rm -f "$record" "$record".*' EXIT

for barred in 10 1000 100000; do
  awk -v barred="$barred" -f "$top/bench/to_and_fro.awk" >"$record"
  echo "$barred barred positions, $(wc -l <"$record") lines"
  names=("arimaa judge" "arimaa prove gold 1")
  commands=("$program judge" "$program prove gold 1")
  measure "$record" "$runs"
  awk -v judge="${least[0]}" -v prove="${least[1]}" \
    'BEGIN { printf "  the question: %.2f seconds\n", prove - judge }'
done
