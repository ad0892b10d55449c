#!/usr/bin/env bash
# Judges a record of 64 MiB: one start line, and then a lawful game of some 4.95 million turns in which no
# position stands twice. Prints the processor time and the peak memory of the program and of `wc -l`, and of
# the yardstick, plain Rust that does the same, where it lies beside the repository. The line `memory judge VALUE`
# gives the bytes that the program holds for a turn, 1 MiB left out for all else: the record is judged as it is read,
# and its bytes are not held.
#
#   bench/judge.sh [BYTES] [RUNS]
#
# The least processor time of several interleaved runs counts. A line `ratio NAME VALUE` gives the program's
# speed over the yardstick's: more is faster. It needs the built program and a shell with awk.
set -euo pipefail
top=$(cd "$(dirname "${BASH_SOURCE[0]}")/.." && pwd)
. "$top/bench/measure.sh"
size=${1:-67108864}
runs=${2:-3}
yardstick=$top/../shared/yardstick/yardstick.sh
"$top/arimaa" judge </dev/null >/dev/null
program=$top/crates/arimaa/out/arimaa
record=$(mktemp)
trap 'rm -f "$record" "$record".*' EXIT
awk -v size="$size" -f "$top/bench/to_and_fro.awk" >"$record"

echo "a record of $(wc -c <"$record") bytes and $(wc -l <"$record") lines"
names=("arimaa judge" "wc -l")
commands=("$program judge" "wc -l")
if [ -x "$yardstick" ]; then
  "$yardstick" judge <"$record" >/dev/null
  names+=("yardstick judge")
  commands+=("$yardstick judge")
fi
measure "$record" "$runs"
awk -v peak="${peaks[0]}" -v lines="$(wc -l <"$record")" \
  'BEGIN { printf "memory judge %.1f\n", (peak - 1) * 1048576 / (lines - 1) }'
if [ -x "$yardstick" ]; then
  ratio judge "${least[2]}" "${least[0]}"
fi
