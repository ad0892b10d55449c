#!/usr/bin/env bash
# Judges an archive of 60 MiB, some 100,000 lawful games of 59 turns, with 1, 2 and 4 workers. Prints the
# records a second and the peak memory of each, and beside them those of the yardstick, plain Rust that judges
# one record of as many bytes on one processor, where it lies beside the repository.
#
#   bench/archive.sh [BYTES] [RUNS]
#
# Each figure is the least of several interleaved runs. A line `ratio archive VALUE` gives the speed of one
# worker over the yardstick's, by processor time: more is faster. A line `ratio archive_N VALUE` gives the
# records a second with N workers over N times those with one, by real time: 1 is the most that N processors
# can give.
#
# What this machine gives at most is measured beside it: four processes at once, each one worker over a quarter
# of the archive, share nothing but the machine. `ratio archive_ceiling VALUE` gives their records a second over
# four times those of one worker. `ratio yardstick_ceiling VALUE` gives the same of the yardstick, over a record
# of a quarter of the bytes: the time of one process over that of four at once, which do four times as much.
#
# Run it on a machine that does nothing else. It needs `rt` on the path and a shell with awk.
set -euo pipefail
top=$(cd "$(dirname "${BASH_SOURCE[0]}")/.." && pwd)
. "$top/bench/measure.sh"
size=${1:-62914560}
runs=${2:-3}
yardstick=$top/../shared/yardstick/yardstick.sh
(cd "$top/crates/arimaa_archive_program" && rt run </dev/null >/dev/null)
program=$top/crates/arimaa_archive_program/out/arimaa_archive_program
room=$(mktemp -d)
trap 'rm -rf "$room"' EXIT

# A game of 600 bytes, four times as many records of it as fit into a quarter, and one game of the same size as
# all of them.
{ echo game; awk -v size=600 -f "$top/bench/to_and_fro.awk"; } >"$room/game"
quarter=$((size / 4 / $(wc -c <"$room/game")))
count=$((4 * quarter))
copies() {
  awk -v count="$1" '{ game = game $0 "\n" } END { while (count-- > 0) printf "%s", game }' "$room/game"
}
copies "$count" >"$room/archive"
copies "$quarter" >"$room/archive_quarter"
one_game() {
  awk -v size="$(wc -c <"$1")" -f "$top/bench/to_and_fro.awk"
}
one_game "$room/archive" >"$room/record"
one_game "$room/archive_quarter" >"$room/record_quarter"
echo "an archive of $(wc -c <"$room/archive") bytes and $count records"

# Runs a command with the record in so many processes at once, and prints their processor seconds and the real
# seconds until the last has ended.
seconds() {
  local TIMEFORMAT='%U %S %R' processes=$1 k
  shift
  { time {
    for ((k = 0; k < processes; k++)); do
      "$@" <"$record" >"$record.out.$k" 2>"$record.err.$k" &
    done
    wait
  }; } 2>&1 | awk '{ print $1 + $2, $3 }'
}

least_of() {
  awk -v a="${1:-$2}" -v b="$2" 'BEGIN { print (b < a ? b : a) }'
}

names=()
inputs=()
processes=()
records=()
commands=()

# row NAME INPUT PROCESSES RECORDS COMMAND: what is measured, and how many records it judges in all
row() {
  names+=("$1")
  inputs+=("$room/$2")
  processes+=("$3")
  records+=("$4")
  commands+=("$5")
}
row "1 worker" archive 1 "$count" "$program --workers 1"
row "2 workers" archive 1 "$count" "$program --workers 2"
row "4 workers" archive 1 "$count" "$program --workers 4"
row "4 processes of 1 worker" archive_quarter 4 "$count" "$program --workers 1"
if [ -x "$yardstick" ]; then
  "$yardstick" judge <"$room/game" >/dev/null 2>&1 || true
  row "yardstick judge" record 1 "$count" "$yardstick judge"
  row "yardstick judge, a quarter" record_quarter 1 "$quarter" "$yardstick judge"
  row "4 yardstick judges" record_quarter 4 "$count" "$yardstick judge"
fi
processor=()
real=()
for ((run = 0; run < runs; run++)); do
  for k in "${!commands[@]}"; do
    record=${inputs[k]}
    read -r used passed < <(seconds "${processes[k]}" ${commands[k]})
    processor[k]=$(least_of "${processor[k]-}" "$used")
    real[k]=$(least_of "${real[k]-}" "$passed")
    # whatever the number of workers, the report has the same bytes
    if ((k < 3)); then
      [ -e "$room/report" ] || cp "$record.out.0" "$room/report"
      cmp "$record.out.0" "$room/report"
    fi
  done
done
tail -n 1 "$room/report"
for k in "${!commands[@]}"; do
  record=${inputs[k]}
  awk -v name="${names[k]}" -v count="${records[k]}" -v processor="${processor[k]}" -v real="${real[k]}" \
    -v memory="$(peak_memory ${commands[k]})" 'BEGIN {
      printf "  %s: %.3f processor seconds, %.3f seconds, %.0f records a second, %s MiB at most in one process\n",
        name, processor, real, count / real, memory
    }'
done
for k in 1 2; do
  ratio "archive_$((2 * k))" "${real[0]}" "$(awk -v real="${real[k]}" -v n="$((2 * k))" 'BEGIN { print n * real }')"
done
ratio archive_ceiling "${real[0]}" "$(awk -v real="${real[3]}" 'BEGIN { print 4 * real }')"
if [ -x "$yardstick" ]; then
  ratio yardstick_ceiling "${real[5]}" "${real[6]}"
  ratio archive "${processor[4]}" "${processor[0]}"
fi
