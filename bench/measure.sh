# Measures commands with a record as their input. Other scripts read this file; it runs nothing by itself.
#
# names=(..) and commands=(..) say what is measured; `measure` prints a line for each, and leaves the least
# processor times in least=(..) and the peaks of memory in peaks=(..).

# Runs a command with the record, and prints its processor seconds.
processor_seconds() {
  local TIMEFORMAT='%U %S'
  { time "$@" <"$record" >"$record.out" 2>"$record.err" || true; } 2>&1 | awk '{ printf "%.3f\n", $1 + $2 }'
}

# Runs a command with the record, and prints its peak memory in MiB.
peak_memory() {
  local peak=0 now
  "$@" <"$record" >"$record.out" 2>"$record.err" &
  local child=$!
  while now=$(awk '/^VmHWM/ { print $2 }' "/proc/$child/status" 2>/dev/null) && [ -n "$now" ]; do
    peak=$now
    sleep 0.02
  done
  wait "$child" || true
  awk -v peak="$peak" 'BEGIN { printf "%.1f\n", peak / 1024 }'
}

# measure RECORD RUNS
measure() {
  record=$1
  local runs=$2 run k now
  least=()
  peaks=()
  for ((run = 0; run < runs; run++)); do
    for k in "${!commands[@]}"; do
      now=$(processor_seconds ${commands[k]})
      least[k]=$(awk -v a="${least[k]:-$now}" -v b="$now" 'BEGIN { print (b < a ? b : a) }')
    done
  done
  for k in "${!commands[@]}"; do
    peaks[k]=$(peak_memory ${commands[k]})
    printf '  %s: %s processor seconds, %s MiB at most\n' \
      "${names[k]}" "${least[k]}" "${peaks[k]}"
    sed 's/^/    /' "$record.out" | head -3
  done
}

# ratio NAME YARDSTICK PROJECT: the project's speed over the yardstick's, from processor seconds.
ratio() {
  awk -v name="$1" -v yardstick="$2" -v project="$3" \
    'BEGIN { printf "ratio %s %.2f\n", name, yardstick / project }'
}
