#!/usr/bin/env bash
# Proves a win and checks its strategy, at boards where Silver is to move and Gold's rabbit goes to the goal row whatever
# Silver does.
#
#   bench/strategy.sh [RUNS]
#
# The first boards are won in two turns: an entry for each undecided reply, 89 to 22,659 of them, each of which wins at
# once, so that only the list of the root is made. The others are won in four turns, and each entry of rank 3 asks for a
# list of replies. A line gives the entries, those of them that ask for a list, and the least processor times of `prove`
# and of `check` in some runs. An entry is found by an index, so an entry takes no more time where there are more of them.
# It needs the built program and a shell with awk. Run it on a machine that does nothing else.
set -euo pipefail
top=$(cd "$(dirname "${BASH_SOURCE[0]}")/.." && pwd)
. "$top/bench/measure.sh"
runs=${1:-3}
"$top/arimaa" judge </dev/null >/dev/null
program=$top/crates/arimaa/out/arimaa
files=$(mktemp -d)
trap 'rm -rf "$files"' EXIT

# The least processor seconds of some runs of a command with the record.
least() {
  for _ in $(seq "$runs"); do processor_seconds "$program" "$@"; done | sort -g | head -n 1
}

while IFS= read -r line; do
  depth=${line%% *}
  record=$files/record
  printf 'start 2s %s\n' "${line#* }" >"$record"
  proved=$(least prove gold "$depth")
  entries=$(($(wc -l <"$record.out") - 2))
  lists=$(grep -c '^3 ' "$record.out" || true)
  tail -n +2 "$record.out" | cat "$record" - >"$files/both"
  record=$files/both
  checked=$(least check gold "$depth")
  printf '%s: %d entries, %d with a list, prove %s s, check %s s\n' "$(cat "$record.out")" "$entries" "$lists" \
    "$proved" "$checked"
done <<'BOARDS'
2 [        R      r                       e                        ]
2 [        R      r                      e              h m        ]
2 [        R      r                      e              h m    d c ]
2 [        R      r               d      e     c        h m    d c ]
2 [       rR     rr               d      e     c        h m    d c ]
4 [     r                                 R        c       d       ]
4 [     r                                 Rc        h      d       ]
4 [     r                                 Rc        hd     m       ]
BOARDS
