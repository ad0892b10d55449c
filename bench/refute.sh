#!/usr/bin/env bash
# Asks questions that are answered no: `prove` with one worker, then `refute`, which searches and finds the escapes, and
# then `verify`, which trusts no search.
#
#   bench/refute.sh [RUNS]
#
# A line gives the escapes, those of them that ask for a list of replies, and the least processor times of the three
# commands in some runs. It ends with a fault where the answers are not `no`, `held` and `accepted`. It needs the built
# program and a shell with awk. Run it on a machine that does nothing else.
set -euo pipefail
top=$(cd "$(dirname "${BASH_SOURCE[0]}")/.." && pwd)
. "$top/bench/measure.sh"
runs=${1:-3}
"$top/arimaa" judge </dev/null >/dev/null
program=$top/crates/arimaa/out/arimaa
files=$(mktemp -d)
trap 'rm -rf "$files"' EXIT

# least ANSWER COMMAND..: the least processor seconds of some runs of a command with the record, whose first line is the
# answer.
least() {
  local answer=$1
  shift
  for _ in $(seq "$runs"); do processor_seconds "$@"; done | sort -g | head -n 1
  if [ "$(head -n 1 "$record.out")" != "$answer" ]; then
    printf '%s: %s and not %s\n' "$*" "$(head -n 1 "$record.out")" "$answer" >&2
    return 1
  fi
}

while read -r name mark attacker depth board; do
  record=$files/record
  printf 'start %s %s\n' "$mark" "$board" >"$record"
  proved=$(least no "$program" prove "$attacker" "$depth" --workers 1)
  refuted=$(least held "$program" refute "$attacker" "$depth")
  escapes=$(($(wc -l <"$record.out") - 2))
  lists=$(tail -n +3 "$record.out" | grep -vc '^1 ' || true)
  tail -n +2 "$record.out" | cat "$record" - >"$files/both"
  record=$files/both
  verified=$(least accepted "$program" verify "$attacker" "$depth")
  printf '%s: %d escapes, %d with a list, prove %s s, refute %s s, verify %s s\n' "$name" "$escapes" "$lists" \
    "$proved" "$refuted" "$verified"
done <<'QUESTIONS'
rabbits 2g gold 2 [                       r                                R       ]
middle_1 2g gold 1 [ r r        ddr h   Er m c   e HRR RRrh     DR r R D  R       R ]
middle_3 2g gold 1 [r m  r rh          dr   RRe  Crr     hR H   E R  R  D H   RD  RR]
middle_4 2s silver 1 [      r rcrd r   hrc   CH e  DrhR m   RRM   R R   RRH       D E ]
middle_5 2s gold 2 [           d   r    R    r R dr  Hr   rR    D  R       RD   R   ]
four_pieces 2g gold 2 [ r r                   E        r           R                   ]
four_pieces_deeper 2g gold 3 [ r r                   E        r           R                   ]
QUESTIONS
