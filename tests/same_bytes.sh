#!/usr/bin/env bash
# Asks thirty questions with 1, 2, 3, 4, 8 and 16 workers and with 1, 7, 65,536 and 262,144 lines, each combination many
# times over, and compares each answer, its bytes and its status, with that of one worker.
#   tests/same_bytes.sh [RUNS]       how often each combination is asked, 20 if it isn't given
# Ends with status 1 where an answer differs.
set -u
top=$(cd "$(dirname "${BASH_SOURCE[0]}")/.." && pwd)
runs=${1:-20}
work=$(mktemp -d)
trap 'rm -rf "$work"' EXIT

# The start line of the side to move and these pieces, as Ra1.
start_line() {
  printf '%s\n' "$@" | awk '
    NR == 1 { side = $1; next }
    { at[substr($1, 2)] = substr($1, 1, 1) }
    END {
      text = "["
      for (row = 8; row >= 1; row--)
        for (column = 1; column <= 8; column++) {
          square = substr("abcdefgh", column, 1) row
          text = text (square in at ? at[square] : " ")
        }
      print "start 2" side " " text "]"
    }'
}

# Each question: who is to win, within how many turns, who is to move, and the pieces.
questions() {
  cat <<'END'
gold 0 g Ra8 rh8
gold 1 g Ra7 rh7
gold 1 g Ra4 rh7
gold 1 g Ra3 rh7
gold 1 s Ra7 rh2
silver 1 s Ra1 rh2
silver 1 s Ra1 rh6
silver 1 g Ra1 rh1
silver 2 g Ra1 rh6
silver 3 s Ra1 rh8
silver 3 g Ra1 rh7
gold 2 s Ra5 rh7
gold 2 s Ra6 Rb6 rh7
gold 2 g Ra1 rh6
gold 3 g Ra1 rh6
gold 3 g Ra1 rh7
gold 3 g Rd1 rh7 ra7
gold 3 g Ra2 Eb2 rh8
gold 3 g Ra2 ca4 rh8
gold 3 s Ra4 rh7
gold 3 g Ra1 Rh1 rd6
silver 3 s Ra1 Rh1 rd8
gold 1 g Ra6 Ed4 eb7 rh7
gold 1 g Ed6 Ra1 re6 hh8
gold 2 s Ed6 Ra1 re6 hh8
gold 1 g Ra1 Ed5 hd6 ce5 rh8
gold 1 s Ha4 Rh1 ra5
gold 2 g Cc4 Ra1 rh8
silver 1 g Cc4 Ra1 rh8 ch7
gold 1 g Ra1 Hb4 rh8 dd5
END
}

asked=0
differ=0
while read -r side depth mover pieces; do
  # the pieces are words apart
  # shellcheck disable=SC2086
  start_line "$mover" $pieces >"$work/record"
  "$top/arimaa" prove "$side" "$depth" --workers 1 <"$work/record" >"$work/wanted" 2>/dev/null
  status=$?
  for workers in 1 2 3 4 8 16; do
    for lines in 1 7 65536 262144; do
      for _ in $(seq "$runs"); do
        "$top/arimaa" prove "$side" "$depth" --workers "$workers" --lines "$lines" <"$work/record" >"$work/got" 2>/dev/null
        got=$?
        asked=$((asked + 1))
        if [ "$got" != "$status" ] || ! cmp -s "$work/wanted" "$work/got"; then
          differ=$((differ + 1))
          echo "DIFFERS: prove $side $depth --workers $workers --lines $lines, $mover $pieces: status $got"
        fi
      done
    done
  done
  echo "$side $depth, $mover to move, $pieces: status $status, $(head -n 1 "$work/wanted")"
done < <(questions)
echo "$asked answers compared, $differ differ"
[ "$differ" -eq 0 ]
