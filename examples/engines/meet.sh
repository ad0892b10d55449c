#!/bin/sh
# Lets three example engines, and the bot where there is one, play a meet, and looks at its report: each record has to be
# accepted by `judge`, and the table has to be what the records and last lines of the matches count. Then it shows how
# many engines still run.
#
#   examples/engines/meet.sh [PROGRAM [CONTROL]]
#
# PROGRAM plays the meet by its command `meet`, with the time control CONTROL, and judges the records.
set -u
export PYTHONDONTWRITEBYTECODE=1
program=${1:-./arimaa}
control=${2:-1/5/100/0/8t}
folder=$(cd "$(dirname "$0")" && pwd)
top=$(cd "$folder/../.." && pwd)
scratch=$(mktemp -d) || exit 1
trap 'rm -rf "$scratch"' EXIT

set -- "$folder/first.py" "$folder/slow.py" "$folder/dies.py"
# The bot speaks the engine interface too. A program of a meet gets no arguments, so that a script starts it.
if "$program" help bot >/dev/null 2>&1; then
    printf '#!/bin/sh\nexec "%s" bot\n' "$(cd "$(dirname "$program")" && pwd)/$(basename "$program")" >"$scratch/bot"
    chmod +x "$scratch/bot"
    set -- "$@" "$scratch/bot"
fi

"$program" meet "$control" "$@" >"$scratch/report"
status=$?
cat "$scratch/report"
if [ "$status" -ne 0 ]; then
    echo "meet.sh: status $status" >&2
    exit 1
fi

# Each match into a file of its own, without its line `match`; the table into another.
awk -v folder="$scratch" '
    /^match / { name = sprintf("%s/match-%03d", folder, $2); print $3, $4 >(name ".pair"); next }
    /^program / { print >(folder "/table"); next }
    { print >name }' "$scratch/report"

# What each match counts: the winner of its record, as `judge` names it, or the winner of the cause illegal; a limit; a fault.
wrong=0
for record in "$scratch"/match-???; do
    judged=$("$program" judge <"$record") || { echo "meet.sh: $record is refused: $judged" >&2; wrong=1; }
    winner=$(printf '%s\n' "$judged" | sed -n 's/^winner \([a-z]*\) .*/\1/p')
    end=$(tail -n 1 "$record")
    case $end in
        '# winner '*' illegal') [ -n "$winner" ] || winner=$(echo "$end" | cut -d ' ' -f 3) ;;
        '# limit') echo "limit $(cat "$record.pair")" ;;
        '# engine '*) echo "fault $(echo "$end" | cut -d ' ' -f 3) $(cat "$record.pair")" ;;
    esac
    [ -z "$winner" ] || echo "winner $winner $(cat "$record.pair")"
done >"$scratch/counts"
[ "$wrong" -eq 0 ] || exit 1

awk -v programs="$#" '
    $1 == "winner" { won = $2 == "gold" ? $3 : $4; wins[won]++; losses[$3 + $4 - won]++ }
    $1 == "limit" { limits[$2]++; limits[$3]++ }
    $1 == "fault" { faults[$2 == "gold" ? $3 : $4]++ }
    END {
        for (p = 1; p <= programs; p++)
            printf "program %d wins %d losses %d limits %d faults %d\n", p, wins[p], losses[p], limits[p], faults[p]
    }' "$scratch/counts" >"$scratch/counted"
if ! cmp -s "$scratch/table" "$scratch/counted"; then
    echo 'meet.sh: the table is not what the matches count:' >&2
    diff "$scratch/table" "$scratch/counted" >&2
    exit 1
fi

sleep 0.3
running=$(pgrep -c -f "$folder/[a-z]*[.]py")
echo "each record is accepted, the table is counted again, $running engines run"
[ "$running" -eq 0 ]
