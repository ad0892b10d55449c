#!/bin/sh
# Plays each example engine against each, and shows the last line of each match, the status, and how
# many engines still run.
#
#   examples/engines/try.sh [PROGRAM [CONTROL]]
#
# PROGRAM plays the matches by its command `play`, with the time control CONTROL. No match ends an
# engine that says nothing and stays: here the program is ended after five seconds, and with it the
# engine's input.
set -u
export PYTHONDONTWRITEBYTECODE=1
program=${1:-./arimaa}
control=${2:-1/5/100/0/8t}
folder=$(cd "$(dirname "$0")" && pwd)
engines="first slow dies long silent version chatty"

still_running() {
    sleep 0.3
    pgrep -c -f "$folder/[a-z]*[.]py"
}

for gold in $engines; do
    for silver in $engines; do
        case "$gold $silver" in
            *silent*) most=5 ;;
            *) most=60 ;;
        esac
        text=$(timeout "$most" "$program" play "$folder/$gold.py" "$folder/$silver.py" "$control")
        status=$?
        end=$(printf '%s\n' "$text" | tail -n 1)
        echo "$gold $silver: ${end:-no text}; status $status; $(still_running) running"
    done
done
