#!/usr/bin/env bash
# Calls the built program with bad inputs, bad outputs, bad words and little memory. Prints for each case the status and
# the first bytes of what was written, and ends with status 1 where a status is not one of those that the case allows.
# It needs a shell, head, tr and yes, 200 MB in the folder of temporary files, and some minutes.
set -u
cd "$(dirname "${BASH_SOURCE[0]}")/.." || exit 1
./arimaa version >/dev/null || exit 1
./arimaa judge <examples/club-game.txt >/dev/null || exit 1
work=$(mktemp -d) || exit 1
trap 'rm -rf "$work"' EXIT
failed=0
count=0

# case_of NAME ALLOWED COMMAND: runs the command, whose output it keeps in $work/out unless it says otherwise.
case_of() {
  local name=$1 allowed=$2 status
  shift 2
  : >"$work/out"
  bash -c "$*" >"$work/out" 2>/dev/null
  status=$?
  count=$((count + 1))
  printf '%-44s status %-3s %s\n' "$name" "$status" "$(head -c 60 "$work/out" | tr '\n' '|')"
  case " $allowed " in
    *" $status "*) ;;
    *)
      printf '  NOT ALLOWED, only: %s\n' "$allowed"
      failed=$((failed + 1)) ;;
  esac
}

most=67108864
record=examples/club-game.txt

# What cannot be read.
case_of 'a folder as input' 3 "./arimaa judge < examples"
case_of 'standard input closed' 3 "./arimaa judge <&-"
case_of 'an empty input' 0 "./arimaa judge < /dev/null"
case_of 'an empty input, asked' 1 "./arimaa prove gold 1 < /dev/null"

# What cannot be written.
case_of 'a full disk' 4 "./arimaa judge < $record > /dev/full"
case_of 'a full disk, the position' 4 "./arimaa show < $record > /dev/full"
case_of 'a full disk, a strategy' 4 "./arimaa prove gold 1 < examples/goal-in-one.txt > /dev/full"
case_of 'a full disk, words out of form' 4 "./arimaa prove > /dev/full"
case_of 'standard output closed' 4 "./arimaa judge < $record >&-"
case_of 'a pipe that nobody reads' 4 "{ sleep 0.3; ./arimaa show < $record; echo \$? > $work/status; } | true; sleep 0.6; exit \$(cat $work/status)"
case_of 'a file that may not grow' 4 "ulimit -f 0; ./arimaa show < $record > $work/small"

# Words.
case_of 'no words' 2 "./arimaa"
case_of 'an empty word' 2 "./arimaa ''"
case_of 'a word that is no UTF-8' 2 "./arimaa \$'\\xff\\xfe'"
case_of 'a side that is no UTF-8' 2 "./arimaa prove \$'\\xff' 1"
case_of 'a number with a sign' 2 "./arimaa prove gold +1"
case_of 'a number with a zero before it' 2 "./arimaa prove gold 01"
case_of 'a number past 2^64' 2 "./arimaa make 18446744073709551616 0"
case_of 'a word too many' 2 "./arimaa judge again < $record"
case_of 'ten thousand words' 2 "./arimaa \$(yes judge | head -10000)"
case_of 'a word of a hundred thousand bytes' 2 "./arimaa \$(head -c 100000 /dev/zero | tr '\\0' a)"
case_of 'a time control of a hundred thousand bytes' 1 "./arimaa control \$(head -c 100000 /dev/zero | tr '\\0' 1)"

# Strategies, archives and engines.
./arimaa prove gold 1 <examples/goal-in-one.txt | tail -n +2 >"$work/strategy"
cat examples/goal-in-one.txt "$work/strategy" >"$work/both"
case_of 'a strategy that wins' 0 "./arimaa check gold 1 < $work/both"
case_of 'the same for the other side' 1 "./arimaa check silver 1 < $work/both"
case_of 'a strategy cut in its last line' 1 "head -c -30 $work/both | ./arimaa check gold 1"
case_of 'a strategy of zeros' 1 "{ cat examples/goal-in-one.txt; echo strategy; head -c 100000 /dev/zero; } | ./arimaa check gold 1"
case_of 'escapes that hold' 0 "{ cat examples/two-rabbits.txt; ./arimaa refute gold 2 < examples/two-rabbits.txt | tail -n +2; } | ./arimaa verify gold 2"
case_of 'escapes of zeros' 1 "{ cat examples/two-rabbits.txt; echo escapes; head -c 100000 /dev/zero; } | ./arimaa verify gold 2"
case_of 'a full disk, escapes' 4 "./arimaa refute gold 2 < examples/two-rabbits.txt > /dev/full"
case_of 'a full disk, an accepted strategy' 4 "./arimaa check gold 1 < $work/both > /dev/full"
case_of 'an archive of a folder' 3 "./arimaa archive < examples"
case_of 'an archive of nothing' 0 "./arimaa archive < /dev/null"
case_of 'an archive without its first game' 1 "./arimaa archive < $record"
case_of 'a full disk, a report' 4 "./arimaa archive < examples/archives/spring-tournament.txt > /dev/full"
case_of 'seventeen workers' 2 "./arimaa archive --workers 17 < examples/archives/spring-tournament.txt"
case_of 'a million lines that say game' 0 "yes game | head -1000000 | ./arimaa archive"
case_of 'engines that are not there' 5 "./arimaa play ./nobody ./nothing 1/5"
case_of 'an engine that is a folder' 5 "./arimaa play ./examples ./examples 1/5"
case_of 'an engine that says nothing and ends' 5 "./arimaa play true true 1/5"
case_of 'an engine whose line is too long' 5 "./arimaa play examples/engines/long.py examples/engines/first.py 1/5"
case_of 'engines that say y for ever' 5 "timeout 20 ./arimaa play yes yes 1/5"
case_of 'a full disk, a match' 4 "./arimaa play true true 1/5 > /dev/full"

# Long inputs: 64 MiB is the most, one byte more is too long.
case_of '64 MiB of one line' 1 "head -c $most /dev/zero | tr '\\0' a | ./arimaa judge"
case_of 'the same and one byte more' 9 "head -c $((most + 1)) /dev/zero | tr '\\0' a | ./arimaa judge"
case_of '64 MiB of line feeds' 0 "head -c $most /dev/zero | tr '\\0' '\\n' | ./arimaa judge"
case_of '64 MiB of comments' 0 "yes '# nothing is said here, and then nothing again' | head -c $most | ./arimaa judge"
case_of '64 MiB of zeros' 1 "head -c $most /dev/zero | ./arimaa judge"
case_of '64 MiB of start lines' 1 "yes 'start 2g {Ra7 Ed4 rh7}' | head -c $most | ./arimaa judge"

# Little memory: from what the system needs to start a program, to plenty.
for kib in 2048 4096 8192 16384 32768 65536 131072 262144 524288 1048576; do
  case_of "$kib KiB of memory" '0 8 126 127 137 139' "ulimit -v $kib; exec crates/arimaa/out/arimaa judge < $record"
done
for kib in 16384 32768 65536 131072 262144; do
  case_of "64 MiB of comments in $kib KiB" '0 8' \
    "yes '# nothing is said here' | head -c $most | { ulimit -v $kib; exec crates/arimaa/out/arimaa judge; }"
done

echo "$count cases, $failed not allowed"
[ "$failed" -eq 0 ]
