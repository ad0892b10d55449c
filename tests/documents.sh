#!/usr/bin/env bash
# Runs each command that README.md, docs/help.txt and docs/MANY-RECORDS.md show with its output, a line `$ ..`, and
# compares what it writes with the lines below it; judges each record of examples/rules, and compares the answer with the one that
# examples/rules/ANSWERS gives; says whether docs/DEFINITIONS.md is up to date. Ends with status 1 where something differs.
set -u
cd "$(dirname "${BASH_SOURCE[0]}")/.." || exit 1
failed=0
count=0

compare() {
  count=$((count + 1))
  if [ "$2" != "$3" ]; then
    printf 'DIFFERS: %s\n-- expected\n%s\n-- written\n%s\n' "$1" "$2" "$3"
    failed=$((failed + 1))
  fi
}

# The commands of a page, each with its output: a record of lines that ends with a form feed. The help pages indent them.
shown() {
  awk '
    FILENAME ~ /help/ { sub(/^  /, "") }
    /^\$ / { if (on) printf "\f"; on = 1; print substr($0, 3); next }
    on && (/^```/ || /^$/ || /^== /) { printf "\f"; on = 0; next }
    on { print }
    END { if (on) printf "\f" }' "$1"
}

for page in README.md docs/help.txt docs/MANY-RECORDS.md; do
  while IFS= read -r -d $'\f' block; do
    command=${block%%$'\n'*}
    expected=${block#"$command"}
    expected=${expected#$'\n'}
    compare "$page: $command" "${expected%$'\n'}" "$(bash -c "$command" 2>/dev/null)"
  done < <(shown "$page")
done

while IFS=: read -r file answer; do
  compare "examples/rules/$file" "${answer# }" "$(./arimaa judge <"examples/rules/$file" 2>/dev/null)"
done <examples/rules/ANSWERS

docs/definitions.py --check || failed=$((failed + 1))
echo "$count outputs compared, $failed differ"
[ "$failed" -eq 0 ]
