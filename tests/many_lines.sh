#!/usr/bin/env bash
# The bot hears 1,000,000 lines and no more: `stop` so often is answered by nothing, and ends it with status 6, also where
# `quit` follows; one line fewer, and then `quit`, ends it with status 0.
set -u
cd "$(dirname "${BASH_SOURCE[0]}")/.." || exit 1
failed=0

expect() {
  local lines=$1 status=$2 said
  said=$({ yes stop | head -n "$lines"; echo quit; } | ./arimaa bot 2>/dev/null)
  local ended=$?
  if [ "$ended" -ne "$status" ] || [ -n "$said" ]; then
    echo "DIFFERS: $lines lines and quit: status $ended, said '$said'"
    failed=1
  fi
}

expect 1000000 6
expect 999999 0
exit "$failed"
