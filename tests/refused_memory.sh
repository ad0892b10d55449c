#!/usr/bin/env bash
# Refuses to the built program the first allocation, the second, and so on until none is refused, and says what came
# out: each time the answer of the plain run, or status 8 with nothing written. Anything else is a fault, and the script
# fails.
#   tests/refused_memory.sh          all cases
#   tests/refused_memory.sh judge    those whose words begin so
# A library of a few lines, which is compiled here and loaded before the C library, counts what the program asks of
# `malloc` and `realloc` and refuses one number. The toolchain's own flag (`rt try --fail-alloc N`) refuses the same in a
# build with checks, and builds the program anew for each number. It needs a C compiler, `cc`.
set -u
cd "$(dirname "${BASH_SOURCE[0]}")/.." || exit 1
./arimaa version >/dev/null || exit 1
./arimaa judge <examples/club-game.txt >/dev/null || exit 1
program=$PWD/crates/arimaa/out/arimaa
work=$(mktemp -d) || exit 1
trap 'rm -rf "$work"' EXIT
only=${1-}
failed=0

cat >"$work/refuse.c" <<'END'
#include <errno.h>
#include <fcntl.h>
#include <stdlib.h>
#include <unistd.h>
extern void *__libc_malloc(size_t);
extern void *__libc_realloc(void *, size_t);
static long count, refused;
static const char *told;
__attribute__((constructor)) static void begin(void) {
  const char *number = getenv("REFUSED_ALLOCATION");
  told = getenv("REFUSED_TOLD");
  unsetenv("LD_PRELOAD");
  __atomic_store_n(&count, 0, __ATOMIC_SEQ_CST);
  refused = number && told ? atol(number) : 0;
}
static int is_refused(void) {
  if (__atomic_add_fetch(&count, 1, __ATOMIC_SEQ_CST) != refused) return 0;
  close(open(told, O_CREAT | O_WRONLY, 0600));
  errno = ENOMEM;
  return 1;
}
void *malloc(size_t size) { return is_refused() ? NULL : __libc_malloc(size); }
void *realloc(void *block, size_t size) { return is_refused() ? NULL : __libc_realloc(block, size); }
END
cc -O1 -shared -fPIC -o "$work/refuse.so" "$work/refuse.c" || exit 1

# A game that ends by repetition, the question whether Gold's rabbit runs home in three turns, and what was answered to
# it as an input of `check`.
cat >"$work/repetition" <<'END'
start 2g [                         R      rH                              ]
2g ra4n Hb4w Ha4e
2s ra5s
3g ra4n Hb4w Ha4e
END
cp examples/two-rabbits.txt "$work/run_home"
{ cat "$work/run_home"; "$program" prove gold 3 <"$work/run_home" | tail -n +2; } >"$work/strategy"

# An engine that gives these answers to what it is asked, whatever it is told.
engine() {
  local name=$1
  shift
  {
    echo '#!/bin/sh'
    echo "printf '%s\\n' 'protocol-version 1' 'id name x' 'aeiok' 'readyok' $*"
    echo 'exec cat >/dev/null'
  } >"$work/$name"
  chmod +x "$work/$name"
}
engine gold "'bestmove Ra1 Rb1 Rc1 Dd1 De1 Rf1 Rg1 Rh1 Ra2 Hb2 Cc2 Md2 Ee2 Cf2 Hg2 Rh2' 'bestmove Cc2n'"
engine silver "'bestmove ra7 hb7 cc7 ed7 me7 cf7 hg7 rh7 ra8 rb8 rc8 dd8 de8 rf8 rg8 rh8' 'bestmove ed7n'"

# one INPUT STATUS WORDS..: refuses one allocation after another, where the plain run has this status.
one() {
  local input=$1 wanted=$2 number=0 answers=0 refusals=0 status
  shift 2
  case "$*" in "$only"*) ;; *) return ;; esac
  "$program" "$@" <"$input" >"$work/answer"
  status=$?
  [ "$status" -eq "$wanted" ] || { echo "FAULT: $*: status $status and not $wanted"; failed=1; return; }
  while :; do
    number=$((number + 1))
    rm -f "$work/told"
    timeout 60 env LD_PRELOAD="$work/refuse.so" REFUSED_ALLOCATION=$number REFUSED_TOLD="$work/told" \
      "$program" "$@" <"$input" >"$work/got" 2>"$work/errors"
    status=$?
    if [ "$status" -eq "$wanted" ] && cmp -s "$work/answer" "$work/got"; then
      answers=$((answers + 1))
    elif [ "$status" -eq 8 ] && [ ! -s "$work/got" ]; then
      refusals=$((refusals + 1))
    else
      echo "FAULT: $* with allocation $number refused: status $status, $(head -c 60 "$work/got" | tr '\n' '|')"
      failed=1
    fi
    [ -e "$work/told" ] || break
  done
  printf '%-58s %5s refused: %5s times status 8, %s times the answer\n' "${*//$work\//}" \
    $((number - 1)) "$refusals" $((answers - 1))
}

one "$work/repetition" 0 judge
one examples/club-game.txt 0 judge
one examples/missing-mark.txt 1 judge
one examples/club-game.txt 0 show
one examples/goal-in-one.txt 0 prove gold 1
one "$work/run_home" 0 prove gold 3
one "$work/run_home" 0 prove gold 3 --workers 1 --lines 1
one "$work/run_home" 0 prove gold 3 --workers 16
one "$work/strategy" 0 check gold 3
one "$work/strategy" 1 check gold 2
one /dev/null 0 control 0:30/5/100/5/8/4
one /dev/null 0 make 5 2
one /dev/null 2 none of these
one /dev/null 0 play "$work/gold" "$work/silver" 1/5
[ "$failed" -eq 0 ]
