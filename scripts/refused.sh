#!/usr/bin/env bash
# Refuses each allocation of a run in turn, over five programs: a print, two threads that count under a mutex, one that counts the words of a
# text in objects, three threads on three workers that fill a table, with barriers between, and two threads in mode race. Where an allocation is
# refused the status is 11, nothing is printed, and standard error has `alaska: out of memory` and a newline; or, where that comes behind a run in
# mode race, the output and the report are the usual ones, and the line of the race is `race: not judged`.
# From some number on, since the world was opened, no run changes: that is looked at for the 50 numbers behind the last that was refused.
# Use: scripts/refused.sh [STRIDE]      prints for each program how many allocations were refused, and ends with 0 where each run was as it must be.
#   With a STRIDE only each STRIDE-th is refused.
# It runs $ALASKA, or else bin/alaska, or else a program that it builds once without a proof. A proved program calls malloc, and a library that stands
# before the C library refuses it (cc is needed). In one that is built here the number of the allocation that fails stands in its file, and is written
# anew for each run; since such a run takes seconds, 5 numbers behind the last are looked at. There are few ids, since each takes an allocation.
set -eu
here=$(cd "$(dirname "$0")/.." && pwd)
. "$here/scripts/built.sh"
stride=${1:-1}
[ "$stride" -gt 0 ] || { echo "use: scripts/refused.sh [STRIDE]" >&2; exit 2; }
wrong=0
behind=50

# The number of the allocation that fails in the program that is built here: so many no run makes.
never=1234567891

build_refusing() {
  local copier
  echo "$0: there is no proved program of these sources, which ./prove builds; one is built without a proof, in about two minutes" >&2
  mkdir below && mkfifo pipe
  copy_while_it_runs &
  copier=$!
  (cd "$here/crates/alaska" && TMPDIR=$work/below rt try --seconds 3600 --fail-alloc "$never" -- "$work/pipe") >out 2>note </dev/null ||
    cat note >&2
  kill "$copier" 2>/dev/null || true
  program=$work/program
}

find_program build_refusing
if [ "$checked" = yes ]; then
  behind=5
else
  cat >refuse.c <<'C'
#include <errno.h>
#include <stdlib.h>
extern void *__libc_malloc(size_t), *__libc_realloc(void *, size_t), *__libc_calloc(size_t, size_t);
static unsigned long calls, refused;
__attribute__((constructor)) static void begin(void) { refused = strtoul(getenv("REFUSED"), NULL, 10); calls = 0; }
static int refuses(void) { return __atomic_add_fetch(&calls, 1, __ATOMIC_RELAXED) == refused && (errno = ENOMEM); }
void *malloc(size_t n) { return refuses() ? NULL : __libc_malloc(n); }
void *realloc(void *p, size_t n) { return refuses() ? NULL : __libc_realloc(p, n); }
void *calloc(size_t n, size_t m) { return refuses() ? NULL : __libc_calloc(n, m); }
C
  cc -O1 -fPIC -shared -o refuse.so refuse.c
fi

# Makes `numbered` of a program that was built here: the same, but another allocation fails.
write_number() { # number
  python3 - "$program" "$never" "$1" <<'P' || return 1
import struct, sys
program, never, number = sys.argv[1:]
text, old = open(program, "rb").read(), struct.pack("<I", int(never))
if old not in text:
    sys.exit("this program has no number of the allocation that fails: leave $ALASKA out")
open("numbered", "wb").write(text.replace(old, struct.pack("<I", int(number))))
P
  chmod +x numbered
}

# Runs the program; the status is its own.
run() { # number-of-the-allocation-that-is-refused file words..
  if [ "$checked" = no ]; then
    timeout 60 env REFUSED="$1" LD_PRELOAD="$work/refuse.so" "$program" "${@:2}" >out 2>note
  else
    write_number "$1" || exit 1
    timeout 60 ./numbered "${@:2}" >out 2>note
  fi
}

fault() { # what number
  echo "$1, allocation $2: $3" >&2
  wrong=$((wrong + 1))
}

# What standard error has, or of several workers the lines that no order of them changes.
report() { # words..
  case " $* " in
    *' --workers '*) grep -E '^(ended|threads|live|alaska):' note || true ;;
    *) cat note ;;
  esac
}

# Whether a run that was refused an allocation ended so.
is_refused() { # words..
  if [ ! -s out ] && [ "$(cat note; echo .)" = $'alaska: out of memory\n.' ]; then
    return 0
  fi
  [[ " $* " == *" --mode race "* ]] && cmp -s out usual.out && sed '$s/.*/race: not judged/' usual.note | cmp -s note -
}

each() { # file words..
  local name number=1 refused=0 last=none usual=0 status=0
  name=$(basename "$1")
  run "$never" "$@" || status=$?
  cp out usual.out && report "$@" >usual.note
  [ "$status" = 0 ] || { cat note >&2; exit 1; }
  while [ $usual -lt "$behind" ]; do
    status=0
    run $number "$@" || status=$?
    report "$@" >reported
    if [ $status = 0 ] && cmp -s out usual.out && cmp -s reported usual.note; then
      usual=$((usual + 1))
    else
      [ $status = 11 ] && is_refused "$@" || fault "$name" $number "status $status, $(head -n 1 note)"
      [ $usual = 0 ] || fault "$name" $number "a run is changed behind one that is not"
      refused=$((refused + 1)) last=$number usual=0
    fi
    number=$((number + stride))
  done
  echo "$name: $refused allocations refused, the last is number $last"
}

few=(--entries 20000 --ids 100)
each "$here/examples/answer.c" "${few[@]}"
each "$here/examples/threads.c" "${few[@]}"
each "$here/examples/words.c" "${few[@]}"
each "$here/crates/alaska_rows/data/table.c" --entries 200000 --ids 400 --workers 3 --every 500
each "$here/crates/alaska_rows/data/joined.c" "${few[@]}" --mode race
[ $wrong = 0 ]
