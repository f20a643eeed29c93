#!/usr/bin/env bash
# Programs that break a rule of C, by `alaska --mode check`, by valgrind's memcheck and by gcc's sanitizers: which of them each finds, and how long
# each takes for one that breaks none.
# Use: bench/check.sh      prints, for the sixteen programs that each break one rule (crates/alaska_rows/data/c1.c to c16.c) and for those of
#   README's "Find the bug", the first place in the text that each names. alaska names the rule, too. `signal N` stands where the program stops by a
#   signal, `hangs` where it hasn't ended after 10 seconds, `-` where nothing is said, and `none` for what isn't on this machine. Behind the sixteen
#   stands for how many each names a place. Then come the least seconds of three runs of bench/check/million.c, which breaks no rule, by each, and by
#   gcc -O0 alone.
# The program is $ALASKA, or else bin/alaska, or else the one that ./alaska builds without a proof.
set -eu
here=$(cd "$(dirname "$0")/.." && pwd)
command -v gcc >/dev/null || { echo "bench/check.sh: gcc is not on the path" >&2; exit 1; }
. "$here/scripts/built.sh"
find_program take_unproved
most=16000000
export ASAN_OPTIONS=detect_leaks=0

by_alaska() { timeout 60 "$program" "$1.c" --mode check --entries $most; }
by_memcheck() { timeout 10 valgrind -q --tool=memcheck "./$1.plain"; }
by_sanitizers() { timeout 10 "./$1.checked"; }
by_gcc() { "./$1.plain"; }

# Builds a program, as `name`: plainly, and with the sanitizers where they are there.
build() { # file
  name=$(basename "$1" .c)
  cp "$1" .
  gcc -g -O0 -w -o "$name.plain" "$name.c" -pthread
  gcc -g -O0 -w -fsanitize=address,undefined -o "$name.checked" "$name.c" -pthread 2>note || rm -f "$name.checked"
}

is_there() { # by
  case $1 in
    by_memcheck) command -v valgrind >/dev/null ;;
    by_sanitizers) [ -x "$name.checked" ] ;;
  esac
}

# Makes what the table has of one run: `cell`. It counts the run where it names a place.
judge() { # by
  local status=0 place
  cell=none
  is_there "$1" || return 0
  "$1" "$name" >out 2>note || status=$?
  place=$(grep -oE "\b$name\.c:[0-9]+(:[0-9]+)?" note | head -n 1 | cut -d: -f2-) || true
  case $status in
    12) cell="$place $(sed -n 's/.* broke \(C[0-9]*\) .*/\1/p' note)" ;;
    124) cell=hangs ;;
    129 | 1[3-9]?) cell="signal $((status - 128))${place:+ at $place}" ;;
    *) cell=${place:--} ;;
  esac
  [ -z "$place" ] || found[$1]=$((found[$1] + 1))
}

row() { # file
  local cells=()
  build "$1"
  for by in by_alaska by_memcheck by_sanitizers; do
    judge $by
    cells+=("$cell")
  done
  printf '%-14s %-16s %-16s %s\n' "$name" "${cells[@]}"
}

seconds() { # by: the least seconds of three runs that end with 0
  local least= start end
  is_there "$1" || { echo none; return; }
  for _ in 1 2 3; do
    start=$(date +%s%N)
    "$1" "$name" >out 2>note || { echo -; return; }
    end=$(date +%s%N)
    [ -n "$least" ] && [ "$least" -le $((end - start)) ] || least=$((end - start))
  done
  awk -v ns="$least" 'BEGIN { printf "%.3f", ns / 1e9 }'
}

declare -A found=([by_alaska]=0 [by_memcheck]=0 [by_sanitizers]=0)
printf '%-14s %-16s %-16s %s\n' program alaska memcheck sanitizers
for rule in {1..16}; do
  row "$here/crates/alaska_rows/data/c$rule.c"
done
printf '%-14s %-16s %-16s %s\n\n' 'found of 16' "${found[by_alaska]}" "${found[by_memcheck]}" "${found[by_sanitizers]}"
for example in after_free overflow unset double_free; do
  row "$here/examples/$example.c"
done
build "$here/bench/check/million.c"
printf '\n%-14s %9s\n' 'no broken rule' seconds
for by in by_alaska by_memcheck by_sanitizers by_gcc; do
  if [ $by = by_alaska ] && [ "$checked" = yes ]; then
    echo "alaska         isn't timed: this program was built with checks, which make it slow"
  else
    printf '%-14s %9s\n' "${by#by_}" "$(seconds $by)"
  fi
done
