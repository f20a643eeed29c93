#!/usr/bin/env bash
# Programs of several threads by `alaska --mode race`, by valgrind's helgrind and by gcc's thread sanitizer: in which of them each tells a race, and
# how long each takes.
# Use: bench/race.sh      prints, of programs in which some order of turns has a race and then of such in which none has one, the first line of the
#   text that each names, or `none`; for alaska both lines. `broke` stands where a rule of C is broken before a race, `signal N` where the program stops
#   by a signal, `hangs` where it hasn't ended after 20 seconds, and `-` for what isn't on this machine. Behind the programs stands in how many each
#   tells a race. Then come the least seconds of three runs of bench/race/rounds.c, which has no race, by alaska in mode run and in mode race, by the
#   others, and by gcc -O0 alone.
# The two others watch one run each, in the order that the host gives; alaska judges the order of its own run. For them <threads.h> is
# bench/race/threads.h, by pthreads, since they don't see C11's calls. bench/race/beside.c has a race of which the sanitizer keeps the first access only
# for a time, so that what it tells changes from run to run.
# The program is $ALASKA, or else bin/alaska, or else the one that ./alaska builds without a proof.
set -eu
here=$(cd "$(dirname "$0")/.." && pwd)
command -v gcc >/dev/null || { echo "bench/race.sh: gcc is not on the path" >&2; exit 1; }
. "$here/scripts/built.sh"
find_program take_unproved
most=16000000
headers=(-I "$here/bench/race" -include stdio.h -include stdlib.h -include string.h -include stdatomic.h -include threads.h)

by_alaska() { timeout 60 "$program" "$1.c" --mode race --entries $most; }
by_run() { timeout 60 "$program" "$1.c" --entries $most; }
by_helgrind() { timeout 20 valgrind -q --tool=helgrind "./$1.plain"; }
by_sanitizer() { timeout 20 "./$1.checked"; }
by_gcc() { "./$1.plain"; }

# Builds a program, as `name`: plainly, and with the sanitizer where it is there.
build() { # file
  name=$(basename "$1" .c)
  cp "$1" .
  gcc -g -O0 -w "${headers[@]}" -o "$name.plain" "$name.c" -pthread
  gcc -g -O0 -w "${headers[@]}" -fsanitize=thread -o "$name.checked" "$name.c" -pthread 2>note || rm -f "$name.checked"
}

is_there() { # by
  case $1 in
    by_helgrind) command -v valgrind >/dev/null ;;
    by_sanitizer) [ -x "$name.checked" ] ;;
  esac
}

# The first line of the text that a report names from its word of a race on.
line_of() {
  awk -v name="$name.c" '/data race/ { on = 1 } on && match($0, name ":[0-9]+") { print substr($0, RSTART + length(name) + 1, RLENGTH - length(name) - 1); exit }' note
}

# Makes what the table has of one run: `cell`. It counts the run where it tells a race.
judge() { # by
  local status=0 told
  cell=-
  is_there "$1" || return 0
  "$1" "$name" >out 2>note || status=$?
  if [ "$1" = by_alaska ]; then
    told=$(sed -nE 's/^race: [^ ]*:([0-9]+):[0-9]+ and [^ ]*:([0-9]+):[0-9]+, .*/\1 and \2/p' note)
    ! grep -q '^race: broke' note || cell=broke
    ! grep -q '^race: none' note || cell=none
  else
    told=$(line_of)
    cell=none
  fi
  case $status in
    124) cell=hangs ;;
    129 | 1[3-9]?) cell="signal $((status - 128))" ;;
  esac
  if [ -n "$told" ]; then
    cell=$told
    told_by[$1]=$((told_by[$1] + 1))
  fi
}

row() { # file
  local cells=()
  build "$1"
  for by in by_alaska by_helgrind by_sanitizer; do
    judge $by
    cells+=("$cell")
  done
  printf '%-12s %-12s %-12s %s\n' "$name" "${cells[@]}"
}

rows() { # what they have, files..
  declare -gA told_by=([by_alaska]=0 [by_helgrind]=0 [by_sanitizer]=0)
  for file in "${@:2}"; do
    row "$here/$file"
  done
  printf '%-12s %-12s %-12s %s\n\n' "$1 $(($# - 1))" "${told_by[by_alaska]}" "${told_by[by_helgrind]}" "${told_by[by_sanitizer]}"
}

seconds() { # by: the least seconds of three runs that end with 0
  local least= start end
  is_there "$1" || { echo -; return; }
  for _ in 1 2 3; do
    start=$(date +%s%N)
    "$1" "$name" >out 2>note || { echo -; return; }
    end=$(date +%s%N)
    [ -n "$least" ] && [ "$least" -le $((end - start)) ] || least=$((end - start))
  done
  awk -v ns="$least" 'BEGIN { printf "%.3f", ns / 1e9 }'
}

data=crates/alaska_rows/data
printf '%-12s %-12s %-12s %s\n' program alaska helgrind sanitizer
rows 'race in' examples/race.c $data/raced.c $data/two_locks.c $data/bare_flag.c $data/freed.c $data/copied.c bench/race/beside.c
rows 'no race in' examples/locked.c $data/counter.c $data/added.c $data/flag.c $data/joined.c
build "$here/bench/race/rounds.c"
printf '%-12s %9s\n' 'no race' seconds
for by in by_run by_alaska by_helgrind by_sanitizer by_gcc; do
  if [ "$checked" = yes ] && { [ $by = by_alaska ] || [ $by = by_run ]; }; then
    echo "${by#by_}: isn't timed, since this program was built with checks, which make it slow"
  else
    printf '%-12s %9s\n' "${by#by_}" "$(seconds $by)"
  fi
done
