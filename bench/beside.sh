#!/usr/bin/env bash
# The same C programs by alaska and by gcc -O0, and the same mallocs and frees over alaska's heap and over glibc's.
# Use: bench/beside.sh      prints, for each program, the least seconds of three runs by each and how many times the second number the first is,
#   beside the goal; the seconds by gcc -O2; and, where valgrind is on the path, how many times what memcheck takes with gcc -O0's program the first
#   is: the programs of examples/ that alaska runs for 0.1 seconds or more, and those of bench/beside: sums in locals, walks over an array, linked
#   lists, hashes of a text, and mallocs and frees of drawn sizes. alaska's seconds have its compiling in them.
#   Then, for two programs that give most of their objects up, how many times the bytes that they still have the heap takes: alaska's extent
#   behind the last barrier, without the table of ids, and what lies in memory of a process over glibc's malloc; and how many of 128 sub-heaps
#   with --evacuate 1 evacuations emptied, each time that they did.
# It measures bin/alaska, which ./prove builds, or crates/alaska/out/alaska as `rt ci` left it in this checkout.
set -eu
here=$(cd "$(dirname "$0")/.." && pwd)
command -v gcc >/dev/null || { echo "bench/beside.sh: gcc is not on the path" >&2; exit 1; }
. "$here/bench/program.sh"
headers=(-include stdio.h -include stdlib.h -include string.h -include threads.h)

seconds() { # out command..: the least seconds of three runs of a command that ends with 0
  local out=$1 least= start end
  shift
  for _ in 1 2 3; do
    start=$(date +%s%N)
    "$@" >"$out" 2>note || return 1
    end=$(date +%s%N)
    [ -n "$least" ] && [ "$least" -le $((end - start)) ] || least=$((end - start))
  done
  awk -v ns="$least" 'BEGIN { printf "%.4f", ns / 1e9 }'
}

beside() { # file goal least: one program by both; where there is a least, only one that ends with 0 and takes alaska so many seconds
  local name ours theirs fast checked
  name=$(basename "$1")
  if ! ours=$(seconds ours "$program" "$1" --subheap 1048576 --subheaps 16 --entries 16000000); then
    [ -n "$3" ] && return 0
    cat note >&2
    exit 1
  fi
  [ -n "$3" ] && awk -v a="$ours" -v least="$3" 'BEGIN { exit !(a < least) }' && return 0
  gcc -O0 -w "${headers[@]}" -o theirs.out "$1" -pthread
  theirs=$(seconds theirs ./theirs.out)
  cmp -s ours theirs || { echo "bench/beside.sh: $name prints another thing by gcc" >&2; exit 1; }
  checked=-
  [ -z "$memcheck" ] || checked=$(seconds checked "$memcheck" -q ./theirs.out)
  gcc -O2 -w "${headers[@]}" -o fast.out "$1" -pthread
  fast=$(seconds fast ./fast.out)
  awk -v name="$name" -v a="$ours" -v g="$theirs" -v goal="$2" -v f="$fast" -v c="$checked" \
    'BEGIN { printf "%-16s %9.3f %9.3f %9.1f %9d %9.3f %9s\n", name, a, g, a / g, goal, f, c == "-" ? c : sprintf("%.2f", a / c) }'
}

note_of() { # word: the first number of a line of the last report
  sed -n "s/^$1: \([0-9]*\).*/\1/p" note
}

heap() { # file: how much of each heap the live bytes take
  local live extent last emptied resident
  "$program" "$1" --subheap 16777216 --subheaps 8 --ids 1048576 --entries 16000000 --every 100000 >ours 2>note || { cat note >&2; exit 1; }
  live=$(sed -n 's/^live //p' ours)
  extent=$(note_of extent)
  last=$(sed -n 's/^last barrier: extent [0-9]* to \([0-9]*\),.*/\1/p' note)
  [ "$extent" = "$last" ] || { echo "bench/beside.sh: the heap changed behind the last barrier" >&2; exit 1; }
  "$program" "$1" --subheap 1048576 --subheaps 128 --ids 1048576 --entries 16000000 --every 100000 --evacuate 1 >moved 2>note || { cat note >&2; exit 1; }
  cmp -s ours moved || { echo "bench/beside.sh: $(basename "$1") prints another thing with --evacuate 1" >&2; exit 1; }
  emptied=$(note_of evacuated)
  gcc -O0 -w "${headers[@]}" -o theirs.out "$1" "$here/bench/beside/resident.c" -pthread
  ./theirs.out >theirs 2>note
  cmp -s ours theirs || { echo "bench/beside.sh: $(basename "$1") prints another thing by gcc" >&2; exit 1; }
  resident=$(sed -n 's/^resident //p' note)
  awk -v name="$(basename "$1")" -v l="$live" -v e="$extent" -v r="$resident" -v v="$emptied" 'BEGIN { printf "%-16s %11d %11d %7.2f %11d %7.2f %9d\n", name, l, e, e / l, r, r / l, v }'
}

memcheck=$(command -v valgrind || true)
printf '%-16s %9s %9s %9s %9s %9s %9s\n' program alaska 'gcc -O0' times 'at most' 'gcc -O2' memcheck
for file in "$here"/examples/*.c; do
  beside "$file" 15 0.1
done
for name in sums walks lists hashes; do
  beside "$here/bench/beside/$name.c" 15 ""
done
beside "$here/bench/beside/churn.c" 10 ""

printf '\n%-16s %11s %11s %7s %11s %7s %9s\n' trace 'live bytes' extent times resident times evacuated
for name in scattered phases; do
  heap "$here/bench/beside/$name.c"
done
