#!/usr/bin/env bash
# How fast code files are read and loaded, and how much memory that takes.
# Use: bench/codefile.sh      prints, for mixed code of 1/4 and 1 MiB, the bytes of the text and of its code, then seconds and most KiB of a run
#   of the text, of building it and of a run of its code, and how many times the time and the memory of the first the last takes: at most 1.5.
#   Then, for the code of the largest and for files of 16 MiB and of 64 MiB, the most that a code file has, the MB a second at which they are read:
#   at least 50. They have one byte more than they should, or end within their last node, so that nothing but reading is done; a run of as many bytes
#   of which the first four are wrong, which takes them from the file and reads no further, is taken off; of each the least of five runs counts.
#   Then what loading takes of the file of 64 MiB, of counts of 2^32 - 1, of nodes nested 1,024 deep and of code that takes more than 64 MiB. Each run
#   has 6 GiB of addresses. It ends with 0 where each run ended as it must, and all bars were met.
# It measures $ALASKA, or else bin/alaska, which ./prove builds. A program that is built with checks is slow and needs more addresses: for it no bar
# is judged, and memory isn't held down.
set -eu
here=$(cd "$(dirname "$0")/.." && pwd)
. "$here/scripts/built.sh"
none_is_proved() { echo "run ./prove first: the proved program is measured" >&2; exit 1; }
find_program none_is_proved
wrong=0
[ "$checked" = yes ] || ulimit -v 6291456

# Runs the program and sets `seconds` and `kib`.
run() { # status what-the-report-has words..
  local status=0
  /usr/bin/time -q -f '%e %M' -o took "$program" "${@:3}" --entries 1000 >out 2>note || status=$?
  read -r seconds kib <took
  [ "$status" = "$1" ] && grep -qF -e "$2" note && return
  wrong=1
  echo "${*:3}: status $status in place of $1: $(head -n 1 note)" >&2
}

# Runs the program five times, and sets `seconds` to the least of each.
best() { # as run
  local least='' k
  for k in 1 2 3 4 5; do
    run "$@"
    least=$(awk -v a="$least" -v b="$seconds" 'BEGIN { print a == "" || b < a ? b : a }')
  done
  seconds=$least
}

# A bar that isn't met is told.
bar() { # what number at-most-or-at-least limit
  [ "$checked" = yes ] || awk -v n="$2" -v how="$3" -v limit="$4" 'BEGIN { exit how == "most" ? n > limit : n < limit }' && return
  wrong=1
  echo "$1: $2, and at $3 it is to be $4" >&2
}

# Small nodes, each of 10 bytes, in a main of one register: a code file of so many bytes in all.
fill() { # bytes
  python3 - "$1" <<'END'
import sys
bytes_in_all = int(sys.argv[1])
count = (bytes_in_all - 44) // 10
number = lambda n: n.to_bytes(4, "little")
head = b"ALSK" + b"".join(map(number, (1, 0, 0, 0, 1, 0, 1, 0, 0, count)))
sys.stdout.buffer.write(head + (number(0) + b"\0" + number(0) + b"\x0b") * count)
END
}

printf '%-10s %9s %9s %8s %9s %8s %9s %8s %9s %7s %7s\n' text bytes code run KiB build KiB load KiB times KiB
for part in 4 1; do
  awk -v most=$((1048576 / part)) -f "$here/bench/mixed.awk" >mixed.c
  run 0 'built: ' mixed.c --mode build
  built="$seconds $kib"
  mv out mixed.alsk
  "$program" mixed.c --entries 1000 >out 2>note && status=0 || status=$?
  run $status 'ended: ' mixed.c
  ran="$seconds $kib"
  run $status 'ended: ' mixed.alsk --mode load
  read -r times more < <(echo "$ran $seconds $kib" | awk '{ printf "%.2f %.2f\n", $3 / ($1 > 0 ? $1 : 0.01), $4 / $2 }')
  printf '%-10s %9d %9d %8s %9d %8s %9d %8s %9d %7s %7s\n' "mixed 1/$part" "$(stat -c %s mixed.c)" "$(stat -c %s mixed.alsk)" $ran $built "$seconds" "$kib" "$times" "$more"
  bar "the time of loading, in those of compiling" "$times" most 1.5
  bar "the memory of loading, in those of compiling" "$more" most 1.5
done

printf '\n%-10s %9s %8s %9s %8s\n' read bytes seconds KiB MB/s
read_all() { # name file where-it-ends
  { printf 'ALSX'; tail -c +5 "$2"; } >other.alsk
  best 15 'bad code at 3' other.alsk --mode load
  local unread=$seconds
  best 15 "bad code at $3" "$2" --mode load
  speed=$(awk -v b="$3" -v s="$seconds" -v u="$unread" 'BEGIN { s -= u; printf "%.1f", b / 1e6 / (s > 0 ? s : 0.01) }')
  printf '%-10s %9d %8s %9d %8s\n' "$1" "$3" "$seconds" "$kib" "$speed"
  bar "the MB a second of reading" "$speed" least 50
}
bytes=$(stat -c %s mixed.alsk)
{ cat mixed.alsk; printf '\0'; } >more.alsk
read_all mixed more.alsk "$bytes"
fill 16777214 >small.alsk
printf '\0' >>small.alsk
read_all "16 MiB" small.alsk 16777214
fill 67108864 >most.alsk
head -c 67108862 most.alsk >cut.alsk
read_all "64 MiB" cut.alsk 67108862

printf '\n%-10s %9s %8s %9s\n' loaded bytes seconds KiB
loaded() { # name status what-the-report-has file
  run "$2" "$3" "$4" --mode load
  printf '%-10s %9d %8s %9d\n' "$1" "$(stat -c %s "$4")" "$seconds" "$kib"
}
loaded "64 MiB" 0 'ended: done 0' most.alsk
{ printf 'ALSK\1\0\0\0\0\0\0\0\377\377\377\377'; head -c 1000000 /dev/zero; } >globals.alsk
loaded globals 15 'bad code at 1000016' globals.alsk
{ printf 'ALSK\1\0\0\0\0\0\0\0\0\0\0\0\0\0\0\0\1\0\0\0\0\0\0\0\1\0\0\0\0\0\0\0\0\0\0\0\377\377\377\377'; tail -c +45 most.alsk | head -c 10000000; } >nodes.alsk
loaded nodes 15 'bad code at 10000044' nodes.alsk
{
  printf 'ALSK\1\0\0\0\0\0\0\0\0\0\0\0\0\0\0\0\1\0\0\0\0\0\0\0\1\0\0\0\0\0\0\0\0\0\0\0'
  for ((k = 0; k < 1024; k++)); do printf '\1\0\0\0\0\0\0\0\1\0\0\0\0'; done
  head -c 4100 /dev/zero
} >deep.alsk
[ "$checked" = no ] || ulimit -S -s 65536
loaded "1024 deep" 0 'ended: done 0' deep.alsk

# Loops over 100 pointers that stay pinned over each of their calls: 1 MiB of text, whose lists alone take 400 bytes a call.
awk 'BEGIN {
  printf "void f(void){}int main(void){int s=0;"
  for (k = 0; k < 100; k++) printf "int*p%d=malloc(4);", k
  printf "for(int i=0;i<1;i++){"
  for (k = 0; k < 200000; k++) printf "f();"
  for (k = 0; k < 100; k++) printf "s+=*p%d;", k
  print "}return 0;}"
}' >long.c
run 17 'alaska: code too long' long.c --mode build
printf '\n%-10s %9d %8s %9d\n' "too long" "$(stat -c %s long.c)" "$seconds" "$kib"
exit $wrong
