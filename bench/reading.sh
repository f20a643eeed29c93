#!/usr/bin/env bash
# How the time of reading grows with the text. Each text has tokens, a tree and a typed tree, and is then refused, since the second
# language has no such form: so a run is the reading, and little besides.
# Use: bench/reading.sh      prints bytes, seconds and seconds a MiB; the last column stays even where time is linear:
#   for mixed code of 1/8, 1/4, 1/2 and 1 MiB; then for texts of a quarter, a half and all of the globals, functions, locals of one
#   function and members of one struct that a text may have.
set -eu
here=$(cd "$(dirname "$0")/.." && pwd)
work=$(mktemp -d)
trap 'rm -rf "$work"' EXIT
[ -x "$here/bin/alaska" ] || { echo "run ./prove first: the proved program is measured" >&2; exit 1; }

measure() { # name file
  bytes=$(stat -c %s "$2")
  start=$(date +%s.%N)
  "$here/bin/alaska" "$2" >"$work/out" 2>"$work/note" || true
  end=$(date +%s.%N)
  grep -q 'refused: OutsideSubset 0' "$work/note" || { cat "$work/note"; exit 1; }
  awk -v name="$1" -v b="$bytes" -v s="$start" -v e="$end" 'BEGIN { t = e - s; printf "%-16s %9d %9.3f %10.3f\n", name, b, t, t * 1048576 / b }'
}

# So many declarations, each of a name of its own, between two texts.
make_many() { # before declaration behind count
  awk -v before="$1" -v one="$2" -v behind="$3" -v count="$4" 'BEGIN { printf "%s", before; for (k = 0; k < count; k++) printf one "\n", k; printf "%s", behind }'
}

measure_many() { # name before declaration behind most
  for part in 4 2 1; do
    make_many "$2" "$3" "$4" $(($5 / part)) >"$work/text.c"
    measure "$1 $(($5 / part))" "$work/text.c"
  done
}

printf '%-16s %9s %9s %10s\n' text bytes seconds s/MiB
for part in 8 4 2 1; do
  awk -v most=$((1048576 / part)) -f "$here/bench/mixed.awk" >"$work/text.c"
  measure "mixed 1/$part" "$work/text.c"
done
main='int main(void){return 0;}'
measure_many globals "$main" 'int g%04d;' '' 4096
measure_many functions "$main" 'void f%04d(void){}' '' 8188
measure_many locals "int f(void){" 'int a%04d=1;' "return 0;}$main" 1024
measure_many members "struct s{" 'int m%04d;' "};$main" 256
