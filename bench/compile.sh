#!/usr/bin/env bash
# How the time of compiling grows with the text. Each file has a typed tree, and is read (tokens, tree, types), lowered to structured code,
# and made linear code (Looks, hoisting, safepoints and lists, the check, the list of instructions).
# Use: bench/compile.sh      prints bytes, then seconds for the reading, the lowering and the passes, and seconds a MiB of the whole:
#   for mixed code of 1/8, 1/4, 1/2 and 1 MiB; then for one function of 1,000 loops in a row, of 60 loops in each other, of 1,000 accesses
#   through one pointer, of 500 pointers, and of 1,000 dos in a row.
#   Then for texts of half and all of what a text may have, the shortest of 9 runs each, and how many times longer the second takes: a switch of
#   1,024 labels before 1,000 statements, one with a statement behind each label, one whose statements are switches; 1,000 names of types, each
#   of the one before; 4,096 enumerators, and as many of which each is used.
# It measures crates/bench/out/bench as `rt ci` left it in this checkout; where there is none, it proves and builds it first.
set -eu
here=$(cd "$(dirname "$0")/.." && pwd)
. "$here/bench/parts.sh"
work=$(mktemp -d)
trap 'rm -rf "$work"' EXIT

# The bytes of one function's body, between the lines of a main.
make_main() { # an awk program that prints the body
  echo 'int main(void) { int *p = malloc(400); int s = 0;'
  awk "BEGIN { $1 }"
  echo 'free(p); return s; }'
}

measure() { # name file
  bytes=$(stat -c %s "$2")
  (cd "$work" && "$program" compile "$2") >"$work/out" 2>"$work/note"
  grep -q ' tokens$' "$work/out" || { cat "$work/out" "$work/note"; exit 1; }
  tail -n 1 "$work/note" | awk -v name="$1" '{ t = ($2 + $3 + $4) / 1e6; printf "%-12s %9d %9.3f %9.3f %9.3f %10.3f\n", name, $1, $2 / 1e6, $3 / 1e6, $4 / 1e6, t * 1048576 / $1 }'
}

printf '%-12s %9s %9s %9s %9s %10s\n' text bytes read lowered passes s/MiB
for part in 8 4 2 1; do
  awk -v most=$((1048576 / part)) -f "$here/bench/mixed.awk" >"$work/mixed.c"
  measure "mixed 1/$part" "$work/mixed.c"
done
make_main 'for (k = 0; k < 1000; k++) print "for (int i = 0; i < 9; i++) s += p[i];"' >"$work/row.c"
measure "1000 loops" "$work/row.c"
make_main 'for (k = 0; k < 60; k++) printf "for (int i%d = 0; i%d < 2; i%d++) {\n", k, k, k; print "s += p[i0];"; for (k = 0; k < 60; k++) print "}"' >"$work/nest.c"
measure "60 deep" "$work/nest.c"
make_main 'for (k = 0; k < 1000; k++) printf "s += p[%d];\n", k % 100' >"$work/accesses.c"
measure "1000 reads" "$work/accesses.c"
make_main 'for (k = 0; k < 500; k++) printf "int *p%d = p;\n", k; for (k = 0; k < 500; k++) printf "s += *p%d;\n", k' >"$work/pointers.c"
measure "500 pointers" "$work/pointers.c"
make_main 'for (k = 0; k < 1000; k++) print "do s += p[1]; while (s < 9);"' >"$work/dos.c"
measure "1000 dos" "$work/dos.c"

# How long a text's compiling takes, in microseconds.
time_of() { # file
  (cd "$work" && "$program" compile "$1") >"$work/out" 2>"$work/note"
  grep -q ' tokens$' "$work/out" || { cat "$work/out" "$work/note" >&2; exit 1; }
  tail -n 1 "$work/note" | awk '{ print $2 + $3 + $4 }'
}

# A text that an awk program prints, for n and for twice n: they are compiled in turn.
double() { # name n program
  awk "BEGIN { n = $2; $3 }" >"$work/half.c"
  awk "BEGIN { n = $2 * 2; $3 }" >"$work/whole.c"
  for _ in 1 2 3 4 5 6 7 8 9; do
    echo "$(time_of "$work/half.c") $(time_of "$work/whole.c")"
  done >"$work/times"
  awk -v name="$1" -v half="$2" '
    NR == 1 || $1 < s { s = $1 }
    NR == 1 || $2 < l { l = $2 }
    END { printf "%-24s %9d %9.4f %9.4f %7.2f\n", name, half * 2, s / 1e6, l / 1e6, l / s }' "$work/times"
}

begin='print "int main(void) { int s = 0; switch (s) {"'
end='print "} return s; }"'
printf '%-24s %9s %9s %9s %7s\n' text all half whole times
double "labels, then statements" 512 "$begin; for (k = 0; k < n; k++) printf \"case %d:\", k; for (k = 0; k < n * 1000 / 1024; k++) printf \"s += %d;\\n\", k; $end"
double "labels and statements" 512 "$begin; for (k = 0; k < n; k++) printf \"case %d: s += %d; break;\\n\", k, k; $end"
double "switches in a switch" 512 "$begin; for (k = 0; k < n; k++) printf \"case %d: switch (s) { case 1: s = 2; default: break; }\\n\", k; $end"
double "names of types" 500 'print "typedef int T0;"; for (k = 1; k < n; k++) printf "typedef T%d T%d;\n", k - 1, k; printf "int main(void) { T%d s = 0; return s; }\n", n - 1'
double "enumerators" 2048 'print "enum {"; for (k = 0; k < n; k++) printf "E%d,\n", k; print "}; int main(void) { return E1; }"'
double "enumerators and uses" 2048 'print "enum {"; for (k = 0; k < n; k++) printf "E%d%s,\n", k, k ? " = E" k - 1 " + 2" : ""; print "}; int main(void) { int s = 0;"; for (k = 0; k < n; k++) printf "s = E%d;\n", k; print "return s; }"'
