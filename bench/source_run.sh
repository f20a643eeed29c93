#!/usr/bin/env bash
# How fast the interpreter of the source runs, by thread 0 alone: a loop of 1,000,000 rounds, with a load and a store each (at most 3 seconds); and
# the time of a turn where the program has many functions or a long row of statements, where many calls wait, and where many blocks were made. Then a
# loop over a global alone, with its turns walked for races, where a turn is to last at most three times as long, and in a check, where it is to last at
# most twice as long, and a check of 16,000,000 turns, in at most 300 MB.
# Use: bench/source_run.sh      prints turns, seconds and nanoseconds a turn. The seconds are those of the run alone, without the reading.
# It measures crates/bench/out/bench as `rt ci` left it in this checkout; where there is none, it proves and builds it first.
# Each run has a native stack of 1 MiB.
set -eu
here=$(cd "$(dirname "$0")/.." && pwd)
. "$here/bench/parts.sh"
work=$(mktemp -d)
trap 'rm -rf "$work"' EXIT
ulimit -s 1024

measure() { # name, with the text in $work/text.c
  (cd "$work" && "$program" run text.c >out 2>micros) || { echo "$1: it didn't run" >&2; exit 1; }
  grep -q '^main ended: true' "$work/out" || { echo "$1: it didn't end as it should" >&2; cat "$work/out" >&2; exit 1; }
  tail -n 1 "$work/micros" | awk -v name="$1" '{ printf "%-22s %9d %9.3f %9.0f\n", name, $1, $2 / 1e6, $2 * 1e3 / $1 }'
}

walk() { # name, with the text in $work/text.c
  (cd "$work" && "$program" races text.c >out 2>micros) || { echo "$1: it didn't run" >&2; exit 1; }
  grep -q 'main ended: true$' "$work/out" || { echo "$1: it didn't end as it should" >&2; cat "$work/out" >&2; exit 1; }
  tail -n 1 "$work/micros" | awk -v name="$1" '{ printf "%-22s %9d %9.3f %9.0f\n", name, $1, $2 / 1e6, $2 * 1e3 / $1 }'
}

check() { # name, limit in KiB, with the text in $work/text.c
  (cd "$work" && ulimit -v "$2" && "$program" check text.c >out 2>micros) || { echo "$1: it didn't run" >&2; exit 1; }
  tail -n 1 "$work/micros" | awk -v name="$1" '{ printf "%-22s %9d %9.3f %9.0f\n", name, $1, $2 / 1e6, $2 * 1e3 / $1 }'
}

# A loop of so many rounds.
rounds() { echo "*p=0;for(int i=0;i<$1;i++)*p=*p+1;"; }

printf '%-22s %9s %9s %9s\n' text turns seconds ns/turn
echo "int main(void){int *p=malloc(4);$(rounds 1000000)return 0;}" >"$work/text.c"
measure "1000000 rounds"
for n in 100 1000 8000; do
  { awk -v n="$n" 'BEGIN { for (i = 0; i < n; i++) printf "int f%d(int n){return n;}\n", i }'
    echo "int main(void){int *p=malloc(4);$(rounds 100000)return 0;}"; } >"$work/text.c"
  measure "$n functions"
done
for n in 100 1000 10000 60000; do
  { echo 'int main(void){int *p=malloc(4);*p=0;'
    awk -v n="$n" 'BEGIN { for (i = 0; i < n; i++) print "*p=*p+1;" }'
    echo 'return 0;}'; } >"$work/text.c"
  measure "$n statements"
done
for n in 100 1000 10000 100000; do
  echo "int go(int n){if(n>0)return go(n-1);int *p=malloc(4);$(rounds 100000)return 0;}int main(void){return go($n);}" >"$work/text.c"
  measure "$n calls deep"
done
for n in 100 1000 10000 100000; do
  echo "int main(void){int *p;for(int i=0;i<$n;i++)p=malloc(4);$(rounds 100000)return 0;}" >"$work/text.c"
  measure "$n blocks"
done
count() { echo "int g;int main(void){for(int i=0;i<$1;i++)g=g+1;return 0;}"; }
count 1000000 >"$work/text.c"
measure "3000000 turns alone"
walk "the same walked"
check "the same in a check" unlimited
count 6000000 >"$work/text.c"
check "16000000 turns" 300000
