#!/usr/bin/env bash
# How much memory a run takes with every setting at its greatest.
# Use: bench/memory.sh [SECONDS]      prints the most KiB that lay in memory: of a program that does nothing, under the least settings, and with
#   each setting alone at its greatest; and of one run with all at their greatest, which makes 1,048,576 objects, has a barrier move nearly all,
#   prints 16 MiB, starts 63 threads on 16 workers and goes on till its journal is full. Beside that the bytes of the heap, of the journal
#   and of the output, and what the rest is, which is to be less than 128 MiB. It ends with 0 where it is, and where each run ended as it must.
#   Each run has 600 seconds, or those that are given. /usr/bin/time measures.
# It measures $ALASKA, or else bin/alaska, which ./prove builds, or crates/alaska/out/alaska as `rt ci` left it in this checkout.
set -eu
here=$(cd "$(dirname "$0")/.." && pwd)
seconds=${1:-600}
if [ -n "${ALASKA:-}" ]; then
  program=$(realpath "$ALASKA")
  work=$(mktemp -d)
  trap 'rm -rf "$work"' EXIT
  cd "$work"
else
  . "$here/bench/program.sh"
fi
most=131072

cat >nothing.c <<'C'
int main(void) { return 0; }
C
# (2^20 objects of 256 bytes fill the sub-heaps; those that stand first are freed, so that each other one moves; 32 prints of 2^19 bytes are 2^24)
cat >all.c <<'C'
struct item { struct item *next; };
struct item *head;
struct item *first[16];
char text[524289];
int work(void *v) { return 0; }
int main(void) {
  thrd_t t;
  int k = 0;
  while (thrd_create(&t, work, NULL) == 0) k++;
  int n = 1;
  text[0] = 'x';
  while (n < 524288) { memcpy(text + n, text, n); n = n * 2; }
  for (int i = 0; i < 32; i++) printf("%s", text);
  for (int i = 0; i < 1048576; i++) {
    struct item *x = malloc(256);
    if (i % 65536 == 0) first[i / 65536] = x;
    else { x->next = head; head = x; }
  }
  for (int i = 0; i < 16; i++) free(first[i]);
  while (1) text[0] = 'y';
}
C

wrong=0
peak=0
run() { # status file workers subheap subheaps ids entries output words..: sets the peak
  local status=0
  words=(--workers "$3" --subheap "$4" --subheaps "$5" --ids "$6" --entries "$7" --output "$8" "${@:9}")
  /usr/bin/time -f %M -o peak timeout "$seconds" "$program" "$2" "${words[@]}" >out 2>note || status=$?
  peak=$(tail -n 1 peak)
  printf '%9d KiB  %s %s\n' "$peak" "$2" "${words[*]}"
  [ "$status" = "$1" ] || { wrong=1; echo "status $status in place of $1: $(head -n 1 note)" >&2; }
}

run 0 nothing.c 1 4096 1 1 1000 1
run 0 nothing.c 16 4096 1 1 1000 1
run 0 nothing.c 1 16777216 16 1 1000 1
run 0 nothing.c 1 4096 1 1048576 1000 1
run 0 nothing.c 1 4096 1 1 16000000 1
run 0 nothing.c 1 4096 1 1 1000 16777216
run 0 nothing.c 16 16777216 16 1048576 16000000 16777216
run 8 all.c 16 16777216 16 1048576 16000000 16777216 --every 1000000
cat note
[ "$(wc -c <out)" = 16777216 ] || { wrong=1; echo "$(wc -c <out) bytes were printed in place of 16777216" >&2; }
awk -v p="$peak" -v most="$most" -v wrong="$wrong" 'BEGIN {
  heap = 262144; journal = 16000000 * 16 / 1024; output = 16384
  rest = p - heap - journal - output
  printf "heap %d, journal %d, output %d KiB; the rest is %d KiB, and is to be less than %d\n", heap, journal, output, rest, most
  exit wrong || rest >= most
}'
