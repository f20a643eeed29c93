#!/usr/bin/env bash
# How fast the arena places, moves and slides: so many objects of 16 to 256 bytes are placed, every second one is freed, and the others slide down.
# Use: bench/arena.sh      for 10000, 100000 and 1000000 objects: seconds for all places, for the plan, for judging it and for its moves
# Then MiB a second: of the moves, of their copies alone, and of the C library's memmove on the same bytes, in the same run of this script.
# Then, for slides of objects of one size, of which every second one is freed: seconds, nanoseconds for each object, MiB a second beside those of
# memmove over the same places, and which share of memmove's rate the slide has.
# Last, for objects of 1 MiB, MiB a second: of new objects that are copied from one, beside memmove, and of new ones that are cleared, beside memset.
# It measures crates/bench/out/bench as `rt ci` left it in this checkout; where there is none, it proves and builds it first. It
# compiles the program of memmove with gcc.
set -eu
here=$(cd "$(dirname "$0")/.." && pwd)
. "$here/bench/parts.sh"
work=$(mktemp -d)
trap 'rm -rf "$work"' EXIT

# The same sizes, places and moves, told again in C.
cat >"$work/moves.c" <<'C'
#include <stdint.h>
#include <stdio.h>
#include <stdlib.h>
#include <string.h>
#include <time.h>

enum { HEAP_BYTES = 16777216, HEAPS = 16 };

struct object { uint32_t at, size, id; };

static int by_place(const void *a, const void *b) {
  uint32_t x = ((const struct object *)a)->at, y = ((const struct object *)b)->at;
  return (x > y) - (x < y);
}

static double now(void) {
  struct timespec t;
  clock_gettime(CLOCK_MONOTONIC, &t);
  return t.tv_sec + t.tv_nsec / 1e9;
}

int main(int argc, char **argv) {
  uint32_t objects = argc > 1 ? strtoul(argv[1], 0, 10) : 1000;
  struct object *all = malloc(sizeof *all * objects);
  uint32_t *from = malloc(4 * objects), *to = malloc(4 * objects), *size = malloc(4 * objects);
  char *bytes = malloc((size_t)HEAPS * HEAP_BYTES);
  if (!all || !from || !to || !size || !bytes) return 1;
  memset(bytes, 1, (size_t)HEAPS * HEAP_BYTES);
  uint32_t used[HEAPS] = {0}, seed = 1, below = 0, moves = 0;
  uint64_t taken = 0;
  for (uint32_t k = 0; k < objects; k++) {
    seed = seed * 1103515245u + 12345u;
    uint32_t n = (seed / 65536 % 241 + 16 + 15) / 16 * 16, heap = 0;
    while (heap < HEAPS && used[heap] + n > HEAP_BYTES) heap++;
    if (heap == HEAPS) return 1;
    all[k] = (struct object){heap * HEAP_BYTES + used[heap], n, k};
    used[heap] += n;
  }
  qsort(all, objects, sizeof *all, by_place);
  for (uint32_t k = 0; k < objects; k++) {
    uint32_t at = all[k].at, n = all[k].size, start = at - at % HEAP_BYTES;
    if (all[k].id % 2 == 0 && all[k].id < objects / 2 * 2) continue;
    uint32_t slid = start > below ? start : below;
    below = slid + n;
    if (slid == at) continue;
    from[moves] = at, to[moves] = slid, size[moves] = n;
    moves++, taken += n;
  }
  double begin = now();
  for (uint32_t k = 0; k < moves; k++) memmove(bytes + to[k], bytes + from[k], size[k]);
  double seconds = now() - begin;
  uint32_t sum = 0;
  for (uint32_t k = 0; k < below; k += 4096) sum += bytes[k];
  fprintf(stderr, "%u\n", sum);
  printf("%u %llu %.0f\n", moves, (unsigned long long)taken, seconds * 1e6);
  return 0;
}
C
gcc -O2 -o "$work/moves" "$work/moves.c"

printf '%9s %9s %9s %9s %9s %12s %12s %12s\n' objects places plan judged moves 'moves MiB/s' 'copies MiB/s' memmove
for objects in 10000 100000 1000000; do
  "$program" arena "$objects" >"$work/out" 2>"$work/times"
  read -r moves taken micros < <("$work/moves" "$objects" 2>/dev/null)
  grep -qx "$moves moves of $taken bytes, legal: true" "$work/out" || { echo "the two programs don't move the same bytes" >&2; cat "$work/out" >&2; exit 1; }
  tr -d '\na-z:,' <"$work/times" | awk -v n="$objects" -v b="$taken" -v m="$micros" '
    function rate(t) { return t > 0 ? b / t * 1e6 / 1048576 : 0 }
    { printf "%9d %9.3f %9.3f %9.3f %9.3f %12.0f %12.0f %12.0f\n", n, $1 / 1e6, $2 / 1e6, $3 / 1e6, $4 / 1e6, rate($4), rate($5), rate(m) }'
done

# The same slides in C: objects of a size, of which every second one is gone.
cat >"$work/slides.c" <<'C'
#include <stdint.h>
#include <stdio.h>
#include <stdlib.h>
#include <string.h>
#include <time.h>

enum { HEAP_BYTES = 16777216, HEAPS = 4, MOST = 1000000 };

static double now(void) {
  struct timespec t;
  clock_gettime(CLOCK_MONOTONIC, &t);
  return t.tv_sec + t.tv_nsec / 1e9;
}

int main(int argc, char **argv) {
  uint32_t size = argc > 1 ? strtoul(argv[1], 0, 10) : 1024, each = HEAP_BYTES / size;
  uint32_t objects = HEAPS * each < MOST ? HEAPS * each : MOST;
  uint32_t *from = malloc(4 * objects), *to = malloc(4 * objects), moves = 0;
  char *bytes = malloc((size_t)HEAPS * HEAP_BYTES);
  if (!from || !to || !bytes) return 1;
  memset(bytes, 1, (size_t)HEAPS * HEAP_BYTES);
  for (uint32_t k = 1; k < objects; k += 2) {
    uint32_t start = k / each * HEAP_BYTES;
    from[moves] = start + k % each * size, to[moves] = start + k % each / 2 * size;
    moves++;
  }
  double begin = now();
  for (uint32_t k = 0; k < moves; k++) memmove(bytes + to[k], bytes + from[k], size);
  double seconds = now() - begin;
  uint32_t sum = 0;
  for (uint32_t k = 0; k < HEAPS * HEAP_BYTES; k += 4096) sum += bytes[k];
  fprintf(stderr, "%u\n", sum);
  printf("%u %.0f\n", moves, seconds * 1e6);
  return 0;
}
C
gcc -O2 -o "$work/slides" "$work/slides.c"

printf '\n%9s %9s %9s %12s %14s %12s %9s\n' size moves slide 'ns a move' 'slide MiB/s' memmove share
for size in 16 64 1024 4096 65536; do
  "$program" slides "$size" >"$work/out" 2>"$work/times"
  read -r moves micros < <("$work/slides" "$size" 2>/dev/null)
  grep -qx "$moves of them slide with $((moves * size)) bytes, and $moves hold their ids" "$work/out" || { echo "the two programs don't slide the same bytes" >&2; cat "$work/out" >&2; exit 1; }
  tr -d '\na-z:,' <"$work/times" | awk -v n="$size" -v k="$moves" -v m="$micros" '
    function rate(t) { return t > 0 ? n * k / t * 1e6 / 1048576 : 0 }
    { printf "%9d %9d %9.3f %12.0f %14.0f %12.0f %8.0f%%\n", n, k, $1 / 1e6, $1 * 1e3 / k, rate($1), rate(m), ($1 > 0 ? 100 * m / $1 : 0) }'
done

# The same bytes, copied and cleared as often in C.
cat >"$work/filled.c" <<'C'
#include <stdio.h>
#include <stdlib.h>
#include <string.h>
#include <time.h>

enum { BYTES = 1048576 };

static double now(void) {
  struct timespec t;
  clock_gettime(CLOCK_MONOTONIC, &t);
  return t.tv_sec + t.tv_nsec / 1e9;
}

int main(int argc, char **argv) {
  unsigned rounds = argc > 1 ? strtoul(argv[1], 0, 10) : 1000;
  char *bytes = malloc(2 * BYTES);
  if (!bytes) return 1;
  memset(bytes, 1, 2 * BYTES);
  double begin = now();
  for (unsigned k = 0; k < rounds; k++) {
    memmove(bytes + BYTES, bytes, BYTES);
    __asm__ volatile("" : : "r"(bytes) : "memory");
  }
  double copied = now() - begin;
  begin = now();
  for (unsigned k = 0; k < rounds; k++) {
    memset(bytes + BYTES, 0, BYTES);
    __asm__ volatile("" : : "r"(bytes) : "memory");
  }
  printf("%.0f %.0f\n", copied * 1e6, (now() - begin) * 1e6);
  return 0;
}
C
gcc -O2 -o "$work/filled" "$work/filled.c"

printf '\n%9s %14s %12s %14s %12s\n' objects 'copied MiB/s' memmove 'cleared MiB/s' memset
for objects in 1000 10000; do
  "$program" filled "$objects" >"$work/out" 2>"$work/times"
  grep -qx "$objects objects of 1048576 bytes copied, of which $objects hold the mark, and as many cleared, of which $objects hold 0" "$work/out" || { echo "the objects don't hold what they should" >&2; cat "$work/out" >&2; exit 1; }
  read -r moved set < <("$work/filled" "$objects")
  tr -d '\na-z:,' <"$work/times" | awk -v n="$objects" -v m="$moved" -v s="$set" '
    function rate(t) { return t > 0 ? n / t * 1e6 : 0 }
    { printf "%9d %14.0f %12.0f %14.0f %12.0f\n", n, rate($1), rate(m), rate($2), rate(s) }'
done
