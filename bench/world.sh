#!/usr/bin/env bash
# How fast workers run threads: turns a second with 1, 2 and 4 workers, of four threads that work alone, and of four that take one mutex; and, on
# two processors alone, with 1, 8 and 16 workers.
# Use: bench/world.sh      prints, for each program, the processors, the workers, the seconds, and how many turns of its loops were done a second.
# A round of the first program's loop is one turn; one of the second's is five: lock, load, store, unlock, and the round's end.
# It measures bin/alaska, which ./prove builds, or crates/alaska/out/alaska as `rt ci` left it in this checkout.
set -eu
here=$(cd "$(dirname "$0")/.." && pwd)
. "$here/bench/program.sh"

cat >alone.c <<'C'
int go(void *v){int s=0;for(int i=0;i<5000000;i++)s=s^i;return s;}
int main(void){thrd_t t[4];for(int k=0;k<4;k++)thrd_create(&t[k],go,NULL);
for(int k=0;k<4;k++)thrd_join(t[k],NULL);return 0;}
C
cat >mutex.c <<'C'
struct sum{mtx_t m;long n;};
int go(void *v){struct sum *s=v;for(int i=0;i<20000;i++){mtx_lock(&s->m);s->n=s->n+1;mtx_unlock(&s->m);}return 0;}
int main(void){struct sum *s=malloc(sizeof(struct sum));mtx_init(&s->m,mtx_plain);s->n=0;thrd_t t[4];
for(int k=0;k<4;k++)thrd_create(&t[k],go,s);for(int k=0;k<4;k++)thrd_join(t[k],NULL);
printf("%ld\n",s->n);free(s);return 0;}
C
measure() { # the processors, the program, its turns, the workers
  local start end status=0
  start=$(date +%s%N)
  ${1:+taskset -c "$1"} timeout 300 "$program" "$2" --workers "$4" --entries 16000000 >out 2>note || status=$?
  end=$(date +%s%N)
  [ "$status" = 0 ] && grep -q '^ended: done 0' note || { echo "$2, $4 workers: $status" >&2; cat note >&2; exit 1; }
  awk -v name="$2" -v on="${1:-all}" -v w="$4" -v ns=$((end - start)) -v n="$3" \
    'BEGIN { printf "%-8s processors %-4s %2d workers %8.3f s %10.3f million turns/s\n", name, on, w, ns / 1e9, n * 1e3 / ns }'
}

for row in "alone.c 20000000" "mutex.c 400000"; do
  for workers in 1 2 4; do measure "" $row "$workers"; done
  if command -v taskset >/dev/null; then
    for workers in 1 8 16; do measure 0,1 $row "$workers"; done
  fi
done
