#!/usr/bin/env bash
# How fast the machine runs C: one worker, programs compiled by `alaska` itself.
# Use: bench/machine.sh      prints, for each program, how many rounds of its loop a second: sums and tests in registers, loads and stores through
#   one translation before the loop, calls, mallocs with frees, callocs with frees, a vector that grows by realloc, and atomic sums; and for barriers
#   over 256 to 1,048,576 objects the time of one barrier and of each object that it moves, and the bytes moved a second.
# It measures crates/alaska/out/alaska as `rt ci` left it in this checkout, or bin/alaska, which ./prove builds.
set -eu
here=$(cd "$(dirname "$0")/.." && pwd)
. "$here/bench/program.sh"

seconds() { # words..: the seconds that a run takes
  local start end
  start=$(date +%s%N)
  "$program" "$@" >out 2>note || true
  end=$(date +%s%N)
  grep -q '^ended: done 0' note || { cat out note >&2; exit 1; }
  echo $((end - start)) | awk '{ printf "%.4f", $1 / 1e9 }'
}

empty=$(printf 'int main(void){return 0;}\n' >empty.c; seconds empty.c --entries 16000000)

pace() { # name file rounds
  local t
  t=$(seconds "$2" --entries 16000000)
  awk -v name="$1" -v t="$t" -v e="$empty" -v n="$3" 'BEGIN { d = t - e; if (d <= 0) d = 1e-9; printf "%-10s %8.3f s  %8.2f million rounds/s\n", name, d, n / d / 1e6 }'
}

cat >sets.c <<'C'
int main(void){long s=0;for(int i=0;i<30000000;i++){if(i&1)s=s+i;else s=s^i;}printf("%ld\n",s);return 0;}
C
cat >loads.c <<'C'
int main(void){int *p=malloc(400);for(int i=0;i<100;i++)p[i]=i;
for(int k=0;k<20000;k++)for(int i=0;i<100;i++)p[i]=p[i]+k;
printf("%d\n",p[7]);free(p);return 0;}
C
cat >calls.c <<'C'
int next(int n){return n+1;}
int main(void){int s=0;for(int i=0;i<10000000;i++)s=next(s);printf("%d\n",s);return 0;}
C
cat >mallocs.c <<'C'
int main(void){int s=0;for(int i=0;i<1000000;i++){char *p=malloc(24);*p=i;s=s+*p;free(p);}printf("%d\n",s);return 0;}
C
cat >callocs.c <<'C'
int main(void){int s=0;for(int i=0;i<1000000;i++){int *p=calloc(2,12);s=s+p[5]+1;free(p);}printf("%d\n",s);return 0;}
C
cat >grows.c <<'C'
int main(void){int s=0;
for(int k=0;k<2000;k++){int n=0;int room=4;int *p=malloc(16);
for(int i=0;i<1000;i++){if(n==room){room=room*2;p=realloc(p,room*sizeof(int));}p[n]=i;n++;}
s=s+p[n-1];free(p);}
printf("%d\n",s);return 0;}
C
cat >adds.c <<'C'
atomic_long n;
int main(void){for(int i=0;i<5000000;i++)atomic_fetch_add(&n,1);printf("%ld\n",n);return 0;}
C
pace sets sets.c 30000000
pace loads loads.c 2000000
pace calls calls.c 10000000
pace mallocs mallocs.c 1000000
pace callocs callocs.c 1000000
pace grows grows.c 2000000
pace adds adds.c 5000000

barrier() { # objects bytes-of-one rounds
  # A full heap, as a queue. In each round two objects at its front are freed that don't lie side by side, so the malloc of both their rooms
  # waits, and a barrier moves all others; then two objects are made at its end. Beside it the same with two that lie side by side: no barrier comes.
  local n=$1 size=$2 rounds=$3 second with without
  for second in "x=head->next;head->next=x->next;" "x=head;head=x->next;"; do
    cat >barrier.c <<C
struct item{struct item *next;};
int main(void){
struct item *head=malloc($size);struct item *tail=head;
for(int i=1;i<$n;i++){tail->next=malloc($size);tail=tail->next;}
for(int r=0;r<$rounds;r++){
struct item *x=head;head=x->next;free(x);
${second}free(x);
char *both=malloc($((2 * size)));free(both);
tail->next=malloc($size);tail=tail->next;tail->next=malloc($size);tail=tail->next;}
return 0;}
C
    without=$(seconds barrier.c --subheap $((n * size)) --subheaps 1 --ids 1048576 --entries 16000000)
    [ -z "${second##x=head->*}" ] && with=$without && cp note moved
  done
  awk -v n="$n" -v size="$size" -v rounds="$rounds" -v a="$with" -v b="$without" '
    /^barriers: / { barriers = $2 }
    /^moved: / { objects = $2; bytes = $4 }
    END {
      if (barriers != rounds) { print "not one barrier a round: " barriers; exit 1 }
      d = a - b; if (d <= 0) d = 1e-9
      printf "barrier over %7d objects of %4d bytes: %9.3f ms, %7.1f ns each object that moves, %8.1f MB/s\n", n, size, d * 1e3 / barriers, d * 1e9 / objects, bytes / d / 1e6
    }' moved
}
barrier 256 16 8192
barrier 1024 16 2048
barrier 8192 16 256
barrier 65536 16 32
barrier 1048576 16 2
barrier 16384 1024 64
