#!/usr/bin/env bash
# Runs the program over what may harm it: C texts that break rules and pass limits, files that can't be read, outputs that can't be written,
# texts that are none, code files that are cut, deep, long or none, words that are wrong, and little memory. Each run is of one worker with 1000
# entries, and has 20 seconds, or 120 where the program is built with checks.
# Use: scripts/hostile.sh      prints a line for each case that went another way, and how many there were; ends with 0 where none did.
# It runs $ALASKA, or else bin/alaska, or else the program that ./alaska builds once without a proof. A program that is built with checks takes no
# `ulimit -v`; that part is then left out, and a line says so.
set -u
here=$(cd "$(dirname "$0")/.." && pwd)
. "$here/scripts/built.sh"
find_program take_unproved
cases=0
wrong=0
small=(--workers 1 --entries 1000)
[ "$checked" = yes ] && seconds=120 || seconds=20
alaska=(timeout -k 1 $seconds "$program")

# Compares the run that just ended, of which out and note were written.
judge() { # name status-that-is-wanted status-that-came what-out-is what-note-has
  local why=
  cases=$((cases + 1))
  [ "$2" = "$3" ] || why="status $3 in place of $2"
  [ "$4" = - ] || [ "$4" = "$(cat out)" ] || why="$why, printed '$(head -c 80 out)' in place of '$4'"
  case $5 in
    -) ;;
    '') [ -s note ] && why="$why, a report where none is wanted" ;;
    *) grep -qF -e "$5" note || why="$why, no '$5' in the report" ;;
  esac
  [ -z "$why" ] && return
  wrong=$((wrong + 1))
  printf '%s: %s\n' "$1" "${why#, }"
  sed 's/^/  /' note | head -n 3
}

text() { # status what-is-printed what-the-report-has text words..
  printf '%s\n' "$4" >text.c
  "${alaska[@]}" text.c "${small[@]}" "${@:5}" >out 2>note
  judge "$4 ${*:5}" "$1" $? "$2" "$3"
}

file() { # status what-the-report-has file words..
  "${alaska[@]}" "$3" "${small[@]}" "${@:4}" >out 2>note
  judge "file ${3:0:60}" "$1" $? '' "$2"
}

words() { # words..: none that are settings
  "${alaska[@]}" "$@" >out 2>note
  judge "words ${*@Q}" 2 $? '' 'usage: alaska FILE [options]'
}

# Texts that break rules, and texts that pass limits.
text 6 '' 'ended: trap store 104198400' 'int main(void){char *p=malloc(16);p[100000000]=1;return 0;}'
text 0 '' 'ended: done 0' 'int main(void){char *p=malloc(16);p[20]=1;return 0;}'
text 0 1 'barriers: 0' 'int main(void){char *p=malloc(16777217);printf("%d\n",p==NULL);return 0;}'
text 0 '64 1' 'threads: 64' 'int f(void *v){return 0;}int main(void){thrd_t t;int k=0;int r=0;while(r==0){r=thrd_create(&t,f,NULL);k++;}printf("%d %d\n",k,r);return 0;}'
text 6 '' 'ended: trap load 0' 'int main(void){int *p=NULL;return *p;}'
text 6 '' 'ended: trap free 9223372036854775808' 'int main(void){char *p=malloc(8);free(p);free(p);return 0;}' --ids 1
text 6 before 'ended: trap print 0' 'int main(void){char *p=NULL;printf("before\n");printf("%s",p);return 0;}'
text 7 '' 'ended: all blocked' 'mtx_t m;int main(void){mtx_init(&m,mtx_plain);mtx_lock(&m);mtx_lock(&m);return 0;}'
text 8 '' 'ended: turn limit' 'int main(void){while(1);return 0;}'
text 9 '' 'ended: output limit' 'int main(void){printf("ab");return 0;}' --output 1
text 10 '' 'ended: stack limit 0' 'int f(int n){return f(n+1);}int main(void){return f(0);}'
text 0 '' 'ended: done 0' 'int main(void){int z=0;int a=1/z;int b=a%z;int c=1<<99;return 0;}'
text 0 '' 'ended: done 2147483647' 'int main(void){int a=2147483647;return a;}'

# The same with evacuations: a sub-heap is emptied for a malloc of its size, and what is wild stays so.
emptied='int main(void){char *a=malloc(4096);char *b=malloc(64);free(a);char *c=malloc(64);char *d=malloc(4096);printf("%d\n",d!=NULL);return 0;}'
text 0 1 'evacuated: 1 sub-heaps' "$emptied" --subheap 4096 --subheaps 2 --evacuate 1
text 0 0 'room 4032' "$emptied" --subheap 4096 --subheaps 2 --evacuate 0
text 0 '' 'evacuated: 0 sub-heaps' 'int main(void){char *p=malloc(16);p[20]=1;return 0;}' --every 1 --evacuate 1
text 6 '' 'ended: trap free 9223372036854775808' 'int main(void){char *p=malloc(8);free(p);free(p);return 0;}' --ids 1 --evacuate 1

# The same and others, checked: there is no machine, no stack and no limit but that of turns.
text 12 '' 'text.c:1:35: broke C5 after 0 turns' 'int main(void){int *p=NULL;return *p;}' --mode check
text 12 before 'text.c:1:48: broke C5 after 1 turns' 'int main(void){char *p=NULL;printf("before\n");printf("%s",p);return 0;}' --mode check
text 12 '' 'text.c:1:42: broke C10 after 2 turns' 'int main(void){char *p=malloc(8);free(p);free(p);return 0;}' --mode check
text 12 '' 'text.c:1:37: broke C13 after 1 turns' 'mtx_t m;int main(void){mtx_lock(&m);mtx_lock(&m);return 0;}' --mode check
text 0 1 'checked: done 0 after 3 turns' 'int main(void){char *p=malloc(16777217);printf("%d\n",p==NULL);return 0;}' --mode check
text 0 '64 1' 'checked: done 0 after ' 'int f(void *v){return 0;}int main(void){thrd_t t;int k=0;int r=0;while(r==0){r=thrd_create(&t,f,NULL);k++;}printf("%d %d\n",k,r);return 0;}' --mode check
text 0 '' 'checked: all blocked after 3 turns' 'mtx_t m;int f(void *v){mtx_lock(&m);return 0;}int main(void){thrd_t t;mtx_lock(&m);thrd_create(&t,f,NULL);thrd_join(t,NULL);return 0;}' --mode check
text 0 '' 'checked: turns spent after 1000 turns' 'int main(void){while(1);return 0;}' --mode check
text 0 '' 'checked: turns spent after 1000 turns' 'int f(int n){return f(n+1);}int main(void){return f(0);}' --mode check
text 0 ab 'checked: done 0 after 2 turns' 'int main(void){printf("ab");return 0;}' --mode check --output 1
text 0 '' 'checked: done 2147483647 after 1 turns' 'int main(void){int a=2147483647;return a;}' --mode check --schedule 18446744073709551615

# The same and others, judged: each runs as it does alone, and turns that weren't done aren't judged.
racing='int x;int f(void *v){x=1;return 0;}int main(void){thrd_t t;thrd_create(&t,f,NULL);x=2;thrd_join(t,NULL);return 0;}'
text 13 '' 'race: text.c:1:83 and text.c:1:22, turns 1 and 3' "$racing" --mode race
text 0 '' 'race: broke C7 after 1 turns' 'int main(void){char *p=malloc(16);p[20]=1;return 0;}' --mode race
text 0 '' 'race: broke C2 after 0 turns' 'int main(void){int z=0;int a=1/z;return 0;}' --mode race
text 0 '64 1' 'race: none' 'int f(void *v){return 0;}int main(void){thrd_t t;int k=0;int r=0;while(r==0){r=thrd_create(&t,f,NULL);k++;}printf("%d %d\n",k,r);return 0;}' --mode race
text 6 '' 'race: none' 'int main(void){char *p=malloc(16);p[100000000]=1;return 0;}' --mode race
text 6 before 'race: none' 'int main(void){char *p=NULL;printf("before\n");printf("%s",p);return 0;}' --mode race
text 7 '' 'race: none' 'mtx_t m;int main(void){mtx_init(&m,mtx_plain);mtx_lock(&m);mtx_lock(&m);return 0;}' --mode race
text 8 '' 'race: none' 'int main(void){while(1);return 0;}' --mode race
text 9 '' 'race: none' 'int main(void){printf("ab");return 0;}' --mode race --output 1
text 10 '' 'race: none' 'int f(int n){return f(n+1);}int main(void){return f(0);}' --mode race
text 3 '' 'text.c:1:23: refused: OutsideSubset 2' 'int main(void){return 1.5;}' --mode race

# Files that can't be read.
mkdir folder
file 4 "alaska: can't read folder" folder
file 4 "alaska: can't read missing.c" missing.c
file 4 "alaska: can't read " ''
file 4 "alaska: can't read " "$(printf 'n%.0s' {1..5000})"
file 4 "alaska: can't read text.c/below" text.c/below
file 4 "alaska: can't read /proc/self/mem" /proc/self/mem
file 4 "alaska: can't read folder" folder --mode check
file 4 "alaska: can't read missing.c" missing.c --mode check
file 4 "alaska: can't read " '' --mode check
file 4 "alaska: can't read missing.c" missing.c --mode race
for mode in build load; do
  file 4 "alaska: can't read folder" folder --mode $mode
  file 4 "alaska: can't read missing.c" missing.c --mode $mode
  file 4 "alaska: can't read " '' --mode $mode
done
cp "$program" readable
echo 'int main(void) { return 0; }' >hidden.c
chmod 000 hidden.c
as_nobody=()
[ "$(id -u)" != 0 ] || as_nobody=(setpriv --reuid=65534 --regid=65534 --clear-groups)
"${as_nobody[@]}" timeout 20 ./readable hidden.c "${small[@]}" >out 2>note
judge 'a file that may not be read' 4 $? '' "alaska: can't read hidden.c"

# Outputs that can't be written. Where standard output fails, nothing goes to standard error.
cat >prints.c <<'C'
int main(void) { printf("%d\n", 42); return 0; }
C
prints=("${alaska[@]}" prints.c "${small[@]}")
: >out
"${prints[@]}" >/dev/full 2>note; judge 'a full standard output' 5 $? - ''
"${prints[@]}" >&- 2>note; judge 'a closed standard output' 5 $? - ''
"${prints[@]}" --mode check >/dev/full 2>note; judge 'a full standard output of a check' 5 $? - ''
"${prints[@]}" --mode race >/dev/full 2>note; judge 'a full standard output of a race' 5 $? - ''
"${prints[@]}" >out 2>/dev/full; judge 'a full standard error' 5 $? 42 -
"${prints[@]}" --mode check >out 2>/dev/full; judge 'a full standard error of a check' 5 $? 42 -
"${prints[@]}" --mode race >out 2>/dev/full; judge 'a full standard error of a race' 5 $? 42 -
"${prints[@]}" >out 2>&-; judge 'a closed standard error' 5 $? 42 -
"${prints[@]}" <&- >&- 2>&-; judge 'nothing is open' 5 $? - -
{ sleep 1; "${prints[@]}" 2>note; echo $? >status; } | true
judge 'a pipe that nobody reads' 5 "$(cat status)" - ''
: >note
"${alaska[@]}" missing.c 2>/dev/full >out; judge 'no report of a missing file' 5 $? '' -
"${alaska[@]}" 2>/dev/full >out; judge 'no usage' 5 $? '' -

# Texts that are none.
head -c 104857600 /dev/zero | tr '\0' ' ' >big.c
file 3 'refused: TooLong' big.c
rm big.c
file 3 'refused: TooLong' /dev/zero
printf '\377\376\0\001' >bytes.c
file 3 'bytes.c:1:1: refused: BadByte' bytes.c
file 3 'bytes.c:1:1: refused: BadByte' bytes.c --mode check
head -c 1000000 "$program" >program.c
file 3 'refused: ' program.c
: >empty.c
file 3 'empty.c:1:1: refused: ' empty.c
file 3 'refused: ' /dev/null
awk 'BEGIN { printf "int main(void){return "; for (i = 0; i < 50000; i++) printf "("; }' >deep.c
file 3 'refused: TooDeep' deep.c
file 3 'refused: TooDeep' deep.c --mode check

# Code that is built, and loaded: it ends as its text does. A text that is refused is refused here too.
build() { # text code
  printf '%s\n' "$1" >text.c
  "${alaska[@]}" text.c --mode build >"$2" 2>note
  judge "build $1" 0 $? - "built: $(stat -c %s "$2") bytes"
}

code() { # status what-is-printed what-the-report-has file words..
  "${alaska[@]}" "$4" --mode load "${small[@]}" "${@:5}" >out 2>note
  judge "code $4" "$1" $? "$2" "$3"
}

build 'int main(void){int *p=malloc(4);*p=41;*p=*p+1;printf("%d\n",*p);free(p);return 0;}' heap.alsk
code 0 42 'ended: done 0' heap.alsk
code 0 42 'evacuated: 0 sub-heaps' heap.alsk --evacuate 1
build 'int main(void){char *p=malloc(16);p[100000000]=1;return 0;}' trap.alsk
code 6 '' 'ended: trap store 104198400' trap.alsk
build 'mtx_t m;int main(void){mtx_init(&m,mtx_plain);mtx_lock(&m);mtx_lock(&m);return 0;}' blocked.alsk
code 7 '' 'ended: all blocked' blocked.alsk
build 'int f(int n){return f(n+1);}int main(void){return f(0);}' calls.alsk
code 10 '' 'ended: stack limit 0' calls.alsk
text 3 '' 'text.c:1:23: refused: OutsideSubset 2' 'int main(void){return 1.5;}' --mode build
file 3 'refused: TooDeep' deep.c --mode build
build=("${alaska[@]}" prints.c --mode build)
"${build[@]}" >/dev/full 2>note; judge 'a full standard output of code' 5 $? - ''
"${build[@]}" >&- 2>note; judge 'a closed standard output of code' 5 $? - ''
"${build[@]}" >out 2>/dev/full; judge 'a full standard error of code' 5 $? - -
"${alaska[@]}" heap.alsk --mode load >/dev/full 2>note; judge 'a full standard output of what was loaded' 5 $? - ''
"${alaska[@]}" heap.alsk --mode load >out 2>/dev/full; judge 'a full standard error of what was loaded' 5 $? 42 -

# Code files that are cut (a program that is built with checks takes every 40th cut), that go on, and that are none.
whole=$(stat -c %s heap.alsk)
[ "$checked" = yes ] && step=40 || step=1
for ((cut = 0; cut < whole; cut += step)); do
  head -c $cut heap.alsk >cut.alsk
  code 15 '' "cut.alsk: bad code at $cut" cut.alsk
done
{ cat heap.alsk; printf '\0'; } >more.alsk
code 15 '' "more.alsk: bad code at $whole" more.alsk
printf ALSX >other.alsk
code 15 '' 'other.alsk: bad code at 3' other.alsk
printf 'ALSK\2\0\0\0' >second.alsk
code 15 '' 'second.alsk: bad code at 4' second.alsk
code 15 '' 'prints.c: bad code at 0' prints.c
code 15 '' '/dev/null: bad code at 0' /dev/null
code 18 '' '/dev/zero: too long' /dev/zero
code 18 '' '/dev/full: too long' /dev/full
head -c 104857600 /dev/zero >big.alsk
code 18 '' 'big.alsk: too long' big.alsk
head -c 67108865 /dev/zero >big.alsk
code 18 '' 'big.alsk: too long' big.alsk
head -c 67108864 /dev/zero >big.alsk
code 15 '' 'big.alsk: bad code at 0' big.alsk
rm big.alsk

# Counts of 2^32 - 1 items, of each list from the front on, alone and with a million zero bytes behind them.
start='ALSK\1\0\0\0\0\0\0\0' none='\0\0\0\0' one='\1\0\0\0' all='\377\377\377\377'
count() { # the bytes before the count
  printf "$start$1$all" >count.alsk
  code 15 '' "count.alsk: bad code at $(stat -c %s count.alsk)" count.alsk
  head -c 1000000 /dev/zero >>count.alsk
  code 15 '' 'count.alsk: bad code at ' count.alsk
}
count ''                                              # globals
count "$none"                                         # literals
count "$none$one"                                     # bytes of a literal
count "$none$none"                                    # functions
count "$none$none$one$none$none$none"                 # stack objects
count "$none$none$one$none$none$none$none"            # nodes
# (so many registers, slots and bytes of an object no thread has)
for function in "$none$all$none$none" "$none$none$all$none" "$none$none$none$one$all\1"; do
  printf "$start$none$none$one$function$none" >large.alsk
  code 10 '' 'ended: stack limit 0' large.alsk
done
printf "ALSK$one$all$none$none$one$none$none$none$none$none" >main.alsk
code 15 '' "main.alsk: bad code at $(stat -c %s main.alsk)" main.alsk

# Ifs in each other: a main of one register. A program that is built with checks needs more stack for them.
levels() { # how many
  printf "$start$none$none$one$none$one$none$none"
  for ((k = 0; k < $1; k++)); do printf "$one$none\1$none"; done
  head -c $((4 + 4 * $1)) /dev/zero
}
levels 1024 >deep.alsk
levels 1025 >deeper.alsk
[ "$checked" = yes ] && soft=$(ulimit -S -s) && ulimit -S -s 65536
code 0 '' 'ended: done 0' deep.alsk
code 15 '' 'deeper.alsk: bad code at 13352' deeper.alsk
[ "$checked" = yes ] && ulimit -S -s "$soft"

# Words that are no settings.
words
words text.c prints.c
words text.c --workers
words text.c --workers 0
words text.c --workers 17
words text.c --workers=1x
words text.c --workers -1
words text.c --entries 999
words text.c --entries 99999999999999999999999999
words text.c --every 0
words text.c --subheap 5000
words text.c --subheap 16777216 --subheaps 17
words text.c --output ''
words text.c --evacuate 2
words text.c --evacuate true
words text.c --nothing 1
words text.c --mode walk
words text.c --seed 1
words --mode check
words text.c prints.c --mode check
words text.c --mode Check
words text.c --mode check --seed 1
words text.c --mode check --size 3
words text.c --mode check --entries 999
words text.c --mode check --entries 16000001
words text.c --mode check --mode check
for mode in build load; do
  words --mode $mode
  words text.c prints.c --mode $mode
  words text.c --mode $mode --seed 1
  words text.c --mode $mode --size 3
  words text.c --mode $mode --entries 999
done
words text.c --mode Build
words --mode race
words text.c --mode Race
words text.c --mode race --seed 1
words text.c --mode race --size 3
words text.c --mode race --entries 999
words --mode churn --size 3
words --mode churn --seed 1 --size 0
words text.c --mode churn --seed 1 --size 3
words text.c $'\377\376'
words $(printf 'word%.0s ' {1..100})
words "$(printf 'w%.0s' {1..100000})" --nothing

# Little memory, in steps of 64 KiB: from where the C library loads, so that the program answers, till 20 runs in a row are the usual one.
# Each ends as usual, or for want of memory.
little() { # workers
  local kib=1024 usual=0 status=127
  while [ $status != 2 ] && [ $status != 11 ] && [ $kib -lt 1048576 ]; do
    kib=$((kib + 64))
    { (ulimit -v $kib; exec "$program") >out 2>note; } 2>/dev/null
    status=$?
  done
  echo "$1 workers: the C library loads from $kib KiB of addresses on"
  while [ $usual -lt 20 ] && [ $kib -lt 1048576 ]; do
    (ulimit -v $kib; exec "${alaska[@]}" prints.c --workers "$1" --entries 1000) >out 2>note
    status=$?
    if [ $status = 11 ]; then
      usual=0
      judge "ulimit -v $kib, $1 workers" 11 11 '' 'alaska: out of memory'
    else
      usual=$((usual + 1))
      judge "ulimit -v $kib, $1 workers" 0 $status 42 'ended: done 0'
    fi
    kib=$((kib + 64))
  done
  echo "$1 workers: each run is the usual one from $((kib - 1280)) KiB on"
}
if [ "$checked" = yes ]; then
  echo "this program was built with checks: it isn't run with little memory"
else
  little 1
  little 4
fi

echo "$cases cases, $wrong went another way"
[ $wrong = 0 ]
