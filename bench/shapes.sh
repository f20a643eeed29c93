#!/usr/bin/env bash
# How time and memory grow with the size of texts that are hard to compile: many pointers, loops in loops, literals, globals, breaks, chains.
# Use: bench/shapes.sh [BYTES [SECONDS]]      prints, for each shape, the seconds and the MB that lay in memory for a text of about so many bytes
#   (16,384 where none are given), for one of twice and for one of four times as many, and the exponent of growth from the second to the third: 1 where
#   twice the text takes twice as long, 2 where it takes four times as long. What a text of no statements takes is taken off the seconds first. A run
#   that takes more than SECONDS (60) is cut off; no exponent stands beside it. With 262144 the greatest text has 1 MiB.
# The shapes, of at most 1,000 locals, as a function may have few more: `pointers`, a fifth of the text declares pointers, and the others read through
#   them in turn; `rounds`, the same with `while` before each
#   read; `deep 60` and `deep 120`, the same reads within so many loops; `few`, 250 pointers and as many reads as fit; `literals`, a string for each
#   statement; `breaks`, a loop in which objects and breaks take turns, and then breaks alone; `empty`, `blocks` and `loops`, the statements `;`, `{}` and `while(s);`, a line
#   each; `semis` and `braces`, `;` and `{}` without line ends between; `nots` and `ands`, chains of ! and of &&. By number and not by bytes: `strings`, 1,000, 8,000 and 65,000 literals, and `globals`, 1,000, 2,000 and 4,000
#   globals that begin with a literal each and are read (a text may have 4,096).
# All statements stand in functions that aren't called. It measures $ALASKA, or else bin/alaska, or else the one that ./alaska builds without a proof.
# /usr/bin/time measures.
set -eu
here=$(cd "$(dirname "$0")/.." && pwd)
[ -x /usr/bin/time ] || { echo "bench/shapes.sh: /usr/bin/time is not on this machine" >&2; exit 1; }
if [ -n "${ALASKA:-}" ]; then
  program=$(realpath "$ALASKA")
  work=$(mktemp -d)
  trap 'rm -rf "$work"' EXIT
  cd "$work"
else
  . "$here/scripts/built.sh"
  find_program take_unproved
fi
bytes=${1:-16384}
most=${2:-60}

make() { # a size, an awk program that prints statements till so many bytes are printed, or so many of them: the text
  awk "
    function say(text) { left -= length(text) + 1; print text }
    BEGIN { left = $1 - 400; size = $1; say(\"int f(int s, int *p) { char *q;\"); $2; print \"return s; }\"; print \"int main(void) { return 0; }\" }"
}

took() { # file: sets `seconds` and `peak`; fails where the text isn't taken or the run is cut off, and says so in `seconds`
  local status=0
  /usr/bin/time -f '%e %M' -o note timeout "$most" "$program" "$1" >out 2>said || status=$?
  case $status in
    0) read -r seconds peak < <(tail -n 1 note) ;;
    124) seconds="over $most"; return 1 ;;
    *) seconds="status $status"; echo "bench/shapes.sh: $(head -n 1 said)" >&2; return 1 ;;
  esac
}

# A text without statements, which the others' seconds are measured against.
make 0 '' >none.c
took none.c
none=$seconds

heading() { # three sizes, which shapes have from here on
  sizes=("$@")
  printf '%-10s %9s %7s %9s %7s %9s %7s %9s\n' shape "$1" MB "$2" MB "$3" MB exponent
}

shape() { # name, an awk program
  local row='' before='' exponent=- size less=0
  for size in "${sizes[@]}"; do
    make "$size" "$2" >shape.c
    if took shape.c; then
      row+=$(awk -v t="$seconds" -v k="$peak" 'BEGIN { printf " %9.2f %7.0f", t, k / 1024 }')
      exponent=$(awk -v a="$before" -v b="$seconds" -v n="$none" -v s="$less" -v t="$size" \
        'BEGIN { if (a == "" || a - n < 0.02) print "-"; else printf "%.2f", log((b - n) / (a - n)) / log(t / s) }')
      before=$seconds
    else
      row+=$(printf ' %9s %7s' "$seconds" -)
      before=
      exponent=-
    fi
    less=$size
  done
  printf '%-10s%s %9s\n' "$1" "$row" "$exponent"
}

pointers='for (most = 0; left > size * 4 / 5 && most < 1000; most++) say("int*p" most "=p;")'
reads='for (k = 0; left > 0; k++)'
heading "$bytes" $((bytes * 2)) $((bytes * 4))
shape pointers "$pointers; $reads say(\"s+=*p\" k % most \";\")"
shape rounds "$pointers; $reads say(\"while(s)s+=*p\" k % most \";\")"
for depth in 60 120; do
  shape "deep $depth" "$pointers; for (k = 0; k < $depth; k++) say(\"while(s)\"); say(\"{\"); $reads say(\"s+=*p\" k % most \";\"); print \"}\""
done
shape few "for (most = 0; most < 250; most++) say(\"int*p\" most \"=p;\"); $reads say(\"s+=*p\" k % most \";\")"
shape literals "$reads say(\"q=\\\"\" k \"\\\";\")"
shape breaks "say(\"while(s){\"); $reads say((k < 1000 ? \"int v\" k \"[1];\" : \"\") \"if(s)break;\"); print \"}\""
shape empty "$reads say(\";\")"
shape blocks "$reads say(\"{}\")"
shape loops "$reads say(\"while(s);\")"
shape semis "$reads { row = \"\"; for (j = 0; j < 100; j++) row = row \";\"; say(row) }"
shape braces "$reads { row = \"\"; for (j = 0; j < 50; j++) row = row \"{}\"; say(row) }"
shape nots "$reads { row = \"s=\"; for (j = 0; j < 100; j++) row = row \"!\"; say(row \"s;\") }"
shape ands "$reads { row = \"s=s\"; for (j = 0; j < 100; j++) row = row \"&&s\"; say(row \";\") }"
heading 1000 8000 65000
shape strings 'for (k = 0; k < size; k++) print "q=\"" k "\";"'
heading 1000 2000 4000
shape globals 'print "return s; }"; for (k = 0; k < size; k++) print "char *g" k "=\"" k "\";"
  print "int g(int s) { char *q;"; for (k = 0; k < size; k++) print "q=g" k ";"'
