#!/usr/bin/env bash
# Runs the programs of examples/, each as it is and then built and loaded, and compares what each prints, its status and the first line of its report
# with examples/expected.txt.
# Use: scripts/examples.sh [NAME..]      prints what differs of each that went another way, and how many there were; ends with 0 where none did.
#   NAME is the name of a file of examples/ without its `.c`; without one all are run.
# In examples/expected.txt a line `== WORDS` begins a program: its file's name, and then words of the call. Below stand what it prints, and last a line
# with its status and the first line of standard error; in mode race one with the last line of standard error more. It runs $ALASKA, or else bin/alaska, or else the program that ./alaska builds once without a proof.
set -eu
here=$(cd "$(dirname "$0")/.." && pwd)
. "$here/scripts/built.sh"
find_program take_unproved
programs=0
wrong=0

# Runs a file and compares what comes of it with what is told of the program, which is in the file told.
compare() { # what it is called, its path, further words
  local status=0
  (cd "$here" && timeout 60 "$program" "${@:2}" --entries 100000) >out 2>note || status=$?
  echo "$status $(head -n 1 note)" >>out
  [[ " $* " != *" --mode race "* ]] || tail -n 1 note >>out
  cmp -s out told && return
  wrong=$((wrong + 1))
  echo "$1:"
  diff told out | sed 's/^/  /' || true
}

# Runs a program; and, where that is in mode run, builds it and runs its code.
both_ways() { # words of the call, the file's name first
  programs=$((programs + 1))
  compare "$*" "examples/$1" "${@:2}"
  [[ " $* " != *" --mode "* ]] || return 0
  (cd "$here" && timeout 60 "$program" "examples/$1" --mode build) >code 2>note || true
  compare "$*, built and loaded" "$work/code" "${@:2}" --mode load
}

# Whether a file was asked for.
is_asked() { # the file's name, then the names of the call
  local file=$1 name
  shift
  [ $# -gt 0 ] || return 0
  for name in "$@"; do
    [ "$name.c" != "$file" ] || return 0
  done
  return 1
}

# What stands below a line of the table is told of the call in that line.
call=()
finish() { # the names of the call
  if [ ${#call[@]} -gt 0 ] && is_asked "${call[0]}" "$@"; then
    both_ways "${call[@]}"
  fi
  : >told
}

: >told
while IFS= read -r line; do
  case $line in
    '== '*)
      finish "$@"
      read -ra call <<<"${line#== }"
      ;;
    *) printf '%s\n' "$line" >>told ;;
  esac
done <"$here/examples/expected.txt"
finish "$@"
for file in "$here"/examples/*.c; do
  grep -q "^== ${file##*/}" "$here/examples/expected.txt" || { echo "${file##*/}: nothing is told of it"; wrong=$((wrong + 1)); }
done
echo "$programs programs, $wrong went another way"
[ "$wrong" = 0 ]
