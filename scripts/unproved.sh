# The program of the sources as they stand, built without a proof: how it is built and kept, and how a file is run where it can't be kept.
# It is read with `here`, the top of the repository, behind scripts/attend.sh.

# Where the program is kept that was built of the sources with this sum.
kept_program() {
  printf '%s/bin/unproved/%s\n' "$here" "${1%% *}"
}

try_program() { # what rt try takes
  cd "$here/crates/alaska" && exec rt try "$@" </dev/null >"$work/out" 2>"$work/note"
}

# The number with which the program ended that rt try ran, which its last line tells; nothing where there was no such end.
status_told() {
  sed -n '$s/^run=ended status=\([0-9]*\) .*/\1/p' "$work/note"
}

# The sources as they stand come to no program that runs: $work/note says why.
end_broken() {
  cat "$work/note" >&2
  echo "alaska: the sources as they stand don't run" >&2
  exit 1
}

# rt try removes the program that it built, once it has run. So a pipe is its FILE: to open it for writing waits until the program, which is
# whole then, has opened it for reading, and the program waits for its text until the copy is made.
copy_while_it_runs() {
  exec 3>"$work/pipe"
  find "$work/below" -type f -name program -perm -u+x -exec cp {} "$work/program" \;
  printf 'int main(void) { return 0; }\n' >&3
}

# Builds $work/program; where the sources are at fault the script ends, and where just the copy can't be made the status tells.
build_program() {
  mkdir "$work/below" && mkfifo "$work/pipe" || return 1
  copy_while_it_runs 2>/dev/null &
  begun+=($!)
  TMPDIR=$work/below attend building try_program -- "$work/pipe"
  [ -n "$(status_told)" ] || end_broken
  printf 'int main(void) { return 0; }\n' >"$work/check.c"
  [ "$(status_told)" = 0 ] && [ -x "$work/program" ] && env -i "$work/program" "$work/check.c" --entries 1000 >/dev/null 2>&1
}

# Keeps $work/program under this name, in one step, and removes those of other sources.
keep_program() { # its name in bin/unproved
  local new=$here/bin/unproved/.new.$$ other
  if ! { mkdir -p "$here/bin/unproved" && cp "$work/program" "$new" && chmod 755 "$new" && mv -f "$new" "$1"; }; then
    rm -f "$new"
    return 1
  fi
  for other in "$here"/bin/unproved/*; do
    [ "$other" = "$1" ] || rm -f "$other"
  done
} 2>/dev/null

# Builds the program for one run, of a folder of its own, in which FILE stands under the name text.c: FILE is the first word that is neither an
# option nor an option's value, or the first behind `--`.
run_once() { # the words
  local words=() copy=() file='' dashes='' value='' word status
  for word in "$@"; do
    if [ -n "$value" ]; then
      value=''
    elif [ -z "$dashes" ] && [ "$word" = -- ]; then
      dashes=yes
    elif [ -z "$dashes" ] && [ "${word#--}" != "$word" ]; then
      [ "${word#*=}" != "$word" ] || value=yes
    elif [ -z "$file" ] && [ -n "$word" ] && { [ -n "$dashes" ] || [ "${word#-}" = "$word" ]; }; then
      file=$word
      word=text.c
      cat -- "$file" >"$work/text.c" 2>/dev/null && copy=(--data "text.c=$work/text.c")
    fi
    words+=("$word")
  done
  attend "building and running" try_program --seconds 3600 "${copy[@]}" -- "${words[@]}"
  status=$(status_told)
  [ -n "$status" ] || end_broken

  # A fault of writing is the program's status 5; where standard output fails, nothing goes to standard error.
  if [ -s "$work/out" ]; then
    cat "$work/out" 2>/dev/null || exit 5
  fi
  own_note "$file" >&2 || exit 5
  exit "$status"
}

# What the program itself said: the last line, and those on races, the interpreter and the checked run, are rt's.
own_note() { # FILE
  sed -e '/^checked: ended status=[0-9]*$/d' -e '/^races: not looked for/d' -e '/^interpreter: no-answer/d' -e '$d' "$work/note" |
    while IFS= read -r line; do
      case $line in
        text.c:*) printf '%s\n' "$1${line#text.c}" ;;
        "alaska: can't read text.c") printf '%s\n' "alaska: can't read $1" ;;
        *) printf '%s\n' "$line" ;;
      esac
    done
}
