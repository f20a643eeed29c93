# What hostile.sh, refused.sh and fuzz.sh share: a folder of their own to work in, `work`, which they stand in, and how they find the program.
# It is read with `here`, the top of the repository.
. "$here/scripts/program.sh"
. "$here/scripts/unproved.sh"
[ -z "${ALASKA:-}" ] || ALASKA=$(realpath "$ALASKA")
work=$(mktemp -d)
chmod 755 "$work"
trap 'rm -rf "$work"' EXIT
cd "$work"

# Finds `program`: $ALASKA, or else bin/alaska where it was proved and built of the sources as they stand, or else what a command builds. `checked`
# is yes where it was built with checks of each access: such a program is slow, and needs more addresses than `ulimit -v` leaves.
find_program() { # the command
  sources=$(sum_of_sources)
  if [ -n "${ALASKA:-}" ]; then
    program=$ALASKA
  elif is_current "$sources"; then
    program=$here/bin/alaska
  else
    "$1"
  fi
  [ -x "$program" ] || { echo "$0: $program is no program" >&2; exit 1; }
  checked=no
  ! grep -qa __asan_init "$program" || checked=yes
}

# Takes the program that ./alaska builds without a proof and keeps.
take_unproved() {
  program=$(kept_program "$sources")
  [ -x "$program" ] || "$here/alaska" "$here/examples/answer.c" >out
}
