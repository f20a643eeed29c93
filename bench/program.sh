# What the benches of the program share: the proved program, as `program`, and a folder of their own to work in, `work`, which they stand in.
# It is read with `here`, the top of the repository.
program=
for it in "$here/bin/alaska" "$here/crates/alaska/out/alaska"; do
  [ -x "$it" ] && program=$it && break
done
[ -n "$program" ] || { echo "$0: there is no proved program; ./prove builds it" >&2; exit 1; }
work=$(mktemp -d)
trap 'rm -rf "$work"' EXIT
cd "$work"
