#!/usr/bin/env bash
# Tries the wrong bodies of the crates that are named: those in wrong/NAME, which the gate leaves out, and those in crates/NAME/must-fail.
# Use: scripts/wrong.sh NAME..     prints what `rt must-fail NAME..` says, and ends as it does: with 0 where the prover refused each.
# It works on a copy of the crates as they stand here, uncommitted changes too, which it removes at the end.
set -eu
here=$(cd "$(dirname "$0")/.." && pwd)
[ $# -gt 0 ] || { echo "use: scripts/wrong.sh NAME.." >&2; exit 2; }
cd "$here"
for name; do
  [ -d "crates/$name" ] && { [ -d "wrong/$name" ] || [ -d "crates/$name/must-fail" ]; } ||
    { echo "$name: no crate with wrong bodies" >&2; exit 1; }
done

work=$(mktemp -d)
trap 'rm -rf "$work"' EXIT
git ls-files -z --cached --others --exclude-standard crates.txt HANDLES crates | while IFS= read -r -d '' file; do
  [ ! -f "$file" ] || printf '%s\0' "$file"
done | tar -c --null -T - | tar -x -C "$work"
# Each library that was built here is begun with.
for built in crates/*/out/rlib; do
  [ ! -d "$work/${built%/out/rlib}" ] || { mkdir "$work/${built%/rlib}" && cp -a "$built" "$work/$built"; }
done

cd "$work"
rm -rf crates/*/must-fail
for name; do
  mkdir "crates/$name/must-fail"
  for edit in "$here/crates/$name/must-fail"/*.edit "$here/wrong/$name"/*.edit; do
    [ ! -f "$edit" ] || cp "$edit" "crates/$name/must-fail/"
  done
done
rt must-fail "$@"
