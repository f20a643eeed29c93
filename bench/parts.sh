# What the benches of parts share: the program of the crate bench, as `program`. It is taken as `rt ci` left it in this checkout; where there is none,
# it is proved and built first.
# It is read with `here`, the top of the repository.
program=$here/crates/bench/out/bench
[ -x "$program" ] || (cd "$here/crates/bench" && rt run >/dev/null 2>&1) || { echo "the program bench was not proved or not built" >&2; exit 1; }
