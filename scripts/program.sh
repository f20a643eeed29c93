# What ./alaska and ./prove share: which sources the program is made of, and whether bin/alaska was built of just these.
# It is read with `here`, the top of the repository.

# The crates of the repository that the program stands on, and the program, each behind those that it stands on.
crates_in_order() {
  awk '
    { sub(/#.*/, "") }
    /:/ {
      split($0, side, ":"); split(side[1], head, " "); name = head[1]
      known[name] = 1; below[name] = side[2]
    }
    function visit(name,   n, parts, i) {
      if (!(name in known) || name in done) return
      done[name] = 1
      n = split(below[name], parts, " ")
      for (i = 1; i <= n; i++) visit(parts[i])
      print name
    }
    END { visit("alaska") }' "$here/crates.txt"
}

# The checksum of the toolchain and of each source, with its name: a file that is changed, new or gone changes it.
sum_of_sources() {
  (
    cd "$here" || exit 1
    rt version || exit 1
    for crate in $(crates_in_order); do
      find "crates/$crate/src" "crates/$crate/specs" "crates/$crate/proofs" -type f -print0 2>/dev/null
    done | LC_ALL=C sort -z | xargs -0 sha256sum
    sha256sum crates.txt HANDLES
  ) 2>/dev/null | sha256sum
}

# bin/alaska was proved and built of the sources with this sum.
is_current() { # the sum
  [ -x "$here/bin/alaska" ] && [ -f "$here/bin/sources" ] && [ "$1" = "$(cat "$here/bin/sources")" ]
}
