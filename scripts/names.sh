#!/usr/bin/env bash
# Shows the names of definitions that stand in the specs/ of two crates or more: those that most crates have come first, each with its crates.
# Use: scripts/names.sh          shows these names, and tells how many there are.
#   scripts/names.sh --variants  counts the variants of a type as names too.
#   scripts/names.sh NAME..      shows, for each name, the files and lines where it is defined.
# It ends with 0 where no name stands in two crates (with NAME.., none of these), with 1 where one does, and with 2 where it was called wrongly.
# It reads the sources as they stand and runs nothing. A definition is a function, a statement, a record or a data type, public or not, at the outside of
# a file or in a module of it; fields of records and names that are bound inside of a definition are none.
set -eu
case "${1:-}" in
  --variants) [ $# = 1 ] ;;
  -*) false ;;
esac || { echo "use: scripts/names.sh [--variants | NAME..]" >&2; exit 2; }
cd "$(dirname "$0")/.."
exec python3 /dev/fd/3 "$@" 3<<'END'
import collections, os, re, sys

TYPE = re.compile(r"( *)(?:abbrev )?(?:pub )?(record|data) ([^\s:(){}]+)(?: |$)(?!=)")
DEFINED = re.compile(r"( *)(?:abbrev )?(?:pub )?([^\s:(){};=→]+(?: [^\s:(){};=→]+)*) :(?: |$)")
WORDS = {"let", "in", "use", "module", "where", "alias", "infix", "search", "mutual", "abbrev", "pub"}

# The definitions of a file: line, name, and whether it is a variant of a type.
def defined_in(path):
    inside = None
    with open(path, encoding="utf-8") as file:
        for number, line in enumerate(file, 1):
            line = line.split("--")[0].rstrip()
            indent = len(line) - len(line.lstrip())
            if not line:
                continue
            if inside and indent <= inside[0]:
                inside = None
            if inside is None and (found := TYPE.match(line)):
                inside = (len(found[1]), found[2])
                yield number, found[3], False
            elif (inside is None or inside[1] == "data") and (found := DEFINED.match(line)):
                names = found[2].split(" ")
                if not WORDS & set(names):
                    yield from ((number, name, inside is not None) for name in names)

# The files of definitions of all crates, with their crates.
def files():
    for crate in sorted(os.listdir("crates")):
        for folder, _, names in sorted(os.walk(f"crates/{crate}/specs")):
            yield from ((crate, f"{folder}/{name}") for name in sorted(names) if name.endswith(".antt"))

variants, asked = sys.argv[1:] == ["--variants"], [name for name in sys.argv[1:] if name != "--variants"]
places = collections.defaultdict(list)
for crate, path in files():
    for number, name, variant in defined_in(path):
        if variants or asked or not variant:
            places[name].append((crate, f"{path}:{number}"))
crates = {name: sorted({crate for crate, _ in found}) for name, found in places.items()}
for name in asked:
    print("\n  ".join([name + ":", *(place for _, place in places[name])]) if places[name] else f"{name}: nowhere")
shared = sorted((name for name in asked or crates if len(crates.get(name, [])) > 1), key=lambda name: (-len(crates[name]), name))
if not asked:
    for name in shared:
        print(f"{len(crates[name])} {name}: {' '.join(crates[name])}")
    print(f"{len(shared)} of {len(crates)} names stand in two crates or more")
sys.exit(1 if shared else 0)
END
