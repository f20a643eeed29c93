#!/usr/bin/env bash
# Makes what docs/ has from the sources: the list of the crates, in docs/ARCHITECTURE.md, and the table of the definitions, in docs/HEADLINE.md.
# Use: scripts/map.sh           puts both into these files; the crates stay in the order that they have there, below its titles, new ones come last.
#   scripts/map.sh --check      writes nothing; ends with 0 where both are what the sources say, and else names the lines that differ.
#   scripts/map.sh --read       prints each file of definitions that `Headline` and `Answers` of alaska_run lead to, with its lines, in the order in
#     which they are best read: by the steps of the table, and in a crate as they are come to.
# A crate is described in the `//!` lines at the head of its src/lib.rt or src/main.rt: what it holds, then `Promises upward: ..` or
# `Promises nothing upward: ..`, then `Stands on ..`; the list has the first of these, up to its first `.`, `:` or `;`, or up to a
# comma before, where that is longer than 84 characters.
# Files of definitions are come to by the lines `use Rattle.CRATE.specs...` of others, those of this repository alone; of a type that
# stands in src/ (a use of `specs.declared`) --read names the file.
set -eu
case "$#${1:-}" in
  0 | 1--check | 1--read) ;;
  *) echo "use: scripts/map.sh [--check | --read]" >&2; exit 2 ;;
esac
cd "$(dirname "$0")/.."
exec python3 /dev/fd/3 "${1:---write}" 3<<'END'
import collections, os, re, sys

MAP, CLAIM = "docs/ARCHITECTURE.md", "docs/HEADLINE.md"
MAP_HEAD, MAP_END = ["```crates"], "```"
READ_HEAD = ["| Step | Files | Lines |", "|---|---|---|"]
ROOTS = ["crates/alaska_run/specs/Headline.antt", "crates/alaska_run/specs/Answers.antt"]

# The steps in which the definitions are read: what a step is about, and the crates whose definitions it takes. Behind the first, which says what
# is claimed, each step uses definitions of its own and of those before it alone.
STEPS = [
    ("what a call promises", "alaska_run"),
    ("C's numbers and rules, and the entries of a journal", "ak_words ak_trace"),
    ("which typed tree a text has, or why it is refused", "c_lex c_tree c_grammar c_typing"),
    ("which turns of threads race", "race_rules"),
    ("what the typed tree does, turn by turn, over named blocks", "block_store c_meaning"),
    ("what code is, and that it keeps the turns", "struct_ir lower_forms lower_turns pin_flow pin_checker compile_passes"),
    ("the machine, whose objects move",
     "handle_words handle_table flat_words flat_store sub_heaps move_plan evacuate arena_meaning flat_meaning"),
    ("which journals a run may have", "flat_rules world_rules flat_threads flat_machine"),
    ("what a journal stands for", "flat_simulation flat_replay"),
    ("what the words want, what is read, and what is written", "run_words run_churn ak_io run_edges run_notes"),
    ("what mode check finds", "source_tree source_state block_meaning rule_check"),
    ("what mode race finds", "race_check"),
    ("what a code file is, as modes build and load have it", "formats code_file code_save code_load"),
]

def lines_of(path):
    with open(path, encoding="utf-8") as file:
        return file.read().split("\n")

# ---- the crates

# The crates of crates.txt.
def crates():
    lines = [line.split("#")[0] for line in lines_of("crates.txt")]
    return [line.split(":")[0].split()[0] for line in lines if ":" in line]

# The first words of what the head of a crate says that it holds. Where the head lacks a part that is a fault.
def head_of(crate):
    path = next(path for path in (f"crates/{crate}/src/lib.rt", f"crates/{crate}/src/main.rt") if os.path.exists(path))
    head = " ".join(line[3:].strip() for line in lines_of(path) if line.startswith("//!"))
    parts = re.fullmatch(r"(.+?) Promises (?:nothing )?upward: .+? Stands on .+", head)
    if not parts:
        sys.exit(f"{path}: its head isn't what it holds, `Promises upward: ..` and `Stands on ..`")
    first = re.split(r"[.:;](?:\s|$)", parts[1])[0]
    return first if len(first) <= 84 else first[:84].rpartition(",")[0] or first

# The list of the crates, in the order of these lines, with their titles, and behind them in that of crates.txt.
def crate_rows(lines):
    every = crates()
    stand = [line if line.startswith("#") else line.split()[0] for line in lines if line]
    order = [name for name in stand if name.startswith("#") or name in every] + [crate for crate in every if crate not in stand]
    return MAP_HEAD + [name if name.startswith("#") else f"{name:18} {head_of(name)}" for name in order]

# ---- the definitions

# The file of definitions that a name leads to; a type that stands in src/ has the file there.
def file_of(crate, name):
    parts = name.strip(".").split(".")
    if parts[0] == "declared":
        return f"crates/{crate}/src/{parts[1]}.rt"
    paths = (f"crates/{crate}/specs/{'/'.join(parts[:n])}.antt" for n in range(len(parts), 0, -1))
    return next((path for path in paths if os.path.exists(path)), None)

# The files that a file of definitions uses.
def used_by(path):
    for line in lines_of(path):
        use = re.match(r"use Rattle\.(\w+)\.specs\.([\w.]+)", line)
        if use and os.path.isdir(f"crates/{use[1]}"):
            yield file_of(use[1], use[2]) or sys.exit(f"{path}: no file for: {line}")

# The files that the roots lead to, in the order in which they are come to.
def reached():
    found, waiting = dict.fromkeys(ROOTS), collections.deque(ROOTS)
    while waiting:
        for path in used_by(waiting.popleft()):
            if path not in found:
                found[path] = None
                if path.endswith(".antt"):
                    waiting.append(path)
    return list(found)

# The lines of a file that aren't empty.
def length(path):
    return sum(1 for line in lines_of(path) if line.strip())

# The step of each crate.
def step_of():
    return {crate: at for at, (_, crates) in enumerate(STEPS) for crate in crates.split()}

# The files of definitions of each step, and the files of types. A file that uses a later step than its own is a fault.
def by_steps():
    files, at = reached(), step_of()
    steps = [[] for _ in STEPS]
    for path in files:
        crate = path.split("/")[1]
        if not path.endswith(".antt"):
            continue
        if crate not in at:
            sys.exit(f"{path}: its crate is in no step of scripts/map.sh")
        steps[at[crate]].append(path)
        later = [used for used in used_by(path) if at[crate] > 0 and at.get(used.split("/")[1], 0) > at[crate]]
        if later:
            sys.exit(f"{path}: uses {later[0]}, which is in a later step of scripts/map.sh")
    for step in steps:
        step.sort(key=lambda path: list(at).index(path.split("/")[1]))
    return steps, [path for path in files if path.endswith(".rt")]

def read_rows():
    steps, _ = by_steps()
    rows = [f"| {about} | {len(step)} | {sum(map(length, step)):,} |" for (about, _), step in zip(STEPS, steps)]
    every = [path for step in steps for path in step]
    return READ_HEAD + rows + [f"| all | {len(every)} | {sum(map(length, every)):,} |"]

def print_read():
    steps, types = by_steps()
    for (about, _), step in zip(STEPS, steps):
        print(f"{about}:")
        for path in step:
            print(f"  {length(path):5} {path}")
    print(f"and the types of {len(types)} files of src/:")
    for path in types:
        print(f"        {path}")

# ---- the files of docs/

# The lines of a document, and where the lines stand from this head on to the first behind it of which that holds.
def place(path, head, ends):
    lines = lines_of(path)
    if head[0] not in lines:
        sys.exit(f"{path}: no line {head[0]}")
    start = lines.index(head[0])
    return lines, start, next(at for at in range(start + 1, len(lines)) if ends(lines[at]))

# The documents, each with the lines that stand there and those that should.
def tables():
    lines, start, end = place(MAP, MAP_HEAD, lambda line: line == MAP_END)
    yield MAP, lines, start, end, crate_rows(lines[start + 1:end])
    yield CLAIM, *place(CLAIM, READ_HEAD, lambda line: not line.startswith("|")), read_rows()

def check():
    wrong = 0
    for path, lines, start, end, rows in tables():
        for at in range(max(end - start, len(rows))):
            stands = lines[start + at] if start + at < end else "no row"
            should = rows[at] if at < len(rows) else "no row"
            if stands != should:
                wrong += 1
                print(f"{path}:{start + at + 1}: {stands}\n  should be: {should}")
    return 1 if wrong else 0

def write():
    for path, lines, start, end, rows in tables():
        with open(path, "w", encoding="utf-8") as file:
            file.write("\n".join(lines[:start] + rows + lines[end:]))

if sys.argv[1] == "--read":
    print_read()
elif sys.argv[1] == "--check":
    sys.exit(check())
else:
    write()
END
