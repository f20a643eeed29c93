#!/usr/bin/env bash
# Runs the program over texts that are changed at random: those of examples/, in which tokens and bytes are deleted, doubled and exchanged, and in
# one run of four words of the command line too. One text of three gets names of types, an enum, and a function of drawn switches and dos, before
# it is changed. Each run is of one worker with 1000 entries, and must end in EACH seconds, by no signal, with a status of README's table and what
# that table says of standard error.
# With --code it runs the program over code files that are changed at random: those that it builds of examples/ first, in which bytes are changed,
# deleted and doubled, and cut ones.
# Use: scripts/fuzz.sh [--code] SECONDS [SEED [EACH]]      prints how many runs had each status and how many texts were compiled, or code files
#   loaded. It ends with 0 where each run was as it must be and a tenth or more of the texts were, or a twentieth of the code files, of which no run
#   took more than 1 GiB. The texts or code files, words and outputs of the runs at fault lie in a folder that it names.
# SEED is 1 and EACH 20 where they are left out. The same seed gives the same texts in the same order.
# It runs $ALASKA, or else bin/alaska, or else the program that ./alaska builds once without a proof.
set -eu
what=text
[ "${1:-}" != --code ] || { what=code; shift; }
[ $# -gt 0 ] || { echo "use: scripts/fuzz.sh [--code] SECONDS [SEED [EACH]]" >&2; exit 2; }
here=$(cd "$(dirname "$0")/.." && pwd)
. "$here/scripts/built.sh"
find_program take_unproved
python3 /dev/fd/3 $what "$program" "$here/examples" "$1" "${2:-1}" "${3:-20}" 3<<'END'
import collections, glob, os, random, re, resource, subprocess, sys, tempfile, time

# What stands on standard error, by status: README's table. Those of a text that was compiled are in RAN.
NOTES = {
    0: rb"ended: done -?\d+\n", 2: rb"usage: alaska FILE \[options\]\n", 3: rb".*:\d+:\d+: refused: .*\n", 4: rb"alaska: can't read .*\n",
    5: rb"", 6: rb"ended: trap \w+ \d+\n", 7: rb"ended: all blocked\n", 8: rb"ended: turn limit\n", 9: rb"ended: output limit\n",
    10: rb"ended: stack limit \d+\n", 11: rb"alaska: out of memory\n", 12: rb".*:\d+:\d+: broke C\d+ after \d+ turns\n",
    13: rb"ended: (done -?\d+|trap \w+ \d+|all blocked|turn limit|output limit|stack limit \d+)\n",
    15: rb"text.c: bad code at \d+\n", 16: rb"text.c: unsafe code at \d+: (NoLook|StaleLook|NotPinned|BadTemp)\n",
}
CHECKED = rb"checked: (done -?\d+|all blocked|turns spent) after \d+ turns\n"
BUILT = rb"built: \d+ bytes\n"
RAN = 0, 6, 7, 8, 9, 10, 13
REPORT = rb"threads: \d+\nentries: \d+\nbarriers: \d+\nmoved: .*\nlive: .*\nextent: .*\nlast barrier: .*\n(evacuated: \d+ sub-heaps\n)?"
RACED = rb"race: text\.c:\d+:\d+ and text\.c:\d+:\d+, turns \d+ and \d+\n"
NO_RACE = rb"race: (none|broke C\d+ after \d+ turns)\n"
TOKEN = re.compile(r'[A-Za-z_]\w*|\d+|"(?:\\.|[^"\\\n])*"|//[^\n]*|/\*.*?\*/|\s+|[-+<>=!&|]{2}|.', re.S)
OPTIONS = {
    "workers": "1 2 4 16 0 17", "schedule": "0 7 18446744073709551615 18446744073709551616", "every": "1 3 100 0 1000000",
    "subheap": "4096 65536 16777216 5000", "subheaps": "1 2 16 256 257", "ids": "1 2 1000 1048576 0", "evacuate": "0 1 1 2", "output": "1 3 1000 16777216",
    "mode": "run check check race race build load churn walk", "seed": "0 1 99", "size": "1 3 40 4000",
}

# What the drawn statements are made of.
PLAIN = "s += k;", "k--;", "k++;", "s = SIX - s;", "*p = s;", "s ^= p[k & 1];", ";"
LOOP = "break;", "continue;"
LABELS = "case 0", "case ONE", "case TWO", "case 'a'", "case -1", "case sizeof(Row)", "case SIX * 5", "default"


def kind(token):
    """Tells which tokens may stand in a token's place and often leave a text that compiles."""
    if token[0].isdigit():
        return "number"
    if token[0].isalpha() or token[0] == "_":
        return "type" if token in ("int", "char", "long", "Drawn") else "name"
    return "operator" if re.fullmatch(r"[-+*/%<>&|^]|[<>=!]=|<<|>>|&&|\|\|", token) else token


def change(draw, parts):
    """Deletes, doubles or exchanges one of the parts, in place."""
    at, other = draw.randrange(len(parts)), draw.randrange(len(parts))
    how = draw.choice(("delete", "double", "exchange"))
    if how == "exchange":
        parts[at], parts[other] = parts[other], parts[at]
    else:
        parts[at : at + 1] = [parts[at]] * 2 * (how == "double")


def replace(draw, parts):
    """Puts another token of its kind in a token's place."""
    at = draw.randrange(len(parts))
    parts[at] = draw.choice([it for it in parts if kind(it) == kind(parts[at])])


def statement(draw, deep, jumps):
    """Returns a statement that holds dos and switches, so many of them in each other at most, with these jumps."""
    how = draw.choice(("plain", "plain", "if", "block", "do", "switch")) if deep else "plain"
    if how == "if":
        return f"if (k % {draw.randrange(1, 4)}) {statement(draw, deep - 1, jumps)}"
    if how == "block":
        return f"{{ Drawn d = k; {statement(draw, deep - 1, jumps)} s += d; }}"
    if how == "do":
        return f"do {statement(draw, deep - 1, LOOP)} while ({draw.choice(('k < 5', 's - k', '0', 'k == TWO'))});"
    if how == "switch":
        return f"switch ({draw.choice(('k', 's % 3', '(char)s', 's + 0l'))}) {{ {entries(draw, deep - 1, (*jumps, 'break;'))} }}"
    return draw.choice((*PLAIN, *jumps))


def entries(draw, deep, jumps):
    """Returns what stands between the braces of a switch: labels, mostly of different values, each before up to two statements."""
    labels = draw.sample(LABELS, draw.randrange(len(LABELS) + 1))
    if draw.random() < 0.05:
        labels.append(draw.choice(LABELS))
    return " ".join(" ".join([f"{it}:", *(statement(draw, deep, jumps) for _ in range(draw.randrange(3)))]) for it in labels)


def with_forms(draw, text):
    """Returns a text with names of types, an enum, and a function of drawn statements, which main calls first."""
    body = " ".join(statement(draw, 4, ()) for _ in range(3))
    forms = f"typedef {draw.choice(('int', 'long', 'unsigned', 'char'))} Drawn; typedef Drawn *To, Row[3]; enum drawn {{ ONE = 1, TWO, SIX = TWO * 3, }};\n"
    forms += f"int form(Drawn k, To p) {{ Row r; Drawn s = 0; r[ONE] = k; p = r; {body} return s + p[ONE]; }}\n"
    head = "int main(void)"
    before, found, behind = text.partition(head)
    start, brace, rest = behind.partition("{")
    return before + forms + found + start + brace + f' printf("%d\\n", form({draw.randrange(-2, 8)}, NULL));' + rest if brace else text


def text_of(draw, texts):
    """Returns a changed text: by tokens and then, in one of four, by bytes."""
    text = draw.choice(texts)
    tokens = TOKEN.findall(with_forms(draw, text) if draw.random() < 0.33 else text)
    for _ in range(draw.choice((1, 1, 2, 3, 6))):
        (replace if draw.random() < 0.6 else change)(draw, tokens)
    text = list("".join(tokens).encode())
    for _ in range(draw.choice((0, 0, 0, 1, 3)) if text else 0):
        change(draw, text)
        text = text or [draw.randrange(256)]
    return bytes(text)


def code_of(draw, codes):
    """Returns a changed code file: in one of eight cut, else with some bytes changed, deleted or doubled."""
    code = bytearray(draw.choice(codes))
    if draw.random() < 0.125:
        return bytes(code[: draw.randrange(len(code))])
    for _ in range(draw.choice((1, 1, 1, 2, 4))):
        at = draw.randrange(len(code))
        how = draw.choice(("flip", "small", "any", "delete", "double"))
        if how == "delete":
            del code[at : at + draw.choice((1, 4))]
        elif how == "double":
            code[at:at] = code[at : at + draw.choice((1, 4))]
        else:
            code[at] = {"flip": code[at] ^ 1 << draw.randrange(8), "small": draw.randrange(4), "any": draw.randrange(256)}[how]
    return bytes(code)


def built(program, names):
    """Returns the code files of these C files."""
    return [subprocess.run([program, it, "--mode", "build"], stdin=subprocess.DEVNULL, capture_output=True, check=True).stdout for it in names]


def words_of(draw):
    """Returns further words: none in three of four, else options with values, some of them changed by bytes."""
    words = []
    for _ in range(draw.choice((0, 0, 0, 0, 0, 0, 1, 2))):
        name = draw.choice(sorted(OPTIONS))
        words += [f"--{name}", draw.choice(OPTIONS[name].split())]
        if draw.random() < 0.2:
            letters = list(words.pop(draw.choice((-1, -2))))
            change(draw, letters)
            words.append("".join(letters))
    return [os.fsencode(it) for it in words]


def judge(program, text, words, more, each):
    """Runs the program; returns its status, or None where it gave no answer, its outputs, and whether all is as it must be."""
    with open("text.c", "wb") as it:
        it.write(text)
    command = [program, "text.c", *words, *(() if b"--mode" in words else more), "--workers=1", "--entries=1000"]
    try:
        ran = subprocess.run(command, stdin=subprocess.DEVNULL, capture_output=True, timeout=each)
    except subprocess.TimeoutExpired:
        return None, b"", b"", False
    note = NOTES.get(ran.returncode, rb"(?!)") + REPORT * (ran.returncode in RAN)
    if ran.returncode == 13:
        note += RACED
    elif ran.returncode in RAN and re.search(rb"race", b" ".join(words)):
        note += rb"(" + NO_RACE + rb")?"
    if ran.returncode == 0 and re.search(rb"check", b" ".join(words)):
        note += b"|" + CHECKED
    if ran.returncode == 0 and re.search(rb"build", b" ".join(words)):
        note += b"|" + BUILT
    return ran.returncode, ran.stdout, ran.stderr, re.fullmatch(note, ran.stderr) is not None


def main(what, program, examples, seconds, seed, each):
    draw, counts, kept = random.Random(int(seed)), collections.Counter(), []
    names = sorted(glob.glob(f"{examples}/*.c"))
    texts = built(program, names) if what == "code" else [open(it).read() for it in names]
    change, more = (code_of, ["--mode=load"]) if what == "code" else (text_of, [])
    folder, end = None, time.time() + float(seconds)
    while time.time() < end:
        text, words = change(draw, texts), words_of(draw)
        status, out, note, good = judge(program, text, words, more, float(each))
        counts[status] += 1
        if not good:
            folder = folder or tempfile.mkdtemp(prefix="alaska-fuzz-", dir="/tmp")
            kept.append(f"{folder}/{sum(counts.values())}")
            for name, whole in ("c", text), ("words", b"\n".join(words)), ("out", out), ("note", b"status %s\n" % str(status).encode() + note):
                with open(f"{kept[-1]}.{name}", "wb") as it:
                    it.write(whole)
    whole, ran = sum(counts.values()), sum(counts[it] for it in (*RAN, 12))
    for status in sorted(counts, key=lambda it: (it is None, it)):
        print(f"{'no answer' if status is None else f'status {status}':<12}{counts[status]:>8}")
    done = "code files that were loaded" if what == "code" else "texts that were compiled"
    print(f"{whole} runs with seed {seed}, {ran} of {done} ({100 * ran / max(whole, 1):.1f} %), {len(kept)} at fault")
    if kept:
        print(f"what they ran is kept in {folder}")
    kib = resource.getrusage(resource.RUSAGE_CHILDREN).ru_maxrss
    print(f"the most memory of a run: {kib} KiB")
    few = ran * (20 if what == "code" else 10) < whole
    if few:
        print("fewer than a twentieth were loaded" if what == "code" else "fewer than a tenth were compiled")
    large = what == "code" and kib > 1 << 20
    if large:
        print("that is more than 1 GiB")
    return 1 if kept or few or large or not whole else 0


sys.exit(main(*sys.argv[1:]))
END
