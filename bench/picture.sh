#!/usr/bin/env bash
# Draws docs/picture.svg: what bench/picture/cache.c holds while it runs, a cache that loses three of four entries in each of four rounds. For each
# time it is run up to there: by alaska, without barriers and with one every 50 steps, whose reports tell the live bytes and the extent; and by gcc
# over glibc's malloc, which tells how many bytes it holds.
# Use: bench/picture.sh
# It runs bin/alaska, which ./prove builds, or crates/alaska/out/alaska as `rt ci` left it in this checkout.
set -eu
here=$(cd "$(dirname "$0")/.." && pwd)
command -v gcc >/dev/null || { echo "bench/picture.sh: gcc is not on the path" >&2; exit 1; }
. "$here/bench/program.sh"

run() { # words: the live bytes and the extent that the report tells
  "$program" cache.c "$@" 2>note >out || { cat note >&2; exit 1; }
  sed -n 's/^live: .*, \([0-9]*\) bytes$/\1/p; s/^extent: \([0-9]*\) of .*/\1/p' note | tr '\n' ' '
}

for steps in $(seq 0 24 1440); do
  sed "s/^#define STEPS .*/#define STEPS $steps/" "$here/bench/picture/cache.c" >cache.c
  gcc -O0 -w -o theirs cache.c "$here/bench/picture/held.c"
  ./theirs 2>held
  echo "$steps $(run) $(run --every 50) $(sed -n 's/^held //p' held)"
done >points
python3 - points "$here/docs/picture.svg" <<'END'
import sys

LEFT, TOP, WIDTH, HEIGHT = 70, 20, 560, 300
rows = [list(map(int, line.split())) for line in open(sys.argv[1], encoding="utf-8")]
lines = [
    ("#b03030", "alaska without barriers: extent", [row[2] for row in rows]),
    ("#806020", "glibc: bytes held", [row[5] for row in rows]),
    ("#2060b0", "alaska with barriers: extent", [row[4] for row in rows]),
    ("#303030", "bytes of live objects", [row[1] for row in rows]),
]
last, most = rows[-1][0], max(max(values) for _, _, values in lines)
top = -(-most // 102400) * 102400
x = lambda steps: LEFT + WIDTH * steps / last
y = lambda held: TOP + HEIGHT - HEIGHT * held / top
out = [
    f'<svg xmlns="http://www.w3.org/2000/svg" viewBox="0 0 {LEFT + WIDTH + 20} {TOP + HEIGHT + 130}" font-family="sans-serif" font-size="12">',
    '<rect width="100%" height="100%" fill="white"/>',
]
for held in range(0, top + 1, 102400):
    out.append(f'<line x1="{LEFT}" y1="{y(held):.1f}" x2="{LEFT + WIDTH}" y2="{y(held):.1f}" stroke="#d0d0d0"/>')
    out.append(f'<text x="{LEFT - 8}" y="{y(held) + 4:.1f}" text-anchor="end">{held // 1024} KiB</text>')
for steps in range(0, last + 1, 240):
    out.append(f'<text x="{x(steps):.1f}" y="{TOP + HEIGHT + 18}" text-anchor="middle">{steps}</text>')
out.append(f'<text x="{LEFT + WIDTH / 2}" y="{TOP + HEIGHT + 36}" text-anchor="middle">entries that were filled or lost</text>')
for at, (colour, name, values) in enumerate(lines):
    points = " ".join(f"{x(row[0]):.1f},{y(held):.1f}" for row, held in zip(rows, values))
    dashes = ' stroke-dasharray="5 5"' if at == len(lines) - 1 else ""
    out.append(f'<polyline points="{points}" fill="none" stroke="{colour}" stroke-width="2"{dashes}/>')
    out.append(f'<line x1="{LEFT}" y1="{TOP + HEIGHT + 56 + 18 * at}" x2="{LEFT + 30}" y2="{TOP + HEIGHT + 56 + 18 * at}" stroke="{colour}" stroke-width="2"{dashes}/>')
    out.append(f'<text x="{LEFT + 38}" y="{TOP + HEIGHT + 60 + 18 * at}">{name}, {values[-1]:,} bytes at the end</text>')
out.append("</svg>")
with open(sys.argv[2], "w", encoding="utf-8") as it:
    it.write("\n".join(out) + "\n")
END
echo "docs/picture.svg is drawn"
