#!/usr/bin/env bash
# How long calls of the sub-heaps last: so many objects of 16 bytes are placed, every second one is freed, and the gaps are filled again; and how long
# an evacuation lasts that moves so many objects of 256 thin sub-heaps into as few as hold them.
# Use: bench/sub_heaps.sh      for 1000, 10000, 100000 and 1000000 objects: microseconds in all, and nanoseconds a call
# A call is a place or a free: two for each object. An evacuation is one call, and its column is nanoseconds an object.
# It measures crates/bench/out/bench as `rt ci` left it in this checkout; where there is none, it proves and builds it first.
set -eu
here=$(cd "$(dirname "$0")/.." && pwd)
. "$here/bench/parts.sh"
printf '%10s %14s %10s\n' objects microseconds ns/call
for objects in 1000 10000 100000 1000000; do
  micros=$("$program" heaps "$objects" 2>&1 >/dev/null | sed -n 's/^microseconds: //p')
  awk -v n="$objects" -v t="$micros" 'BEGIN { printf "%10d %14d %10.1f\n", n, t, 1000 * t / (2 * n) }'
done
printf '%10s %14s %10s\n' evacuated microseconds ns/object
for objects in 1000 10000 100000 1000000; do
  micros=$("$program" evacuation "$objects" 2>&1 >/dev/null | sed -n 's/^microseconds: //p')
  awk -v n="$objects" -v t="$micros" 'BEGIN { printf "%10d %14d %10.1f\n", n, t, 1000 * t / n }'
done
