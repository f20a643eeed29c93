#!/usr/bin/env bash
# Turns a second of a call that leaves an entry, under the turn lock, with 1, 2 and 4 passes on threads of their own.
# Use: bench/turn_lock.sh [TURNS]     TURNS of each pass, at most 1000000, and 100000 if left out
# Run it on a machine that does nothing else: a ticket goes to one thread, which may not be running.
# It measures crates/bench/out/bench as `rt ci` left it in this checkout; where there is none, it proves and builds it first.
set -eu
here=$(cd "$(dirname "$0")/.." && pwd)
. "$here/bench/parts.sh"
exec "$program" turns "${1:-100000}"
