#!/usr/bin/env bash
# How long takes and gives of ids last: a table of so many ids is filled, and then each id is given back and taken again.
# Use: bench/handle_table.sh [IDS]     IDS from 1 to 1048576, which is what is taken if left out: two million takes and a million gives
# It measures crates/bench/out/bench as `rt ci` left it in this checkout; where there is none, it proves and builds it first.
set -eu
here=$(cd "$(dirname "$0")/.." && pwd)
. "$here/bench/parts.sh"
exec "$program" table "${1:-1048576}"
