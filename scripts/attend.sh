# Commands that a script waits for, so that it ends by a signal at once, ends what it began, and tells at a terminal how long it takes.
# It is read once; `work` is then a folder that is removed at the end.

{ true <&0; } 2>/dev/null || exec </dev/null
work=$(mktemp -d) && work=$(cd "$work" && pwd) || exit 1
begun=()

# Ends what was begun and hasn't ended, the last first, and waits for it.
end_begun() {
  local at
  for ((at = ${#begun[@]} - 1; at >= 0; at--)); do
    kill "${begun[at]}" 2>/dev/null
    wait "${begun[at]}" 2>/dev/null
  done
  begun=()
}
trap 'end_begun; rm -rf "$work"' EXIT
trap 'exit 129' HUP
trap 'exit 130' INT
trap 'exit 143' TERM

# Each ten seconds one line.
tell_seconds() { # what takes so long
  local seconds=0
  while sleep 10 >/dev/null 2>&1; do
    seconds=$((seconds + 10))
    echo "alaska: $1 for $seconds seconds" >&2
  done
}

# Runs a command, with its status.
attend() { # what takes so long, the command and its words
  local what=$1 status child
  shift
  "$@" <&0 &
  child=$!
  begun+=("$child")
  if [ -t 2 ]; then
    tell_seconds "$what" &
    begun+=($!)
  fi
  wait "$child"
  status=$?
  end_begun
  return "$status"
}
