#!/usr/bin/env bash
# What the gate costs: runs `rt ci`, and prints the seconds of processor time that each crate's proof, that of its tests and its wrong bodies
# took, the greatest sum first. What an earlier run on this machine proved of the same files is not proved again, and takes none.
# Use: bench/gate.sh LOGFILE              the whole gate; what it says goes into LOGFILE, and the status is its own
#      bench/gate.sh LOGFILE --anew       all of it from nothing
#      bench/gate.sh LOGFILE NAME..       these crates and those below them alone
# The times are looked up once a second: up to a second of each is not seen, and counts in the row of the rest.
set -eu
[ $# -gt 0 ] || { echo "use: bench/gate.sh LOGFILE [--anew] [NAME..]" >&2; exit 2; }
log=$(realpath "$1")
shift
cd "$(dirname "$0")/.."
exec python3 /dev/fd/3 "$log" "$@" 3<<'END'
import os, resource, subprocess, sys, time

TICKS = os.sysconf("SC_CLK_TCK")
KINDS = ("proof", "tests", "edits")


def processes():
    """Returns each process by its number: its parent's, its start, and its seconds, with those of its children that ended."""
    found = {}
    for pid in filter(str.isdigit, os.listdir("/proc")):
        try:
            with open(f"/proc/{pid}/stat") as it:
                fields = it.read().rsplit(")", 1)[1].split()
        except OSError:
            continue
        found[int(pid)] = int(fields[1]), fields[19], sum(map(int, fields[11:15])) / TICKS
    return found


def task_of(pid):
    """Returns which crate a process of the prover works for, and at what, or None for any other process."""
    try:
        with open(f"/proc/{pid}/cmdline") as it:
            words = it.read().split("\0")
        folder = os.readlink(f"/proc/{pid}/cwd")
    except OSError:
        return None
    if os.path.basename(words[0]) != "rattle" or "--crate-name" not in words:
        return None
    name = words[words.index("--crate-name") + 1]
    return name, "edits" if "/rt-edit-" in folder else "tests" if "--test" in words else "proof"


def look(top, seen):
    """Notes the seconds of each process of the prover that the top one started, with those of its own children."""
    found, below = processes(), {}
    for pid, (parent, _, _) in found.items():
        below.setdefault(parent, []).append(pid)
    seconds = lambda pid: found[pid][2] + sum(map(seconds, below.get(pid, [])))
    waiting = list(below.get(top, []))
    while waiting:
        pid = waiting.pop()
        task = task_of(pid)
        if task:
            seen[pid, found[pid][1], task] = seconds(pid)
        else:
            waiting += below.get(pid, [])


def main(log, *names):
    seen, start = {}, time.time()
    with open(log, "w") as it:
        gate = subprocess.Popen(["rt", "ci", *names], stdin=subprocess.DEVNULL, stdout=it, stderr=subprocess.STDOUT)
    while gate.poll() is None:
        look(gate.pid, seen)
        time.sleep(1)
    spent = {}
    for (_, _, (name, kind)), seconds in seen.items():
        row = spent.setdefault(name, dict.fromkeys(KINDS, 0))
        row[kind] += seconds
    used = resource.getrusage(resource.RUSAGE_CHILDREN)
    whole, known = used.ru_utime + used.ru_stime, sum(sum(row.values()) for row in spent.values())
    line = lambda name, cells: print(f"{name:<22}" + "".join(f"{it:>10}" for it in cells))
    line("crate", [*KINDS, "sum"])
    for name, row in sorted(spent.items(), key=lambda it: -sum(it[1].values())):
        line(name, [f"{it:.1f}" for it in (*row.values(), sum(row.values()))])
    line("all of these", [f"{it:.1f}" for it in (*(sum(row[kind] for row in spent.values()) for kind in KINDS), known)])
    line("the rest", ["", "", "", f"{whole - known:.1f}"])
    with open(log) as it:
        print(f"{time.time() - start:.0f} seconds by the clock; {(it.read().splitlines() or ['no word of rt'])[-1]}")
    return gate.returncode


sys.exit(main(*sys.argv[1:]))
END
