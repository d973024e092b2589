#!/usr/bin/env python3
"""Runs a command that proves crates, and prints the processor minutes that each crate took: its proof, its tests and its edits.

    bench/gate.py .ci/run > table.md          the gate: all crates from nothing
    bench/gate.py rt must-fail smp_tape       what a part of it takes

It looks at the processes below the command five times a second, so a process's last moment isn't counted. Where a kit keeps what passed, `rt ci --anew`
counts all; what is kept takes no time and isn't listed. Where it is told to end (control-C, or SIGTERM), the command is ended too, and the table has what was
counted until then. The table is for CONTRIBUTING.md. It is no test.
"""
import collections
import os
import signal
import subprocess
import sys
import time

TOP = os.path.dirname(os.path.dirname(os.path.abspath(__file__)))
TICKS = os.sysconf("SC_CLK_TCK")
KINDS = ("proof", "tests", "edits")


def text_of(path):
    try:
        with open(path, "rb") as file:
            return file.read()
    except OSError:
        return b""


def processes():
    """For each process its parent, its start, its own processor time in seconds, and its words."""
    found = {}
    for pid in filter(str.isdigit, os.listdir("/proc")):
        fields = text_of(f"/proc/{pid}/stat").rpartition(b")")[2].split()
        if fields:
            words = text_of(f"/proc/{pid}/cmdline").decode("utf-8", "replace").split("\0")
            found[int(pid)] = int(fields[1]), int(fields[19]), (int(fields[11]) + int(fields[12])) / TICKS, words
    return found


def is_below(pid, top, found):
    while pid in found and pid != top:
        pid = found[pid][0]
    return pid == top


def kind_of(pid, name, words):
    """Whether a check is of the crate itself, of its tests, or of an edit, which is tried on a copy elsewhere."""
    if "--test" in words:
        return "tests"
    try:
        folder = os.readlink(f"/proc/{pid}/cwd")
    except OSError:
        return None
    return "proof" if folder == os.path.join(TOP, "crates", name) else "edits"


def main():
    if len(sys.argv) < 2:
        sys.exit(__doc__)
    begin, taken, kinds = time.monotonic(), {}, {}
    command = subprocess.Popen(sys.argv[1:], cwd=TOP, stdout=sys.stderr)
    for end in signal.SIGINT, signal.SIGTERM:
        signal.signal(end, lambda *_: command.terminate())
    while command.poll() is None:
        found = processes()
        for pid, (_, start, seconds, words) in found.items():
            if "--crate-name" in words and is_below(pid, command.pid, found):
                name = words[words.index("--crate-name") + 1]
                kind = kinds.get((pid, start)) or kind_of(pid, name, words)
                if kind:
                    kinds[pid, start] = kind
                    taken[pid, start] = name, kind, seconds
        time.sleep(0.2)
    sums = collections.defaultdict(float)
    for name, kind, seconds in taken.values():
        sums[name, kind] += seconds / 60
    rows = sorted({name for name, _ in sums}, key=lambda name: -sum(sums[name, kind] for kind in KINDS))
    print("| Crate | Proof | Tests | Edits | All |")
    print("|---|---|---|---|---|")
    for name in [*rows, None]:
        minutes = [sum(sums[it, kind] for it in ([name] if name else rows)) for kind in KINDS]
        title = f"`{name}`" if name else "all"
        print(f"| {title} | " + " | ".join(f"{it:.1f}" for it in [*minutes, sum(minutes)]) + " |")
    print(f"\n{(time.monotonic() - begin) / 60:.0f} minutes in all, on {len(os.sched_getaffinity(0))} processors.")
    sys.exit(command.returncode)


if __name__ == "__main__":
    main()
