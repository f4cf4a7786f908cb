#!/usr/bin/env python3
"""Measures the gate: bench/gate.py [COMMAND ..] runs `rt ci`, or COMMAND, and prints a table of processor minutes by crate.

Twice a second it looks at the processes of the checker below the command and sorts each by what it does: the proof of a
library or a program, of tests, a try of an edit, or the compiling and running of what was proved. The time of a process
is that of its last look, so half a second of each may be missing. docs/GATE.md has the figures of a whole run.
"""
import os
import re
import subprocess
import sys
import time
from collections import defaultdict

KINDS = ("library", "tests", "edits", "other")
TICK = os.sysconf("SC_CLK_TCK")
EVERY = 0.5


def parents():
    """Each process with its parent, and its time so far in seconds."""
    found = {}
    for name in os.listdir("/proc"):
        if name.isdigit():
            try:
                with open(f"/proc/{name}/stat") as stat:
                    fields = stat.read().rsplit(")", 1)[1].split()
            except OSError:
                continue
            found[int(name)] = (int(fields[1]), (int(fields[11]) + int(fields[12])) / TICK)
    return found


def below(root, found):
    """The processes that stand below one, each with its time."""
    children = defaultdict(list)
    for process, (parent, _) in found.items():
        children[parent].append(process)
    waiting = [root]
    while waiting:
        for child in children[waiting.pop()]:
            waiting.append(child)
            yield child, found[child][1]


def task_of(process):
    """The crate and the kind of work of a process, or None where it is gone."""
    try:
        with open(f"/proc/{process}/cmdline") as line:
            words = line.read().split("\0")
        folder = os.readlink(f"/proc/{process}/cwd")
    except OSError:
        return None
    if "--crate-name" not in words:
        return "", "other"
    crate = words[words.index("--crate-name") + 1]
    if "/rt-edit" in folder:
        return crate, "edits"
    return crate, "tests" if "--test" in words else "library"


def watch(command):
    """Runs the command, and gives its status, its minutes by the clock and the seconds of each crate and kind."""
    begun = time.monotonic()
    running = subprocess.Popen(command)
    tasks, seconds = {}, {}
    while running.poll() is None:
        for process, used in below(running.pid, parents()):
            task = task_of(process)
            if task is not None:
                # A process that becomes another program keeps its number.
                tasks[process] = task
                seconds[process] = used
        time.sleep(EVERY)
    sums = defaultdict(float)
    for process, task in tasks.items():
        sums[task] += seconds[process]
    return running.returncode, (time.monotonic() - begun) / 60, sums


def edits_of(crate):
    folder = f"crates/{crate}/must-fail"
    return len(os.listdir(folder)) if os.path.isdir(folder) else 0


def lines_of(crate):
    listed = subprocess.run(["git", "ls-files", f"crates/{crate}"], capture_output=True, text=True).stdout.split()
    return sum(sum(1 for _ in open(name, errors="replace")) for name in listed if re.search(r"\.(rt|antt)$", name))


def main():
    os.chdir(os.path.join(os.path.dirname(os.path.abspath(__file__)), ".."))
    status, minutes, sums = watch(sys.argv[1:] or ["rt", "ci"])
    total = {kind: sum(used for (_, other), used in sums.items() if other == kind) for kind in KINDS}
    print(f"\n{minutes:.0f} minutes on the clock, {os.cpu_count()} processors, status {status}; processor minutes: "
          + ", ".join(f"{kind} {total[kind] / 60:.1f}" for kind in KINDS))
    print("\n| Crate | Lines | Library | Tests | Edits (number) | All | A thousand lines |\n|---|---|---|---|---|---|---|")
    crates = sorted({crate for crate, _ in sums if crate}, key=lambda crate: -sum(sums[crate, kind] for kind in KINDS))
    for crate in crates:
        parts = [sums[crate, kind] / 60 for kind in KINDS[:3]]
        lines = lines_of(crate)
        print(f"| `{crate}` | {lines} | {parts[0]:.1f} | {parts[1]:.1f} | {parts[2]:.1f} ({edits_of(crate)}) | {sum(parts):.1f} | "
              f"{1000 * sum(parts) / max(lines, 1):.1f} |")
    sys.exit(status)


if __name__ == "__main__":
    main()
