#!/usr/bin/env python3
"""Prints what the crates cost in a run of the gate, in minutes of processor time.

    python3 tools/gate_times.py [--every SECONDS] COMMAND..

It runs the command, as `rt ci` or `bash .ci/run`, and looks once a second at the provers that this has started. At
the end there is a line for each crate: the minutes of its proof, of its proof with its tests, and of its edits. The
first of the edits is the crate proved once more. A prover that ends within a second may be missed. It needs Linux.
"""

import os
import re
import subprocess
import sys
import time
from collections import Counter, defaultdict
from pathlib import Path

KINDS = ("proof", "tests", "edits")
TICKS_A_MINUTE = 60 * os.sysconf("SC_CLK_TCK")


def stat_of(pid):
    """Returns the fields of a process behind its name: the state, the parent and so on."""
    return Path(f"/proc/{pid}/stat").read_text().rpartition(")")[2].split()


def is_below(pid, root):
    """Returns whether the process was started by another one, or by one that this started."""
    while pid > 1 and pid != root:
        try:
            pid = int(stat_of(pid)[1])
        except OSError:
            return False
    return pid == root


def kind_of(words):
    if any("/rt-edits-" in word for word in words):
        return "edits"
    return "tests" if "--test" in words else "proof"


def provers(root):
    """Yields each prover below a process: what tells it from others, its crate, its kind and its minutes until now."""
    for pid in filter(str.isdigit, os.listdir("/proc")):
        try:
            words = Path(f"/proc/{pid}/cmdline").read_text().split("\0")
            fields = stat_of(pid)
        except OSError:
            continue
        name = re.search(r"--crate-name (\S+)", " ".join(words))
        if os.path.basename(words[0]) == "rattle" and name and is_below(int(pid), root):
            user, system, began = (int(fields[it]) for it in (11, 12, 19))
            yield (pid, began), name[1], kind_of(words), (user + system) / TICKS_A_MINUTE


def watch(command, seconds):
    """Runs the command; returns its status, and for each crate the minutes by kind."""
    seen = {}
    job = subprocess.Popen(command)
    while job.poll() is None:
        for prover, crate, kind, minutes in provers(job.pid):
            seen[prover] = crate, kind, minutes
        time.sleep(seconds)
    crates = defaultdict(Counter)
    for crate, kind, minutes in seen.values():
        crates[crate][kind] += minutes
    return job.returncode, crates


def row(name, kinds):
    return f"{name:24}" + "".join(f"{it:8.1f}" for it in [*(kinds[kind] for kind in KINDS), sum(kinds.values())])


def main(words):
    seconds = 1.0
    if words[:1] == ["--every"]:
        seconds, words = float(words[1]), words[2:]
    if not words:
        sys.exit(__doc__)
    began = time.monotonic()
    status, crates = watch(words, seconds)
    print(f"{'crate':24}" + "".join(f"{it:>8}" for it in [*KINDS, "all"]) + "   minutes of processor time")
    for name, kinds in sorted(crates.items(), key=lambda item: -sum(item[1].values())):
        print(row(name, kinds))
    print(row("together", sum(crates.values(), Counter())))
    print(f"{(time.monotonic() - began) / 60:.1f} minutes, {os.cpu_count()} processors, status {status}")
    return status


if __name__ == "__main__":
    sys.exit(main(sys.argv[1:]))
