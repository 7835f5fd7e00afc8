#!/usr/bin/env python3
"""Measures what an operation of the built program costs where N things are kept, and where 10 N are.

    python3 bench/bench.py [--size N] [--program PATH] [NAME..]

NAME is a bench of applications.py; without one all are run. Times are user time of the processor. Bytes written, write
calls and syncs are counted by strace, and instructions by callgrind, where there are these. Nothing here passes or fails:
it prints numbers.
"""

import argparse
import os
import shutil
import subprocess
import sys
import tempfile
from dataclasses import dataclass
from pathlib import Path
from typing import List, Optional, Tuple

from applications import ALL, SIZES, Bench, lines

TOP = Path(__file__).resolve().parent.parent
BUILT = TOP / "crates" / "utm" / "out" / "utm"
REPEATS = 3
TRACED = 500   # operations whose calls are counted
COUNTED = 300  # operations whose instructions are counted
MEMORY = "/dev/shm"  # files there cost no time of a disk


@dataclass
class Usage:
    user: float      # seconds
    peak: float      # MB, and no less than what this script takes
    written: int     # bytes of the file
    writes: int      # calls
    syncs: int       # calls
    instructions: int = 0


class Failed(Exception):
    pass


def run_once(program: Path, folder: Path, words: List[str]) -> Usage:
    """The program in this folder: its user time and its peak memory."""
    with open(os.devnull, "w") as nothing:
        process = subprocess.Popen([str(program), *words], cwd=folder, stdout=nothing)
        _, status, usage = os.wait4(process.pid, 0)
        process.returncode = os.WEXITSTATUS(status) if os.WIFEXITED(status) else -os.WTERMSIG(status)
    if process.returncode != 0:
        raise Failed(f"{' '.join(words)} ended with status {process.returncode}")
    return Usage(usage.ru_utime, usage.ru_maxrss / 1024, 0, 0, 0)


def count_calls(program: Path, folder: Path, words: List[str], usage: Usage) -> None:
    """The calls on the file, by strace."""
    trace = folder / "trace"
    calls = "write,pwrite64,fsync,fdatasync"
    subprocess.run(["strace", "-f", "-y", "-s", "0", "-e", f"trace={calls}", "-o", str(trace), str(program), *words],
                   cwd=folder, stdout=subprocess.DEVNULL, check=True)
    for line in trace.read_text(errors="replace").splitlines():
        if ".KDCA>" not in line:
            continue
        if "sync(" in line:
            usage.syncs += 1
        else:
            usage.writes += 1
            usage.written += int(line.rsplit(" = ", 1)[1].split()[0])
    trace.unlink()


def instructions_of(program: Path, folder: Path, words: List[str]) -> int:
    """The instructions of the program, without those of the system's calls."""
    counted = subprocess.run(["valgrind", "--tool=callgrind", "--callgrind-out-file=/dev/null", str(program), *words],
                             cwd=folder, stdout=subprocess.DEVNULL, stderr=subprocess.PIPE, text=True, check=True)
    return int(next(line.split(":")[1] for line in counted.stderr.splitlines() if "Collected" in line))


def measured(program: Path, folder: Path, script: List[str]) -> Usage:
    """The least of some runs of a script, each on the same KDCFILE."""
    (folder / "app.script").write_text(lines(*script))
    kept = folder / "app.KDCA.kept"
    best: Optional[Usage] = None
    for _ in range(REPEATS):
        shutil.copyfile(kept, folder / "app.KDCA")
        usage = run_once(program, folder, ["run", "app"])
        if best is None or usage.user < best.user:
            best = usage
    assert best is not None
    return best


def traced(program: Path, folder: Path, script: List[str]) -> Usage:
    """The calls of a script on the same KDCFILE; none where there is no strace."""
    usage = Usage(0, 0, 0, 0, 0)
    if shutil.which("strace"):
        (folder / "app.script").write_text(lines(*script))
        shutil.copyfile(folder / "app.KDCA.kept", folder / "app.KDCA")
        count_calls(program, folder, ["run", "app"], usage)
    return usage


def counted(program: Path, folder: Path, script: List[str]) -> int:
    """The instructions of a script on the same KDCFILE; none where there is no valgrind."""
    if not shutil.which("valgrind"):
        return 0
    (folder / "app.script").write_text(lines(*script))
    shutil.copyfile(folder / "app.KDCA.kept", folder / "app.KDCA")
    return instructions_of(program, folder, ["run", "app"])


@dataclass
class Result:
    filling: float   # seconds
    opening: Usage   # without operations
    user: float      # seconds an operation
    peak: float      # MB
    written: float   # bytes an operation
    writes: float    # calls an operation
    syncs: float     # calls an operation
    instructions: float  # an operation
    opened: int      # instructions until the first operation


def commands(bench: Bench, count: int) -> List[str]:
    return [command for k in range(count) for command in bench.one(k)]


def run_bench(program: Path, bench: Bench) -> Result:
    with tempfile.TemporaryDirectory(prefix="bench-", dir=MEMORY if os.path.isdir(MEMORY) else None) as name:
        folder = Path(name)
        (folder / "app.def").write_text(bench.definition)
        (folder / "app.units").write_text(bench.units)
        (folder / "app.script").write_text(lines(*bench.fill))
        filling = run_once(program, folder, ["run", "app"])
        shutil.copyfile(folder / "app.KDCA", folder / "app.KDCA.kept")
        opening = measured(program, folder, bench.before)
        whole = measured(program, folder, bench.before + commands(bench, bench.operations))
        few = min(TRACED, bench.operations)
        none, some = (traced(program, folder, bench.before + commands(bench, n)) for n in (0, few))
        # (from some operations on, since the first ones make what the others find)
        less = min(COUNTED, bench.operations) // 4
        opened, one, more = (counted(program, folder, bench.before + commands(bench, n)) for n in (0, less, 4 * less))
    each = bench.counted or 1
    return Result(filling.user, opening, (whole.user - opening.user) / (each * bench.operations), whole.peak,
                  *((many - without) / (each * few) for many, without in
                    ((some.written, none.written), (some.writes, none.writes), (some.syncs, none.syncs))),
                  (more - one) / (each * 3 * less), opened)


def ratio(small: float, large: float) -> str:
    return f"{large / small:6.2f}" if small > 0 else "     -"


def show(bench: Bench, sizes: Tuple[int, int], small: Result, large: Result) -> None:
    print(f"{bench.name}: {bench.operation}, with {sizes[0]} and {sizes[1]} {bench.what}")
    rows = [
        ("microseconds of the processor, each", small.user * 1e6, large.user * 1e6),
        ("instructions, each", small.instructions, large.instructions),
        ("bytes written, each", small.written, large.written),
        ("write calls, each", small.writes, large.writes),
        ("syncs, each", small.syncs, large.syncs),
        ("MB of memory at most", small.peak, large.peak),
        ("milliseconds until the first one", small.opening.user * 1e3, large.opening.user * 1e3),
        ("instructions until the first one", small.opened, large.opened),
        ("milliseconds to fill the file", small.filling * 1e3, large.filling * 1e3),
    ]
    for name, first, second in rows:
        print(f"  {name:38} {first:12.1f} {second:12.1f}   {ratio(first, second)}")
    sys.stdout.flush()


def main() -> int:
    parser = argparse.ArgumentParser(description=__doc__.splitlines()[0])
    parser.add_argument("--size", type=int, default=1000, help="N; 1000 without it")
    parser.add_argument("--program", type=Path, default=BUILT, help="the program; the one that ./utm builds without it")
    parser.add_argument("names", nargs="*", help="benches; all without one")
    given = parser.parse_args()
    if given.program == BUILT and not BUILT.exists():
        subprocess.run([str(TOP / "utm"), "make", "1"], stdout=subprocess.DEVNULL, check=True)
    for make in ALL:
        if given.names and make.__name__ not in given.names:
            continue
        sizes = SIZES.get(make.__name__, (given.size, 10 * given.size))
        small, large = (make(size) for size in sizes)
        show(small, sizes, run_bench(given.program, small), run_bench(given.program, large))
    return 0


if __name__ == "__main__":
    sys.exit(main())
