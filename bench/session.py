#!/usr/bin/env python3
"""Measures a live session over a pipe beside `utm run`: how soon an answer comes, and how many commits are made a second.

    python3 bench/session.py [--inputs N] [--live PROGRAM] [--utm PROGRAM] [--folder FOLDER]

Each input is a transaction that reads and writes one row. Times are those of the clock: a caller waits for them. The files
lie in memory where the machine has /dev/shm, and in FOLDER. Nothing here passes or fails: it prints numbers.
"""

import argparse
import os
import subprocess
import sys
import tempfile
import time
from pathlib import Path

from applications import rows
from bench import MEMORY, TOP

ROWS = 100


def made(folder):
    """The application of the bench `rows`, its file filled; returns the commands to come to its state, and of an input."""
    bench = rows(ROWS)
    (folder / "app.def").write_text(bench.definition)
    (folder / "app.units").write_text(bench.units)
    return bench


def filled(folder, bench, utm):
    (folder / "app.script").write_text("\n".join(bench.fill) + "\n")
    (folder / "app.KDCA").unlink(missing_ok=True)
    subprocess.run([utm, "run", "app"], cwd=folder, stdout=subprocess.DEVNULL, check=True)


def seconds_of_run(folder, bench, utm, inputs):
    """A script of so many inputs, without what comes before them."""
    took = []
    for count in (0, inputs):
        filled(folder, bench, utm)
        commands = bench.before + [line for k in range(count) for line in bench.one(k)]
        (folder / "app.script").write_text("\n".join(commands) + "\n")
        began = time.perf_counter()
        subprocess.run([utm, "run", "app"], cwd=folder, stdout=subprocess.DEVNULL, check=True)
        took.append(time.perf_counter() - began)
    return took[1] - took[0]


class Session:
    """A session whose answers are read."""

    def __init__(self, folder, bench, live):
        self.process = subprocess.Popen([live, "app"], cwd=folder, stdin=subprocess.PIPE, stdout=subprocess.PIPE, bufsize=-1)
        for line in bench.before:
            self.ask(line)

    def type(self, text):
        self.process.stdin.write(text.encode())
        self.process.stdin.flush()

    def ask(self, line):
        self.type(f"{line}\nECHO .\n")
        while self.process.stdout.readline() != b".\n":
            pass

    def end(self):
        self.process.stdin.close()
        self.process.wait()


def seconds_of_answers(folder, bench, live, inputs):
    """How long each of so many inputs took from its line to its answer, one after another."""
    session = Session(folder, bench, live)
    took = []
    for k in range(inputs):
        line = bench.one(k)[0]
        began = time.perf_counter()
        session.type(line + "\n")
        session.process.stdout.readline()
        took.append(time.perf_counter() - began)
    session.end()
    return sorted(took)


def seconds_of_stream(folder, bench, live, inputs):
    """So many inputs typed at once, until the last answer is there."""
    session = Session(folder, bench, live)
    text = "".join(bench.one(k)[0] + "\n" for k in range(inputs))
    began = time.perf_counter()
    if os.fork() == 0:
        session.type(text)
        os._exit(0)
    for _ in range(inputs):
        session.process.stdout.readline()
    took = time.perf_counter() - began
    session.end()
    os.wait()
    return took


def measure(folder, place, given):
    bench = made(folder)
    run = seconds_of_run(folder, bench, given.utm, given.inputs)
    filled(folder, bench, given.utm)
    stream = seconds_of_stream(folder, bench, given.live, given.inputs)
    filled(folder, bench, given.utm)
    each = seconds_of_answers(folder, bench, given.live, given.inputs)
    print(f"{place}: {given.inputs} inputs")
    print(f"  utm run, from a script            {given.inputs / run:10.0f} commits a second")
    print(f"  live, typed at once               {given.inputs / stream:10.0f} commits a second")
    print(f"  live, each after the answer       {given.inputs / sum(each):10.0f} commits a second")
    for name, share in (("half of the answers", 0.5), ("99 of 100 answers", 0.99), ("all answers", 1)):
        at = min(len(each) - 1, int(share * len(each)))
        print(f"  {name:33} {each[at] * 1e6:10.0f} microseconds at most")
    sys.stdout.flush()


def main():
    parser = argparse.ArgumentParser(description=__doc__.splitlines()[0])
    parser.add_argument("--inputs", type=int, default=20000, help="20000 without it")
    parser.add_argument("--live", type=Path, default=TOP / "live")
    parser.add_argument("--utm", type=Path, default=TOP / "utm")
    parser.add_argument("--folder", type=Path, default=Path("."), help="a folder on a disk; the current one without it")
    given = parser.parse_args()
    given.live, given.utm = given.live.resolve(), given.utm.resolve()
    for place, where in (("memory", MEMORY), ("disk", given.folder)):
        if os.path.isdir(where):
            with tempfile.TemporaryDirectory(prefix="bench-", dir=where) as name:
                measure(Path(name), place, given)
    return 0


if __name__ == "__main__":
    sys.exit(main())
