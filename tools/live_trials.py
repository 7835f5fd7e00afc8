#!/usr/bin/env python3
"""Tries a made day in a live session: as a whole beside `utm run`, and killed at random moments and gone on with.

    python3 tools/live_trials.py [--lines N] [--kills K] [--live PROGRAM] [--utm PROGRAM] [SEED]

Each input of the day adds one to a row and one to the sum of all; a job that it makes adds one to a second sum. As a whole
the session sends, line by line, what `utm run` sends for the same lines, and leaves the same file, byte for byte. Killed
with SIGKILL, each answer that was read is found in the file, and nothing that was not typed; the day then goes on behind
the last input that is stored, and at its end the rows are those of a day without a stop. The same is tried of an
application on two disks. The last line has how many checks passed and failed.
"""

import argparse
import random
import re
import subprocess
import sys
import tempfile
import time
from pathlib import Path

TOP = Path(__file__).resolve().parent.parent
ROWS = 50
ALL_TURNS = "RUN 1000"
DEFINITION = """MAX APPLINAME=DAY,TASKS=2,ASYNTASKS=1,KB=8,SPAB=32,NB=80,GSSBS=100,PGPOOL=100,BLKSIZE=2K{}
PROGRAM ADD
PROGRAM NOTE
TAC ADD,PROGRAM=ADD
TAC NOTE,PROGRAM=NOTE,TYPE=A
USER U1
LTERM L1
PTERM P1,LTERM=L1
END
"""
DOUBLE = ",KDCFILE=(day,DOUBLE)"
UNITS = """UNIT ADD
FIELD name SPAB 0 4
FIELD times SPAB 4 8
INIT
MGET name
SGET GB 'SUM' times
ADD times 1
SPUT GB 'SUM' times
SGET GB name times
ADD times 1
SPUT GB name times
FPUT 'NOTE' name
MPUT times
PEND FI
END
UNIT NOTE
FIELD name SPAB 0 4
FIELD times SPAB 4 8
INIT
FGET name
SGET GB 'JOBS' times
ADD times 1
SPUT GB 'JOBS' times
PEND FI
END
"""
SIGN_ON = "IN P1 KDCSIGN U1"
MANUAL = "MANUAL"


class Counts:
    """What holds and what does not."""

    def __init__(self):
        self.passed = self.failed = 0

    def holds(self, name, does, found=""):
        if does:
            self.passed += 1
        else:
            self.failed += 1
            print(f"live: {name}: {found!r}")


class Day:
    """The inputs of a day, and the programs that it is tried with."""

    def __init__(self, given, double):
        numbers = random.Random(given.seed)
        self.rows = [f"R{numbers.randrange(ROWS):03}" for _ in range(given.lines // 2)]
        self.live, self.utm, self.double = given.live, given.utm, double

    def begin(self, folder):
        """The texts of the application, without a file."""
        (folder / "day.def").write_text(DEFINITION.format(DOUBLE if self.double else ""))
        (folder / "day.units").write_text(UNITS)
        (folder / "day.script").write_text("\n".join([SIGN_ON, *self.lines(0)]) + "\n")

    def lines(self, first):
        """The commands of the inputs behind so many."""
        return [line for row in self.rows[first:] for line in (f"IN P1 ADD {row}", ALL_TURNS)]

    def files(self, folder):
        return [(folder / name).read_bytes() for name in (["day.KDCA", "day.KDCB"] if self.double else ["day.KDCA"])]

    def table(self, folder):
        """The rows of the file, as `utm show` lists them."""
        printed = subprocess.run([self.utm, "show", "day"], cwd=folder, capture_output=True, text=True, check=True).stdout
        return [line for line in printed.splitlines() if line.startswith("GSSB ")]

    def stored(self, folder):
        """How many inputs and how many of their jobs the file has."""
        found = dict(re.findall(r"^GSSB (SUM|JOBS) (\d+)$", "\n".join(self.table(folder)), re.M))
        return int(found.get("SUM", 0)), int(found.get("JOBS", 0))

    def session(self, folder):
        return subprocess.Popen([self.live, "day"], cwd=folder, stdin=subprocess.PIPE, stdout=subprocess.PIPE)


def try_whole(day, counts, folder):
    """The day in one session, beside one run of the same lines."""
    ran = folder / "ran"
    lived = folder / "lived"
    for it in (ran, lived):
        it.mkdir()
        day.begin(it)
    run = subprocess.run([day.utm, "run", "day"], cwd=ran, capture_output=True, check=False)
    counts.holds("the run", run.returncode == 0, run.returncode)
    typed = "\n".join([MANUAL, SIGN_ON, *day.lines(0)]) + "\n"
    live = subprocess.run([day.live, "day"], cwd=lived, input=typed.encode(), capture_output=True, check=False)
    counts.holds("the session ends with 0", live.returncode == 0, live.returncode)
    counts.holds("it sends what the run sends", live.stdout == run.stdout)
    counts.holds("one answer for each input", run.stdout.count(b"OUT P1 ") == len(day.rows), run.stdout.count(b"OUT P1 "))
    counts.holds("it leaves the file of the run", day.files(lived) == day.files(ran))
    return day.table(ran)


def type_until(day, folder, first, answers, seconds):
    """Types the day behind so many inputs; kills the session after so many answers and so many seconds more.

    Returns how many answers were read in all."""
    program = day.session(folder)
    read = 0
    try:
        program.stdin.write("\n".join([MANUAL, SIGN_ON, *day.lines(first)[: 2 * answers + 400]]).encode() + b"\n")
        program.stdin.flush()
    except BrokenPipeError:
        pass
    while read < answers:
        line = program.stdout.readline()
        if not line:
            break
        read += line.startswith(b"OUT P1 ")
    time.sleep(seconds)
    program.kill()
    read += sum(line.startswith(b"OUT P1 ") and line.endswith(b"\n") for line in program.stdout)
    program.wait()
    return read


def try_kills(day, counts, folder, kills, numbers, wanted):
    """The day, killed so many times and gone on with."""
    killed = folder / "killed"
    killed.mkdir()
    day.begin(killed)
    done = 0
    each = max(1, len(day.rows) // (kills + 1))
    for kill in range(kills):
        answers = numbers.randrange(each)
        read = type_until(day, killed, done, answers, numbers.random() * 0.01)
        had, jobs = day.stored(killed)
        counts.holds(f"kill {kill}: what was answered is stored", had >= done + read, (had, done, read))
        counts.holds(f"kill {kill}: no more than was typed", had <= min(len(day.rows), done + answers + 200), (had, done))
        counts.holds(f"kill {kill}: each input made one job", had - 2 <= jobs <= had, (had, jobs))
        done = had
    typed = "\n".join([MANUAL, SIGN_ON, *day.lines(done), ALL_TURNS]) + "\n"
    last = subprocess.run([day.live, "day"], cwd=killed, input=typed.encode(), capture_output=True, check=False)
    counts.holds("the last session ends with 0", last.returncode == 0, last.returncode)
    counts.holds("at the end the rows of a day without a stop", day.table(killed) == wanted)
    if day.double:
        counts.holds("both copies are alike", len(set(day.files(killed))) == 1)


def main():
    parser = argparse.ArgumentParser(description=__doc__.splitlines()[0])
    parser.add_argument("--lines", type=int, default=2000, help="commands of the day; 2000 without it")
    parser.add_argument("--kills", type=int, default=10, help="how often it is killed; 10 without it")
    parser.add_argument("--live", type=Path, default=TOP / "live")
    parser.add_argument("--utm", type=Path, default=TOP / "utm")
    parser.add_argument("seed", nargs="?", type=int, default=1)
    given = parser.parse_args()
    given.live, given.utm = given.live.resolve(), given.utm.resolve()
    counts = Counts()
    for double in (False, True):
        day = Day(given, double)
        with tempfile.TemporaryDirectory(prefix="day-") as name:
            wanted = try_whole(day, counts, Path(name))
            try_kills(day, counts, Path(name), given.kills, random.Random(given.seed + 1), wanted)
    print(f"{counts.passed} passed, {counts.failed} failed")
    return 1 if counts.failed else 0


if __name__ == "__main__":
    sys.exit(main())
