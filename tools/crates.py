"""The crates that programs stand on: what crates.txt says of them, their sources, and what their proofs take and make.

It is a library, and is not run.
"""

import contextlib
import hashlib
import os
import re
import shutil
import time
from collections import namedtuple
from pathlib import Path

TOP = Path(__file__).resolve().parent.parent
CRATES = TOP / "crates"
PARTS = ("src", "specs", "proofs")

# Of a launcher its program: its crate, and words that it ends with this status, by which it is tried before it is kept.
Program = namedtuple("Program", "crate words status")
PROGRAMS = {
    "utm": Program("utm", ["run", "nothing"], 6),
    "lab": Program("kdcs_lab", ["trace", "nothing"], 6),
    "live": Program("live", ["nothing"], 6),
    "carry": Program("carry", ["state", "nothing"], 0),
    "test": Program("utm_cases", [], 0),
}

GIGABYTE = 10**9
# What a proof takes at most: memory for itself, for each line of code of the crate and of those below it, and for each
# further job a part of the sum. And the seconds of a proof that was not measured: at least, and for each line.
MEMORY = GIGABYTE
MEMORY_OF_LINE = 500_000
MEMORY_OF_LINE_BELOW = 100_000
MEMORY_OF_JOB = 0.6
SECONDS_AT_LEAST = 10
SECONDS_OF_LINE = 1 / 5
SECONDS_OF_LINE_BELOW = 1 / 1000

# What the proofs took when they were measured: so that the longest chain is known, and not guessed from lines.
MEASURED = TOP / "tools" / "seconds.txt"
HEAD_OF_MEASURED = "# crate: processor seconds of its proof with one job, as measured last; tools/measure.py writes this table\n"


class Failure(Exception):
    """The programs cannot be built; the text says why."""


class Crate:
    """A crate as its line of crates.txt has it. Crates compare as objects."""

    def __init__(self, line):
        self.line = line
        head, _, libraries = line.partition(":")
        self.name = head.split()[0]
        self.libraries = re.findall(r"[^\s,]+", libraries)
        self.program = next((it for it in PROGRAMS.values() if it.crate == self.name), None)
        # What is made of it: a program, or a library. Beside it lies the digest of what it was made from.
        out = CRATES / self.name / "out"
        self.made = out / self.name if self.program else out / "proved" / f"{self.name}.rlib"
        self.mark_file = self.made.parent / (f"{self.name}.digest" if self.program else "digest")
        # The libraries of the kit that it stands on, and the crates of the repository: by its line, and in all.
        self.of_kit, self.uses, self.below = [], [], set()
        # Its lines of code, and the digest of all that it is made from.
        self.lines, self.digest = 0, None
        # The seconds that its proof took when it was measured, and those of the longest chain that begins with it and
        # goes up.
        self.measured, self.chain = None, 0

    def sources(self):
        files = [file for part in PARTS for file in (CRATES / self.name / part).rglob("*")]
        return sorted(file for file in files if file.is_file())

    def mark(self):
        """The digest, and for a program, which the gate may replace by another, the one of its bytes too."""
        return f"{self.digest} {sum_of(self.made)}" if self.program else self.digest

    def is_proved(self):
        with contextlib.suppress(OSError):
            return self.made.exists() and self.mark_file.read_text() == self.mark()
        return False

    def is_of_gate(self):
        """Whether the gate has built this program since its sources were changed. The gate leaves no digest."""
        if self.mark_file.exists() or not self.made.exists():
            return False
        files = [TOP / "crates.txt", *(file for it in [self, *self.below] for file in it.sources())]
        return max(it.stat().st_mtime for it in files) <= self.made.stat().st_mtime

    def keep(self, made, moment):
        """Takes what was made of its sources, as they were at this moment, with the digest of all that it was made from."""
        self.made.parent.mkdir(parents=True, exist_ok=True)
        self.mark_file.unlink(missing_ok=True)
        if self.made.is_dir():
            remove(self.made)
        os.utime(made, (moment, moment))
        made.rename(self.made)
        self.mark_file.write_text(self.mark())

    def date(self, moment):
        """Notes at which moment a program suited its sources, and where these are, for its launcher."""
        folders = sorted(f"crates/{it.name}/{part}\n" for it in [self, *self.below] for part in PARTS)
        (self.made.parent / "sources").write_text("".join(folders))
        os.utime(self.made, (moment, moment))

    def lines_below(self):
        return sum(it.lines for it in self.below)

    def work(self):
        """The seconds of processor time that its proof takes, as measured, or else by its lines of code."""
        by_lines = SECONDS_AT_LEAST + SECONDS_OF_LINE * self.lines + SECONDS_OF_LINE_BELOW * self.lines_below()
        return self.measured or by_lines

    def memory(self, jobs):
        """The most that its proof takes, in bytes."""
        one = MEMORY + MEMORY_OF_LINE * self.lines + MEMORY_OF_LINE_BELOW * self.lines_below()
        return one + MEMORY_OF_JOB * one * (jobs - 1)


def sum_of(file):
    return hashlib.sha256(file.read_bytes()).hexdigest()


def remove(folder):
    """Removes a folder, in which a prover that was just ended may write for a moment longer."""
    for _ in range(50):
        shutil.rmtree(folder, ignore_errors=True)
        if not folder.exists():
            return
        time.sleep(0.1)


def listed_crates():
    """Returns the crates of crates.txt by their names."""
    rows = [row.partition("#")[0].strip() for row in (TOP / "crates.txt").read_text().splitlines()]
    return {it.name: it for it in (Crate(row) for row in rows if row)}


def read_crates(launchers):
    """Returns the crates that the programs of these launchers stand on and their own, each behind those below it."""
    listed = listed_crates()
    found = []

    def visit(crate, above):
        if crate in above:
            raise Failure(f"crates.txt: {crate.name} stands on itself")
        if crate not in found:
            crate.uses = [listed[name] for name in crate.libraries if name in listed]
            crate.of_kit = ["std", *(name for name in crate.libraries if name not in listed)]
            for lower in crate.uses:
                visit(lower, [*above, crate])
            crate.below = set(crate.uses).union(*(lower.below for lower in crate.uses))
            found.append(crate)

    for launcher in launchers:
        visit(listed[PROGRAMS[launcher].crate], [])
    return found


def measured_seconds():
    """Returns the table of what the proofs took, by the names of the crates. Without the file it is empty."""
    with contextlib.suppress(OSError):
        return {name: int(seconds) for name, seconds in re.findall(r"^(\w+): (\d+)$", MEASURED.read_text(), re.M)}
    return {}


def note_seconds(seconds):
    """Writes the table: what was measured now, and before of the other crates that there are."""
    table = {**measured_seconds(), **{name: max(round(it), 1) for name, it in seconds.items()}}
    rows = [f"{name}: {table[name]}\n" for name in sorted(listed_crates()) if name in table]
    MEASURED.write_text(HEAD_OF_MEASURED + "".join(rows))


def copy_sources(crates, folder, version):
    """Copies the sources, so that what is edited meanwhile counts for the next start, and takes lines and digests."""
    for crate in crates:
        read = hashlib.sha256(version + crate.line.encode())
        for lower in crate.uses:
            read.update(lower.digest.encode())
        for file in crate.sources():
            name, text = file.relative_to(TOP), file.read_bytes()
            read.update(repr((str(name), text)).encode())
            crate.lines += text.count(b"\n") if file.suffix == ".rt" else 0
            (folder / name).parent.mkdir(parents=True, exist_ok=True)
            (folder / name).write_bytes(text)
        crate.digest = read.hexdigest()
    take_work(crates)


def take_work(crates):
    """Takes what the proofs take, and of each crate the longest chain that begins with it."""
    seconds = measured_seconds()
    for crate in crates:
        crate.measured = seconds.get(crate.name)
    for crate in reversed(crates):
        crate.chain = crate.work() + max((it.chain for it in crates if crate in it.uses), default=0)
