#!/usr/bin/env python3
"""Runs the groups of checks of `./test` side by side: for each what does not hold, how many do, and how long it took.

    python3 tools/groups.py JOBS [GROUP..]

JOBS is how many are run at once, and 0 stands for all processors. Without names all groups are run. Each command of a
group ends with a line `N passed, M failed`. The last line here is the sum, and the status is 1 where something failed.
"""

import os
import re
import shutil
import signal
import subprocess
import sys
import tempfile
import time

sys.dont_write_bytecode = True

from crates import TOP
from launched import Launcher, Stopped, count_of
from machine import processors

COUNTS = re.compile(r"(\d+) passed, (\d+) failed$")
SECONDS_TO_END = 10


def checks(name):
    return [["bash", f".ci/{name}"]]


def made(kind):
    """Some thousands of made things, by three seeds, so that processors share them."""
    return [["python3", "tools/hostile", kind, str(seed), "1000"] for seed in (1, 2, 3)]


# By their names the commands of the groups, the longest first.
GROUPS = {
    "made-runs": made("runs"),
    "terminals": checks("terminals"),
    "cases": checks("cases"),
    "made-disks": made("disks"),
    "program": checks("program"),
    "made-pairs": made("pairs"),
    "made-laboratory": made("laboratory"),
    "laboratory": checks("laboratory"),
    "made-trails": made("trails"),
    "made-updates": made("updates"),
    "made-texts": made("texts"),
    "files": checks("files"),
    "made-files": made("files"),
    "sources": checks("sources"),
    "launcher": checks("launcher"),
    "documents": checks("documents"),
    "faults": checks("faults"),
    "live": [*checks("live"), *checks("day")],
    "carry": checks("carry"),
}


class Part:
    """A command of a group, at work. What it prints is kept until it has ended."""

    def __init__(self, group, words, folder):
        self.group = group
        self.printed, self.told = (tempfile.TemporaryFile("w+", dir=folder, errors="replace") for _ in range(2))
        self.began = time.monotonic()
        self.process = subprocess.Popen(
            words,
            cwd=TOP,
            env={**os.environ, "TMPDIR": folder},
            stdin=subprocess.DEVNULL,
            stdout=self.printed,
            stderr=self.told,
            start_new_session=True,
        )

    def end(self):
        """Ends it before its time, with all that it has started; a script then removes its folder."""
        os.killpg(self.process.pid, signal.SIGTERM)
        try:
            self.process.wait(SECONDS_TO_END)
        except subprocess.TimeoutExpired:
            os.killpg(self.process.pid, signal.SIGKILL)
            self.process.wait()


class Group:
    """The parts of a group that have ended, counted together."""

    def __init__(self, name, parts):
        self.name, self.left = name, parts
        self.passed, self.failed, self.seconds = 0, 0, 0

    def take(self, part):
        """Counts a part that has ended, and prints what does not hold in it."""
        self.left -= 1
        self.seconds += time.monotonic() - part.began
        lines, told = (text_of(it).splitlines() for it in (part.printed, part.told))
        counts = COUNTS.search(lines.pop()) if lines else None
        passed, failed = (int(it) for it in counts.groups()) if counts else (0, 0)
        if (part.process.returncode != 0) != (failed > 0) or not counts:
            failed += 1
            lines.append(f"{self.name}: it broke off with status {part.process.returncode}")
        self.passed += passed
        self.failed += failed
        for line in [*lines, *(told if failed else [])]:
            print(line)
        if not self.left:
            seconds = count_of(round(self.seconds), "second")
            print(f"{self.name}: {self.passed} passed, {self.failed} failed, {seconds}")
        sys.stdout.flush()


def text_of(file):
    file.seek(0)
    return file.read()


def run(launcher, names, at_once, folder):
    """Runs the groups of these names; returns them, counted."""
    groups = {name: Group(name, len(GROUPS[name])) for name in names}
    waiting = [(name, words) for name in names for words in GROUPS[name]]
    at_work = []
    try:
        while waiting or at_work:
            while waiting and len(at_work) < at_once:
                name, words = waiting.pop(0)
                at_work.append(Part(groups[name], words, folder))
            launcher.wait(0.1)
            for part in [it for it in at_work if it.process.poll() is not None]:
                at_work.remove(part)
                part.group.take(part)
    finally:
        for part in at_work:
            part.end()
    return groups.values()


def main(asked, *names):
    launcher = Launcher("test")
    unknown = [it for it in names if it not in GROUPS]
    if unknown:
        launcher.say(f"{unknown[0]} is no group; there are {', '.join(GROUPS)}")
        return 1
    folder = tempfile.mkdtemp(prefix="kudzuspade-test-")
    # Some checks are made as another user, who has to reach the programs that lie below it.
    os.chmod(folder, 0o711)
    try:
        groups = run(launcher, names or GROUPS, int(asked) or processors(), folder)
    except Stopped as stopped:
        launcher.say("stopped")
        return 128 + stopped.args[0]
    finally:
        shutil.rmtree(folder, ignore_errors=True)
    failed = sum(it.failed for it in groups)
    print(f"{sum(it.passed for it in groups)} passed, {failed} failed")
    return 1 if failed else 0


if __name__ == "__main__":
    sys.exit(main(*sys.argv[1:]))
