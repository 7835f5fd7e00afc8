#!/usr/bin/env python3
"""Proves the crates that programs stand on, and builds the programs.

    python3 tools/build.py NAME JOBS LAUNCHER,.. [run WORD..]

NAME is the launcher under whose name all is told. JOBS is how many processors are used, and 0 stands for all that
there are. Then come the launchers whose programs are built: utm, lab, live, carry, or test, whose program is utm_cases. With `run`
this process becomes the first of these programs, with the words behind it. What several programs stand on is proved
once.

Each crate is proved by the kit's prover, `rattle build`, from its sources and over the libraries of the crates below it,
side by side with others. A library has the statements of its crate and not the proofs, as in the gate, so that those
above read little. It is moved into the crate's out/ when it is whole, with a digest of all that it was made from. So a
stop loses only the crates at work, and the next start proves what has no library of its digest.
"""

import fcntl
import os
import resource
import shutil
import signal
import subprocess
import sys
import time
from pathlib import Path

sys.dont_write_bytecode = True

from crates import CRATES, GIGABYTE, PROGRAMS, TOP, Failure, copy_sources, read_crates, remove
from launched import Launcher, Stopped, count_of
from machine import free_memory, processors
from schedule import MOST_JOBS, Forecast, speed

NO_ANSWER = 9
TARGET = "x86_64-unknown-linux-gnu"
# What is left on the disk for each line of code, and what has to be free beside that.
DISK_OF_LINE = 150_000
DISK_TO_WORK = 0.5 * GIGABYTE
SECONDS_BETWEEN_REPORTS = 60
# How long a build has to go on until its own pace counts as much as the measured seconds.
SECONDS_OF_PACE = 60
LINES_OF_LOG = 20


def gigabytes(size):
    return f"{size / GIGABYTE:.1f} GB"


def minutes_of(seconds):
    """The minutes of an estimate, at least one."""
    return max(round(seconds / 60), 1)


class Workshop:
    """A folder that is there during a build. After a failure its logs stay."""

    def __init__(self, folder):
        self.folder = folder
        self.sources, self.made, self.logs = folder / "sources", folder / "made", folder / "logs"


class Kit:
    """The kit whose command rt is on the PATH. `rattle build --help` says what the words of its prover mean."""

    def __init__(self):
        self.folder = Path(shutil.which("rt")).resolve().parent.parent
        self.libraries = self.folder / "rlibs"
        how = {"stdin": subprocess.DEVNULL, "stdout": subprocess.PIPE, "check": True}
        self.version = subprocess.run(["rt", "version"], **how).stdout

    def prove(self, crate, jobs, made):
        """The words of the command that proves a crate, and makes a library of it or the object file of a program."""
        root = "src/main.rt" if crate.program else "src/lib.rt"
        words = [self.folder / "bin" / "rattle", "build", "--crate-name", crate.name, root]
        for name in crate.of_kit:
            words += ["--extern", f"{name}={self.libraries / name}.rlib"]
        words += ["-L", f"dependency={self.libraries}"]
        for it in crate.uses:
            words += ["--extern", f"{it.name}={it.made}"]
        for it in sorted(crate.below, key=lambda it: it.name):
            words += ["-L", f"dependency={it.made.parent}"]
        words += ["--antt-project", self.folder / "rattle" / "logic" / "antt-project.json"]
        words += ["--logic-built", self.folder / "logic_built", "--jobs", jobs]
        words += ["--toolchain", self.folder / "toolchain"] if crate.program else ["--statements"]
        return [str(it) for it in [*words, "-o", made]]

    def link(self, made, program):
        """The words of the command that makes a program of an object file."""
        words = [self.folder / "bin" / "rattle-link", "--target", TARGET, "--toolchain", self.folder / "toolchain"]
        words += ["-o", program, made, self.folder / "c" / "libos_c.a", self.folder / "c" / "liblibc_c.a"]
        return [str(it) for it in words]


# Provers


def start_guard():
    """Starts the leader of the provers' process group, which ends them all when this process ends, however it ends."""
    words = ["sh", "-c", "read _; kill -9 0"]
    quiet = {"stdout": subprocess.DEVNULL, "stderr": subprocess.DEVNULL}
    return subprocess.Popen(words, stdin=subprocess.PIPE, preexec_fn=os.setpgrp, **quiet)


def seconds_of_ended():
    """The processor seconds of all processes that this one has started and that have ended."""
    used = resource.getrusage(resource.RUSAGE_CHILDREN)
    return used.ru_utime + used.ru_stime


class Prover:
    """A prover at work on a crate. Of a program it makes an object file, which is then linked and tried."""

    def __init__(self, kit, workshop, crate, jobs, group, is_alone=False):
        self.crate, self.jobs, self.is_alone, self.group = crate, jobs, is_alone, group
        self.folder = workshop.sources / "crates" / crate.name
        self.log = workshop.logs / f"{crate.name}.log"
        self.made = workshop.made / crate.name / crate.made.name
        self.made.parent.mkdir(parents=True)
        if crate.program:
            object_file = self.made.with_suffix(".o")
            prove = kit.prove(crate, jobs, object_file)
            tries = [str(self.made), *crate.program.words]
            steps = [(prove, 0), (kit.link(object_file, self.made), 0), (tries, crate.program.status)]
        else:
            steps = [(kit.prove(crate, jobs, self.made), 0)]
        self.steps = iter(steps)
        self.log.unlink(missing_ok=True)
        self.process, self.wanted = None, None
        self.began, self.seconds = time.monotonic(), 0
        self.go_on()

    def go_on(self):
        """Starts the next step, and returns whether there was one."""
        words, self.wanted = next(self.steps, (None, None))
        if words is None:
            return False
        with open(self.log, "ab") as log:
            self.process = subprocess.Popen(
                words,
                cwd=self.folder,
                stdin=subprocess.DEVNULL,
                stdout=log,
                stderr=log,
                preexec_fn=lambda: os.setpgid(0, self.group),
            )
        return True

    def has_ended(self):
        """Whether no step is at work or left. The next one starts when the one before has done what it had to."""
        before = seconds_of_ended()
        status = self.process.poll()
        self.seconds += seconds_of_ended() - before
        return status is not None and (status != self.wanted or not self.go_on())

    def left(self):
        """The seconds of work that are left, as far as it can be known: where it takes longer, a tenth of all."""
        work = self.crate.work()
        return max(work - (time.monotonic() - self.began) * speed(self.jobs), work / 10)

    def is_done(self):
        return self.wanted is None and self.made.exists()

    def was_killed(self):
        """Whether the prover, or a command that it started, was ended by a signal, as it is where memory is short."""
        return self.process.returncode < 0 or self.process.returncode > 128


class Build:
    """Proves the crates that programs stand on, as many side by side as processors and memory allow."""

    def __init__(self, launcher, launchers, asked, most_jobs=MOST_JOBS, is_anew=False):
        """The programs of `launchers` are built. `asked` is how many processors are used, and 0 stands for all.

        One crate gets at most `most_jobs` jobs; where all is done anew, nothing counts as proved.
        """
        self.launcher, self.launchers, self.most_jobs, self.is_anew = launcher, launchers, most_jobs, is_anew
        self.processors, self.memory = asked or processors(), free_memory()
        self.workshop = Workshop(CRATES / PROGRAMS[launchers[0]].crate / "out" / "build")
        # The moment at which the sources were read.
        self.kit, self.guard, self.moment = None, None, None
        self.crates, self.proved, self.waiting, self.at_work, self.killed = [], set(), [], [], []
        self.has_failed = False
        # By their names the processor seconds of the crates that were proved now.
        self.seconds = {}
        # When it began to prove, how long that may take, and what was told last, and when.
        self.began, self.expected, self.news, self.told = 0, 0, None, 0

    def answer(self):
        """Builds the programs, says where it does not come to its end, and returns the status."""
        say = self.launcher.say
        try:
            self.run()
        except Stopped as stopped:
            remove(self.workshop.folder)
            say("stopped: what is proved is kept, and the next start goes on with the rest")
            return 128 + stopped.args[0]
        except Failure as failure:
            say(failure)
            return NO_ANSWER
        except (OSError, subprocess.SubprocessError) as error:
            say(f"the build broke off: {error}; what is proved is kept: when this is mended, start again")
            return NO_ANSWER
        return 0

    def run(self):
        """Proves what is not proved yet, and notes that the programs suit their sources as they were when these were read."""
        self.crates = read_crates(self.launchers)
        lock(self.launcher, self.crates, PROGRAMS[self.launchers[0]].crate)
        remove(self.workshop.folder)
        try:
            self.workshop.logs.mkdir(parents=True)
            self.moment = time.time()
            self.kit = Kit()
            copy_sources(self.crates, self.workshop.sources, self.kit.version)
            self.prove_all()
        finally:
            remove(self.workshop.made)
            remove(self.workshop.sources)
        remove(self.workshop.folder)
        for it in self.crates:
            if it.program:
                it.date(self.moment)

    def prove_all(self):
        """Proves all. Where a crate fails it starts no other, and waits for those at work, so that these are kept."""
        self.waiting = sorted(self.unproved(), key=lambda it: -it.chain)
        self.proved = {*self.crates}.difference(self.waiting)
        if self.waiting:
            self.began, self.expected = time.monotonic(), self.forecast().seconds
            self.announce()
            self.guard = start_guard()
            try:
                while self.at_work or not self.has_failed and (self.waiting or self.killed):
                    self.start_provers()
                    self.tell()
                    self.launcher.wait(0.2)
                    self.look_at_provers()
            finally:
                os.killpg(self.guard.pid, signal.SIGKILL)
                for it in [self.guard, *(it.process for it in self.at_work)]:
                    it.wait()
            self.tell()
        if self.has_failed:
            raise Failure("what is proved is kept: when this is mended, start again")

    def unproved(self):
        """The programs that are not there as their sources are now, and what is not proved of the crates below them."""
        if self.is_anew:
            return self.crates
        programs = {it for it in self.crates if it.program and not it.is_proved() and not it.is_of_gate()}
        wanted = programs.union(*(it.below for it in programs))
        return [it for it in self.crates if it in wanted and not it.is_proved()]

    def forecast(self):
        at_work = {it.crate: (it.jobs, it.left()) for it in self.at_work}
        return Forecast([*self.waiting, *self.killed], at_work, self.processors)

    def seconds_left(self):
        """How long it may take still: as reckoned ahead, at the pace that this machine has had until now."""
        left = self.forecast().seconds
        had = time.monotonic() - self.began
        return left * (SECONDS_OF_PACE + had) / (SECONDS_OF_PACE + max(self.expected - left, 0))

    def announce(self):
        """Says what is to be done, with what and how long, and why it is done here."""
        say = self.launcher.say
        say(
            f"proving {len(self.waiting)} of {count_of(len(self.crates), 'crate')}, with"
            f" {count_of(self.processors, 'processor')} and {gigabytes(self.memory)} of free memory;"
            f" it takes about {count_of(minutes_of(self.expected), 'minute')}"
        )
        say("only what is proved is built, and it is proved on this machine, once: then the programs start at once")
        say("it may be stopped, and goes on from there. With --jobs N as first words it takes N processors")
        say("'./utm --build' builds all programs, utm, lab, live and carry, and runs none")
        self.warn()

    def warn(self):
        """Says where memory or disk may be too small."""
        most = max(it.memory(1) for it in self.waiting)
        if self.memory < most:
            self.launcher.say(f"that may be too little memory: one of the proofs may take {gigabytes(most)}")
        wanted = DISK_TO_WORK + DISK_OF_LINE * sum(it.lines for it in self.waiting)
        free = shutil.disk_usage(TOP).free
        if free < wanted:
            room = f"{gigabytes(free)} are free, and {gigabytes(wanted)} may be needed"
            self.launcher.say(f"the disk may be too small: {room}")

    def tell(self):
        """Says what is done, how long it took and may take, and what is at work, where that is news or was long ago."""
        now = time.monotonic()
        names = self.names_at_work()
        news = f"{len(self.proved)} of {count_of(len(self.crates), 'crate')} are proved", names
        if news != self.news or now - self.told > SECONDS_BETWEEN_REPORTS:
            self.news, self.told = news, now
            left = f", about {minutes_of(self.seconds_left())} left" if names and not self.has_failed else ""
            at_work = f"; at work: {names}" if names else ""
            so_far = count_of(int(now - self.began) // 60, "minute")
            self.launcher.say(f"{news[0]}, {so_far} so far{left}{at_work}")

    def names_at_work(self):
        return ", ".join(it.crate.name for it in self.at_work)

    def start_provers(self):
        """Starts what there is room for, the longest chain first. A crate that was killed starts again alone."""
        if self.has_failed or any(it.is_alone for it in self.at_work):
            return
        if self.killed:
            if not self.at_work:
                self.start(self.killed.pop(), 1, is_alone=True)
            return
        for crate in [it for it in self.waiting if it.below <= self.proved]:
            if len(self.at_work) >= self.processors:
                return
            jobs = next((it for it in range(self.jobs_for(crate), 0, -1) if self.has_room(crate, it)), None)
            if jobs is None:
                return
            self.waiting.remove(crate)
            self.start(crate, jobs)

    def start(self, crate, jobs, is_alone=False):
        self.at_work.append(Prover(self.kit, self.workshop, crate, jobs, self.guard.pid, is_alone))

    def jobs_for(self, crate):
        """The processors that it has by the forecast: one, and its part of those that the crates beside it leave idle.

        While it runs it gets no more. So one that can start while all are given is not kept waiting, but gets one job;
        and the last crates, one after another, get all.
        """
        if sum(it.jobs for it in self.at_work) >= self.processors:
            return 1
        return min(max(round(self.forecast().average[crate]), 1), self.most_jobs)

    def has_room(self, crate, jobs):
        """Whether memory is free for the crate. One job alone always has room."""
        if not self.at_work:
            return jobs == 1 or crate.memory(jobs) <= self.memory
        taken = sum(it.crate.memory(it.jobs) for it in self.at_work)
        return taken + crate.memory(jobs) <= self.memory and crate.memory(jobs) <= free_memory()

    def look_at_provers(self):
        """Takes what was made by those that have ended."""
        for prover in [it for it in self.at_work if it.has_ended()]:
            self.at_work.remove(prover)
            name = prover.crate.name
            if prover.is_done():
                prover.crate.keep(prover.made, self.moment)
                prover.log.unlink()
                self.proved.add(prover.crate)
                self.seconds[name] = prover.seconds
            elif prover.was_killed() and not prover.is_alone:
                self.launcher.say(f"{name} was ended, most likely for want of memory: it is tried once more, alone")
                self.killed.append(prover.crate)
            else:
                self.has_failed = True
                self.tell_failure(prover)
            remove(prover.made.parent)

    def tell_failure(self, prover):
        """Says what failed, why as far as it shows, and what goes on."""
        say = self.launcher.say
        lines = prover.log.read_text(errors="replace").splitlines()[-LINES_OF_LOG:]
        say("\n".join([f"{prover.crate.name} failed; the end of its log:", *lines]))
        say(f"the whole log is {prover.log}")
        free = shutil.disk_usage(TOP).free
        if prover.was_killed():
            say(f"it was ended twice, most likely for want of memory, of which {gigabytes(free_memory())} are free")
        elif free < DISK_TO_WORK:
            say(f"the disk has only {gigabytes(free)} free")
        if self.at_work:
            say(f"still at work, and waited for, so that it is kept: {self.names_at_work()}")


# The call


def lock(launcher, crates, program):
    """Waits until no other command works in the crates' folders, and keeps others out until this process ends.

    rt takes these locks too, and in this order, so that no two commands wait for one another. Where the program was built
    before, from other sources, it is said how to go on with that one.
    """
    for crate in sorted(crates, key=lambda it: os.path.realpath(CRATES / it.name)):
        folder = os.open(CRATES / crate.name, os.O_RDONLY)
        if not is_locked(folder):
            is_there = (CRATES / program / "out" / program).exists()
            before = f"; its sources are newer than crates/{program}/out/{program}, which can be called meanwhile" if is_there else ""
            launcher.say(f"another command is at work in crates/{crate.name}: waiting until it has ended{before}")
            while not is_locked(folder):
                launcher.wait(1)


def is_locked(folder):
    """Locks an open folder unless another process holds it; returns whether it did. Some file systems have no locks."""
    try:
        fcntl.flock(folder, fcntl.LOCK_EX | fcntl.LOCK_NB)
    except BlockingIOError:
        return False
    except OSError:
        pass
    return True


def become(launcher, words):
    """Becomes the launcher's program. Python ignores two signals, and the program would inherit that."""
    for it in (signal.SIGPIPE, signal.SIGXFSZ):
        signal.signal(it, signal.SIG_DFL)
    crate = PROGRAMS[launcher].crate
    os.execv(CRATES / crate / "out" / crate, [launcher, *words])


def main(name, asked, launchers, *words):
    launchers = launchers.split(",")
    status = Build(Launcher(name), launchers, int(asked)).answer()
    if status == 0 and words:
        become(launchers[0], words[1:])
    return status


if __name__ == "__main__":
    sys.exit(main(*sys.argv[1:]))
