"""Made disks: runs of the built program `utm` over two real files, in which each call of each half fails, once or from
there on, or both halves fail, or a call is cut short, or the program is killed; and what a stop after each call may leave
of both files, with each mixture of the writes that were not synced.

The runs are over an application of which this tool knows what it sends and stores. A run without faults says which calls
it makes, and it has to answer what copies.py says. What a stop may leave is put together from these calls by the rules of
the disk in docs/kdcfile.md; the reader in kdcfile.py says for which tables it stands. For some of them the program goes on.
"""

import itertools
import shutil
import subprocess
import tempfile
from collections import namedtuple
from pathlib import Path

import traced
from cases import TOP
from copies import FIRST, LETTER, SECOND, answered, copy_of, empty_tables, mended_lines, opened, rows_of
from kdcfile import LAST_CLOCK, NOT_A_KDCFILE, NoImage
from made_files import Application
from traced import Fault

PROGRAM = TOP / "crates/utm/out/utm"
DEFINITION = """MAX APPLINAME=DISKS,KDCFILE=(disks,DOUBLE),KB=8,SPAB=4000,NB=4000,GSSBS=9,PGPOOL={},BLKSIZE={}
PROGRAM ADD
TAC ADD,PROGRAM=ADD
PROGRAM KEEP
TAC KEEP,PROGRAM=KEEP
PROGRAM DROP
TAC DROP,PROGRAM=DROP
USER U1,RESTART=NO
LTERM L1
PTERM P1,LTERM=L1
END
"""
UNITS = b"""UNIT ADD
FIELD count SPAB 0 4
INIT
SGET GB 'CNT' count
ADD count 1
SPUT GB 'CNT' count
MPUT count
PEND FI
END
UNIT KEEP
FIELD text SPAB 0 4000
INIT
MGET text
SPUT GB 'TEXT' TRIM(text)
MPUT 'KEPT'
PEND FI
END
UNIT DROP
INIT
SREL GB 'TEXT'
MPUT KCRCCC
PEND FI
END
"""
SIZES = [(16, "2K"), (16, "4K"), (70, "2K"), (16, "8K")]
SIGN_ON = "IN P1 KDCSIGN U1"
WHOLE, ABSENT, HALF, OTHER = range(4)  # what a stop may leave of a write
MOST_MIXTURES = 40  # of one stop
FOLLOWED = 0.03  # of the stops the program goes on
BORDERS = (4096, 4097, 8192, 16384, 24576, 28672, 32768)  # where a part of a file begins
COUNTER, TEXT = (1, b"CNT"), (1, b"TEXT")

# A line that is sent, and whether a commit came before it.
Step = namedtuple("Step", "line commits tables")


# ---- What the application does


def rows_with(tables, key, content):
    """The tables with another row, or without it."""
    rows = {row[:2]: row for row in tables.rows}
    rows.pop(key, None)
    if content is not None:
        rows[key] = (*key, content)
    return tables._replace(rows=[rows[it] for it in sorted(rows)])


def steps_of(script, tables):
    """What a script sends, line by line, with the tables that are stored then."""
    text = ""
    for command in script:
        word, _, rest = command.partition(" ")
        if word == "TICK":
            commits = tables.clock + int(rest) <= LAST_CLOCK
            tables = tables._replace(clock=tables.clock + int(rest)) if commits else tables
            yield Step(f"TICK {tables.clock}" if commits else "TICK REFUSED", commits, tables)
        elif word == "RESTART":
            yield Step("RESTART", False, tables)
        elif command == SIGN_ON:
            yield Step("SYS P1 SIGNED ON U1", False, tables)
        elif word == "IN":
            text = rest[3:]
        elif text == "ADD":
            rows = {row[:2]: row[2] for row in tables.rows}
            content = b"%04d" % (int(rows.get(COUNTER, b"0")) + 1)
            tables = rows_with(tables, COUNTER, content)
            yield Step(f"OUT P1 {content.decode()}", True, tables)
        elif text == "DROP":
            there = any(row[:2] == TEXT for row in tables.rows)
            tables = rows_with(tables, TEXT, None)
            yield Step("OUT P1 000" if there else "OUT P1 K03", True, tables)
        else:
            tables = rows_with(tables, TEXT, text[5:].encode())
            yield Step("OUT P1 KEPT", True, tables)


def made_script(random, count):
    """Some commands; a user signs on where there is none."""
    script, signed = [], False
    for _ in range(count):
        word = random.choice(("TICK 1", "TICK 1", "TICK 0", "RESTART", "ADD", "ADD", "KEEP", "KEEP", "DROP"))
        if word[:4] in ("TICK", "REST"):
            script.append(word)
            signed = signed and word != "RESTART"
            continue
        if not signed:
            script.append(SIGN_ON)
            signed = True
        if word == "KEEP":
            word += " " + random.choice("ABC") * random.choice((1, 1, 40, 1999, 2001, 3900))
        script += [f"IN P1 {word}", "RUN 20"]
    return script


# ---- A folder with the texts and two files


class Folder:
    """A folder in which the program is called over two files."""

    def __init__(self, program):
        self.program = program
        memory = Path("/dev/shm")
        self.path = Path(tempfile.mkdtemp(prefix="kudzuspade-", dir=memory if memory.is_dir() else None))

    def remove(self):
        shutil.rmtree(self.path)

    def takes(self, application, script, files):
        (self.path / "app.def").write_bytes(application.definition)
        (self.path / "app.units").write_bytes(application.units)
        (self.path / "app.script").write_text("".join(it + "\n" for it in script))
        self.takes_files(files)

    def takes_files(self, files):
        for half, data in enumerate(files):
            (self.path / f"app.KDC{LETTER[half]}").write_bytes(data)

    def files(self):
        return tuple((self.path / f"app.KDC{it}").read_bytes() for it in LETTER)

    def traced(self, word, faults=()):
        return traced.run(self.program, [word, "app"], self.path, faults)

    def call(self, word):
        """A call without faults: its status and its lines."""
        done = subprocess.run([self.program, word, "app"], cwd=self.path, stdout=-1, stderr=-3)
        return done.returncode, done.stdout.decode().splitlines()


# ---- What a stop may leave


def damaged(random, before, at, data):
    """The bytes of a file after a write that a stop has met, of which anything may be there."""
    borders = [it - at for it in BORDERS if at < it < at + len(data)]
    middle = random.choice([random.randrange(len(data) + 1), *borders])
    how = random.choice((0, 1, 2, 2))
    left = data[:middle] + (bytes(len(data) - middle) if how == 0 else bytes(random.choices(range(256), k=len(data) - middle)))
    if how == 2:
        left = before[at : at + middle].ljust(middle, b"\0") + data[middle:]
    return left


def write_over(file, at, data):
    """The bytes of a file after a write."""
    file += bytes(max(0, at - len(file)))
    file[at : at + len(data)] = data


def image_left(random, synced, writes, choices):
    """The bytes of a half after a stop, by what is left of each write that was not synced."""
    file = bytearray(synced)
    for (at, data), choice in zip(writes, choices):
        if choice == HALF:
            write_over(file, at, data[: len(data) // 2])
        elif choice == OTHER:
            write_over(file, at, damaged(random, bytes(file), at, data))
        elif choice == WHOLE:
            write_over(file, at, data)
        elif choice != ABSENT:
            write_part(file, at, data, *choice)
    return bytes(file)


def write_part(file, at, data, border, front):
    """Writes the part before a border of the file, or the part behind it."""
    middle = max(border - at, 0)
    if front:
        write_over(file, at, data[:middle])
    else:
        write_over(file, at + middle, data[middle:])


def mixtures(random, writes):
    """What is left of these writes: each of them whole or absent in each mixture, and some with other bytes; and of a long
    one either part, where it is cut at a border."""
    count = len(writes)
    if not count:
        return [()]
    if count <= 4:
        found = list(itertools.product((WHOLE, ABSENT), repeat=count))
    else:
        found = [(WHOLE,) * count, (ABSENT,) * count]
        found += [tuple(random.choice((WHOLE, ABSENT)) for _ in range(count)) for _ in range(12)]
    found += [tuple(random.choice((WHOLE, ABSENT, HALF, OTHER, OTHER)) for _ in range(count)) for _ in range(8)]
    for place, (_, data) in enumerate(writes):
        if len(data) > 8192:
            parts = itertools.product(BORDERS, (True, False))
            found += [(WHOLE,) * place + (it,) + (WHOLE,) * (count - place - 1) for it in parts]
    return found[:MOST_MIXTURES]


class Disk:
    """A half as its calls leave it: what is synced, and the writes that are not."""

    def __init__(self, data):
        self.synced = data
        self.writes = []

    def takes(self, event):
        if event.kind == "write":
            self.writes.append((event.at, event.data))
        else:
            self.synced = self.now()
            self.writes = []

    def now(self):
        return image_left(None, self.synced, self.writes, [WHOLE] * len(self.writes))


# ---- A scenario


class Scenario:
    """Files, a word and a script, and all that is tried of them."""

    def __init__(self, random, number):
        self.random = random
        self.number = number
        self.application = Application(DEFINITION.format(*random.choice(SIZES)).encode(), UNITS)
        self.word = random.choice(("run",) * 9 + ("gen", "show"))
        self.script = made_script(random, random.choice((0, 1, 1, 2, 2, 3)))
        self.tries = 0
        self.wrong = []

    # ---- the files at the start

    def starts(self, folder):
        """Two files that the program has made, and what may have become of them. An older state of both is kept."""
        random = self.random
        folder.takes(self.application, made_script(random, random.choice((0, 1, 2))), (b"", b""))
        self.expects(folder.call("run")[0] == 0, "the first run")
        older = folder.files()
        how = random.choice("both both A A A A B empty emptyA emptyB shutA shutB kA cut half half apart".split())
        # After two commits the older root names pages that have a newer content.
        script = ["TICK 1"] * 2 if random.random() < 0.5 else made_script(random, random.choice((1, 2, 4)))
        folder.takes(self.application, script, older)
        self.expects(folder.call("run")[0] == 0, "the second run")
        now = folder.files()
        files = {"A": (older[0], now[1]), "B": (now[0], older[1]), "empty": (b"", b""), "emptyA": (b"", now[1])}
        files |= {"emptyB": (now[0], b""), "shutA": (b"\0" + now[0][1:], now[1]), "shutB": (now[0], b"\0" + older[1][1:])}
        files |= {"kA": (b"k" + older[0][1:], now[1]), "cut": (now[0], now[1][:24576]), "both": now}
        half = random.randrange(1, len(now[0]))
        files["half"] = now[0], b"\0" + now[0][1:half] + older[1][half:]
        if how == "apart":
            commits = sum(it.commits for it in steps_of(script, empty_tables(self.application)))
            folder.takes(self.application, ["TICK 9"] * commits, older)
            folder.call("run")
            files["apart"] = now[0], folder.files()[1]
        self.how = how
        self.files = files[how]

    # ---- the run without faults

    def begins(self, folder):
        self.starts(folder)
        self.state = opened(self.files, self.application)
        self.expects(not self.state.refused, "the files at the start")
        if self.wrong:
            return
        self.steps = list(steps_of(self.script, self.state.tables)) if self.word == "run" else []
        self.first = mended_lines(self.state) if self.word != "show" else []
        said = [it.line for it in self.steps]
        if self.word != "run":
            said = answered(self.files, self.state, self.application, self.word).lines[len(self.first) :]
        self.said = said
        # The tables after each commit.
        self.tables = [self.state.tables] + [it.tables for it in self.steps if it.commits]
        folder.takes(self.application, self.script, self.files)
        self.run = folder.traced(self.word)
        self.left = folder.files()
        self.calls = self.run.asked
        lines = self.run.sent.decode().splitlines()
        self.expects((self.run.status, lines) == (0, self.first + said), f"answered {self.run.status} {lines}")
        self.judge_end(self.left, None, f"{self.word} without a fault")
        self.judge_calls()

    def judge_calls(self):
        """The files are what the calls that were seen have made of them."""
        disks = [Disk(it) for it in self.files]
        for event in self.run.events:
            if event.half is not None:
                disks[event.half].takes(event)
        self.expects(tuple(it.now() for it in disks) == self.left, "the files are not what was written")

    def expects(self, holds, said):
        if not holds:
            self.wrong.append(f"* {said}")

    # ---- what files stand for

    def stands_for(self, file):
        """The number of a copy and the tables that it stands for; none where it is no copy."""
        copy = copy_of(file)
        if not copy:
            return None
        try:
            return copy.sequence, rows_of(copy.image)
        except NoImage:
            return copy.sequence, None

    def judge_end(self, files, lost, said):
        """The files at status 0: each half that is not lost has the last tables, and a lost one does not count."""
        if self.word == "show":
            self.expects(files == self.files, f"{said}: the files have changed")
            return
        wanted = self.state.sequence + len(self.tables) - 1, self.tables[-1]
        for half in (FIRST, SECOND):
            if half != lost:
                self.expects(self.stands_for(files[half]) == wanted, f"{said}: {LETTER[half]} has not the last tables")
        if lost is not None:
            state = opened(files, self.application)
            self.expects((state.sequence, state.tables) == wanted, f"{said}: the lost half counts")
        elif self.state.behind is not None and len(self.tables) == 1:
            answer = answered(self.files, self.state, self.application, self.word)
            self.expects(files == answer.files, f"{said}: other bytes")

    def allowed(self, sent):
        """The numbers of the commits that may be the last one where so many lines of the run were sent."""
        done = sum(it.commits for it in self.steps[:sent])
        return range(done, min(done + 1, len(self.tables) - 1) + 1)

    def judge_cut(self, files, sent, alone, said):
        """The files where the run has ended within: they are a cut. `alone` are the halves that have to be copies by
        themselves."""
        allowed = [(self.state.sequence + it, self.tables[it]) for it in self.allowed(sent)]
        state = opened(files, self.application)
        if self.state.chosen is None and not alone and state.refused == NOT_A_KDCFILE:
            return
        found = state.sequence, state.tables
        self.expects(found in allowed, f"{said}: they stand for {state.refused or found}")
        for half in alone:
            self.expects(self.stands_for(files[half]) in allowed, f"{said}: {LETTER[half]} is no such copy by itself")

    def sent_of(self, lines):
        """How many lines of the run are among those sent, which have to be a front of them."""
        first = self.first if lines[: len(self.first)] == self.first else []
        rest = lines[len(first) :]
        if rest and rest[-1][:5] == "COPY ":
            rest = rest[:-1]
        self.expects(rest == self.said[: len(rest)], f"sent {lines}")
        return len(rest)

    # ---- stops

    def stops(self, folder):
        """What a stop after each call may leave. Where a line is under way, it may have been sent or not."""
        disks, sent = [Disk(it) for it in self.files], b""
        for number, event in enumerate([None, *self.run.events]):
            if event and event.half is None:
                sent += event.data
            elif event:
                disks[event.half].takes(event)
            self.stop(folder, number, disks, sent)

    def stop(self, folder, number, disks, sent):
        writes = [len(it.writes) for it in disks]
        lines = sent.decode().split("\n")[:-1]
        for choices in mixtures(self.random, [write for it in disks for write in it.writes]):
            parts = choices[: writes[0]], choices[writes[0] :]
            files = tuple(image_left(self.random, it.synced, it.writes, part) for it, part in zip(disks, parts))
            self.tries += 1
            said = f"{self.title()}, stop after call {number}, {choices}"
            before = len(self.wrong)
            if self.word == "show":
                self.expects(files == self.files, f"{said}: changed")
            else:
                alone = (FIRST, SECOND) if lines else ()
                self.judge_cut(files, max(0, len(lines) - len(self.first)), alone, said)
            if len(self.wrong) == before and self.random.random() < FOLLOWED:
                self.goes_on(folder, files, said)

    def goes_on(self, folder, files, said):
        """The next call over what was left."""
        folder.takes(self.application, [], files)
        state = opened(files, self.application)
        for word in ("show", "run", "run"):
            answer = answered(files, state, self.application, word)
            found = folder.call(word)
            self.expects(found == (answer.status, answer.lines), f"{said}: {word} then answers {found}, not {answer[:2]}")
            left = folder.files()
            for half, data in enumerate(answer.files):
                self.expects(data is None or left[half] == data, f"{said}: {word} then leaves other bytes of {LETTER[half]}")
            files, state = left, answer.opened

    # ---- faults

    def faults(self, folder):
        """Each call of each half, and what may happen at it."""
        for half in (FIRST, SECOND):
            for number in range(1, self.calls[half] + 1):
                for always in self.random.choice(((False,), (True,), (False, True))):
                    self.fault(folder, [Fault(half, number, always, "fail")])
                if self.random.random() < 0.3:
                    self.fault_of_both(folder, half, number)
                if self.random.random() < 0.2:
                    self.killed(folder, half, number)
        self.fault_short(folder)

    def title(self):
        script = [it[:20] for it in self.script]
        return f"{self.number} {self.word} {script} over {self.how} files"

    def asked(self, folder, faults):
        folder.takes(self.application, self.script, self.files)
        run = folder.traced(self.word, faults)
        return run, run.sent.decode().splitlines(), folder.files()

    def fault(self, folder, faults):
        """One half fails: the run goes on without it, or it ends before anything was sent."""
        half = faults[0].half
        self.tries += 1
        run, lines, files = self.asked(folder, faults)
        said = f"{self.title()}, {faults}: {run.status} {lines}"
        lost = f"COPY {LETTER[half]} LOST"
        before = len(self.wrong)
        if run.status == 5:
            self.expects(not lines and not self.has_begun(run, half), f"{said}: it does not go on")
            self.judge_cut(files, 0, (), said)
            if self.state.chosen is not None:
                self.expects(files[self.state.chosen] == self.files[self.state.chosen], f"{said}: what counts has changed")
        elif self.word == "show" or lines[-1:] != [lost]:
            self.expects(False, f"{said}: nothing is told of the fault")
        else:
            rest = lines[:-1]
            mends = self.first if rest[: len(self.first)] == self.first else []
            if half != self.state.behind and mends != self.first:
                self.expects(False, f"{said}: nothing is told of what was mended")
            self.expects((run.status, rest) == (0, mends + self.said), f"{said}: other lines")
            self.judge_end(files, half, said)
        if len(self.wrong) == before:
            self.goes_on(folder, files, said)

    def has_begun(self, run, half):
        """Whether the opening and the mending had ended before the fault."""
        writes = [it.half for it in run.events if it.kind == "write"]
        if self.state.chosen is None:
            return False
        if self.state.behind is None:
            return bool(writes)
        return self.state.chosen in writes or half == self.state.behind and half in writes

    def fault_of_both(self, folder, half, number):
        """Both halves fail from somewhere on: the run ends, and what it sent and left is a cut."""
        other = self.random.randint(1, self.calls[1 - half])
        self.tries += 1
        faults = [Fault(half, number, True, "fail"), Fault(1 - half, other, True, "fail")]
        run, lines, files = self.asked(folder, faults)
        said = f"{self.title()}, {faults}: {run.status} {lines}"
        if run.status == 0:  # it was done before one of them failed
            self.sent_of(lines)
            self.expects(lines[-1:] in ([f"COPY {it} LOST"] for it in LETTER), f"{said}: nothing is told of the fault")
            return
        self.expects(run.status == 5, f"{said}: another status")
        sent = self.sent_of(lines)
        if self.word != "show":
            self.judge_cut(files, sent, (), said)

    def killed(self, folder, half, number):
        """The program is killed at this call: the files are what the calls before have made of them, and a cut."""
        self.tries += 1
        run, lines, files = self.asked(folder, [Fault(half, number, False, "kill")])
        said = f"{self.title()}, killed at call {number} of {LETTER[half]}: {lines}"
        disks = [Disk(it) for it in self.files]
        for event in run.events:
            if event.half is not None:
                disks[event.half].takes(event)
        before = len(self.wrong)
        self.expects(files == tuple(it.now() for it in disks), f"{said}: the files are not what was written")
        if self.word != "show":
            self.judge_cut(files, self.sent_of(lines), (FIRST, SECOND) if lines else (), said)
        if len(self.wrong) == before:
            self.goes_on(folder, files, said)

    def fault_short(self, folder):
        """Calls that do a half of what they are asked for are no faults."""
        self.tries += 1
        run, lines, files = self.asked(folder, [Fault(it, 1, True, "short") for it in (FIRST, SECOND)])
        said = f"{self.title()}, calls are cut short: {run.status} {lines}"
        self.expects((run.status, lines) == (0, self.first + self.said), said)
        self.expects(files == self.left, f"{said}: other bytes")


def why_not():
    """Why none of these can be tried here, or nothing."""
    return None if traced.is_possible() else "calls of the system cannot be looked at here"


class Batch:
    """As many scenarios as there have to be tries."""

    def __init__(self, random, count, first):
        self.random, self.count = random, count
        self.tries = []

    def differences(self, program):
        folder = Folder(program)
        try:
            while len(self.tries) < self.count:
                one = Scenario(self.random, len(self.tries))
                one.begins(folder)
                if not one.wrong:
                    one.stops(folder)
                    one.faults(folder)
                self.tries += [None] * max(one.tries, len(one.wrong[:20]), 1)
                for wrong in one.wrong[:20]:
                    yield [wrong], []
        finally:
            folder.remove()
