"""Made pairs: two files of one application, made apart, each of which may be ahead, behind, alike but for its places, of
other content with the same number, of another generation, torn, shut, cut, empty or no copy. What calls over them answer,
and what is in both files then, is said by the reader in copies.py; and so it is where a call on one half fails, or on both."""

from random import Random

from cases import NEVER, Book, text_lines, written
from copies import FIRST, LAST_SEQUENCE, LETTER, SECOND, SEQUENCE, answered, opened
from kdcfile import LAST_CLOCK, PAGES_AT, ROOTS, fresh
from made_files import DEFINITION, ROOM, ROOMY, SIZES, UNITS, Application, File, Rows
from made_files import begin, changed, differences, finish, made_pages, put_directory, put_record, put_records, put_root

DOUBLE = DEFINITION.replace("APPLINAME=FILES", "APPLINAME=PAIRS,KDCFILE=(pairs,DOUBLE)")
FRAME = Application(b"MAX APPLINAME=FRAME,PGPOOL=16,BLKSIZE=2K,KDCFILE=(frame,DOUBLE)\nUSER U\nEND\n", b"")
BEFORE = ("", "second ")  # the words before a line about a half

# What is called one after another, each over what the call before left.
PLANS = [
    [("show", ()), ("gen", ()), ("run", ())],
    [("gen", ()), ("show", ())],
    [("run", ()), ("run", ()), ("show", ())],
    [("run", ("TICK 1",)), ("show", ()), ("run", ())],
    [("run", ("TICK 1", "RESTART", "TICK 2")), ("show", ()), ("run", ()), ("trail", ("TICK 0",))],
    [("run", ("RESTART",)), ("show", ())],
    [("trail", ("TICK 1", "RESTART", "TICK 2")), ("run", ())],
    [("update", ()), ("show", ())],
]
FAILING = 0.3  # of the pairs that are accepted have a call that fails
STOPPED = 0.01  # of the pairs each call fails, and each is stopped


# ---- A pair


def sequence_bytes(number):
    return number.to_bytes(8, "big")


def made_copy(random, application, records, sequence, numbers, fingerprint):
    """A file with these records, and the record of its number; a `sequence` of none has no such record."""
    pgpool = application.generation.max[b"PGPOOL"] + (sequence is not None)
    file = made_pages(random, application.generation.blksize, pgpool)
    slots = put_directory(random, file, pgpool)
    own = [] if sequence is None else [sequence]
    put_records(file, own + records, slots)
    put_root(file, file.root, fingerprint, *numbers, pgpool)
    if random.random() < 0.3:
        put_root(file, sum(ROOTS) - file.root, fingerprint, 3, 12, pgpool)
    finish(random, file)
    return file


class Pair:
    """An application, and two files."""

    def __init__(self, random):
        self.random = random
        self.application = random.choice(applications())
        seed = random.random()
        plain = Rows(Random(seed), self.application.generation)
        self.contents = [plain.records(), self.rows(0).records(), self.rows(random.randint(1, plain.places)).records()]
        self.number = random.choice((0, 1, 5, 254, 255, 2**32 - 1, LAST_SEQUENCE - 2, LAST_SEQUENCE - 1, 2**64 - 3))
        self.clocks = [random.choice((0, 7, LAST_CLOCK - 1, LAST_CLOCK)) for _ in "12"]
        self.files = self.made_files()
        self.state = opened(self.files, self.application)

    def rows(self, slip):
        return Rows(self.random, self.application.generation, slip)

    def sequence(self):
        """The record of a number; seldom none, another one, or one that is not as it has to be."""
        random = self.random
        number = sequence_bytes(self.number + random.choice((0, 0, 0, 1, 1, 2)))
        if random.random() > 0.06:
            return SEQUENCE, number
        slips = [None, (SEQUENCE, number[1:]), (SEQUENCE, number + b"\0"), (SEQUENCE[:-1] + b"\1", number)]
        return random.choice([*slips, (b"\x08" + SEQUENCE[1:], number)])

    def made(self):
        random = self.random
        records = random.choice((self.contents[0],) * 10 + (self.contents[1],) * 4 + (self.contents[2],))
        fingerprint = self.application.fingerprint
        if random.random() < 0.05:
            fingerprint = FRAME.fingerprint
        numbers = self.clocks[random.random() < 0.3], 10 + (random.random() < 0.05)
        return made_copy(random, self.application, records, self.sequence(), numbers, fingerprint)

    def made_files(self):
        """Two files, of which one may be that of the other one in other places, or as it was while it was written anew."""
        random = self.random
        first, second = self.made(), self.made()
        how = random.random()
        if how < 0.12:
            second = first
        elif how < 0.2:
            first = second
        files = [self.harmed(it) for it in (first, second)]
        if random.random() < 0.08:
            self.half_mended(files)
        return tuple(files)

    def harmed(self, file):
        """The bytes of a file, which may be torn, shut, cut or gone."""
        random = self.random
        how = random.random()
        if how < 0.7:
            return bytes(file.data[:ROOM])
        if how < 0.84:
            return changed(random, file, (1, 1, 1, 2))
        data = bytes(file.data[:ROOM])
        if how < 0.91:
            return random.choice((b"\0", b"\0", b"k", b"\xff")) + data[1:]
        return data[: random.choice((0, 0, 0, 1, 4096, 24576, random.randrange(len(data))))]

    def half_mended(self, files):
        """One of them has a front of the other one, with the gate shut or, where the disk did so, open."""
        at = self.random.choice((FIRST, SECOND))
        good, old = files[1 - at], files[at]
        front = self.random.randrange(1, len(good) + 1) if good else 0
        data = good[:front] + old[front:]
        if data:
            files[at] = self.random.choice((b"\0", b"\0", b"K")) + data[1:]


def applications(made=[]):
    """One for each of the sizes."""
    if not made:
        made += [Application(DOUBLE.format(*sizes).encode(), UNITS) for sizes in SIZES]
    return made


# ---- The files of a case


def frame():
    """A copy with room for every made file, by which the second file of a case is made as long as the first one."""
    file = File(bytearray(ROOMY.fresh()), 2048, ROOTS[0], 35, 34)
    file.directory = [0]
    put_record(file, SEQUENCE, sequence_bytes(5), PAGES_AT, [1])
    put_root(file, file.root, FRAME.fingerprint, 0, 1, 17)
    return bytes(file.data)


def change_half(book, half, before, file):
    """Changes a file of the case into this one, which is not longer."""
    for at, data in differences(before, file):
        book.add(f"{BEFORE[half]}put {at} {written(data)}")
    if len(file) < len(before):
        book.add(f"{BEFORE[half]}cut {len(file)}")


def begin_pair(book, title):
    """A case with two files that have room; their bytes are returned."""
    before, both = begin(book, title), frame()
    change_half(book, FIRST, before, both)
    book.add(*FRAME.texts())
    book.call("run app", 0, ["COPY B MENDED"])
    return both, both


# ---- Its calls


class Try:
    """A pair, and the calls over it."""

    def __init__(self, random):
        pair = Pair(random)
        self.application, self.files, self.state = pair.application, pair.files, pair.state
        self.plan = random.choice(PLANS)
        self.seed = random.random()
        whole = not self.state.refused and self.state.chosen is not None
        self.fault = random.choice(FAULTS) if whole and random.random() < FAILING else None
        self.half = random.choice((FIRST, SECOND))

    def ask(self, book):
        """The calls, or those of which one fails. The files of the case stay."""
        book.add(*self.application.texts())
        if self.fault:
            self.fault(self, book)
            return
        files, state = self.files, self.state
        for place, (word, script) in enumerate(self.plan):
            if word in ("run", "trail"):
                book.takes(list(script))
            if place:
                book.try_again()
            else:
                book.try_apart()
            before = files
            answer = answered(files, state, self.application, word, script)
            book.call(f"{word} app", answer.status, answer.lines)
            files, state = answer.files, answer.opened
            self.look(book, before, files, word)

    def look(self, book, before, files, word):
        """What is in the files. Where their bytes are not promised, a call that changes nothing leaves them as they are."""
        for half, (old, new) in enumerate(zip(before, files)):
            if old == new and (new is not None or word != "run"):
                book.add(f"{BEFORE[half]}same")
            elif new is not None:
                book.add(f"{BEFORE[half]}length {len(new)}")
                book.add(*[f"{BEFORE[half]}holds {at} {written(data)}" for at, data in self.parts(old, new)])

    def parts(self, old, new):
        """The parts of a file in which it was to be changed, and a few others."""
        random = Random(self.seed)
        if old is not None:
            yield from differences(old.ljust(len(new), b"\0"), new)
        for _ in range(4):
            at = random.randrange(len(new))
            yield at, new[at : at + 40]

    # ---- calls that fail

    def fails(self, half, kind, number=1):
        return f"{BEFORE[half]}fails {kind} {number} {number}"

    def before_a_line(self, book):
        """A call fails while the files are opened: nothing is sent, and they stay."""
        kind = ("attach", "size", "sync", "read")[int(self.seed * (4 if self.files[self.half] else 3))]
        word = Random(self.seed).choice(("gen", "run", "show", "trail"))
        book.takes(["TICK 1"])
        book.add(self.fails(self.half, kind))
        book.at = f"{kind} 1"
        book.call(f"{word} app", 5)
        book.add("same", "second same")

    def lost(self, book):
        """The first write of a half fails, as it is written anew or in the first commit: the run goes on without it."""
        half, state = self.half, self.state
        after = answered(self.files, state, self.application, "run", ("TICK 1", "TICK 1"))
        lines = list(after.lines)
        if state.behind == half:
            lines = lines[1:]
        lost = state.behind == half or after.opened.sequence > state.sequence
        if lost:
            lines.append(f"COPY {LETTER[half]} LOST")
        book.takes(["TICK 1", "TICK 1"])
        book.add(self.fails(half, "write"))
        book.at = "write 1"
        book.call("run app", 0, lines)
        book.takes([])
        book.try_again()
        if after.opened.refused:
            book.call("run app", 4, [after.opened.refused])
            return
        book.call("run app", 0, [f"COPY {LETTER[half]} MENDED"] * lost)
        for word, lines in (("run", []), ("show", answered(None, after.opened, self.application, "show").lines)):
            book.try_again()
            book.call(f"{word} app", 0, lines)
            book.add("same", "second same")

    def both_lost(self, book):
        """A write of each half fails before a line: the run ends, and the tables are those from before."""
        state = self.state
        commits = state.tables.clock < LAST_CLOCK
        most = 1 if state.behind is None else 4  # the write of the half that is written anew, or that of its first commit
        book.takes(["TICK 1"])
        book.add(*[f"{BEFORE[1 - self.half]}fail write {it}" for it in range(1, most + 1)])
        book.add(self.fails(self.half, "write"))
        book.at = "write 1"
        if state.behind is None:
            book.call("run app", *((5, []) if commits else (0, ["TICK REFUSED"])))
        elif commits:
            lost = 5, []
            book.call("run app", *lost)
        else:
            book.call("run app", 0, ["TICK REFUSED", f"COPY {LETTER[state.behind]} LOST"])
        book.try_again()
        book.call("show app", 0, answered(None, state, self.application, "show").lines)
        book.add("same", "second same")

    def alone(self):
        book = Book()
        self.begin(book)
        self.ask(book)
        return book.lines

    def begin(self, book):
        before = begin_pair(book, "a made pair")
        for half in (FIRST, SECOND):
            change_half(book, half, before[half], self.files[half])


FAULTS = (Try.before_a_line, Try.lost, Try.lost, Try.both_lost)


# ---- Each failing call, and each stop

CALLS = {"attach": 2, "size": 12, "read": 14, "write": 14, "sync": 12}  # numbers of calls of each half that fail
STOPS = 46  # stops that are asked for, of which there may be fewer
CHOICES = (0, 1, 2, 3, 5, 6, 7)
NO_STOP = "there is no such stop"
TICKS = ["TICK 1", "TICK 1"]


class Stopped:
    """A run of two ticks over a pair, in which each call of each half fails in turn, and which is stopped after each call
    with several mixtures of what was not synced."""

    def __init__(self, one):
        self.one = one
        self.answer = answered(one.files, one.state, one.application, "run", TICKS)
        self.first = self.answer.lines[:-2]
        self.asked = []

    def ask(self, book):
        self.start = len(book.lines)
        self.one.begin(book)
        book.add(*self.one.application.texts())
        for half in (FIRST, SECOND):
            for kind, most in CALLS.items():
                for number in range(1, most + 1):
                    self.ask_fault(book, half, kind, number)
        book.takes(TICKS)
        book.call("run app", 0, self.answer.lines)
        book.takes([])
        for stop in range(STOPS):
            for choice in CHOICES:
                book.add(f"stop {stop} {choice}")
                book.at = f"stop {stop} {choice}"
                self.ask_after(book, None, half, f"stop {stop} {choice}")
        self.end = len(book.lines)

    def ask_fault(self, book, half, kind, number):
        book.takes(TICKS)
        book.add(f"{BEFORE[half]}fails {kind} {number} {number}")
        book.at = f"{BEFORE[half]}{kind} {number}"
        fault = book.call("run app", 0, [*self.answer.lines, f"COPY {LETTER[half]} LOST"], 1)
        book.takes([])
        book.try_again()
        self.ask_after(book, fault, half, f"{BEFORE[half]}{kind} {number}")

    def ask_after(self, book, fault, half, said):
        """The next two runs, and the tables. The script is empty."""
        clock = self.one.state.tables.clock
        tables = answered(None, self.answer.opened, self.one.application, "show").lines
        run = book.call("run app", 0, ["COPY B MENDED"], 1)
        book.try_again()
        show = book.call("show app", 0, tables)
        book.try_again()
        again = book.call("run app", 0)
        self.asked.append((fault, half, run, show, again, said, tables[1:], clock))

    def wrong_of(self, fault, half, run, show, again, said, rest, clock):
        mends = [[], ["COPY A MENDED"], ["COPY B MENDED"]]
        clocks = (clock, clock + 1, clock + 2)
        if fault:
            lost = [f"COPY {LETTER[half]} LOST"]
            ticks = self.answer.lines[-2:]
            went = [self.first + ticks + lost, self.first + ticks] + [ticks + lost] * (self.one.state.behind == half)
            answer = fault.status, fault.lines
            if answer not in [(0, it) for it in went] + [(5, [])]:
                yield f"* {said}: {answer}"
            clocks = (clock, clock + 1) if fault.status == 5 else (clock + 2,)
        if (run.status, show.status, again.status) != (0, 0, 0) or run.lines not in mends or again.found:
            yield f"* {said}, then: {run.status} {run.lines}, {show.status}, {again.status} {again.found}"
        if show.lines[:1] not in [[f"CLOCK {it}"] for it in clocks] or show.lines[1:] != rest:
            yield f"* {said}, then: {show.lines}, not with {clocks}"

    def differences(self, found, lines):
        wrong = []
        for one in self.asked:
            if found.get(one[2].number) == NO_STOP:
                break
            wrong += self.wrong_of(*one)
        if wrong:
            yield wrong[:30], lines[self.start : self.end][:4000]


class Batch:
    """Cases of several pairs each, in one book: no file becomes longer in a case."""

    def __init__(self, random, count, first):
        self.book = Book()
        tries = sorted((Try(random) for _ in range(count)), key=lambda it: [len(file) for file in it.files], reverse=True)
        self.tries = []  # with the number of the line of the first call
        may = [it for it in tries if it.state.chosen is not None and not it.state.refused]
        small = [it for it in may if it.state.tables.clock < LAST_CLOCK - 1 and it.state.sequence < LAST_SEQUENCE - 1]
        self.stopped = [Stopped(it) for it in small if random.random() < STOPPED]
        before = (b"", b"")
        for it in tries:
            if len(it.files[FIRST]) > len(before[FIRST]) or len(it.files[SECOND]) > len(before[SECOND]):
                before = begin_pair(self.book, f"made pairs from {len(self.tries) + 1}")
            for half in (FIRST, SECOND):
                change_half(self.book, half, before[half], it.files[half])
            before = it.files
            calls = len(self.book.calls)
            it.ask(self.book)
            self.tries.append((self.book.calls[calls].number, it))

    def differences(self, program):
        """The case of each pair that was answered otherwise."""
        found = self.book.tried(program)
        for (start, one), (end, _) in zip(self.tries, self.tries[1:] + [(len(self.book.lines) + 1, None)]):
            wrong = [f"* {it}: {found[it]}" for it in found if start < it <= end]
            if wrong:
                yield wrong, one.alone()
        book = Book()
        for it in self.stopped:
            it.ask(book)
        found = book.tried(program) if self.stopped else {}
        for it in self.stopped:
            yield from it.differences(found, book.lines)
