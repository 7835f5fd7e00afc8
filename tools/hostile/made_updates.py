"""Made updates: KDCFILEs with made tables, and the texts that they are carried to. What `update` answers is said by the
reader in carrying.py, and so is what comes after it: the tables, a second update, a commit, and an update back; and for
some of them what each failing call and each stop leave."""

from carrying import UP_TO_DATE, carried, updated
from cases import Book, Broken
from kdcfile import LAST_CLOCK, table_lines
from made_files import begin, change_file
from made_tables import Made

TRIES = 12
STOPPED = 0.02  # of the updates are stopped, and their calls fail
MOST = {"attach": 2, "size": 200, "read": 200, "write": 60, "sync": 6}  # calls are fewer
MIXED = (3, 5, 7)  # choices by which some writes are left whole, others by half or not at all


def tick(tables):
    """The line of TICK 1, and the tables after it."""
    if tables.clock == LAST_CLOCK:
        return "TICK REFUSED", tables
    return f"TICK {tables.clock + 1}", tables._replace(clock=tables.clock + 1)


class Try:
    """A file that is carried to other texts, and the word of a call after it."""

    def __init__(self, random):
        made = Made(random)
        self.old, self.new, self.file = made.old, made.new, made.file
        self.answer = updated(self.file, self.new)
        self.word = random.choice((None, "gen", "run", "back", "back"))

    def ask(self, book):
        """The update, and what comes after it. The file of the case stays."""
        book.add(*self.new.texts())
        book.try_apart()
        book.call("update app", self.answer.status, self.answer.lines)
        tables = self.answer.tables
        if not tables:
            book.add("same")
            return
        self.look(book, tables)
        self.still(book, "update app", 0, [UP_TO_DATE])
        if self.word == "gen":
            self.still(book, "gen app", 0, self.new.generation.report())
        if self.word == "run":
            line, tables = tick(tables)
            book.takes(["TICK 1"])
            book.try_again()
            book.call("run app", 0, [line])
            self.look(book, tables)
        book.add(*self.old.texts())
        self.still(book, "show app", 4, [f"KDCFILE OTHER GENERATION {self.new.fingerprint.hex()}"])
        if self.word == "back":
            self.back(book, tables)

    def back(self, book, tables):
        """An update to the old texts."""
        answer = carried(tables, self.old)
        book.try_again()
        book.call("update app", answer.status, answer.lines)
        if answer.tables:
            self.look(book, answer.tables)
        else:
            book.add("same")

    def look(self, book, tables):
        self.still(book, "show app", 0, table_lines(tables))

    @staticmethod
    def still(book, words, status, lines):
        """A call that leaves the file as it is."""
        book.try_again()
        book.call(words, status, lines)
        book.add("same")

    def alone(self):
        book = Book()
        change_file(book, begin(book, "a made update"), self.file)
        self.ask(book)
        return book.lines


# ---- Failing calls and stops


class Doubt:
    """Two calls, after which one of several things may be answered."""

    def __init__(self, book, allowed):
        self.allowed = allowed  # lists of the status and the lines of each call
        first, second = (max(it, key=lambda answer: len(answer[1])) for it in zip(*allowed))
        self.calls = [book.call("show app", *first, 1)]
        book.try_again()
        self.calls.append(book.call("update app", *second, 1))

    def lines(self):
        """The numbers of the lines at which something was found in place of what was asked for."""
        return {it for call in self.calls for it in call.found if it != call.number}

    def wrong(self):
        answered = [(it.status, it.lines) for it in self.calls]
        if answered in self.allowed:
            return []
        return [f"* {self.calls[0].number}: {answered}", *[f"* not {it}" for it in self.allowed]]


class Stopped:
    """An update in which each call fails in turn, and which is stopped after each call."""

    def __init__(self, one):
        self.one = one
        self.answer = one.answer.status, one.answer.lines
        self.before = [one.new.shown(one.file)[:2], self.answer]  # what `show` and `update` answer
        self.after = self.before
        if one.answer.tables:
            self.after = [(0, table_lines(one.answer.tables)), (0, [UP_TO_DATE])]
        self.doubts = []

    def begin(self, book):
        change_file(book, begin(book, "an update that fails and is stopped"), self.one.file)
        book.add(*self.one.new.texts())

    def ask_counts(self, book):
        """How often each call is made."""
        self.begin(book)
        self.asked = {}
        for kind, most in MOST.items():
            book.try_failing(kind, 1, most)
            self.asked[kind] = book.call("update app", 5)

    def ask_tries(self, book):
        """Each failing call and each stop, with the tables and an update after it."""
        self.start = len(book.lines)
        try:
            self.counts = {kind: call.failing() - 1 for kind, call in self.asked.items()}
        except KeyError:
            raise Broken("there are more calls than were asked for") from None
        self.counts["emit"] = len(self.answer[1])
        self.begin(book)
        self.ask_faults(book)
        book.call("update app", *self.answer)
        if not self.one.answer.tables:
            book.add("same")
        self.ask_stops(book)
        self.end = len(book.lines)

    # ---- what is left by a failing call

    def ask_faults(self, book):
        writes, syncs = self.counts["write"], self.counts["sync"]
        book.try_failing("text", 1, 2)
        book.call("update app", 6)
        book.add("same")
        self.fault(book, "attach", 1, 1, self.before)
        for kind in ("size", "read"):
            self.fault(book, kind, 1, self.counts[kind], self.before)
        self.fault(book, "sync", 1, syncs - 1, self.before)
        if self.one.answer.tables:
            # The write of the selector may have been done. Where its sync fails, it is written.
            self.fault(book, "write", 1, writes - 1, self.before)
            self.fault(book, "write", writes, writes, None)
        else:
            book.try_failing("write", 1, 1)
            book.call("update app", *self.answer)
            book.add("same")
        self.fault(book, "sync", syncs, syncs, self.after)
        for number in range(1, self.counts["emit"] + 1):
            self.fault(book, "emit", number, number, self.after, self.answer[1][: number - 1])

    def fault(self, book, kind, first, last, left, lines=()):
        """Each of these calls fails, when so many lines were sent."""
        if 0 < first <= last:
            book.try_failing(kind, first, last)
            book.call("update app", 5, lines)
            book.try_again()
            self.left(book, left)

    # ---- what is left by a stop

    def ask_stops(self, book):
        """The last calls are a sync, the write of the selector, its sync, and the lines."""
        calls = sum(self.counts[it] for it in ("write", "sync", "emit"))
        synced = calls - self.counts["emit"]
        written = synced - 1
        if not self.one.answer.tables:
            self.stops(book, 0, calls, self.before)
            return
        self.stops(book, 0, written - 1, self.before)
        for choice, left in ((0, self.before), (1, self.after), (2, None), *[(it, None) for it in MIXED]):
            self.stop(book, written, choice, left)
        self.stops(book, synced, calls, self.after)

    def stops(self, book, first, last, left):
        """Stops after so many calls."""
        book.add(f"stops {first} {last}")
        self.left(book, left)

    def stop(self, book, calls, choice, left):
        book.try_over(calls, choice)
        self.left(book, left)

    def left(self, book, left):
        """What the next two calls answer: this, or where nothing is said, what is answered before or after."""
        if not left:
            self.doubts.append(Doubt(book, [self.before, self.after]))
            return
        shown, answer = left
        book.call("show app", *shown)
        book.add("same")
        book.try_again()
        book.call("update app", *answer)

    def differences(self, found, lines):
        """What is wrong, and the case."""
        asked = {line for it in self.doubts for line in it.lines()}
        wrong = [f"* {it}: {found[it]}" for it in found if self.start < it <= self.end + 1 and it not in asked]
        wrong += [line for it in self.doubts for line in it.wrong()]
        if wrong:
            yield wrong, lines[self.start : self.end]


class Batch:
    """Cases of several updates each, in one book; and those that fail and are stopped, in two further ones."""

    def __init__(self, random, count, first):
        self.book = Book()
        self.tries = []  # with the number of the line of the first call, where what the call before sent too is told
        self.stopped = []
        while len(self.tries) < count:
            self.case(random, min(TRIES, count - len(self.tries)))

    def case(self, random, count):
        tries = sorted((Try(random) for _ in range(count)), key=lambda it: len(it.file), reverse=True)
        before = begin(self.book, f"made updates from {len(self.tries) + 1}")
        for it in tries:
            change_file(self.book, before, it.file)
            calls = len(self.book.calls)
            it.ask(self.book)
            self.tries.append((self.book.calls[calls].number, it))
            before = it.file
        self.stopped += [Stopped(it) for it in tries if random.random() < STOPPED]

    def differences(self, program):
        """The case of each update that was answered otherwise, and of each that failed or was stopped otherwise."""
        found = self.book.tried(program)
        for (start, one), (end, _) in zip(self.tries, self.tries[1:] + [(len(self.book.lines) + 1, None)]):
            wrong = [f"* {it}: {found[it]}" for it in found if start < it <= end]
            if wrong:
                yield wrong, one.alone()
        counts, tries = Book(), Book()
        for it in self.stopped:
            it.ask_counts(counts)
        counts.tried(program)
        for it in self.stopped:
            it.ask_tries(tries)
        found = tries.tried(program)
        for it in self.stopped:
            yield from it.differences(found, tries.lines)
