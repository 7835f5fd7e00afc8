"""Made KDCFILEs: files whose rows suit, files whose rows suit but for one slip, and the same with bytes, slots, chains,
roots, lengths and the selector changed, cut or grown. What `show` answers is said by the reader in kdcfile.py."""

import hashlib
from dataclasses import dataclass, field, replace
from random import Random

from cases import Book, text_lines, written
from definition import generation_of
from kdcfile import LAST, LAST_CLOCK, LAST_DUE, MARK, PAGES_AT, ROOTS
from kdcfile import charge, directory_pages, fresh, key_of, listed, shown, u32

TRIES = 12
UNITS = b"UNIT X\nINIT\nPEND ER\nEND\n"
DEFINITION = """MAX APPLINAME=FILES,KB=4,SPAB=8,NB={},GSSBS=4,LSSBS=2,PGPOOL={},BLKSIZE={}
PROGRAM X
TAC D1,PROGRAM=X
TAC D2,PROGRAM=X,CALL=NEXT,STATUS=OFF
TAC A1,PROGRAM=X,TYPE=A
TAC A2,PROGRAM=X,TYPE=A,CALL=NEXT
TAC A3,PROGRAM=X,TYPE=A,STATUS=OFF
TAC A4,PROGRAM=X,TYPE=A,CALL=FIRST
USER U1
USER U2,RESTART=NO
USER U3,RESTART=YES
LTERM L1
LTERM L2
LTERM L3,USAGE=O
PTERM P1,LTERM=L1
TLS T1
TLS T2
ULS S1
END
"""
SIZES = [(20, 16, "2K"), (20, 70, "2K"), (32700, 70, "2K"), (20, 16, "4K"), (5000, 300, "4K"), (20, 16, "8K")]


def fingerprint_of(definition, units):
    return hashlib.sha256(len(definition).to_bytes(8, "big") + definition + units).digest()


class Application:
    """A definition and its units, and what a file has of them."""

    def __init__(self, definition, units):
        self.definition = definition
        self.units = units
        self.generation = generation_of(definition)
        self.fingerprint = fingerprint_of(definition, units)

    def texts(self):
        """The lines of a case with its texts."""
        return ["file app.def", *text_lines(self.definition), "file app.units", *text_lines(self.units)]

    def fresh(self):
        return fresh(self.generation, self.fingerprint)

    def shown(self, file):
        return shown(file, self.generation, self.fingerprint)


# No line of a case makes a file longer: each file is put into the fresh one of this application, which has 35 pages.
ROOMY = Application(b"MAX APPLINAME=ROOMY,PGPOOL=2240,BLKSIZE=2K\nUSER U\nEND\n", b"")
ROOM = PAGES_AT + 35 * 2048


# ---- Made rows


class Rows:
    """Rows that suit a generation, but for one thing where there is to be a slip."""

    def __init__(self, random, generation, slip=0):
        self.random = random
        self.generation = generation
        self.wanted_slip = slip
        self.places = 0  # where something could slip, up to here

    def slip(self):
        self.places += 1
        return self.places == self.wanted_slip

    def one_of(self, right, wrong):
        return self.random.choice(wrong if self.slip() else right)

    def name(self, right, wrong=()):
        """A name filled with spaces; where it slips, another one, or none."""
        none = [b"", b"A B", b"A-", b" A", b"A\0", b"U1\0\0\0\0\0\0"]
        return self.one_of(right, [*wrong, *wrong, b"OTHER", b"OTHER", *none]).ljust(8)

    def user(self):
        return self.name([b"U1", b"U2", b"U3"])

    def lterm(self):
        return self.name([b"L1", b"L2", b"L3"], [b"T1"])

    def bytes_of(self, length):
        return bytes(self.random.choices(b"AZ09 \\\0\xff", k=length))

    def content(self):
        if self.slip():
            return self.bytes_of(32768)
        if self.random.random() < 0.04:
            return self.bytes_of(self.random.choice((1999, 2000, 2001, 4000, 4001, 32767)))
        return self.bytes_of(self.random.choice((0, 1, 3, 12)))

    def message(self):
        nb = self.generation.max[b"NB"]
        if self.slip():
            return self.bytes_of(nb + 1)
        return self.bytes_of(self.random.choice((0, 1, 3, min(nb, 20), *[nb] * (nb < 5001))))

    def number(self, right, wrong):
        wrong = [*wrong, *wrong, 9, 10, 11, 2**40, 2**64 - 1]
        return self.one_of(right, wrong).to_bytes(8, "big")

    def job(self, target):
        due = self.one_of([0, 5, LAST_DUE], [LAST_DUE + 1, 2**40, 2**56 - 1])
        again = self.random.choice((0, 0, 1, 255))
        value = target + bytes([again]) + due.to_bytes(7, "big") + self.user() + self.lterm()
        return value + listed(self.message())

    def handed(self, asynchronous, awaits):
        """The parts of a message that a service reads next."""
        nb = self.generation.max[b"NB"]
        if self.slip():
            return self.random.choice(([b"x"], [b"x"] * 16, [b""] * 17, [b"x" * nb, b"y"]))
        none = asynchronous or awaits
        return [] if none else self.random.choice(([], [], [b"x"], [b"x" * (nb - 1), b"y"], [b""] * 16))

    def service(self, owner, asynchronous):
        tacs = ([b"A1", b"A2", b"A3"], [b"D1"]) if asynchronous else ([b"D1", b"D2"], [b"A1"])
        awaits = not asynchronous and self.random.random() < 0.5
        last = awaits or not asynchronous and self.random.random() < 0.5
        value = self.name(*tacs) + self.name(*tacs) + bytes([self.one_of([awaits], [0, 1, 2])])
        value += self.user() if asynchronous else self.name([owner], [b"U1", b"U2"])
        value += self.lterm() if asynchronous else self.one_of([b""], [b"L1", b"\0"]).ljust(8)
        value += listed(self.one_of([b"KB\\\0"], [b"", b"KB", b"KB345"]))
        handed = self.handed(asynchronous, awaits)
        value += len(handed).to_bytes(4, "big") + b"".join(map(listed, handed))
        value += b"\1" + listed(self.message()) if self.one_of([last], [not last]) else b"\0"
        lssbs = self.one_of(["", "", "A", "B", "AB"], ["BA", "AA", "ABC", "ABC"]).encode()
        value += len(lssbs).to_bytes(4, "big")
        return value + b"".join(self.name([bytes([it])]) + listed(self.content()) for it in lssbs)

    def record(self, kind):
        """The key and the value of a row of this kind."""
        if kind == 1:
            key, value = self.name([b"A", b"B", b"CNT", b"ABCDEFGH"]), self.content()
        elif kind == 2:
            key, value = self.name([b"T1", b"T2"]) + self.lterm(), self.content() or b"x" * (not self.slip())
        elif kind == 3:
            key, value = self.name([b"S1"], [b"T1"]) + self.user(), self.content() or b"x" * (not self.slip())
        elif kind == 4 and self.random.random() < 0.5:
            key = self.one_of([b"A"], [b"B", b"D"]) + self.number([5, 6, 7, 8], [1, 2, 3, 4])
            value = self.service(None, True)
        elif kind == 4:
            owner = self.one_of([b"U1", b"U3"], [b"U2", b"OTHER"])
            key, value = self.one_of([b"D"], [b"A", b"B"]) + owner.ljust(8), self.service(owner, False)
        elif kind == 5:
            target = [b"TA1", b"TA4", b"LL1", b"LL3"]
            key = self.number([1, 2, 3, 4], [5, 6, 7, 8])
            value = self.job(self.one_of(target, [b"TA2", b"TA3", b"TD1", b"LL9", b"XA1", b"LA1", b"TL1"]).ljust(9))
        else:
            key = self.lterm()
            value = self.job(self.one_of([b"L" + key], [b"LL1     ", b"LL2     ", b"T" + key, b"TA1     "]))
        if self.slip():
            value = self.random.choice((value[:-1], value + b"\0"))
        kind = self.one_of([kind], [0, 7, 9, 255, *range(1, 7)])
        return bytes([kind]) + key.ljust(24, self.one_of([b"\0"], [b" ", b"\1"])), value

    def records(self):
        """Some rows; where there is to be a slip among so many, five GSSBs, or a row more than there are pages."""
        kinds = self.random.choices((1, 1, 2, 3, 4, 4, 5, 5, 6, 6), k=self.random.choice((0, 1, 2, 3, 5, 8, 14)))
        made = dict(self.record(it) for it in kinds)
        if self.slip():
            made.update({key_of(1, it): b"" for it in (b"A", b"B", b"C", b"D", b"E")})
        blksize, pgpool = self.generation.blksize, self.generation.max[b"PGPOOL"]
        pages = pgpool - sum(charge(len(it), blksize) for it in made.values())
        wanted = pages + self.slip() if pgpool == 16 and self.random.random() < 0.2 else 0
        if 0 < wanted * (blksize - 48) <= 32767:
            made[key_of(1, b"CNT")] = bytes(wanted * (blksize - 48))
        return sorted(made.items(), key=lambda _: self.random.random())


# ---- A made file, and where its parts are


@dataclass
class File:
    """A file, and the places of its parts."""

    data: bytearray
    blksize: int
    root: int
    pages: int  # that the file has room for
    limit: int  # of the numbers of pages
    free: list = field(default_factory=list)
    directory: list = field(default_factory=list)
    slots: list = field(default_factory=list)
    heads: list = field(default_factory=list)

    def put(self, at, data):
        self.data[at : at + len(data)] = data

    def put_u32(self, at, number):
        self.put(at, (number % 2**32).to_bytes(4, "big"))

    def place(self, page):
        return PAGES_AT + page * self.blksize

    def copy(self):
        return replace(self, data=self.data[:])


def made_pages(random, blksize, pgpool):
    """A file without an image, all pages of which are free; what is not looked at may be anything."""
    limit = 2 * (pgpool + directory_pages(pgpool, blksize))
    pages = min(limit + (random.random() < 0.05), (ROOM - PAGES_AT) // blksize)
    file = File(bytearray(ROOM), blksize, ROOTS[random.random() < 0.5], pages, limit)
    if random.random() < 0.3:
        for _ in range(20):
            file.data[random.randrange(13, ROOM)] = random.randrange(256)
    file.free = random.sample(range(pages), pages) if random.random() < 0.5 else list(range(pages))
    return file


def put_directory(random, file, pgpool):
    """Puts an empty directory; returns its slots, in the order in which they are used."""
    file.directory = [file.free.pop(0) for _ in range(directory_pages(pgpool, file.blksize))]
    slots = []
    for it in file.directory:
        file.put(file.place(it), bytes(file.blksize))
        slots += range(file.place(it), file.place(it + 1), 32)
    if random.random() < 0.5:
        random.shuffle(slots)
    return slots


def put_records(file, records, slots):
    """Puts the records for which there is room."""
    for key, value in records:
        wanted = charge(len(value), file.blksize)
        if wanted <= len(file.free):
            put_record(file, key, value, slots.pop(0), [file.free.pop(0) for _ in range(wanted)])


def put_record(file, key, value, slot, pages):
    """Puts a record into a slot and on these pages."""
    file.put(slot, key)
    file.put_u32(slot + 25, pages[0])
    file.slots.append(slot)
    size = file.blksize - 48
    for part, page in enumerate(pages):
        head = file.place(page)
        file.put(head, key + len(value).to_bytes(4, "big") + part.to_bytes(4, "big"))
        file.put_u32(head + 33, (pages + [LAST])[part + 1])
        file.put(head + 37, bytes(11) + value[part * size :][:size])
        file.heads.append(head)


def put_root(file, root, fingerprint, clock, next_job, pgpool):
    """Puts a root of the directory and the records."""
    file.put(root, fingerprint + clock.to_bytes(8, "big") + next_job.to_bytes(8, "big"))
    numbers = [pgpool, len(file.directory), len(file.slots), int.from_bytes(b"ROOT", "big"), *file.directory]
    for place, number in enumerate(numbers):
        file.put_u32(root + 48 + 4 * place, number)


def finish(random, file):
    """Puts the head and the selector, and cuts the file behind the last page that is used, or leaves it long."""
    file.put(0, MARK + file.blksize.to_bytes(4, "big"))
    file.data[4096] = random.choice((0, 0, 0, 0x76, 0xFE)) + (file.root == ROOTS[1])
    if random.random() < 0.7:
        used = [file.place(it) for it in file.directory] + file.heads
        del file.data[max(used) + file.blksize :]


def made_file(random, application, records):
    """A file with these records."""
    pgpool = application.generation.max[b"PGPOOL"]
    file = made_pages(random, application.generation.blksize, pgpool)
    slots = put_directory(random, file, pgpool)
    twice = [it for it in records if random.random() < 0.01]
    put_records(file, records + twice, slots)
    put_root(file, file.root, application.fingerprint, *made_numbers(random), pgpool)
    if random.random() < 0.3:
        put_root(file, sum(ROOTS) - file.root, application.fingerprint, *made_numbers(random), pgpool)
    finish(random, file)
    return file


def made_numbers(random):
    """A clock and a next job number."""
    clock = random.choice((0, 7, LAST_CLOCK, *[LAST_CLOCK + 1] * (random.random() < 0.05)))
    return clock, random.choice((10, 10, 10, LAST_CLOCK + 1, *[0, 1, 9, LAST_CLOCK + 2] * (random.random() < 0.05)))


# ---- Changes of a file


def number_places(file):
    """The places of its numbers of four bytes."""
    places = [9] + [file.root + it for it in (48, 52, 56)]
    places += [file.root + 64 + 4 * it for it in range(len(file.directory))]
    return places + [it + 25 for it in file.slots] * 2 + [it + k for it in file.heads for k in (25, 29, 33, 33)]


def change_number(random, file):
    at = random.choice(number_places(file))
    old = u32(file.data, at)
    other = u32(file.data, random.choice(number_places(file)))
    near = [old + 1, old - 1, old ^ 1 << random.randrange(32), other, file.limit, file.limit - 1, random.randrange(40)]
    file.put_u32(at, random.choice(near + [0, 1, LAST, 2048, 4096, 8192]))


def change_byte(random, file):
    areas = [(0, 13), (4096, 1), (file.root, 64 + 4 * len(file.directory)), (sum(ROOTS) - file.root, 68)]
    areas += [(it, 32) for it in file.slots] + [(it, 64) for it in file.heads]
    areas += [(file.place(it), file.blksize) for it in file.directory] + [(0, len(file.data))]
    start, length = random.choice(areas)
    at = min(start + random.randrange(length), len(file.data) - 1)
    old = file.data[at]
    file.data[at] = random.choice((0, 1, 0xFF, 0x20, old ^ 1 << random.randrange(8), random.randrange(256)))


def change_root(random, file):
    """Another clock or next job number, or another fingerprint or BLKSIZE."""
    how = random.random()
    if how < 0.2:
        file.data[file.root + random.randrange(32)] ^= 1 << random.randrange(8)
    elif how < 0.4:
        file.put_u32(9, random.choice((2048, 4096, 8192)))
    else:
        number = random.choice((0, 1, 3, LAST_CLOCK, LAST_CLOCK + 1, LAST_CLOCK + 2, 2**63, 2**64 - 1))
        file.put(file.root + random.choice((32, 40)), number.to_bytes(8, "big"))


def change_slots(random, file):
    """Slots that change places, are doubled, or go."""
    page = file.place(random.choice(file.directory))
    first = random.choice(file.slots or [page])
    second = random.choice((*file.slots, page, page + 32 * random.randrange(file.blksize // 32)))
    one, other = file.data[first : first + 32], file.data[second : second + 32]
    how = random.choice(("swap", "swap", "copy", "clear"))
    file.put(first, bytes(32) if how == "clear" else other)
    if how == "swap":
        file.put(second, one)


def change_chains(random, file):
    """Pages of records that change places, or are doubled."""
    if file.heads:
        first = random.choice(file.heads)
        second = random.choice((*file.heads, file.place(random.randrange(file.pages))))
        one, other = (file.data[it : it + file.blksize] for it in (first, second))
        length = random.choice((file.blksize, 48, 25))
        file.put(first, other[:length])
        if random.random() < 0.5:
            file.put(second, one[:length])


def change_selector(random, file):
    file.data[4096] = random.choice((0, 1, 2, 0x76, 0x77, 0xFF))


def change_length(random, file):
    """A shorter file, or one with more bytes behind its pages."""
    length = len(file.data)
    edges = [file.place(it) for it in range(file.pages)] + [4096, 8192, file.root + 64, length]
    wanted = random.choice((random.choice(edges) + random.choice((-1, 0, 1)), random.randrange(length + 1), length + 1))
    wanted = random.choice((0, 1)) if random.random() < 0.03 else wanted
    del file.data[wanted:]
    file.data += bytes(min(wanted, ROOM) - len(file.data))


CHANGES = [change_number] * 5 + [change_byte] * 5 + [change_root, change_selector]
CHANGES += [change_slots] * 2 + [change_chains] * 2 + [change_length]


def changed(random, file, counts):
    """The file with some changes."""
    file = file.copy()
    for _ in range(random.choice(counts)):
        if len(file.data) > ROOTS[1] + 64:
            random.choice(CHANGES)(random, file)
    return bytes(file.data[:ROOM])


# ---- Their cases


def differences(now, wanted):
    """The ranges in which a file differs from one that is not shorter."""
    ranges, step = [], 64
    now = now[: len(wanted)]
    for at in range(0, len(wanted), step):
        if now[at : at + step] != wanted[at : at + step]:
            if ranges and ranges[-1][1] == at:
                ranges[-1][1] = at + step
            else:
                ranges.append([at, at + step])
    for start, end in ranges:
        end = min(end, len(wanted))
        while now[start] == wanted[start]:
            start += 1
        while now[end - 1] == wanted[end - 1]:
            end -= 1
        yield start, wanted[start:end]


def change_file(book, before, file):
    """Changes the file of a case into this one, which is not longer."""
    for at, data in differences(before, file):
        book.add(f"put {at} {written(data)}")
    if len(file) < len(before):
        book.add(f"cut {len(file)}")


class Kept:
    """A file whose rows suit, and what is made of it."""

    def __init__(self, random, application):
        self.application = application
        self.rows_from, self.pages_from = random.random(), random.random()
        self.places = Rows(Random(self.rows_from), application.generation)
        self.file = self.made(self.places)

    def made(self, rows):
        return made_file(Random(self.pages_from), self.application, rows.records())

    def changed(self, random):
        """The file changed, or one of other rows of which one has a slip."""
        if random.random() < 0.6:
            return changed(random, self.file, (0, 1, 1, 1, 1, 2, 3))
        slip = random.randint(1, self.places.places)
        file = self.made(Rows(Random(self.rows_from), self.application.generation, slip))
        return changed(random, file, (0, 0, 0, 0, 1))


class Try:
    """A file and the word of a second call; what they answer."""

    def __init__(self, application, file, word):
        self.application = application
        self.file = file
        self.word = word
        self.status, self.lines, self.clock = application.shown(file)

    def ask(self, book):
        book.call("show app", self.status, self.lines)
        book.add("same")
        if self.word and self.file:
            lines = self.application.generation.report() if self.word == "gen" else []
            book.call(f"{self.word} app", self.status, self.lines if self.status else lines)
            book.add("same")

    def goes_on(self, book):
        """A commit over a file that is accepted."""
        if self.status or self.clock is None or not self.file:
            return
        book.takes(["TICK 1"])
        line = "TICK REFUSED" if self.clock == LAST_CLOCK else f"TICK {self.clock + 1}"
        book.call("run app", 0, [line])
        clock = min(self.clock + 1, LAST_CLOCK)
        book.call("show app", 0, [f"CLOCK {clock}", *self.lines[1:]])


def begin(book, title):
    """A case with a file that has room; its bytes are returned."""
    book.case(title, *ROOMY.texts())
    book.takes([])
    book.call("run app", 0)
    return ROOMY.fresh()


class Batch:
    """Cases of several tries each, in one book."""

    def __init__(self, random, count, first):
        self.book = Book()
        self.tries = []  # with the number of the first line of each
        self.applications = [Application(DEFINITION.format(*it).encode(), UNITS) for it in SIZES]
        while len(self.tries) < count:
            self.case(random, min(TRIES, count - len(self.tries)))

    def case(self, random, count):
        application = random.choice(self.applications)
        kept = Kept(random, application)
        files = [kept.changed(random) for _ in range(count)]
        words = [random.choice((None, None, None, "run", "gen")) for _ in files]
        tries = [Try(application, *it) for it in zip(sorted(files, key=len, reverse=True), words)]
        before = begin(self.book, f"made files from {len(self.tries) + 1}")
        self.book.add(*application.texts())
        for it in tries:
            self.tries.append((len(self.book.lines), it))
            change_file(self.book, before, it.file)
            it.ask(self.book)
            before = it.file
        tries[-1].goes_on(self.book)

    def differences(self, program):
        """The case of each try that was answered otherwise."""
        found = self.book.tried(program)
        for (start, one), (end, _) in zip(self.tries, self.tries[1:] + [(len(self.book.lines) + 1, None)]):
            wrong = [f"* {it}: {found[it]}" for it in found if start < it <= end]
            if wrong:
                yield wrong, self.alone(one)

    def alone(self, one):
        book = Book()
        before = begin(book, "a made file")
        book.add(*one.application.texts())
        change_file(book, before, one.file)
        one.ask(book)
        one.goes_on(book)
        return book.lines
