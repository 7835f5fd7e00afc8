"""Made tables, the application that they are of, and another one that they are carried to. The rows are at the borders
of what stays, and the limits of the other application are at those of what is refused."""

from dataclasses import replace
from functools import lru_cache

from carrying import kept_rows
from kdcfile import LAST_CLOCK, LAST_DUE, PAGES_AT, ROOTS, Job, Service, Tables
from kdcfile import charge, charged, directory_pages, gssbs_of, key_of, tables_of, value_of
from made_files import ROOM, UNITS, Application, changed, finish, made_pages, put_directory, put_records, put_root

MAX = "MAX APPLINAME={NAME},KB={KB},SPAB=8,NB={NB},GSSBS={GSSBS},LSSBS={LSSBS},PGPOOL={PGPOOL},BLKSIZE={BLKSIZE}"
BYTES = {"2K": 2048, "4K": 4096, "8K": 8192}
PLAIN = 46  # bytes of a service but those of its KB, where it has no handed parts, last message and LSSBs

# How names may be declared. The first letter says which of the ways are those of a name.
DIALOGUE = ["TAC {},PROGRAM=X", "TAC {},PROGRAM=X,CALL=NEXT,STATUS=OFF"]
ASYNCHRONOUS = ["TAC {},PROGRAM=X,TYPE=A" + it for it in ("", ",CALL=FIRST", ",CALL=NEXT", ",STATUS=OFF")]
LTERMS = ["LTERM {}", "LTERM {},USAGE=O"]
USERS = ["USER {}", "USER {},RESTART=YES", "USER {},RESTART=NO"]
BLOCKS = ["TLS {}", "ULS {}", "TLS {0}\nULS {0}"]
NOT_DECLARED = ["", "", ""]
WAYS = dict.fromkeys("DAL", DIALOGUE + ASYNCHRONOUS + LTERMS + NOT_DECLARED)
WAYS |= {"U": USERS + NOT_DECLARED, "B": BLOCKS + NOT_DECLARED}
NAMES = "D1 D2 A1 A2 A3 A4 L1 L2 U1 U2 U3 B1 B2 B3".split()
DECLARED = dict(zip(NAMES, DIALOGUE + ASYNCHRONOUS + LTERMS + USERS + BLOCKS))

# What may be wrong, several things at once: the clock; the next job number; a number that is not below it; one that is
# both a job's and a service's; a page more than the pool has; another BLKSIZE; a smaller pool; a GSSB too many; rows
# that grow past the pool. With `same` the file has the fingerprint of the texts after, and with `damage` other bytes.
TROUBLES = "clock next below twice full damage damage damage large large".split()
TROUBLES += "blksize pool gssbs large same".split() * 4

# The parts of a row for which it may go.
PARTS = "name name kb kb kb message handed handed handed last lssbs awaits owner due target target".split()

application_of = lru_cache(100)(Application)


class Texts:
    """A definition by its sizes and declared names, and units."""

    def __init__(self, sizes, declared, end=b"", units=UNITS):
        self.sizes = sizes
        self.declared = declared
        self.end = end  # behind the last statement
        self.units = units

    def but(self, **sizes):
        return Texts(self.sizes | sizes, self.declared, self.end, self.units)

    def application(self):
        said = [way.format(name) for name, way in self.declared.items() if way]
        if not any(it.startswith("USER") for it in said):
            said.append("USER OTHER9")
        definition = "\n".join([MAX.format(**self.sizes), "PROGRAM X", *said, "END\n"])
        return application_of(definition.encode() + self.end, self.units)


# ---- Rows


class Rows:
    """Rows that stay, but for those that go for one part."""

    def __init__(self, random, before, after, wrong):
        self.random = random
        self.before = before  # the sizes of the two applications
        self.after = after
        self.wrong = wrong  # the part, or none
        self.numbers = random.sample(range(12), 12)

    def goes(self, part):
        return part == self.wrong and self.random.random() < 0.4

    def one_of(self, part, right, wrong):
        return self.random.choice(wrong if self.goes(part) else right)

    def name(self, right, wrong=()):
        """One of these names; or another one, or one that is nearly the first."""
        return self.one_of("name", right, [*wrong, *wrong, right[0].lower(), right[0][:1], right[0] + b"1", b"OTHER"])

    def user(self):
        return self.name([b"U1", b"U2", b"U3"], [b"L1"])

    def lterm(self):
        return self.name([b"L1", b"L2"], [b"A1"])

    def bytes_of(self, length):
        some = bytes(self.random.choices(b"AZ09 \\\0\xff", k=min(length, 61)))
        return (some * (length // 61 + 1))[:length]

    def content(self, least=0):
        long = self.random.random() < 0.05
        return self.bytes_of(self.random.choice((1999, 2000, 2001, 4000, 4001) if long else (least, 1, 3, 12)))

    def message(self):
        nb = self.after["NB"]
        right = [it for it in (0, 1, 3, nb - 1, nb, nb) if 0 <= it <= min(nb, 4000)]
        return self.bytes_of(self.one_of("message", right, [nb + 1, nb + 1, max(nb, self.before["NB"])]))

    def kb(self):
        """A KB, in which the spaces at the end begin about where it is to be cut."""
        before, after = self.before["KB"], self.after["KB"]
        length = self.one_of("kb", [before, before, before, after], [after + 1, after + 7, before + 1, before // 2])
        said = self.random.choice([it for it in (0, after - 1, after, after, before) if 0 <= it <= min(after, length)])
        if length > after and self.goes("kb"):
            said = self.random.choice((after + 1, length))
        return (self.bytes_of(said)[:-1] + self.random.choice((b"K", b"\0", b"\t", b"\xa0")) * (said > 0)).ljust(length)

    def lssbs(self):
        most = self.after["LSSBS"]
        count = self.one_of("lssbs", range(most + 1), [most + 1, most + 2])
        names = sorted(self.random.sample([b"A", b"B", b"C", b"D", b"E", b"ABCDEFGH"], count))
        return [(it, self.content()) for it in names]

    def handed(self, may):
        """The parts of a message that is read next, where there may be some."""
        nb = min(self.after["NB"], 3000)
        if not may:
            return self.one_of("handed", [[]], [[b"x"], [b""]])
        right = [[], [b"x"], [b"x" * (nb - 1), b"y"], [b""] * 16]
        return self.one_of("handed", right, [[b"x" * nb, b"y"], [b"", b"x" * (nb + 1)], [b""] * 17])

    def asynchronous(self):
        tacs = [self.name([b"A1", b"A2", b"A3", b"A4"], [b"D1", b"L1"]) for _ in "12"]
        head = [*tacs, self.one_of("awaits", [False], [True]), self.user(), self.lterm(), self.kb()]
        return Service(*head, self.handed(False), self.one_of("last", [None], [b"", b"M"]), self.lssbs())

    def dialogue(self, owner):
        tacs = [self.name([b"D1", b"D2"], [b"A1", b"L1"]) for _ in "12"]
        awaits = self.random.random() < 0.5
        head = [*tacs, awaits, self.one_of("owner", [owner], [b"U1", b"U2"]), None, self.kb()]
        handed = self.handed(not awaits or self.goes("awaits"))
        has_last = self.one_of("last", [awaits or self.random.random() < 0.5], [False])
        return Service(*head, handed, self.message() if has_last else None, self.lssbs())

    def job(self, kind, target):
        due = self.one_of("due", [0, 5, LAST_DUE], [LAST_DUE + 1, 2**56 - 1])
        again = self.random.choice((0, 0, 1, 255))
        return Job(kind, target, again, due, self.user(), self.lterm(), self.message())

    def target(self):
        right = [(b"T", b"A1"), (b"T", b"A2"), (b"L", b"L1"), (b"L", b"L2")]
        wrong = [(b"T", it) for it in (b"A3", b"A4", b"D1", b"L1", b"OTHER")]
        return self.one_of("target", right, [*wrong, (b"L", b"A1"), (b"L", b"OTHER")])

    def shown(self, lterm):
        """A message that an LTERM shows; of its length no condition speaks."""
        wrong = [(b"L", b"L1"), (b"L", b"L2"), (b"T", lterm), (b"T", b"A1")]
        job = self.job(*self.one_of("target", [(b"L", lterm)], wrong))
        return job._replace(message=self.bytes_of(self.random.choice((0, 3, self.after["NB"] % 4000 + 1))))

    def row(self, kind):
        """A row of this kind. A job, or the service of one, has the next number."""
        if kind == 1:
            return kind, self.random.choice((b"A", b"B", b"C", b"D", b"E", b"ABCDEFGH")), self.content()
        if kind == 2:
            return kind, (self.name([b"B1", b"B3"], [b"B2"]), self.lterm()), self.content(1)
        if kind == 3:
            return kind, (self.name([b"B2", b"B3"], [b"B1"]), self.user()), self.content(1)
        if kind == 4 and self.random.random() < 0.4:
            return kind, self.numbers.pop(), self.asynchronous()
        if kind == 4:
            owner = self.one_of("owner", [b"U1", b"U2"], [b"U3", b"OTHER"])
            return kind, owner, self.dialogue(owner)
        if kind == 5:
            return kind, self.numbers.pop(), self.job(*self.target())
        lterm = self.lterm()
        return kind, lterm, self.shown(lterm)

    def long_row(self):
        """A row whose content is as long as it may be, or longer."""
        kind, key, content = self.row(self.random.choice((1, 1, 1, 2, 3, 4, 4)))
        long = self.bytes_of(self.random.choice((32767, 32768, 32768)))
        return kind, key, content._replace(lssbs=[(b"A", long)]) if kind == 4 else long


class Table:
    """Rows of a file, by their kinds and keys."""

    def __init__(self, blksize):
        self.blksize = blksize
        self.rows = {}

    def put(self, row):
        self.rows[row[:2]] = row

    def put_within(self, row, pages):
        """Puts a row, if it is another one and all of them take no more pages than this."""
        wanted = charge(len(value_of(row[0], row[2])), self.blksize)
        if row[:2] not in self.rows and self.pages() + wanted <= pages:
            self.put(row)

    def pages(self):
        return charged(self.rows.values(), self.blksize)

    def numbers(self):
        return [key for _, key in self.rows if isinstance(key, int)]

    def in_order(self):
        return sorted(self.rows.values(), key=lambda row: key_of(*row[:2]))


# ---- Two applications, tables, and their file


class Made:
    """What is made, with some troubles."""

    def __init__(self, random):
        self.random = random
        self.troubles = set(random.choices(TROUBLES, k=random.choice((0, 0, 0, 1, 1, 1, 2, 3))))
        before = self.sizes_before()
        after, declared = dict(before), DECLARED
        if not self.has("same"):
            after |= self.sizes_after(before)
            rate = random.choice((0, 0, 0.04, 0.12, 0.3))
            declared = {it: self.way(it, rate) for it in DECLARED}
        self.before, self.after = Texts(before, DECLARED), Texts(after, declared)
        self.blksize, self.pgpool = BYTES[before["BLKSIZE"]], before["PGPOOL"]
        self.table = self.made_table()
        self.fill()
        self.limit_after()
        self.change_text()
        self.old, self.new = self.before.application(), self.after.application()
        self.tables = self.made_tables()
        self.file = self.made_file()

    def has(self, *troubles):
        return not self.troubles.isdisjoint(troubles)

    # ---- the texts

    def sizes_before(self):
        random = self.random
        pools = (17, 18, 70, 300) if self.has("pool") else (16, 16, 16, 17, 70, 300)
        sizes = {"NAME": "OLD", "GSSBS": 4, "LSSBS": 2, "PGPOOL": random.choice(pools)}
        sizes |= {"KB": random.choice((4, 4, 4, 0, 12, 1954)), "NB": random.choice((20, 20, 20, 3000))}
        sizes |= {"BLKSIZE": random.choice(("2K", "2K", "2K", "4K", "8K"))}
        if self.has("full", "large"):
            sizes |= {"BLKSIZE": "2K", "PGPOOL": random.choice((17, 18) if self.has("pool") else (16, 17))}
        return sizes

    def sizes_after(self, before):
        """Those that are changed."""
        random = self.random
        sizes = {}
        if random.random() < 0.5:
            less = max(before["KB"] - 1, 0)
            sizes["KB"] = random.choice((0, less, less, before["KB"] + 1, 3, 8, 1954, 1955))
        if random.random() < 0.4:
            sizes["NB"] = random.choice((1, 2, before["NB"] - 1, before["NB"] + 1, 32700))
        if random.random() < 0.4:
            sizes["LSSBS"] = random.choice((0, 1, 1, 3))
        if self.has("large"):
            whole = random.choice((1, 1, 2)) * (BYTES[before["BLKSIZE"]] - 48)
            sizes["KB"] = whole - PLAIN + random.choice((0, 1, 1, 1, 300))
        if self.has("blksize"):
            sizes["BLKSIZE"] = random.choice([it for it in BYTES if it != before["BLKSIZE"]])
        return sizes

    def way(self, name, rate):
        return self.random.choice(WAYS[name[0]]) if self.random.random() < rate else DECLARED[name]

    def change_text(self):
        """Changes the texts in a name that no row has, or in a comment; or they differ in the place of a line alone."""
        how = self.random.choice(("name", "units", "end", "moved"))
        if how == "name":
            self.after.sizes["NAME"] = self.random.choice(("NEW", "N", "A$#@_234"))
        elif how == "units":
            self.after.units += b"*\n"
        elif how == "end":
            self.after.end = b"*"
        else:
            self.before = Texts(self.after.sizes, self.after.declared, b"", b"* moved\n" + UNITS)
            self.after.end = b"* moved\n"

    # ---- the rows

    @property
    def room(self):
        """How many pages rows may take, in the pool and in the file."""
        return min(self.pgpool, (ROOM - PAGES_AT) // self.blksize - directory_pages(self.pgpool, self.blksize))

    def made_table(self):
        random = self.random
        wrong = random.choice(PARTS) if random.random() < (0.2 if self.has("same") else 0.7) else None
        rows = Rows(random, self.before.sizes, self.after.sizes, wrong)
        table = Table(self.blksize)
        if random.random() < 0.12:
            table.put_within(rows.long_row(), self.room)
        kinds = random.choices((1, 1, 2, 3, 4, 4, 4, 5, 5, 6), k=random.choice((0, 1, 4, 8, 12)))
        for kind in kinds + [4] * 3 * self.has("large"):
            if rows.numbers or kind not in (4, 5):
                table.put_within(rows.row(kind), self.room)
        if self.has("below") and random.random() < 0.5:
            table.put_within((5, 12, rows.job(b"L", b"OTHER")), self.room)
        if self.has("twice"):
            number = random.choice([*table.numbers(), 3])
            table.put_within((5, number, rows.job(*rows.target())), self.room)
            table.put_within((4, number, rows.asynchronous()), self.room)
        return table

    def fill(self):
        """Fills the pool, or takes a page more."""
        wanted = self.room - self.table.pages() + self.has("full")
        if self.pgpool > 18 or not self.has("full", "large") and self.random.random() < 0.7:
            return
        size = self.blksize - 48
        for name in (b"F", b"G"):
            pages = min(wanted, 32767 // size)
            wanted -= pages
            if pages:
                self.table.put((1, name, bytes(self.random.choice((pages * size, pages * size - size + 1)))))

    def limit_after(self):
        """GSSBS and PGPOOL after: as much as is wanted, less, or more."""
        kept = list(kept_rows(self.table.in_order(), self.after.application().generation))
        gssbs, pages, before = len(gssbs_of(kept)), charged(kept, self.blksize), self.pgpool
        least = max(before, pages)
        limits = self.after.sizes
        limits["GSSBS"] = self.random.choice((gssbs, gssbs, gssbs + 1, 30000))
        if self.has("gssbs"):
            limits["GSSBS"] = max(gssbs - 1, 0)
        if self.has("pool"):
            limits["PGPOOL"] = self.random.choice((before - 1, 16))
        elif self.has("large"):
            limits["PGPOOL"] = max(before, pages - 1)
        elif not self.has("same") or self.random.random() < 0.1:
            limits["PGPOOL"] = self.random.choice((least, least, least + 1, least + 60, 2240))

    # ---- the tables and the file

    def made_tables(self):
        random = self.random
        least = max(self.table.numbers(), default=0) + 1
        clock, next_job = random.choice((0, 7, LAST_CLOCK)), random.choice((least, least, 12, LAST_CLOCK + 1))
        if self.has("clock"):
            clock = random.choice((LAST_CLOCK + 1, 2**63, 2**64 - 1))
        if self.has("next"):
            next_job = random.choice((0, LAST_CLOCK + 2, 2**64 - 1))
        if self.has("below"):
            next_job = least - 1
        fingerprint = (self.new if self.has("same") else self.old).fingerprint
        return Tables(fingerprint, clock, next_job, self.blksize, self.pgpool, self.table.in_order())

    def other_tables(self):
        """Other tables, such as an earlier commit or update may have left in the image that does not count."""
        random = self.random
        rows = Rows(random, self.before.sizes, self.before.sizes, None)
        table = Table(self.blksize)
        for kind in range(1, 7):
            table.put_within(rows.row(kind), 16)
        fingerprint, pgpool = random.choice((self.old, self.new)).fingerprint, random.choice((16, self.pgpool))
        return Tables(fingerprint, 3, 12, self.blksize, pgpool, table.in_order())

    def made_file(self):
        """The bytes of a file with the tables, and perhaps with others in the other image."""
        random = self.random
        file = made_pages(random, self.blksize, self.pgpool)
        file.free = [it for it in file.free if it < file.limit]
        put_image(random, file, file.root, self.tables)
        other = random.choice((None, self.tables, self.other_tables()))
        if other and directory_pages(other.pgpool, self.blksize) <= len(file.free):
            beside = replace(file, directory=[], slots=[], heads=[])
            put_image(random, beside, sum(ROOTS) - file.root, other)
        finish(random, file)
        if tables_of(file.data) != self.tables:
            raise AssertionError("other tables are read than were written")
        if self.has("damage"):
            return changed(random, file, (1, 1, 2)) if random.random() < 0.95 else b""
        return bytes(file.data)


def put_image(random, file, root, tables):
    """Puts an image of these tables."""
    slots = put_directory(random, file, tables.pgpool)
    records = [(key_of(*row[:2]), value_of(row[0], row[2])) for row in tables.rows]
    put_records(file, random.sample(records, len(records)), slots)
    put_root(file, root, tables.fingerprint, tables.clock, tables.next, tables.pgpool)
