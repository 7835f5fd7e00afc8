"""A reader of KDCFILEs by docs/kdcfile.md: what `show` answers for these bytes; and a writer of rows."""

from collections import namedtuple

from definition import NAME

MARK = b"KUTMKDCF\x02"
FREE = bytes(32)
LAST = 0xFFFFFFFF
LAST_CLOCK = 999_999_999_999
LAST_DUE = 1_000_863_999_998
PAGES_AT = 24576
ROOTS = (8192, 16384)
Image = namedtuple("Image", "fingerprint clock next blksize pgpool records")
Tables = namedtuple("Tables", "fingerprint clock next blksize pgpool rows")
Job = namedtuple("Job", "kind target again due user lterm message")
Service = namedtuple("Service", "first next awaits user lterm kb handed last lssbs")
NOT_A_KDCFILE = "KDCFILE NOT A KDCFILE"


def u32(data, at):
    return int.from_bytes(data[at : at + 4], "big")


def directory_pages(pgpool, blksize):
    return -(-pgpool // (blksize // 32))


def charge(length, blksize):
    return max(1, -(-length // (blksize - 48)))


def fresh(generation, fingerprint):
    """The bytes of a fresh file."""
    blksize, pgpool = generation.blksize, generation.max[b"PGPOOL"]
    count = directory_pages(pgpool, blksize)
    numbers = [pgpool, count, 0, int.from_bytes(b"ROOT", "big"), *range(count)]
    root = fingerprint + bytes(15) + b"\1" + b"".join(it.to_bytes(4, "big") for it in numbers)
    head = (MARK + blksize.to_bytes(4, "big")).ljust(ROOTS[0], b"\0")
    return head + 2 * root.ljust(ROOTS[1] - ROOTS[0], b"\0") + bytes(count * blksize)


class NoImage(Exception):
    """The bytes stand for no image, or its values for no rows."""


def holds(condition):
    if not condition:
        raise NoImage


# ---- The image


class Pages:
    """The pages of a file, of which none may be named twice."""

    def __init__(self, file, blksize, count):
        self.file = file
        self.blksize = blksize
        self.count = count
        self.named = set()

    def take(self, page):
        end = PAGES_AT + (page + 1) * self.blksize
        holds(page < self.count and page not in self.named and end <= len(self.file))
        self.named.add(page)
        return self.file[end - self.blksize : end]

    def value(self, slot):
        """The value of the record of a slot."""
        parts, page = b"", u32(slot, 25)
        length = number = None
        while number is None or number < charge(length, self.blksize) - 1:
            number = 0 if number is None else number + 1
            body = self.take(page)
            length = u32(body, 25) if length is None else length
            holds(body[:25] == slot[:25] and u32(body, 25) == length and u32(body, 29) == number)
            holds(not any(body[37:48]))
            page = u32(body, 33)
            parts += body[48:]
        holds(page == LAST)
        return parts[:length]


def image_of(file):
    """The image for which the bytes stand."""
    holds(len(file) > 4096 and file[:9] == MARK)
    blksize = u32(file, 9)
    holds(blksize in (2048, 4096, 8192))
    root = ROOTS[file[4096] % 2]
    holds(len(file) >= root + 64 and file[root + 60 : root + 64] == b"ROOT")
    pgpool, count, used = (u32(file, root + it) for it in (48, 52, 56))
    holds(16 <= pgpool <= 30000 and count == directory_pages(pgpool, blksize) and len(file) >= root + 64 + 4 * count)
    pages = Pages(file, blksize, 2 * (pgpool + count))
    directory = b"".join([pages.take(u32(file, root + 64 + 4 * it)) for it in range(count)])
    records = {}
    for at in range(0, len(directory), 32):
        slot = directory[at : at + 32]
        if slot != FREE:
            holds(slot[0] and not any(slot[29:]) and slot[:25] not in records)
            records[slot[:25]] = pages.value(slot)
    holds(len(records) == used)
    clock, next_job = (int.from_bytes(file[root + it : root + it + 8], "big") for it in (32, 40))
    return Image(file[root : root + 32], clock, next_job, blksize, pgpool, records)


# ---- The rows


class Fields:
    """The fields of a value, read from the front."""

    def __init__(self, data):
        self.data = data

    def bytes(self, length):
        holds(len(self.data) >= length)
        taken, self.data = self.data[:length], self.data[length:]
        return taken

    def number(self, length):
        return int.from_bytes(self.bytes(length), "big")

    def name(self):
        padded = self.bytes(8)
        name = padded.rstrip(b" ")
        holds(NAME.fullmatch(name))
        return name

    def list(self):
        return self.bytes(self.number(4))

    def flag(self):
        flag = self.number(1)
        holds(flag < 2)
        return flag == 1

    def end(self):
        holds(not self.data)


def job_of(data):
    it = Fields(data)
    kind = it.bytes(1)
    holds(kind in (b"T", b"L"))
    job = Job(kind, it.name(), it.number(1), it.number(7), it.name(), it.name(), it.list())
    it.end()
    return job


def service_of(data, asynchronous):
    it = Fields(data)
    head = [it.name(), it.name(), it.flag(), it.name()]
    if asynchronous:
        lterm = it.name()
    else:
        holds(it.bytes(8) == b" " * 8)
        lterm = None
    kb = it.list()
    handed = [it.list() for _ in range(at_most(it))]
    last = it.list() if it.flag() else None
    lssbs = [(it.name(), it.list()) for _ in range(at_most(it))]
    it.end()
    names = [name for name, _ in lssbs]
    holds(all(a < b for a, b in zip(names, names[1:])))
    return Service(*head, lterm, kb, handed, last, lssbs)


def at_most(fields):
    """A number of things that follow, each of four bytes or more."""
    count = fields.number(4)
    holds(4 * count <= len(fields.data))
    return count


def row_of(key, value):
    """The kind, the key and the content of the row that is this record."""
    kind, fields = key[0], Fields(key[1:])
    if kind == 4:
        letter = fields.bytes(1)
        holds(letter in (b"A", b"D"))
        owner = fields.number(8) if letter == b"A" else fields.name()
        row = owner, service_of(value, letter == b"A")
    elif kind == 5:
        row = fields.number(8), job_of(value)
    elif kind == 6:
        row = fields.name(), job_of(value)
    elif kind in (2, 3):
        row = (fields.name(), fields.name()), value
        holds(value)
    else:
        holds(kind == 1)
        row = fields.name(), value
    holds(not any(fields.data))
    return kind, *row


def tables_of(file):
    """The tables for which the bytes stand, with their rows in the order of their keys."""
    *numbers, records = image_of(file)
    return Tables(*numbers, [row_of(key, records[key]) for key in sorted(records)])


# ---- Rows that are written


def listed(data):
    return len(data).to_bytes(4, "big") + data


def job_value(job):
    numbers = bytes([job.again]) + job.due.to_bytes(7, "big")
    return job.kind + job.target.ljust(8) + numbers + job.user.ljust(8) + job.lterm.ljust(8) + listed(job.message)


def service_value(service):
    value = service.first.ljust(8) + service.next.ljust(8) + bytes([service.awaits])
    value += service.user.ljust(8) + (service.lterm or b"").ljust(8) + listed(service.kb)
    value += len(service.handed).to_bytes(4, "big") + b"".join(map(listed, service.handed))
    value += b"\0" if service.last is None else b"\1" + listed(service.last)
    value += len(service.lssbs).to_bytes(4, "big")
    return value + b"".join(name.ljust(8) + listed(content) for name, content in service.lssbs)


def key_of(kind, key):
    """The key of the record that is a row of this kind and key."""
    if kind in (2, 3):
        said = key[0].ljust(8) + key[1].ljust(8)
    elif kind == 4:
        said = b"A" + key.to_bytes(8, "big") if isinstance(key, int) else b"D" + key.ljust(8)
    else:
        said = key.to_bytes(8, "big") if kind == 5 else key.ljust(8)
    return bytes([kind]) + said.ljust(24, b"\0")


def value_of(kind, content):
    """The value of the record that is a row of this kind and content."""
    if kind == 4:
        return service_value(content)
    return job_value(content) if kind in (5, 6) else content


def charged(rows, blksize):
    """How many pages the rows take."""
    return sum(charge(len(value_of(kind, content)), blksize) for kind, _, content in rows)


# ---- Whether they suit


def service_suits(owner, service, generation):
    limits, asynchronous = generation.max, isinstance(owner, int)
    tacs = [it in generation.tacs and generation.is_asynchronous(it) == asynchronous for it in service[:2]]
    if asynchronous:
        fits = service.lterm in generation.lterms and not (service.awaits or service.handed or service.last is not None)
    else:
        fits = owner == service.user and generation.users.get(owner) is True
    return (
        fits
        and all(tacs)
        and service.user in generation.users
        and len(service.kb) == limits[b"KB"]
        and len(service.lssbs) <= limits[b"LSSBS"]
        and all(len(it) <= 32767 for _, it in service.lssbs)
        and (not service.awaits or service.last is not None and not service.handed)
        and len(service.handed) <= 16
        and sum(map(len, service.handed)) <= limits[b"NB"]
        and len(service.last or b"") <= limits[b"NB"]
    )


def job_suits(job, generation):
    return job.due <= LAST_DUE and job.user in generation.users and job.lterm in generation.lterms


def target_suits(job, generation):
    if job.kind == b"L":
        return job.target in generation.lterms
    tac = generation.tacs.get(job.target)
    return (
        tac is not None
        and generation.is_asynchronous(job.target)
        and tac.get(b"CALL") != b"NEXT"
        and tac.get(b"STATUS") != b"OFF"
    )


def row_suits(kind, key, content, generation):
    if kind == 4:
        return service_suits(key, content, generation)
    if kind == 5:
        fits = len(content.message) <= generation.max[b"NB"] and target_suits(content, generation)
        return fits and job_suits(content, generation)
    if kind == 6:
        fits = content.kind == b"L" and content.target == key and key in generation.lterms
        return fits and job_suits(content, generation)
    if kind == 2:
        declared = key[0] in generation.tls and key[1] in generation.lterms
    elif kind == 3:
        declared = key[0] in generation.uls and key[1] in generation.users
    else:
        declared = True
    return declared and len(content) <= 32767


def numbers_suit(tables):
    """Whether clock, numbers and pages are such as a run may leave."""
    jobs = [key for kind, key, _ in tables.rows if kind == 5]
    services = [key for kind, key, _ in tables.rows if kind == 4 and isinstance(key, int)]
    return (
        tables.clock <= LAST_CLOCK
        and 1 <= tables.next <= LAST_CLOCK + 1
        and all(it < tables.next for it in jobs + services)
        and not set(jobs) & set(services)
        and charged(tables.rows, tables.blksize) <= tables.pgpool
    )


def gssbs_of(rows):
    return [it for it in rows if it[0] == 1]


def suits(tables, generation):
    return (
        (tables.blksize, tables.pgpool) == (generation.blksize, generation.max[b"PGPOOL"])
        and numbers_suit(tables)
        and len(gssbs_of(tables.rows)) <= generation.max[b"GSSBS"]
        and all(row_suits(*it, generation) for it in tables.rows)
    )


# ---- What `show` answers


def escaped(data):
    plain = [chr(it) if 0x20 <= it <= 0x7E else f"\\x{it:02x}" for it in data]
    return "".join("\\\\" if it == "\\" else it for it in plain)


def row_lines(kind, key, content):
    """The lines of a row."""
    if kind == 4:
        owner = f"#{key}" if isinstance(key, int) else key.decode()
        last = "-" if content.last is None else escaped(content.last)
        how = "WAITS" if content.awaits else "GOES"
        yield f"SERVICE {owner} {content.first.decode()} {content.next.decode()} {how} {last}"
        yield f"KB {owner} {escaped(content.kb)}"
        yield from [f"LSSB {owner} {name.decode()} {escaped(it)}" for name, it in content.lssbs]
    elif kind == 5:
        target = f"{content.kind.decode()} {content.target.decode()}"
        by = f"{content.user.decode()} {content.lterm.decode()}"
        yield f"JOB {key} {target} DUE {content.due} {by} {escaped(content.message)}"
    elif kind == 6:
        yield f"SHOWN {key.decode()} {escaped(content.message)}"
    elif kind == 1:
        yield f"GSSB {key.decode()} {escaped(content)}"
    else:
        yield f"{'TLS' if kind == 2 else 'ULS'} {key[0].decode()} {key[1].decode()} {escaped(content)}"


def table_lines(tables):
    """The lines of `show` for these tables."""
    return [f"CLOCK {tables.clock}", f"NEXT {tables.next}", *[it for row in tables.rows for it in row_lines(*row)]]


def shown(file, generation, fingerprint):
    """The status and the lines of `show` for a file of these bytes, and the clock where it is accepted."""
    if not file:
        return 0, ["CLOCK 0", "NEXT 1"], 0
    try:
        tables = tables_of(file)
    except NoImage:
        return 4, [NOT_A_KDCFILE], None
    if tables.fingerprint != fingerprint:
        return 4, [f"KDCFILE OTHER GENERATION {tables.fingerprint.hex()}"], None
    if not suits(tables, generation):
        return 4, [NOT_A_KDCFILE], None
    return 0, table_lines(tables), tables.clock
