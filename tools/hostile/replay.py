"""Program units done by docs/units.md and docs/codes.md, one transaction at a time: the statements that the units of
made_trails.py have. Of a trail it is asked whether an entry holds."""

import re
from collections import namedtuple

from definition import NAME, lines_of
from kdcfile import Job, Service, charged, key_of, row_of, service_of, value_of
from units import words_of

PEND_ENDS = {b"PEND FI": 0, b"PEND RE": 0, b"PEND SP": 0, b"PEND ER": 13, b"PEND FR": 14}
AREAS = {b"GB": 1, b"DA": 2, b"US": 3}
Unit = namedtuple("Unit", "fields statements labels")
Ended = namedtuple("Ended", "code variant follow")


class Differs(Exception):
    """The record is none of a run of these units."""


class Broken(Exception):
    """A cause, by its number."""


def units_read(text):
    """The units of a text without faults: their fields, statements and labels."""
    units, unit = {}, None
    for line in lines_of(text):
        words = words_of(line)
        if not words or line.startswith(b"*"):
            continue
        if words[0] == b"UNIT":
            unit = units[words[1]] = Unit({}, [], {})
        elif words[0] == b"FIELD":
            unit.fields[words[1]] = words[2], int(words[3]), int(words[4])
        elif len(words) == 1 and isinstance(words[0], bytes) and words[0].endswith(b":"):
            unit.labels[words[0][:-1]] = len(unit.statements)
        elif words[0] != b"END":
            two = words[:2] if words[0] in (b"PEND", b"SGET", b"SPUT", b"SREL", b"UNLK") else words[:1]
            unit.statements.append((b" ".join(two), words[len(two) :]))
    return units


def number_of(data):
    """The number that these bytes are in a calculation."""
    bare = data.strip(b" ")
    if not re.fullmatch(rb"[0-9]{0,18}", bare):
        raise Broken(6)
    return int(bare or b"0")


class Replay:
    """One transaction, done over tables with nobody else at work."""

    def __init__(self, application, units, tables, kept):
        self.generation, self.units = application.generation, units
        self.tables, self.kept = tables, kept
        self.notes, self.inputs = list(kept.notes), list(kept.inputs)
        self.held, self.written, self.drafts, self.put = set(), {}, [], []
        self.open()

    # ---- how it begins

    def open(self):
        generation, kept, rows = self.generation, self.kept, self.tables.rows
        owner, row = kept.owner, rows.get(kept.key)
        self.asynchronous = isinstance(owner, int)
        if kept.began != row or len(self.inputs) < 2:
            raise Differs
        tac, lterm = self.inputs.pop(0), self.inputs.pop(0)
        if tac not in generation.tacs or generation.is_asynchronous(tac) != self.asynchronous:
            raise Differs
        if lterm not in generation.lterms:
            raise Differs
        self.began = service_of(row, self.asynchronous) if row is not None else None
        self.first, self.user, self.lterm = tac, owner, lterm
        self.parts, self.message, self.job = [], None, None
        self.kb, self.lssbs, self.last = bytearray(b" " * generation.max[b"KB"]), {}, None
        following = tac
        if self.began:
            following = self.begin_with(self.began)
        elif self.asynchronous:
            self.take_job(tac)
        else:
            self.read_input()
        if self.user not in generation.users:
            raise Differs
        self.begin_unit(following)

    def begin_with(self, row):
        if row.first != self.first:
            raise Differs
        self.kb, self.lssbs, self.last = bytearray(row.kb), dict(row.lssbs), row.last
        if self.asynchronous:
            self.user, self.lterm = row.user, row.lterm
        elif row.awaits:
            self.read_input()
        else:
            self.parts = list(row.handed)
        return row.next

    def take_job(self, tac):
        self.job = key_of(5, self.kept.owner)
        if self.job not in self.tables.rows:
            raise Differs
        job = row_of(self.job, self.tables.rows[self.job])[2]
        if (job.kind, job.target) != (b"T", tac) or job.due > self.tables.clock:
            raise Differs
        self.user, self.lterm, self.message = job.user, job.lterm, job.message

    def read_input(self):
        if not self.inputs or len(self.inputs[0]) > self.generation.max[b"NB"]:
            raise Differs
        self.parts = [self.inputs.pop(0)]

    def begin_unit(self, tac):
        self.tac = tac
        self.unit = self.units[self.generation.tacs[tac].get(b"PROGRAM")]
        self.place, self.code, self.length = 0, b"000", 0
        self.spab = bytearray(b" " * self.generation.max[b"SPAB"])

    # ---- operands

    def field(self, name):
        area, at, length = self.unit.fields[name]
        return (self.kb if area == b"KB" else self.spab), at, length

    def value(self, word):
        if isinstance(word, tuple):
            return word[1]
        headers = {b"KCRCCC": self.code, b"KCRLM": b"%05d" % self.length, b"KCBENID": self.user.ljust(8)}
        headers.update({b"KCLOGTER": self.lterm.ljust(8), b"KCTACVG": self.first.ljust(8), b"KCTACAL": self.tac.ljust(8)})
        if word.startswith(b"TRIM("):
            return self.value(word[5:-1]).rstrip(b" ")
        if word.isdigit() or word in headers:
            return headers.get(word, word)
        area, at, length = self.field(word)
        return bytes(area[at : at + length])

    def store(self, name, data):
        area, at, length = self.field(name)
        area[at : at + length] = data[:length].ljust(length)

    # ---- statements

    def step(self):
        """Does the next statement; how the transaction ends by it, if it does."""
        if self.place >= len(self.unit.statements):
            raise Broken(8)
        kind, words = self.unit.statements[self.place]
        self.place += 1
        if kind.startswith(b"PEND"):
            return self.pend(kind, words)
        if kind in (b"MOVE", b"JOIN"):
            self.store(words[0], b"".join([self.value(it) for it in words[1:]]))
        elif kind in (b"ADD", b"SUB"):
            self.calculate(kind, *words)
        elif kind == b"IF":
            one, other = self.value(words[0]), self.value(words[2])
            most = max(len(one), len(other))
            one, other = one.ljust(most), other.ljust(most)
            if {b"EQ": one == other, b"NE": one != other, b"LT": one < other, b"GT": one > other}[words[1]]:
                self.place = self.unit.labels[words[3]]
        elif kind == b"JUMP":
            self.place = self.unit.labels[words[0]]
        elif kind != b"INIT":
            self.length = 0
            self.code = self.call(kind, words) or b"000"
        return None

    def calculate(self, kind, name, other):
        one, second = number_of(self.value(name)), number_of(self.value(other))
        found = one + second if kind == b"ADD" else one - second
        length = self.field(name)[2]
        if found < 0 or len(str(found)) > min(length, 18):
            raise Broken(6)
        self.store(name, str(found).encode().rjust(length, b"0"))

    def read(self, name, data):
        """Stores what a call has read."""
        self.store(name, data)
        self.length = len(data)
        return b"K02" if len(data) > self.field(name)[2] else None

    def call(self, kind, words):
        """Does a call; its code where it is not 000."""
        if kind == b"MGET":
            return self.read(words[0], self.parts.pop(0)) if self.parts else b"K01"
        if kind == b"MPUT":
            data = self.value(words[0])
            if len(self.put) == 16 or sum(map(len, self.put)) + len(data) > self.generation.max[b"NB"]:
                raise Broken(12)
            self.put.append(data)
            return None
        if kind == b"FGET":
            message, self.message = self.message, None
            return b"K01" if message is None else self.read(words[0], message)
        if kind == b"FPUT":
            return self.send(*map(self.value, words))
        name = self.value(words[0]).rstrip(b" ")
        if not NAME.fullmatch(name):
            return b"K11"
        if kind in (b"SPUT MS", b"SGET KP", b"SGET RL", b"SREL LB"):
            return self.own_area(kind, name, words[1:])
        area, form = {b"GTDA": (b"DA", b"SGET"), b"PTDA": (b"DA", b"SPUT")}.get(kind, tuple(kind.split()[::-1]))
        return self.area(form, AREAS[area], name, words[1:])

    def send(self, to, message):
        if len(message) > self.generation.max[b"NB"]:
            raise Broken(12)
        name = to.rstrip(b" ")
        if not NAME.fullmatch(name):
            return b"K11"
        tac = self.generation.tacs.get(name)
        if name in self.generation.lterms:
            self.drafts.append((b"L", name, message))
        elif tac and tac.get(b"TYPE") == b"A" and tac.get(b"CALL") != b"NEXT" and tac.get(b"STATUS") != b"OFF":
            self.drafts.append((b"T", name, message))
        else:
            return b"K08"
        return None

    def own_area(self, kind, name, words):
        if kind == b"SPUT MS":
            if name not in self.lssbs and len(self.lssbs) == self.generation.max[b"LSSBS"]:
                return b"K09"
            self.lssbs[name] = self.value(words[0])
            return None
        if name not in self.lssbs:
            return b"K03"
        content = self.lssbs.pop(name) if kind in (b"SGET RL", b"SREL LB") else self.lssbs[name]
        return None if kind == b"SREL LB" else self.read(words[0], content)

    def area(self, form, kind, name, words):
        """A call on an area that others may hold."""
        declared = {1: None, 2: self.generation.tls, 3: self.generation.uls}[kind]
        if declared is not None and name not in declared:
            return b"K08"
        key = key_of(kind, name if kind == 1 else (name, self.lterm if kind == 2 else self.user))
        if form == b"UNLK":
            return self.release(key)
        note = next((it for it in self.notes if it.key == key), None) if key not in self.held else None
        if note and note.code:
            self.notes.remove(note)
            return b"K0%d" % note.code
        self.held.add(key)
        there = self.written[key] if key in self.written else self.seen(key)
        if form == b"SPUT":
            self.written[key] = self.value(words[0])
        elif kind == 1 and there is None:
            return b"K03"
        elif form == b"SREL":
            self.written[key] = None
        else:
            return self.read(words[0], there or b"")
        return None

    def seen(self, key):
        """The content that a held area has: that of its release, if it will be released."""
        note = next((it for it in self.notes if it.key == key), None)
        return note.content if note and not note.code else self.tables.rows.get(key)

    def release(self, key):
        if key not in self.held:
            return b"K06"
        if key in self.written:
            return b"K07"
        note = next((it for it in self.notes if it.key == key), None)
        if not note or note.code:
            raise Differs
        self.notes.remove(note)
        self.held.discard(key)
        return None

    # ---- PEND

    def pend(self, kind, words):
        follow = self.value(words[0]).rstrip(b" ") if words else None
        sends = kind in (b"PEND KP", b"PEND RE") or kind == b"PEND FI" and not self.asynchronous
        if kind in (b"PEND KP", b"PEND RE") and self.asynchronous:
            raise Broken(5)
        if sends and not self.put:
            raise Broken(3)
        if kind in PEND_ENDS:
            return Ended(PEND_ENDS[kind], kind, follow)
        parts, self.put = self.put, []
        if kind == b"PEND KP":
            self.read_input()
        else:
            self.parts = parts
        self.begin_unit(follow)
        return None

    # ---- the end

    def after(self):
        """How it ends, and the tables then."""
        try:
            for _ in range(min(self.kept.statements, 100_000)):
                if self.step():
                    raise Differs
        except Broken:
            raise Differs from None
        try:
            ended = self.step()
            if not ended or self.kept.statements > 100_000:
                raise Differs
            tables = self.synced(ended) if not ended.code else self.dropped()
            code = ended.code
        except Broken as broken:
            code, tables = broken.args[0], self.dropped()
        if self.notes:
            raise Differs
        return code, tables

    def dropped(self):
        rows = dict(self.tables.rows)
        rows.pop(self.kept.key, None)
        if self.asynchronous and not self.began:
            rows.pop(self.job)
        return self.tables._replace(rows=rows)

    def synced(self, ended):
        rows, next_job = dict(self.tables.rows), self.tables.next
        for key, content in self.written.items():
            rows.pop(key, None)
            if content is not None and (content or key[0] == 1):
                rows[key] = content
        if self.job:
            rows.pop(self.job)
        for kind, target, message in self.drafts:
            job = Job(kind, target, 0, self.tables.clock, self.user, self.lterm, message)
            rows[key_of(5, next_job)] = value_of(5, job)
            next_job += 1
        rows.pop(self.kept.key, None)
        if ended.follow:
            rows[self.kept.key] = value_of(4, self.row(ended))
        tables = self.tables._replace(rows=rows, next=next_job)
        if sum(key[0] == 1 for key in rows) > self.generation.max[b"GSSBS"]:
            raise Broken(10)
        if charged([row_of(*it) for it in rows.items()], self.generation.blksize) > self.generation.max[b"PGPOOL"]:
            raise Broken(9)
        return tables

    def row(self, ended):
        """The row of the service that goes on."""
        waits = ended.variant == b"PEND RE"
        last = b"".join(self.put) if waits else self.last
        lterm = self.lterm if self.asynchronous else None
        handed = [] if waits else self.put
        lssbs = sorted(self.lssbs.items())
        return Service(self.first, ended.follow, waits, self.user, lterm, bytes(self.kb), handed, last, lssbs)
