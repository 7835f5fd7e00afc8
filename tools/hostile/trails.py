"""A reader of trails by docs/trail.md: the first fault of a text, or the first entry that does not hold, by the replay of
replay.py."""

import re
from collections import namedtuple

from definition import LONGEST_TEXT, NAME, lines_of
from kdcfile import LAST_CLOCK, NoImage, Tables, key_of, row_of, service_of, suits
from replay import Differs, Replay

HEX = re.compile(rb"(?:[0-9a-f]{2})+")
NUMBER = re.compile(rb"[0-9]{1,18}")
Trail = namedtuple("Trail", "fingerprint start entries")
Entry = namedtuple("Entry", "by clock next changes")
Kept = namedtuple("Kept", "key owner began inputs notes statements ending")
Note = namedtuple("Note", "key code content")
State = namedtuple("State", "clock next rows")  # the rows by their keys, as records


class BadLine(Exception):
    """A line that may not be there; its number is the reason."""


def demands(condition):
    if not condition:
        raise BadLine


def number(word):
    demands(NUMBER.fullmatch(word))
    return int(word)


def data(word):
    demands(word == b"-" or HEX.fullmatch(word))
    return b"" if word == b"-" else bytes.fromhex(word.decode())


# ---- What a transaction kept


class Bytes:
    """Bytes, read from the front."""

    def __init__(self, left):
        self.left = left

    def take(self, length):
        demands(len(self.left) >= length)
        taken, self.left = self.left[:length], self.left[length:]
        return taken

    def number(self, length):
        return int.from_bytes(self.take(length), "big")

    def list(self):
        return self.take(self.number(4))

    def flag(self):
        flag = self.number(1)
        demands(flag < 2)
        return flag == 1


def key_is_right(key, value):
    """The row that has this key, of which the value is no matter."""
    demands(len(key) == 25)
    try:
        if key[0] == 4:
            demands(key[1:2] in (b"A", b"D") and not any(key[10:]))
            if key[1:2] == b"A":
                return int.from_bytes(key[2:10], "big")
            return row_of(b"\x01" + key[2:10] + bytes(16), b"")[1]
        if key[0] == 5:
            demands(not any(key[9:]))
            return int.from_bytes(key[1:9], "big")
        if key[0] == 6:
            return row_of(b"\x01" + key[1:], b"")[1]
        demands(key[0] in (1, 2, 3))
        return row_of(key, value)[1]
    except NoImage:
        raise BadLine from None


def kept_of(text):
    """What a T line has."""
    it = Bytes(data(text))
    key = b"\x04" + it.take(24)
    owner = key_is_right(key, b"x")
    began = it.list() if it.flag() else None
    if began is not None:
        try:
            service_of(began, isinstance(owner, int))
        except NoImage:
            raise BadLine from None
    count = it.number(8)
    demands(4 * count <= len(it.left))
    inputs = [it.list() for _ in range(count)]
    count = it.number(8)
    demands(27 * count <= len(it.left))
    notes = [note_of(it) for _ in range(count)]
    statements, ending = it.number(8), it.number(1)
    demands(not it.left and ending < 15 and statements <= 10**12)
    return Kept(key, owner, began, inputs, notes, statements, ending)


def note_of(it):
    kind, key = it.number(1), it.take(25)
    demands(kind in (1, 2) and key[0] in (1, 2, 3))
    key_is_right(key, b"x")
    if kind == 1:
        return Note(key, 0, it.list() if it.flag() else None)
    code = it.number(1)
    demands(code in (4, 5))
    return Note(key, code, None)


# ---- The lines


class Reader:
    """A trail, line by line."""

    def __init__(self):
        self.place = "TRAIL"
        self.fingerprint = self.start = None
        self.entries = []
        self.last = None  # the key before

    def line(self, line):
        words = line.split(b" ")
        first, rest = words[0], words[1:]
        if self.place in ("TRAIL", "START", "C"):
            demands(first == self.place.encode())
        if first == b"TRAIL":
            demands(self.place == "TRAIL" and len(rest) == 1 and len(rest[0]) == 64)
            self.fingerprint, self.place = data(rest[0]), "START"
        elif first == b"START":
            demands(self.place == "START" and len(rest) == 2)
            self.start, self.place, self.last = State(*map(number, rest), {}), "rows", b""
        elif first == b"C":
            demands(self.place == "C" and len(rest) == 2)
            self.entries.append(Entry(self.by, *map(number, rest), {}))
            self.place, self.last = "changes", b""
        elif first in (b"S", b"D"):
            self.change(first, rest)
        elif first in (b"N", b"O", b"T"):
            demands(self.place in ("rows", "changes") and len(rest) == 1)
            reads = {b"N": number, b"O": self.name, b"T": kept_of}[first]
            self.by, self.place = (first, reads(rest[0])), "C"
        else:
            demands(first == b"END" and not rest and self.place in ("rows", "changes"))
            self.place = "after"

    @staticmethod
    def name(word):
        demands(NAME.fullmatch(word))
        return word

    def change(self, first, rest):
        demands(self.place in ("rows", "changes") and len(rest) == (3 if first == b"S" else 2))
        demands(first == b"S" or self.place == "changes")
        kind = number(rest[0])
        demands(1 <= kind <= 6 and len(rest[1]) == 48)
        key = bytes([kind]) + data(rest[1])
        demands(key > self.last)
        self.last = key
        if first == b"D":
            key_is_right(key, b"x")
            self.entries[-1].changes[key] = None
            return
        value = data(rest[2])
        try:
            row_of(key, value)
        except NoImage:
            raise BadLine from None
        (self.start.rows if self.place == "rows" else self.entries[-1].changes)[key] = value


def trail_of(text):
    """The trail of a text, or the line of its fault as the reason of BadLine."""
    reader, lines = Reader(), lines_of(text)
    for place, line in enumerate(lines, 1):
        try:
            demands(reader.place != "after")
            reader.line(line)
        except BadLine:
            raise BadLine(place) from None
    if reader.place != "after":
        raise BadLine(len(lines) + 1)
    return Trail(reader.fingerprint, reader.start, reader.entries)


# ---- Whether entries hold


def tables_at(state, fingerprint, generation):
    rows = [row_of(key, state.rows[key]) for key in sorted(state.rows)]
    return Tables(fingerprint, state.clock, state.next, generation.blksize, generation.max[b"PGPOOL"], rows)


def shown_at(state, lterm):
    """The tables after the message that is due first was shown at an LTERM."""
    due = []
    for key, value in state.rows.items():
        if key[0] == 5:
            _, number, job = row_of(key, value)
            if (job.kind, job.target) == (b"L", lterm) and job.due <= state.clock:
                due.append((job.due, number, key))
    if not due:
        raise Differs
    key = min(due)[2]
    rows = {it: value for it, value in state.rows.items() if it != key}
    rows[key_of(6, lterm)] = state.rows[key]
    return state._replace(rows=rows)


def after_entry(application, units, state, entry):
    """The tables after an entry; Differs is raised where it does not hold."""
    kind, said = entry.by
    if kind == b"N":
        after = state._replace(clock=state.clock + said)
        holds_entry(after.clock <= LAST_CLOCK)
    elif kind == b"O":
        after = shown_at(state, said)
    else:
        code, after = Replay(application, units, state, said).after()
        holds_entry(code == said.ending)
    changes = {key: after.rows.get(key) for key in {*state.rows, *after.rows} if state.rows.get(key) != after.rows.get(key)}
    holds_entry((after.clock, after.next, changes) == (entry.clock, entry.next, entry.changes))
    return after


def holds_entry(condition):
    if not condition:
        raise Differs


def audited(text, application, units):
    """The status and the line of `audit`, and the tables at the end where all entries hold."""
    if len(text) > LONGEST_TEXT:
        return 3, "TRAIL 0 TooLong", None
    try:
        trail = trail_of(text)
    except BadLine as bad:
        return 3, f"TRAIL {bad.args[0]} BadLine", None
    if trail.fingerprint != application.fingerprint:
        return 3, "TRAIL 1 OtherGeneration", None
    if not suits(tables_at(trail.start, trail.fingerprint, application.generation), application.generation):
        return 3, "TRAIL 2 NotSuited", None
    state = trail.start
    for place, entry in enumerate(trail.entries, 1):
        try:
            state = after_entry(application, units, state, entry)
        except Differs:
            return 8, f"AUDIT {place}", None
    return 0, f"AUDIT OK {len(trail.entries)}", tables_at(state, trail.fingerprint, application.generation)
