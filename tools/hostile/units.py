"""A reader of program units by docs/units.md, and of scripts by docs/scripts.md: the first fault of a text, if any."""

import re
from functools import lru_cache

from definition import LONGEST_TEXT, PROGRAM_NAME, Fault, lines_of

LOCAL_NAME = re.compile(rb"[A-Za-z][A-Za-z0-9_]{0,15}")
HEADERS = b"KCBENID KCLOGTER KCTACVG KCTACAL KCRCCC KCRLM".split()
LITERAL = re.compile(rb"'((?:[^']|'')*)'(?=[ \t]|\Z)")
WORD = re.compile(rb"[^ \t]+")
# The pieces of each statement behind its words: f a field, o an operand, r a relation, l a label, m a mode.
STATEMENTS = {
    b"MOVE": "fo", b"JOIN": "foo", b"ADD": "fo", b"SUB": "fo", b"MUL": "fo", b"DIV": "fo", b"IF": "orol",
    b"JUMP": "l", b"INIT": "", b"MGET": "f", b"MPUT": "o", b"FGET": "f", b"FPUT": "oo", b"DPUT": "omooooo",
    b"SGET GB": "of", b"SPUT GB": "oo", b"SREL GB": "o", b"SGET KP": "of", b"SGET RL": "of", b"SPUT MS": "oo",
    b"SREL LB": "o", b"SGET US": "of", b"SPUT US": "oo", b"GTDA": "of", b"PTDA": "oo",
    b"UNLK GB": "o", b"UNLK US": "o", b"UNLK DA": "o",
    **{b"PEND " + it: "o" for it in (b"KP", b"PR", b"PA", b"RE", b"SP", b"FC")},
    **{b"PEND " + it: "" for it in (b"FI", b"FR", b"ER", b"RS")},
}
CHOICES = {"r": (b"EQ", b"NE", b"LT", b"GT"), "m": (b"R", b"A")}


class BadStatement(Exception):
    pass


@lru_cache(20000)
def words_of(line):
    """The words of a line; a literal is a pair of None and its bytes."""
    found, place = [], 0
    while place < len(line):
        if line[place] in b" \t":
            place += 1
            continue
        if line[place] == 0x27:
            word = LITERAL.match(line, place)
            if not word or len(word[1].replace(b"''", b"'")) > 32767:
                raise BadStatement
            found.append((None, word[1].replace(b"''", b"'")))
        else:
            word = WORD.match(line, place)
            if not all(0x20 <= it <= 0x7E for it in word[0]):
                raise BadStatement
            found.append(word[0])
        place = word.end()
    return found


class Unit:
    """A unit as far as it was read."""

    def __init__(self, name):
        self.name = name
        self.fields = {}  # by name: line, area, and where it ends
        self.labels = set()
        self.used_labels = []
        self.follow_ups = []
        self.begun = False

    def field(self, words, line):
        """A FIELD line; whether there is such a field already."""
        if len(words) != 5 or not all(isinstance(it, bytes) for it in words) or self.begun:
            raise BadStatement
        _, name, area, *numbers = words
        if not LOCAL_NAME.fullmatch(name) or name in HEADERS or area not in (b"KB", b"SPAB"):
            raise BadStatement
        if not all(re.fullmatch(rb"[0-9]{1,18}", it) for it in numbers):
            raise BadStatement
        offset, length = map(int, numbers)
        if offset > 32767 or not 1 <= length <= 32767:
            raise BadStatement
        if name in self.fields:
            return True
        self.fields[name] = line, area, offset + length
        return False

    def is_bad_field(self, name):
        """Whether a word in the form of a field names none."""
        return name in HEADERS or name not in self.fields

    def operand(self, word):
        """An operand; whether it is a bad field."""
        if isinstance(word, tuple):
            return False
        trimmed = re.fullmatch(rb"TRIM\((.*)\)", word)
        name = trimmed[1] if trimmed else word
        if not trimmed and (re.fullmatch(rb"[0-9]{1,18}", word) or word in HEADERS):
            return False
        if not LOCAL_NAME.fullmatch(name):
            raise BadStatement
        return self.is_bad_field(name)

    def piece(self, form, word):
        """A piece of this form; whether it is a bad field."""
        if form == "o":
            return self.operand(word)
        if not isinstance(word, bytes):
            raise BadStatement
        if form in CHOICES:
            if word not in CHOICES[form]:
                raise BadStatement
            return False
        if not LOCAL_NAME.fullmatch(word):
            raise BadStatement
        return form == "f" and self.is_bad_field(word)

    def statement(self, words, line):
        """A statement; whether it names a bad field."""
        for count in (2, 1):
            kind = b" ".join(words[:count]) if all(isinstance(it, bytes) for it in words[:count]) else None
            if len(words) >= count and kind in STATEMENTS:
                break
        else:
            raise BadStatement
        forms, pieces = STATEMENTS[kind], words[count:]
        if len(forms) != len(pieces):
            raise BadStatement
        bad = [self.piece(form, word) for form, word in zip(forms, pieces)]
        if kind in (b"IF", b"JUMP"):
            self.used_labels.append((line, pieces[-1]))
        if kind.startswith(b"PEND") and pieces and isinstance(pieces[0], tuple):
            self.follow_ups.append((line, pieces[0][1]))
        return any(bad)


class Reader:
    """The units of a text, line by line."""

    def __init__(self):
        self.units = []
        self.open = None

    def unit_line(self, words):
        if len(words) != 2 or not isinstance(words[1], bytes) or not PROGRAM_NAME.fullmatch(words[1]):
            raise BadStatement
        if self.open:
            return "NoEnd"
        if any(it.name == words[1] for it in self.units):
            return "UnitTwice"
        if len(self.units) == 1000:
            return "TooLong"
        self.open = Unit(words[1])
        self.units.append(self.open)
        return None

    def line(self, number, line):
        """Reads a line; returns its fault, if any."""
        words = words_of(line)
        if words[0] == b"UNIT":
            return self.unit_line(words)
        unit = self.open
        if not unit:
            raise BadStatement
        if words[0] == b"END":
            if len(words) != 1:
                raise BadStatement
            self.open = None
            return None
        if words[0] == b"FIELD":
            return "BadField" if unit.field(words, number) else None
        unit.begun = True
        if len(words) == 1 and isinstance(words[0], bytes) and words[0].endswith(b":"):
            return self.label(words[0][:-1])
        return "BadField" if unit.statement(words, number) else None

    def label(self, name):
        if not LOCAL_NAME.fullmatch(name):
            raise BadStatement
        if name in self.open.labels:
            return "LabelTwice"
        self.open.labels.add(name)
        return None


def units_of(text):
    """The units of a text; or its first fault is raised."""
    if len(text) > LONGEST_TEXT:
        raise Fault("UNITS", 0, "TooLong")
    reader = Reader()
    lines = lines_of(text)
    for number, line in enumerate(lines, 1):
        if line.startswith(b"*") or not line.strip(b" \t"):
            continue
        try:
            fault = reader.line(number, line)
        except BadStatement:
            fault = "BadStatement"
        if fault:
            raise Fault("UNITS", number, fault)
    if reader.open:
        raise Fault("UNITS", len(lines) + 1, "NoEnd")
    return reader.units


def fit(units, generation):
    """Raises the first fault of units that do not fit a generation."""
    names = {it.name for it in units}
    for program, line in generation.programs.items():
        if program not in names:
            raise Fault("DEF", line, "NoUnit")
    areas = {b"KB": generation.max[b"KB"], b"SPAB": generation.max[b"SPAB"]}
    faults = []
    for unit in units:
        faults += [(line, "FieldPastArea") for line, area, end in unit.fields.values() if end > areas[area]]
        faults += [(line, "NoLabel") for line, label in unit.used_labels if label not in unit.labels]
        faults += [(line, "LiteralFollowUp") for line, it in unit.follow_ups if it.rstrip(b" ") not in generation.tacs]
    if faults:
        raise Fault("UNITS", *min(faults))


# ---- Scripts


def number_said(word, least, most):
    if not re.fullmatch(rb"[0-9]+", word):
        return "BadLine"
    return None if len(word) <= 18 and least <= int(word) <= most else "OutOfRange"


def input_fault(line, generation):
    name, _, text = line[3:].partition(b" ")
    said = generation.lterms.get(generation.pterms.get(name)) == b"D" and all(0x20 <= it <= 0x7E for it in text)
    return None if said and line[2:3] == b" " else "BadLine"


def command_fault(line, generation):
    """What is wrong with a line of a script, if anything is."""
    if line == b"IN" or line.startswith(b"IN "):
        return input_fault(line, generation)
    words = [it for it in line.split(b" ") if it]
    usage = {it: generation.lterms[lterm] for it, lterm in generation.pterms.items()}
    ranges = {b"TICK": (0, 999_999_999_999), b"RUN": (0, 1_000_000), b"TURN": (1, generation.max[b"TASKS"])}
    if line.startswith(b" "):
        return "BadLine"
    if len(words) == 2 and words[0] in ranges:
        return number_said(words[1], *ranges[words[0]])
    is_command = (
        words == [b"RESTART"]
        or len(words) == 2 and words[0] == b"DROP" and usage.get(words[1]) == b"D"
        or len(words) == 2 and words[0] == b"PRINT" and usage.get(words[1]) == b"O"
        or len(words) == 3 and words[0] == b"PRINT" and usage.get(words[1]) == b"O" and words[2] == b"LAST"
    )
    return None if is_command else "BadLine"


def read_script(text, generation):
    """Raises the first fault of a script."""
    lines = [(it, line) for it, line in enumerate(lines_of(text), 1) if line.strip(b" ") and line[:1] != b"*"]
    if len(text) > LONGEST_TEXT or len(lines) > 1_000_000:
        raise Fault("SCRIPT", 0, "TooLong")
    for number, line in lines:
        fault = command_fault(line, generation)
        if fault:
            raise Fault("SCRIPT", number, fault)
