"""A reader of definitions by docs/kdcdef.md: the generation that a text makes, or the first fault of the text."""

import re
from collections import namedtuple
from functools import lru_cache

LONGEST_TEXT = 16_777_216
BLANKS = b" \t"
NAME = re.compile(rb"[A-Za-z0-9$#@_]{1,8}")
PROGRAM_NAME = re.compile(rb"[A-Za-z0-9$#@_]{1,32}")


class Fault(Exception):
    """The first fault of a text, as it is printed."""

    def __init__(self, text, line, name):
        super().__init__(f"{text} {line} {name}")


def lines_of(text):
    """The lines of a text, without their ends. After the last line feed there is no further one."""
    *whole, last = text.split(b"\n")
    return [it[:-1] if it.endswith(b"\r") else it for it in whole] + [last] * bool(last)


# ---- The form: statements of a keyword and operands

Statement = namedtuple("Statement", "line keyword operands")
Operand = namedtuple("Operand", "key form value")  # the form is word, quoted or list
SPELLING = ("NotAscii", "OpenQuote", "OpenParen", "DanglingContinuation", "BadOperand")
TOKEN = re.compile(
    rb"(?P<blank>[ \t]+)|X'(?P<hex>[0-9A-Fa-f]*)'|C?'(?P<quoted>(?:[^']|'')*)'"
    rb"|(?P<sign>[,=()])|(?P<word>[^ \t,=()']+)"
)


class BadOperand(Exception):
    pass


def is_comment(line):
    bare = line.lstrip(BLANKS)
    return bare.startswith(b"*") or re.split(rb"[ \t,=()']", bare)[0].upper() == b"REMARK"


def groups_of(text):
    """The statements as they are written: first and last line, the joined text, and whether it goes on at the end."""
    lines = lines_of(text)
    place = 0
    while place < len(lines):
        first, line = place, lines[place]
        place += 1
        if not line.strip(BLANKS) or is_comment(line):
            continue
        joined, bare = b"", line.rstrip(BLANKS)
        while bare[-1:] in (b"-", b"\\"):
            joined += bare[:-1]
            if place == len(lines):
                break
            line = lines[place]
            place += 1
            bare = line.rstrip(BLANKS)
        else:
            yield first + 1, place, joined + line, False
            continue
        yield first + 1, place, joined, True


@lru_cache(5000)
def tokens_of(joined):
    """The signs, words and quoted values of a statement, and a blank wherever there are some."""
    found, place = [], 0
    while place < len(joined):
        token = TOKEN.match(joined, place)
        if not token or token["hex"] and len(token["hex"]) % 2:
            raise BadOperand
        place = token.end()
        if token["hex"] is not None:
            found.append(("quoted", bytes.fromhex(token["hex"].decode())))
        elif token["quoted"] is not None:
            found.append(("quoted", token["quoted"].replace(b"''", b"'")))
        else:
            kind = token.lastgroup
            found.append((kind, token[kind]))
    return found


class Tokens:
    """The tokens of a statement, read from the left."""

    def __init__(self, joined):
        self.all = list(tokens_of(joined.strip(BLANKS)))

    def skip(self):
        while self.all and self.all[0][0] == "blank":
            self.all.pop(0)

    def next_is(self, *kinds):
        """Whether a token of one of these kinds is next; a sign is a kind of its own."""
        return bool(self.all) and (self.all[0][1] if self.all[0][0] == "sign" else self.all[0][0]) in kinds

    def take(self, *kinds):
        if not self.next_is(*kinds):
            raise BadOperand
        return self.all.pop(0)

    def taken(self, sign):
        """Takes the sign, with the blanks around it, if it is next."""
        self.skip()
        if not self.next_is(sign):
            return False
        self.all.pop(0)
        self.skip()
        return True


def items_of(tokens):
    """The items of a list whose parenthesis was taken; an empty one is None."""
    items = []
    while True:
        tokens.skip()
        items.append(tokens.take("word", "quoted") if tokens.next_is("word", "quoted") else None)
        if tokens.taken(b")"):
            return items
        if not tokens.taken(b","):
            raise BadOperand


def value_of(tokens):
    if tokens.taken(b"("):
        return "list", items_of(tokens)
    return tokens.take("word", "quoted")


def operand_of(tokens):
    form, value = value_of(tokens)
    if form == "word" and tokens.taken(b"="):
        return Operand(value.upper(), *value_of(tokens))
    return Operand(None, form, value)


@lru_cache(20000)
def statement_of(line, joined):
    tokens = Tokens(joined)
    keyword = tokens.take("word")[1].upper()
    operands = []
    if tokens.all:
        if not tokens.next_is("blank", b"("):
            raise BadOperand
        tokens.skip()
        operands.append(operand_of(tokens))
        while tokens.taken(b","):
            operands.append(operand_of(tokens))
        if tokens.all:
            raise BadOperand
    return Statement(line, keyword, operands)


@lru_cache(20000)
def spelling_fault(joined):
    """What is wrong with a statement but its operands: a number of the list, or none."""
    if any(it != 0x09 and not 0x20 <= it <= 0x7E for it in joined):
        return 0
    if joined.count(b"'") % 2:
        return 1
    bare = b"".join(joined.split(b"'")[::2])
    if b"(" in bare and b")" not in bare[bare.rindex(b"(") :]:
        return 2
    return None


def spelled(text):
    """The statements of a text."""
    if len(text) > LONGEST_TEXT:
        raise Fault("DEF", 0, "TextTooLong")
    statements, faults = [], []
    for first, last, joined, dangling in groups_of(text):
        if dangling:
            faults.append((last, 3))
        number = spelling_fault(joined)
        if number is None:
            try:
                statements.append(statement_of(first, joined))
            except BadOperand:
                number = 4
        if number is not None:
            faults.append((first, number))
    if faults:
        line, number = min(faults)
        raise Fault("DEF", line, SPELLING[number])
    return statements


# ---- What each statement says

PASSED = b"FORMSYS ROOT OPTION EXIT MESSAGE BCAMAPPL RESERVE SIGNON ACCOUNT".split()
SIZES = {b"2K": 2048, b"4K": 4096, b"8K": 8192}


class Wrong(Exception):
    """A value is none of those of its operand."""


def named(form, value, pattern=NAME):
    if form == "list":
        raise Wrong("BadChoice")
    if form != "word" or not pattern.fullmatch(value):
        raise Wrong("BadName")
    return value


def program_named(form, value):
    return named(form, value, PROGRAM_NAME)


def number_in(least, most):
    def read(form, value):
        if form == "list":
            form, value = value[0] or ("nothing", b"")
        if form != "word" or not re.fullmatch(rb"[0-9]{1,18}", value):
            raise Wrong("BadNumber")
        if not least <= int(value) <= most:
            raise Wrong("OutOfRange")
        return int(value)

    return read


def choice_of(*choices, refused=()):
    def read(form, value):
        if form == "word" and value.upper() in refused:
            raise Wrong("NotInProfile")
        if form != "word" or value.upper() not in choices:
            raise Wrong("BadChoice")
        return value.upper()

    return read


def file_said(form, value):
    """Whether the KDCFILE is double."""
    if form == "list":
        if len(value) != 2 or not all(it and it[0] == "word" for it in value):
            raise Wrong("BadChoice")
        return choice_of(b"SINGLE", b"DOUBLE")(*value[1]) == b"DOUBLE"
    if form != "word":
        raise Wrong("BadChoice")
    return False


def password(form, value):
    if form == "list":
        raise Wrong("BadChoice")
    if not 1 <= len(value) <= 16:
        raise Wrong("OutOfRange")
    return value


def codes(form, value):
    if form == "word" and value.upper() == b"MASTER":
        return "all"
    faults, found = set(), []
    for item in value if form == "list" else [(form, value)]:
        try:
            found.append(number_in(1, 4000)(*(item or ("nothing", b""))))
        except Wrong as wrong:
            faults.add(str(wrong))
    if faults:
        raise Wrong(min(faults))
    return found


def not_in_profile(form, value):
    raise Wrong("NotInProfile")


TABLE = {
    b"MAX": {
        b"APPLINAME": named,
        b"KDCFILE": file_said,
        b"TASKS": number_in(1, 240),
        b"ASYNTASKS": number_in(0, 240),
        b"GSSBS": number_in(0, 30000),
        b"LSSBS": number_in(0, 1000),
        b"KB": number_in(0, 32767),
        b"SPAB": number_in(0, 32767),
        b"NB": number_in(1, 32700),
        b"PGPOOL": number_in(16, 30000),
        b"RESWAIT": number_in(0, 32767),
        b"BLKSIZE": choice_of(*SIZES),
        b"APPLIMODE": choice_of(b"SECURE", refused=(b"FAST",)),
        b"REDELIVERY": number_in(0, 255),
    },
    b"PROGRAM": {None: program_named},
    b"TAC": {
        None: named,
        b"PROGRAM": program_named,
        b"TYPE": choice_of(b"D", b"A"),
        b"CALL": choice_of(b"BOTH", b"FIRST", b"NEXT"),
        b"STATUS": choice_of(b"ON", b"OFF"),
        b"TACCLASS": number_in(1, 16),
        b"TIME": number_in(0, 100000),
        b"LOCK": number_in(1, 4000),
    },
    b"USER": {None: named, b"PASS": password, b"RESTART": choice_of(b"YES", b"NO"), b"KSET": named},
    b"PTERM": {None: named, b"LTERM": named},
    b"LTERM": {None: named, b"USAGE": choice_of(b"D", b"O"), b"KSET": named, b"LOCK": not_in_profile},
    b"TLS": {None: named},
    b"ULS": {None: named},
    b"TACCLASS": {None: number_in(1, 16), b"TASKS": number_in(0, 240)},
    b"KSET": {None: named, b"KEYS": codes},
    b"END": {},
}
REQUIRED = {b"TAC": [b"PROGRAM"], b"KSET": [b"KEYS"]}


class Said:
    """What a statement says: its values by key, its first one under None, and how many operands were passed over."""

    def __init__(self, statement, before):
        self.line = statement.line
        self.kind = statement.keyword
        self.values = {}
        self.passed = 0
        table = TABLE[self.kind]
        for place, operand in enumerate(statement.operands):
            known = operand.key in table and (operand.key or not place)
            if not known:
                self.passed += 1
            elif operand.key in self.values or operand.key in before:
                raise Wrong("OperandTwice")
            else:
                self.values[operand.key] = table[operand.key](operand.form, operand.value)
        needed = [None] * (None in table) + REQUIRED.get(self.kind, [])
        if any(it not in self.values for it in needed):
            raise Wrong("OperandMissing")

    def get(self, key, default=None):
        return self.values.get(key, default)


def statements_said(statements):
    """What the statements say, and how many of the passed ones there are."""
    said, passed, of_max, ended = [], 0, set(), False
    for statement in statements:
        try:
            if ended:
                raise Wrong("AfterEnd")
            if statement.keyword in PASSED:
                passed += 1
                continue
            if statement.keyword not in TABLE:
                raise Wrong("UnknownStatement")
            said.append(Said(statement, of_max if statement.keyword == b"MAX" else ()))
        except Wrong as wrong:
            raise Fault("DEF", statement.line, wrong) from None
        ended = statement.keyword == b"END"
        if statement.keyword == b"MAX":
            of_max |= set(said[-1].values)
    if not ended:
        raise Fault("DEF", statements[-1].line + 1 if statements else 1, "NoEnd")
    return said, passed


# ---- What they say together

TOGETHER = (
    "NameTwice NoProgram NoLterm LtermTwice NoMax ClassOfWrongKind PoolTooSmall NoUser TooMany NoKset"
    " PoolForDouble"
).split()
LIMITS = {b"TASKS": 1, b"GSSBS": 32, b"LSSBS": 8, b"KB": 512, b"SPAB": 512, b"NB": 2048, b"PGPOOL": 100}


class Generation:
    """What the statements together make."""

    def __init__(self, said, passed):
        self.said = [it for it in said if it.kind != b"PTERM" or it.get(b"LTERM")]
        self.passed_statements = passed + len(said) - len(self.said)
        self.passed_operands = sum(it.passed for it in said)
        self.max = dict(LIMITS)
        for it in self.of(b"MAX"):
            self.max.update(it.values)
        # The line of the MAX that says DOUBLE.
        self.double = next((it.line for it in self.of(b"MAX") if it.get(b"KDCFILE")), None)
        self.blksize = SIZES[self.max.get(b"BLKSIZE", b"4K")]
        self.programs = {it.get(None): it.line for it in self.of(b"PROGRAM")}
        self.tacs = {it.get(None): it for it in self.of(b"TAC")}
        self.users = {it.get(None): it.get(b"RESTART") != b"NO" for it in self.of(b"USER")}
        self.lterms = {it.get(None): it.get(b"USAGE", b"D") for it in self.of(b"LTERM")}
        self.pterms = {it.get(None): it.get(b"LTERM") for it in self.of(b"PTERM")}
        self.tls = {it.get(None) for it in self.of(b"TLS")}
        self.uls = {it.get(None) for it in self.of(b"ULS")}
        faults = [(line, TOGETHER.index(name)) for line, name in self.faults()]
        if faults:
            line, number = min(faults)
            raise Fault("DEF", line, TOGETHER[number])

    def of(self, kind):
        return [it for it in self.said if it.kind == kind]

    def is_asynchronous(self, tac):
        return self.tacs[tac].get(b"TYPE") == b"A"

    def faults(self):
        yield from self.faults_of_names()
        yield from self.faults_of_terminals()
        end = self.said[-1].line
        if b"APPLINAME" not in self.max:
            yield end, "NoMax"
        restarted = sum(it.get(b"RESTART") != b"NO" for it in self.of(b"USER"))
        if self.max[b"PGPOOL"] < restarted + len(self.of(b"LTERM")):
            yield end, "PoolTooSmall"
        if not self.of(b"USER"):
            yield end, "NoUser"
        if self.double and self.max[b"PGPOOL"] == 30000:
            yield end, "PoolForDouble"

    def faults_of_names(self):
        seen = set()
        for it in self.said:
            # A TAC and an LTERM may not have one name.
            key = (b"TAC" if it.kind == b"LTERM" else it.kind, it.get(None))
            if it.kind not in (b"MAX", b"END") and key in seen:
                yield it.line, "NameTwice"
            seen.add(key)
        for it in self.of(b"TAC"):
            if it.get(b"PROGRAM") not in self.programs:
                yield it.line, "NoProgram"
            least, most = (9, 16) if it.get(b"TYPE") == b"A" else (1, 8)
            if not least <= it.get(b"TACCLASS", least) <= most:
                yield it.line, "ClassOfWrongKind"
        ksets = {it.get(None) for it in self.of(b"KSET")}
        for it in self.of(b"USER") + self.of(b"LTERM"):
            if it.get(b"KSET", None) not in ksets | {None}:
                yield it.line, "NoKset"

    def faults_of_terminals(self):
        taken = set()
        for it in self.of(b"PTERM"):
            lterm = it.get(b"LTERM")
            if lterm not in self.lterms:
                yield it.line, "NoLterm"
            if lterm in taken:
                yield it.line, "LtermTwice"
            taken.add(lterm)

    def report(self):
        """The lines of `gen`."""
        counts = [len(self.of(it)) for it in (b"USER", b"PTERM", b"LTERM", b"TAC", b"PROGRAM")]
        return [
            f"GEN {self.max[b'APPLINAME'].decode()}",
            "USERS {} PTERMS {} LTERMS {} TACS {} PROGRAMS {}".format(*counts),
            f"PASSED STATEMENTS {self.passed_statements} OPERANDS {self.passed_operands}",
            "KDCFILE READY",
        ]


def generation_of(text):
    """The generation that a definition makes; or its first fault is raised."""
    return Generation(*statements_said(spelled(text)))
