"""Made trails: days of an application, whose trails `utm trail` makes, and each of these with one change: a digit, a word,
a line that goes, comes twice or is moved, another fingerprint, other ends of lines. What `audit` answers is said by the
reader in trails.py, which does each transaction once more by itself; so of a trail without a change it is asked whether
all of it holds, and whether its last tables are those that a run has stored."""

import re
from functools import lru_cache

from cases import Book, Broken, text_lines
from kdcfile import table_lines
from made_files import Application
from replay import units_read
from trails import audited

DEFINITION = b"""MAX APPLINAME=DAYS,TASKS=2,ASYNTASKS=1,KB=16,SPAB=64,NB=60,PGPOOL=64,BLKSIZE=2K,RESWAIT=1,GSSBS=9,LSSBS=2
PROGRAM ADDUP
PROGRAM MOVES
PROGRAM ORDER
PROGRAM COUNT
PROGRAM KEEP
PROGRAM KEPT
PROGRAM SEEK
PROGRAM PREFS
PROGRAM FAIL
PROGRAM BACK
PROGRAM STEP
PROGRAM STEP2
PROGRAM LISTS
PROGRAM NOTE
PROGRAM LONG
PROGRAM LONG2
TAC ADDUP,PROGRAM=ADDUP
TAC MOVES,PROGRAM=MOVES
TAC ORDER,PROGRAM=ORDER
TAC COUNT,PROGRAM=COUNT,CALL=NEXT
TAC KEEP,PROGRAM=KEEP
TAC KEPT,PROGRAM=KEPT,CALL=NEXT
TAC SEEK,PROGRAM=SEEK
TAC PREFS,PROGRAM=PREFS
TAC FAIL,PROGRAM=FAIL
TAC BACK,PROGRAM=BACK
TAC STEP,PROGRAM=STEP
TAC STEP2,PROGRAM=STEP2,CALL=NEXT
TAC LISTS,PROGRAM=LISTS
TAC NOTE,PROGRAM=NOTE,TYPE=A
TAC LONG,PROGRAM=LONG,TYPE=A
TAC LONG2,PROGRAM=LONG2,TYPE=A,CALL=NEXT
USER U1
USER U2
LTERM L1
LTERM L2
LTERM L3,USAGE=O
PTERM P1,LTERM=L1
PTERM P2,LTERM=L2
PTERM P3,LTERM=L3
TLS T1
ULS S1
END
"""
UNITS = b"""UNIT ADDUP
FIELD amount SPAB 0 4
FIELD count SPAB 4 6
INIT
MGET amount
SGET GB 'CNT' count
ADD count amount
SPUT GB 'CNT' count
MPUT count
PEND FI
END
UNIT MOVES
FIELD text SPAB 0 12
FIELD payer SPAB 0 4
FIELD payee SPAB 4 4
FIELD amount SPAB 8 4
FIELD has SPAB 12 6
FIELD gets SPAB 18 6
INIT
MGET text
IF payer EQ payee same
SGET GB payer has
IF KCRCCC EQ 'K04' refused
IF KCRCCC EQ 'K05' refused
ADD has 50
SGET GB payee gets
IF KCRCCC EQ 'K04' refused
IF KCRCCC EQ 'K05' refused
SUB has amount
ADD gets amount
SPUT GB payer has
SPUT GB payee gets
MPUT has
MPUT gets
PEND FI
same:
MPUT 'ONE'
PEND FI
refused:
MPUT KCRCCC
PEND FI
END
UNIT ORDER
FIELD item KB 0 8
INIT
MGET item
SPUT MS 'ITEM' TRIM(item)
MPUT 'HOW MANY '
MPUT TRIM(item)
PEND RE 'COUNT'
END
UNIT COUNT
FIELD item KB 0 8
FIELD many SPAB 0 4
FIELD line SPAB 4 24
INIT
MGET many
SGET RL 'ITEM' line
JOIN line TRIM(many) TRIM(line)
FPUT 'NOTE' TRIM(line)
FPUT 'L3' KCBENID
MPUT item
PEND FI
END
UNIT KEEP
FIELD name KB 0 8
FIELD has SPAB 0 8
INIT
MGET name
SGET GB name has
MPUT has
PEND KP 'KEPT'
END
UNIT KEPT
FIELD name KB 0 8
FIELD text SPAB 0 8
INIT
MGET text
SPUT GB name text
MPUT KCRCCC
PEND FI
END
UNIT SEEK
FIELD name SPAB 0 4
FIELD has SPAB 4 2
INIT
MGET name
SGET GB name has
IF KCRCCC EQ 'K04' end
IF KCRCCC EQ 'K05' end
UNLK GB name
UNLK GB 'CNT'
end:
MPUT KCRLM
MPUT has
PEND FI
END
UNIT PREFS
FIELD text SPAB 0 8
FIELD old SPAB 8 8
INIT
MGET text
SGET US 'S1' old
SPUT US 'S1' TRIM(text)
GTDA 'T1' old
PTDA 'T1' TRIM(old)
UNLK DA 'T1'
PTDA 'T1' text
MPUT KCRCCC
PEND FI
END
UNIT FAIL
FIELD text SPAB 0 4
INIT
MGET text
SPUT GB 'CNT' 'NONE'
SREL GB 'SIX'
IF text EQ 'FR' quiet
PEND ER
quiet:
PEND FR
END
UNIT BACK
FIELD count SPAB 0 4
INIT
SREL GB 'CNT'
MPUT KCRCCC
PEND FI
END
UNIT STEP
FIELD text SPAB 0 8
INIT
MGET text
SPUT GB 'STEP' text
MPUT TRIM(text)
MPUT '2'
PEND SP 'STEP2'
END
UNIT STEP2
FIELD one SPAB 0 8
FIELD two SPAB 8 4
INIT
MGET one
MGET two
JOIN one TRIM(one) TRIM(two)
SPUT GB 'STEP' one
MPUT one
PEND FI
END
UNIT LISTS
FIELD text SPAB 0 8
INIT
MGET text
SPUT MS 'A' text
SPUT MS 'B' KCTACAL
SPUT MS 'C' '1'
MPUT KCRCCC
SREL LB 'A'
SPUT MS 'C' KCLOGTER
FPUT 'LONG' TRIM(text)
PEND RE 'COUNT'
END
UNIT NOTE
FIELD text SPAB 0 16
FIELD count SPAB 16 4
INIT
FGET text
SGET GB 'NOTES' count
ADD count 1
SPUT GB 'NOTES' count
FPUT 'L1' TRIM(text)
PEND FI
END
UNIT LONG
FIELD text SPAB 0 16
INIT
FGET text
SPUT MS 'TEXT' TRIM(text)
SPUT GB 'LONG' KCBENID
PEND SP 'LONG2'
END
UNIT LONG2
FIELD text SPAB 0 16
INIT
FGET text
SGET KP 'TEXT' text
FPUT 'L2' TRIM(text)
PEND FI
END
"""
COMMANDS = """ADDUP_7 ADDUP_12 ADDUP_1 MOVES_A___B___0005 MOVES_B___A___0007 MOVES_A___A___0001 MOVES_CNT_B___0050 ORDER_TEA
ORDER_CUPS KEEP_CNT KEEP_A KEEP_NEW SEEK_CNT SEEK_A SEEK_Z PREFS_RED PREFS_BLUE FAIL_ER FAIL_FR BACK STEP_ONE LISTS_X
ADDUP_ADD 5 12 MANY KDCOUT KDCDISP""".split()
OTHERS = "TICK_1 TICK_1 TICK_7 TICK_0 PRINT_P3 RUN_1 RUN_3 RUN_5 TURN_1 TURN_2 RESTART".split()
MOST = 400  # lines of a trail that are asked for
CHANGES = 40  # of each trail


def made_script(random, count):
    script = ["IN P1 KDCSIGN U1", "IN P2 KDCSIGN U2"]
    for _ in range(count):
        if random.random() < 0.3:
            script.append(random.choice(OTHERS).replace("_", " "))
        else:
            terminal = random.choice(("P1", "P1", "P2"))
            word, _, rest = random.choice(COMMANDS).partition("_")
            script.append(f"IN {terminal} {word} {rest.replace('_', ' ')}".rstrip())
            script += [random.choice(("RUN 60", "RUN 60", "RUN 7", "TURN 1"))] * (random.random() < 0.8)
        if script[-1] == "RESTART":
            script += ["IN P1 KDCSIGN U1", "IN P2 KDCSIGN U2"]
    return script + ["RUN 200", "IN P1 KDCOUT", "PRINT P3"]


@lru_cache(None)
def application():
    return Application(DEFINITION, UNITS), units_read(UNITS)


# ---- Changes of a text


def change_digit(random, lines, places):
    """A digit of a number or of bytes is another one."""
    at = random.choice(places)
    found = [it.start() for it in re.finditer(r"(?<=[ 0-9a-f-])[0-9a-f]", lines[at])]
    if found:
        place = random.choice(found)
        digits = "0123456789abcdef" if len(lines[at]) > 40 and random.random() < 0.9 else "0123456789"
        other = random.choice([it for it in digits if it != lines[at][place]])
        lines[at] = lines[at][:place] + other + lines[at][place + 1 :]


def change_bytes(random, lines, places):
    """Bytes of a T line or of a value are other ones, as an input, a name or a length may be."""
    at = random.choice([it for it in places if lines[it][:1] in "TSD"] or places)
    words = lines[at].split(" ")
    data = words[-1]
    place = random.randrange(0, max(len(data) // 2, 1)) * 2
    how = random.choice(("same", "more", "less", "zero", "letter"))
    new = {"same": data[place + 2 : place + 4], "more": data[place : place + 2] * 2, "less": "", "zero": "00"}
    words[-1] = data[:place] + new.get(how, random.choice(("41", "42", "31", "20", "4c"))) + data[place + 2 :]
    lines[at] = " ".join(words)


def change_word(random, lines, places):
    """A word of a line goes, comes twice, or is another one."""
    at = random.choice(places)
    words = lines[at].split(" ")
    place = random.randrange(len(words))
    how = random.choice(("drop", "double", "other", "other", "space"))
    if how == "drop":
        del words[place]
    elif how == "double":
        words.insert(place, words[place])
    elif how == "space":
        words[place] += random.choice((" ", "\t", "\r", "-"))
    else:
        other = "0 1 2 5 6 7 - N O T C S D END START L1 L2 L3 P1 999999999999 1000000000000 0000000000000000000001 00 ff aF 0g"
        words[place] = random.choice(other.split() + ["0" * 6 + words[place], words[place][:-1]])
    lines[at] = " ".join(words)


def change_numbers(random, lines, places):
    """A number of a commit is one more or less, or has zeros in front."""
    at = random.choice([it for it in places if lines[it][:2] in ("C ", "N ")] or places)
    words = lines[at].split(" ")
    place = random.randrange(1, len(words)) if len(words) > 1 else 0
    if words[place].isdigit():
        number = int(words[place])
        words[place] = random.choice((str(number + 1), str(max(number - 1, 0)), "0" + words[place], str(number + 10**12)))
    lines[at] = " ".join(words)


def drop_line(random, lines, places):
    del lines[random.choice(places)]


def double_line(random, lines, places):
    lines.insert(random.choice(places), lines[random.choice(places)])


def repeat_line(random, lines, places):
    at = random.choice(places)
    lines.insert(at, lines[at])


def move_line(random, lines, places):
    line = lines.pop(random.choice(places))
    lines.insert(random.randrange(len(lines) + 1), line)


def entries_in(lines):
    """Where each entry begins, and where the last one ends."""
    return [it for it, line in enumerate(lines) if line[:2] in ("N ", "O ", "T ")] + [len(lines) - 1]


def change_entry(random, lines, places):
    """A whole entry goes, comes twice, changes places with the next one, or is the last."""
    starts = entries_in(lines)
    if len(starts) < 3:
        return
    at = random.randrange(len(starts) - 2)
    one, other, end = starts[at : at + 3]
    how = random.choice(("drop", "double", "swap", "swap", "cut"))
    if how == "drop":
        del lines[one:other]
    elif how == "double":
        lines[other:other] = lines[one:other]
    elif how == "swap":
        lines[one:end] = lines[other:end] + lines[one:other]
    else:
        del lines[other:-1]


def change_fingerprint(random, lines, places):
    lines[0] = "TRAIL " + random.choice(("0" * 64, lines[0][6:-1] + "x", lines[0][6:-2], "%064x" % random.getrandbits(256)))


def change_end(random, lines, places):
    """Another end of a line, or of the text."""
    how = random.choice(("cr", "empty", "end", "more"))
    if how == "cr":
        lines[random.choice(places)] += "\r"
    elif how == "empty":
        lines.insert(random.randrange(len(lines) + 1), "")
    elif how == "more":
        lines.append(random.choice(("", "END", "N 1", " ")))
    else:
        lines.pop()


ALL = [change_digit] * 10 + [change_bytes] * 4 + [change_word] * 4 + [change_numbers] * 3 + [change_entry] * 4
ALL += [drop_line] * 3 + [double_line, repeat_line, move_line, move_line, change_fingerprint, change_end, change_end]


# ---- A day


class Day:
    """A day, the trail of which is made by the program, and is changed."""

    def __init__(self, random, number):
        self.random = random
        self.title = f"made day {number}"
        self.before = made_script(random, random.randint(0, 6)) if random.random() < 0.5 else None
        self.script = made_script(random, random.randint(2, 12))
        self.tries = []

    def begin(self, book):
        book.case(self.title, *application()[0].texts())
        if self.before is not None:
            book.takes(self.before)
            book.call("run app", 0, (), MOST)
        book.takes(self.script)

    def ask_trail(self, book):
        """The trail, and the tables that a run of the day stores."""
        self.begin(book)
        self.asked = book.call("trail app", 0, (), MOST)
        book.add("same")
        book.try_failing("emit", 9999, 9999)
        book.call("run app", 0, (), MOST)
        book.try_again()
        self.stored = book.call("show app", 0, (), 60)

    def ask_tries(self, book, count):
        """The trail as it is, and changed."""
        lines = self.asked.lines
        if len(lines) >= MOST or lines[-1:] != ["END"]:
            raise Broken(f"{self.title}: a trail of {len(lines)} lines")
        self.found = audited(text_of(lines), *application())
        book.case(self.title, *application()[0].texts())
        self.ask(book, lines)
        for _ in range(count):
            changed = list(lines)
            places = range(len(changed) - 1)
            self.random.choice(ALL)(self.random, changed, places)
            self.ask(book, changed)

    def ask(self, book, lines):
        text = text_of(lines)
        if self.random.random() < 0.1:
            text = text[:-1]
        status, line, _ = audited(text, *application())
        book.add("file app.trail", *text_lines(text))
        self.tries.append((book.call("audit app", status, [line]).number, text, status, line))

    def whole(self):
        """What is wrong with the trail as the program has made it."""
        status, line, tables = self.found
        if status:
            return [f"* {self.title}: by its reader the trail is {line}"]
        if table_lines(tables) != self.stored.lines:
            return [f"* {self.title}: the run has stored {self.stored.lines}", f"* not {table_lines(tables)}"]
        return []

def alone(text, status, line):
    book = Book()
    book.case("a made trail", *application()[0].texts())
    book.add("file app.trail", *text_lines(text))
    book.call("audit app", status, [line])
    return book.lines


def text_of(lines):
    return "".join(it + "\n" for it in lines).encode("latin-1")


class Batch:
    """Some days, and changes of their trails."""

    def __init__(self, random, count, first):
        self.days = [Day(random, it) for it in range(-(-count // (CHANGES + 1)))]
        self.count = count
        self.tries = [None] * count

    def differences(self, program):
        asked, tries = Book(), Book()
        for day in self.days:
            day.ask_trail(asked)
        asked.tried(program)
        left = self.count
        for day in self.days:
            changes = min(CHANGES, left - 1)
            day.ask_tries(tries, changes)
            left -= changes + 1
        found = tries.tried(program)
        for day in self.days:
            wrong = day.whole()
            if wrong:
                yield wrong, [*day.script]
        all_tries = [it for day in self.days for it in day.tries]
        ends = [number for number, *_ in all_tries[1:]] + [len(tries.lines) + 1]
        for (start, *one), end in zip(all_tries, ends):
            wrong = [f"* {it}: {found[it]}" for it in found if start < it <= end]
            if wrong:
                yield wrong, alone(*one)
