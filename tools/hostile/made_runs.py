"""Made runs: scripts over the shop and over an application whose jobs fail, in which each call fails in turn, and which
are stopped after each call.

A run without faults, and its beginnings, say what comes one after another: the tables after each step, and the lines.
From this the condition on each fault and on each stop follows: what was sent and what the file has is a cut of the run,
where a commit comes before its lines and a line before the next commit. A second run then answers what it answers over
the same tables. The calls of the disk are not known to this tool: how many there are it asks for.
"""

from collections import namedtuple

from cases import TOP, Book, Broken, text_lines
from kdcfile import NOT_A_KDCFILE

TASKS = 2
CHOICES = (0, 1, 2, 3, 5, 6, 7)
REST = 2  # writes of what comes after the gate of a fresh file, where the directory has one page
MOST = 60  # lines of a call that are asked for where they are not known
UNMADE = [NOT_A_KDCFILE]
S1, S2 = "IN P1 KDCSIGN U1,PW1", "IN P2 KDCSIGN U2"
AGAIN = """MAX APPLINAME=AGAIN,TASKS=2,ASYNTASKS=1,KB=8,SPAB=64,NB=80,REDELIVERY={redelivery}
MAX PGPOOL=16,BLKSIZE=2K,RESWAIT=3,GSSBS=4,LSSBS=2
PROGRAM MAKEJ
PROGRAM MAKES
PROGRAM FAILS
PROGRAM STEPS
PROGRAM LATER
TAC MAKEJ,PROGRAM=MAKEJ
TAC MAKES,PROGRAM=MAKES
TAC FAILS,PROGRAM=FAILS,TYPE=A
TAC STEPS,PROGRAM=STEPS,TYPE=A
TAC LATER,PROGRAM=LATER,TYPE=A,CALL=NEXT
USER U1,PASS=C'PW1'
USER U2,RESTART=NO
LTERM L1
LTERM L2
LTERM {letters},USAGE=O
PTERM P1,LTERM=L1
PTERM P2,LTERM=L2
PTERM P3,LTERM={letters}
END
"""
AGAIN_UNITS = b"""UNIT MAKEJ
INIT
FPUT 'FAILS' 'J1'
MPUT 'MADE'
PEND FI
END
UNIT MAKES
INIT
FPUT 'STEPS' 'S1'
DPUT 'FAILS' R 0 0 0 2 'J2'
MPUT 'MADE'
PEND FI
END
UNIT FAILS
FIELD v SPAB 0 8
INIT
FGET v
SPUT GB 'A' v
PEND ER
END
UNIT STEPS
FIELD v SPAB 0 8
INIT
FGET v
SPUT GB v KCTACAL
PEND SP 'LATER'
END
UNIT LATER
INIT
FPUT 'L1' 'LATE'
PEND FI
END
"""


def shop(kind):
    return (TOP / f"examples/shop/shop.{kind}").read_bytes()


def steps_of(script):
    """The script step by step: a RUN in its turns."""
    steps = []
    for command in script:
        word, _, rest = command.partition(" ")
        steps += [f"TURN {it % TASKS + 1}" for it in range(int(rest))] if word == "RUN" else [command]
    return steps


# A fault of this kind and number, or a stop after so many calls, and the calls that tell what came of it.
Try = namedtuple("Try", "kind number choice fault look second")


class Scenario:
    """A run over a file, and all that is tried of it. It is asked in four turns, each of which needs the answers to the
    one before."""

    def __init__(self, title, texts, before, script, after, word="run"):
        self.title = title
        self.texts = texts
        self.before = before  # the script whose file it begins with, or none for an empty file
        self.script = script
        self.after = after  # the script of the second run
        self.word = word
        self.steps = steps_of(script) if word == "run" else []
        self.makes = before is None and word != "show"

    def begin(self, book, lines_before=(), lines=(), more=1):
        """The case with its file, and the run without faults, whose start `stop 0 0` gives back."""
        book.case(self.title)
        for kind, text in zip(("def", "units"), self.texts):
            book.add(f"file app.{kind}", *text_lines(text))
        before = None
        if self.before is not None:
            book.takes(self.before)
            before = book.call("run app", 0, lines_before, more)
        book.takes(self.script)
        return before, book.call(f"{self.word} app", 0, lines, more)

    @staticmethod
    def look(book, lines, more):
        """The tables of the file, which stays."""
        book.try_apart()
        return book.call("show app", 0, lines, more)

    def second(self, book, lines=(), more=MOST):
        """The second run, over the file, which stays."""
        book.takes(self.after)
        book.try_apart()
        return book.call("run app", 0, lines, more)

    def front(self, book, count):
        """The first steps of the run."""
        book.takes(self.steps[:count])
        book.try_over(0, 0)
        return book.call("run app", 0, self.lines)

    # ---- what is asked

    def ask_run(self, book):
        self.asked = self.begin(book, more=MOST)
        book.try_over(0, 0)
        self.asked_tables = book.call("show app", 0, more=MOST)

    def ask_steps(self, book):
        """The lines and the tables after each step, and how often each call is made."""
        self.lines_before, self.lines = (it.lines if it else [] for it in self.asked)
        self.tables = [self.asked_tables.lines]
        if max(map(len, (self.lines_before, self.lines, self.tables[0]))) >= MOST:
            raise Broken(f"{self.title}: too many lines")
        self.begin(book, self.lines_before, self.lines)
        fronts = range(1, len(self.steps) + 1)
        self.asked_steps = [(self.front(book, it), self.look(book, self.tables[0], 20)) for it in fronts]
        book.takes(self.script)
        book.try_over(0, 0)
        book.call("show app", 0, self.tables[0], 1)
        opened = 40 * (1 + self.script.count("RESTART"))
        most = {"attach": 3, "size": opened, "read": opened, "write": opened, "sync": opened, "emit": 3}
        self.asked_counts = {}
        for kind, least in most.items():
            book.add(f"fails {kind} 1 {least + 5 * len(self.lines)}")
            self.asked_counts[kind] = book.call(f"{self.word} app", 5)

    def ask_second(self, book):
        """What the second run answers after each step."""
        self.sent = [0] + [len(run.lines) for run, _ in self.asked_steps]
        self.tables += [tables.lines for _, tables in self.asked_steps]
        self.counts = {kind: call.failing() - 1 for kind, call in self.asked_counts.items()}
        self.counts["text"] = 3 if self.word == "run" else 2
        self.begin(book, self.lines_before, self.lines)
        self.asked_second = [(self.front(book, it), self.second(book)) for it in range(len(self.sent))]

    def ask_tries(self, book):
        """Each fault and each stop, with the tables and the second run after it."""
        self.answers = [second.lines for _, second in self.asked_second]
        if not self.steps:  # all lines come from one step, which commits nothing
            self.sent, self.tables, self.answers = [0, len(self.lines)], self.tables * 2, self.answers * 2
        self.begin(book, self.lines_before, self.lines)
        self.guess = [(it[-1], max(map(len, it)) + 1 - len(it[-1])) for it in (self.tables, self.answers)]
        self.tries = []
        for kind, most in self.counts.items():
            self.tries += [self.ask_fault(book, kind, it) for it in range(1, most + 2)]
        for stop in range(sum(self.counts[it] for it in ("write", "sync", "emit")) + 1):
            self.tries += [self.ask_stop(book, stop, it) for it in CHOICES]

    def ask_fault(self, book, kind, number):
        tables, answer = self.guess
        book.takes(self.script)
        book.try_over(0, 0)
        book.add(f"fail {kind} {number}")
        fault = book.call(f"{self.word} app", 5, self.lines, 1)
        return Try(kind, number, None, fault, self.look(book, *tables), self.second(book, *answer))

    def ask_stop(self, book, stop, choice):
        tables, answer = self.guess
        book.try_over(stop, choice)
        look = book.call("show app", 0, *tables)
        book.takes(self.after)
        book.try_over(stop, choice)
        return Try("stop", stop, choice, None, look, book.call("run app", 0, *answer))

    # ---- how it is judged

    def cut(self, sent):
        """What the file may list, and the second run then answer, where so many lines were sent: the commits before
        these lines were done, and perhaps that of the next one."""
        steps = range(len(self.sent))
        done = [it for it in steps if self.sent[it] == sent or it and self.sent[it - 1] <= sent < self.sent[it]]
        return [(self.tables[it], self.answers[it]) for it in done]

    def wrong_fault(self, one):
        """What is wrong where this call fails, or where there is no such call."""
        fault, number, sent = one.fault, one.number, len(one.fault.lines)
        if number > self.counts[one.kind]:
            wanted, left = (0, self.lines), [(self.tables[-1], self.answers[-1])]
        else:
            most = {"emit": number - 1, "text": 0, "attach": 0}.get(one.kind, sent)
            wanted, left = (6 if one.kind == "text" else 5, self.lines[:most]), self.cut(sent)
        if self.makes and 2 <= number <= {"write": REST + 2, "sync": 3}.get(one.kind, 0):
            left = [None]
        wrong = [] if (fault.status, fault.lines) == wanted else [f"answered {fault.status} {fault.lines}"]
        return wrong + self.wrong_left(one, left)

    def wrong_stop(self, one, sent):
        """What is wrong behind this stop, up to which so many lines were sent. A file is made by a sync, the gate, a
        sync, all that comes after the gate, a sync, the gate and a sync."""
        left = [None] if self.makes and 2 <= one.number <= REST + 5 else []
        if not (self.makes and 3 <= one.number <= REST + 4):
            left += self.cut(sent)
        return self.wrong_left(one, left)

    @staticmethod
    def wrong_left(one, allowed):
        """What is wrong with the tables and the second run; None stands for a file that is not made."""
        answered = [(it.status, it.lines) for it in (one.look, one.second)]
        wanted = [[(0, it[0]), (0, it[1])] if it else [(4, UNMADE)] * 2 for it in allowed]
        return [] if answered in wanted else [f"left {answered}", *[f"not {it}" for it in wanted]]

    def places(self):
        """Of each emit, which sends a line, how many writes, syncs and emits there are up to it."""
        quiet = [it for it in self.tries if it.kind in ("write", "sync") and it.number <= self.counts[it.kind]]
        before = [len(it.fault.lines) for it in quiet]
        return [number + sum(it < number for it in before) for number in range(1, self.counts["emit"] + 1)]

    def differences(self):
        """Yields what is wrong with a fault or a stop, and its case."""
        places = self.places()
        for one in self.tries:
            if one.fault:
                wrong = self.wrong_fault(one)
            else:
                wrong = self.wrong_stop(one, sum(it <= one.number for it in places))
            if wrong:
                yield [f"* {it}" for it in wrong], self.alone(one)

    def alone(self, one):
        """The case of a fault or a stop. Where it may leave one of several, the tables are those before the run."""
        book = Book()
        self.begin(book, self.lines_before, self.lines, 0)
        if one.fault:
            book.try_over(0, 0)
            book.add(f"fail {one.kind} {one.number}")
            book.call(f"{self.word} app", 5, one.fault.lines)
        else:
            book.try_over(one.number, one.choice)
        book.call("show app", 0, self.tables[0])
        return book.lines


# ---- The scenarios


def fixed():
    """Those that are always tried: an order and its second step, messages that come due, a full pool, a job that is
    delivered again and is a dead letter then, a report and a list."""
    texts = shop("def"), shop("units")
    again = AGAIN.format(redelivery=2, letters="KDCDLETQ").encode(), AGAIN_UNITS
    order = [S1, "IN P1 ORD1 APPLE", "RUN 20"]
    out, nine, one = "IN P2 KDCOUT", "TICK 9", "TICK 1"
    due = [S1, S2, "IN P1 DP", "RUN 20", out, out, nine, out, one, out, out]
    full = [S1, "IN P1 FILL", "RUN 120", "IN P1 MAKEJ", "RUN 20", "IN P1 HELLO", "RUN 20"]
    after = ["TICK 0", S1, S2, "IN P1 5", "RUN 40", "IN P2 KDCLAST", "TICK 10", out, out, out]
    yield Scenario("an order", texts, None, order, after)
    yield Scenario("an order goes on", texts, order, [S1, "IN P1 5", "RUN 20"], after)
    yield Scenario("messages come due", texts, None, due, after)
    yield Scenario("a full pool", texts, None, full, [])
    letters = ["PRINT P3", "RUN 40", "PRINT P3"]
    yield Scenario("a job is delivered again", again, None, [S1, "IN P1 MAKEJ", "RUN 40"], letters)
    yield Scenario("a report", texts, None, [], after, "gen")
    yield Scenario("a list", texts, order, [], after, "show")


ORDERS = """HELLO ORD1_APPLE ADD1 ADD1 ADD1 CROSS1 CROSS2 HOLD SEEK UNL NOMSG LOOP FCA RSA RSB1 FER FSP MAKEJ DP R1 TLU
TOPRT PRA KDCOUT KDCLAST KDCDISP KDCOFF 5 X""".split()
JOBS = "MAKEJ MAKEJ MAKES MAKES KDCOUT KDCLAST KDCDISP KDCOFF X".split()
OTHERS = "TICK_1 TICK_2 TICK_10 TICK_0 PRINT_P3 PRINT_P3_LAST DROP_P1 DROP_P2 RESTART RUN_3".split()


def made_script(random, inputs, count):
    script = [S1, S2][: random.choice((1, 1, 2))]
    for _ in range(count):
        if random.random() < 0.3:
            script.append(random.choice(OTHERS).replace("_", " "))
        else:
            terminal = random.choice(("P1", "P1", "P2"))
            script.append(f"IN {terminal} {random.choice(inputs).replace('_', ' ')}")
            script.append(random.choice(("RUN 6", "RUN 14", "RUN 20", "TURN 1", "TURN 2")))
        if script[-1] == "RESTART":
            script += [S1, S2][: random.choice((0, 1, 2))]
    return script


def made(random, number):
    inputs, texts = ORDERS, (shop("def"), shop("units"))
    if random.random() < 0.3:
        letters = random.choice(("KDCDLETQ", "L3"))
        inputs, texts = JOBS, (AGAIN.format(redelivery=random.choice((0, 1, 2)), letters=letters).encode(), AGAIN_UNITS)
    before = made_script(random, inputs, random.randint(0, 6)) if random.random() < 0.7 else None
    after = ["TICK 0", *made_script(random, inputs, random.randint(0, 4)), "RUN 40", "IN P1 KDCOUT", "PRINT P3"]
    word = random.choice(("run",) * 12 + ("gen", "show"))
    return Scenario(f"made run {number}", texts, before, made_script(random, inputs, random.randint(1, 4)), after, word)


class Batch:
    """Some scenarios: each phase of all of them is tried at once."""

    SCENARIOS = 6

    def __init__(self, random, count, first):
        self.scenarios = list(fixed()) if first else []
        self.scenarios += [made(random, it) for it in range(self.SCENARIOS)]

    @property
    def tries(self):
        return [it for scenario in self.scenarios for it in scenario.tries]

    def differences(self, program):
        for phase in ("ask_run", "ask_steps", "ask_second", "ask_tries"):
            book = Book()
            for scenario in self.scenarios:
                getattr(scenario, phase)(book)
            book.tried(program)
        for scenario in self.scenarios:
            yield from scenario.differences()
