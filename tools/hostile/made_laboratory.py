"""Made calls of the laboratory. Texts of the examples get slips of every kind, in any number: `lab check` has to find each
in its order, and to warn of what is likely wrong. Of made scripts `lab trace`, `lab talk` and `lab test` have to send what
`utm` sends. Of made contests between two users `lab explore` has to find the outcomes, of which each is what `utm` comes
to by the script that is printed, and where all orders were tried, no other order comes to another one. Orders that stand
for all have to have just the outcomes that all have, with orders as short."""

import itertools
import re
import shutil
import subprocess
import tempfile
from collections import namedtuple
from functools import lru_cache
from pathlib import Path

from cases import TOP
from definition import Fault, generation_of
from made_runs import ORDERS, made_script
from made_texts import example, generation_made, units_read
from units import fit, read_script

PROGRAM = TOP / "crates/kdcs_lab/out/kdcs_lab"
UTM = TOP / "crates/utm/out/utm"

# A line of a text that is wrong, the line that it should be, and how far below the fault is told.
Slip = namedtuple("Slip", "lines at mended below")

# ---- Slips of texts. {n} is a number of its own; PROGRAM, USER, LTERM, PTERM and UNIT stand for names that are there.

STATEMENTS = """USER X{n},PASS='A|USER X{n},PASS=|USER X{n},\x01|USER X{n},PASS=(A|FOO X{n}|USER|USER A-{n}|USER ABCDEFGH{n}
TAC X{n},PROGRAM=PROGRAM,TIME=x|TAC X{n},PROGRAM=PROGRAM,TIME=100001|TAC X{n},PROGRAM=PROGRAM,TYPE=Z|MAX APPLIMODE=FAST
USER X{n},RESTART=NO,RESTART=NO|KSET X{n}|KSET X{n},KEYS=4001|LTERM X{n},LOCK=5|TACCLASS 17|TACCLASS x|USER USER
TAC X{n},PROGRAM=NO{n}|PTERM X{n},LTERM=NO{n}|PTERM X{n},LTERM=LTERM|TAC X{n},PROGRAM=PROGRAM,TACCLASS=12|USER X{n},KSET=NO{n}
TAC X{n}|PROGRAM X{n}|PTERM PTERM|USER X{n},PASS='12345678901234567'|LTERM X{n},USAGE=D,USAGE=O|MAX APPLINAME=TWICE|TLS|ULS A{n},B C
TAC X{n},PROGRAM=PROGRAM,TYPE=A,TACCLASS=3|TAC X{n},PROGRAM=PROGRAM,LOCK=0|TAC X{n},PROGRAM=PROGRAM,STATUS=(ON)""".replace(
    "\n", "|"
).split("|")
BODIES = """HOP|MOVE nothing '1'|JUMP nowhere|PEND RE 'NONE{n}'|FIELD f KB 0|FIELD f KB 32000 800|FIELD f SPAB 32767 1
FIELD KCRCCC KB 0 1|MPUT 'A|IF '1' GE '2' nowhere|IF '1' EQ '2' nowhere|MGET KCRLM|INIT INIT|PEND XX|MPUT nothing
SGET GB 'A' nothing|PEND FI 'A'|DPUT 'L' X 0 0 0 0 'A'|MPUT TRIM(nothing)|MPUT TRIM(1)|9a:|MPUT 1234567890123456789""".replace(
    "\n", "|"
).split("|")
COMMANDS = """tick 1|TICK x|TICK 1000000000000|TURN 99|TURN 0|RUN 1000001|RUN 1 2|IN ZZ HELLO|IN  PTERM HELLO| RESTART|RESTART NOW
PRINT ZZ|DROP|PRINT PTERM LAST NOW|JUMP 1|IN PTERM \x7f|TICK 0000000000000000001|IN|DROP ZZ|\tTICK 1""".replace("\n", "|").split("|")

# What is accepted and has to be warned of: the lines of the text, and the warning, in which 0 stands for the line.
LIKELY = [
    ("def", "KSET X{n},KEYS=4", "WARN DEF {at} UnusedKset X{n}"),
    ("def", "PTERM X{n}", "WARN DEF {at} PassedPterm X{n}"),
    ("def", "LTERM X{n}", "WARN DEF {at} NoPterm X{n}"),
    ("def", "USER X{n},RESTARTS=NO", "WARN DEF {at} NearOperand RESTARTS=NO RESTART"),
    ("def", "USER X{n},COLOUR=RED", "WARN DEF {at} NotKept COLOUR=RED"),
    ("def", "TAC X{n},PROGRAM=PROGRAM,LOCK=3999", "WARN DEF {at} LockWithoutKey X{n} LOCK=3999"),
    ("units", "UNIT X{n}\nPEND FI\nEND", "WARN UNITS {at} UnusedUnit X{n}"),
    ("units", "UNIT X{n}\nINIT\nPEND FI\nMPUT 'A'\nPEND FI\nEND", "WARN UNITS {at+3} NeverReached"),
    ("units", "UNIT X{n}\nFIELD f KB 0 1\nINIT\nPEND FI\nEND", "WARN UNITS {at+1} UnusedField f"),
    ("units", "UNIT X{n}\nhere:\nINIT\nPEND FI\nEND", "WARN UNITS {at+1} UnusedLabel here"),
    ("units", "UNIT X{n}\nINIT\nEND", "RunsPastEnd X{n}"),
    ("units", "UNIT X{n}\nINIT\nFPUT 'NO{n}' 'A'\nPEND FI\nEND", "WARN UNITS {at+2} NoTarget NO{n}"),
    ("units", "UNIT X{n}\nINIT\nPTDA 'NO{n}' 'A'\nPEND FI\nEND", "WARN UNITS {at+2} NoBlock NO{n}"),
]


@lru_cache(None)
def texts_of(name):
    """The texts of an example in lines, and names in them."""
    texts = {kind: text.decode().rstrip("\n").split("\n") for kind, text in example(name).items()}
    generation = generation_of(example(name)["def"])
    names = {
        "PROGRAM": next(iter(generation.programs)),
        "USER": next(iter(generation.users)),
        "LTERM": next(iter(generation.pterms.values())),
        "PTERM": next(it for it, lterm in generation.pterms.items() if generation.lterms[lterm] == b"D"),
    }
    return texts, {key: value.decode() for key, value in names.items()}


class Texts:
    """The texts of an example with slips."""

    def __init__(self, random):
        self.random = random
        texts, self.names = texts_of(random.choice(("shop", "bank", "registry")))
        self.lines = {kind: list(lines) for kind, lines in texts.items()}
        self.slips = {kind: {} for kind in texts}  # by the line of the fault, the line of the slip and what it should be
        self.warnings = []
        self.number = 0

    def name(self, text):
        """A text with its number and the names that are there."""
        self.number += 1
        for word, name in self.names.items():
            text = re.sub(rf"(?<=[=, ]){word}(?=[,)' ]|$)", name, text)
        return text.replace("{n}", str(self.number))

    def put(self, kind, at, lines, slip=None, mended="*", below=0):
        """Puts lines in front of a line; the slip among them is the one of this place."""
        self.lines[kind][at:at] = lines
        moved = {}
        for fault, (line, should) in self.slips[kind].items():
            moved[fault + len(lines) * (fault >= at)] = line + len(lines) * (line >= at), should
        self.slips[kind] = moved
        if slip is not None:
            self.slips[kind][at + slip + below] = at + slip, mended

    def place_of(self, kind):
        """Where lines may be put: in front of END, behind all units, anywhere in a script."""
        if kind == "def":
            return max(it for it, line in enumerate(self.lines["def"]) if line.startswith("END"))
        return len(self.lines["units"]) if kind == "units" else self.random.randrange(len(self.lines["script"]) + 1)

    def slip(self):
        """One slip more."""
        kind = self.random.choice(("def", "def", "def", "units", "units", "script"))
        if kind == "def":
            if self.random.random() < 0.06:
                self.put(kind, len(self.lines[kind]), [self.name("USER X{n}")], 0)
            else:
                self.put(kind, self.place_of(kind), [self.name(self.random.choice(STATEMENTS))], 0)
        elif kind == "script":
            self.put(kind, self.place_of(kind), [self.name(self.random.choice(COMMANDS))], 0)
        else:
            self.slip_of_unit()

    def slip_of_unit(self):
        how, place = self.random.random(), self.place_of("units")
        head = self.name("UNIT X{n}")
        if how < 0.07:
            self.put("units", place, [head, "a:", "a:", "PEND FI", "END"], 2)
        elif how < 0.14:
            twice = f"UNIT {self.names['PROGRAM']}"
            self.put("units", place, [twice, "PEND FI", "END"], 0, head)
        elif how < 0.21:
            self.put("units", place, [head, "PEND FI", "*", head + "Z", "PEND FI", "END"], 2, "END", 1)
        elif how < 0.28:
            self.put("units", place, [head, "FIELD f KB 0 1", "FIELD f KB 0 1", "PEND FI", "END"], 2)
        elif how < 0.33:
            self.put("units", place, ["INIT"], 0)
        else:
            self.put("units", place, [head, self.name(self.random.choice(BODIES)), "PEND FI", "END"], 1)

    def likely(self):
        """One thing more that has to be warned of; of the lines that it has, the first is the place."""
        kind, lines, warning = self.random.choice(LIKELY)
        at = self.place_of(kind)
        lines = self.name(lines).split("\n")
        self.put(kind, at, lines)
        self.warnings.append((kind, at, warning.replace("{n}", str(self.number))))
        self.warnings[:-1] = [(it, to + len(lines) * (it == kind and to >= at), said) for it, to, said in self.warnings[:-1]]

    def first_fault(self):
        """The first fault, as its readers find it."""
        texts = {kind: self.bytes_of(kind) for kind in self.lines}
        try:
            generation = generation_made(texts["def"])
            fit(units_read(texts["units"]), generation)
            read_script(texts["script"], generation)
        except Fault as fault:
            return str(fault)
        return None

    def bytes_of(self, kind):
        return "".join(it + "\n" for it in self.lines[kind]).encode()

    def faults(self):
        """All faults: each as if those before it were mended. The texts have none then."""
        found = []
        while True:
            fault = self.first_fault()
            if fault is None:
                return found
            found.append(fault)
            text, line, _ = fault.split()
            kind = {"DEF": "def", "UNITS": "units", "SCRIPT": "script"}[text]
            at, mended = self.slips[kind].pop(int(line) - 1)
            self.lines[kind][at] = mended


# ---- Calls


class Folder:
    """A folder in which both programs are called."""

    def __init__(self, lab):
        self.lab = lab
        memory = Path("/dev/shm")
        self.path = Path(tempfile.mkdtemp(prefix="kudzuspade-", dir=memory if memory.is_dir() else None))

    def remove(self):
        shutil.rmtree(self.path)

    def write(self, texts):
        for kind, text in texts.items():
            (self.path / f"app.{kind}").write_bytes(text)

    def without_file(self):
        for it in ("app.KDCA", "app.KDCB"):
            if (self.path / it).exists():
                (self.path / it).unlink()

    def call(self, program, *words, typed=None):
        done = subprocess.run([program, *words], cwd=self.path, stdout=-1, stderr=-3, input=typed)
        return done.returncode, done.stdout.decode().split("\n")[:-1]

    def files(self):
        return {it.name: it.read_bytes() for it in self.path.iterdir()}


class Check:
    """Texts with slips, and what `lab check` finds in them."""

    def __init__(self, random):
        self.texts = texts = Texts(random)
        slips = random.choice((0, 0, 1, 1, 1, 2, 3, 5, 12))
        for _ in range(slips):
            texts.slip()
        for _ in range(random.choice((0, 1, 2, 4)) * (not slips)):
            texts.likely()
        self.written = {kind: texts.bytes_of(kind) for kind in texts.lines}
        self.wanted = texts.faults()

    def tried(self, folder):
        folder.write(self.written)
        status, lines = folder.call(folder.lab, "check", "app")
        # Text, line and fault. What stands behind them helps who mends it, and is tried by rows of its own.
        faults = [" ".join(it.split(" ")[:3]) for it in lines if not it.startswith("WARN ")]
        wanted = self.wanted or ["OK"] * (len(lines) == 1 and not lines[0].startswith("WARN"))
        code = {"D": 2, "U": 2, "S": 3}[self.wanted[0][0]] if self.wanted else 0
        if (status, faults) != (code, wanted):
            yield f"* {status} {faults}"
            yield f"* not {code} {wanted}"
        for kind, at, warning in self.texts.warnings:
            said = re.sub(r"\{at\+?(\d*)\}", lambda it: str(at + 1 + int(it[1] or 0)), warning)
            if not any(said in it for it in lines):
                yield f"* no {said} among {lines}"

    def case(self):
        return [f"{kind}:\n{text.decode()}" for kind, text in self.written.items()]


class Lines:
    """A script of the shop, and what is sent of it."""

    def __init__(self, random):
        self.random = random
        self.before = made_script(random, ORDERS, random.randint(0, 5)) if random.random() < 0.5 else None
        self.script = made_script(random, ORDERS, random.randint(1, 6))

    def case(self):
        return [f"before: {self.before}", *self.script]

    def takes(self, folder, script):
        folder.write({**example("shop"), "script": "".join(it + "\n" for it in script).encode()})

    def tried(self, folder):
        folder.without_file()
        if self.before is not None:
            self.takes(folder, self.before)
            folder.call(UTM, "run", "app")
        self.takes(folder, self.script)
        before = folder.files()
        status, traced = folder.call(folder.lab, "trace", "app")
        talked = folder.call(folder.lab, "talk", "app", typed=("MANUAL\n" + "\n".join(self.script) + "\n").encode())
        sent, tests = self.parts(traced), []
        yield from self.tested(folder, sent)
        self.takes(folder, self.script)
        if folder.files() != before:
            yield "* files have changed"
        ran = folder.call(UTM, "run", "app")
        if (status, [it for it in traced if it[:1].isupper()]) != ran:
            yield f"* trace: {status} {traced}"
            yield f"* not {ran}"
        if talked != ran:
            yield f"* talk: {talked}"
            yield f"* not {ran}"
        if [command for command, _ in sent] != self.script:
            yield f"* traced commands: {[command for command, _ in sent]}"
        yield from self.told(traced)

    @staticmethod
    def parts(traced):
        """The commands of a trace, each with the lines that it sent."""
        found = []
        for line in traced:
            if line.startswith("> "):
                found.append((line[2:], []))
            elif line[:1].isupper() and found:
                found[-1][1].append(line)
        return found

    def told(self, traced):
        """Whether the turns of each RUN are as many as its end says, and of each TURN one."""
        turns, command = 0, ""
        for line in [*traced, "> "]:
            if re.match(r"  [0-9]", line):
                turns += 1
            ends = re.match(r"  (?:idle|waiting|spent) after ([0-9]+) turn", line)
            if ends and int(ends[1]) != turns:
                yield f"* {turns} turns are told, but {line}"
            if line.startswith("> "):
                if command.startswith("> TURN") and turns != 1:
                    yield f"* {turns} turns are told of {command}"
                turns, command = 0, line

    def tested(self, folder, sent):
        """`lab test` of the script with the lines that were sent, and with one of them away, doubled or changed."""
        lines, owners = [], []
        for command, said in sent:
            lines.append(command)
            owners += [len(lines) + it for it in range(len(said))]
            lines += ["*> " + it for it in said]
        count = sum(len(said) for _, said in sent)
        self.takes(folder, lines)
        found = folder.call(folder.lab, "test", "app")
        if found != (0, [f"OK {count}"]):
            yield f"* test: {found}, not OK {count}"
        if not owners:
            return
        at = self.random.choice(owners)
        wrong = list(lines)
        wrong[at] += "X"
        self.takes(folder, wrong)
        found = folder.call(folder.lab, "test", "app")
        wanted = 1, [f"SCRIPT {at + 1} EXPECTED {wrong[at][3:]}", f"SCRIPT {at + 1} SENT {lines[at][3:]}"]
        if found != wanted:
            yield f"* test: {found}, not {wanted}"
        self.takes(folder, lines[: at + 1] + lines[at:])
        found = folder.call(folder.lab, "test", "app")
        if found[0] != 1 or found[1][:1] != [f"SCRIPT {at + 2} EXPECTED {lines[at][3:]}"]:
            if lines[at + 1 : at + 2] != [lines[at]]:
                yield f"* test: {found}, with line {at + 2} too many"


CONTEST = b"""MAX APPLINAME=CONTEST,TASKS=2,KB=8,SPAB=16,NB=80,GSSBS=5,PGPOOL=16,BLKSIZE=2K,RESWAIT={wait}
PROGRAM ADD
PROGRAM TWO
PROGRAM OWT
PROGRAM SAY
PROGRAM JOB
TAC ADD,PROGRAM=ADD
TAC TWO,PROGRAM=TWO
TAC OWT,PROGRAM=OWT
TAC SAY,PROGRAM=SAY
TAC JOB,PROGRAM=JOB,TYPE=A
USER U1
USER U2
LTERM L1
LTERM L2
PTERM P1,LTERM=L1
PTERM P2,LTERM=L2
END
"""
CONTEST_UNITS = b"""UNIT ADD
FIELD n SPAB 0 2
INIT
SGET GB 'A' n
ADD n 1
SPUT GB 'A' n
MPUT n
PEND FI
END
UNIT TWO
INIT
SPUT GB 'A' '7'
SPUT GB 'B' KCBENID
MPUT KCRCCC
PEND FI
END
UNIT OWT
INIT
SPUT GB 'B' '8'
SPUT GB 'A' '9'
MPUT KCRCCC
PEND FI
END
UNIT SAY
INIT
FPUT 'JOB' KCBENID
MPUT 'SAID'
PEND FI
END
UNIT JOB
FIELD who SPAB 0 8
INIT
FGET who
SPUT GB 'LAST' who
PEND FI
END
"""


class Contest:
    """Two users at work at once, and the outcomes that `lab explore` finds."""

    OTHERS = 12

    def __init__(self, random):
        self.random = random
        self.wait = random.choice((0, 1, 9))
        self.inputs = [f"IN {terminal} {random.choice('ADD ADD TWO OWT SAY'.split())}" for terminal in ("P1", "P2")]
        self.begins = ["IN P1 KDCSIGN U1", "IN P2 KDCSIGN U2", *self.inputs]
        self.most = random.choice((3, 20, 3000))
        # The two services have up to 16 turns with an effect, so some RUNs are spent before they are over.
        self.run = f"RUN {random.choice((4, 7, 10, 14, 100, 100, 100))}"

    def case(self):
        return [f"RESWAIT={self.wait}, explore app {self.most}", *self.begins, self.run]

    def takes(self, folder, script):
        folder.without_file()
        definition = CONTEST.replace(b"{wait}", b"%d" % self.wait)
        script = "".join(it + "\n" for it in script).encode()
        folder.write({"def": definition, "units": CONTEST_UNITS, "script": script})

    def outcome(self, folder, script):
        """What `utm` comes to by a script."""
        self.takes(folder, script)
        return folder.call(UTM, "run", "app"), folder.call(UTM, "show", "app")

    def tried(self, folder):
        self.takes(folder, [*self.begins, self.run])
        status, lines = folder.call(folder.lab, "explore", "app", str(self.most))
        head = self.head(lines)
        if not head:
            yield f"* {status} {lines}"
            return
        found = self.outcomes(lines[1:])
        if int(head[3]) != len(found) or int(head[1]) != sum(it["orders"] for it in found):
            yield f"* {lines[0]}, but {[it['orders'] for it in found]}"
        if int(head[1]) > self.most or head[2] == "DRAWN FROM 1" and int(head[1]) != self.most:
            yield f"* {lines[0]} of {self.most}"
        told = [(set(it["marks"]), self.by_names(it["SENT"]), it["TABLES"]) for it in found]
        if any(it in told[:place] for place, it in enumerate(told)):
            yield "* two outcomes are the same"
        if found and found[0]["DIFFERS"]:
            yield f"* the first outcome differs: {found[0]['DIFFERS']}"
        for it in found[1:]:
            line = self.parting(found[0]["SCRIPT"], it["SCRIPT"])
            if it["DIFFERS"][:1] != [line]:
                yield f"* {it['DIFFERS'][:1]} in place of {line}"
        comes_to = [(lines, tables) for _, lines, tables in told]
        marked = any("STANDSTILL" in it["marks"] or "SPENT" in it["marks"] for it in found)
        if status != (len(found) > 1 or marked):
            yield f"* status {status}"
        for it in found:
            ran = self.outcome(folder, it["SCRIPT"])
            if ran != ((0, it["SENT"]), (0, it["TABLES"])):
                yield f"* by its script utm comes to {ran}, not {it}"
        if head[2] == "DRAWN FROM 1":
            return
        yield from self.rotation(folder, comes_to)
        if self.run == "RUN 100":
            yield from self.others(folder, comes_to)
        if head[2] == "ALL" and int(head[1]) > 1:
            yield from self.standing(folder, int(head[1]) - 1, found)

    def standing(self, folder, most, found):
        """With one order less than there are, those that stand for all have to come to the same."""
        self.takes(folder, [*self.begins, self.run])
        lines = folder.call(folder.lab, "explore", "app", str(most))[1]
        head = self.head(lines)
        if not head or head[2] == "ALL":
            yield f"* {lines[:1]} of {most}"
        elif head[2] == "FOR ALL":
            wanted, told = ([self.in_short(it) for it in those] for those in (found, self.outcomes(lines[1:])))
            if len(wanted) != len(told) or any(it not in told for it in wanted):
                yield f"* {lines[0]}: {told}, not {wanted}"

    def in_short(self, outcome):
        """What an outcome is, and how many turns the order has that it shows."""
        turns = sum(1 for it in outcome["SCRIPT"] if it.startswith("TURN "))
        return set(outcome["marks"]), self.by_names(outcome["SENT"]), outcome["TABLES"], turns

    @staticmethod
    def head(lines):
        """How many orders were tried, which, and how many outcomes they have."""
        return re.match(r"ORDERS ([0-9]+) (ALL|FOR ALL|DRAWN FROM 1) OUTCOMES ([0-9]+)$", lines[0] if lines else "")

    @staticmethod
    def outcomes(lines):
        """The outcomes that were printed."""
        found, part = [], None
        for line in lines:
            words = line.split(" ")
            if line.startswith("OUTCOME "):
                found.append({"orders": int(words[3]), "marks": words[4:], "SCRIPT": [], "SENT": [], "TABLES": [], "DIFFERS": []})
            elif line in ("SCRIPT", "SENT", "TABLES"):
                part = line
            elif line.startswith("DIFFERS "):
                part = "DIFFERS"
                found[-1][part].append(line)
            else:
                found[-1][part].append(line[2:])
        return found

    @staticmethod
    def parting(one, other):
        """The line that says at which command a script parts from that of the first outcome."""
        alike = sum(1 for _ in itertools.takewhile(lambda both: both[0] == both[1], zip(one, other)))
        return f"DIFFERS FROM 1 AT {alike + 1}"

    @staticmethod
    def by_names(lines):
        """The lines for each name, the second word of a line, in their order."""
        found = {}
        for line in lines:
            found.setdefault(line.split(" ")[1], []).append(line)
        return found

    def is_among(self, ran, comes_to):
        """Whether what `utm` came to has the tables and the lines for each name of one of the outcomes."""
        (ended, sent), (shown, tables) = ran
        return (ended, shown) == (0, 0) and (self.by_names(sent), tables) in comes_to

    def rotation(self, folder, comes_to):
        """The order that `utm` takes has to come to one of the outcomes."""
        ran = self.outcome(folder, [*self.begins, self.run])
        if not self.is_among(ran, comes_to):
            yield f"* utm comes to {ran} by its {self.run}, which is none of {comes_to}"

    def others(self, folder, comes_to):
        """Some orders of this tool's own have to come to one of the outcomes."""
        for place in range(self.OTHERS):
            lean = (0.0, 1.0, 0.5, 0.2, 0.8)[place % 5]
            turns = [f"TURN {1 + (self.random.random() < lean)}" for _ in range(self.random.choice((2, 5, 9, 14, 40)))]
            ran = self.outcome(folder, [*self.begins, *turns, "RUN 100"])
            if not self.is_among(ran, comes_to):
                yield f"* the order {turns} comes to {ran}, which is none of {comes_to}"
                return


class Batch:
    """Some calls of each kind."""

    def __init__(self, random, count, first):
        self.tries = []
        for _ in range(count):
            how = random.random()
            self.tries.append(Check(random) if how < 0.85 else Lines(random) if how < 0.96 else Contest(random))

    def differences(self, program):
        folder = Folder(program)
        try:
            for it in self.tries:
                wrong = list(it.tried(folder))
                if wrong:
                    yield wrong, it.case()
        finally:
            folder.remove()
