#!/usr/bin/env python3
"""Tries the terminals: requests that no page makes, many inputs at once, and the page in a browser.

    python3 tools/terminals_trials.py [--live PROGRAM] [--picture FILE]

What the page shows is compared with what `utm run` sends for a script of the same commands. Where the machine has no
browser, that is said, and the page is not tried. With --picture a picture of the page is put into this file. The last
line has how many checks passed and failed.
"""

import argparse
import http.client
import json
import random
import resource
import shutil
import signal
import subprocess
import sys
import tempfile
import threading
import time
from pathlib import Path

sys.dont_write_bytecode = True
TOOLS = Path(__file__).resolve().parent
sys.path[1:1] = [str(TOOLS / "hostile"), str(TOOLS / "terminals")]

import kdcdef
import made_texts
from browser import SECONDS_BETWEEN_LOOKS, Browser, Failed, browser_program
from definition import Fault, generation_of

TOP = TOOLS.parent
UTM = TOP / "utm"
SECONDS_TO_ANSWER = 30
MADE_DEFINITIONS = 1000
ALL_TURNS = "RUN 1000000"

# Four users who count at four terminals.
WINDOWS, INPUTS_OF_A_WINDOW, INPUTS_A_SECOND = 4, 200, 200
INPUTS_BETWEEN_KILLS, KILLS, SECONDS_BETWEEN_KILLS = 50, 4, 0.2
COUNTER = """MAX APPLINAME=COUNTER,TASKS=2,KB=8,SPAB=16,NB=80,GSSBS=2,PGPOOL=16,BLKSIZE=2K
PROGRAM ADD
TAC ADD,PROGRAM=ADD
{}END
"""
OF_A_WINDOW = "USER U{0}\nLTERM L{0}\nPTERM P{0},LTERM=L{0}\n"
ADD = "UNIT ADD\nFIELD sum SPAB 0 6\nINIT\nSGET GB 'SUM' sum\nADD sum 1\nSPUT GB 'SUM' sum\nMPUT sum\nPEND FI\nEND\n"


class Counts:
    """What holds and what does not."""

    def __init__(self):
        self.passed = self.failed = 0

    def holds(self, name, found, wanted=True):
        """Counts a check, and prints what was found where it was not as it should be."""
        if found == wanted:
            self.passed += 1
        else:
            self.failed += 1
            print(f"terminals: {name}: {found!r}")


def heed_interrupts():
    """What is begun heeds ^C, also where the trials were begun by what passes it over, as a job in the background."""
    signal.signal(signal.SIGINT, signal.SIG_DFL)


class Served:
    """The terminals of an application, at work in a process of their own."""

    def __init__(self, folder, live, base="app"):
        words = [TOP / "terminals", base, "--port", "0", *(["--live", live] if live else [])]
        how = {"stdin": subprocess.DEVNULL, "stdout": subprocess.PIPE, "stderr": subprocess.PIPE, "text": True}
        self.process = subprocess.Popen(words, cwd=folder, preexec_fn=heed_interrupts, **how)
        self.address = self.process.stdout.readline().strip()
        self.host = self.address.split("/")[2] if self.address else ""

    def __enter__(self):
        return self

    def __exit__(self, *_):
        if self.process.poll() is None:
            self.end()

    def end(self):
        """Ends it by ^C, and returns its status."""
        self.process.send_signal(signal.SIGINT)
        return self.process.wait(SECONDS_TO_ANSWER)

    def connection(self):
        return http.client.HTTPConnection(self.host, timeout=SECONDS_TO_ANSWER)

    def post(self, path, values, connection=None):
        """Asks as a page does; returns the status and what is answered."""
        headers = {"Origin": f"http://{self.host}", "Content-Type": "application/json"}
        return answer_of(connection or self.connection(), "POST", path, json.dumps(values), headers)


def answer_of(connection, method, path, body, headers):
    connection.request(method, path, body, headers)
    response = connection.getresponse()
    return response.status, response.read().decode()


class Events:
    """What a window hears."""

    def __init__(self, served, terminal):
        self._connection = served.connection()
        self._connection.request("GET", f"/events?at={terminal}")
        self._lines = self._connection.getresponse()

    def __iter__(self):
        for line in self._lines:
            if line.startswith(b"data: "):
                yield json.loads(line[len(b"data: ") :])


def copy_texts(folder, example, base="app"):
    """The texts of an example as those of an application of this name."""
    for kind in ("def", "units"):
        shutil.copy(TOP / f"examples/{example}/{example}.{kind}", folder / f"{base}.{kind}")


# ---- Definitions


def try_definitions(counts):
    """PTERMs and sizes are read as an independent reader of definitions reads them."""
    made = random.Random("definitions")
    texts = [made_texts.example(it)["def"] for it in sorted(set(made_texts.EXAMPLES))]
    for _ in range(MADE_DEFINITIONS):
        text = made.choice(texts)
        for _ in range(made.choice((1, 1, 2))):
            text = made.choice(made_texts.CHANGES)(made, "def", text)
        texts.append(text)
    different = [text for text in texts if reads_otherwise(text)]
    counts.holds("definitions are read", different, [])


def reads_otherwise(text):
    try:
        generation = generation_of(text)
    except Fault:
        return False

    def named(usage):
        return tuple(it.decode() for it, lterm in generation.pterms.items() if generation.lterms[lterm] == usage)

    sizes = generation.max[b"TASKS"], generation.max[b"NB"]
    programs = {tac.decode(): it.get(b"PROGRAM").decode() for tac, it in generation.tacs.items()}
    return kdcdef.read_definition(text.decode("latin-1")) != (named(b"D"), named(b"O"), *sizes, programs)


# ---- Requests


def try_requests(counts, live, folder):
    """What no page of the server asks for is refused, and the monitor hears nothing of it."""
    copy_texts(folder, "bank")
    with Served(folder, live) as served:
        here = f"http://{served.host}"
        as_page = {"Origin": here, "Content-Type": "application/json"}
        typed = json.dumps({"terminal": "TERM1", "text": "KDCSIGN ANN"})
        for name, status, method, path, body, headers in (
            ("another host", 403, "GET", "/", None, {"Host": "elsewhere.example"}),
            ("another port", 403, "GET", "/", None, {"Host": "127.0.0.1:1"}),
            ("another origin listens", 403, "GET", "/events", None, {"Origin": "http://elsewhere.example"}),
            ("another origin types", 403, "POST", "/input", typed, {**as_page, "Origin": "http://elsewhere.example"}),
            ("no origin of its own", 403, "POST", "/input", typed, {**as_page, "Origin": "null"}),
            ("no origin", 403, "POST", "/input", typed, {"Content-Type": "application/json"}),
            (
                "a picture elsewhere",
                403,
                "GET",
                "/events",
                None,
                {"Sec-Fetch-Site": "cross-site", "Sec-Fetch-Mode": "no-cors"},
            ),
            ("a link elsewhere", 200, "GET", "/", None, {"Sec-Fetch-Site": "cross-site", "Sec-Fetch-Mode": "navigate"}),
            ("a form", 415, "POST", "/input", typed, {"Origin": here}),
            ("no page", 404, "GET", "/server.py", None, {}),
            ("a page outside", 404, "GET", "/../kdcdef.py", None, {}),
            ("nothing is done there", 404, "POST", "/look", "{}", as_page),
            ("no JSON", 400, "POST", "/input", "{", as_page),
            ("much inside one another", 400, "POST", "/input", "[" * 50_000, as_page),
            ("no object", 400, "POST", "/input", "[]", as_page),
            ("no text", 400, "POST", "/input", '{"terminal": "TERM1"}', as_page),
            ("a value too many", 400, "POST", "/kill", '{"now": true}', as_page),
            ("a text for a number", 400, "POST", "/tick", '{"ticks": "1"}', as_page),
            ("a truth for a number", 400, "POST", "/tick", '{"ticks": true}', as_page),
            ("a broken number", 400, "POST", "/tick", '{"ticks": 1.5}', as_page),
            ("too much", 413, "POST", "/input", "x" * 200_000, as_page),
            ("no terminal to look at", 404, "GET", "/events?at=TERM9", None, {}),
        ):
            counts.holds(name, answer_of(served.connection(), method, path, body, headers)[0], status)
        for name, path, values in (
            ("no such terminal", "/input", {"terminal": "TERM9", "text": "KDCSIGN ANN"}),
            ("a printer is no terminal", "/input", {"terminal": "PR", "text": "KDCSIGN ANN"}),
            ("a second command", "/input", {"terminal": "TERM1", "text": "KDCSIGN ANN\nTICK 1"}),
            ("a carriage return", "/input", {"terminal": "TERM1", "text": "KDCSIGN ANN\r"}),
            ("no ASCII", "/input", {"terminal": "TERM1", "text": "KDCSIGN \u00c4NN"}),
            ("half a character", "/input", {"terminal": "TERM1", "text": "\ud800"}),
            ("a text that is too long", "/input", {"terminal": "TERM1", "text": "X" * 81}),
            ("a message that is too long", "/input", {"terminal": "TERM1", "text": "OPEN " + "X" * 81}),
            ("no such terminal to drop", "/drop", {"terminal": "TERM1 "}),
            ("a terminal is no printer", "/print", {"printer": "TERM1", "again": False}),
            ("no such task", "/turn", {"task": 3}),
            ("too many turns", "/run", {"turns": 1_000_001}),
            ("time goes back", "/tick", {"ticks": -1}),
            ("too late", "/tick", {"ticks": 10**18}),
            ("no such way to work", "/mode", {"mode": "SHOW"}),
            ("a monitor is there", "/start", {}),
        ):
            counts.holds(name, served.post(path, values)[0], 422)
        heard = next(it for it in Events(served, "TERM1") if it.get("entries"))
        counts.holds("of all that the monitor heard nothing", [it["word"] for it in heard["entries"]], ["NOTE"])
        counts.holds(
            "what may be typed is",
            served.post("/input", json.loads(typed))[1],
            '{"lines": ["SYS TERM1 SIGNED ON ANN"]}',
        )
        counts.holds(
            "as long as may be", served.post("/input", {"terminal": "TERM1", "text": "STMT " + "X" * 80})[0], 200
        )
        taken = ended(folder, "app", "--port", served.host.split(":")[1])
        counts.holds("the port is taken", (taken.returncode, taken.stderr[:16]), (9, "terminals: port "))
        counts.holds("^C ends it", served.end(), 0)
        counts.holds("and nothing is complained of", served.process.stderr.read(), "")


def try_refusals(counts, live, folder):
    """Where nothing can be served, it is said why."""
    program = ["--live", live] if live else []
    (folder / "app.def").write_text("MAX APPLINAME=A\nEND\n")
    (folder / "app.units").write_text("")
    refused = ended(folder, "app", "--port", "0", *program)
    counts.holds("a definition that is refused", (refused.returncode, refused.stdout), (2, "DEF 2 NoUser\n"))
    for name, words, line in (
        ("no BASE", [], "terminals: the following arguments are required: BASE\n"),
        ("a port that is none", ["app", "--port", "65536"], "terminals: --port N: N is from 0 to 65535\n"),
    ):
        wrong = ended(folder, *words)
        counts.holds(name, (wrong.returncode, wrong.stderr), (1, line))
    missing = ended(folder, "app", "--port", "0", "--live", "no-such-program")
    counts.holds("no monitor", (missing.returncode, missing.stderr[:11]), (9, "terminals: "))


def ended(folder, *words):
    """A call that serves nothing, when it has ended."""
    how = {"stdout": subprocess.PIPE, "stderr": subprocess.PIPE, "text": True, "timeout": SECONDS_TO_ANSWER}
    return subprocess.run([TOP / "terminals", *words], cwd=folder, **how)


# ---- Many inputs


def try_many_inputs(counts, live, folder):
    """Four windows type 200 inputs a second together; each input is answered once, where it was typed."""
    total = WINDOWS * INPUTS_OF_A_WINDOW
    before = seconds_of_children()
    with Served(folder, live) as served:
        typists = typed_at_once(served, INPUTS_OF_A_WINDOW)
        numbers = sorted(it for typist in typists for it in typist.numbers)
        counts.holds("each of many inputs is answered", numbers, list(range(1, total + 1)))
        counts.holds("none is cut off", sum(it.cut_off for it in typists), 0)
        counts.holds("each window hears of its own", [it.heard() == it.told() for it in typists], [True] * WINDOWS)
    # The machine may have much else to do, so it is not asked how long that took.
    counts.holds("one processor is enough", seconds_of_children() - before < total / INPUTS_A_SECOND)


def try_kills(counts, live, folder):
    """The monitor is killed while four windows type: what was answered is kept, and nothing is done twice."""
    with Served(folder, live) as served:
        killer = threading.Thread(target=kill_again_and_again, args=(served,))
        killer.start()
        typists = typed_at_once(served, INPUTS_BETWEEN_KILLS)
        killer.join()
        last = Typist(served, 1)
        last.run_once()
        numbers = sorted(it for typist in [*typists, last] for it in typist.numbers)
        counts.holds("all are answered in spite of kills", len(numbers), WINDOWS * INPUTS_BETWEEN_KILLS + 1)
        counts.holds("none twice", len(set(numbers)), len(numbers))
        cut_off = sum(it.cut_off for it in typists)
        counts.holds("nothing that was answered is lost", len(numbers) <= numbers[-1] <= len(numbers) + cut_off)
        counts.holds("the monitor was killed", cut_off > 0)


def write_counter(folder):
    (folder / "app.def").write_text(COUNTER.format("".join(OF_A_WINDOW.format(it) for it in range(1, WINDOWS + 1))))
    (folder / "app.units").write_text(ADD)


def typed_at_once(served, inputs):
    """Those who have typed, each so many inputs."""
    typists = [Typist(served, number, inputs) for number in range(1, WINDOWS + 1)]
    for it in typists:
        it.start()
    for it in typists:
        it.join()
    return typists


def kill_again_and_again(served):
    for _ in range(KILLS):
        time.sleep(SECONDS_BETWEEN_KILLS)
        served.post("/kill", {})
        # (long enough that somebody types meanwhile, however fast the monitor is)
        time.sleep(SECONDS_BETWEEN_KILLS)
        served.post("/start", {})


def seconds_of_children():
    """The processor time of all processes that were started here and have ended."""
    used = resource.getrusage(resource.RUSAGE_CHILDREN)
    return used.ru_utime + used.ru_stime


class Typist(threading.Thread):
    """A window at a terminal, in which somebody counts."""

    def __init__(self, served, number, inputs=1):
        super().__init__()
        self.served, self.number, self.inputs, self.terminal = served, number, inputs, f"P{number}"
        self.events = Events(served, self.terminal)
        self.connection = served.connection()
        self.numbers, self.cut_off = [], 0
        self.type(f"KDCSIGN U{number}")

    def type(self, text):
        """The line that is answered; none where the monitor was killed."""
        status, answer = self.served.post("/input", {"terminal": self.terminal, "text": text}, self.connection)
        return json.loads(answer)["lines"][0] if status == 200 else ""

    def run(self):
        began = time.monotonic()
        for number in range(self.inputs):
            time.sleep(max(began + number * WINDOWS / INPUTS_A_SECOND - time.monotonic(), 0))
            self.run_once()

    def run_once(self):
        """Counts once; after a kill the user signs on anew."""
        line = self.type("ADD")
        while not line.startswith(f"OUT {self.terminal} "):
            self.cut_off += not line
            self.type(f"KDCSIGN U{self.number}")
            line = self.type("ADD")
        self.numbers.append(int(line.split(" ")[2]))

    def told(self):
        """The words and texts that this window has to show."""
        sign_on = [("IN", f"KDCSIGN U{self.number}"), ("SYS", f"SIGNED ON U{self.number}")]
        return sign_on + [it for number in self.numbers for it in (("IN", "ADD"), ("OUT", f"{number:06}"))]

    def heard(self):
        """Those that it shows."""
        wanted, found = len(self.told()), []
        for change in self.events:
            found += [(it["word"], it["text"]) for it in change.get("entries", []) if it["place"] == self.terminal]
            if len(found) >= wanted:
                break
        return found


# ---- The page

JOURNAL = "#journal"
ENTRIES = """[...document.querySelectorAll("{} li")].map(
    (it) => ['.word', '.place', '.text'].map((part) => (it.querySelector(part) || {{textContent: ''}}).textContent))"""
ROWS = "[...document.querySelectorAll('#{} tbody tr')].map((row) => [...row.cells].map((it) => it.textContent))"
# The words of entries that are no lines of the monitor.
NOT_SENT = ("", ">", "IN", "NOTE")
NARROW = 360


class Play:
    """What is done in the windows, and the same as the commands of a script."""

    def __init__(self, counts):
        self.counts = counts
        self.script = []
        self.works = True

    def does(self, *commands, moves=True):
        """Notes what was done; where the tasks work by themselves, they do so after it."""
        self.script += [*commands, *([ALL_TURNS] if moves and self.works else [])]

    def types(self, window, terminal, text):
        """Types at a terminal by the keyboard, and waits until it is done."""
        field = f"document.getElementById('input-{terminal}')"
        window.value(f"{field}.focus()")
        window.type(text)
        self.sees(f"{text} is sent", window, f"{field}.value === ''")
        self.does(f"IN {terminal} {text}")

    def presses(self, window, button):
        """Presses a button by the keyboard."""
        window.value(f"document.querySelector({json.dumps(button)}).focus()")
        window.type("")

    def sees(self, name, window, expression):
        """Where a page does not come to show what it should, it is tried no further."""
        if not window.comes(expression):
            raise Failed(f"{name}: it is not shown")
        self.counts.holds(name, True)


def at(terminal):
    return f"section[data-name='{terminal}']"


def has_entry(place, word, text):
    """That a history has this entry at its end."""
    return f"(({ENTRIES.format(place)}).slice(-1)[0] || []).join('|') === {json.dumps(f'{word}||{text}')}"


def has_text(selector, text):
    return f"document.querySelector({json.dumps(selector)}).textContent.includes({json.dumps(text)})"


def has_row(table, *cells):
    return f"({ROWS.format(table)}).some((row) => row.join('|') === {json.dumps('|'.join(cells))})"


def try_page(counts, live, folder, browser):
    """Two users in two windows do what the shop has, and the page shows what `utm run` sends."""
    copy_texts(folder, "shop")
    with Served(folder, live) as served:
        play = Play(counts)
        first, second = browser.open(served.address), browser.open(f"{served.address}")
        play.sees("the first window is at the first terminal", first, "document.activeElement.id === 'input-P1'")
        play.sees("the second one at the next", second, "document.activeElement.id === 'input-P2'")
        sign_on_and_order(play, first, second)
        wait_for_an_area(play, first, second)
        ask_for_each_others_areas(play, first, second)
        print_a_page(play, first)
        kill_between_steps(play, first)
        look_around(play, served, browser, first)
        tables = compare(counts, folder, first, second, play.script)
        counts.holds("^C ends all", served.end(), 0)
    if not live:
        counts.holds("the tables are kept", printed_by(folder, "show"), tables)
    complaints = [it for it in browser.complaints if it.get("entry", {}).get("source") != "network"]
    counts.holds("the pages complain of nothing", complaints, [])


def sign_on_and_order(play, first, second):
    play.types(first, "P1", "KDCSIGN U1,PW1")
    play.sees("a password is not shown", first, f"({ENTRIES.format(at('P1'))})[1].join('|') === 'IN||KDCSIGN U1,***'")
    first.value("document.getElementById('input-P1').focus()")
    first.press("ArrowUp")
    play.sees("nor brought back", first, "document.getElementById('input-P1').value === 'KDCSIGN U1,'")
    first.press("ArrowDown")
    play.types(second, "P2", "KDCSIGN U2")
    play.sees("who is signed on", first, f"{has_row('signed', 'P1', 'U1')} && {has_row('signed', 'P2', 'U2')}")
    play.types(first, "P1", "ORD1 APPLE")
    play.sees("a question", first, has_entry(at("P1"), "OUT", "QTY"))
    play.types(first, "P1", "5")
    play.sees("its answer", first, has_entry(at("P1"), "OUT", "APPLE5"))


def wait_for_an_area(play, first, second):
    play.types(first, "P1", "HOLD")
    play.types(second, "P2", "SEEK")
    play.sees("who holds", second, has_row("locks", "U1", "holds", "GSSB A", "", ""))
    play.sees("who waits for whom", second, has_row("locks", "U2", "waits for", "GSSB A", "U1", "0"))
    second.value("document.getElementById('ticks').value = '3'")
    play.presses(second, "#tick button")
    play.does("TICK 3")
    play.sees("K04 after three ticks", second, has_entry(at("P2"), "OUT", "K04"))
    play.sees("the clock", first, "document.getElementById('clock').textContent === '3'")
    play.types(first, "P1", "X")
    play.sees("the area is free", first, has_row("locks", "none"))


def ask_for_each_others_areas(play, first, second):
    """A deadlock, turn by turn."""
    first.value("document.querySelector('[value=turns]').click()")
    play.sees("turn by turn", second, "!document.getElementById('turns').hidden")
    play.works = False
    play.types(first, "P1", "CROSS1")
    play.types(second, "P2", "CROSS2")
    for task, did in (
        (1, "1 takes U1"),
        (2, "2 takes U2"),
        (1, "1 U1 CROSS1"),
        (1, "locks GSSB A"),
        (2, "2 U2 CROSS2"),
        (2, "locks GSSB B"),
        (1, "SGET GB 'B' v"),
        (1, "waits for GSSB B, which U2 holds"),
    ):
        play.presses(first, f"#tasks-to-turn button:nth-of-type({task})")
        play.does(f"TURN {task}")
        play.sees(f"a turn shows what was done: {did}", first, has_text("#turn", did))
    line = (TOP / "examples/shop/shop.units").read_text().split("\n").index("SGET GB 'B' v") + 1
    play.sees("what a task does next", second, has_row("tasks", "1", "U1", "CROSS1", f"line {line}: SGET GB 'B' v"))
    play.presses(second, "#run")
    play.does("RUN 100")
    play.sees("all turns are told", second, has_text("#turn", "PEND FI"))
    play.sees("K05 comes", second, has_entry(at("P2"), "OUT", "K05"))
    play.sees("and the other one goes on", first, has_entry(at("P1"), "OUT", "K03"))
    first.value("document.querySelector('[value=auto]').click()")
    play.sees("by themselves again", second, "document.getElementById('turns').hidden")
    play.works = True
    play.does()


def print_a_page(play, first):
    play.types(first, "P1", "TOPRT")
    play.sees("a job", first, has_row("jobs", "1", "LTERM L3", "3", "free"))
    for button, command, word, text in (
        (".next", "PRINT P3", "PRT", "PAPER"),
        (".next", "PRINT P3", "SYS", "NO MESSAGE"),
        (".again", "PRINT P3 LAST", "PRT", "PAPER"),
    ):
        play.presses(first, f"{at('P3')} {button}")
        play.does(command, moves=False)
        play.sees(f"the printer: {text}", first, has_entry(at("P3"), word, text))


def kill_between_steps(play, first):
    """The message has the form of HTML, and is shown as it is."""
    play.types(first, "P1", "ORD1 <b>x</b>")
    play.sees("the question before", first, has_entry(at("P1"), "OUT", "QTY"))
    play.presses(first, "#kill")
    play.sees("the monitor is killed", first, has_text("#monitor", "was killed"))
    play.sees("nobody is signed on", first, has_row("signed", "none"))
    first.value("document.getElementById('input-P1').focus()")
    first.type("5")
    play.sees("nothing is done without a monitor", first, has_text(f"{at('P1')} .error", "no monitor is at work"))
    first.value("document.getElementById('input-P1').value = ''")
    play.presses(first, "#start")
    play.does("RESTART")
    play.sees("it is started again", first, has_text("#monitor", "is at work"))
    play.types(first, "P1", "KDCSIGN U1,PW1")
    play.sees("the question again", first, has_entry(at("P1"), "OUT", "QTY"))
    play.types(first, "P1", "12")
    play.sees("a text is shown as it is", first, has_entry(at("P1"), "OUT", "<b>x</b>12"))


def look_around(play, served, browser, first):
    """A second window at a terminal, an input that is too long, and a narrow window."""
    third = browser.open(f"{served.address}?at=P1")
    for window in (first, third):
        play.sees("a second window is told", window, has_text(f"{at('P1')} .notice", "open in 1 other window too"))
    third.close()
    play.sees(
        "until it is closed", first, f"document.querySelector({json.dumps(at('P1'))} + ' .notice').textContent === ''"
    )
    first.value("document.getElementById('input-P1').focus()")
    first.type("X" * 81)
    play.sees("what is too long is told", first, has_text(f"{at('P1')} .length", "Too long: 81"))
    first.value("document.querySelector('#seats input[value=P2]').click()")
    play.sees("two terminals in a window", first, f"!document.querySelector({json.dumps(at('P2'))}).hidden")
    first.set_size(NARROW, 800)
    play.sees("a narrow window", first, f"document.documentElement.scrollWidth <= {NARROW}")


def compare(counts, folder, first, second, script):
    """The lines that are shown are those of the script, each at its place, and so are the tables, which it returns."""
    run = folder / "run"
    run.mkdir()
    copy_texts(run, "shop")
    (run / "app.script").write_text("".join(f"{it}\n" for it in script))
    sent = [it for it in printed_by(run, "run") if it != "RESTART"]
    counts.holds("the journal has the lines of the run", settled(lambda: lines_shown(first, JOURNAL), sent), sent)
    for window, name in ((first, "P1"), (second, "P2"), (first, "P3")):
        of_it = [it for it in sent if it.split(" ")[1] == name]
        counts.holds(f"{name} has its own", settled(lambda: lines_shown(window, at(name), name), of_it), of_it)
    tables = printed_by(run, "show")
    counts.holds("the tables are those of the run", settled(lambda: tables_shown(first), tables), tables)
    return tables


def settled(read, wanted):
    """What is read as soon as it is as wanted, or after some seconds: what has changed last may still be on its way."""
    until = time.monotonic() + SECONDS_TO_ANSWER
    found = read()
    while found != wanted and time.monotonic() < until:
        time.sleep(SECONDS_BETWEEN_LOOKS)
        found = read()
    return found


def tables_shown(window):
    return [" ".join([*filter(None, row[:2]), row[2]]) for row in window.value(ROWS.format("show"))]


def printed_by(folder, call):
    return subprocess.run(
        [UTM, call, "app"], cwd=folder, stdout=subprocess.PIPE, check=True, text=True
    ).stdout.splitlines()


def lines_shown(window, place, name=""):
    """The lines of the monitor in a history; that of a terminal does not name it."""
    entries = window.value(ENTRIES.format(place))
    return [
        " ".join([*filter(None, (word, where or name)), text]) for word, where, text in entries if word not in NOT_SENT
    ]


def take_picture(live, folder, browser, file):
    """Two transfers of the bank at once, in opposite directions: one of them waits."""
    copy_texts(folder, "bank", "bank")
    with Served(folder, live, "bank") as served:
        for terminal, text in (
            ("TERM1", "KDCSIGN ANN"),
            ("TERM2", "KDCSIGN BEN"),
            ("TERM1", "OPEN ALICE   0100"),
            ("TERM2", "OPEN BOB     0100"),
            ("TERM1", "STMT ALICE"),
        ):
            served.post("/input", {"terminal": terminal, "text": text})
        served.post("/print", {"printer": "PR", "again": False})
        served.post("/mode", {"mode": "turns"})
        served.post("/input", {"terminal": "TERM1", "text": "PAY ALICE   BOB     0010"})
        served.post("/input", {"terminal": "TERM2", "text": "PAY BOB     ALICE   0050"})
        for turn in range(15):
            served.post("/turn", {"task": 1 + turn % 2})
        window = browser.open(f"{served.address}?at=TERM1&at=TERM2")
        window.set_size(1200, 900)
        window.comes(has_text("#locks", "waits for"))
        file.write_bytes(window.picture())


def main():
    parser = argparse.ArgumentParser(description=__doc__.splitlines()[0])
    parser.add_argument("--live", type=Path, metavar="PROGRAM")
    parser.add_argument("--picture", type=Path, metavar="FILE")
    asked = parser.parse_args()
    counts = Counts()
    with tempfile.TemporaryDirectory(prefix="kudzuspade-terminals-") as name:
        folders = [Path(name, it) for it in ("requests", "inputs", "kills", "page", "picture", "browser")]
        for it in folders:
            it.mkdir()
        try_definitions(counts)
        try_requests(counts, asked.live, folders[0])
        try_refusals(counts, asked.live, folders[0])
        for it in folders[1:3]:
            write_counter(it)
        try_many_inputs(counts, asked.live, folders[1])
        try_kills(counts, asked.live, folders[2])
        program = browser_program()
        if not program:
            print("terminals: the page is not tried: no browser of those in tools/browser.py is on the PATH")
        else:
            try_in_browser(counts, asked, folders[3:], program)
    print(f"{counts.passed} passed, {counts.failed} failed")
    return 1 if counts.failed else 0


def try_in_browser(counts, asked, folders, program):
    browser = Browser(program, folders[2])
    try:
        try_page(counts, asked.live, folders[0], browser)
        if asked.picture:
            take_picture(asked.live, folders[1], browser, asked.picture)
    except Failed as failed:
        counts.holds("the browser", str(failed), "")
    finally:
        browser.end()


if __name__ == "__main__":
    sys.exit(main())
