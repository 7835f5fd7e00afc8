"""An application at work: its monitor is started, killed and started again, performs commands, and is looked at. What
comes of it is put on the board.
"""

import contextlib
import threading
import time
from pathlib import Path

from board import Board
from commands import Refused
from kdcdef import read_definition
from monitor import LINES_TOLD, SECONDS_TO_END, Monitor, MonitorEnded
from statements import Statements
from tables import NO_ROWS, ROWS, rows_of
from turns import moves, turn_lines

WORK = ("RUN 1000000",)
# How the tasks work, and whether the monitor tells what each turn did, which not every monitor does.
SWITCHES = {"auto": ("AUTO", "QUIET"), "turns": ("MANUAL", "TRACE")}
FIRST_LINES = ("AUTO",)
OF_A_PTERM = ("OUT", "ASY", "PRT", "SYS")
SIGNED_ON, SIGNED_OFF = "SIGNED ON ", ("SIGNED OFF ", "DROPPED")
SECONDS_TO_REST = 0.1
# How much longer than a look at the monitor the rest after it is.
RESTS_OF_A_LOOK = 4


class NoMonitor(Refused):
    """No monitor is at work, or it ended before it had answered."""


class Session:
    """Several threads may use it. What the monitor performs is shown in the order in which it performed it."""

    def __init__(self, base, command, tell):
        """The monitor is started by this command; what it says on standard error is handed to `tell`."""
        self.base = base
        self.definition = self.board = self._statements = None
        self._command, self._tell = command, tell
        self._monitor = None
        self._mode, self._tells = "auto", True
        self._signed_on = {}
        self._is_stale = True
        self._lock = threading.RLock()
        self._closed = threading.Event()

    def open(self):
        """Starts the monitor for the first time. Where it ends at once, its lines and its status are returned."""
        self._monitor = Monitor(self._command, self._tell)
        try:
            lines = joined(self._monitor.ask(*FIRST_LINES))
        except MonitorEnded as ended:
            return ended.lines, self._monitor.end()
        self._set_up(*(Path(f"{self.base}.{it}").read_text(encoding="latin-1") for it in ("def", "units")))
        with contextlib.suppress(NoMonitor):
            self._is_started(lines)
        threading.Thread(target=self._watch, daemon=True).start()
        return None

    def _set_up(self, definition, units):
        """Makes an empty board for an application with these texts."""
        self.definition = read = read_definition(definition)
        self._statements = Statements(units, read.programs)
        self.board = Board(read.terminals, ("", *read.terminals, *read.printers))
        shown = {name: getattr(read, name) for name in ("terminals", "printers", "tasks", "longest_message")}
        self.board.show(application={"base": self.base, **shown}, mode=self._mode, turn=[])

    def start(self):
        """Starts the monitor again."""
        with self._lock:
            if self._monitor:
                raise Refused("the monitor is at work")
            self.board.show(monitor={"is": "is starting", "why": ""})
            try:
                self._monitor = Monitor(self._command, self._tell)
            except OSError as fault:
                self.board.show(monitor={"is": "was not started", "why": str(fault)})
                raise NoMonitor("the monitor was not started") from None
            self._is_started(self._ask(*FIRST_LINES))

    def kill(self):
        """Kills the monitor, whatever it is at."""
        monitor = self._monitor
        if not monitor:
            raise NoMonitor("no monitor is at work")
        monitor.kill()
        with self._lock:
            if self._monitor is monitor:
                self._has_ended([])

    def close(self):
        """Ends the monitor and all that waits for it; what it has acknowledged is kept."""
        self._closed.set()
        if self.board:
            self.board.close()
        monitor = self._monitor
        if not monitor:
            return
        # The lock is not given back: nothing more is performed.
        if self._lock.acquire(timeout=SECONDS_TO_END):
            monitor.end()
        else:
            monitor.kill()

    def set_mode(self, mode):
        """Lets the tasks work by themselves, or turn by turn."""
        if mode not in SWITCHES:
            raise Refused("there is no such way to work")
        with self._lock:
            self._mode = mode
            self.board.show(mode=mode, turn=[])
            if self._monitor:
                self._switch()

    def perform(self, command):
        """Has a command performed, and returns the lines that came of it."""
        with self._lock:
            if not self._monitor:
                raise NoMonitor("no monitor is at work")
            self.board.add([(command.place, command.word, command.text)])
            if command.tasks and not self._tells:
                lines = self._ask_turns(command.tasks)
            else:
                lines = self._ask(command.line, *(self._work() if command.moves else ()))
            self.board.show(turn=[it for it in lines if it.startswith(" ")])
            return self._take(lines)

    def _work(self):
        return WORK if self._mode == "auto" else ()

    def _switch(self):
        """Tells the monitor how the tasks work, and lets them do so."""
        works, tells = SWITCHES[self._mode]
        self._tells = not self._ask(tells)
        self._take(self._ask(works, *self._work()))

    def _ask(self, *lines):
        """All lines of the answers to these."""
        return joined(self._answers(*lines))

    def _ask_turns(self, tasks):
        """Gives these tasks their turns, until as many as there are tasks moved nothing; returns what came of them."""
        told, idle = [], 0
        for task in tasks:
            *before, lines, tasks_after, locks_after = self._answers("TASKS", "LOCKS", f"TURN {task}", "TASKS", "LOCKS")
            turn = turn_lines(task, before, (tasks_after, locks_after), self._statements)
            told += turn + lines
            idle = 0 if moves(turn) else idle + 1
            if idle == self.definition.tasks:
                break
        return told

    def _answers(self, *lines):
        self._is_stale = True
        try:
            return self._monitor.ask(*lines)
        except MonitorEnded as ended:
            self._has_ended(ended.lines)
            raise NoMonitor(str(ended)) from None

    def _is_started(self, lines):
        self.board.show(monitor={"is": "is at work", "why": ""}, signed={})
        self.board.add([("", "NOTE", "the monitor is started")])
        self._take(lines)
        self._switch()

    def _has_ended(self, lines):
        """The monitor has ended, after these lines. Nobody is signed on then."""
        self._take(lines)
        status = self._monitor.end()
        how = "was killed" if status < 0 else f"has ended with status {status}"
        told = [*lines, *self._monitor.said][-LINES_TOLD:] if status > 0 else []
        self._monitor = None
        self._sign_off_all()
        self.board.add([("", "NOTE", f"the monitor {how}")])
        self.board.show(monitor={"is": how, "why": "\n".join(told)}, tasks=NO_ROWS, locks=NO_ROWS)

    def _take(self, lines):
        """Puts the lines of the monitor on the board, and returns them; the commands of a trace are not among them."""
        lines = [it for it in lines if not it.startswith("> ")]
        entries = [entry_of(it) for it in lines]
        for place, word, text in entries:
            self._note_sign_on(place, word, text)
        self.board.add(entries)
        return lines

    def _note_sign_on(self, place, word, text):
        if word == "SYS" and text.startswith(SIGNED_ON):
            self._signed_on[place] = text[len(SIGNED_ON) :]
            self.board.show(signed=dict(self._signed_on))
        elif word == "SYS" and text.startswith(SIGNED_OFF):
            self._signed_on.pop(place, None)
            self.board.show(signed=dict(self._signed_on))
        elif word == "RESTART":
            self._sign_off_all()

    def _sign_off_all(self):
        self._signed_on.clear()
        self.board.show(signed={})

    def _watch(self):
        """Keeps the desk up to date, until the session is closed."""
        rest = SECONDS_TO_REST
        while not self._closed.wait(rest):
            began = time.monotonic()
            with self._lock:
                self._look()
            rest = max(SECONDS_TO_REST, RESTS_OF_A_LOOK * (time.monotonic() - began))

    def _look(self):
        if not self._monitor:
            return
        if self._monitor.has_ended():
            self._has_ended([])
        elif self._is_stale and self.board.has_windows():
            self._show_desk()

    def _show_desk(self):
        try:
            answers = dict(zip(ROWS, self._monitor.ask(*ROWS)))
        except MonitorEnded as ended:
            self._has_ended(ended.lines)
            return
        self._is_stale = False
        clock = [it for it in answers["SHOW"] if it.startswith("CLOCK ")]
        desk = {question.lower(): rows_of(question, lines) for question, lines in answers.items()}
        for row in desk["tasks"]["rows"]:
            row[3:] = [self._statements.at(row[2], int(place)) for place in row[3:] if place]
        self.board.show(clock=clock[0].split(" ")[1] if clock else "", **desk)


def joined(answers):
    return [line for lines in answers for line in lines]


def entry_of(line):
    """Where a line of the monitor is shown, with which word and text."""
    word, _, rest = line.partition(" ")
    if not word:
        return "", "", line[2:]
    if word in OF_A_PTERM:
        place, _, text = rest.partition(" ")
        return place, word, text
    return "", word, rest
