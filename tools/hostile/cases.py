"""Texts of cases, in the form of docs/cases.md: they are written, tried by utm_cases, and its complaints are read."""

import subprocess
import tempfile
from pathlib import Path

TOP = Path(__file__).resolve().parents[2]
DATA = TOP / "crates/utm_cases/data"
PROGRAM = TOP / "crates/utm_cases/out/utm_cases"
WRITTEN = [chr(it) if 0x20 <= it < 0x7F else f"\\x{it:02x}" for it in range(256)]
WRITTEN[ord("\\")] = "\\\\"


def written(data):
    """Bytes as a case writes them."""
    return "".join([WRITTEN[it] for it in data])


def text_lines(text):
    """The lines of a case that write this text, below the line that begins it."""
    *whole, last = text.split(b"\n")
    lines = ["| " + written(line) for line in whole]
    return lines + ["+ " + written(last)] if last else lines


class Call:
    """A call of a text of cases: what it is to answer, and what it did otherwise."""

    def __init__(self, number, status, lines, more, at):
        self.number = number  # of its line
        self.wanted_status = status
        self.wanted = lines
        self.more = more  # lines that are asked for behind the wanted ones
        self.at = at  # the try that the complaints name
        self.found = {}

    def found_at(self, line):
        """What was found at a line below that of the call, or nothing."""
        found = self.found.get(self.number + line)
        at = f", at {self.at}"
        return found[: -len(at)] if found and found.endswith(at) else found

    @property
    def status(self):
        found = self.found_at(1)
        return self.wanted_status if found is None else int(found)

    @property
    def lines(self):
        """The lines that were sent, up to the first that was asked for and not sent."""
        sent = []
        for place in range(len(self.wanted) + self.more):
            found = self.found_at(place + 2)
            if found == NOT_SENT:
                break
            sent.append(self.wanted[place] if found is None else found)
        return sent

    def failing(self):
        """Of a call that was tried with several numbers failing: the first number with another status."""
        return int(self.found[self.number + 1].rsplit(" ", 1)[1])


NOT_SENT = "no such line was sent"
UNKNOWN = "?"
NEVER = 9999  # no call of a run has this number


class Book:
    """A text of cases that grows. A line `> ?` asks for a line that is not known: no call sends it."""

    def __init__(self):
        self.lines = []
        self.calls = []
        self.script = None
        self.at = None

    def add(self, *lines):
        self.lines += lines

    def try_over(self, stop, choice):
        """The next call is made over what this stop leaves."""
        self.at = f"stop {stop} {choice}"
        self.add(self.at)

    def try_apart(self):
        """The next call leaves the file as it is, and the stops are those of the last call before."""
        self.at = f"emit {NEVER}"
        self.add(f"fails emit {NEVER} {NEVER}")

    def try_failing(self, kind, first, last):
        """The next call is made with each of these numbers failing, over the file, which stays."""
        self.at = f"{kind} {first}"
        self.add(f"fails {kind} {first} {last}")

    def try_again(self):
        """The next call is made over what the last one left. Where this had several tries, it has as many."""
        self.at = self.calls[-1].at
        self.add("again")

    def case(self, title, *lines):
        self.script = None
        self.add(f"case {title}", *lines)

    def takes(self, script):
        """The script of the calls from here on."""
        if script != self.script:
            self.script = script
            self.add("file app.script", *text_lines("".join(it + "\n" for it in script).encode()))

    def call(self, words, status, lines=(), more=0):
        """A call that is to answer so; `more` lines are asked for behind those that are known."""
        call = Call(len(self.lines) + 1, status, list(lines), more, self.at)
        self.at = None
        self.calls.append(call)
        self.add(f"call {words}", f"= {status}", *("> " + it for it in lines), *["> " + UNKNOWN] * more)
        return call

    def tried(self, program):
        """Has the text tried; returns what was found at its lines, by the number of the line."""
        found = complaints(program, self.lines)
        for call in self.calls:
            last = call.number + 1 + len(call.wanted) + call.more
            call.found = {it: found[it] for it in range(call.number, last + 1) if it in found}
        return found


class Broken(Exception):
    """The program did not come to its end."""


def complaints(program, lines):
    """Tries the lines behind the shared texts; returns what the program found at a line, by its number from 1 on."""
    with tempfile.NamedTemporaryFile("w", suffix=".cases", newline="\n") as file:
        file.writelines(it + "\n" for it in [*lines, "*"])
        file.flush()
        run = subprocess.run([program, "texts.cases", file.name], cwd=DATA, capture_output=True, text=True)
        *printed, last = run.stdout.rstrip("\n").split("\n")
        if run.returncode or not last.startswith(f"{file.name}: "):
            raise Broken(f"status {run.returncode}: {run.stderr}")
        found = {}
        for line in printed[1:]:
            number, said = line[len(file.name) + 2 :].split(", ", 1)
            text = lines[int(number) - 1] if int(number) <= len(lines) else "the end"
            found[int(number)] = said.partition(f": {text}: ")[2]
        if len(found) != int(last.split()[-2]):
            raise Broken(f"{last}, but {len(found)} read")
        return found
