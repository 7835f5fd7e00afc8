#!/usr/bin/env python3
"""Tries texts of cases by the built program `utm` over real files, as the program utm_cases tries them in memory.

    python3 tools/hostile pairs 1 300 --program tools/hostile/over_files.py

What is said of calls that fail and of stops is passed over. UTM in the environment is another program than the built one.
"""

import os
import re
import subprocess
import sys
import tempfile
from pathlib import Path

TOP = Path(__file__).resolve().parents[2]
UTM = Path(os.environ.get("UTM", TOP / "crates/utm/out/utm")).resolve()
NAMES = ("app.KDCA", "app.KDCB")
NO_FAULT = "emit 9999 9999"  # no run has so many lines: the call does not fail, and the files stay


def bytes_of(text):
    """The bytes that a text writes."""
    data = text.encode("latin-1")
    return re.sub(rb"\\(\\|x[0-9a-f]{2})", lambda it: b"\\" if it[1] == b"\\" else bytes([int(it[1][1:], 16)]), data)


class Stage:
    """The lines of a text, one after another."""

    def __init__(self, folder, texts):
        self.folder, self.texts = Path(folder), texts
        self.found = []  # the number of a line, the title of its case, the line, and what was found
        self.number, self.line, self.title = 0, "", ""
        self.clear()

    def clear(self):
        self.files = {NAMES[0]: b"", NAMES[1]: b""}
        self.written = {}
        self.target = None
        self.apart = self.again = self.passes = False
        self.left, self.sent = None, []

    def complain(self, found):
        self.found.append((self.number, self.title, self.line, found))

    def settle(self):
        """Each line that the last call sent has to be said."""
        if self.sent:
            self.complain(f"the call before sent too: {self.sent[0]}")
        self.sent = []

    def does(self, number, line):
        self.number, self.line = number, line
        word, _, rest = line.partition(" ")
        name = NAMES[0]
        if word == "second":
            name = NAMES[1]
            word, _, rest = rest.partition(" ")
        if word not in ("", "*"):
            getattr(self, "do_" + {"|": "line", "+": "piece", "=": "status", ">": "sends"}.get(word, word))(rest, name)

    # ---- texts and files

    def do_case(self, rest, name):
        self.settle()
        self.clear()
        self.title = rest

    def do_text(self, rest, name):
        self.target = self.texts[rest] = bytearray()

    def do_file(self, rest, name):
        to, _, text = rest.partition(" = ")
        self.target = self.written[to] = bytearray(self.texts[text]) if text else bytearray()

    def do_line(self, rest, name):
        self.target += bytes_of(rest) + b"\n"

    def do_piece(self, rest, name):
        self.target += bytes_of(rest)

    def do_put(self, rest, name):
        at, _, data = rest.partition(" ")
        data, at = bytes_of(data), int(at)
        file = bytearray(self.files[name])
        file[at : at + len(data)] = data
        self.files[name] = bytes(file)

    def do_cut(self, rest, name):
        self.files[name] = self.files[name][: int(rest)]

    def do_empty(self, rest, name):
        self.files[name] = b""

    # ---- calls

    def do_fails(self, rest, name):
        self.apart = True
        self.passes = self.passes or rest != NO_FAULT

    def do_fail(self, rest, name):
        self.passes = True

    do_stop = do_stops = do_fail

    def do_again(self, rest, name):
        self.again = True

    def do_call(self, rest, name):
        self.settle()
        passed = self.passes or self.again and self.left is None
        self.called = not passed
        if passed:
            self.left = None
        else:
            self.makes(rest.split(" "), self.left if self.again else self.files)
        if not (self.apart or self.again or passed):
            self.files = self.left
        self.apart = self.again = self.passes = False

    def makes(self, words, before):
        self.before = before
        for name, data in {**self.written, **before}.items():
            (self.folder / name).write_bytes(data)
        done = subprocess.run([UTM, *words], cwd=self.folder, stdout=-1, stderr=-3)
        self.answer, self.sent = done.returncode, done.stdout.decode("latin-1").splitlines()
        self.left = {name: (self.folder / name).read_bytes() for name in NAMES}

    def do_status(self, rest, name):
        if self.called and str(self.answer) != rest:
            self.complain(str(self.answer))

    def do_sends(self, rest, name):
        if self.called:
            line = self.sent.pop(0) if self.sent else None
            if line != rest:
                self.complain("no such line was sent" if line is None else line)
        elif rest == "?":
            self.complain("no such line was sent")

    def do_same(self, rest, name):
        if self.called and self.left[name] != self.before[name]:
            self.complain("it has changed")

    def do_length(self, rest, name):
        if self.called and len(self.left[name]) != int(rest):
            self.complain(str(len(self.left[name])))

    def do_holds(self, rest, name):
        at, _, data = rest.partition(" ")
        data, at = bytes_of(data), int(at)
        if self.called and self.left[name][at : at + len(data)] != data:
            self.complain("other bytes")


def main(names):
    texts = {}
    memory = "/dev/shm" if os.path.isdir("/dev/shm") else None
    for name in names:
        with tempfile.TemporaryDirectory(prefix="kudzuspade-", dir=memory) as folder:
            stage = Stage(folder, texts)
            lines = Path(name).read_text(encoding="latin-1").split("\n")[:-1]
            for number, line in enumerate(lines, 1):
                stage.does(number, line)
            stage.number, stage.line = len(lines) + 1, "the end"
            stage.settle()
        for number, title, line, found in stage.found:
            print(f"{name}, {number}, {title}: {line}: {found}")
        print(f"{name}: {len(stage.found)} wrong")


main(sys.argv[1:])
