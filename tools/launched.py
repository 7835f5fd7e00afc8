"""What the scripts share that a launcher starts. It is a library, and is not run."""

import contextlib
import signal
import sys
import time


class Stopped(Exception):
    """A signal, whose number this is, told this process to end."""


class Launcher:
    """The launcher that a script works for: it speaks under its name, and ends when a signal tells it to."""

    def __init__(self, name):
        self.name = name
        self.signals = []
        for it in (signal.SIGINT, signal.SIGTERM, signal.SIGHUP):
            if signal.getsignal(it) != signal.SIG_IGN:
                signal.signal(it, lambda number, _: self.signals.append(number))

    def say(self, text):
        """Tells the user something on standard error, where there is one: standard output is the program's own."""
        if sys.stderr is not None:
            with contextlib.suppress(OSError):
                print(f"{self.name}: {text}", file=sys.stderr, flush=True)

    def wait(self, seconds):
        """Waits, or ends the work where a signal has come."""
        time.sleep(seconds)
        if self.signals:
            raise Stopped(self.signals[0])


def count_of(number, word):
    return f"{number} {word}" if number == 1 else f"{number} {word}s"
