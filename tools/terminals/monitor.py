"""The monitor at work, in a process of its own, which performs the lines that it is sent and answers each of them."""

import contextlib
import os
import signal
import subprocess
import threading
from collections import deque

SECONDS_TO_END = 10
LINES_TOLD = 5


class MonitorEnded(Exception):
    """The monitor ended before its answer was whole; these are the lines that it sent until then."""

    def __init__(self, lines):
        super().__init__("the monitor ended before it had answered")
        self.lines = lines


class Monitor:
    """A process that performs lines. It serves one caller at a time; `kill` alone may be called at any moment."""

    def __init__(self, command, tell):
        """Starts it by this command. What it says on standard error is handed to `tell`, line by line."""
        self.process = subprocess.Popen(
            command,
            stdin=subprocess.PIPE,
            stdout=subprocess.PIPE,
            stderr=subprocess.PIPE,
            start_new_session=True,
        )
        self.said = deque(maxlen=LINES_TOLD)
        self._asked = 0
        self._listener = threading.Thread(target=self._listen, args=(tell,), daemon=True)
        self._listener.start()

    def ask(self, *lines):
        """Has these lines performed, and returns for each the lines of its answer."""
        first = self._asked
        self._asked += len(lines)
        numbers = range(first, self._asked)
        text = "".join(f"{line}\nECHO ={number}\n" for number, line in zip(numbers, lines))
        # Where it has ended, what it sent before is read below.
        with contextlib.suppress(OSError):
            self.process.stdin.write(text.encode("ascii"))
            self.process.stdin.flush()
        answers = []
        for number in numbers:
            answers.append(self._answer(f"={number}", answers))
        return answers

    def _answer(self, token, before):
        """The lines up to that of the token: no line of the monitor begins with `=`."""
        lines = []
        for line in self.process.stdout:
            if not line.endswith(b"\n"):
                break
            text = line[:-1].decode("utf-8", "replace")
            if text == token:
                return lines
            lines.append(text)
        raise MonitorEnded([it for answer in (*before, lines) for it in answer])

    def has_ended(self):
        return self.process.poll() is not None

    def kill(self):
        """Ends it at once, by SIGKILL, with all that it has started."""
        if not self.has_ended():
            with contextlib.suppress(ProcessLookupError):
                os.killpg(self.process.pid, signal.SIGKILL)
            self.process.wait()

    def end(self):
        """Ends its input, waits until it has ended, and returns its status."""
        with contextlib.suppress(OSError):
            self.process.stdin.close()
        try:
            self.process.wait(SECONDS_TO_END)
        except subprocess.TimeoutExpired:
            self.kill()
        self._listener.join(SECONDS_TO_END)
        self.process.stdout.close()
        return self.process.returncode

    def _listen(self, tell):
        with self.process.stderr as told:
            for line in told:
                text = line.decode("utf-8", "replace").rstrip("\n")
                self.said.append(text)
                tell(text)
