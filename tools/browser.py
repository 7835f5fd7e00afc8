"""A browser that shows nothing, driven over the pipe of its debugging protocol. It is a library, and is not run."""

import base64
import json
import os
import select
import shutil
import subprocess
import time

PROGRAMS = ("chromium-headless-shell", "chromium", "chromium-browser", "google-chrome", "google-chrome-stable")
# It opens pages of this repository alone, and has to start in a container too: so it is without a sandbox.
WORDS = (
    "--headless",
    "--no-sandbox",
    "--disable-gpu",
    "--disable-dev-shm-usage",
    "--disable-background-networking",
    "--no-first-run",
    "--hide-scrollbars",
    "--remote-debugging-pipe",
)
SECONDS_TO_ANSWER = 30
SECONDS_BETWEEN_LOOKS = 0.02
PIECE = 1 << 16
ENTER = {"key": "Enter", "text": "\r", "windowsVirtualKeyCode": 13}


def browser_program():
    """The first browser of these on the PATH, or None."""
    return next((it for it in map(shutil.which, PROGRAMS) if it), None)


class Failed(Exception):
    """The browser did not do what it was asked."""


class Browser:
    """It reads messages at its descriptor 3 and writes them at 4, each with a zero byte behind it."""

    def __init__(self, program, folder):
        """What it keeps lies in this folder."""
        read, self._write = os.pipe()
        self._read, write = os.pipe()
        words = [program, *WORDS, f"--user-data-dir={folder}"]
        with open(os.path.join(folder, "told"), "wb") as told:
            self.process = subprocess.Popen(
                ["sh", "-c", f'exec "$@" 3<&{read} 4>&{write}', "sh", *words],
                pass_fds=(read, write),
                stdin=subprocess.DEVNULL,
                stdout=told,
                stderr=told,
            )
        os.close(read)
        os.close(write)
        self._rest = b""
        self._asked = 0
        # What the pages complain of.
        self.complaints = []

    def ask(self, method, values=None, session=None):
        """Asks for something, and returns the answer."""
        self._asked += 1
        message = {"id": self._asked, "method": method, "params": values or {}}
        if session:
            message["sessionId"] = session
        os.write(self._write, json.dumps(message).encode() + b"\0")
        until = time.monotonic() + SECONDS_TO_ANSWER
        while True:
            answer = self._message(until)
            if answer.get("id") == self._asked:
                if "error" in answer:
                    raise Failed(f"{method}: {answer['error'].get('message')}")
                return answer["result"]
            if answer.get("method") in ("Runtime.exceptionThrown", "Log.entryAdded"):
                self.complaints.append(answer["params"])

    def _message(self, until):
        while b"\0" not in self._rest:
            seconds = until - time.monotonic()
            if seconds <= 0 or not select.select([self._read], [], [], seconds)[0]:
                raise Failed("the browser does not answer")
            piece = os.read(self._read, PIECE)
            if not piece:
                raise Failed("the browser has ended")
            self._rest += piece
        message, _, self._rest = self._rest.partition(b"\0")
        return json.loads(message)

    def open(self, address):
        """Opens a window with this page."""
        target = self.ask("Target.createTarget", {"url": "about:blank"})["targetId"]
        session = self.ask("Target.attachToTarget", {"targetId": target, "flatten": True})["sessionId"]
        window = Window(self, target, session)
        for domain in ("Page", "Runtime", "Log"):
            window.ask(f"{domain}.enable")
        window.ask("Emulation.setFocusEmulationEnabled", {"enabled": True})
        window.ask("Page.navigate", {"url": address})
        return window

    def end(self):
        """Ends it, with all its windows."""
        os.close(self._write)
        try:
            self.process.wait(SECONDS_TO_ANSWER)
        except subprocess.TimeoutExpired:
            self.process.kill()
            self.process.wait()
        os.close(self._read)


class Window:
    """A window of the browser, with a page."""

    def __init__(self, browser, target, session):
        self._browser, self._target, self._session = browser, target, session

    def ask(self, method, values=None):
        return self._browser.ask(method, values, self._session)

    def value(self, expression):
        """The value of an expression in the page."""
        asked = {"expression": expression, "returnByValue": True}
        answer = self.ask("Runtime.evaluate", asked)
        if "exceptionDetails" in answer:
            raise Failed(f"{expression}: {answer['exceptionDetails'].get('text')}")
        return answer["result"].get("value")

    def comes(self, expression, seconds=SECONDS_TO_ANSWER):
        """Whether the expression comes true within these seconds; where it fails, the page may not be there yet."""
        until = time.monotonic() + seconds
        while not self.value(f"(() => {{ try {{ return Boolean({expression}) }} catch {{ return false }} }})()"):
            if time.monotonic() > until:
                return False
            time.sleep(SECONDS_BETWEEN_LOOKS)
        return True

    def type(self, text):
        """Types a text and the enter key, wherever the page has its cursor."""
        if text:
            self.ask("Input.insertText", {"text": text})
        self.press(**ENTER)

    def press(self, key, **more):
        for kind in ("keyDown", "keyUp"):
            self.ask("Input.dispatchKeyEvent", {"type": kind, "key": key, "code": key, **more})

    def set_size(self, width, height):
        values = {"width": width, "height": height, "deviceScaleFactor": 1, "mobile": False}
        self.ask("Emulation.setDeviceMetricsOverride", values)

    def picture(self):
        """A picture of the whole page, as the bytes of a PNG."""
        asked = {"format": "png", "captureBeyondViewport": True}
        return base64.b64decode(self.ask("Page.captureScreenshot", asked)["data"])

    def close(self):
        self._browser.ask("Target.closeTarget", {"targetId": self._target})
