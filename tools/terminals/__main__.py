"""Terminals in a browser: serves a page with the terminals, the printers and the desk of an application.

    python3 tools/terminals BASE [--alone] [--port N] [--live PROGRAM]

The monitor is `./live BASE`, or another program with its lines. The page's address is printed when it can be opened.
A ^C ends the server and the monitor. Where the monitor refuses BASE, its lines are printed, and its status is the one
here.
"""

import argparse
import signal
import sys
from pathlib import Path

sys.dont_write_bytecode = True

from server import ADDRESS, Server
from session import Session

TOP = Path(__file__).resolve().parent.parent.parent
WRONG_WORDS, NOT_BEGUN = 1, 9
STOPS = (signal.SIGINT, signal.SIGTERM, signal.SIGHUP)


class Parser(argparse.ArgumentParser):
    """Words that are none are told in a line."""

    def error(self, message):
        self.exit(WRONG_WORDS, f"terminals: {message}\n")


class Stopped(Exception):
    """A signal told this process to end."""


def stop(*_):
    """Begins the end; a second signal does nothing more."""
    for it in STOPS:
        signal.signal(it, signal.SIG_IGN)
    raise Stopped


def tell(text):
    print(text, file=sys.stderr, flush=True)


def words():
    parser = Parser(prog="terminals", description="Terminals in a browser, for an application.")
    parser.add_argument("base", metavar="BASE", help="the application: BASE.def, BASE.units and BASE.KDCA")
    parser.add_argument("--alone", action="store_true", help="one copy is gone on with where the other one is missing")
    parser.add_argument("--port", type=int, default=8066, metavar="N", help="the port; 0 stands for a free one")
    parser.add_argument("--live", type=Path, default=TOP / "live", metavar="PROGRAM", help="another monitor")
    asked = parser.parse_args()
    if not 0 <= asked.port <= 65535:
        parser.error("--port N: N is from 0 to 65535")
    return asked


def serve(session, server):
    """Serves until a signal comes; returns the status."""
    refused = session.open()
    if refused:
        lines, status = refused
        print("\n".join(lines))
        return status if status > 0 else NOT_BEGUN
    print(f"http://{ADDRESS}:{server.server_port}/", flush=True)
    server.serve_forever()
    return 0


def main():
    asked = words()
    for it in STOPS:
        if signal.getsignal(it) != signal.SIG_IGN:
            signal.signal(it, stop)
    options = ["--alone"] if asked.alone else []
    session = Session(asked.base, [str(asked.live), asked.base, *options], tell)
    try:
        with Server(asked.port, session) as server:
            return serve(session, server)
    except Stopped:
        return 0
    except OSError as fault:
        tell(f"terminals: {fault.filename or f'port {asked.port}'}: {fault.strerror}")
        return NOT_BEGUN
    finally:
        session.close()


if __name__ == "__main__":
    sys.exit(main())
