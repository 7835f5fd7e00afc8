"""The page and what it asks for, over HTTP at 127.0.0.1."""

import json
import secrets
import select
import socket
import socketserver
import sys
from http import HTTPStatus
from http.server import BaseHTTPRequestHandler, ThreadingHTTPServer
from pathlib import Path
from urllib.parse import parse_qs, urlsplit

import commands
from commands import Refused
from session import NoMonitor, Session

ADDRESS = "127.0.0.1"
HERE = Path(__file__).resolve().parent
PAGES = {
    "/": ("page.html", "text/html; charset=utf-8"),
    "/page.css": ("page.css", "text/css; charset=utf-8"),
    "/page.js": ("page.js", "text/javascript; charset=utf-8"),
}
# A command by its path: what makes it, and the kind of each value that it takes.
COMMANDS = {
    "/input": (commands.input_of, {"terminal": str, "text": str}),
    "/drop": (commands.drop_of, {"terminal": str}),
    "/print": (commands.print_of, {"printer": str, "again": bool}),
    "/tick": (commands.tick_of, {"ticks": int}),
    "/turn": (commands.turn_of, {"task": int}),
    "/run": (commands.run_of, {"turns": int}),
}
ASKED_OF_SESSION = {
    "/mode": (Session.set_mode, {"mode": str}),
    "/kill": (Session.kill, {}),
    "/start": (Session.start, {}),
}
LONGEST_REQUEST = 100_000
SECONDS_OF_SILENCE = 30
SECONDS_BETWEEN_BEATS = 0.5
HEADERS = {
    "Cache-Control": "no-store",
    "Content-Security-Policy": "default-src 'none'; script-src 'self'; style-src 'self'; connect-src 'self'; "
    "base-uri 'none'; form-action 'none'; frame-ancestors 'none'",
    "Cross-Origin-Resource-Policy": "same-origin",
    "Referrer-Policy": "no-referrer",
    "X-Content-Type-Options": "nosniff",
}


class BadRequest(Exception):
    """A request that no page of this server makes: the status and why."""

    def __init__(self, status, why):
        super().__init__(why)
        self.status = status


class Server(ThreadingHTTPServer):
    """It serves one session, to this machine alone."""

    daemon_threads = True
    request_queue_size = 64

    def __init__(self, port, session):
        super().__init__((ADDRESS, port), Handler)
        self.session = session
        # What it has told is told apart from what another server at this port has told before.
        self.name = secrets.token_hex(8)
        self.hosts = {f"{name}:{self.server_port}" for name in (ADDRESS, "localhost")}
        self.pages = {path: ((HERE / file).read_bytes(), kind) for path, (file, kind) in PAGES.items()}

    def server_bind(self):
        """As the class above, but for a name of this machine, which nobody asks for and may be long in coming."""
        socketserver.TCPServer.server_bind(self)
        self.server_name, self.server_port = self.server_address

    def handle_error(self, request, client_address):
        """Says what went wrong; a browser that has gone is no error."""
        fault = sys.exc_info()[1]
        if not isinstance(fault, OSError):
            print(f"terminals: {type(fault).__name__}: {fault}", file=sys.stderr)


class Handler(BaseHTTPRequestHandler):
    """The requests of one connection."""

    protocol_version = "HTTP/1.1"
    disable_nagle_algorithm = True
    timeout = SECONDS_OF_SILENCE

    def do_GET(self):
        self._answer(self._get)

    def do_POST(self):
        self._answer(self._post)

    def log_message(self, *_):
        """Requests are not told."""

    def _answer(self, answer):
        try:
            self._check_host()
            answer()
        except BadRequest as bad:
            # What the request still has to say is not read.
            self.close_connection = True
            self._send_json(bad.status, {"error": str(bad)})
        except NoMonitor as none:
            self._send_json(HTTPStatus.SERVICE_UNAVAILABLE, {"error": str(none)})
        except Refused as refused:
            self._send_json(HTTPStatus.UNPROCESSABLE_ENTITY, {"error": str(refused)})

    # ---- What is asked

    def _check_host(self):
        """No other name leads here, and no page of another origin asks for anything."""
        hosts, origins = (self.headers.get_all(name, []) for name in ("Host", "Origin"))
        if len(hosts) != 1 or hosts[0] not in self.server.hosts:
            raise BadRequest(HTTPStatus.FORBIDDEN, "this is not the host of the terminals")
        is_foreign = origins not in ([], [f"http://{hosts[0]}"]) or self.command == "POST" and not origins
        if is_foreign or self._comes_from_elsewhere():
            raise BadRequest(HTTPStatus.FORBIDDEN, "a request of another origin is refused")

    def _comes_from_elsewhere(self):
        """Whether the browser says that a page of another site asks; a link there may lead here."""
        site, mode = (self.headers.get(f"Sec-Fetch-{it}") for it in ("Site", "Mode"))
        return site not in (None, "same-origin", "none") and mode != "navigate"

    def _get(self):
        url = urlsplit(self.path)
        if url.path == "/events":
            self._send_events(parse_qs(url.query).get("at", []))
        elif url.path in self.server.pages:
            self._send(HTTPStatus.OK, *self.server.pages[url.path])
        else:
            raise BadRequest(HTTPStatus.NOT_FOUND, "there is no such page")

    def _post(self):
        session = self.server.session
        if self.path in COMMANDS:
            make, kinds = COMMANDS[self.path]
            command = make(session.definition, **self._values(kinds))
            self._send_json(HTTPStatus.OK, {"lines": session.perform(command)})
        elif self.path in ASKED_OF_SESSION:
            ask, kinds = ASKED_OF_SESSION[self.path]
            ask(session, **self._values(kinds))
            self._send_json(HTTPStatus.OK, {})
        else:
            raise BadRequest(HTTPStatus.NOT_FOUND, "nothing is done here")

    def _values(self, kinds):
        """The values of a request: just these, and of these kinds."""
        values = self._body()
        if not isinstance(values, dict) or {name: type(it) for name, it in values.items()} != kinds:
            raise BadRequest(HTTPStatus.BAD_REQUEST, f"what is asked for here has {', '.join(kinds) or 'nothing'}")
        return values

    def _body(self):
        if self.headers.get_content_type() != "application/json":
            raise BadRequest(HTTPStatus.UNSUPPORTED_MEDIA_TYPE, "what is asked for is written in JSON")
        length = self.headers.get("Content-Length", "")
        if not (length.isascii() and length.isdigit()):
            raise BadRequest(HTTPStatus.LENGTH_REQUIRED, "a request says how long it is")
        if int(length[:20]) > LONGEST_REQUEST:
            raise BadRequest(HTTPStatus.REQUEST_ENTITY_TOO_LARGE, "the request is too long")
        try:
            return json.loads(self.rfile.read(int(length)))
        except (ValueError, RecursionError):
            raise BadRequest(HTTPStatus.BAD_REQUEST, "what is asked for is no JSON") from None

    # ---- What is answered

    def _send(self, status, body, kind):
        self.send_response(status)
        self._send_headers({"Content-Type": kind, "Content-Length": len(body)})
        self.wfile.write(body)

    def _send_json(self, status, value):
        self._send(status, json.dumps(value).encode(), "application/json")

    def _send_headers(self, headers):
        for name, value in {**HEADERS, **headers}.items():
            self.send_header(name, str(value))
        self.end_headers()

    def _send_events(self, asked):
        """Tells a window what changes, as long as it is open."""
        board = self.server.session.board
        if not set(asked) <= set(self.server.session.definition.terminals):
            raise BadRequest(HTTPStatus.NOT_FOUND, "there is no such terminal")
        self.close_connection = True
        with board.window(asked) as places:
            self.send_response(HTTPStatus.OK)
            self._send_headers({"Content-Type": "text/event-stream", "Connection": "close"})
            number = self._last_number()
            self._send_event(number, {"at": places, "anew": number == 0})
            while not board.is_closed and not self._is_gone():
                seen = number
                number, change = board.since(seen, SECONDS_BETWEEN_BEATS)
                if number > seen:
                    self._send_event(number, change)

    def _last_number(self):
        """Up to where a window that was cut off has seen what this server told it."""
        told_by, _, number = self.headers.get("Last-Event-ID", "").partition("-")
        return int(number) if told_by == self.server.name and number.isascii() and number.isdigit() else 0

    def _send_event(self, number, value):
        self.wfile.write(f"id: {self.server.name}-{number}\ndata: {json.dumps(value)}\n\n".encode())

    def _is_gone(self):
        """Whether the window is closed: then there is something to read, and it is the end."""
        waiting = select.poll()
        waiting.register(self.connection, select.POLLIN)
        return bool(waiting.poll(0)) and not self.connection.recv(1, socket.MSG_PEEK)
