"""Serves a live page at 127.0.0.1, for `live.py`: the page, its data, its stream of events, and what tabs ask.

An address has a token, which nobody guesses; a second one may have a token that lets no one ask. A page of another site
that knows neither gets nothing: `Host` and `Origin` have to be the server's own, and what changes anything has a
content type that no form can send. Names and lines are data; the page shows them as text.
"""

import contextlib
import io
import json
import re
import secrets
import select
import socket
import threading
import time
from collections.abc import Callable, Iterator, Mapping
from http.server import BaseHTTPRequestHandler, ThreadingHTTPServer
from typing import Any
from urllib.parse import parse_qs, urlsplit

from lcrq_tools.faults import Fault, say
from lcrq_tools.live import downloads
from lcrq_tools.live.kept import safe_name
from lcrq_tools.live.page import page_of
from lcrq_tools.live.room import Room
from lcrq_tools.live.session import LISTED, Over, Run
from lcrq_tools.live.waiting import MOST_BODY, TOO_MANY, Waiting, give_up

ADDRESS = "127.0.0.1"
TOKEN_BYTES = 16  # 128 bits
SECONDS = 10.0  # that a client may take to read an answer
MOST_LISTED = 600  # steps around the border that a page may ask for
HEARTBEAT, LOOK_EVERY = 15.0, 2.0  # seconds between comments in a stream, and between looks whether its tab is there
# Requests that are answered at once; of them streams, and those for which a run is followed or drawn anew.
MOST_HANDLERS, MOST_STREAMS, MOST_MAKERS = 128, 96, 1
MOST_DRAINED, DRAINED = 1 << 20, 2.0  # bytes of a body that is too long, and seconds, that are read before it is left
CONTENT = "application/x-lcrqdb+json"
POLICY = (
    "default-src 'none'; script-src 'nonce-{nonce}'; style-src 'nonce-{nonce}'; connect-src 'self'; "
    "img-src 'self' data:; base-uri 'none'; form-action 'none'; frame-ancestors 'none'"
)
HEADERS = {
    "Cache-Control": "no-store", "X-Content-Type-Options": "nosniff", "Referrer-Policy": "no-referrer",
    "Cross-Origin-Resource-Policy": "same-origin", "Cross-Origin-Opener-Policy": "same-origin", "Connection": "close",
}

Fields = Mapping[str, Any]  # of a body, as JSON has it


class Refused(Exception):
    """Why a request is refused, with its status."""

    def __init__(self, status: int, why: str) -> None:
        super().__init__(why)
        self.status = status


# ---- What a body has -------------------------------------------------------------------------------


def text_in(body: Fields, name: str, most: int = MOST_BODY) -> str:
    """A text of a body; nothing, if it has none."""
    text = body.get(name, "")
    if not isinstance(text, str) or len(text) > most:
        raise Refused(400, f"{name} has to be a text of at most {most} letters")
    return text


def number_in(body: Fields, name: str) -> int | None:
    """A whole number of a body, if it has one."""
    number = body.get(name)
    if number is not None and (not isinstance(number, int) or isinstance(number, bool)):
        raise Refused(400, f"{name} has to be a number")
    return number


def choice_in(body: Fields, name: str, choices: range | tuple[int, ...]) -> int | None:
    """One of these numbers, if the body has it."""
    number = number_in(body, name)
    if number is not None and number not in choices:
        raise Refused(400, f"{name} can't be {number}")
    return number


# ---- The server ------------------------------------------------------------------------------------


class Server(ThreadingHTTPServer):
    """The server of a room."""

    daemon_threads = True
    request_queue_size = 128

    def __init__(self, room: Room, port: int, look: bool) -> None:
        super().__init__((ADDRESS, port), Handler)
        self.room = room
        self.port: int = self.server_address[1]
        self.token = secrets.token_urlsafe(TOKEN_BYTES)
        self.look_token = secrets.token_urlsafe(TOKEN_BYTES) if look else ""
        self.hosts = (f"{ADDRESS}:{self.port}", f"localhost:{self.port}")
        self.handlers, self.streams, self.makers = (
            threading.BoundedSemaphore(most) for most in (MOST_HANDLERS, MOST_STREAMS, MOST_MAKERS)
        )
        self.given: dict[socket.socket, bytes] = {}  # the requests of connections that are answered
        self.waiting = Waiting(self.answer)
        self.waiting.start()

    def address(self, token: str) -> str:
        """The address of the page."""
        return f"http://{self.hosts[0]}/{token}/"

    def process_request(self, request: Any, client_address: Any) -> None:
        """Takes a connection, which waits until its request is whole."""
        self.waiting.add(request)

    def answer(self, connection: socket.socket, data: bytes) -> None:
        """Answers a request in a thread of its own, if there aren't too many."""
        if not self.handlers.acquire(blocking=False):
            give_up(connection, TOO_MANY)
            return
        self.given[connection] = data
        try:
            super().process_request(connection, self.server_address)
        except RuntimeError:  # there is no thread for it
            self.given.pop(connection)
            self.handlers.release()
            give_up(connection, TOO_MANY)

    def process_request_thread(self, request: Any, client_address: Any) -> None:
        """Answers a request."""
        try:
            super().process_request_thread(request, client_address)
        finally:
            self.given.pop(request, b"")
            self.handlers.release()

    def handle_error(self, request: Any, client_address: Any) -> None:
        """Says nothing of a client that left."""

    def server_close(self) -> None:
        """Closes all."""
        super().server_close()
        self.waiting.stop()


# ---- A request -------------------------------------------------------------------------------------


class Handler(BaseHTTPRequestHandler):
    """Answers one request."""

    protocol_version = "HTTP/1.1"
    timeout = SECONDS
    server: Server
    is_looking = False  # whether the token lets it only look

    def setup(self) -> None:
        """Reads the request from what has come already."""
        super().setup()
        self.rfile = io.BufferedReader(io.BytesIO(self.server.given[self.request]))  # type: ignore[arg-type]

    def version_string(self) -> str:
        """What the server calls itself."""
        return "lcrqdb"

    def log_message(self, format: str, *args: Any) -> None:
        """Logs nothing."""

    def send_error(self, code: int, message: str | None = None, explain: str | None = None) -> None:
        """Answers a request that can't be read."""
        self.give(code, "text/plain", f"{message or 'refused'}\n".encode())

    def give(self, status: int, kind: str, data: bytes, headers: Mapping[str, str] | None = None) -> None:
        """Answers."""
        self.close_connection = True
        self.send_response(status)
        sent = {"Content-Security-Policy": POLICY.format(nonce=secrets.token_urlsafe(TOKEN_BYTES))}
        sent |= {"Content-Type": f"{kind}; charset=utf-8", "Content-Length": str(len(data))}
        for name, value in {**HEADERS, **sent, **(headers or {})}.items():
            self.send_header(name, value)
        self.end_headers()
        self.wfile.write(data)

    def give_json(self, fields: object, status: int = 200) -> None:
        """Answers with JSON."""
        self.give(status, "application/json", json.dumps(fields, separators=(",", ":")).encode())

    # ---- What is let in

    def handle_one_request(self) -> None:
        """Answers the request, whatever is wrong with it."""
        self.close_connection = True
        self.raw_requestline = self.rfile.readline(MOST_BODY + 1)
        if not self.parse_request():
            return
        try:
            self.route()
        except Refused as refused:
            self.give_json({"why": str(refused)}, refused.status)
            if refused.status == 413:
                self.drain()
        except Over as over:
            self.give_json({"why": str(over), "ended": True}, 409)
        except Fault as fault:
            self.give_json({"why": str(fault)}, 400)
        except (ConnectionError, TimeoutError):
            pass  # the client left
        except Exception as fault:
            say(f"{self.command} {urlsplit(self.path).path.rpartition('/')[2]}: {fault!r}")
            with contextlib.suppress(OSError):
                self.give_json({"why": "it failed"}, 500)

    def drain(self) -> None:
        """Reads a body that is too long, as far as that goes at once."""
        self.connection.shutdown(socket.SHUT_WR)
        left, end = MOST_DRAINED, time.monotonic() + DRAINED
        while left > 0 and (seconds := end - time.monotonic()) > 0:
            self.connection.settimeout(seconds)
            left -= len(self.connection.recv(MOST_BODY)) or left

    def route(self) -> None:
        """Lets in what is let in, and answers it."""
        if self.headers.get_all("Host") not in ([host] for host in self.server.hosts):
            raise Refused(403, "Host is not this server")
        parts = urlsplit(self.path)
        _, token, name = (*parts.path.split("/", 2), "", "")[:3]
        is_full, self.is_looking = (
            bool(own) and secrets.compare_digest(token.encode(), own.encode())
            for own in (self.server.token, self.server.look_token)
        )
        if not is_full and not self.is_looking:
            raise Refused(404, "nothing is here")
        origin, own = self.headers.get_all("Origin"), [f"http://{self.headers['Host']}"]
        if origin != own and (origin is not None or self.command == "POST"):
            raise Refused(403, "Origin is not this server")
        if self.command == "GET" and name in GETS:
            self.query = parse_qs(parts.query)
            GETS[name](self)
        elif self.command == "POST" and name in POSTS:
            POSTS[name](self, self.body(name))
        elif self.command in ("GET", "POST") and name not in (GETS | POSTS):
            raise Refused(404, "nothing is here")
        else:
            raise Refused(405, "this method is not for that")

    def body(self, name: str) -> Fields:
        """The body of a request that changes something."""
        if self.is_looking and name != "join":
            raise Refused(403, "this address can only look")
        if self.headers.get_all("Content-Type") != [CONTENT]:
            raise Refused(415, f"the content type has to be {CONTENT}")
        lengths = self.headers.get_all("Content-Length") or []
        if len(lengths) != 1 or not lengths[0].isdecimal() or "Transfer-Encoding" in self.headers:
            raise Refused(411, "Content-Length has to be there")
        if int(lengths[0]) > MOST_BODY:
            raise Refused(413, f"a body has at most {MOST_BODY} bytes")
        try:
            body = json.loads(self.rfile.read(int(lengths[0])))
        except (ValueError, RecursionError) as fault:
            raise Refused(400, "the body is no JSON") from fault
        if not isinstance(body, dict):
            raise Refused(400, "the body has to be an object")
        return body

    def number(self, name: str, otherwise: int) -> int:
        """A number of the address."""
        text = self.query.get(name, [str(otherwise)])[-1]
        if not re.fullmatch("[0-9]{1,9}", text):
            raise Refused(400, f"{name} has to be a number")
        return int(text)

    # ---- What is looked at

    def page(self) -> None:
        """The page."""
        nonce = secrets.token_urlsafe(TOKEN_BYTES)
        text = page_of(self.server.room.run.kept.title, nonce)
        self.give(200, "text/html", text.encode(), {"Content-Security-Policy": POLICY.format(nonce=nonce)})

    def whole(self) -> None:
        """The run with its last moments, or with those around a line."""
        room = self.server.room

        def more(run: Run) -> dict[str, object]:
            return room.about(run) | {"can_ask": not self.is_looking}

        if "line" in self.query:
            with self.making():
                listed = min(MOST_LISTED, self.number("rows", LISTED))
                data = room.run.past(self.number("line", 0), more, listed)
        else:
            data = room.run.whole(more)
        self.give(200, "application/json", data)

    @contextlib.contextmanager
    def making(self) -> Iterator[None]:
        """What takes long: one goes on at once, and others wait for some seconds."""
        if not self.server.makers.acquire(timeout=SECONDS):
            raise Refused(503, "others are made at this time")
        try:
            yield
        finally:
            self.server.makers.release()

    def lines(self) -> None:
        """Lines of the run, with who asked them and their replies."""
        run = self.server.room.run
        self.give(200, "application/json", run.rows_of(self.number("from", 1), self.number("to", len(run.calls))))

    def download(self) -> None:
        """A file of the run."""
        room = self.server.room
        name = urlsplit(self.path).path.rpartition("/")[2]
        with self.making():
            file = downloads.file_of(name, room.program, room.kept_now(), room.run.moment["live"])
        title = safe_name(room.run.kept.title)
        headers = {"Content-Disposition": f'attachment; filename="{title}.{file.ending}"'}
        self.give(200, file.kind, file.data, headers)

    def events(self) -> None:
        """The stream of events, as long as the tab is there."""
        if not self.server.streams.acquire(blocking=False):
            raise Refused(503, "too many tabs look")
        room, tab = self.server.room, "" if self.is_looking else self.query.get("tab", [""])[-1]
        last = self.headers.get("Last-Event-ID") or self.query.get("last", [""])[-1]
        stream = room.look(tab, last)
        try:
            self.close_connection = True
            self.send_response(200)
            for name, value in {**HEADERS, "Content-Type": "text/event-stream"}.items():
                self.send_header(name, value)
            self.end_headers()
            self.wfile.write(b"retry: 1000\n\n")
            silent = 0.0
            while not stream.is_dropped and not self.has_left():
                event = stream.next(LOOK_EVERY)
                silent = 0.0 if event else silent + LOOK_EVERY
                if event or silent >= HEARTBEAT:
                    silent = 0.0
                    self.wfile.write(event.data() if event else b":\n\n")
        except OSError:
            pass  # the tab left, or reads too slowly
        finally:
            room.leave(tab, stream)
            self.server.streams.release()

    def has_left(self) -> bool:
        """Whether the client closed the connection."""
        if not select.select([self.connection], [], [], 0)[0]:
            return False
        return not self.connection.recv(1, socket.MSG_PEEK)

    # ---- What is asked

    def join(self, body: Fields) -> None:
        """Makes a tab a viewer."""
        if self.is_looking:
            self.give_json({"viewer": 0, "name": "", "why": "this address can only look"})
            return
        self.give_json(self.server.room.join(text_in(body, "tab", 64), text_in(body, "name", 200)).fields())

    def ask(self, body: Fields) -> None:
        """Asks a line."""
        viewer = number_in(body, "viewer") or 0
        self.give_json(self.server.room.ask(text_in(body, "tab", 64), viewer, text_in(body, "line")).fields())

    def complete(self, body: Fields) -> None:
        """What the last word of a line may become."""
        self.give_json({"words": [*self.server.room.complete(text_in(body, "line", 256))]})

    def note(self, body: Fields) -> None:
        """Keeps a note."""
        self.server.room.note(text_in(body, "tab", 64), number_in(body, "viewer") or 0, text_in(body, "text"))
        self.give_json({})

    def open(self, body: Fields) -> None:
        """Begins anew with another run."""
        actors, ring = choice_in(body, "actors", range(1, 17)), choice_in(body, "ring", (2, 4, 8))
        self.server.room.open(text_in(body, "name", 200), text_in(body, "text"), actors, ring)
        self.give_json({"kept": self.server.room.path.name})

    def end(self, _: Fields) -> None:
        """Ends the server, and with it the run."""
        self.give_json({"kept": self.server.room.path.name})
        threading.Thread(target=self.server.shutdown, daemon=True).start()


GETS: dict[str, Callable[[Handler], None]] = {
    "": Handler.page, "run": Handler.whole, "lines": Handler.lines, "events": Handler.events,
    **dict.fromkeys(downloads.FILES, Handler.download),
}
POSTS: dict[str, Callable[[Handler, Fields], None]] = {
    "join": Handler.join, "ask": Handler.ask, "complete": Handler.complete, "note": Handler.note, "open": Handler.open,
    "end": Handler.end,
}
