"""Holds a server's connections until their requests are whole, for `server.py`.

One thread reads from all of them, so a connection that sends nothing, or a head without an end, holds no thread of the
server. It is closed after some seconds, or when too many others wait. A request that is too long is passed on or
refused as soon as that is known.
"""

import contextlib
import re
import selectors
import socket
import threading
import time
from collections import deque
from collections.abc import Callable
from dataclasses import dataclass, field

SECONDS = 5.0  # after which a request that isn't whole is given up
LOOK_EVERY = 0.5
MOST_WAITING = 256  # connections
MOST_HEAD, MOST_BODY = 1 << 14, 1 << 16  # bytes
PIECE = 1 << 16
END_OF_HEAD = b"\r\n\r\n"
LENGTH = re.compile(rb"\r\ncontent-length:[ \t]*([0-9]{1,15})[ \t]*\r\n", re.IGNORECASE)

Ready = Callable[[socket.socket, bytes], None]  # takes a connection with its request


def refusal(status: str, what: str) -> bytes:
    """An answer to a connection whose request isn't read."""
    headers = {
        "Content-Type": "text/plain; charset=utf-8", "Content-Length": len(what), "Cache-Control": "no-store",
        "X-Content-Type-Options": "nosniff", "Connection": "close",
    }
    head = "".join(f"{name}: {value}\r\n" for name, value in headers.items())
    return f"HTTP/1.1 {status}\r\n{head}\r\n{what}".encode()


TOO_LATE = refusal("408 Request Timeout", "the request didn't come in time\n")
TOO_LONG = refusal("431 Request Header Fields Too Large", "the head is too long\n")
TOO_MANY = refusal("503 Service Unavailable", "too many connections at once\n")


def give_up(connection: socket.socket, answer: bytes) -> None:
    """Answers a connection as far as that needs no waiting, and closes it."""
    with contextlib.suppress(OSError):
        connection.setblocking(False)
        connection.send(answer)
        connection.shutdown(socket.SHUT_WR)
        connection.recv(PIECE)
    connection.close()


@dataclass
class Begun:
    """A request that isn't whole."""

    until: float  # when it is given up
    data: bytearray = field(default_factory=bytearray)
    size: int = 0  # of the whole request, once its head is there

    def take(self, piece: bytes) -> None:
        """Takes what came."""
        self.data += piece
        end = self.data.find(END_OF_HEAD) if not self.size else -1
        if end >= 0:
            found = LENGTH.search(self.data, 0, end + len(END_OF_HEAD))
            length = int(found[1]) if found else 0
            self.size = end + len(END_OF_HEAD) + (length if length <= MOST_BODY else 0)

    def is_whole(self) -> bool:
        """Whether all is there."""
        return 0 < self.size <= len(self.data)

    def is_too_long(self) -> bool:
        """Whether the head has no end where it should."""
        return not self.size and len(self.data) > MOST_HEAD or self.size > MOST_HEAD + MOST_BODY


class Waiting(threading.Thread):
    """The thread that reads from all connections whose requests aren't whole."""

    def __init__(self, ready: Ready) -> None:
        super().__init__(daemon=True, name="waiting")
        self.ready = ready
        self.fresh: deque[socket.socket] = deque()
        self.begun: dict[socket.socket, Begun] = {}  # the oldest one first
        self.selector = selectors.DefaultSelector()
        self.woken, self.waker = socket.socketpair()
        self.is_over = False
        for end in (self.woken, self.waker):
            end.setblocking(False)
        self.selector.register(self.woken, selectors.EVENT_READ)

    def add(self, connection: socket.socket) -> None:
        """Takes a connection."""
        self.fresh.append(connection)
        self.wake()

    def stop(self) -> None:
        """Ends the thread and closes all connections that wait."""
        self.is_over = True
        self.wake()

    def wake(self) -> None:
        """Lets the thread look."""
        with contextlib.suppress(BlockingIOError):  # it is awake
            self.waker.send(b"\0")

    def run(self) -> None:
        """Reads until it is stopped."""
        while not self.is_over:
            for key, _ in self.selector.select(LOOK_EVERY):
                if key.fileobj is self.woken:
                    with contextlib.suppress(BlockingIOError):
                        self.woken.recv(PIECE)
                elif isinstance(key.fileobj, socket.socket):
                    self.read(key.fileobj)
            while self.fresh:
                self.begin(self.fresh.popleft())
            self.sort_out(time.monotonic())
        for connection in [*self.begun]:
            self.drop(connection, b"")

    def begin(self, connection: socket.socket) -> None:
        """Begins to read from a connection, whose request may be there already."""
        connection.setblocking(False)
        self.begun[connection] = Begun(time.monotonic() + SECONDS)
        self.selector.register(connection, selectors.EVENT_READ)
        self.read(connection)

    def read(self, connection: socket.socket) -> None:
        """Reads what is there, and passes on a request that is whole."""
        begun = self.begun[connection]
        try:
            piece = connection.recv(PIECE)
        except BlockingIOError:
            return
        except OSError:
            piece = b""
        begun.take(piece)
        if not piece:
            self.drop(connection, b"")
        elif begun.is_whole():
            self.leave(connection)
            self.ready(connection, bytes(begun.data))
        elif begun.is_too_long():
            self.drop(connection, TOO_LONG)

    def sort_out(self, now: float) -> None:
        """Gives up connections that are late or too many."""
        for connection in [*self.begun][: max(0, len(self.begun) - MOST_WAITING)]:
            self.drop(connection, TOO_MANY)
        for connection in [connection for connection, begun in self.begun.items() if begun.until < now]:
            self.drop(connection, TOO_LATE)

    def leave(self, connection: socket.socket) -> None:
        """Reads no more from a connection."""
        self.selector.unregister(connection)
        del self.begun[connection]

    def drop(self, connection: socket.socket, answer: bytes) -> None:
        """Gives up a connection."""
        self.leave(connection)
        give_up(connection, answer)
