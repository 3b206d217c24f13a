"""Plays the clients of `lcrqdb view --live` for `live.py`, checks and measurements: each writes the lines of its viewer
into a pipe, and reads the replies from another one.

A viewer opens FILE for reading, then FILE.replies for appending. If both are named pipes, it waits each time for the
client's end. So the client opens its end of the replies first, which waits for nothing, and then its end of FILE, once
the viewer reads it. Reads and writes of a client don't wait either: one thread serves all clients, and waits only until
one of them can go on. What doesn't come in a minute is a fault. Linux and Python's standard library are all that is
needed.
"""

import contextlib
import errno
import fcntl
import os
import select
import subprocess
import sys
import termios
import time
from collections.abc import Callable, Iterator, Sequence
from contextlib import AbstractContextManager
from dataclasses import dataclass
from pathlib import Path
from typing import TypeVar

from lcrq_tools.program import PIPE_BYTES, Broken, Ended, script_of

SECONDS = 60.0  # after which what hasn't come is a fault
PAUSE = 0.001  # between two looks for what a client can't be woken by
SMALLEST = 4096  # bytes that a pipe holds at least: a page
MOST_REPLY = 512  # bytes: no reply is longer

Found = TypeVar("Found")


@dataclass(frozen=True)
class Dialogue:
    """What a viewer was asked and what it replied, as far as its client knows."""

    lines: Sequence[str] = ()
    replies: Sequence[str] = ()
    is_cut: bool = False  # whether the client left before the last reply
    begun: Sequence[float] = ()  # when each line was asked, if that is known
    came: Sequence[float] = ()  # when each reply was there


# ---- A client ------------------------------------------------------------------------------------


class Client:
    """Asks lines over the ends of two pipes, which it closes. It awaits the reply to each line before it asks the next
    one, unless it is in a hurry."""

    def __init__(self, name: str, lines: Sequence[str], writing: int, reading: int) -> None:
        self.name, self.lines = name, [*lines]
        self.writing, self.reading = writing, reading
        self.goal = self.asked = 0  # how many lines it is to ask, and how many it has asked
        self.is_in_a_hurry = self.is_cut = self.has_ended = False
        self.unsent = self.unread = b""  # of the lines that it has asked, and of a reply that isn't whole
        self.replies: list[str] = []
        self.begun: list[float] = []
        self.came: list[float] = []
        for end in (writing, reading):
            os.set_blocking(end, False)

    def aim(self, goal: int | None = None) -> None:
        """Asks on, as far as this number of lines; all lines, if none is given."""
        self.goal = len(self.lines) if goal is None else min(goal, len(self.lines))
        self.push()

    def is_answered(self) -> bool:
        """Whether it has the replies to all lines that it is to ask."""
        return len(self.replies) >= self.goal

    def push(self) -> None:
        """Writes as much as the pipe takes of what it may ask now."""
        if not self.unsent and (self.is_in_a_hurry or self.asked == len(self.replies)):
            self.take(self.goal if self.is_in_a_hurry else min(self.goal, self.asked + 1))
        if not self.unsent:
            return
        try:
            self.unsent = self.unsent[os.write(self.writing, self.unsent):]
        except BlockingIOError:
            pass  # the pipe is full
        except BrokenPipeError as fault:
            raise Broken(f"{self.name} reads no more after {len(self.replies)} of {self.goal} replies") from fault

    def take(self, end: int) -> None:
        """Takes the lines up to this number as the next ones to write."""
        self.unsent = script_of(self.lines[self.asked:end], "latin-1")
        self.begun += [time.monotonic()] * (end - self.asked)
        self.asked = max(self.asked, end)

    def pull(self) -> None:
        """Reads what is there, and asks on. The viewer must reply once to each line, and must not end before the client
        has all replies and hangs up."""
        piece = os.read(self.reading, PIPE_BYTES)
        *whole, self.unread = (self.unread + piece).split(b"\n")
        self.replies += [reply.decode("latin-1") for reply in whole]
        self.came += [time.monotonic()] * len(whole)
        self.has_ended = not piece
        if self.has_ended and (self.writing >= 0 or not self.is_answered()):
            raise Broken(f"{self.name} ended after {len(self.replies)} of {self.goal} replies")
        if len(self.replies) > self.asked:
            raise Broken(f"{self.name} has {len(self.replies)} replies to {self.asked} lines")
        if not self.has_ended:
            self.push()

    def break_off(self, half: str) -> None:
        """Writes a last line without its line feed, and hangs up."""
        self.lines[self.asked:] = [half]
        self.goal = self.asked + 1
        self.take(self.goal)
        self.unsent = self.unsent.removesuffix(b"\n")
        self.push()
        self.hang_up()

    def hang_up(self) -> None:
        """Closes the pipe of the lines."""
        self.writing = closed(self.writing)

    def stop_reading(self) -> None:
        """Closes the pipe of the replies."""
        self.reading, self.is_cut = closed(self.reading), True

    def leave(self) -> None:
        """Closes both pipes."""
        self.stop_reading()
        self.hang_up()

    def dialogue(self) -> Dialogue:
        """What it asked and what was replied. The beginning of a reply is one too, if it isn't cut."""
        rest = [self.unread.decode("latin-1")] if self.unread and not self.is_cut else []
        return Dialogue(self.lines[:self.asked], self.replies + rest, self.is_cut, self.begun, self.came)


def closed(end: int) -> int:
    """Closes the end of a pipe, if it is open; returns what stands for none."""
    if end >= 0:
        os.close(end)
    return -1


# ---- Clients at once -----------------------------------------------------------------------------


def serve(clients: Sequence[Client], is_over: Callable[[Client], bool], seconds: float | None = None) -> None:
    """Lets clients read and write at the same time, each until this holds of it."""
    while left := [client for client in clients if not is_over(client)]:
        serve_once(left, seconds)


def serve_once(clients: Sequence[Client], seconds: float | None = None) -> None:
    """Lets each of the clients read and write that can; waits for the first one, if not so many seconds a minute."""
    seconds = SECONDS if seconds is None else seconds
    wanted = [client.writing for client in clients if client.unsent]
    readable, writable, _ = select.select([client.reading for client in clients], wanted, [], seconds)
    if not readable and not writable:
        counts = (f"{client.name} has {len(client.replies)} of {client.goal} replies" for client in clients)
        raise Broken(f"nothing came in {seconds:.0f} s: {', '.join(counts)}")
    for client in clients:
        if client.writing in writable:
            client.push()
        if client.reading in readable:
            client.pull()


def talk(clients: Sequence[Client], goal: int | None = None) -> None:
    """Lets clients ask at the same time, each as far as this number of lines, or all its lines."""
    for client in clients:
        client.aim(goal)
    serve(clients, Client.is_answered)


def finish(clients: Sequence[Client]) -> None:
    """Lets clients ask all their lines at the same time and hang up, until their viewers have ended."""
    talk(clients)
    for client in clients:
        client.hang_up()
    serve(clients, lambda client: client.has_ended)


def awaited(what: str, look: Callable[[], Found | None]) -> Found:
    """What a look finds, once it finds something. Otherwise the fault begins so."""
    end = time.monotonic() + SECONDS
    while (found := look()) is None:
        if time.monotonic() > end:
            raise Broken(f"{what} in {SECONDS:.0f} s")
        time.sleep(PAUSE)
    return found


def ask_until_full(client: Client) -> None:
    """Lets a client, which has asked nothing, ask in a hurry and read nothing, until the pipe of its replies is all but
    full. So its viewer stops, if more lines are there."""
    size = fcntl.fcntl(client.reading, fcntl.F_SETPIPE_SZ, SMALLEST)
    client.is_in_a_hurry = True
    client.aim()

    def little_room() -> int | None:
        client.push()
        held = fcntl.ioctl(client.reading, termios.FIONREAD, bytes(4))
        room = size - int.from_bytes(held, sys.byteorder)
        return room if room < MOST_REPLY else None

    awaited(f"{client.name} doesn't fill a pipe of {size} bytes", little_room)


# ---- Processes -----------------------------------------------------------------------------------


def replies_of(file: Path) -> Path:
    """Where the replies to a file's lines go."""
    return Path(f"{file}.replies")


class Live(AbstractContextManager["Live"]):
    """A run of `view --live`, whose viewers get clients. At the end it is killed, and its clients leave."""

    def __init__(self, words: Sequence[str]) -> None:
        self.clients: list[Client] = []
        pipe, none = subprocess.PIPE, subprocess.DEVNULL
        # in a session of its own, so that Control-C at a terminal isn't for the program
        self.child = subprocess.Popen(words, stdin=none, stdout=pipe, stderr=pipe, start_new_session=True)

    def __exit__(self, *_: object) -> None:
        for client in self.clients:
            client.leave()
        self.child.kill()  # nothing, if it has ended
        self.child.communicate()

    def client(self, name: str, file: Path, lines: Sequence[str]) -> Client:
        """A client of the viewer that reads a named pipe, once it reads it."""
        reading = os.open(replies_of(file), os.O_RDONLY | os.O_NONBLOCK)
        try:
            writing = awaited(f"{name} doesn't open its file", lambda: self.opened(file))
        except Broken:
            os.close(reading)
            raise
        self.clients.append(Client(name, lines, writing, reading))
        return self.clients[-1]

    def opened(self, file: Path) -> int | None:
        """The end for writing of a named pipe, if the program reads it."""
        if self.child.poll() is not None:
            raise Broken(f"the program ended before it opened {file.name}")
        try:
            return os.open(file, os.O_WRONLY | os.O_NONBLOCK)
        except OSError as fault:
            if fault.errno != errno.ENXIO:
                raise
            return None

    def end(self) -> Ended:
        """What the run gives when it ends, as it has to do now."""
        try:
            output, errors = self.child.communicate(timeout=SECONDS)
        except subprocess.TimeoutExpired as fault:
            raise Broken(f"the program doesn't end in {SECONDS:.0f} s") from fault
        return Ended(self.child.returncode, output, errors.decode(errors="replace"))

    def last_words(self) -> str:
        """Kills the run; returns what to say of its standard error behind a fault."""
        self.child.kill()
        errors = self.end().errors.strip()
        return f"; standard error has {errors}" if errors else ""


@contextlib.contextmanager
def piped(words: Sequence[str], name: str, lines: Sequence[str]) -> Iterator[tuple[subprocess.Popen[bytes], Client]]:
    """A process that is killed at the end, and a client of its standard input and output."""
    given, writing = os.pipe()
    reading, taken = os.pipe()
    client = Client(name, lines, writing, reading)
    with subprocess.Popen(words, stdin=given, stdout=taken) as child:
        os.close(given)
        os.close(taken)
        try:
            yield child, client
        finally:
            client.leave()
            child.kill()  # nothing, if it has ended
