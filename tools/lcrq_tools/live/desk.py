"""Keeps a desk for `live.py`: `lcrqdb view --live` at named pipes, which viewers ask at once.

The desk has one viewer more than there are people: a plain file has its lines, those of what is opened, which it asks
all at once. The numbers of the replies give the order of the calls. What the program writes when all viewers have left,
the history and the trace, ends the run.
"""

import contextlib
import os
import tempfile
import threading
import time
from collections.abc import Sequence
from contextlib import AbstractContextManager
from pathlib import Path

from lcrq_tools.clients import Client, Live, replies_of, serve
from lcrq_tools.program import Broken, lines_of, script_of

SECONDS = 20.0  # after which a reply that hasn't come is a fault
PAUSE = 0.002  # seconds between two looks for the replies to what is opened
MOST_PEOPLE = 63  # beside the viewer that asks what is opened
NO_CALL = "-"  # the number of a line that is no call


def numbered(reply: str) -> tuple[int | None, str]:
    """The number of a call, none if a line is no call, and the reply."""
    number, _, rest = reply.partition(" ")
    return None if number == NO_CALL else int(number), rest


class Desk(AbstractContextManager["Desk"]):
    """A running desk. The viewers are numbered from 1; the last one asks what is opened."""

    def __init__(self, program: str, options: Sequence[str], viewers: int, opened: Sequence[str] = ()) -> None:
        self.folder = tempfile.TemporaryDirectory(prefix="lcrq-live-")
        self.count = len(opened)
        files = {number: Path(self.folder.name, f"viewer-{number}") for number in range(1, viewers + 1)}
        for file in files.values():
            os.mkfifo(file)
            os.mkfifo(replies_of(file))
        self.opened = Path(self.folder.name, "viewer-opened")
        self.opened.write_bytes(script_of(opened, "latin-1"))
        replies_of(self.opened).touch()
        names = [str(file) for file in (*files.values(), self.opened)]
        self.live = Live([program, "view", "--live", *names, *options, "--history", "--trace"])
        self.locks = {number: threading.Lock() for number in files}
        try:
            self.clients = {number: self.live.client(f"viewer {number}", file, []) for number, file in files.items()}
        except Broken as fault:
            said = self.live.last_words().rpartition("lcrqdb: ")[2]
            self.close()
            raise Broken(said or str(fault)) from fault

    def __exit__(self, *_: object) -> None:
        self.close()

    def close(self) -> None:
        """Stops the desk, if it runs."""
        self.live.__exit__()
        self.folder.cleanup()

    def replies(self) -> list[tuple[int | None, str]]:
        """The number and the reply of each line of what is opened, once all are there."""
        pieces: list[bytes] = []
        missing, end = self.count, time.monotonic() + SECONDS
        with open(replies_of(self.opened), "rb", buffering=0) as file:
            while missing:
                if piece := file.read():
                    pieces.append(piece)
                    missing, end = missing - piece.count(b"\n"), time.monotonic() + SECONDS
                elif self.live.child.poll() is not None or time.monotonic() > end:
                    raise Broken(f"{missing} of {self.count} lines have no reply{self.live.last_words()}")
                else:
                    time.sleep(PAUSE)
        return [numbered(reply) for reply in lines_of(b"".join(pieces).decode("ascii"))]

    def ask(self, viewer: int, line: str) -> tuple[int | None, str]:
        """Asks a line of a viewer, whose letters are its bytes; returns the number of its call, and the reply."""
        client = self.clients[viewer]
        with self.locks[viewer]:
            client.lines.append(line)
            client.aim()
            serve([client], Client.is_answered, SECONDS)
            return numbered(client.replies[-1])

    def end(self) -> list[str]:
        """Lets all viewers leave; returns the lines that the program writes then: `history H`, the calls, the
        trace."""
        with contextlib.ExitStack() as held:
            for lock in self.locks.values():
                held.enter_context(lock)
            clients = [*self.clients.values()]
            for client in clients:
                client.hang_up()
            serve(clients, lambda client: client.has_ended)
            ended = self.live.end()
        if ended.status:
            raise Broken(ended.errors.strip() or f"the program ended with status {ended.status}")
        return lines_of(ended.output.decode("latin-1"))
