"""Counts for `conform.py` what the calls of a log put and took, and which never ended, as the records come. A value
that was taken as often as it was put is written away, so that only the others are held.
"""

import array
import collections
import tempfile
from collections.abc import Collection, Iterable, Iterator, Mapping
from typing import IO

from lcrq_tools.program import counted

SHOWN = 10  # values and calls that are listed
HELD = 1 << 15  # values that are held before they are written away


class Away:
    """Values that are written away."""

    def __init__(self) -> None:
        self.file: IO[bytes] | None = None
        self.held = array.array("Q")

    def add(self, value: str) -> None:
        """Writes a value away."""
        self.held.append(int(value))
        if len(self.held) >= HELD:
            self.file = self.file or tempfile.TemporaryFile()
            self.file.write(self.held.tobytes())
            self.held = array.array("Q")

    def those_of(self, values: Collection[str]) -> set[str]:
        """Which of these values were written away."""
        found = set(map(str, self.held)) & {*values}
        if not values or not self.file:
            return found
        self.file.seek(0)
        while piece := self.file.read(HELD):
            found |= set(map(str, array.array("Q", piece))) & {*values}
        return found


class Ledger:
    """What the calls of a log put and took. Where the log has no reply of a call, the model's counts."""

    def __init__(self, possible: Iterable[str]):
        self.enqueued: collections.Counter[str] = collections.Counter()  # and not taken
        self.dequeued: collections.Counter[str] = collections.Counter()  # and not put
        self.possible = collections.Counter(possible)  # what may be there: at the start, and by calls without a reply
        self.away = Away()
        self.running: dict[int, str] = {}  # of each actor the call that goes on
        self.has_replies = False

    def begin(self, actor: int, call: str, reply: str) -> None:
        """An actor begins a call. The one before it may have ended with this reply of the model, if by none of
        the log."""
        if actor in self.running:
            self.end(self.running.pop(actor), reply)
        self.running[actor] = call

    def reply(self, actor: int, reply: str) -> None:
        """An actor's call ends with a reply of the log."""
        self.has_replies = True
        if actor in self.running:
            self.end(self.running.pop(actor), reply)

    def end(self, call: str, reply: str) -> None:
        """Counts the end of a call."""
        value = call.partition(" ")[2]
        if value and reply == "enqueued":
            self.move(value, self.dequeued, self.enqueued)
        elif value and not reply:
            self.possible[value] += 1
        elif reply.startswith("value "):
            self.move(reply.partition(" ")[2], self.enqueued, self.dequeued)

    def move(self, value: str, open_ones: collections.Counter[str], own: collections.Counter[str]) -> None:
        """Counts a value, against one that is open on the other side, if there is one."""
        if value not in open_ones:
            own[value] += 1
            return
        open_ones[value] -= 1
        self.away.add(value)
        if not open_ones[value]:
            del open_ones[value]

    def close(self, ended: Mapping[int, str]) -> None:
        """Counts the calls that go on, of which the model ended some with these replies."""
        for actor, call in [*self.running.items()]:
            self.end(call, ended.get(actor, ""))
            if ended.get(actor):
                del self.running[actor]

    def lines(self) -> Iterator[str]:
        """What is to be said of the values."""
        more = self.dequeued - self.possible
        put = self.away.those_of(more.keys()) | {*self.possible}
        yield from listed("put and never taken", [*self.enqueued])
        yield from listed("taken more often than put", [value for value in more if value in put])
        yield from listed("taken and never put", [value for value in more if value not in put])


def listed(what: str, values: list[str]) -> Iterator[str]:
    """A line with the first of these values, if there are any."""
    if values:
        yield f"{counted(len(values), 'value')} {what}: {first_of(values)}"


def first_of(words: list[str]) -> str:
    """The first of these words, and how many more there are."""
    more = f" and {len(words) - SHOWN} more" if len(words) > SHOWN else ""
    return ", ".join(words[:SHOWN]) + more
