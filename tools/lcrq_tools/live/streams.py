"""Hands events to all tabs that look at a live page, for `room.py`.

Each tab has a stream with room for some events. A tab that reads too slowly is dropped: it comes again, and fetches the
run anew. The last events are kept, so that a tab whose stream broke off goes on behind the last one that it got.
"""

import collections
import json
import queue
import threading
from typing import NamedTuple

MOST_BEHIND = 256  # events that a tab may be behind
MOST_KEPT = 64  # events for tabs that come again


class Event(NamedTuple):
    """What is told to all who look."""

    name: str  # the run and its last line, as `2.14`, by which a tab that comes again says what it has; or nothing
    text: str  # JSON

    @classmethod
    def of(cls, name: str, fields: dict[str, object]) -> "Event":
        """An event that tells these."""
        return cls(name, json.dumps(fields, separators=(",", ":")))

    def data(self) -> bytes:
        """The event as a stream has it."""
        return f"{f'id: {self.name}' if self.name else ':'}\ndata: {self.text}\n\n".encode()


class Stream:
    """The events for a tab."""

    def __init__(self) -> None:
        self.events: queue.Queue[Event] = queue.Queue(MOST_BEHIND)
        self.is_dropped = False

    def put(self, event: Event) -> None:
        """Adds an event; drops a tab that is too far behind."""
        try:
            self.events.put_nowait(event)
        except queue.Full:
            self.is_dropped = True

    def next(self, seconds: float) -> Event | None:
        """The next event, if one comes in time."""
        try:
            return self.events.get(timeout=seconds)
        except queue.Empty:
            return None


class Streams:
    """The streams of all tabs."""

    def __init__(self) -> None:
        self.lock = threading.Lock()
        self.open: list[Stream] = []
        self.kept: collections.deque[Event] = collections.deque(maxlen=MOST_KEPT)

    def publish(self, event: Event) -> None:
        """Hands an event to all who look."""
        with self.lock:
            self.kept.append(event)
            for stream in self.open:
                stream.put(event)
            self.open = [stream for stream in self.open if not stream.is_dropped]

    def begin(self, last: str, now: Event) -> Stream:
        """Opens the stream of a tab that got the last event of this name; if that isn't known any more, it begins
        with what makes it fetch the run."""
        stream = Stream()
        with self.lock:
            names = [event.name for event in self.kept]
            if last and last in names:
                begin = len(names) - names[::-1].index(last)
                missed = [*self.kept][begin:]
            else:
                missed = [] if last == now.name else [now]
            for event in missed:
                stream.put(event)
            self.open.append(stream)
        return stream

    def end(self, stream: Stream) -> None:
        """Closes a stream."""
        with self.lock:
            self.open = [other for other in self.open if other is not stream]
