"""Says which tab of a browser is which viewer, for `room.py`.

Each tab has a name of its own that it made up, keeps when it is loaded anew, and tells nobody else. A tab that joins
gets a viewer that none has, or one whose tab is gone for a minute, one of its own name first. Where there is none, it
can only look.
"""

import threading
import time
from dataclasses import dataclass

from lcrq_tools.draw.viewer_marks import viewer_name

GONE = 60.0  # seconds after which another tab may take the place of one
MOST_NAME = 40  # letters


def tidied(name: str) -> str:
    """A name in one line."""
    return " ".join("".join(letter if letter.isprintable() else " " for letter in name).split())[:MOST_NAME]


@dataclass
class Seat:
    """A viewer's place."""

    tab: str = ""  # the secret of the tab that has it
    name: str = ""
    streams: int = 0  # how many streams the tab has open
    left: float = float("-inf")  # when it was last there


NOBODY = Seat()


class People:
    """Who is there, of so many viewers."""

    def __init__(self, count: int, names: dict[int, str]) -> None:
        self.seats = {viewer: Seat(name=names.get(viewer, "")) for viewer in range(1, count + 1)}
        self.lock = threading.Lock()

    def of(self, tab: str) -> int:
        """The viewer of a tab; 0 if it has none."""
        return next((viewer for viewer, seat in self.seats.items() if tab and seat.tab == tab), 0)

    def join(self, tab: str, name: str) -> int:
        """Gives a tab a viewer, or the one that it has, and a name if one is given; returns 0 where none is left."""
        with self.lock:
            now = time.monotonic()
            free = [viewer for viewer, seat in self.seats.items() if not seat.streams and now - seat.left > GONE]
            named = [viewer for viewer in free if name and self.seats[viewer].name == tidied(name)]
            viewer = self.of(tab) or min(named or free, key=lambda at: (self.seats[at].left, at), default=0)
            if viewer and self.seats[viewer].tab == tab:
                self.seats[viewer].name = tidied(name) or self.seats[viewer].name
            elif viewer:
                self.seats[viewer] = Seat(tab, tidied(name))
            if viewer:
                self.seats[viewer].left = now
            return viewer

    def come(self, tab: str) -> None:
        """Notes that a tab opened a stream."""
        self.change(tab, 1)

    def leave(self, tab: str) -> None:
        """Notes that a stream of a tab ended."""
        self.change(tab, -1)

    def change(self, tab: str, count: int) -> None:
        """Counts the streams of a tab."""
        with self.lock:
            if viewer := self.of(tab):
                seat = self.seats[viewer]
                seat.streams, seat.left = max(0, seat.streams + count), time.monotonic()

    def name(self, viewer: int) -> str:
        """What a viewer is called."""
        return self.seats.get(viewer, NOBODY).name or viewer_name(viewer)

    def names(self) -> dict[str, str]:
        """What the viewers are called that somebody has, or had."""
        return {str(viewer): self.name(viewer) for viewer, seat in self.seats.items() if seat.tab or seat.name}

    def shown(self) -> dict[str, dict[str, object]]:
        """Who is there, as the page is told."""
        with self.lock:
            known = {viewer: seat for viewer, seat in self.seats.items() if seat.tab or seat.name}
            return {str(at): {"name": self.name(at), "here": seat.streams > 0} for at, seat in known.items()}
