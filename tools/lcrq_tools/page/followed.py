"""Gives a run that goes on as the data of its page, for `live/`: all of it, and what each line changes.

The steps around the border are listed, and the moments of the last lines. Where a line leads away from them, or they
have become many, the data begin anew with that line.
"""

from collections.abc import Sequence
from dataclasses import replace

from lcrq_tools.draw.lanes import Widths
from lcrq_tools.page import page_data, page_lanes, page_moments, slides
from lcrq_tools.page.mirror import Mirror, State
from lcrq_tools.page.page_data import Data
from lcrq_tools.page.page_moments import Whole
from lcrq_tools.page.page_parts import Rooms
from lcrq_tools.records import Place

FOLLOWED, LISTED = 100, 200  # lines before the last one whose moments are known, and steps on each side of the border


class Followed:
    """A run that is followed. Viewers are named as soon as there are two."""

    def __init__(
        self, words: Sequence[str], lines: Sequence[str] = (), viewers: Sequence[int] = (), followed: int = FOLLOWED,
        listed: int = LISTED,
    ) -> None:
        self.askers = {*viewers} - {0}
        self.mirror = Mirror(words, lines, viewers, max(0, len(lines) - followed), listed)
        self.pseudocode = page_data.Pseudocode()
        self.begin()

    def close(self) -> None:
        """Ends the program's runs."""
        self.mirror.close()

    def begin(self) -> None:
        """Takes all moments that are known."""
        self.begins = self.mirror.begins
        self.rooms, self.widths = Rooms(), Widths({})
        self.rooms.take_least()
        self.known: set[str] = set()  # the lanes
        self.chain: list[str] = []  # segments, in the order of their lanes
        self.shown: set[int] = set()  # the steps whose rows were taken
        self.last: Whole = {}
        self.moments: list[Whole] = []  # each as what it changed
        self.layout: Data = {}
        self.room = ""
        self.changed: Data | None = None
        for state in self.mirror.states:
            self.taken(state)
        self.lay_out()

    def named(self) -> list[int]:
        """The viewers who are named."""
        return sorted(self.askers) if len(self.askers) > 1 else []

    def obey(self, line: str, viewer: int = 0) -> str:
        """Obeys a line of a viewer; returns its reply."""
        reply, before = self.mirror.obey(line, viewer), self.named()
        self.askers |= {viewer} - {0}
        if self.begins == self.mirror.begins and self.named() == before:
            self.changed = self.taken(self.mirror.state) | self.lay_out()
        else:
            self.begin()
        return reply

    def replies(self) -> Sequence[str]:
        """The replies to all lines so far."""
        return self.mirror.replies

    def change(self) -> Data | None:
        """What the last line changed; nothing if the data begin anew with it."""
        return self.changed

    def taken(self, state: State) -> Data:
        """What a moment changes, which is taken."""
        chips = self.pseudocode.chips(state)
        whole = page_moments.whole_of(state if self.named() else replace(state, viewer=0), chips)
        rows = {step: self.mirror.rows[step] for step in state.rows if step not in self.shown}
        self.moments.append(page_moments.changes_between(self.last, whole))
        change: Data = {
            "moment": self.moments[-1], "rows": {str(step): page_lanes.data_of(row) for step, row in rows.items()},
        }
        self.last = whole
        self.shown |= rows.keys()
        self.rooms.take(state, chips)
        self.known |= page_lanes.lanes_of_rows(rows.values())
        for row in rows.values():
            self.widths.take(row)
        return change

    def lay_out(self) -> Data:
        """Lays out the lanes and the rooms anew; returns what has changed of them."""
        lanes = page_lanes.in_order(self.known, self.mirror.chain(), self.chain)
        self.chain = [*dict.fromkeys(Place.read(lane).segment for lane in lanes)]
        before = {"layout": self.layout, "room": self.room}
        self.layout = page_lanes.layout_of(lanes, self.widths, self.named())
        self.room = self.rooms.css()
        return page_moments.changed_of(before, {"layout": self.layout, "room": self.room})

    def run(self) -> Data:
        """The whole run, as far as it is known."""
        rows = {step: self.mirror.rows[step] for step in self.shown}
        given: Data = {
            "ring": self.mirror.ring, "command": ["", ""],
            "questions": slides.QUESTIONS, "any_question": slides.ANY_LINE,
        }
        run = page_data.run_of(given, self.mirror.states[0], rows, self.layout, self.named())
        return run | {"room": self.room, "code": self.pseudocode.calls(), "moments": self.moments}
