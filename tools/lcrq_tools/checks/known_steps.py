"""Knows the steps of a run again by the steps after each of its lines, for `histories.py`: so by other means than
`order.py`, which goes by the lines and their replies.

The steps of one actor keep their order while others move, and a bookmark keeps its steps.
"""

import itertools
from collections.abc import Sequence
from dataclasses import dataclass

from lcrq_tools.draw.figure import Session
from lcrq_tools.records import Counts, Step, is_made


@dataclass
class Moment:
    """What a line leaves."""

    text: str
    reply: str
    live: int
    steps: list[Step]  # the live ones, and then the undone ones


def moments_of(session: Session) -> list[Moment]:
    """The moments of a run, the first one before all lines. An undone step is replied as long as it is made again."""
    lines = session.lines
    asked = session.replies_to_parts([["len"], *([line, "len"] for line in lines)])
    counts = [Counts.read(replies[-1]) for replies in asked]
    questions = [
        [f"forward {at.undone}", *(f"step {number + 1}" for number in range(at.live + at.undone)), f"back {at.undone}"]
        for at in counts
    ]
    parts = [questions[0], *([line, *more] for line, more in zip(lines, questions[1:]))]
    replies = session.replies_to_parts(parts)
    return [
        Moment(text, given[0] if text else "", at.live, [*map(Step.read, given[-1 - at.live - at.undone:-1])])
        for text, at, given in zip(["", *lines], counts, replies)
    ]


class Known:
    """Of each step the moment where it is first, and its place there."""

    def __init__(self, moments: Sequence[Moment]) -> None:
        self.first: list[tuple[int, int]] = []
        self.marks: dict[str, list[int]] = {}  # of each bookmark its steps
        self.last = self.fresh(0, range(len(moments[0].steps)))
        for number, (before, after) in enumerate(itertools.pairwise(moments), 1):
            self.last = self.follow(number, before, after)
            if after.reply.startswith("marked "):
                self.marks[after.text.removeprefix("mark ")] = self.last[: after.live]

    def fresh(self, moment: int, places: Sequence[int]) -> list[int]:
        """New steps at these places of a moment."""
        self.first += [(moment, place) for place in places]
        return [*range(len(self.first) - len(places), len(self.first))]

    def follow(self, number: int, before: Moment, after: Moment) -> list[int]:
        """The steps of a moment, by those of the one before it."""
        if is_made(after.reply):
            return [*self.last[: after.live - 1], *self.fresh(number, [after.live - 1])]
        if after.text.startswith("goto ") and after.reply.startswith("at "):
            found = self.marks.get(after.text.removeprefix("goto "))
            return found or self.fresh(number, range(len(after.steps)))
        own: dict[int, list[int]] = {}
        for step, made in zip(self.last, before.steps):
            own.setdefault(made.event.actor, []).append(step)
        return [own[made.event.actor].pop(0) for made in after.steps]
