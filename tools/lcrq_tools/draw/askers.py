"""Tells a picture and a page which viewer asked each step of a run, whose lines are a history.

A step belongs to the viewer whose line made it first (`order.py`). Steps of the start belong to no viewer.
"""

from collections.abc import Collection, Sequence

from lcrq_tools.draw.figure import Session
from lcrq_tools.order import Order

NOBODY = 0  # in place of a viewer, for a step of the start


def viewer_of(step: int, viewers: Sequence[int]) -> int:
    """The viewer of a step, by the viewers of the lines."""
    return viewers[step - 1] if step > 0 and viewers else NOBODY


def viewers_after(session: Session, lines: Collection[int]) -> dict[int, list[int]]:
    """The viewers of the live and then of the undone steps after each of these numbers of lines."""
    with session.driven("the viewers of the steps") as driven:
        order = Order.begin(driven.ask_all)
        found = {0: [NOBODY] * len(order.all())}
        for number, line in enumerate(session.lines, 1):
            order.follow(number, line, driven.ask_all([line])[0], driven.ask_all)
            if number in lines:
                found[number] = [viewer_of(step, session.viewers) for step in order.all()]
        return found
