"""Looks for an order of calls that a FIFO queue could have answered so, for `calls.py`: linearizability of one history.

Where each value is put once, which dequeue took what is known, and so is the answer: no order is there if a value
is taken twice, taken before it is put or overtaken, or if the queue is found empty while a value is surely there
(Henzinger, Sezgin and Vafeiadis 2013), and else an order is made from the intervals. Values that are put more often
are matched in the order of their calls; where that finds no order and another match might, `search.py` looks for one.
An order is replayed before it is given.
"""

import bisect
import collections
import heapq
import itertools
from collections.abc import Iterable, Iterator, Sequence
from dataclasses import dataclass

from lcrq_tools.calls.intervals import FOREVER, Call
from lcrq_tools.calls.search import TooMany, searched

NEVER = FOREVER + 1  # when a value is taken that stays in the queue


@dataclass(frozen=True)
class Stay:
    """A value in the queue: the calls that put it and took it, and when each of them can have happened. A put
    happens before the take ends, and a take after the put begins."""

    put: Call
    take: Call | None  # none where it stays

    def put_begin(self) -> int:
        """Before this it isn't put."""
        return self.put.begin

    def put_end(self) -> int:
        """After this it is put."""
        return min(self.put.end, self.take.end) if self.take else self.put.end

    def take_begin(self) -> int:
        """Before this it isn't taken."""
        return max(self.take.begin, self.put.begin) if self.take else NEVER

    def take_end(self) -> int:
        """After this it is taken."""
        return self.take.end if self.take else NEVER


@dataclass(frozen=True)
class Match:
    """Which dequeue took which value, whether another match could do where this one doesn't, and the dequeues
    that found the queue empty."""

    stays: tuple[Stay, ...]
    empties: tuple[Call, ...]
    is_only: bool


@dataclass(frozen=True)
class Answer:
    """An order, or none where there is none; how many configurations were tried; whether it is decided."""

    order: tuple[Call, ...] | None
    tried: int = 0
    is_decided: bool = True

    def is_refused(self) -> bool:
        """Whether it is sure that there is no order."""
        return self.is_decided and self.order is None


# ---- Who took what --------------------------------------------------------------------------------


def by_values(calls: Iterable[Call]) -> dict[int, tuple[list[Call], list[Call]]]:
    """The calls that put each value, and those that took it."""
    groups: dict[int, tuple[list[Call], list[Call]]] = {}
    for call in calls:
        if call.value is not None:
            groups.setdefault(call.value, ([], []))[not call.is_put()].append(call)
    return groups


def in_turn(calls: Iterable[Call]) -> list[Call]:
    """Calls by their ends, and those without one by their begins."""
    return sorted(calls, key=lambda call: (call.end, call.begin))


def has_one_turn(calls: Sequence[Call]) -> bool:
    """Whether none of these calls, which are in turn, begins and ends within another."""
    return all(first.begin < then.begin for first, then in itertools.pairwise(calls))


def matched(calls: Sequence[Call]) -> Match | None:
    """Who took what, if each value is put as often as it is taken."""
    stays: list[Stay] = []
    left: list[Call] = []  # put, and taken by nobody who was replied
    open_takes = in_turn(call for call in calls if not call.is_put() and call.is_pending())
    is_only = True
    for puts, takes in by_values(calls).values():
        if len(takes) > len(puts):
            return None
        if len(puts) > 1:
            puts, takes = in_turn(puts), in_turn(takes)
            is_only = is_only and not open_takes and has_one_turn(puts) and has_one_turn(takes)
        stays += map(Stay, puts, takes)
        left += (put for put in puts[len(takes):] if not put.is_pending())
    left = in_turn(left)
    stays += map(Stay, left, [*open_takes[:len(left)], *[None] * (len(left) - len(open_takes))])
    empties = tuple(call for call in calls if not call.is_put() and call.value is None and not call.is_pending())
    return Match(tuple(stays), empties, is_only)


# ---- An order of a match --------------------------------------------------------------------------


def filled(stays: Iterable[Stay]) -> list[tuple[int, int]]:
    """When a value is surely in the queue: from the first time on, and before the second one."""
    spans: list[tuple[int, int]] = []
    for begin, end in sorted((stay.put_end(), stay.take_begin()) for stay in stays):
        if begin >= end:
            continue
        if spans and begin <= spans[-1][1]:
            spans[-1] = spans[-1][0], max(end, spans[-1][1])
        else:
            spans.append((begin, end))
    return spans


def moment_of(empty: Call, spans: Sequence[tuple[int, int]]) -> int | None:
    """After which time the queue can be empty within a call; none where it can't."""
    number = bisect.bisect_right(spans, (empty.begin, NEVER + 1)) - 1
    time = max(empty.begin, spans[number][1]) if number >= 0 else empty.begin
    return time if time < empty.end else None


class Left:
    """Which stays are left, by a time of each."""

    def __init__(self, times: Sequence[int]) -> None:
        self.times = times
        self.queue = sorted(range(len(times)), key=lambda number: times[number], reverse=True)

    def least(self, done: Sequence[bool]) -> int:
        """The least time of those that are left."""
        while self.queue and done[self.queue[-1]]:
            self.queue.pop()
        return self.times[self.queue[-1]] if self.queue else NEVER + 1

    def before(self, time: int) -> Iterator[int]:
        """Those before a time, which are taken out."""
        while self.queue and self.times[self.queue[-1]] < time:
            yield self.queue.pop()


def in_line(stays: Sequence[Stay]) -> list[Stay] | None:
    """Stays in an order in which they can be put and taken: one comes before another if its put ended before the
    other's began, or its take did. None where two come before each other."""
    put_ends, take_ends = Left([stay.put_end() for stay in stays]), Left([stay.take_end() for stay in stays])
    begins = Left([stay.put_begin() for stay in stays]), Left([stay.take_begin() for stay in stays])
    done, seen = [False] * len(stays), [0] * len(stays)
    ready: list[tuple[int, int]] = []
    line: list[Stay] = []
    for _ in stays:
        for left, ends in zip(begins, (put_ends, take_ends)):
            # at one time are only those that stay, and nobody comes before one that ends then
            for number in left.before(ends.least(done) + (ends.least(done) == NEVER)):
                seen[number] += 1
                if seen[number] == 2:
                    heapq.heappush(ready, (stays[number].take_end(), number))
        if not ready:
            return None
        _, number = heapq.heappop(ready)
        done[number] = True
        line.append(stays[number])
    return line


def points_of(line: Sequence[Stay], group: int, time: int) -> Iterator[tuple[tuple[int, int, int, int], Call]]:
    """The calls of stays, each with its place in an order, as early as may be after a time."""
    put, taken = time, time
    for number, stay in enumerate(line):
        put = max(put, stay.put_begin())
        yield (put, group, 0, number), stay.put
        if stay.take:
            taken = max(taken, put, stay.take_begin())
            yield (taken, group, 1, number), stay.take


def order_of(match: Match) -> tuple[Call, ...] | None:
    """An order of the calls of a match, if there is one."""
    if any(stay.take_end() < stay.put_begin() for stay in match.stays):
        return None
    spans = filled(match.stays)
    moments = [(time, empty) for empty in match.empties if (time := moment_of(empty, spans)) is not None]
    if len(moments) < len(match.empties):
        return None
    times = sorted({time for time, _ in moments})
    groups: list[list[Stay]] = [[] for _ in range(len(times) + 1)]  # between the moments when the queue is empty
    for stay in match.stays:
        groups[bisect.bisect_left(times, max(stay.put_end(), stay.take_begin()))].append(stay)
    placed = [((time, times.index(time), 2, empty.begin), empty) for time, empty in moments]
    for number, (stays, time) in enumerate(zip(groups, [-NEVER, *times])):
        line = in_line(stays)
        if line is None:
            return None
        placed += points_of(line, number, time)
    return tuple(call for _, call in sorted(placed, key=lambda pair: pair[0]))


# ---- The answer -----------------------------------------------------------------------------------


def is_order(order: Sequence[Call], calls: Iterable[Call]) -> bool:
    """Whether a FIFO queue answers these calls so in this order, which has all calls that ended, and puts none
    before one that ended before it began."""
    queue: collections.deque[int] = collections.deque()
    latest = -NEVER  # of the begins so far
    for call in order:
        latest = max(latest, call.begin)
        if call.end < latest:
            return False
        if call.is_put() and call.value is not None:
            queue.append(call.value)
        elif call.is_pending() and queue:
            queue.popleft()
        elif (queue.popleft() if queue else None) != call.value:
            return False
    given = [call.begin for call in order]  # no two calls begin at one time
    placed = set(given)
    return len(placed) == len(given) and all(call.begin in placed or call.is_pending() for call in calls)


def put_once(calls: Sequence[Call]) -> list[Call]:
    """The calls but those of values that are put more than once."""
    often = {value for value, (puts, _) in by_values(calls).items() if len(puts) > 1}
    return [call for call in calls if call.value not in often]


def answer_of(calls: Sequence[Call], tries: int) -> Answer:
    """Whether a FIFO queue can have answered calls so, after trying so many configurations at most."""
    match = matched(calls)
    if match is None:
        return Answer(None)
    order = order_of(match)
    if order is not None and is_order(order, calls):
        return Answer(order)
    if match.is_only and order is None:
        return Answer(None)
    once = put_once(calls)
    if len(once) < len(calls) and answer_of(once, tries).is_refused():
        return Answer(None)
    try:
        order, tried = searched(calls, tries)
    except TooMany:
        return Answer(None, tries, False)
    return Answer(order, tried) if order is None or is_order(order, calls) else Answer(None, tried, False)
