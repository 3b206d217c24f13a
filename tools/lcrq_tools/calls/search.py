"""Searches the orders of calls for one that a FIFO queue could have answered so, for `orders.py`, where a value is
put more often than once.

It goes along the ends of the calls, and gives a call its place in the order just in time (Lowe 2017): before a call
ends that would be late, or while a dequeue goes on that found the queue empty. What was tried isn't tried again: the
time, and which values are taken by which calls (Wing and Gong 1993). Enqueues get their places last: they come in the
order in which their values are taken. So a value may be taken next if no other one that is left was put before it
began to be put. Of equal values the one that was put first goes first, as soon as it may, unless another one could go
in its place, or another dequeue could take it, that began later and ended earlier.
"""

from collections.abc import Iterator, Sequence
from typing import NamedTuple

from lcrq_tools.calls.intervals import FOREVER, Call

Placed = tuple[tuple[int, int, int, int], Call]  # a call with its place in an order


class TooMany(Exception):
    """More configurations than may be tried."""


class Taken(NamedTuple):
    """A dequeue with its place: at the end of which call it got it, which value it took, and those before it."""

    time: int
    take: int
    put: int | None
    before: "Taken | None"


class State(NamedTuple):
    """A configuration: how many calls have ended, and, as bits, whose values are taken and which dequeues have
    their places; and what led to it."""

    ended: int
    taken: int
    done: int
    last: Taken | None = None

    def key(self) -> tuple[int, int, int]:
        """What two equal configurations have in common."""
        return self.ended, self.taken, self.done

    def least(self) -> int:
        """Which of the values that are left was put first."""
        return (~self.taken & (self.taken + 1)).bit_length() - 1


class Search:
    """What is known of the calls: enqueues and dequeues in the order of their ends, and which dequeues go on when
    a call ends."""

    def __init__(self, calls: Sequence[Call]) -> None:
        self.ends = sorted(call.end for call in calls if not call.is_pending())
        both = sorted(calls, key=lambda call: (call.end, call.begin))
        self.puts = [call for call in both if call.is_put()]
        self.takes = [call for call in both if not call.is_put()]
        self.put_ends = [*(put.end for put in self.puts), FOREVER]
        self.puts_of: dict[int | None, list[int]] = {}
        for number, put in enumerate(self.puts):
            self.puts_of.setdefault(put.value, []).append(number)
        self.takes_of: dict[int | None, list[int]] = {}
        for number, take in enumerate(self.takes):
            self.takes_of.setdefault(take.value, []).append(number)
        self.running = [
            [number for number, take in enumerate(self.takes) if take.begin < end <= take.end] for end in self.ends
        ]

    def choice(self, state: State, value: int | None) -> tuple[int | None, bool]:
        """Which of the enqueues of a value comes next in a configuration, if one may; and whether no other one of
        that value could be better to take."""
        first, now = self.put_ends[state.least()], self.ends[state.ended]
        is_first = True
        for number in self.puts_of.get(value, ()):
            if not state.taken >> number & 1:
                if self.puts[number].begin < min(first, now):
                    return number, is_first
                is_first = False
        return None, False

    def is_next(self, state: State, take: int) -> bool:
        """Whether no other dequeue of this one's value that has no place yet ends before."""
        return next(number for number in self.takes_of[self.takes[take].value] if not state.done >> number & 1) == take

    def with_take(self, state: State, take: int, put: int | None) -> State:
        """A configuration after a dequeue got its place."""
        taken = state.taken if put is None else state.taken | 1 << put
        last = Taken(self.ends[state.ended] - 1, take, put, state.last)
        return State(state.ended, taken, state.done | 1 << take, last)

    def waiting(self, state: State) -> list[int]:
        """The dequeues that go on and have no place yet."""
        return [take for take in self.running[state.ended] if not state.done >> take & 1]

    def can_be_empty(self, state: State) -> bool:
        """Whether each value that is surely put is taken."""
        return self.put_ends[state.least()] >= self.ends[state.ended]

    def settled(self, state: State) -> State:
        """A configuration after the dequeues got their places that lose nothing by it."""
        is_changed = True
        while is_changed:
            is_changed = False
            for take in self.waiting(state):
                call = self.takes[take]
                if call.value is None:
                    if not call.is_pending() and self.can_be_empty(state):
                        state = self.with_take(state, take, None)
                    continue
                put, is_sure = self.choice(state, call.value)
                if put is not None and is_sure and self.is_next(state, take):
                    state, is_changed = self.with_take(state, take, put), True
        return state

    def takings(self, state: State, waiting: Sequence[int]) -> Iterator[State]:
        """The configurations after one of these dequeues got its place, which may lose something by it."""
        is_open_tried = False
        for take in waiting:
            call = self.takes[take]
            if call.is_pending() and not is_open_tried:
                is_open_tried = True  # another one that is pending does the same
                for value in self.puts_of:
                    put, _ = self.choice(state, value)
                    if put is not None:
                        yield self.with_take(state, take, put)
            elif call.value is not None:
                put, _ = self.choice(state, call.value)
                if put is not None:
                    yield self.with_take(state, take, put)

    def following(self, state: State) -> Iterator[State]:
        """The configurations that may come after a settled one."""
        waiting, end = self.waiting(state), self.ends[state.ended]
        is_late = any(self.takes[take].end == end for take in waiting)
        if not is_late:
            yield State(state.ended + 1, state.taken, state.done, state.last)
        if is_late or any(self.takes[take].value is None and not self.takes[take].is_pending() for take in waiting):
            yield from self.takings(state, waiting)

    def order(self, last: Taken | None) -> tuple[Call, ...]:
        """The calls in their order: each enqueue as early as may be after those before it."""
        path: list[Taken] = []
        while last:
            path.append(last)
            last = last.before
        placed: list[Placed] = []
        left = dict.fromkeys(range(len(self.puts)))
        group, earliest = 0, -FOREVER
        for number, taken in enumerate(reversed(path)):
            if taken.put is None:
                placed.append(((taken.time, group, 2, number), self.takes[taken.take]))
                group, earliest = group + 1, max(earliest, taken.time)
                continue
            del left[taken.put]
            earliest = max(earliest, self.puts[taken.put].begin)
            placed.append(((earliest, group, 0, number), self.puts[taken.put]))
            placed.append(((taken.time, group, 1, number), self.takes[taken.take]))
        for put in sorted((self.puts[number] for number in left), key=lambda put: put.begin):
            if not put.is_pending():
                earliest = max(earliest, put.begin)
                placed.append(((earliest, group, 0, len(placed)), put))
        return tuple(call for _, call in sorted(placed, key=lambda pair: pair[0]))


def searched(calls: Sequence[Call], tries: int) -> tuple[tuple[Call, ...] | None, int]:
    """An order, or none if there is none, and how many configurations were tried."""
    search = Search(calls)
    states, seen = [State(0, 0, 0)], {(0, 0, 0)}
    while states:
        state = states.pop()
        if state.ended == len(search.ends):
            return search.order(state.last), len(seen)
        for then in reversed([*search.following(search.settled(state))]):
            if then.key() not in seen:
                if len(seen) >= tries:
                    raise TooMany
                seen.add(then.key())
                states.append(then)
    return None, len(seen)
