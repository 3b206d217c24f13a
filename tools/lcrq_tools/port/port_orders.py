"""Searches an order of the records of a log under which a run agrees with all of them, for `conform.py`, where
stamps leave the order of some records open.

A record comes before those whose first stamp is after its second one, and before later ones of its actor. The
search goes on by one record after the other, and back where no record agrees. It leaves out what can't help:

- A record that writes nothing and says what it found goes first as soon as it agrees: it changes nothing for
  the others.
- Otherwise the record that ends first is tried, and in its place only those of actors that have an open record
  which may depend on it, and so on (persistent sets of Godefroid 1996).
- A record that was tried is tried again only behind one on which it depends (sleep sets).
- What was reached before, with the same world, is not tried again.

What a record touches `dependence.py` says when it is tried, and `port_touches.py` before.
"""

import itertools
from collections.abc import Callable, Iterator, Sequence
from dataclasses import dataclass, field
from typing import NamedTuple, Protocol

from lcrq_tools.dependence import Step, depend
from lcrq_tools.port.port_log import Record
from lcrq_tools.port.port_touches import Touch, touches_of


class Run(Protocol):
    """A run that goes on by a record, and back."""

    def go(self, record: Record) -> "Tried":
        """Goes on by a record; where it disagrees, the run stays as it was."""

    def back(self) -> None:
        """Takes the last record back."""

    def key(self) -> int:
        """What worlds in which the same records agree from here on have in common."""

    def learns(self) -> bool:
        """Whether a segment has no name yet, so that any record may give it one."""

    def settle(self) -> bool:
        """Makes room for more records where there is none left; returns whether it did. Nothing before can be taken
        back then."""


class Tried(NamedTuple):
    """What came of a record."""

    agrees: bool
    step: Step  # what it touches, and what it wrote
    is_sure: bool = False  # it writes nothing, and the actor goes on as the record says, whatever it finds
    is_hopeless: bool = False  # it disagrees in any order that has the actor's records before it


@dataclass(frozen=True)
class Placed:
    """A record with its place in an order, and the one before it."""

    record: Record
    before: "Placed | None"
    count: int


@dataclass
class Found:
    """What the search found."""

    by_stamps: Sequence[Record]  # in the order of their first stamps
    records: list[Record]  # in the order found, or in the one that came furthest, the others by their stamps
    count: int  # how many of them agree
    is_whole: bool  # all orders were tried that differ, or one was found
    is_settled: bool  # what was before some record could not be taken back
    tried: int  # how often a record was tried
    back: int  # how often one was taken back


@dataclass
class Frame:
    """Where the search is: after which records it tries which actors."""

    key: int
    asleep: dict[int, Step]  # actors whose next record was tried here, or before where it would be the same
    actors: Iterator[int] = iter(())  # those that are tried still
    actor: int = 0  # the one whose record led to the next frame


# ---- Open records --------------------------------------------------------------------------------


def open_records(records: Sequence[Record]) -> int:
    """How many of these records, which are in the order of their first stamps, meet one of another actor's."""
    if all(first.after < then.stamp for first, then in itertools.pairwise(records)):
        return 0
    open_ones: set[int] = set()
    reach: dict[int, tuple[int, int]] = {}  # of each actor the latest second stamp, and the number of its record
    for number, record in enumerate(records):
        meets = [other for actor, (after, other) in reach.items() if actor != record.actor and after >= record.stamp]
        if meets:
            open_ones.update(meets, [number])
        if record.after >= reach.get(record.actor, (-1, 0))[0]:
            reach[record.actor] = record.after, number
    return len(open_ones)


# ---- The search ----------------------------------------------------------------------------------


@dataclass
class Line:
    """The records of an actor, in their order, and how many of them are placed."""

    records: list[Record] = field(default_factory=list)
    ends: list[int] = field(default_factory=list)  # of each the latest time before which it has its place
    touches: list[Touch] = field(default_factory=list)
    at: int = 0

    def is_over(self) -> bool:
        """Whether all are placed."""
        return self.at == len(self.records)

    def next(self) -> Record:
        """The next one."""
        return self.records[self.at]

    def end(self) -> int:
        """The latest time before which the next one has its place."""
        return self.ends[self.at]

    def touch(self) -> Touch:
        """What the next one touches."""
        return self.touches[self.at]


def lines_of(records: Sequence[Record], ring: int) -> dict[int, Line]:
    """The records of each actor."""
    lines: dict[int, Line] = {}
    for record, touch in zip(records, touches_of(records, ring)):
        line = lines.setdefault(record.actor, Line())
        line.records.append(record)
        line.touches.append(touch)
    for line in lines.values():
        end = line.records[-1].after
        for record in reversed(line.records):
            end = min(end, record.after)
            line.ends.append(end)
        line.ends.reverse()
    return lines


class Search:
    """A search over the records of a log, in the order of their first stamps. It ends when records were tried in
    vain, or taken back, so often since it came furthest."""

    def __init__(
        self, run: Run, records: Sequence[Record], ring: int, tries: int,
        progress: Callable[[int], None] = lambda _: None,
    ):
        self.run, self.records, self.tries, self.progress = run, records, tries, progress
        self.lines = lines_of(records, ring)
        self.dead: set[int] = set()  # what can't be continued to an order
        self.last: Placed | None = None
        self.best: Placed | None = None
        self.tried, self.back, self.since = 0, 0, 0
        self.is_settled = False  # nothing before some record can be taken back

    def found(self) -> Found:
        """The order found, or the one that came furthest."""
        frames = [self.frame({})]
        while frames and self.placed() < len(self.records) and self.since <= self.tries:
            if self.run.settle():
                frames, self.is_settled = frames[-1:], True
            frame = frames[-1]
            actor = next(frame.actors, 0)
            if actor and (following := self.go_on(frame, actor)):
                frames.append(following)
            elif not actor:
                self.dead.add(frames.pop().key)
                self.go_back(frames)
        is_whole = self.placed() == len(self.records) or not frames and not self.is_settled
        count = self.best.count if self.best else 0
        return Found(self.records, self.order(), count, is_whole, self.is_settled, self.tried, self.back)

    def placed(self) -> int:
        """How many records have their place."""
        return self.last.count if self.last else 0

    def order(self) -> list[Record]:
        """The records in the order that came furthest, the others behind them."""
        order: list[Record] = []
        placed = self.best
        while placed:
            order.append(placed.record)
            placed = placed.before
        known = {*map(id, order)}
        return [*reversed(order), *(record for record in self.records if id(record) not in known)]

    def frame(self, asleep: dict[int, Step]) -> Frame:
        """A frame at the records that are placed."""
        made = Frame(self.key(), asleep)
        made.actors = self.actors(made)
        return made

    def key(self) -> int:
        """What equal frames have in common."""
        return hash((self.run.key(), *(line.at for line in self.lines.values())))

    def go_on(self, frame: Frame, actor: int) -> Frame | None:
        """Tries the next record of an actor; nothing if it disagrees, or leads where the search was before."""
        line = self.lines[actor]
        tried = self.run.go(line.next())
        self.tried += 1
        if not tried.agrees:
            self.note_vain(frame, actor, tried.step)
            frame.actors = iter(()) if tried.is_hopeless else frame.actors
            return None
        if tried.is_sure:
            frame.actors = iter(())
        self.last = Placed(line.next(), self.last, self.placed() + 1)
        line.at += 1
        frame.actor = actor
        made = self.frame({other: step for other, step in frame.asleep.items() if not depend(step, tried.step)})
        frame.asleep[actor] = tried.step  # for when it comes back
        if made.key in self.dead:
            self.take_back(actor)
            return None
        self.note_furthest()
        return made

    def note_furthest(self) -> None:
        """Notes the order, if none came as far."""
        if not self.best or self.placed() > self.best.count:
            self.best, self.since = self.last, 0
            self.progress(self.placed())

    def note_vain(self, frame: Frame, actor: int, step: Step) -> None:
        """Notes a record that disagrees."""
        frame.asleep[actor] = step
        self.since += 1

    def go_back(self, frames: list[Frame]) -> None:
        """Takes the record back that led from the last frame, if there is one."""
        if frames:
            self.take_back(frames[-1].actor)

    def take_back(self, actor: int) -> None:
        """Takes the last record back, which is this actor's."""
        assert self.last  # it is placed
        self.run.back()
        self.lines[actor].at -= 1
        self.last = self.last.before
        self.back, self.since = self.back + 1, self.since + 1

    # ---- Which actors are tried

    def blocker(self, actor: int) -> int:
        """An actor whose next record has to come before that of this one; 0 if there is none."""
        stamp = self.lines[actor].next().stamp
        others = (it for it, line in self.lines.items() if it != actor and not line.is_over() and line.end() < stamp)
        return next(others, 0)

    def actors(self, frame: Frame) -> Iterator[int]:
        """The actors that are tried in a frame, while the search is there. Behind each that is given, its step is
        known."""
        left = [actor for actor, line in self.lines.items() if not line.is_over()]
        able = sorted((actor for actor in left if not self.blocker(actor)), key=lambda actor: self.lines[actor].end())
        yield from (actor for actor in able if actor not in frame.asleep and self.is_quiet(actor))
        taken, waiting = ({*able}, able) if self.run.learns() else ({*able[:1]}, able[:1])
        while waiting:
            actor = waiting.pop(0)
            blocker = self.blocker(actor)
            if not blocker and actor not in frame.asleep:
                yield actor
            more = {blocker} if blocker else {other for other in left if self.may_come_first(other, actor)}
            waiting = sorted({*waiting, *more - taken}, key=lambda it: self.lines[it].end())
            taken |= more

    def is_quiet(self, actor: int) -> bool:
        """Whether the next record of an actor writes nothing, and says what it found."""
        record = self.lines[actor].next()
        return not self.lines[actor].touch().writes and (record.kind != "step" or bool(record.answer or record.choice))

    def may_come_first(self, other: int, actor: int) -> bool:
        """Whether another actor has a record left that may come before the next one of this actor, and depend on it."""
        line, end, touch = self.lines[other], self.lines[actor].end(), self.lines[actor].touch()
        for number in range(line.at, len(line.records) if other != actor else 0):
            if line.records[number].stamp > end:
                return False
            if touch.meets(line.touches[number]):
                return True
        return False
