"""Works out which steps of a run depend on which, for the checks, from the steps' records by the words of
docs/MODEL.md alone.

A record is the reply to `step K`, which is read here and not by `records.py`: the checks rest on this
reading being independent of what they check. An actor counts as a place that each of its steps writes: so two
steps depend on each other exactly where they share a place that one of the two wrote. Numbers of
steps count from 1.
"""

import heapq
from collections.abc import Sequence
from dataclasses import dataclass


@dataclass
class Step:
    """What is known of a step from its record."""

    line: str  # that makes it
    place: str  # - where it has none
    touched: tuple[str, ...]
    wrote: tuple[str, ...]
    ended: str  # what the reply to its line has after `ok K`


def names(place: str, ring: int) -> tuple[str, ...]:
    """The places that this one names, over rings of this many cells."""
    kind, *rest = place.split(" ")
    if kind == "cell":
        return tuple(f"{half} {' '.join(rest)}" for half in ("value", "index"))
    if kind == "whole":
        halves = [half for index in range(ring) for half in names(f"cell {rest[0]} {index}", ring)]
        return (f"head {rest[0]}", f"tail {rest[0]}", f"next {rest[0]}", *halves)
    return () if place == "-" else (place,)


def step_of(record: str, ring: int) -> Step:
    """The step of a record."""
    _, line, place, access, _, reply = record.split("; ")
    touched = names(place, ring)
    wrote = {"wrote": touched, "wrote index": touched[1:]}.get(access, ())
    itself = (f"actor {line.split(' ')[1]}",)
    return Step(line, place, touched + itself, wrote + itself, "" if reply == "-" else f" {reply}")


def depend(step: Step, other: Step) -> bool:
    """Whether two steps depend on each other."""
    return not (set(step.touched).isdisjoint(other.wrote) and set(step.wrote).isdisjoint(other.touched))


def first_dependant(steps: Sequence[Step], number: int) -> int | None:
    """The number of the first later step that depends on this one, or none."""
    step, later = steps[number - 1], range(number + 1, len(steps) + 1)
    return next((other for other in later if depend(step, steps[other - 1])), None)


def last_writer(steps: Sequence[Step], place: str, ring: int) -> int | None:
    """The number of the last step that wrote this place or one that it names, or none."""
    named = set(names(place, ring))
    return next((number for number in range(len(steps), 0, -1) if not named.isdisjoint(steps[number - 1].wrote)), None)


def closure(steps: Sequence[Step], number: int) -> list[int]:
    """The numbers of this step and of all later ones that depend on it, directly or through
    others."""
    taken: list[int] = []
    touched: set[str] = set()
    wrote: set[str] = set()
    for later, step in enumerate(steps[number - 1:], number):
        if later == number or not (touched.isdisjoint(step.wrote) and wrote.isdisjoint(step.touched)):
            taken.append(later)
            touched.update(step.touched)
            wrote.update(step.wrote)
    return taken


def leads(steps: Sequence[Step]) -> list[list[int]]:
    """For each step later ones that depend on it, enough of them: all others do so through
    these."""
    after: list[list[int]] = [[] for _ in steps]
    writer: dict[str, int] = {}
    readers: dict[str, list[int]] = {}
    for index, step in enumerate(steps):
        before = {writer[place] for place in step.touched if place in writer}
        before.update(reader for place in step.wrote for reader in readers.pop(place, ()))
        for place in step.touched:
            if place in step.wrote:
                writer[place] = index
            else:
                readers.setdefault(place, []).append(index)
        for earlier in before:
            after[earlier].append(index)
    return after


def latest_first(steps: Sequence[Step]) -> list[Step]:
    """The steps in another order, in which each is still after those on which it depends: always
    the latest that may come next."""
    after, waits = leads(steps), [0] * len(steps)
    order: list[Step] = []
    for dependants in after:
        for index in dependants:
            waits[index] += 1
    free = [-index for index, count in enumerate(waits) if not count]
    heapq.heapify(free)
    while free:
        index = -heapq.heappop(free)
        order.append(steps[index])
        for later in after[index]:
            waits[later] -= 1
            if not waits[later]:
                heapq.heappush(free, -later)
    return order
