"""Asks a run for its world as the start of a trace, changes what is at a place of a start, and makes starts by
hand, for `freeze.py`, `conform.py` and the checks. A start is JSON, as docs/MANUAL.md has it for traces of
version 2.
"""

import itertools
import json
from collections.abc import Callable, Collection, Iterable, Iterator, Mapping, Sequence
from typing import Any, Literal, TypedDict, cast

from lcrq_tools import records
from lcrq_tools.records import Place, Tail, all_of, content_of, number_or_none

# ---- A trace, as its JSON is ---------------------------------------------------------------------

Name = list[int]  # of a segment: its maker, and its number among those of this maker
Cell = list[int | None]  # its safe bit, its index and its value
Slot = list[int | str]  # of the array: where it is, and its value or `top`
End = Literal["qhead", "qtail"]

# An actor: its control point, its call and its words.
Actor = TypedDict(
    "Actor",
    {
        "pc": str, "op": list[str | int] | None, "crq": Name, "new": Name, "next": Name, "t": int, "h": int,
        "closed": bool, "val": int | None, "safe": bool, "idx": int, "pass": int,
    },
)


class Segment(TypedDict):
    """A segment."""

    head: int
    tail: int
    closed: bool
    next: Name | None
    cells: list[Cell]


class Array(TypedDict):
    """The array."""

    head: int
    tail: int
    cells: list[Slot]  # those that aren't empty


class Start(TypedDict):
    """The world at a start; the segments are lists by their makers."""

    actors: list[Actor]
    segments: list[list[Segment]]
    qhead: Name
    qtail: Name
    array: Array


class Trace(TypedDict):
    """A trace with a start, as far as it is read here."""

    ring: int
    start: Start


ROOT: Name = [0, 0]
IDLE: Actor = {
    "pc": "Idle", "op": None, "crq": ROOT, "new": ROOT, "next": ROOT, "t": 0, "h": 0,
    "closed": False, "val": None, "safe": False, "idx": 0, "pass": 0,
}
EMPTY: Array = {"head": 0, "tail": 0, "cells": []}
ENDS: tuple[End, ...] = ("qhead", "qtail")
TEXT = """{{
  "version": 2,
  "ring": {ring},
  "start": {{
    "actors": [
      {actors}
    ],
    "segments": [
      {segments}
    ],
    "qhead": {qhead},
    "qtail": {qtail},
    "array": {array}
  }},
  "events": [],
  "undone": [],
  "marks": []
}}
"""


def joined(parts: Iterable[object], indent: int) -> str:
    """Parts of JSON, each on a line of its own."""
    return (",\n" + " " * indent).join(map(json.dumps, parts))


def text_of(trace: Trace) -> str:
    """The text of a trace that begins with this start: an actor and a segment a line."""
    start = trace["start"]
    segments = (",\n" + " " * 6).join(f"[{joined(made, 7)}]" for made in start["segments"])
    others = {key: json.dumps(start[key]) for key in ENDS} | {"array": json.dumps(start["array"])}
    return TEXT.format(ring=trace["ring"], actors=joined(start["actors"], 6), segments=segments, **others)


def with_words(actor: Actor, words: Mapping[str, object]) -> Actor:
    """An actor with these words in the place of its own."""
    return cast(Actor, {**actor, **words})


def segment_names(start: Start) -> list[tuple[str, int, int]]:
    """The segments, each with its maker and its number."""
    made = enumerate(start["segments"])
    return [(f"{maker}.{number}", maker, number) for maker, ours in made for number, _ in enumerate(ours)]


def values_in(start: Start, calls: Collection[str]) -> Iterator[int]:
    """The values in the cells of segments, and those in these calls."""
    cells = (cell for made in start["segments"] for segment in made for cell in segment["cells"])
    yield from (value for *_, value in cells if value is not None)
    yield from (int(op[1]) for actor in start["actors"] if (op := actor["op"]) and op[0] in calls)


def reachable(start: Start) -> set[str]:
    """The segments that an end or an actor has, and those to which they lead. No step names another one that is
    made already."""
    held = ((actor["crq"], actor["new"], actor["next"]) for actor in start["actors"])
    ways = [start["qhead"], start["qtail"], *itertools.chain.from_iterable(held)]
    found: set[str] = set()
    while ways:
        maker, number = ways.pop()
        after = start["segments"][maker][number]["next"]
        ways += [after] if after and f"{maker}.{number}" not in found else []
        found.add(f"{maker}.{number}")
    return found


# ---- What a reply shows, as a trace has it -------------------------------------------------------


def name_of(word: str) -> Name:
    """The name of a segment."""
    return [int(number) for number in word.split(".")]


def name_or_none(word: str) -> Name | None:
    """The name of a segment, or that there is none."""
    return None if word == "none" else name_of(word)


def bit_of(word: str) -> bool:
    """A bit."""
    return word == "1"


WORDS: dict[str, Callable[[str], object]] = {
    "crq": name_of, "new": name_of, "next": name_of, "t": int, "h": int, "idx": int, "pass": int,
    "closed": bit_of, "safe": bit_of, "val": number_or_none,
}


def actor_of(actor: records.Actor) -> Actor:
    """An actor as it is shown."""
    word, *value = actor.call.split(" ")
    call = None if word == "none" else [word, *map(int, value)]
    named = {key: WORDS[key](word) for key, word in actor.words.items()}
    return cast(Actor, {"pc": actor.point, "op": call, **named})


def cell_of(content: str) -> Cell:
    """A cell of a ring."""
    cell = records.Cell.read(content)
    return [cell.is_safe, cell.index, cell.value]


def slot_of(index: int, content: str) -> Slot:
    """A slot of the array that is not empty."""
    return [index, "top" if content == "top" else int(content.removeprefix("value "))]


def set_content(start: Start, place: Place, content: str) -> None:
    """Changes what is at a place. A content that can't be there raises ValueError, LookupError or TypeError."""
    array, world = start["array"], cast(Any, start)
    match place.kind:
        case "qhead" | "qtail":
            world[place.kind] = name_of(content)
        case "ahead" | "atail":
            world["array"][place.kind[1:]] = int(content)
        case "acell":
            index = place.index or 0
            others = [slot for slot in array["cells"] if slot[0] != index]
            array["cells"] = sorted(others + ([] if content == "empty" else [slot_of(index, content)]))
        case kind:
            maker, number = name_of(place.segment)
            set_part(start["segments"][maker][number], kind, place.index or 0, content.split(" "))


def set_part(segment: Segment, kind: str, index: int, words: list[str]) -> None:
    """Changes what is at a place of a segment."""
    match kind:
        case "head":
            segment["head"] = int(words[0])
        case "tail":
            segment["closed"] = words[-2] == "closed"
            segment["tail"] = int(words[-1]) if words[-1].isdecimal() else segment["tail"]
        case "next":
            segment["next"] = name_or_none(words[0])
        case "value":
            segment["cells"][index][2] = number_or_none(words[0])
        case "index":
            segment["cells"][index][:2] = [bit_of(words[0]), int(words[1])]
        case "cell":
            segment["cells"][index] = cell_of(" ".join(words))


# ---- The world of a run --------------------------------------------------------------------------


class Asked:
    """A world at which a run of the program is. `ask` gives the replies to lines."""

    def __init__(self, ask: Callable[[list[str]], list[str]]) -> None:
        self.ask = ask

    def show(self, *places: str) -> list[str]:
        """What is at these places."""
        return [content_of(reply) for reply in self.ask([f"show {place}" for place in places])]

    def count(self, line: str, first: int = 0) -> int:
        """How many numbers there are for a line, from 0 on, of which so many are known."""
        return first + sum(1 for _ in all_of(self.ask, line, first))

    def segment(self, name: str, ring: int) -> Segment:
        """The segment of this name."""
        names = [f"{kind} {name}" for kind in ("tail", "head", "next")]
        state, head, after, *cells = self.show(*names, *(f"cell {name} {index}" for index in range(ring)))
        tail = Tail.read(state)
        return {
            "head": int(head), "tail": tail.count, "closed": tail.is_closed, "next": name_or_none(after),
            "cells": [cell_of(content) for content in cells],
        }

    def array(self) -> Array:
        """The array."""
        head, tail = map(int, self.show("ahead", "atail"))
        slots = enumerate(all_of(self.ask, "show acell {}"))
        return {"head": head, "tail": tail, "cells": [slot_of(*slot) for slot in slots if slot[1] != "empty"]}

    def trace(self, known: Sequence[Sequence[Segment]] = (), touched: Collection[str] = ()) -> Trace:
        """The whole world as a trace that begins there. Of its segments those that are known, and were not touched
        since, aren't asked for."""
        actors = [actor_of(records.Actor.read(reply)) for reply in all_of(self.ask, "actor {}", 1)]
        ring = self.count("show cell 0.0 {}")
        kept = {f"{maker}.{number}": segment for maker, own in enumerate(known) for number, segment in enumerate(own)}
        for name in touched:
            kept.pop(name, None)
        firsts = [*map(len, known), *[0] * (len(actors) + 1)]
        counts = [self.count(f"show whole {maker}.{{}}", firsts[maker]) for maker in range(len(actors) + 1)]
        names = [[f"{maker}.{number}" for number in range(count)] for maker, count in enumerate(counts)]
        made = [[kept.get(name) or self.segment(name, ring) for name in own] for own in names]
        qhead, qtail = map(name_of, self.show(*ENDS))
        start: Start = {
            "actors": actors, "segments": made, "qhead": qhead, "qtail": qtail, "array": self.array(),
        }
        return {"ring": ring, "start": start}


# ---- Starts by hand ------------------------------------------------------------------------------

FAR = 2**61  # a tail that no head comes to: who dequeues there goes on forever, in rounds of five steps


def segment(ring: int, tail: int, held: int | None = None) -> Segment:
    """A segment of this many cells with this tail: an empty one, or one whose first cell holds a value."""
    cells: list[Cell] = [[True, index, None if index else held] for index in range(ring)]
    return {"cells": cells, "closed": False, "head": 0, "next": None, "tail": tail}


def dequeuers(ring: int, makers: Collection[int], idle: int = 0) -> str:
    """The text of a trace of no events: for each of these makers an actor that dequeues forever on
    the first segment of that maker, and after them this many idle ones. The root, which holds one value,
    is the queue's one segment, and nobody is there."""
    actors = [with_words(IDLE, {"crq": [maker, 0], "op": ["deq"], "pass": 1, "pc": "Q2"}) for maker in makers]
    actors += [IDLE] * idle
    others = [[segment(ring, FAR)] * (maker in makers) for maker in range(1, len(actors) + 1)]
    start: Start = {
        "actors": actors, "segments": [[segment(ring, 1, 7)], *others], "qhead": ROOT, "qtail": ROOT, "array": EMPTY,
    }
    return text_of({"ring": ring, "start": start})
