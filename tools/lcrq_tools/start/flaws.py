"""Finds for `freeze.py --check` the part of a start that is to blame where `lcrqdb load` answers `Flaw N`.

All parts that may have the flaw are made plain, an idle actor or an empty ring, and brought back one
by one: the first with which the program answers this flaw again is named, with the condition of
docs/MODEL.md. Each trial is a run of the program.
"""

import copy
import json
import re
import tempfile
from collections.abc import Iterator
from pathlib import Path
from typing import Any, NamedTuple

from lcrq_tools import markdown, model, program
from lcrq_tools.records import WORDS
from lcrq_tools.start.starts import EMPTY, ENDS, IDLE, ROOT, Start, Trace, segment_names, with_words

FLAW = re.compile(r"lcrqdb: refused 26 Flaw ([0-9])")
POINTS_FIT = "| Control point | An actor's words fit if |"

# ---- The conditions of the page ------------------------------------------------------------------


def condition_of(number: int, page: str) -> str:
    """A condition of a well-formed world, as the page has it."""
    section = page.partition("\n## Well-formed worlds\n")[2].partition("\n## ")[0]
    found = re.search(rf"^{number}\. (.*?)(?=^[0-9]\. |^$|\Z)", section, re.MULTILINE | re.DOTALL)
    return " ".join(found[1].split()).rstrip(".:") if found else f"condition {number}"


def rows_for(point: str, page: str) -> Iterator[str]:
    """What the words of an actor at this control point have to be, as the last table has it."""
    order = ["Idle", *model.control_points(page)]
    for names, fits in markdown.rows_of(page, POINTS_FIT):
        named = re.findall(r"Idle|[EQAB][0-9]+", names)
        if " to " in names:
            named = order[order.index(named[0]) : order.index(named[-1]) + 1]
        if point in named:
            yield f"{names}: {fits}"


# ---- Parts ---------------------------------------------------------------------------------------


class Part(NamedTuple):
    """A part of a start: its name, the keys that lead to it, and what it is where it is plain."""

    name: str
    keys: tuple[str | int, ...]
    plain: object

    def make_plain(self, start: Start) -> None:
        """Makes it plain."""
        holder: Any = start
        for key in self.keys[:-1]:
            holder = holder[key]
        holder[self.keys[-1]] = copy.deepcopy(self.plain)


def actor_parts(start: Start) -> list[Part]:
    """The actors, which are idle then."""
    return [Part(f"actor {number}", ("actors", number - 1), IDLE) for number, _ in enumerate(start["actors"], 1)]


def ring_parts(start: Start) -> Iterator[Part]:
    """The segments, whose counters and cells are those of fresh ones then."""
    for name, *keys in segment_names(start):
        made = start["segments"][keys[0]][keys[1]]
        fresh = {"head": 0, "tail": 0, "cells": [[True, cell, None] for cell, _ in enumerate(made["cells"])]}
        yield Part(f"segment {name}", ("segments", *keys), made | fresh)


def link_parts(start: Start) -> list[Part]:
    """The queue's ends and the segments' next, which name the root and none then."""
    nexts = [Part(f"next of segment {name}", ("segments", *keys, "next"), None) for name, *keys in segment_names(start)]
    return [*(Part(end, (end,), ROOT) for end in ENDS), *nexts]


def array_parts(_: Start) -> list[Part]:
    """The array, which is empty then."""
    return [Part("the array", ("array",), EMPTY)]


PARTS = {2: link_parts, 3: actor_parts, 4: ring_parts, 5: ring_parts, 6: array_parts, 7: actor_parts, 8: actor_parts}


# ---- Trials --------------------------------------------------------------------------------------


class Trials:
    """The trace whose flaw is looked for, and the program that is asked."""

    def __init__(self, program_path: str, trace: Trace, folder: Path):
        self.program, self.trace, self.file = program_path, trace, folder / "tried.trace"

    def refusal(self, start: Start) -> str:
        """What the program says of this start; nothing if it takes it."""
        self.file.write_text(json.dumps({**self.trace, "start": start}), encoding="utf-8")
        return program.run([self.program, "load", "--", str(self.file)]).errors.strip()

    def flaw_of(self, start: Start) -> int:
        """The number of the flaw of a start, or 0."""
        found = FLAW.fullmatch(self.refusal(start))
        return int(found[1]) if found else 0

    def part_with(self, number: int, parts: list[Part]) -> str:
        """The first part that has this flaw while all others are plain, or nothing."""
        for part in parts:
            start = copy.deepcopy(self.trace["start"])
            for other in parts:
                if other != part:
                    other.make_plain(start)
            if self.flaw_of(start) == number:
                return part.name
        return ""

    def words_with(self, number: int, index: int) -> list[str]:
        """The words of an actor of which each alone, as an idle actor has it, removes the flaw that the
        actor has while all others are idle."""
        start = copy.deepcopy(self.trace["start"])
        given, start["actors"] = start["actors"][index], [IDLE] * len(start["actors"])
        found: list[str] = []
        for word in WORDS:
            start["actors"][index] = with_words(given, {word: IDLE.get(word)})
            if start["actors"][index] != given and self.flaw_of(start) != number:
                found.append(word)
        return found


def about_actor(trials: Trials, number: int, name: str, page: str) -> str:
    """What is to be said of an actor with a flaw: where it is, what its words have to be, and which of
    them may be to blame."""
    index = int(name.split(" ")[1]) - 1
    actor = trials.trace["start"]["actors"][index]
    fits = [*rows_for(actor["pc"], page)] if number == 8 else [condition_of(number, page)]
    words = trials.words_with(number, index)
    blamed = f"; the flaw is gone with the {' or '.join(words)} of an idle actor" if words else ""
    return f"{name} at {actor['pc']}: {'; '.join(fits)}{blamed}"


def flaw_in(program_path: str, trace: Trace) -> str:
    """What is wrong with the start of a trace, and where; nothing if the program takes it."""
    page = model.PAGE.read_text(encoding="utf-8")
    with tempfile.TemporaryDirectory() as folder:
        trials = Trials(program_path, trace, Path(folder))
        said = trials.refusal(trace["start"])
        found = FLAW.fullmatch(said)
        if not found:
            return said.removeprefix("lcrqdb: ")
        number = int(found[1])
        parts = [*PARTS[number](trace["start"])] if number in PARTS else []
        name = trials.part_with(number, parts)
        if name.startswith("actor "):
            return f"Flaw {number}, {about_actor(trials, number, name, page)}"
        return f"Flaw {number}{f', {name}' if name else ''}: {condition_of(number, page)}"
