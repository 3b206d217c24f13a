"""Which part of a start is to blame for a flaw, with a function in the place of the program."""

import copy
import json
import tempfile
import unittest
from collections.abc import Callable
from pathlib import Path
from typing import Any
from unittest import mock

from lcrq_tools import model, program
from lcrq_tools.program import Ended
from lcrq_tools.start import flaws, starts
from lcrq_tools.start.flaws import Trials
from lcrq_tools.start.starts import Trace

PAGE = model.PAGE.read_text(encoding="utf-8")
FAR = 2**62 + 1

Change = Callable[[Any], object]  # of a start, as JSON has it


def trace() -> Trace:
    """A start of three actors, the second of which dequeues on the first segment of maker 2."""
    made: Trace = json.loads(starts.dequeuers(2, (2,), 2))
    made["start"]["actors"].insert(0, made["start"]["actors"].pop())
    return made


def flaw_of(start: Any) -> int:
    """The number of the first flaw of a start, by some of the conditions of docs/MODEL.md; 0 for none."""
    rings = [it for made in start["segments"] for it in made]
    lists = enumerate(start["segments"])
    names = [[maker, number] for maker, made in lists for number in range(len(made))]
    actors = start["actors"]
    found = {
        1: len(start["segments"]) != len(actors) + 1,
        2: any(it not in names for it in (start["qhead"], start["qtail"], *(it["next"] or [0, 0] for it in rings))),
        3: any(it[word] not in names for it in actors for word in ("crq", "new", "next")),
        4: any(max(it["head"], it["tail"]) >= FAR for it in rings),
        5: any((cell[1] or 0) > FAR + 1 for it in rings for cell in it["cells"]),
        6: max(start["array"]["head"], start["array"]["tail"]) > 64,
        7: any(max(it["t"], it["h"]) >= FAR for it in actors),
        8: any(it["pc"] == "Idle" and it != starts.IDLE or it["pc"] == "Q2" and not it["pass"] for it in actors),
    }
    return next((number for number, is_found in found.items() if is_found), 0)


def answers(words: list[str]) -> Ended:
    """What the program answers to `load -- FILE`."""
    number = flaw_of(json.loads(Path(words[-1]).read_text(encoding="utf-8"))["start"])
    return Ended(1, b"", f"lcrqdb: refused 26 Flaw {number}\n") if number else Ended(0, b"", "")


def said_of(change: Change) -> str:
    """What is said of the start with this change."""
    made = trace()
    change(made["start"])
    with mock.patch.object(program, "run", answers):
        return flaws.flaw_in("lcrqdb", made)


class Conditions(unittest.TestCase):
    """What the page says of a flaw."""

    def test_a_condition_is_read_whole(self) -> None:
        rows = {
            2: "Each queue end, and each `next` except none, names a segment in the world",
            8: "Each actor's words fit its control point",
            9: "condition 9",
        }
        for number, text in rows.items():
            self.assertEqual(flaws.condition_of(number, PAGE), text)
        self.assertRegex(flaws.condition_of(1, PAGE), "^There are 1 to 16 actors, .* maker 0's list has just the root$")

    def test_a_point_has_the_rows_that_name_it(self) -> None:
        rows = {
            "Idle": ["Idle"],
            "E8": ["E1 to E14", "E8"],
            "Q12": ["Q1 to Q14", "Q2 to Q12", "Q12"],
            "Q13": ["Q1 to Q14", "Q13"],
            "A2": ["A1 and A2"],
            "B2": ["B1 to B3"],
        }
        for point, names in rows.items():
            self.assertEqual([row.partition(": ")[0] for row in flaws.rows_for(point, PAGE)], names)


class Parts(unittest.TestCase):
    """Parts of a start."""

    def test_each_part_is_made_plain_alone(self) -> None:
        start = trace()["start"]
        start["segments"][0][0]["next"] = start["qtail"] = [2, 0]
        start["array"] = {"head": 1, "tail": 2, "cells": [[1, 7]]}
        lists = {number: [part.name for part in parts(start)] for number, parts in flaws.PARTS.items()}
        self.assertEqual(lists[2], ["qhead", "qtail", "next of segment 0.0", "next of segment 2.0"])
        self.assertEqual(lists[3], ["actor 1", "actor 2", "actor 3"])
        self.assertEqual((lists[4], lists[5], lists[6]), (["segment 0.0", "segment 2.0"],) * 2 + (["the array"],))
        self.assertEqual((lists[7], lists[8]), (lists[3], lists[3]))
        plain = copy.deepcopy(start)
        for parts in (flaws.link_parts, flaws.ring_parts, flaws.array_parts):
            for part in parts(plain):
                part.make_plain(plain)
        self.assertEqual((plain["qtail"], plain["array"]), ([0, 0], {"head": 0, "tail": 0, "cells": []}))
        rings = [it for made in plain["segments"] for it in made]
        fresh = {"head": 0, "tail": 0, "closed": False, "next": None, "cells": [[True, 0, None], [True, 1, None]]}
        self.assertEqual(rings, [fresh, fresh])
        self.assertEqual(plain["actors"], start["actors"])
        flaws.actor_parts(plain)[1].make_plain(plain)
        self.assertEqual(plain["actors"], [starts.IDLE] * 3)


class Blame(unittest.TestCase):
    """Which part is named."""

    def test_a_start_without_a_flaw_has_nothing_said(self) -> None:
        self.assertEqual(said_of(lambda _: None), "")

    def test_the_first_part_with_the_flaw_is_named(self) -> None:
        idle = "the record is the idle one; the flaw is gone with the idx of an idle actor"
        rows: list[tuple[str, Change]] = [
            ("Flaw 1: There are 1 to 16 actors, ", lambda it: it["segments"].pop()),
            ("Flaw 2, qhead: Each queue end, ", lambda it: it.update(qhead=[9, 0], qtail=[9, 0])),
            ("Flaw 2, next of segment 2.0: ", lambda it: it["segments"][2][0].update(next=[3, 0])),
            ("Flaw 3, actor 2 at Q2: Each actor's words ", lambda it: it["actors"][1].update(new=[9, 9])),
            ("Flaw 4, segment 2.0: ", lambda it: it["segments"][2][0].update(head=FAR)),
            ("Flaw 5, segment 0.0: ", lambda it: it["segments"][0][0]["cells"][1].__setitem__(1, FAR + 2)),
            ("Flaw 6, the array: The array's counters ", lambda it: it["array"].update(tail=65)),
            ("Flaw 7, actor 2 at Q2: ", lambda it: it["actors"][1].update(t=FAR)),
            ("Flaw 8, actor 2 at Q2: Q1 to Q14: the call ", lambda it: it["actors"][1].update({"pass": 0})),
            (f"Flaw 8, actor 3 at Idle: Idle: {idle}", lambda it: it["actors"][2].update(idx=1)),
        ]
        for said, change in rows:
            with self.subTest(said):
                self.assertEqual(said_of(change)[: len(said)], said)

    def test_the_words_that_are_to_blame_are_named(self) -> None:
        said = said_of(lambda it: it["actors"][1].update(t=FAR))
        self.assertTrue(said.endswith("at most 2^62 + R; the flaw is gone with the t of an idle actor"), said)
        both = said_of(lambda it: it["actors"][1].update(t=FAR, h=FAR))
        self.assertTrue(both.endswith("at most 2^62 + R"), both)

    def test_what_is_no_flaw_is_said_as_the_program_says_it(self) -> None:
        with mock.patch.object(program, "run", lambda _: Ended(1, b"", "lcrqdb: refused 27 BadTrace\n")):
            self.assertEqual(flaws.flaw_in("lcrqdb", trace()), "refused 27 BadTrace")

    def test_a_flaw_that_no_part_has_alone_names_none(self) -> None:
        with tempfile.TemporaryDirectory() as folder, mock.patch.object(program, "run", answers):
            trials = Trials("lcrqdb", trace(), Path(folder))
            self.assertEqual(trials.part_with(3, [*flaws.actor_parts(trials.trace["start"])]), "")
            self.assertEqual(trials.flaw_of(trials.trace["start"]), 0)
