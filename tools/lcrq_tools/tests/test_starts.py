"""The start of a trace: what is at its places, how it is asked for, and starts by hand."""

import copy
import json
import unittest
from collections.abc import Callable

from lcrq_tools.port.port_replay import Replay
from lcrq_tools.records import Place
from lcrq_tools.start import starts
from lcrq_tools.start.starts import Asked, Segment, Start, set_content
from lcrq_tools.tests.replay_stub import IDLE, START, Told


def start() -> Start:
    """The start."""
    return copy.deepcopy(START["start"])


class Puts(unittest.TestCase):
    """What is at a place of a start."""

    def test_a_place_has_its_new_content_and_no_other(self) -> None:
        def ring(it: Start) -> Segment:
            return it["segments"][0][0]

        rows: list[tuple[str, str, str, Callable[[Start], object], object]] = [
            ("qhead", "0.0", "2.1", lambda it: it["qhead"], [2, 1]),
            ("qtail", "0.0", "1.0", lambda it: it["qtail"], [1, 0]),
            ("ahead", "0", "3", lambda it: it["array"]["head"], 3),
            ("atail", "0", "4", lambda it: it["array"]["tail"], 4),
            ("head 0.0", "0", "5", lambda it: ring(it)["head"], 5),
            ("tail 0.0", "open 0", "closed 6", lambda it: (ring(it)["closed"], ring(it)["tail"]), (True, 6)),
            ("next 0.0", "none", "1.0", lambda it: ring(it)["next"], [1, 0]),
            ("value 0.0 1", "none", "9", lambda it: ring(it)["cells"][1], [True, 1, 9]),
            ("index 0.0 1", "1 1", "0 3", lambda it: ring(it)["cells"][1], [False, 3, None]),
            ("cell 0.0 1", "1 1 none", "0 3 9", lambda it: ring(it)["cells"][1], [False, 3, 9]),
            ("acell 3", "empty", "value 9", lambda it: it["array"]["cells"], [[3, 9]]),
        ]
        for place, old, new, found, wanted in rows:
            with self.subTest(place):
                made = start()
                set_content(made, Place.read(place), new)
                self.assertEqual(found(made), wanted)
                set_content(made, Place.read(place), old)
                self.assertEqual(made, start())

    def test_slots_of_the_array_stay_in_their_order(self) -> None:
        made = start()
        rows = [("acell 4", "value 9"), ("acell 1", "top"), ("acell 4", "value 8"), ("acell 2", "empty")]
        for place, content in rows:
            set_content(made, Place.read(place), content)
        self.assertEqual(made["array"]["cells"], [[1, "top"], [4, 8]])
        set_content(made, Place.read("acell 1"), "empty")
        self.assertEqual(made["array"]["cells"], [[4, 8]])


class World(Told):
    """A run that has so many segments of each maker, over rings of 2."""

    def __init__(self, counts: list[int]) -> None:
        super().__init__()
        self.counts = counts

    def reply(self, line: str) -> str:
        """The reply to a line."""
        word, *rest = line.split(" ")
        if word == "actor":
            return str(IDLE) if int(rest[0]) < len(self.counts) else "refused 1 NoActor"
        if rest[0] in ("whole", "tail", "head", "next", "cell"):
            maker, number = map(int, rest[1].split("."))
            is_there = number < self.counts[maker] and int(rest[2] if rest[2:] else 0) < 2
            told = {"whole": "exists", "tail": "open 0", "head": "0", "next": "none", "cell": f"1 {rest[-1]} none"}
            return f"is {told[rest[0]]}" if is_there else "refused 19 NoSuchPlace"
        told = {"qhead": "0.0", "qtail": "0.0", "ahead": "0", "atail": "0", "acell": "empty"}
        return f"is {told[rest[0]]}" if int(rest[1] if rest[1:] else 0) < 64 else "refused 19 NoSuchPlace"


class Knowledge(unittest.TestCase):
    """What is asked for in one go."""

    def test_a_start_is_made_of_replies(self) -> None:
        told = World([1, 0, 0])
        self.assertEqual(Asked(told.ask).trace(), START)
        self.assertEqual(Replay.start(told), START)
        self.assertEqual(json.loads(starts.text_of(START))["start"], START["start"])

    def test_segments_are_asked_for_until_one_is_missing(self) -> None:
        for count, asked in ((0, 2), (1, 2), (2, 6), (5, 6), (6, 14), (125, 126), (126, 190)):
            told = World([1, count])
            Asked(told.ask).trace()
            names = [line for line in told.asked if line.startswith("show whole 1.")]
            self.assertEqual((len(names), sum(line.startswith("show tail 1.") for line in told.asked)), (asked, count))

    def test_values_are_those_in_cells_and_in_calls(self) -> None:
        made = start()
        made["segments"][0][0]["cells"][1][2] = 9
        made["actors"] = [starts.with_words(starts.IDLE, {"op": op}) for op in (["enq", 7], ["aenq", 8], ["deq"])]
        self.assertEqual([*starts.values_in(made, ("enq",))], [9, 7])
        self.assertEqual([*starts.values_in(made, ("enq", "aenq"))], [9, 7, 8])


class Starts(unittest.TestCase):
    """Starts by hand."""

    def test_an_idle_actor_is_as_it_is_shown(self) -> None:
        self.assertEqual(starts.actor_of(IDLE), starts.IDLE)

    def test_dequeuers_are_at_the_far_end_of_their_makers_segments(self) -> None:
        text = starts.dequeuers(2, (1, 3), 1)
        start = json.loads(text)["start"]
        self.assertEqual([it["pc"] for it in start["actors"]], ["Q2", "Q2", "Idle"])
        self.assertEqual([it["crq"] for it in start["actors"]], [[1, 0], [3, 0], [0, 0]])
        self.assertEqual([len(it) for it in start["segments"]], [1, 1, 0, 1])
        self.assertEqual([it[0]["tail"] for it in start["segments"] if it], [1, starts.FAR, starts.FAR])
        self.assertEqual(start["segments"][0][0]["cells"], [[True, 0, 7], [True, 1, None]])
        self.assertTrue(text.endswith("}\n"))
