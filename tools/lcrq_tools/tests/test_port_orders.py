"""Orders of records whose stamps leave it open: which are tried, what is found, and what the search leaves out."""

import itertools
import random
import unittest
from collections import Counter
from collections.abc import Sequence

from lcrq_tools import dependence, model
from lcrq_tools.port import port_touches
from lcrq_tools.port.port_log import Record
from lcrq_tools.port.port_orders import Search, Tried, open_records
from lcrq_tools.tests.replay_stub import records_of

KINDS = {"QHead": "qhead", "QTail": "qtail", "ArrHead": "ahead", "ArrTail": "atail", "ArrCell": "acell"}
HALVES = {"cas2": "cell", "value": "value", "index": "index"}
WRITING = ("add", "cas", "cas_tail", "cas2", "close", "make", "swap")


class Counters:
    """A run over counters: `tail S; wrote; 3` adds 1 to one that has 3, `tail S; read; 3` reads it."""

    def __init__(self, room: int = 1000) -> None:
        self.counts: Counter[str] = Counter()
        self.made: list[str] = []  # the counters to which was added, nothing for a read
        self.room = room
        self.seen: list[Record] = []

    def go(self, record: Record) -> Tried:
        """Goes on by a record."""
        self.seen.append(record)
        place, is_read = " ".join(record.place), record.access == ("read",)
        itself = (f"actor {record.actor}",)
        step = dependence.Step("", place, (place, *itself), itself if is_read else (place, *itself), "")
        if record.place and str(self.counts[place]) != record.answer[0]:
            return Tried(False, step)
        self.made.append("" if is_read else place)
        self.counts[place] += not is_read
        return Tried(True, step, is_read)

    def back(self) -> None:
        """Takes the last record back."""
        place = self.made.pop()
        self.counts[place] -= bool(place)

    def key(self) -> int:
        """What equal counters have in common."""
        return hash(frozenset((place, count) for place, count in self.counts.items() if place and count))

    def learns(self) -> bool:
        """Whether a segment has no name."""
        return False

    def settle(self) -> bool:
        """Whether there was no more room."""
        is_full = len(self.made) >= self.room
        if is_full:
            self.made.clear()
        return is_full


def log_of(*texts: str) -> list[Record]:
    """The records of a log, in the order of their first stamps."""
    return sorted(records_of(*texts), key=lambda record: record.stamp)


def agrees_in_some_order(records: Sequence[Record]) -> bool:
    """Whether counters agree in one of all orders, each of which is tried."""
    for order in itertools.permutations(records):
        run, pairs = Counters(), [*itertools.combinations(order, 2)]
        is_late = any(then.after < first.stamp for first, then in pairs)
        own = [(records.index(first), records.index(then)) for first, then in pairs if first.actor == then.actor]
        if not is_late and all(first < then for first, then in own) and all(run.go(it).agrees for it in order):
            return True
    return False


class Open(unittest.TestCase):
    """Which records meet one of another actor."""

    def test_stamps_that_meet_are_open(self) -> None:
        rows = [
            (("1 1 deq", "2 2 deq"), 0),
            (("1 1 deq", "1 2 deq"), 2),
            (("1 1 deq", "1 1 Q1"), 0),
            (("1-3 1 deq", "3-4 2 deq", "5 2 Q1"), 2),
            (("1-9 1 deq", "2 2 deq", "3 2 Q1", "10 2 Q2"), 3),
            (("1-2 1 deq", "3-4 2 deq"), 0),
        ]
        for texts, wanted in rows:
            with self.subTest(texts):
                self.assertEqual(open_records(log_of(*texts)), wanted)


class Kinds(unittest.TestCase):
    """What is known of records that come later."""

    def test_the_labels_are_those_of_the_page_with_their_places(self) -> None:
        reads: dict[str, str] = {}
        writes: dict[str, str] = {}
        for label, step in model.read(model.PAGE.read_text(encoding="utf-8"))[0].items():
            first = step.body[0]
            sentence = first if isinstance(first, model.Sentence) else first.conditions[0]
            place = sentence.parts.get("place", "").removeprefix("the counter of ").partition("(")[0]
            kind = "whole" if sentence.form == "make" else HALVES.get(sentence.form, KINDS.get(place, place.lower()))
            if kind:
                (writes if sentence.form in WRITING else reads)[label] = kind
        self.assertEqual(port_touches.READ_BY, reads)
        self.assertEqual(port_touches.TOUCHED_BY, reads | writes)

    def test_a_making_whose_name_was_there_gives_it_another_meaning(self) -> None:
        texts = ["1 1 E1 p", "2 1 E12 made q", "3 2 E12 made p", "4 2 E13 won"]
        self.assertEqual(port_touches.renaming(log_of(*texts)), {2})


class Orders(unittest.TestCase):
    """What the search finds."""

    def found(self, *texts: str, tries: int = 1000) -> tuple[list[int], int, bool]:
        """The first stamps in the order found, how many agree, and whether all orders were tried."""
        found = Search(Counters(), log_of(*texts), 4, tries).found()
        return [record.stamp for record in found.records], found.count, found.is_whole

    def test_records_that_overlap_change_places_where_they_must(self) -> None:
        texts = ("1-5 1 tail p; wrote; 1", "2-6 2 tail p; wrote; 0", "7 1 tail p; read; 2")
        self.assertEqual(self.found(*texts), ([2, 1, 7], 3, True))

    def test_records_that_do_not_overlap_stay(self) -> None:
        texts = ("1-2 1 tail p; wrote; 1", "3-4 2 tail p; wrote; 0")
        self.assertEqual(self.found(*texts), ([1, 3], 0, True))

    def test_a_read_goes_before_a_later_write_of_its_place(self) -> None:
        texts = ("1-3 2 tail p; wrote; 0", "2-9 1 tail p; read; 0")
        self.assertEqual(self.found(*texts), ([2, 1], 2, True))

    def test_a_wrong_guess_is_taken_back(self) -> None:
        texts = ("1-9 1 tail p; wrote; 0", "1-9 1 tail q; wrote; 0", "2-9 2 tail q; wrote; 1", "3-9 3 tail p; read; 0")
        found, count, _ = self.found(*texts)
        self.assertEqual((found[0], count), (3, 4))

    def test_the_order_that_came_furthest_has_the_others_behind_it(self) -> None:
        texts = ("1-9 1 tail p; wrote; 0", "2-9 2 tail p; wrote; 5", "3-9 3 tail p; read; 1")
        self.assertEqual(self.found(*texts), ([1, 3, 2], 2, True))

    def test_a_search_ends_after_so_many_tries(self) -> None:
        texts = [f"{at}-99 {at} tail p; wrote; 9" for at in range(1, 9)]
        self.assertEqual(self.found(*texts, tries=3)[1:], (0, False))
        self.assertEqual(self.found(*texts)[1:], (0, True))

    def test_what_can_not_be_taken_back_is_no_proof(self) -> None:
        texts = ("1-9 1 tail p; wrote; 0", "2-9 2 tail p; read; 1", "3-9 3 tail p; read; 2")
        found = Search(Counters(room=1), log_of(*texts), 4, 1000).found()
        self.assertEqual((found.count, found.is_whole), (2, False))

    def test_independent_records_are_tried_in_one_order_alone(self) -> None:
        texts = [f"{at}-99 {at} tail p{at}; wrote; 0" for at in range(1, 9)]
        run = Counters()
        found = Search(run, log_of(*texts, "100 9 tail q; read; 7"), 4, 1000).found()
        self.assertEqual((found.count, found.is_whole, len(run.seen)), (8, True, 9))

    def test_it_finds_what_trying_all_orders_finds(self) -> None:
        chance, agreeing = random.Random(1), 0
        for _ in range(120):
            counts, texts = Counter[str](), []
            for at in range(1, 7):
                place, access = chance.choice("pq"), chance.choice(["read", "wrote"])
                stamp = f"{at - chance.randint(0, 1)}-{at + chance.randint(0, 4)}"
                found = counts[place] + (chance.random() < 0.1)
                texts.append(f"{stamp} {chance.randint(1, 3)} tail {place}; {access}; {found}")
                counts[place] += access == "wrote"
            records = log_of(*texts)
            order = Search(Counters(), records, 4, 10_000).found()
            agrees = agrees_in_some_order(records)
            agreeing += agrees
            self.assertEqual((order.count == len(records), order.is_whole), (agrees, True), texts)
        self.assertTrue(20 < agreeing < 100, agreeing)
