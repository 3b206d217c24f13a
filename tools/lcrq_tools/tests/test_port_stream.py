"""The records of logs as they come: pieces, the order of several logs, names of actors, and beginning again."""

import contextlib
import os
import sys
import unittest
from unittest import mock

from lcrq_tools.port import port_stream
from lcrq_tools.port.port_log import Unreadable
from lcrq_tools.port.port_stream import Actors, HasChoices, Open, OutOfOrder, Source
from lcrq_tools.tests.replay_stub import source


def stamps(made: Source, most: int = 3) -> list[int]:
    """The stamps of all records, of which so many are taken at a time."""
    found: list[int] = []
    while raws := made.some(most):
        found += [raw[0] for raw in raws]
    return found


class Pieces(unittest.TestCase):
    """Logs that are read in pieces."""

    def test_logs_are_merged_by_their_stamps_whatever_the_pieces(self) -> None:
        logs = b"1 a deq\n4 a Q1 p\n5 a Q2 0\n9 a Q3 none\n", b"2 b enq 7\n3 b E1 p\n10 b E2 (nil)\n", b"6 c deq\n"
        for piece in (1, 7, 1000):
            with mock.patch.object(port_stream, "PIECE", piece), source(*logs) as made:
                self.assertEqual(stamps(made), [1, 2, 3, 4, 5, 6, 9, 10])

    def test_records_that_are_put_back_come_next(self) -> None:
        with source(b"1 a deq\n2 a Q1 p\n3 a Q2 0\n") as made:
            taken = made.some(2)
            made.put(taken[1:])
            self.assertEqual((stamps(made), [raw[0] for raw in made.early]), ([2, 3], [1, 2, 3]))

    def test_unusual_lines_are_read_as_well(self) -> None:
        with source("# é\n\n 1 a deq \r\n2\ta  Q1 p;\n3 é deq\n4 a Q2 0".encode()) as made:
            records = [*made.take(9), *made.take(9)]
            self.assertEqual([(it.stamp, it.actor, it.kind) for it in records], [
                (1, 1, "call"), (2, 1, "step"), (3, 2, "call"),
            ])
            cuts = [it.rpartition(".log")[2] for it in made.cuts]
            self.assertEqual(cuts, [":4 ends behind a `;`", ":6 has no line feed and is not compared"])
            self.assertEqual(records[1].where[-2:], ":4")

    def test_stamps_of_two_actors_do_not_meet(self) -> None:
        rows: list[tuple[tuple[bytes, ...], str]] = [
            ((b"1 a deq\n1 a Q1 p\n", b"2 b deq\n"), ""),
            ((b"1 a deq\n3 a Q1 p\n", b"3 b deq\n"), "1.log:1: its stamp meets that of .*0.log:2, by another actor"),
            ((b"1-4 a deq\n2-3 a Q1 p\n", b"5-9 b deq\n"), ""),
            ((b"1-4 a deq\n2-3 a Q1 p\n", b"4-9 b deq\n"), "1.log:1: its stamp meets that of .*0.log:1"),
            ((b"1 a deq\n2 a Q1 p\n2-9 a Q2 0\n10 b deq\n",), ""), ((b"1-3 a deq\n2 b deq\n",), "0.log:2: its"),
        ]
        for logs, said in rows:
            for most in (1, 2, 9):
                with self.subTest(logs), source(*logs) as made:
                    raises: contextlib.AbstractContextManager[object] = contextlib.nullcontext()
                    with self.assertRaisesRegex(Open, said) if said else raises:
                        stamps(made, most)

    def test_a_pipe_gives_what_it_has(self) -> None:
        read, write = os.pipe()
        with os.fdopen(read, "rb") as pipe, os.fdopen(write, "wb", buffering=0) as end:
            with mock.patch.object(sys, "stdin", mock.Mock(buffer=pipe)):
                made = Source(["-"])
                self.assertEqual(made.some(9, waits=False), [])
                end.write(b"1 a deq\n2 a Q")
                self.assertEqual([raw[2] for raw in made.some(9, waits=False)], [b"1 a deq"])
                end.write(b"1 p\n")
                self.assertEqual([raw[2] for raw in made.some(9)], [b"2 a Q1 p"])


class Again(unittest.TestCase):
    """Logs that have to be read again."""

    def test_stamps_that_go_down_are_sorted(self) -> None:
        with source(b"3 a Q1 p\n1 a deq\n", b"2 b deq\n") as made:
            with self.assertRaises(OutOfOrder) as raised:
                stamps(made)
            made.again(raised.exception)
            self.assertEqual(stamps(made), [1, 2, 3])

    def test_the_rest_of_a_file_is_looked_at(self) -> None:
        with mock.patch.object(port_stream, "PIECE", 10), source(b"1 a deq\n2 a Q1 p\n3 a Q2 0\n4 a E10 no\n") as made:
            made.some(1)
            made.check_rest(has_choices=True)
            with self.assertRaises(HasChoices):
                made.check_rest(has_choices=False)
        with mock.patch.object(port_stream, "PIECE", 10), source(b"1 a deq\n2 a Q1 p\n4 a Q2 0\n3 a Q3 1\n") as made:
            made.some(1)
            with self.assertRaises(OutOfOrder):
                made.check_rest(has_choices=True)

    def test_stamps_that_meet_may_do_so_when_an_order_is_to_be_found(self) -> None:
        for logs in ((b"1-9 a deq\n2 b deq\n",), (b"3 b Q1 p\n2 b deq\n", b"1-9 a deq\n")):
            with source(*logs) as made:
                while not made.is_open:
                    try:
                        stamps(made)
                    except OutOfOrder as fault:
                        made.again(fault)
                found = [(it.stamp, it.after, it.actor) for it in made.whole()]
                self.assertEqual(found, [(1, 9, 1), (2, 2, 2), (3, 3, 2)][: len(found)])

    def test_stamps_that_meet_in_the_rest_are_found_before_a_difference_is_told(self) -> None:
        for rest in (b"5 a Q3 1\n5 b deq\n", b"5-9 a Q3 1\n6-7 b deq\n"):
            with mock.patch.object(port_stream, "PIECE", 10), source(b"1 a deq\n2 a Q1 p\n" + rest) as made:
                made.some(1)
                with self.assertRaises(Open):
                    made.check_rest(has_choices=True)
                self.assertEqual((made.logs[0].has_two, made.cuts), (False, []))

    def test_the_rest_is_as_before_when_it_was_looked_at(self) -> None:
        logs = b"1 a deq\n2 a Q1 p\n", b"3 b deq\n4 b Q1 p\n"
        with mock.patch.object(port_stream, "PIECE", 10), source(*logs) as made:
            made.some(1)
            made.check_rest(has_choices=False)
            self.assertEqual(stamps(made), [2, 3, 4])

    def test_a_pipe_with_two_stamps_is_held(self) -> None:
        log = b"1-2 a deq\n3-4 a Q1 p\n5-6 a Q2 0\n6-7 b deq\n"
        with mock.patch.multiple(port_stream, PIECE=11, AGAIN=3), source(log) as made:
            made.logs[0].is_file = False
            with self.assertRaises(Open) as raised:
                stamps(made, 1)
            made.again(raised.exception)
            self.assertEqual(stamps(made), [1, 3, 5, 6])
        with mock.patch.multiple(port_stream, PIECE=11, AGAIN=3), source(log.replace(b"-2", b"")) as made:
            made.logs[0].is_file = False
            with self.assertRaises(Open) as raised:
                stamps(made, 1)
            with self.assertRaisesRegex(Unreadable, "no pipe is read twice"):
                made.again(raised.exception)

    def test_only_the_begin_of_a_pipe_is_read_again(self) -> None:
        with source(b"1 a deq\n2 a Q1 p\n") as made:
            made.logs[0].is_file = False
            made.some(1)
            made.again(HasChoices("late"))
            self.assertEqual(stamps(made), [1, 2])
            refuses = self.assertRaisesRegex(Unreadable, "down: no pipe is read")
            with mock.patch.object(port_stream, "AGAIN", 3), refuses:
                made.again(OutOfOrder("down"))


class Numbers(unittest.TestCase):
    """The numbers of the actors."""

    def test_numbers_stay_and_names_are_numbered_as_they_come(self) -> None:
        rows = {
            (b"3", b"16", b"1"): ([3, 16, 1], []), (b"b", b"2", b"a"): ([1, 2, 3], ["b is 1", "2 is 2", "a is 3"]),
            (b"2", b"x", b"1"): ([2, 1, 3], ["x is 1", "2 is 2", "1 is 3"]),
        }
        for names, (numbers, said) in rows.items():
            actors = Actors()
            self.assertEqual(([actors.number(name) for name in names], actors.named()), (numbers, said))

    def test_a_world_has_no_more(self) -> None:
        actors = Actors()
        with self.assertRaisesRegex(Unreadable, "^the logs have 17 actors, and a world has 16 at most$"):
            [actors.number(b"t%d" % at) for at in range(17)]
        actors = Actors()
        actors.limit = 2
        with self.assertRaisesRegex(Unreadable, "^the logs have an actor 3, and the trace 2 actors$"):
            actors.number(b"3")
