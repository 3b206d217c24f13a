"""What benchmarks make and print, with made-up times and runs in the place of the program's."""

import contextlib
import io
import itertools
import math
import tempfile
import unittest
from pathlib import Path

from lcrq_tools.bench import commands, measures, slowest, traces
from lcrq_tools.bench.commands import Job, Measure
from lcrq_tools.faults import Fault
from lcrq_tools.program import Watched


class Measures(unittest.TestCase):
    """What all benchmarks share."""

    def test_ways_take_turns(self) -> None:
        turns = itertools.count(1)
        ways = {name: turns.__next__ for name in "ab"}
        self.assertEqual(measures.in_turn(ways, 2), {"a": [1, 3], "b": [2, 4]})

    def test_a_row_has_the_spread_of_times(self) -> None:
        output = io.StringIO()
        with contextlib.redirect_stdout(output):
            measures.print_times("a", [3.0, 1.0, 2.0], "{:.1f} s", "9 MiB")
        self.assertEqual(output.getvalue(), "| a | 2.0 s | 1.0 s | 3.0 s | 9 MiB |\n")
        self.assertEqual(measures.lengths("100,200"), [100, 200])

    def test_a_run_writes_as_many_lines_as_are_wanted(self) -> None:
        self.assertEqual(measures.watched("echo", ["echo", "a"], 1).output, b"a\n")
        self.assertEqual(measures.watched("echo", ["echo", "a"], 9, keeps=False).output, b"")
        with self.assertRaisesRegex(Fault, "^echo: status 0, or not 2 lines; $"):
            measures.watched("echo", ["echo", "a"], 2)

    def test_a_script_is_written_line_by_line(self) -> None:
        with tempfile.TemporaryDirectory() as folder:
            self.assertEqual(measures.script_in(Path(folder) / "a", ["len", "undo"]).read_bytes(), b"len\nundo\n")


class Commands(unittest.TestCase):
    """The rows of commands."""

    def test_lines_are_timed_behind_a_script(self) -> None:
        base = Job("a", 2, ["deq 5", "go 5"], 2, actors=16)
        job = base.then("b", ["undo"], "at 1 1")
        self.assertEqual((job.lines, job.timed, job.steps, job.actors), (["deq 5", "go 5", "undo"], 1, 2, 16))
        self.assertIs(job.base, base)

    def test_replies_are_checked(self) -> None:
        job = Job("a", 1, ["deq 1", "undo"], 1, last="at 0 1")
        rows = [
            (b"ok 1\nat 0 1\n", 0, ""), (b"ok 1\n", 0, "wrong: 1 replies to 2 lines"), (b"", 1, "wrong status"),
            (b"ok 1\nat 1 0\n", 0, "wrong: last reply 'at 1 0', 'at 0 1' wanted"),
            (b"ok 1\nrefused 9 Nothing\n", 0, "wrong: 1 refused, 0 wanted"),
        ]
        for output, status, fault in rows:
            self.assertEqual(commands.fault_in(job, Watched(0.1, 9, status, output, "", True)), fault)
        self.assertEqual(commands.fault_in(job, Watched(0.1, 9, 0, b"", "", False)), "too long")

    def test_a_row_is_compared_with_the_shorter_one(self) -> None:
        job, shorter = Job("a", 2000, [], 100), Measure(0.25, 1024)
        cells = commands.cells_of(job, Measure(0.5, 2048, spread=0.1), shorter)
        self.assertEqual(cells, ("a", "2,000", "100", "0.5000", "200", "2.0", "2.0", "2.0", "0%"))
        cells = commands.cells_of(job, Measure(0.0, 0.0, spread=0.1), shorter)
        self.assertEqual(cells, ("a", "2,000", "100", "<0.1000", "", "", "", "", "0%"))
        cells = commands.cells_of(job, Measure(fault="too long"), shorter)
        self.assertEqual(cells, ("a", "2,000", "100", "too long", "", "", "", "", ""))


class Slowest(unittest.TestCase):
    """The runs of single lines."""

    def test_runners_take_turns(self) -> None:
        self.assertEqual(slowest.in_turn(3, 5), [1, 2, 3, 1, 2])
        self.assertEqual(slowest.in_stretches(8, 128)[:5], [1, 1, 2, 2, 3])
        for run in slowest.RUNS.values():
            self.assertEqual(len(run.whole(1000)), 1000)


class Traces(unittest.TestCase):
    """Traces and the rows over them."""

    def test_a_trace_has_the_events_of_its_lines(self) -> None:
        text = '{"events":[["enq",1,7],["starve",1,true]],"marks":[{"events":[["enq",1,7]],"name":"n1"}],"ring":4,' \
            '"start":{"fresh":4},"undone":[],"version":2}\n'
        self.assertEqual(traces.second_trace(["enq 1 7", "starve 1 yes"], [1]), text)

    def test_a_run_that_went_wrong_has_no_median(self) -> None:
        self.assertEqual(traces.median_of([3.0, 1.0, 2.0]), 2.0)
        self.assertTrue(math.isnan(traces.median_of([1.0, math.nan])))
        self.assertEqual(len([*traces.rows_of(1000)]), 8)
