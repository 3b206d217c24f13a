"""Serves the benchmarks of this folder: scripts in files, ways that take turns, rows with the spread of times."""

from collections.abc import Callable, Iterable, Mapping, Sequence
from pathlib import Path
from typing import TypeVar

from lcrq_tools import program
from lcrq_tools.faults import Fault

MOST_STEPS = 65_535
SPREAD = ("Median", "Least", "Greatest")  # the columns of `print_times`

Result = TypeVar("Result")


def lengths(text: str) -> list[int]:
    """The lengths of runs on a command line, with commas between them."""
    return [int(steps) for steps in text.split(",")]


def script_in(file: Path, lines: Iterable[str]) -> Path:
    """The file, with these lines written into it."""
    file.write_text("".join(f"{line}\n" for line in lines), encoding="ascii")
    return file


def watched(name: str, words: Sequence[str], lines: int, keeps: bool = True) -> program.Watched:
    """A run of the program, which has to write so many lines, if they are kept."""
    ended = program.watch(words, keeps=keeps)
    if ended.status or keeps and ended.output.count(b"\n") != lines:
        raise Fault(f"{name}: status {ended.status}, or not {lines} lines; {ended.errors}")
    return ended


def in_turn(ways: Mapping[str, Callable[[], Result]], runs: int) -> dict[str, list[Result]]:
    """What each way gives in several rounds, in each of which every way is taken once."""
    rounds = [{name: way() for name, way in ways.items()} for _ in range(runs)]
    return {name: [results[name] for results in rounds] for name in ways}


def print_times(name: str, times: Sequence[float], form: str, *more: str) -> None:
    """Prints a row with the median, the least and the greatest of times, each in this form."""
    program.print_row(name, *(form.format(time) for time in program.spread_of(times)), *more)
