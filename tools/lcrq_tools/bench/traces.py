"""How long traces of 65,000 events take to be written and to be loaded, in both versions and with 64 bookmarks along
them, and how long origins and last writers take.

    python3 tools/bench.py traces [--program P] [--steps N] [--runs N]

P is the built program. Standard output gets one Markdown table. Seconds are the median of several rounds, in each of
which every row's program runs once, without the time of the same run without what is timed. Peak MiB is the most memory
that the process held in three more runs, looked at all the time (`VmHWM` of /proc). Text is how long the trace is. The
last column compares: version 2 with version 1, and 64 bookmarks along a run with those along a tenth of it, whose text
is a tenth as long. The replies are compared; a row whose replies are others says `wrong`, and the status is 1 then.
Only Python's standard library is used.
"""

import argparse
import functools
import json
import math
import statistics
import subprocess
import tempfile
import time
from collections.abc import Collection, Iterator, Sequence
from pathlib import Path
from typing import NamedTuple

from lcrq_tools import program
from lcrq_tools.bench.measures import in_turn, script_in
from lcrq_tools.bench.random_runs import random_run
from lcrq_tools.faults import Parser
from lcrq_tools.options import add_program

QUERIES = 200
MARKS = 64

Measured = tuple[float, int, int]  # seconds, the most KiB that were held, and the bytes of the text


class Job(NamedTuple):
    """A run of the program over a file on standard input."""

    words: list[str]
    given: Path
    wanted: bytes | None = b""  # what it is to write, if that is compared


class Row(NamedTuple):
    """A row of the table: a job and the one whose time is taken off, the file of the trace, and what the row before is,
    if the two are compared."""

    name: str
    job: str
    base: str
    trace: str
    compared: str = ""


# ---- Traces --------------------------------------------------------------------------------------


def event(line: str) -> list[str | int]:
    """The event of a trace that a line of a script makes."""
    words = line.split()
    values = [int(word) if word.isdigit() else word == "yes" for word in words[1:]]
    return [words[0], *values]


def trace_of(lines: list[str], **members: object) -> str:
    """The text of a trace of these lines, with its other members."""
    members |= {"events": [event(line) for line in lines], "ring": 4}
    return json.dumps(members, sort_keys=True, separators=(",", ":")) + "\n"


def second_trace(lines: list[str], marked: Collection[int]) -> str:
    """A trace of version 2, with a bookmark after each of these numbers of lines."""
    events = [event(line) for line in lines]
    marks = [{"events": events[:count], "name": f"n{count}"} for count in marked]
    return trace_of(lines, marks=marks, start={"fresh": 4}, undone=[], version=2)


# ---- Jobs ----------------------------------------------------------------------------------------


def seconds_of(job: Job) -> float:
    """The seconds of one run; not a number if it went wrong or wrote another text."""
    with tempfile.TemporaryFile() as output, open(job.given, "rb") as given:
        begin = time.perf_counter()
        status = subprocess.Popen(job.words, stdin=given, stdout=output).wait()
        seconds = time.perf_counter() - begin
        output.seek(0)
        good = status == 0 and job.wanted in (None, output.read())
    return seconds if good else math.nan


def peak_of(job: Job) -> int:
    """The most KiB that the process of a run has held: of three runs, since on a loaded machine a look may come too
    late for one."""
    peaks = []
    for _ in range(3):
        with open(job.given, "rb") as given:
            peaks.append(program.watch(job.words, given).peak_kib)
    return max(peaks)


def jobs_of_run(built: str, folder: Path, name: str, lines: list[str], marked: Collection[int]) -> dict[str, Job]:
    """The jobs of a run with a bookmark after each of these numbers of lines: run, written as a trace behind its
    report, and loaded."""
    steps = ((line, f"mark n{number}") if number in marked else (line,) for number, line in enumerate(lines, 1))
    script = script_in(folder / f"{name} script", (line for step in steps for line in step))
    text, run = second_trace(lines, marked), [built, "run", str(script)]
    trace, empty = folder / name, folder / "empty"
    trace.write_text(text, encoding="ascii")
    return {
        f"{name} run": Job(run, empty, None),
        f"{name} written": Job([*run, "--trace"], empty, program.run(run).output + text.encode()),
        f"{name} loaded": Job([built, "load", str(trace)], empty),
    }


def jobs_of(built: str, folder: Path, steps: int) -> dict[str, Job]:
    """The jobs by their names."""
    lines, empty = random_run(steps), script_in(folder / "empty", [])
    first = folder / "first"
    first.write_text(trace_of(lines, actors=4, version=1), encoding="ascii")
    asks = script_in(folder / "asks", ["writer cell 0.0 0", f"origin {steps}"] * QUERIES)
    jobs = {"start": Job([built, "run", str(empty)], empty), "first loaded": Job([built, "load", str(first)], empty)}
    jobs |= jobs_of_run(built, folder, "second", lines, [])
    jobs["asked"] = Job([built, "load", str(folder / "second")], asks, None)
    for part in (10, 1):
        count = steps // part
        marked = dict.fromkeys(count * number // MARKS for number in range(1, MARKS + 1))
        jobs |= jobs_of_run(built, folder, f"marked {part}", lines[:count], marked)
    return jobs


# ---- The table -----------------------------------------------------------------------------------


def rows_of(steps: int) -> Iterator[Row]:
    """The rows of the table."""
    events = f"a trace of {steps:,} events"
    yield Row(f"{events}, version 2, written", "second written", "second run", "second")
    yield Row(f"{events}, version 1, loaded", "first loaded", "start", "first")
    yield Row(f"{events}, version 2, loaded", "second loaded", "start", "second", "of version 1")
    for verb in ("written", "loaded"):
        for part, compared in ((10, ""), (1, "of a tenth")):
            trace = f"marked {part}"
            base = f"{trace} run" if verb == "written" else "start"
            name = f"{MARKS} bookmarks along {steps // part:,} events, {verb}"
            yield Row(name, f"{trace} {verb}", base, trace, compared)
    name = f"{QUERIES} last writers and {QUERIES} origins over {steps:,} events"
    yield Row(name, "asked", "second loaded", "second")


def growth(now: Measured, before: Measured, compared: str) -> str:
    """How many times the time, the memory and the text a row has of the row before."""
    seconds, memory, text = (new / old for new, old in zip(now, before))
    return f"{seconds:.2f} times the time {compared}, {memory:.2f} times its memory, {text:.2f} times its text"


def median_of(times: Sequence[float]) -> float:
    """The median of times; not a number where a run went wrong."""
    return math.nan if any(map(math.isnan, times)) else statistics.median(times)


def print_rows(options: argparse.Namespace, folder: Path) -> bool:
    """Prints the table; returns whether all runs went well."""
    jobs = jobs_of(options.program, folder, options.steps)
    taken = in_turn({name: functools.partial(seconds_of, job) for name, job in jobs.items()}, options.runs)
    medians = {name: median_of(times) for name, times in taken.items()}
    good = True
    before: Measured | None = None
    for row in rows_of(options.steps):
        seconds = medians[row.job] - medians[row.base]
        if math.isnan(seconds):
            good, before = False, None
            program.print_row(row.name, "wrong", "", "", "")
            continue
        now = seconds, peak_of(jobs[row.job]), (folder / row.trace).stat().st_size
        grown = growth(now, before, row.compared) if row.compared and before else ""
        program.print_row(row.name, f"{now[2] / 1e6:.2f}", f"{seconds:.4f}", f"{now[1] / 1024:.1f}", grown)
        before = now
    return good


def main() -> int:
    parser = Parser(__doc__, "--steps 8000 --runs 3")
    add_program(parser)
    parser.add_argument("--steps", type=int, default=65_000)
    parser.add_argument("--runs", type=int, default=9)
    options = parser.parse_args()
    program.print_head("What", "Text, MB", "Seconds", "Peak MiB", "Compared")
    with tempfile.TemporaryDirectory() as path:
        return 0 if print_rows(options, Path(path)) else 1
