"""The slowest line of each command at several lengths of runs, over runs that are hard in different ways.

    python3 tools/bench.py slowest [--program P] [--runs N] [--lengths N,N,..] [--limit MS] [--processor]
        [--only LETTERS] [--seconds N]

P is the built program. It is driven line by line: a line is written, its one reply is waited for, and what that takes
is the line's time, not a share of the time of a whole run. The rule is that no line takes more than 50 ms at 65,535
steps, whatever the run. The runs have letters:

    a   four actors by chance, with calls of both kinds
    b   eight actors that dequeue, each on its own segment, in turn: no step depends on another
        actor's
    c   the same in 64 stretches, each of one actor
    d   eight actors by chance that dequeue on one segment
    e   eight actors by chance that only enqueue, over rings of two cells, so that rings close and
        segments are made all the time
    f   sixteen actors, twelve of which dequeue by chance on two segments of two cells

After each run the session asks, undoes and redoes each step, undoes steps alone, rolls back a step of each actor, goes
back and forth, sets bookmarks, goes from one to another, compares them and drops them; and it makes the run anew in
another order of independent steps, the latest first. A session is driven several times, and the time of each of its
lines is the median. All replies are checked, those of `show`, `actor`, `step` and `origin` by how they begin; and for
that it is worked out anew which steps depend on which (dependence.py).

Standard output gets three Markdown tables, in milliseconds. The first one has for each command its slowest line at each
length with the letter of the run on which it was, and how many times as long that is as at the next smaller length. The
second one has the same for `same` and `roll` on run b alone: in bold is what takes over a millisecond, and more than
2.3 times as long for twice the steps. The third one has each line that took longer than the limit at the greatest
length. Times are from end to end, with the processor's time of the same line beside them; with --processor the other
way round. Last comes the share of the time with work that the machine's host gave to others. Standard error gets what
is being measured.

The status is 1 if a line at the greatest length took longer than the limit, or if a reply is wrong. Only Python's
standard library is used.
"""

import argparse
import gc
import itertools
import math
import random
import statistics
import sys
import tempfile
from array import array
from collections.abc import Callable, Iterable, Sequence
from dataclasses import dataclass
from pathlib import Path
from typing import TypeVar

from lcrq_tools import dependence, program
from lcrq_tools.bench.measures import MOST_STEPS, lengths
from lcrq_tools.bench.random_runs import SEED, random_run
from lcrq_tools.faults import Parser
from lcrq_tools.options import add_program
from lcrq_tools.program import Broken, Driven
from lcrq_tools.start.starts import dequeuers

FEWEST_STEPS = 1000
STRETCHES = 64
SPARES = 4  # actors after the runners of each run, which make nine of its steps
SPARE_STEPS = 9
MOST_GROWTH = 2.3  # times as long for twice the steps
APART, COMPARED = "b", ("`same", "`roll")  # the run of the second table, and how its rows begin

STEP = "a step"
DISCARDS = "a step that discards what was undone"
UNDO, REDO, BACK, FORWARD = "`undo`", "`redo`", "`back N`", "`forward N`"
MARK, DROP = "`mark`", "`drop`"
ALONG, ACROSS = "`goto` along a run", "`goto` another order of a run"
UNEQUAL = "`same` of lists that differ at the end"

Key = TypeVar("Key")

# ---- Runs ----------------------------------------------------------------------------------------


def in_turn(runners: int, steps: int, length: int = 1) -> list[int]:
    """Turns of the runners, each of so many steps."""
    return [number // length % runners + 1 for number in range(steps)]


def in_stretches(runners: int, steps: int) -> list[int]:
    """Turns of the runners, each of a sixty-fourth of all steps."""
    return in_turn(runners, steps, steps // STRETCHES)


def by_chance(runners: int, steps: int) -> list[int]:
    """Turns of the runners by chance."""
    source = random.Random(SEED)
    return [source.randint(1, runners) for _ in range(steps)]


@dataclass
class Run:
    """A run over the fresh world, whose runners call by chance, this share of the calls enqueues; or, with makers, over
    a start by hand in which the runners dequeue on these makers' segments by turns."""

    runners: int
    ring: int
    enqueues: float = 0.0
    turns: Callable[[int, int], list[int]] = by_chance
    makers: Sequence[int] = ()

    def words(self, folder: Path) -> list[str]:
        """The words after the program's name, for lines on standard input."""
        if not self.makers:
            return ["run", "-", "--actors", str(self.runners + SPARES), "--ring", str(self.ring)]
        trace = folder / "start.trace"
        trace.write_text(dequeuers(self.ring, self.makers, SPARES), encoding="ascii")
        return ["load", str(trace)]

    def whole(self, steps: int) -> list[str]:
        """The lines of this many steps: the runners', a step on which nothing depends as number 2 and another in the
        middle, and a call as number 3 that goes on only at the end, where it takes a value if there is one. The last
        step can be exchanged for another."""
        free, middle, late, last = range(self.runners + 1, self.runners + SPARES + 1)
        count, half = steps - SPARE_STEPS, steps // 2
        if self.makers:
            lines = [f"go {runner}" for runner in self.turns(self.runners, count)]
        else:
            lines = random_run(count, self.enqueues, self.runners, self.ring)
        front = [lines[0], f"deq {free}", f"deq {late}"]
        return front + lines[1:half] + [f"deq {middle}"] + lines[half:] + [f"go {late}"] * 5 + [f"enq {last} 1"]


RUNS = {
    "a": Run(4, 4, enqueues=0.5),
    "b": Run(8, 4, turns=in_turn, makers=range(1, 9)),
    "c": Run(8, 4, turns=in_stretches, makers=range(1, 9)),
    "d": Run(8, 4, makers=[1] * 8),
    "e": Run(8, 2, enqueues=1.0),
    "f": Run(12, 2, makers=[1, 2] * 6),
}


def steps_of(words: list[str], run: Run, count: int) -> list[dependence.Step]:
    """The steps of a run of this length, from their records."""
    lines = run.whole(count) + [f"step {number}" for number in range(1, count + 1)]
    ended = program.run(words, program.script_of(lines))
    replies = ended.output.decode().splitlines()
    refused = next((f"{line}: {reply}" for line, reply in zip(lines, replies) if reply.startswith("refused")), "")
    if ended.status or refused or len(replies) != 2 * count:
        fault = refused or ended.errors.strip()
        raise Broken(f"status {ended.status}, {len(replies)} replies to {len(lines)} lines, {fault}")
    return [dependence.step_of(record, run.ring) for record in replies[count:]]


# ---- Sessions ------------------------------------------------------------------------------------


@dataclass
class Line:
    """A line of a session: its row in the table, its text and its reply, or, where that ends with a space, how its
    reply begins."""

    row: str
    text: str
    wanted: str

    def fits(self, reply: str) -> bool:
        """Whether this is the reply."""
        return reply.startswith(self.wanted) if self.wanted.endswith(" ") else reply == self.wanted


class Session:
    """The lines of a session over a run. Each method adds some; between them the run is live as it was made, with none
    undone."""

    def __init__(self, run: Run, steps: list[dependence.Step]) -> None:
        self.run, self.steps, self.count = run, steps, len(steps)
        self.lines: list[Line] = []
        self.make(steps)
        self.ask()
        self.walk()
        self.compare_equal()
        self.undo_alone()
        self.roll_back()
        self.make_another_order()
        self.go_along()
        self.drop("run")

    def say(self, row: str, text: str, wanted: str) -> None:
        """Adds a line."""
        self.lines.append(Line(row, text, wanted))

    def move(self, row: str, text: str, undone: int = 0, live: int | None = None) -> None:
        """Adds a line that moves steps, and leaves this many undone; and live, if these are not all others."""
        self.say(row, text, f"at {self.count - undone if live is None else live} {undone}")

    def drop(self, *names: str) -> None:
        """Adds lines that drop these bookmarks."""
        for name in names:
            self.say(DROP, f"drop {name}", "dropped")

    def make(self, steps: list[dependence.Step], first: str = STEP) -> None:
        """Makes these steps, the first of the run."""
        for number, step in enumerate(steps, 1):
            self.say(first if number == 1 else STEP, step.line, f"ok {number}{step.ended}")

    def places(self) -> list[str]:
        """Some places that there are: of the root, and those of steps here and there."""
        root = ["qhead", "qtail", "head 0.0", "tail 0.0", "next 0.0", "cell 0.0 0", "whole 0.0", "ahead", "acell 63"]
        others = {self.steps[self.count * part // 16].place for part in range(16)} - {"-"}
        return root + sorted(others - set(root))

    def ask(self) -> None:
        """Queries."""
        self.move("`len`", "len")
        for actor in (1, self.run.runners):
            self.say("`actor`", f"actor {actor}", "actor ")
        for number in (1, self.count // 2, self.count):
            self.say("`step`", f"step {number}", f"step {number}; {self.steps[number - 1].line}; ")
        for place in self.places():
            self.say("`show`", f"show {place}", "is ")
            writer = dependence.last_writer(self.steps, place, self.run.ring)
            self.say("`writer`", f"writer {place}", f"writer {writer or 'none'}")
        takes = [number for number, step in enumerate(self.steps, 1) if step.ended.startswith(" value")]
        for number in {*takes[:1], *takes[-1:]}:
            self.say("`origin`", f"origin {number}", "origin call ")

    def walk(self) -> None:
        """Undoes and redoes all steps, one by one and at once."""
        for undone in range(1, self.count + 1):
            self.move(UNDO, "undo", undone)
        for undone in reversed(range(self.count)):
            self.move(REDO, "redo", undone)
        self.move(BACK, f"back {self.count}", self.count)
        self.move(FORWARD, f"forward {self.count}")

    def compare_equal(self) -> None:
        """Sets a bookmark at the run, and compares it with itself."""
        for name in ("run", "equal"):
            self.say(MARK, f"mark {name}", f"marked {self.count}")
        self.say("`same` of equal lists", "same run equal", "same yes")
        self.drop("equal")

    def compare(self, row: str, drops: bool = True) -> None:
        """Compares the live steps, which are the run in another order, with it, and goes to and fro between the two."""
        self.say(MARK, "mark other", f"marked {self.count}")
        self.say(row, "same run other", "same yes")
        self.say(row, "same other run", "same yes")
        for name in ("run", "other", "run"):
            self.move(ACROSS, f"goto {name}")
        if drops:
            self.drop("other")

    def undo_alone(self) -> None:
        """Undoes steps alone and redoes them: at the front, in the middle and at the end; and is refused."""
        for number in (1, 3):
            refused = f"refused 13 Depended {dependence.first_dependant(self.steps, number)}"
            self.say("`undo K`, refused", f"undo {number}", refused)
        middle = self.count // 2 + 3
        for where, number in (("at the front", 2), ("in the middle", middle), ("the last step", self.count)):
            self.move(f"`undo K`, {where}", f"undo {number}", 1)
            self.move(REDO, "redo")
            if number != self.count:
                self.compare("`same`, a step undone alone and redone")

    def rolled(self) -> dict[int, str]:
        """The numbers of the steps that are rolled back, each with its row: the first one, one in the middle, and one
        of each actor, which is the later the greater the actor's number is."""
        runners, found = self.run.runners, {1: "`roll 1`", self.count // 2: "`roll` of a step in the middle"}
        for actor in range(1, runners + 1):
            begin = self.count * (actor - 1) // runners
            own = (f"actor {actor}" in step.wrote for step in self.steps[begin:])
            number = next((number for number, is_own in enumerate(own, begin + 1) if is_own), 1)
            found.setdefault(number, "`roll` of a step of each actor")
        return found

    def roll(self, row: str, number: int) -> int:
        """Rolls a step back, and returns how many are undone then."""
        undone = len(dependence.closure(self.steps, number))
        self.move(row, f"roll {number}", undone)
        return undone

    def roll_back(self) -> None:
        """Rolls steps back and redoes them; and once goes on with another step instead."""
        for number, row in self.rolled().items():
            undone = self.roll(row, number)
            self.move(FORWARD, f"forward {undone}")
            self.compare("`same`, steps rolled back and redone")
        undone = self.roll("`roll 1`", 1)
        self.say(DISCARDS, f"go {self.run.runners + SPARES}", f"ok {self.count - undone + 1}")
        self.move(ACROSS, "goto run")

    def make_another_order(self) -> None:
        """Makes the run anew in another order, compares and goes to and fro; then another last step, which makes it
        another run."""
        order = dependence.latest_first(self.steps[:-1]) + self.steps[-1:]
        self.move(BACK, f"back {self.count}", self.count)
        self.make(order, DISCARDS)
        self.compare("`same` of two orders", drops=False)
        self.move(ACROSS, "goto other")
        self.move(UNDO, "undo", 1)
        self.say(DISCARDS, f"enq {self.run.runners + SPARES} 2", f"ok {self.count}")
        self.say(MARK, "mark last", f"marked {self.count}")
        for names in ("run last", "last run", "other last"):
            self.say(UNEQUAL, f"same {names}", "same no")
        self.move(ACROSS, "goto run")
        self.drop("last", "other")

    def go_along(self) -> None:
        """Sets bookmarks along the run, and goes from each to each."""
        live = {"start": 0, "middle": self.count // 2, "near": self.count - 1}
        for name, length in live.items():
            self.move(BACK, f"back {self.count - length}", self.count - length)
            self.say(MARK, f"mark {name}", f"marked {length}")
            self.move(FORWARD, f"forward {self.count - length}")
        self.say(UNEQUAL, "same run near", "same no")
        live["run"] = self.count
        for name in "start run middle run near run near middle start middle near start run".split():
            self.move(ALONG, f"goto {name}", live=live[name])
        self.drop("start", "middle", "near")


# ---- Measures ------------------------------------------------------------------------------------


@dataclass
class Timed:
    """A line of a session over a run, and its milliseconds by the clock that counts and by the other one."""

    letter: str
    line: Line
    ms: float
    other: float


Column = dict[tuple[str, str], Timed]  # at a length the slowest line of each run's letter and row


def driven_once(words: list[str], lines: list[Line], seconds: float) -> "tuple[array[float], array[float]]":
    """What each line of a session took, from end to end and of the processor."""
    wholes, processors = array("d"), array("d")
    with Driven(words, seconds) as driven:
        for line in lines:
            reply, whole, processor = driven.ask(line.text)
            if not line.fits(reply):
                raise Broken(f"`{line.text}` has the reply `{reply}`, wanted `{line.wanted}`")
            wholes.append(whole)
            processors.append(processor)
        if status := driven.end():
            raise Broken(f"the status is {status}")
    return wholes, processors


def timed(options: argparse.Namespace, letter: str, count: int, folder: Path) -> list[Timed]:
    """The lines of a session over a run of this length, each with the medians of what it took."""
    run = RUNS[letter]
    words = [options.program, *run.words(folder)]
    lines = Session(run, steps_of(words, run, count)).lines
    print(f"run {letter}, {count} steps, {len(lines)} lines", file=sys.stderr, flush=True)
    sessions = [driven_once(words, lines, options.seconds) for _ in range(options.runs)]
    clocks = [[statistics.median(times) for times in zip(*clock)] for clock in zip(*sessions)]
    if options.processor:
        clocks.reverse()
    return [Timed(letter, line, ms, other) for line, ms, other in zip(lines, *clocks)]


def slowest(lines: Iterable[Timed], key: Callable[[Timed], Key]) -> dict[Key, Timed]:
    """Of the lines of each key the slowest."""
    found: dict[Key, Timed] = {}
    for line in lines:
        found[key(line)] = max(found.get(key(line), line), line, key=lambda timed: timed.ms)
    return found


# ---- The tables ----------------------------------------------------------------------------------


def shown(ms: float) -> str:
    """Milliseconds."""
    return f"{ms:,.0f}" if ms >= 100 else f"{ms:.1f}" if ms >= 10 else f"{ms:.2f}"


def print_table(options: argparse.Namespace, columns: list[dict[str, Timed]], tells_growth: bool = False) -> None:
    """Prints a table of the slowest lines of each row, with a column for each length."""
    pairs = list(itertools.pairwise(options.lengths))
    heads = [f"{count:,} steps, ms" for count in options.lengths] + [f"{many:,} / {few:,}" for few, many in pairs]
    heads += [f"{options.other_clock}, ms", "Line"]
    program.print_head("Command", *heads)
    for name in columns[0]:
        row = [column[name] for column in columns if name in column]
        if len(row) < len(columns):
            continue  # a short run may have no such line
        cells = [f"{shown(line.ms)} {line.letter}" for line in row]
        for counts, (old, new) in zip(pairs, itertools.pairwise(row)):
            most = MOST_GROWTH ** math.log2(counts[1] / counts[0])  # times as long
            bold = "**" if tells_growth and new.ms > 1 and new.ms / old.ms > most else ""
            cells.append(f"{bold}{new.ms / old.ms:.1f}{bold}")
        program.print_row(name, *cells, shown(row[-1].other), f"`{row[-1].line.text}`")
    print(flush=True)


def print_long(options: argparse.Namespace, lines: list[Timed]) -> None:
    """Prints the lines that took longer than the limit."""
    print(f"Lines of more than {options.limit:g} ms at {options.lengths[-1]:,} steps: {len(lines) or 'none'}\n")
    if not lines:
        return
    program.print_head("Run", "Line", "Command", "ms", f"{options.other_clock}, ms")
    for line in sorted(lines, key=lambda line: -line.ms):
        program.print_row(line.letter, f"`{line.line.text}`", line.line.row, shown(line.ms), shown(line.other))
    print()


def measured(options: argparse.Namespace, folder: Path) -> tuple[list[Column], list[Timed]]:
    """For each length the slowest lines of each row of each run, and the lines at the greatest length that took longer
    than the limit."""
    columns: list[Column] = []
    long: list[Timed] = []
    for count in options.lengths:
        found: Column = {}
        long = []
        for letter in options.only:
            try:
                lines = timed(options, letter, count, folder)
            except Broken as fault:
                raise Broken(f"run {letter}, {count} steps: {fault}") from fault
            found |= slowest(lines, lambda timed: (timed.letter, timed.line.row))
            over = (line for line in lines if line.ms > options.limit)
            long += slowest(over, lambda timed: (timed.line.row, timed.line.text)).values()
        columns.append(found)
    return columns, long


def compared(column: Column) -> dict[str, Timed]:
    """Of the slowest lines at a length those of the second table."""
    return {row: line for (letter, row), line in column.items() if letter == APART and row.startswith(COMPARED)}


def read_options() -> argparse.Namespace:
    """The command line."""
    parser = Parser(__doc__, "--lengths 1000,2000 --runs 1")
    add_program(parser)
    parser.add_argument("--runs", type=int, default=5, help="how often each session is driven (5)")
    usual = "16000,32000,65535"
    parser.add_argument("--lengths", type=lengths, default=usual, help=f"steps of the runs, rising ({usual})")
    about = "the most milliseconds of a line at the greatest length (50)"
    parser.add_argument("--limit", type=float, default=50.0, help=about)
    parser.add_argument("--processor", action="store_true", help="go by the time of the processor")
    parser.add_argument("--only", default="".join(RUNS), help=f"the letters of the runs ({''.join(RUNS)})")
    parser.add_argument("--seconds", type=float, default=120.0, help="the longest time of one line (120)")
    options = parser.parse_args()
    options.other_clock = "From end to end" if options.processor else "Of the processor"
    is_rising = options.lengths == sorted(set(options.lengths))
    if not is_rising or not all(FEWEST_STEPS <= count <= MOST_STEPS for count in options.lengths):
        parser.error(f"--lengths: {FEWEST_STEPS} to {MOST_STEPS} steps each, rising")
    if not options.only or not set(options.only) <= set(RUNS) or options.runs < 1:
        parser.error(f"--only: letters of {''.join(RUNS)}; --runs: at least 1")
    return options


def main() -> int:
    options = read_options()
    gc.disable()  # a pause would count as the program's time
    ticks = program.processor_ticks()
    with tempfile.TemporaryDirectory() as folder:
        try:
            columns, long = measured(options, Path(folder))
        except Broken as fault:
            print(f"WRONG: {fault}")
            return 1
    print_table(options, [slowest(column.values(), lambda timed: timed.line.row) for column in columns])
    if APART in options.only:
        print_table(options, [compared(column) for column in columns], tells_growth=True)
    print_long(options, long)
    stolen = program.stolen_since(ticks)
    print(f"Given to others by the machine's host: {stolen:.0%} of the time with work")
    return 1 if long else 0
