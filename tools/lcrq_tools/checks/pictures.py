"""Draws all pictures of the pages anew and compares them with those that are stored.

    python3 tools/check.py pictures [--store] [--program P]

The gate runs it. A picture is right if it is stored byte for byte as `tools/picture.py`, `tools/moment.py` or
`tools/calls.py` draws it, and is shown on its page; if it is well-formed XML with a title and a description;
if no two labels overlap and none is cut off; and if what it shows agrees with what is found by other means: that of a moment
by `moments.py`, which asks the program in another way; that of a run by `runs.py`, and by `dependence.py`,
which knows dependence from docs/MODEL.md alone: two rows share a lane on which one of their dots is filled
exactly if the two steps depend on each other. All of this is also checked of random runs with random options,
some of them longer ones with more actors and segments, and of random histories of viewers, whose rows have
the marks of those who asked. `--store` stores the pictures in place of comparing them. Each check prints a
line; the status is 1 if one of them fails.
"""

import argparse
import contextlib
import functools
import io
import os
import random
import re
import shlex
import tempfile
from collections.abc import Callable, Iterator
from pathlib import Path
from types import ModuleType
from typing import NamedTuple

from lcrq_tools import dependence, program
from lcrq_tools.calls import calls
from lcrq_tools.checks import histories, moments, runs
from lcrq_tools.checks.histories import Run
from lcrq_tools.checks.random_scripts import RUN, drawing_words
from lcrq_tools.draw import figure, moment, picture
from lcrq_tools.faults import Fault, Parser, status_of
from lcrq_tools.options import add_program
from lcrq_tools.program import TOP
from lcrq_tools.records import Step

EXAMPLES = Path("examples")
GUIDE = f"{EXAMPLES}/guide.md"
PORT, OVERLAP = "16-a-port-beside-the-model", "17-calls-that-overlap"
HISTORY = ".history"  # how the name of a file ends that has one


class Drawing(NamedTuple):
    """A picture or a moment that a page shows."""

    tool: ModuleType
    page: str
    name: str  # of its file
    source: str  # a script or a history
    options: str


# The pictures that the pages show: the page, the picture's file, the script, and the options. A
# name without a folder is one of the examples.
PICTURES = [
    ("README.md", "session.svg", "session.script", "--lines 15 --undo 8"),
    ("docs/MODEL.md", "docs/dependence.svg", "model.script", "--undo 11"),
    ("docs/MODEL.md", "docs/rollback.svg", "model.script", "--roll 11"),
    ("docs/RECIPES.md", "poised.svg", "poised.script", "--trace poised.trace"),
    (GUIDE, "guide-1.svg", "guide-1.script", "--undo 10"),
    (GUIDE, "guide-4.svg", "guide-4.script", "--trace guide-4.trace"),
    (f"{EXAMPLES}/06-starvation-closes-ring.md", "two-closers.svg", "two-closers.script", "--from 26 --undo 28"),
    (f"{EXAMPLES}/{PORT}.md", f"{PORT}-log.svg", f"{PORT}-log.script", "--ring 2 --from 21 --undo 31"),
]

# The moments, in the same way.
MOMENTS = [
    ("docs/MODEL.md", "docs/queue.svg", "moment.script", ""),
    (GUIDE, "guide-1-moment.svg", "guide-1.script", "--line 16"),
]

# The calls, in the same way.
CALLS = [(f"{EXAMPLES}/{OVERLAP}.md", f"{OVERLAP}-calls.svg", f"{OVERLAP}.script", "--fifo")]


class Lesson(NamedTuple):
    """The picture of a lesson, and its moment. Picture and script have this name, and so has the trace. Where a
    history has it, the picture is drawn from that."""

    name: str  # that of the page, and which of two pictures it is
    world: str  # the options of the world; TRACE stands for the trace
    options: str  # of the picture
    moment: str = ""  # the options of the moment, if it has one

    def drawing(self, tool: ModuleType, ending: str, options: str) -> Drawing:
        """What is drawn with these options, whose file has this ending after the name."""
        page, given = re.sub(r"-\d$", "", self.name), f"{self.world_options()} {options}".lstrip()
        return Drawing(tool, f"{EXAMPLES}/{page}.md", f"{self.name}{ending}.svg", source_of(self.name), given)

    def world_options(self) -> str:
        """The options of the world, with the trace's file."""
        return self.world.replace("TRACE", f"{self.name}.trace")


LESSONS = [
    Lesson("01-one-enqueue-and-back", "", "--undo 4"),
    Lesson("02-empty-dequeue-repairs-tail", "", "--undo 11", "--line 10"),
    Lesson("03-refused-undo-names-dependant", "", "--lines 11 --undo 4"),
    Lesson("04-independent-steps-change-places", "", "--undo 8"),
    Lesson("05-unsafe-cell", "--ring 2", "--undo 20", "--line 19"),
    Lesson("06-starvation-closes-ring", "", "--lines 20 --undo 10", "--line 13"),
    Lesson("07-two-makers-race", "", "--undo 22", "--line 21"),
    Lesson("08-causal-rollback", "", "--lines 15 --roll 8"),
    Lesson("09-bookmarks-and-same", "", "--undo 7"),
    Lesson("10-array-queue-livelock", "", "--lines 16 --undo 15"),
    Lesson("11-who-wrote-this", "--trace TRACE", "--undo 14"),
    Lesson("12-two-viewers", "", "--undo 8"),
    Lesson("13-a-start-of-ones-own", "--trace TRACE", "--lines 20 --undo 3"),
    Lesson("14-what-the-safe-bit-prevents-1", "--trace TRACE", "--lines 20 --undo 7", "--line 19"),
    Lesson("14-what-the-safe-bit-prevents-2", "--trace TRACE", "--undo 13", "--line 6"),
    Lesson("15-why-a-dequeue-looks-twice-1", "--trace TRACE", "--undo 1", "--line 2"),
    Lesson("15-why-a-dequeue-looks-twice-2", "--trace TRACE", "--lines 10 --undo 1", "--line 8"),
    Lesson(PORT, "--trace TRACE", "--undo 7", "--line 3"),
    Lesson(OVERLAP, "", "--undo 4"),
]


# ---- The pictures --------------------------------------------------------------------------------


def path_of(name: str) -> Path:
    """The file of an example, or of a name with a folder."""
    return TOP / (name if "/" in name else EXAMPLES / name)


def source_of(name: str) -> str:
    """The file of this name from which a figure is drawn: a history, if there is one, or else a script."""
    return f"{name}{HISTORY if path_of(f'{name}{HISTORY}').is_file() else '.script'}"


def arguments_of(tool: ModuleType, source: str, options: str, program_path: str) -> argparse.Namespace:
    """The command line of a picture or a moment, which is drawn from a script or a history."""
    words = [str(path_of(word)) if word.endswith(".trace") else word for word in options.split()]
    words += ["--history"] if source.endswith(HISTORY) else []
    given = [*words, str(path_of(source)), "--refused", "--program", program_path]
    arguments: argparse.Namespace = tool.parser().parse_args(given)
    return arguments


def moment_fault(svg: str, arguments: argparse.Namespace) -> str:
    """The first thing that is wrong with a moment, or nothing."""
    drawn = runs.Drawn(svg)
    if not drawn.title or "Segment 0.0" not in drawn.about:
        return "it has no title, or its description lacks segments"
    return runs.labels_fault(drawn) or moments.faults_of(svg, arguments)


def stored_fault(drawing: Drawing, given: argparse.Namespace) -> str:
    """What is wrong with one picture or moment, or nothing. It is stored first if that is wanted."""
    tool, page, path = drawing.tool, TOP / drawing.page, path_of(drawing.name)
    arguments = arguments_of(tool, drawing.source, drawing.options, given.program)
    svg = tool.drawn_of(arguments)[0]
    if given.store:
        path.write_text(svg, encoding="utf-8")
    if not path.is_file() or path.read_text(encoding="utf-8") != svg:
        return "it is not stored as it is drawn: --store stores it"
    if f"]({os.path.relpath(path, page.parent)})" not in page.read_text(encoding="utf-8"):
        return f"{drawing.page} does not show it"
    if tool is calls:
        return runs.labels_fault(runs.Drawn(svg))
    if tool is moment:
        return moment_fault(svg, arguments)
    return runs.fault_of(svg, arguments, histories.viewers_of(arguments, histories.stored(arguments)))


def pictures() -> Iterator[Drawing]:
    """All pictures and moments."""
    yield from (Drawing(picture, *row) for row in PICTURES)
    yield from (lesson.drawing(picture, "", lesson.options) for lesson in LESSONS)
    yield from (Drawing(moment, *row) for row in MOMENTS)
    yield from (Drawing(calls, *row) for row in CALLS)
    yield from (lesson.drawing(moment, "-moment", lesson.moment) for lesson in LESSONS if lesson.moment)


def strangers() -> list[Path]:
    """The pictures that are stored and that no page shows."""
    known = {path_of(drawing.name) for drawing in pictures()}
    return sorted({*TOP.glob("docs/*.svg"), *TOP.glob(f"{EXAMPLES}/*.svg")} - known)


# ---- Runs drawn at random ------------------------------------------------------------------------

RunOf = Callable[[random.Random, Path, str], Run]  # makes a run at random
FaultOf = Callable[[random.Random, Run], str]  # what is wrong with what is drawn of it, or nothing


def options_of(chance: random.Random, steps: list[Step], live: int) -> list[str]:
    """Options at random: which steps are drawn, and what is asked about one of them."""
    count, words = len(steps), []
    if chance.random() < 0.4:
        first, last = sorted(chance.choices(range(1, count + 1), k=2))
        words += ["--from", str(first), "--to", str(last)]
    places = sorted({str(step.place) for step in steps if step.place})
    if places and chance.random() < 0.3:
        chosen = ",".join(chance.sample(places, min(2, len(places))))
        words += ["--places", re.sub(r"\bcell\b", chance.choice(["cell", "value", "index"]), chosen)]
    if chance.random() < 0.3:
        words += ["--actor", str(chance.choice(steps).event.actor)]
    words += ["--free"] if chance.random() < 0.3 else []
    asked = chance.choice(["--undo", "--roll"])
    return [*words, asked, str(chance.randint(1, live))] if live and chance.random() < 0.7 else words


def is_right(fault: Fault, run: runs.Run) -> bool:
    """Whether a picture is refused since it would have no row or too many, or not those that are
    asked about."""
    drawn, asked = run.drawn(), run.arguments.undo or run.arguments.roll
    if not 1 <= len(drawn) <= 200 or asked and asked not in drawn:
        return True
    later = dependence.first_dependant(run.steps[: run.live], asked) if run.arguments.undo else None
    return later is not None and later not in drawn and f"Depended {later}, which is " in str(fault)


def picture_fault(chance: random.Random, made: Run) -> str:
    """What is wrong with the picture of a run with options at random, or nothing."""
    given = picture.parser().parse_args(made.words)
    session = figure.Session(given)
    if not session.live + session.undone:
        return ""
    records = picture.records_of(session)
    options = options_of(chance, [Step.read(record) for record in records], session.live)
    arguments = picture.parser().parse_args([*made.words, *options])
    run = runs.Run(arguments, session, records)
    run.viewers = histories.viewers_of(given, made)
    try:
        fault = runs.faults_of(picture.drawn_of(arguments)[0], run)
    except Fault as refusal:
        fault = "" if is_right(refusal, run) else str(refusal)
    return f"{' '.join(options)}: {fault}" if fault else ""


def last_moment_fault(_: random.Random, run: Run) -> str:
    """What is wrong with the last moment of a run, or nothing."""
    arguments = moment.parser().parse_args(run.words)
    return moment_fault(moment.drawn_of(arguments)[0], arguments)


def asked_moment_fault(chance: random.Random, run: Run) -> str:
    """What is wrong with a moment of a history, or nothing."""
    line, (viewer, text) = chance.choice([*enumerate(zip(run.calls.viewers, run.calls.lines), 1)])
    arguments = moment.parser().parse_args([*run.words, "--line", str(line)])
    svg = moment.drawn_of(arguments)[0]
    drawn, where = runs.Drawn(svg), f"after line {line}, viewer {viewer}, {text}: "
    legend = f"viewer {viewer}, who asked the last line"
    said = [words for _, words in drawn.texts if words.startswith(where) or words == legend]
    if len(said) < 2 or where not in drawn.title or runs.marks_in(svg) != [viewer, viewer]:
        return f"line {line}: it says {said} and has the marks of {runs.marks_in(svg)}, and viewer {viewer} asked it"
    return moment_fault(svg, arguments)


def random_faults(given: argparse.Namespace, count: int, run_of: RunOf, fault_of: FaultOf) -> str:
    """What is wrong with the first of so many runs of which what is drawn is wrong, or nothing."""
    def fault_at(seed: int, folder: Path) -> str:
        chance = random.Random(seed)
        return fault_of(chance, run_of(chance, folder, given.program))

    with tempfile.TemporaryDirectory() as name:
        faults = ((seed, program.tried(fault_at, seed, Path(name))) for seed in range(1, count + 1))
        return next((f"run {seed}: {fault}" for seed, fault in faults if fault), "")


SHORT = functools.partial(histories.short_run, forms={**RUN, "undo\r": 2}, count=60)
VIEWED = functools.partial(histories.viewed_run, count=50)
RANDOM: list[tuple[str, int, RunOf, FaultOf]] = [
    ("{} runs at random", 200, SHORT, picture_fault),
    ("{} longer ones of more actors", 12, histories.crowded_run, picture_fault),
    ("the last moment of {} of them", 60, SHORT, last_moment_fault),
    ("{} histories of viewers", 40, VIEWED, picture_fault),
    ("a moment of {} of them", 12, VIEWED, asked_moment_fault),
]


# ---- What is refused -----------------------------------------------------------------------------

# Command lines that give no picture, each with what is written to standard error.
REFUSED = [
    (picture, "no.script", "", "no.script: No such file or directory"),
    (picture, "session.script", "--undo 99", "step 99 is not among the steps 1 to 14 that are drawn"),
    (picture, "session.script", "--from 9 --to 3", "the run has the steps 1 to 14: --from and --to name a part of"),
    (picture, "session.script", "--places nowhere", "--places 'nowhere': refused 22 BadLine"),
    (picture, "session.script", "--places 'qhead,cell 0.0 9'", "--places 'cell 0.0 9': refused 19 NoSuchPlace"),
    (picture, "session.script", "--places 'acell 5' --actor 4", "no step from 1 to 14 is at acell 5 or of actor 4"),
    (picture, "session.script", "--places 'qhead\nundo'", "--places 'qhead\\nundo': no place has such a name"),
    (picture, "session.script", "--actor 1,5", "--actor '5': the world has the actors 1 to 4"),
    (picture, "session.script", "--actor 1 --actor x", "--actor 'x': the world has the actors 1 to 4"),
    (picture, "session.script", "--undo 9 --actor 1", "step 9 is not drawn, since it is not of actor 1"),
    (picture, "session.script", "--lines 15 --undo 8 --actor 1", "12, which is not drawn, since it is not of actor 1"),
    (picture, "session.script", "--lines 15 --undo 8 --to 9", "12, which is after the last row: --to 12 has it"),
    (picture, "session.script", "--program nowhere", "no program at nowhere"),
    (picture, "session.script", "--trace session.report", "lcrqdb: refused 27 BadTrace"),
    (picture, "session.script", "--program /bin/true", "/bin/true does not reply as lcrqdb does"),
    (picture, "06-starvation-closes-ring.script", "", "2 of 25 lines are refused, the first is line 14: refused 4 "),
    (picture, "session.report", "", "19 of 19 lines are refused, the first is line 1: refused 22 BadLine; --refused"),
    (moment, "manual-4.script", "", "the first is line 1: refused 1 NoActor; --refused draws it"),
    (moment, "no.script", "", "no.script: No such file or directory"),
    (moment, "session.script", "--line 99", "the script has 19 lines: --line names one of them"),
    (moment, "session.script", "--ring 2 --trace poised.trace", "--trace comes without --actors and --ring"),
]


def refusal_fault(tool: ModuleType, script: str, options: str, wanted: str, given: argparse.Namespace) -> str:
    """What is wrong with what a command line without a picture gives, or nothing."""
    words = [str(path_of(script)), "--program", given.program]
    words += [str(path_of(word)) if path_of(word).exists() else word for word in shlex.split(options)]
    errors = io.StringIO()
    with contextlib.redirect_stderr(errors), contextlib.redirect_stdout(io.StringIO()):
        status = status_of(tool.main, words)
    text = errors.getvalue()
    return "" if status == 1 and wanted in text and text.count("\n") == 1 else f"it ended with {status} and {text!r}"


# Scripts with the options of their pictures, and what is said where there is none.
LONG = ["enq 1 7", *["go 1"] * 6] * 40
ODD = [
    ("200 steps of a longer run", LONG, "--from 31 --to 230 --free", ""),
    ("a longer run at some places", LONG, "--places 'tail 0.0,next 1.0'", ""),
    # Actor 2's Q7 writes the index half alone, and actor 1's E8 loses: both have dots on both halves.
    ("two CAS2 that share an index", ["enq 1 7", *["go 1"] * 5, "deq 2", *["go 2"] * 5, "go 1"], "--undo 12", ""),
    ("a run of more than 200 steps", LONG, "", "choose at most 200 of them"),
]


def odd_fault(script: list[str], options: str, refusal: str, given: argparse.Namespace) -> str:
    """What is wrong with the picture of a script, or nothing."""
    with tempfile.TemporaryDirectory() as folder:
        words = drawing_words(Path(folder), script, given.program, *shlex.split(options))
        arguments = picture.parser().parse_args(words)
        fault = program.tried(lambda: runs.fault_of(picture.drawn_of(arguments)[0], arguments))
    return ("" if refusal in fault else fault or "it is drawn") if refusal else fault


def checks(given: argparse.Namespace) -> Iterator[tuple[str, str]]:
    """The checks, each a name and what is wrong, or nothing."""
    for drawing in pictures():
        yield f"{drawing.name} of {drawing.page}", stored_fault(drawing, given)
    for path in strangers():
        yield path.name, "no page shows it"
    for name, count, run_of, fault_of in RANDOM:
        yield name.format(count), random_faults(given, count, run_of, fault_of)
    for name, lines, options, refusal in ODD:
        yield name, odd_fault(lines, options, refusal, given)
    for tool, script, options, wanted in REFUSED:
        name = f"{tool.__name__.rpartition('.')[2]}.py refuses {script} {options!r}".strip()
        yield name, refusal_fault(tool, script, options, wanted, given)


def main() -> int:
    """Prints the checks; returns the exit status."""
    parser = Parser(__doc__, "--store")
    parser.add_argument("--store", action="store_true", help="store the pictures in place of comparing them")
    add_program(parser)
    return program.print_checks(checks(parser.parse_args()))
