"""Makes scripts and histories of viewers at random, for `tools/check.py views`, `live`, `pictures`, `run_pages` and
`browser`, and says what a view of them should write, and who asked which step.

The scripts have lines that are refused, and some that are no commands. The viewers share a fresh machine, or the
session of a trace. The calls of a history are answered by one run of them as a script. A history is
written as `lcrqdb view FILE.. --history` writes it, or as its calls alone. Who asked which step is found by
other means than `askers.py` finds it: by the steps after each line (`known_steps.py`); and in half of
the histories by the step's actor, which one viewer alone moves. Only Python's standard library is used.
"""

import argparse
import dataclasses
import itertools
import random
from collections.abc import Collection, Iterator, Sequence
from dataclasses import dataclass
from pathlib import Path

from lcrq_tools import history, program
from lcrq_tools.checks import known_steps, random_scripts, replies
from lcrq_tools.checks.random_scripts import Forms, drawing_words, written_script
from lcrq_tools.checks.replies import TRACE
from lcrq_tools.draw.figure import Session
from lcrq_tools.faults import Fault
from lcrq_tools.history import History
from lcrq_tools.options import RINGS
from lcrq_tools.records import Event, is_made

MOST_ACTORS = 4
MOST_BYTES = 256  # of a line

# Lines that are no commands, each with its refusal.
FAULTY = dict.fromkeys(("", "hello", "go1"), "refused 22 BadLine") | {"mark A": "refused 17 BadName"}
FAULTY |= {"x" * (MOST_BYTES + 1): "refused 23 LineTooLong"}
QUERIES = ("show qtail", "step 1", "origin 9", "writer qhead", "actor 1", "marks", "markat 1", "same a b")
CALLS: Forms = {
    **random_scripts.MARKED, "go {actor}": 32, "undo {step}": 4, "roll {step}": 4, "redo": 4, "goto {name}": 4,
    "drop {name}": 1, "len": 1, "show qhead": 1,
}
LINES: Forms = {**CALLS, "mark {name}": 4, **dict.fromkeys([*QUERIES, *FAULTY], 1)}

HISTORY = "--history"
ANY = ""  # stands for a line that may be any one: no reply is empty
OVER_A_TRACE, IS_LEFT_OUT = 0.3, 0.8  # how likely a history has a start with steps, and a refused line is left out
FORMS = ([HISTORY], [HISTORY, TRACE], None)  # options of a view that writes it; the last one has the calls alone


# ---- Scripts -------------------------------------------------------------------------------------


def refusal_of(line: str) -> str:
    """The refusal of a line of a script, if it is no command; else nothing."""
    return "refused 23 LineTooLong" if len(line) > MOST_BYTES else FAULTY.get(line, "")


def calls_of(script: Sequence[str]) -> list[str]:
    """The lines of a script that are commands."""
    return [line for line in script if not refusal_of(line)]


# ---- Runs ----------------------------------------------------------------------------------------


@dataclass(frozen=True)
class Machine:
    """What viewers share: a fresh machine of a program, or the session of a trace."""

    built: str
    actors: int
    ring: int
    start: str = ""  # the file of the trace

    def options(self, start: str = "--start") -> list[str]:
        """The options that choose it. A drawing has another name for that of the trace."""
        return [start, self.start] if self.start else ["--actors", str(self.actors), "--ring", str(self.ring)]

    def replay(self) -> list[str]:
        """The words that answer one script on standard input."""
        return [self.built, "load", self.start] if self.start else [self.built, "run", "-", *self.options()]


def fresh_machine(chance: random.Random, built: str) -> Machine:
    """A machine on which nothing has happened."""
    return Machine(built, chance.randint(1, MOST_ACTORS), chance.choice(RINGS))


def continued(machine: Machine, folder: Path, script: Sequence[str]) -> Machine:
    """A machine after a run of this script, whose trace is written into a folder."""
    trace = replies.written([*machine.replay(), TRACE], program.script_of(script))[-1]
    return dataclasses.replace(machine, start=written_script(folder / "start.trace", [trace]))


def answers_to(replay: list[str], asked: History) -> list[str]:
    """The replies of one run to the calls of a history, and last its trace."""
    answers = replies.written([*replay, TRACE], asked.script())
    if len(answers) != len(asked.lines) + 1:
        raise Fault(f"a run of {len(asked.lines)} calls writes {len(answers)} lines, its trace the last one")
    return answers


# ---- What a view should write --------------------------------------------------------------------


def own(viewer: int, asked: History, lines: Sequence[str]) -> list[str]:
    """Of lines that belong to the calls of a history, those of one viewer's calls."""
    return [line for asker, line in zip(asked.viewers, lines) if asker == viewer]


def replies_to(viewer: int, script: Sequence[str], asked: History, answers: Sequence[str], mark: str = "") -> list[str]:
    """The replies to a viewer's script, if the calls of this history get these answers. A refusal has a mark."""
    left = iter(own(viewer, asked, answers))
    return [f"{mark}{refusal}" if refusal else next(left, "no call") for refusal in map(refusal_of, script)]


def call_lines(asked: History) -> list[str]:
    """The calls of a history as its text has them."""
    return [f"{viewer} {line}" for viewer, line in zip(asked.viewers, asked.lines)]


def view_of(
    scripts: Sequence[Sequence[str]], asked: History, answers: Sequence[str], options: Collection[str]
) -> list[str]:
    """The lines that a view of these scripts writes with these options, if the calls of this history get
    these answers, of which the trace is the last one."""
    lines = []
    for viewer, script in enumerate(scripts, 1):
        lines += [f"viewer {viewer}", *replies_to(viewer, script, asked, answers)]
    lines.append(f"history {len(asked.lines)}")
    lines += call_lines(asked) if HISTORY in options else []
    return [*lines, answers[-1]] if TRACE in options else lines


# ---- Comparisons ---------------------------------------------------------------------------------


def difference(what: str, got: Sequence[str], wanted: Sequence[str]) -> str:
    """Where lines first differ from what is wanted, or nothing."""
    pairs = enumerate(itertools.zip_longest(got, wanted, fillvalue="nothing more"), 1)
    wrong = ((number, line, other) for number, (line, other) in pairs if other not in (ANY, line))
    faults = (f"{what} {number} is `{line}`, wanted `{other}`" for number, line, other in wrong)
    return next(faults, "") or ("" if len(got) == len(wanted) else f"{what}s are missing")


def calls_fault(viewer: int, script: Sequence[str], asked: History, is_cut: bool = False) -> str:
    """What is wrong with the calls of a viewer in a history, or nothing. If its client left, the last ones
    may be missing."""
    calls, wanted = own(viewer, asked, asked.lines), calls_of(script)
    return difference(f"viewer {viewer}: call", calls, wanted[:len(calls)] if is_cut else wanted)


# ---- Runs at random ------------------------------------------------------------------------------


@dataclass(frozen=True)
class Run:
    """A run of a script, or of a history: one that was made at random, or a stored one."""

    words: list[str]  # a command line that draws it, if it was made at random
    calls: History = History((), ())  # none of a script
    owners: int = 0  # how many viewers have actors that they alone move; 0 where all viewers move all actors


def short_run(chance: random.Random, folder: Path, built: str, forms: Forms, count: int) -> Run:
    """A run of calls, steps, choices and what else these forms have, some of which are refused."""
    script = random_scripts.random_script(chance, forms, 3, count)
    return Run(drawing_words(folder, script, built, "--ring", str(chance.choice(RINGS))))


def crowded_run(chance: random.Random, folder: Path, built: str) -> Run:
    """A longer run of more actors and segments."""
    return Run(drawing_words(folder, random_scripts.crowded_script(chance), built, "--ring", "2", "--actors", "6"))


# ---- Histories ------------------------------------------------------------------------------------


def lines_of(chance: random.Random, words: list[str], forms: Forms, count: int) -> Iterator[str]:
    """Lines at random, most of which a run that these words start doesn't refuse."""
    live = 0
    with program.Driven(words) as driven:
        while count:
            line = random_scripts.line_of(chance, forms, MOST_ACTORS, live)
            reply = driven.ask(line)[0]
            if reply.startswith(("ok ", "at ")):
                live = int(reply.split(" ")[1])
            if not reply.startswith("refused ") or chance.random() > IS_LEFT_OUT:
                count -= 1
                yield line


def owner_of(line: str, viewers: int) -> int:
    """The viewer who alone moves the actor of a step's line, where each actor has one."""
    return (Event.read(line).actor - 1) % viewers + 1


def random_machine(chance: random.Random, folder: Path, built: str) -> Machine:
    """A fresh machine, or one after a run of a few lines without bookmarks."""
    machine = Machine(built, MOST_ACTORS, chance.choice(RINGS))
    if chance.random() > OVER_A_TRACE:
        return machine
    return continued(machine, folder, [*lines_of(chance, machine.replay(), random_scripts.MOVED, 12)])


def viewed_run(chance: random.Random, folder: Path, built: str, count: int) -> Run:
    """A run of a history of two to four viewers and so many lines, which is written."""
    viewers = chance.randint(2, MOST_ACTORS)
    owners = chance.choice([viewers, 0])
    machine = random_machine(chance, folder, built)
    lines = tuple(lines_of(chance, machine.replay(), CALLS, count))
    owned = [owners and program.MAKES_A_STEP.match(line.encode()) for line in lines]
    callers = (owner_of(line, owners) if found else chance.randint(1, viewers) for line, found in zip(lines, owned))
    asked = History(tuple(callers), lines)
    file = written_script(folder / "random.history", written_as(machine, viewers, asked, chance.choice(FORMS)))
    words = ["--history", file, *machine.options("--trace"), "--refused", "--program", built]
    return Run(words, asked, owners)


def written_as(machine: Machine, viewers: int, asked: History, options: list[str] | None) -> list[str]:
    """A history as a view with these options writes it; its calls alone, where there are none."""
    if options is None:
        return call_lines(asked)
    scripts = [own(viewer, asked, asked.lines) for viewer in range(1, viewers + 1)]
    return view_of(scripts, asked, answers_to(machine.replay(), asked), options)


def stored(arguments: argparse.Namespace) -> Run:
    """The run of a stored script or history."""
    return Run([], history.read(arguments.history)) if arguments.history else Run([])


# ---- Who asked which step -------------------------------------------------------------------------


def viewers_after(line: int, arguments: argparse.Namespace, run: Run) -> list[int]:
    """The viewers of the live and then of the undone steps after so many lines; 0 of a step of the start."""
    moments = known_steps.moments_of(Session(argparse.Namespace(**vars(arguments) | {"lines": line})))
    known = known_steps.Known(moments)
    first = [known.first[step][0] for step in known.last]  # the moment where each step is first
    viewers = [run.calls.viewers[number - 1] if is_made(moments[number].reply) else 0 for number in first]
    if not run.owners:
        return viewers
    lines = [str(step.event) for step in moments[-1].steps]
    return [owner_of(line, run.owners) if viewer else 0 for line, viewer in zip(lines, viewers)]


def viewers_of(arguments: argparse.Namespace, run: Run) -> list[int]:
    """The viewers of all steps of a history; nobody, if a script is run."""
    return viewers_after(len(run.calls.lines), arguments, run) if run.calls.lines else []
