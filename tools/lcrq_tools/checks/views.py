"""Has the program view random scripts, and replays each history by `run`.

    python3 tools/check.py views [--program P] [--seed S] [--count N]

One to eight viewers ask up to 60 lines each, some of them faulty, over a fresh machine or over the
session of a trace. They are viewed with `--history --trace`, and with one of these or none; a
single viewer with each. A view ends with status 0. Where it has the calls, those of each viewer are
its lines without the faulty ones, in its order; `run`, or `load` over the trace, answers the calls
as a script; and the view's text is these answers, given to their viewers, with the calls and the
trace of that run, byte for byte. A single viewer gets these answers without the calls too. Where
the calls of several viewers are not written, the text has a reply to each line and no more.

Each seed prints one line for each build of the program, and so does a view whose threads are all refused
(`refused_threads.py`); the status is 1 if a view is another one.
`--seed S --count 1` makes the scripts of seed S again; the viewers' calls may then have another order.
"""

import functools
import random
import tempfile
from dataclasses import dataclass
from pathlib import Path

from lcrq_tools import history, program
from lcrq_tools.checks import histories, refused_threads, replies
from lcrq_tools.checks.random_scripts import random_script, written_script
from lcrq_tools.checks.replies import TRACE
from lcrq_tools.checks.histories import ANY, HISTORY, calls_of, difference
from lcrq_tools.faults import Parser
from lcrq_tools.history import History
from lcrq_tools.options import add_program

COUNT = 60  # seeds
MOST_VIEWERS = 8
MOST_LINES = (12, 60)  # of a short script, and of a long one
OVER_A_TRACE = 0.4  # how likely a view continues a trace
FEWER: list[list[str]] = [[HISTORY], [TRACE], []]  # options besides both


@dataclass(frozen=True)
class View:
    """Scripts of viewers, and the machine that they share."""

    scripts: list[list[str]]  # of each viewer its lines
    words: list[str]  # that view them
    replay: list[str]  # that answer one script on standard input

    def one_by_one(self) -> History:
        """The history of viewers who ask one after the other; the only one of a single viewer."""
        calls = [(viewer, line) for viewer, script in enumerate(self.scripts, 1) for line in calls_of(script)]
        return History(tuple(viewer for viewer, _ in calls), tuple(line for _, line in calls))


# ---- Scripts -------------------------------------------------------------------------------------


def script_of(chance: random.Random, actors: int) -> list[str]:
    """A script of a viewer, short or long."""
    return random_script(chance, histories.LINES, actors, chance.randint(0, chance.choice(MOST_LINES)))


def random_view(chance: random.Random, folder: Path, built: str) -> View:
    """A view of random scripts, which are written into a folder."""
    machine = histories.fresh_machine(chance, built)
    if chance.random() < OVER_A_TRACE:
        machine = histories.continued(machine, folder, script_of(chance, machine.actors))
    scripts = [script_of(chance, machine.actors) for _ in range(chance.randint(1, MOST_VIEWERS))]
    files = [written_script(folder / f"{viewer}.script", script) for viewer, script in enumerate(scripts, 1)]
    return View(scripts, [built, "view", *files, *machine.options()], machine.replay())


# ---- What a view should write --------------------------------------------------------------------


def view_fault(view: View, options: list[str]) -> str:
    """What is wrong with what a view writes with these options, or nothing."""
    lines = replies.written([*view.words, *options])
    asked = view.one_by_one()
    if HISTORY in options:
        asked = history.history_of("the view", program.script_of(lines, "latin-1").decode("latin-1"))
        faults = (histories.calls_fault(viewer, script, asked) for viewer, script in enumerate(view.scripts, 1))
        if fault := next(filter(None, faults), ""):
            return fault
    is_known = HISTORY in options or len(view.scripts) == 1
    answers = histories.answers_to(view.replay, asked) if is_known else [ANY] * (len(asked.lines) + 1)
    if (TRACE in options) != lines[-1].startswith(history.TRACE):
        return f"it ends with `{lines[-1]}`"
    return difference("line", lines, histories.view_of(view.scripts, asked, answers, options))


# ---- All views -----------------------------------------------------------------------------------


def seed_fault(seed: int, built: str) -> str:
    """What is wrong with a view of the scripts of a seed, or nothing."""
    with tempfile.TemporaryDirectory() as folder:
        view = random_view(random.Random(seed), Path(folder), built)
        fewer = FEWER if len(view.scripts) == 1 else [FEWER[seed % len(FEWER)]]
        tried: list[list[str]] = [[HISTORY, TRACE], *fewer]
        faults = ((words, program.tried(view_fault, view, words)) for words in tried)
        count = f"{len(view.scripts)} viewers with"
        return next((f"{count} {' '.join(words) or 'no option'}, {fault}" for words, fault in faults if fault), "")


def main() -> int:
    """Prints each seed; returns the exit status."""
    parser = Parser(__doc__, "--seed 7 --count 1")
    add_program(parser)
    parser.add_argument("--seed", type=int, default=1, metavar="S", help="the seed of the first view (1)")
    parser.add_argument("--count", type=int, default=COUNT, metavar="N", help=f"how many seeds ({COUNT})")
    given = parser.parse_args()
    seeds = range(given.seed, given.seed + given.count)
    views: program.Rows = [(f"seed {seed}", functools.partial(seed_fault, seed)) for seed in seeds]
    rows = [*views, ("all threads refused", refused_threads.fault)]
    return program.print_checks(program.by_each_build(given.program, rows))
