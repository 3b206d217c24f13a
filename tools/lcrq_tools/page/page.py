"""Makes a run a page: one HTML file on which a reader goes along the run, line by line.

    python3 tools/page.py session.script -o run.html

SCRIPT is run by the built program. The file needs nothing else: no network and no program.

Of each line the page shows the reply, why it is refused if it is, the queue with the place that each
actor's next step would touch, the steps as lanes with a border between live and undone ones, and
the pseudo-code of docs/MODEL.md with the actors at their lines. The right and the left arrow, or PageDown and
PageUp, go a line on and back, Home and End to the ends; a slider and a click on a line do too. `#line=14` in the
address leads to a moment. What each line did is said in a sentence (`teller.py`). `copy` gives the
command that shows the same by the program. Printed it is a handout: lines with replies, and the queue
at the line that is shown and at each bookmark. On the page of a history each line and each step has
the mark of the viewer who asked it. `--slides 12,14,20` makes slides of these lines, for a class
(`slides.py`).

Each fact is a reply of the program to a line of a script: this is a client of its text interface.
The same input gives the same bytes.
"""

import argparse
import shlex
from collections.abc import Sequence
from dataclasses import replace
from html import escape
from pathlib import Path
from string import Template

from lcrq_tools.draw.figure import Session, kind_of, script_name, write_drawn
from lcrq_tools.draw.lanes import Row, Widths, actor_of
from lcrq_tools.faults import Fault
from lcrq_tools.options import run_parser, settled
from lcrq_tools.order import common_of
from lcrq_tools.page import page_data, page_lanes, page_parts, slides
from lcrq_tools.page.page_data import Data
from lcrq_tools.page.mirror import Mirror, State
from lcrq_tools.program import Broken
from lcrq_tools.records import stand_of

MOST_LINES, MOST_ROWS = 400, 800
PARTS = Path(__file__).resolve().parent
STYLES = ("page.css", "page_viewers.css")
SCRIPTS = ("page_parts.js", "page_queue.js", "page_actors.js", "page_lanes.js", "page_viewers.js", "page.js")


# ---- Which rows are shown -------------------------------------------------------------------------


def above_of(states: Sequence[State]) -> int:
    """How many steps stand above the first row: none of a short run. Those are live at all moments,
    and come before all others."""
    if not states[0].line and len({step for state in states for step in state.rows}) <= MOST_LINES:
        return 0
    first = states[0].rows[: states[0].live]
    return min(common_of(first, state.rows[: state.live]) for state in states)


def shown_rows(mirror: Mirror, states: Sequence[State]) -> dict[int, Row]:
    """The rows that are shown at these moments of a run."""
    shown = dict.fromkeys(step for state in states for step in state.rows)
    if len(shown) > MOST_ROWS:
        raise Fault(f"these lines make or move {len(shown)} steps, and a page takes {MOST_ROWS}: --lines A:B cuts them")
    rows, missing = {**mirror.rows}, shown.keys() - mirror.rows.keys()
    if missing:
        with mirror.begin_again() as begin:
            begin.fill_rows(begin.state, missing)
            rows |= begin.rows
    return {step: rows[step] for step in shown}


def start_of(session: Session, lanes: list[str], above: int) -> dict[str, str]:
    """What is on each lane before the first row that is shown, if this is the session there."""
    lines = [lane if actor_of(lane) else f"show {lane}" for lane in lanes]
    return dict(zip(lanes, map(stand_of, session.ask_parts([session.moved_to(above + 1), lines])[1])))


# ---- The page -------------------------------------------------------------------------------------


def command_of(arguments: argparse.Namespace) -> list[str]:
    """The command that shows a moment by the program, in front of the number of its line and behind it."""
    trace: str | None = arguments.trace
    if trace:
        words = ["lcrqdb", "load", Path(trace).name]
    else:
        options: list[tuple[str, int | None]] = [("--actors", arguments.actors), ("--ring", arguments.ring)]
        words = ["lcrqdb", "run", *(word for option, value in options if value for word in (option, str(value))), "-"]
    given = arguments.script if arguments.history is None else arguments.history
    name = shlex.quote(f"s.{kind_of(arguments)}" if given == "-" else Path(given).name)
    if arguments.history is None:
        return ["head -n ", f" {name} | {shlex.join(words)}"]
    return [f"grep '^[0-9]' {name} | head -n ", f" | cut -d ' ' -f 2- | {shlex.join(words)}"]


def session_of(arguments: argparse.Namespace) -> Session:
    """The session that a page is asked for, which may end before its last line."""
    last: int | None = arguments.part and arguments.part[1]
    session = Session(argparse.Namespace(**vars(arguments) | {"lines": last}))
    if last and last > len(session.lines):
        raise Fault(f"the {kind_of(arguments)} has {len(session.lines)} lines: --lines names some of them")
    return session


def run_of(arguments: argparse.Namespace, session: Session, mirror: Mirror) -> Data:
    """The data of the page of the moments that were followed."""
    above = above_of(mirror.states)
    states = [replace(state, above=above, rows=state.rows[above:]) for state in mirror.states]
    drawn = shown_rows(mirror, states)
    lanes = page_lanes.in_order(page_lanes.lanes_of_rows(drawn.values()), mirror.chain())
    name = f"after {above}" if above else "start" if arguments.trace else ""
    start = start_of(session.at(mirror.states[0].line), lanes, above) if name else {}
    viewers = page_data.named_viewers(states, drawn.values())
    layout = page_lanes.layout_of(lanes, Widths(start, drawn.values()), viewers, start, name)
    given: Data = {
        "title": f"{script_name(arguments)}, {session.world()}", "ring": session.ring,
        "command": command_of(arguments),
    }
    return page_data.run_of(given, states[0], drawn, layout, viewers) | page_data.moments_of(states)


def page_with(run: Data, **more: str) -> str:
    """The page of a run, with more in some of its places."""
    style = [page_parts.colours(), *map(text_in, STYLES)]
    return Template(text_in("page.html")).substitute(
        {"kind": "stored", "nonce": "", "toolbar": "", "more_style": "", "more_script": ""}
        | {"title": escape(str(run["title"])), "style": "\n".join(style), "script": "\n".join(map(text_in, SCRIPTS))}
        | {"data": page_data.text_of(run)} | more
    )


def page_of(arguments: argparse.Namespace) -> tuple[str, str]:
    """The page that is asked for, and what to say of refused lines."""
    session, first = session_of(arguments), arguments.part[0] - 1 if arguments.part else 0
    count = len(session.lines) - first
    if count > MOST_LINES:
        raise Fault(f"{count} lines are too many for a page: --lines A:B takes {MOST_LINES} of them, as 1:{MOST_LINES}")
    try:
        with Mirror(session.words, session.lines, session.viewers, first) as mirror:
            run = run_of(arguments, session, mirror)
    except (Broken, OSError) as fault:
        raise Fault(f"the moments can't be asked for: {fault}") from fault
    return page_with(run, **slides.parts_of(arguments.slides, mirror.states)), session.refused


def text_in(name: str) -> str:
    """The text of a file beside the template."""
    return (PARTS / name).read_text(encoding="utf-8")


# ---- The command line -----------------------------------------------------------------------------


def part_of(text: str) -> tuple[int, int]:
    """The first and the last line of a part of a script."""
    ends = text.split(":")
    if len(ends) != 2 or not all(map(str.isdecimal, ends)) or not 1 <= int(ends[0]) <= int(ends[1]):
        raise argparse.ArgumentTypeError(f"{text} is not A:B, two numbers of lines")
    return int(ends[0]), int(ends[1])


def parser() -> argparse.ArgumentParser:
    """The command line."""
    parser = run_parser(__doc__, "session.script -o run.html", "OUT.html")
    options = "[-o OUT.html] [--lines A:B] [--slides N,N..] [--actors A] [--ring R] [--trace FILE] [--refused]"
    parser.usage = f"%(prog)s (SCRIPT | --history FILE) {options} [--program P]"
    slides.add_option(parser)
    parser.add_argument("--lines", dest="part", metavar="A:B", type=part_of, help="the lines A to B in place of all")
    return parser


def main(words: list[str] | None = None) -> int:
    """Writes the page that a command line asks for; returns the exit status."""
    return write_drawn(settled(parser(), words), page_of)
