"""Draws the queue at one moment of a run: its segments, its array, and where each actor stands.

    python3 tools/moment.py session.script --line 7 -o moment.svg

SCRIPT, or its first N lines, is run by the built program. What is drawn is the moment after line N, or
after the last line.

A segment is a box with all cells of its ring; its tail counter stands above the cell of the
position that the next enqueue draws, its head counter below that of the next dequeue. Linked
segments stand in the order of their links, and those that no other one names as its next below
them, in a broken frame. A long list is cut where no end of the queue is and nobody is about to go.
The array is drawn where it was touched. An actor in a call is a chip: its control point, the lines
of that row in the pseudo-code of docs/MODEL.md, its words that the row reads, and the place that its
next step would touch, to which a line leads. What the last live step wrote is marked in its actor's
colour. Of a history the viewer of the last line is named, and has its mark.

Each fact is a reply of the program to a line of a script: this is a client of its text interface.
Which place a next step would touch is asked by making it and undoing it again. The same input gives
the same bytes.
"""

import argparse
import re
from collections.abc import Iterable, Iterator, Sequence

from lcrq_tools import model
from lcrq_tools.draw.boxes import SLOTS, Chip, Moment, Segment
from lcrq_tools.draw.figure import Session, kind_of, script_name, write_drawn
from lcrq_tools.draw.queue_drawing import draw
from lcrq_tools.draw.viewer_marks import viewer_name
from lcrq_tools.faults import Fault
from lcrq_tools.options import number_above_0, run_parser, settled
from lcrq_tools.page.mirror import Mirror, State, places_in
from lcrq_tools.records import WORDS, Actor, Cell, Place, Refusal, Step, Tail

Code = dict[str, dict[str, list[str]]]  # the lines of each control point, by the calls


# ---- Memory ---------------------------------------------------------------------------------------


def segments_of(mirror: Mirror) -> list[Segment]:
    """All segments, the linked ones first."""
    content = mirror.contents_of([place for name in mirror.chain() for place in places_in(name, mirror.ring)])
    found = []
    for name in mirror.chain():
        head, tail, following = (content[f"{kind} {name}"] for kind in ("head", "tail", "next"))
        cells = [Cell.read(content[f"cell {name} {index}"]) for index in range(mirror.ring)]
        found.append(Segment(name, int(head), Tail.read(tail), following, cells, name in mirror.linked))
    return found


# ---- Actors ---------------------------------------------------------------------------------------


def sentences(parts: Iterable[model.Part | None]) -> Iterator[model.Sentence]:
    """The sentences of a row, its conditions first in each."""
    for part in parts:
        if isinstance(part, model.Sentence):
            yield part
        elif part:
            yield from sentences([*part.conditions, part.then, part.other])


def read_words(step: model.Step) -> list[str]:
    """The words of an actor that a row reads, and not those that it sets first."""
    reads: set[str] = set()
    sets: set[str] = set()
    for sentence in sentences(step.body):
        is_condition = sentence.form in model.CONDITIONS
        for key, part in sentence.parts.items():
            is_set = key in ("word", "bit") and not is_condition
            (sets if is_set else reads).update(re.findall(r"\w+", part))
    return [word for word in WORDS if word in reads - sets]


def chip_of(number: int, actor: Actor, tried: Step | Refusal, page: Code, rows: dict[str, model.Step]) -> Chip:
    """The chip of an actor by its number, its words, and its next step, or why there is none."""
    lines = page[actor.call_word()][actor.point]
    words = [f"{word} {actor.words[word]}" for word in read_words(rows[actor.point])]
    if isinstance(tried, Step):
        return Chip(number, actor.call, actor.point, lines, words, str(tried.place))
    choice = f"a choice: starve {number} yes, or starve {number} no"
    note = choice if tried.name == "NeedsChoice" else str(tried)
    return Chip(number, actor.call, actor.point, lines, words, "", note)


def chips_of(state: State) -> list[Chip]:
    """The chips of the actors that are in a call."""
    text = model.PAGE.read_text(encoding="utf-8")
    page, (rows, _) = model.lines_of(text), model.read(text)
    return [chip_of(number, state.actors[number], tried, page, rows) for number, tried in state.tried.items()]


# ---- The moment -----------------------------------------------------------------------------------


def titles_of(arguments: argparse.Namespace, session: Session) -> tuple[str, str]:
    """The title of the figure, and the line above it."""
    lines = session.script.splitlines()
    count = len(lines)
    undone = f", {session.undone} undone" if session.undone else ""
    live = f"{session.live} live step{'' if session.live == 1 else 's'}{undone}"
    line = lines[-1].decode("ascii", "replace") if lines else ""
    asked = "".join(f"{viewer_name(viewer)}, " for viewer in session.viewers[-1:])
    where = f"after line {count}, {asked}{line}" if lines else "before the first line"
    name = f"{script_name(arguments)}, {session.world()}"
    return f"The queue of {name}, {where}: {live}", f"{where}: {live}"


def moment_of(arguments: argparse.Namespace) -> tuple[Moment, str]:
    """The moment that is asked for, and what to say of refused lines."""
    session = Session(arguments)
    count = len(session.script.splitlines())
    line: int | None = arguments.lines
    if line and count < line:
        raise Fault(f"the {kind_of(arguments)} has {count} lines: --line names one of them")
    with Mirror(session.words, session.lines, session.viewers) as mirror:
        array = mirror.contents_of(["ahead", "atail", *(f"acell {slot}" for slot in range(SLOTS))])
        segments, last = segments_of(mirror), mirror.teller.last()
        state, ends = mirror.state, mirror.ends
    idle, chips = [number for number in state.actors if number not in state.tried], chips_of(state)
    written = map(str, last.step.wrote()) if last else ()
    places = [*(chip.place for chip in chips if chip.place), *written]
    near = {*ends, *(Place.read(place).segment for place in places)}
    moment = Moment(
        *titles_of(arguments, session), session.world(), *ends, segments, array, chips, idle, last, near, state.viewer,
    )
    return moment, session.refused


# ---- The command line -----------------------------------------------------------------------------


def parser() -> argparse.ArgumentParser:
    """The command line."""
    parser = run_parser(__doc__, "session.script --line 7 -o moment.svg")
    line = "the moment after line N, in place of the last one"
    parser.add_argument("--line", dest="lines", metavar="N", type=number_above_0, help=line)
    return parser


def drawn_of(arguments: argparse.Namespace) -> tuple[str, str]:
    """The moment that is asked for as SVG, and what to say of refused lines."""
    moment, refused = moment_of(arguments)
    return draw(moment), refused


def main(words: Sequence[str] | None = None) -> int:
    """Draws the moment that a command line asks for; returns the exit status."""
    return write_drawn(settled(parser(), words), drawn_of)
