"""Draws a run as a picture: who touched which place, in which order.

    python3 tools/picture.py session.script --undo 8 -o run.svg

SCRIPT, or its first N lines, is run by the built program. What is drawn is what the script leaves: the
live steps, and pale below them the undone ones in the order of `redo`.

An actor and a place are drawn alike: each is a lane from top to bottom. A step is a row from its
actor's lane to the lanes of its place. A filled dot is a write, with what is there now; a hollow
one a read, with what was there; a cross a compare-and-swap that lost. A cell has two lanes, for its
two halves, and making a segment writes all lanes of the segment. So two steps depend on each other
exactly if they have dots on one lane and one of the two is filled; each dot on an actor's lane is.
A shade along an actor's lane is a call, from its first step to its reply. Segments stand in the
order of their links at the run's end, and last, in broken frames, those that were never linked.

`--undo K` shows what the line `undo K` is answered: if it is refused, a bar runs along the lane
that step K shares with the step that is named; if not, the row is framed. In a part of a run an actor
that is in a call has its lane though it makes no step. Steps keep their numbers, and a break stands where
some are left out. Of a history each step has the mark of the viewer whose line made it, whoever undid it
or made it again.

Each fact is a reply of the program to a line of a script: this is a client of its text interface.
The same input gives the same bytes.
"""

import argparse
import json
from collections import Counter
from collections.abc import Collection, Sequence
from dataclasses import dataclass
from pathlib import Path

from lcrq_tools.draw.askers import viewers_after
from lcrq_tools.draw.drawing import draw
from lcrq_tools.draw.figure import Session, in_order, kind_of, script_name, write_drawn
from lcrq_tools.draw.lanes import Call, Picture, Row, actor_lane, actor_of, lanes_at, order_of, row_of
from lcrq_tools.faults import Fault
from lcrq_tools.options import number_above_0, run_parser, settled
from lcrq_tools.records import Counts, Place, Refusal, Step, content_of, read_reply, stand_of

MOST_ROWS = 200

# The start of a trace, as far as it is read here: its `actors`, and its `segments` by their makers. A fresh world
# has neither.
Start = dict[str, list[list[object]]]

# ---- Steps ----------------------------------------------------------------------------------------


def records_of(session: Session) -> list[str]:
    """The replies to `step K` of each live step, and then of each undone one."""
    steps = [f"step {number}" for number in range(1, session.live + session.undone + 1)]
    return session.ask_parts([[f"forward {session.undone}"], steps])[1]


def rows_of(session: Session) -> list[Row]:
    """The rows of all steps, each with its viewer where the run has viewers."""
    rows = [row_of(step, step.number > session.live) for step in map(Step.read, records_of(session))]
    if session.viewers:
        lines = len(session.viewers)
        for row, viewer in zip(rows, viewers_after(session, [lines])[lines]):
            row.viewer = viewer
    return rows


# ---- Which steps are drawn ------------------------------------------------------------------------


@dataclass
class Choice:
    """Which steps are drawn: those from the first to the last that are at one of these places or of
    one of these actors; all of them, where no place and no actor is named."""

    first: int
    last: int
    places: list[Place]
    actors: list[int]

    def has(self, row: Row) -> bool:
        """Whether this step is drawn, if it is among the first to the last."""
        is_any = not self.places and not self.actors
        return is_any or row.actor() in self.actors or any(map(row.step.place.overlaps, self.places))

    def words(self) -> str:
        """Where the steps are or whose they are, in words; nothing where all are drawn."""
        kinds: list[tuple[str, Sequence[object]]] = [("at", self.places), ("of actor", self.actors)]
        return " or ".join(f"{word} {' or '.join(map(str, chosen))}" for word, chosen in kinds if chosen)

    def rows_of(self, rows: list[Row], asked: int | None) -> list[Row]:
        """The rows that are drawn, among which that of the step that is asked about has to be."""
        chosen = [row for row in rows[self.first - 1: self.last] if self.has(row)]
        if asked and not self.first <= asked <= self.last:
            raise Fault(f"step {asked} is not among the steps {self.first} to {self.last} that are drawn")
        if asked and asked not in [row.step.number for row in chosen]:
            raise Fault(f"step {asked} is not drawn, since it is not {self.words()}")
        if not chosen:
            raise Fault(f"no step from {self.first} to {self.last} is {self.words()}")
        if len(chosen) > MOST_ROWS:
            options = "--from, --to, --places and --actor"
            raise Fault(f"the picture would have {len(chosen)} steps: {options} choose at most {MOST_ROWS} of them")
        return chosen


def window_of(arguments: argparse.Namespace, count: int) -> tuple[int, int]:
    """The first and the last step between which steps are drawn."""
    first: int = arguments.first or 1
    last: int = arguments.last or count
    if not count:
        raise Fault(f"the {kind_of(arguments)} leaves no step to draw")
    if not 1 <= first <= last <= count:
        raise Fault(f"the run has the steps 1 to {count}: --from and --to name a part of them")
    return first, last


def words_of(texts: list[str] | None) -> list[str]:
    """The words of an option that may be repeated and that lists some each time."""
    return list(dict.fromkeys(word.strip() for text in texts or [] for word in text.split(",")))


def actors_of(arguments: argparse.Namespace, session: Session) -> list[int]:
    """The actors that are chosen, each of which the world has to have."""
    texts: list[str] | None = arguments.of_actors
    words = words_of(texts)
    for word in words:
        if word not in map(str, range(1, session.actors + 1)):
            raise Fault(f"--actor {word!a}: the world has the actors 1 to {session.actors}")
    return sorted(map(int, words))


def places_of(arguments: argparse.Namespace, session: Session) -> list[Place]:
    """The places that are chosen, each of which the program has to show at the end of the run."""
    texts: list[str] | None = arguments.places
    words = words_of(texts)
    for word in words:
        if not (word.isascii() and word.isprintable()):
            raise Fault(f"--places {word!a}: no place has such a name")
    shows = [f"show {word}" for word in words]
    for word, reply in zip(words, session.ask_parts([[f"forward {session.undone}"], shows])[1] if shows else []):
        if not content_of(reply):
            raise Fault(f"--places {word!a}: {reply}")
    return [Place.read(word) for word in words]


# ---- Lanes ----------------------------------------------------------------------------------------


def places_drawn(rows: list[Row], choice: Choice) -> list[str]:
    """The lanes of memory that a picture of these rows has: those of their places, and of what is
    chosen of segments that they make."""
    touched = [row.step.place for row in rows]
    makings = [place for place in touched if place.kind == "whole"]
    chosen = [place for place in choice.places if any(map(place.overlaps, makings))]
    return list(dict.fromkeys(lane for place in [*touched, *chosen] for lane in lanes_at(place)))


def actors_drawn(rows: list[Row], choice: Choice, stands: dict[str, str]) -> list[str]:
    """The lanes of actors: of those with a row, and where a row has what is there before the first
    step, of those that are in a call then and aren't left out."""
    busy = [actor for actor in stands if stands[actor]]
    if choice.words():
        busy = [actor for actor in busy if actor in map(actor_lane, choice.actors)]
    return list(dict.fromkeys([*(actor_lane(row.actor()) for row in rows), *busy]))


# ---- What the program replies along the run --------------------------------------------------------


def trace_of(arguments: argparse.Namespace) -> Start:
    """The start of the trace over which the script is run; nothing over a fresh world."""
    name: str | None = arguments.trace
    if not name:
        return {}
    trace: dict[str, Start] = json.loads(Path(name).read_text(encoding="utf-8"))
    return trace.get("start", {})


def segments_of(rows: list[Row], start: Start) -> list[str]:
    """The names of the segments of a run: the root, those of the trace, and those of its steps."""
    given = [f"{maker}.{index}" for maker, made in enumerate(start.get("segments", [])) for index in range(len(made))]
    return list(dict.fromkeys(["0.0", *given, *filter(None, (row.step.place.segment for row in rows))]))


def ask_along(
    session: Session, first: int, rows: list[Row], steps: list[Step], lanes: list[str], names: list[str]
) -> tuple[dict[str, str], list[str], list[str]]:
    """Goes along the run of these steps from this one to the end, and asks about its rows and its lanes of
    memory. Returns what is on each lane before the first step, and where each actor is; the linked segments,
    and the others."""
    actors = [actor_lane(actor) for actor in range(1, session.actors + 1)]
    before = [first - 1, *(row.step.number for row in rows)]
    _, start, *about, _, end = session.ask_parts([
        session.moved_to(first),
        [*actors, *(f"show {lane}" for lane in lanes)],
        *(row.questions(lanes, number) for row, number in zip(rows, before)),
        [f"forward {session.live + session.undone - before[-1]}"],
        [f"show {place}" for place in ("qhead", "qtail", *(f"next {name}" for name in names))],
    ])
    for row, replies in zip(rows, about):
        row.take(lanes, replies, () if row.is_undone else steps)
    head, tail, *nexts = map(content_of, end)
    return dict(zip([*actors, *lanes], map(stand_of, start))), *in_order(dict(zip(names, nexts)), [head, tail])


def calls_of(rows: list[Row], stands: dict[str, str], lanes: Collection[str]) -> list[Call]:
    """The calls of the actors that have lanes, by all steps from the first to the last that may be
    drawn, and by where the actors are before them."""
    calls, begun = [], {lane: 0 for lane, stand in stands.items() if stand}
    for row in rows:
        lane = actor_lane(row.actor())
        if row.step.event.is_call():
            begun[lane] = row.step.number
        if row.step.reply:
            calls.append(Call(row.actor(), begun.pop(lane), row.step.number))
    calls += [Call(actor_of(lane), begin, None) for lane, begin in begun.items()]
    return [call for call in calls if actor_lane(call.actor) in lanes]


# ---- What is asked of it --------------------------------------------------------------------------


def shared_lane(row: Row, other: Row) -> str:
    """The lane on which two rows have dots of which one is filled: that of their actor, or the
    first of memory."""
    if row.actor() == other.actor():
        return actor_lane(row.actor())
    kinds = {dot.lane: dot.kind for dot in row.dots}
    for dot in other.dots:
        if dot.lane in kinds and "wrote" in (dot.kind, kinds[dot.lane]):
            return dot.lane
    raise Fault(f"steps {row.step.number} and {other.step.number} share no lane")


def ask_undo(session: Session, picture: Picture, step: int) -> None:
    """Marks what `undo K` is answered."""
    line = f"undo {step}"
    reply = read_reply(session.ask([line])[0])
    picture.asked = f"{line}: {reply}"
    indexes = {row.step.number: index for index, row in enumerate(picture.rows)}
    if isinstance(reply, Counts):
        picture.frame = indexes[step]
    elif isinstance(reply, Refusal) and reply.name == "Depended":
        later = int(reply.data[0])
        if later > picture.last:
            raise Fault(f"{picture.asked}, which is after the last row: --to {later} has it")
        if later not in indexes:
            raise Fault(f"{picture.asked}, which is not drawn, since it is not {picture.chosen}")
        ends = indexes[step], indexes[later]
        picture.bar = (shared_lane(*(picture.rows[index] for index in ends)), *ends)
    else:
        raise Fault(picture.asked)


def ask_roll(session: Session, picture: Picture, step: int, rows: list[Row]) -> None:
    """Marks the rows that `roll K` takes: the last ones of each actor, as many as have gone."""
    line = f"roll {step}"
    reply = read_reply(session.ask([line])[0])
    picture.asked = f"{line}: {reply}"
    if not isinstance(reply, Counts):
        raise Fault(picture.asked)
    taken = reply.undone - session.undone
    asked = [f"step {number}" for number in range(reply.live + 1, session.live + 1)]
    steps = map(Step.read, session.ask_parts([[line, f"forward {taken}"], asked])[1])
    gone = Counter(step.event.actor for step in steps)
    for row in reversed(rows[: session.live]):
        row.goes = gone[row.actor()] > 0
        gone[row.actor()] -= 1
    picture.hidden = taken - sum(row.goes for row in picture.rows)


def ask_free(session: Session, picture: Picture) -> None:
    """Marks the live steps that could be undone alone now. Each is asked about, the last one first,
    and is made again where it was undone: it is then after all that are asked about later."""
    picture.shows_free = True
    with session.driven("the steps that are free") as driven:
        for line in session.lines:
            driven.ask(line)
        for row in reversed([row for row in picture.rows if not row.is_undone]):
            row.is_free = driven.ask(f"undo {row.step.number}")[0].startswith("at ")
            if row.is_free:
                driven.ask("redo")


# ---- The picture ----------------------------------------------------------------------------------


def drawn_rows(session: Session, choice: Choice, all_rows: list[Row], rows: list[Row], start: Start) -> Picture:
    """The picture of these rows out of all, with nothing asked of it."""
    name = f"after {choice.first - 1}" if choice.first > 1 else "start" if "actors" in start else ""
    memory = places_drawn(rows, choice)
    steps, names = [row.step for row in all_rows], segments_of(all_rows, start)
    stands, linked, apart = ask_along(session, choice.first, rows, steps, memory, names)
    actors = {lane: stand for lane, stand in stands.items() if actor_of(lane)}
    lanes = [*actors_drawn(rows, choice, actors if name else {}), *memory]
    chain = [*linked, *apart]
    lanes.sort(key=lambda lane: order_of(lane, chain))
    picture = Picture(
        "", lanes, rows, {lane: stands[lane] for lane in lanes}, choice.first, choice.last, name, choice.words()
    )
    picture.apart = {*apart} & {Place.read(lane).segment for lane in memory}
    picture.calls = calls_of(all_rows[choice.first - 1: choice.last], actors, lanes)
    return picture


def picture_of(arguments: argparse.Namespace) -> tuple[Picture, str]:
    """The picture that is asked for, and what to say of refused lines."""
    undo: int | None = arguments.undo
    roll: int | None = arguments.roll
    session = Session(arguments)
    window = window_of(arguments, session.live + session.undone)
    choice = Choice(*window, places_of(arguments, session), actors_of(arguments, session))
    all_rows = rows_of(session)
    rows = choice.rows_of(all_rows, undo or roll)
    picture = drawn_rows(session, choice, all_rows, rows, trace_of(arguments))
    if undo:
        ask_undo(session, picture, undo)
    if roll:
        ask_roll(session, picture, roll, all_rows)
    if arguments.free:
        ask_free(session, picture)
    picture.title = title_of(arguments, session, picture)
    return picture, session.refused


def title_of(arguments: argparse.Namespace, session: Session, picture: Picture) -> str:
    """What the picture shows, in a line."""
    name = script_name(arguments)
    lines: int | None = arguments.lines
    name += f", to line {lines}" if lines else ""
    whole = (picture.first, picture.last) == (1, session.live + session.undone)
    chosen = f"; drawn: {len(picture.rows)} {picture.chosen}" if picture.chosen else ""
    part = "" if whole else f"{'' if chosen else ','} from step {picture.first} to step {picture.last}"
    undone = f" and {session.undone} undone" if session.undone else ""
    asked = f"; {picture.asked}" if picture.asked else ""
    return f"The run of {name}, {session.world()}: {session.live} live steps{undone}{chosen}{part}{asked}"


# ---- The command line -----------------------------------------------------------------------------


def parser() -> argparse.ArgumentParser:
    """The command line."""
    parser = run_parser(__doc__, "session.script --undo 8 -o run.svg")
    asked = parser.add_mutually_exclusive_group()
    asked.add_argument("--undo", metavar="K", type=number_above_0, help="show what the line `undo K` is answered")
    asked.add_argument("--roll", metavar="K", type=number_above_0, help="shade the steps that `roll K` takes")
    parser.add_argument("--free", action="store_true", help="mark each live step that could be undone alone now")
    parser.add_argument("--from", dest="first", metavar="A", type=number_above_0, help="the first step that is drawn")
    parser.add_argument("--to", dest="last", metavar="B", type=number_above_0, help="the last step that is drawn")
    places = "draw steps at these places alone, as in `tail 0.0,cell 0.0 1`"
    parser.add_argument("--places", action="append", metavar="PLACE,..", help=places)
    actors = "draw the steps of these actors alone; with --places those at its places too"
    parser.add_argument("--actor", dest="of_actors", action="append", metavar="A,..", help=actors)
    parser.add_argument("--lines", metavar="N", type=number_above_0, help="run the first N lines of the script alone")
    return parser


def drawn_of(arguments: argparse.Namespace) -> tuple[str, str]:
    """The picture that is asked for as SVG, and what to say of refused lines."""
    picture, refused = picture_of(arguments)
    return draw(picture), refused


def main(words: Sequence[str] | None = None) -> int:
    """Writes the picture that the command line asks for; returns the exit status."""
    return write_drawn(settled(parser(), words), drawn_of)
