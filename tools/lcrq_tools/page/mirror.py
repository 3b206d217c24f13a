"""Follows a run line by line, and knows each of its moments as a page shows it, for `page.py` and `followed.py`.

Two runs of the program are fed the same lines. One replies to them, and is asked what each line did in words, the
actors, and the places that may have changed. The other one makes the next step of each actor and takes it back, which
loses the undone steps, so it has the live ones alone. What a line can't have changed isn't asked again: so a line takes
as long in a long run as in a short one.
"""

import functools
from collections.abc import Container, Iterable, Mapping, Sequence
from contextlib import AbstractContextManager
from dataclasses import dataclass, field, replace

from lcrq_tools.draw.askers import viewer_of
from lcrq_tools.draw.boxes import MOST_KEPT, SLOTS, counted
from lcrq_tools.draw.figure import in_order
from lcrq_tools.draw.lanes import Row, lanes_of, row_of
from lcrq_tools.draw.viewer_marks import viewer_name
from lcrq_tools.order import Order, common_of, steps_named
from lcrq_tools.program import Driven
from lcrq_tools.records import Actor, Cell, Counts, Place, Refusal, Step, all_of, content_of, is_made
from lcrq_tools.speak.board import segments_of
from lcrq_tools.speak.sentences import Seen
from lcrq_tools.speak.teller import Spoken, Teller

ENDS = ("qhead", "qtail", "ahead", "atail")
NEAR = 40  # lines after which a segment of a long list that nobody touches isn't drawn any more
MOST_NAMES = 1 << 16  # of segments, whose numbers are kept
MOST_ROWS, MOST_STATES = 800, 400  # before another moment becomes the first one, where few steps are listed
NOTHING_SAID = Spoken("", "", "")


@dataclass(frozen=True)
class State:
    """A moment of a run: what a line leaves."""

    line: int = 0  # its number; 0 before the first one
    text: str = ""
    reply: str = ""
    live: int = 0
    undone: int = 0
    viewer: int = 0  # who asked the line, where the run is of viewers
    spoken: Spoken = NOTHING_SAID  # the line with what it did, in words
    last: Step | None = None  # the last live one
    above: int = 0  # how many live steps stand above those that are listed
    rows: Sequence[int] = ()  # the live steps that are listed, and then the undone ones, by their names in `Order`
    actors: dict[int, Actor] = field(default_factory=dict)
    tried: dict[int, Step | Refusal] = field(default_factory=dict)  # each actor's next step, or why there is none
    places: dict[str, str] = field(default_factory=dict)  # the content of each place that is drawn
    linked: Sequence[str | int] = ()  # segments in the order of their links; a number for so many left out
    apart: Sequence[str | int] = ()
    slots: tuple[int, int] | None = None  # the first and the last slot of the array that is drawn
    marks: Sequence[str] = ()  # the names of the bookmarks that lines have set

    def asked(self) -> str:
        """The line, behind its viewer if it has one."""
        return f"{viewer_name(self.viewer)}, {self.text}" if self.viewer else self.text

    def content(self, lane: str) -> str:
        """What is on a lane; nothing if it isn't there."""
        place = Place.read(lane)
        if place.kind not in ("value", "index"):
            return self.places.get(lane, "")
        content = self.places.get(str(place.half("cell")))
        if not content:
            return ""
        cell = Cell.read(content)
        return cell.value_half() if place.kind == "value" else cell.index_half()


def unnumbered(seen: Seen | None) -> Seen | None:
    """A step without the numbers of other ones, which change along a page."""
    return seen and replace(seen, read=0, writer=0)


def places_in(name: str, ring: int) -> list[str]:
    """The places of a segment, a cell as one."""
    return [*(f"{kind} {name}" for kind in ("head", "tail", "next")), *(f"cell {name} {cell}" for cell in range(ring))]


def lanes_in(name: str, ring: int) -> list[str]:
    """The lanes of a segment."""
    halves = (f"{kind} {name} {cell}" for cell in range(ring) for kind in ("value", "index"))
    return [*(f"{kind} {name}" for kind in ("head", "tail", "next")), *halves]


@functools.lru_cache(MOST_NAMES)
def number_of(name: str) -> tuple[int, ...]:
    """The two numbers of a segment's name."""
    return tuple(map(int, name.split(".")))


def trials_of(actors: Iterable[int], live: int) -> list[str]:
    """What is asked for the next step of each actor, where so many steps are live: it is made and undone again."""
    number = live + 1
    return [line for actor in actors for line in (f"go {actor}", f"step {number}", f"undo {number}")]


def tried_by(actors: Iterable[int], replies: Sequence[str]) -> dict[int, Step | Refusal]:
    """The next step of each actor by these replies, or why there is none."""
    pairs = zip(replies[::3], replies[1::3])
    return dict(zip(actors, (Step.read(step) if is_made(made) else Refusal.read(made) for made, step in pairs)))


class Mirror(AbstractContextManager["Mirror"]):
    """A run that is followed. `states` has its moments from `begin` lines on."""

    def __init__(
        self, words: Sequence[str], lines: Sequence[str] = (), viewers: Sequence[int] = (), begin: int | None = None,
        most: int | None = None,
    ) -> None:
        first = len(lines) if begin is None else begin
        self.words = words
        self.most = most  # how many steps above the border are listed at the begin; all, if nothing is given
        self.texts: list[str] = []  # the lines
        self.replies: list[str] = []  # to each of them
        self.viewers: list[int] = []
        self.facts, self.trials = Driven(words), Driven(words)
        self.near: dict[str, int] = {}  # segments that are drawn wherever they are, with the line that was there last
        self.used: set[int] = set()  # slots of the array that are drawn
        self.linked: list[str] = []  # all linked segments, in the order of their links
        self.apart: list[str] = []
        self.ends: tuple[str, str] = ("", "")  # of the queue
        self.rows: dict[int, Row] = {}  # what is drawn of each step that is listed
        self.at_begin: set[int] = set()  # those of the first moment, whose rows aren't known where all are listed
        self.order = Order.begin(self.facts.ask_all)
        asked = self.trials.ask_all(steps_named(len(self.order.live)))
        self.trial_steps = [reply.partition("; ")[2] for reply in asked]  # what the live steps of the trials did
        self.feed(lines[:first], viewers[:first])
        self.teller = Teller(self.facts.ask_all)
        self.states = [self.begun()]
        for line, viewer in zip(lines[first:], viewers[first:] or [0] * (len(lines) - first)):
            self.obey(line, viewer)

    def __exit__(self, *_: object) -> None:
        self.close()

    def close(self) -> None:
        """Ends the program's runs."""
        for driven in (self.facts, self.trials):
            driven.__exit__()

    def begin_again(self) -> "Mirror":
        """The same run at the first moment."""
        first = self.states[0].line
        return Mirror(self.words, self.texts[:first], self.viewers[:first])

    @property
    def state(self) -> State:
        """The last moment."""
        return self.states[-1]

    def note(self, lines: Sequence[str], viewers: Sequence[int]) -> None:
        """Adds lines with who asked them."""
        self.texts += lines
        self.viewers += viewers or [0] * len(lines)

    # ---- The begin

    def feed(self, lines: Sequence[str], viewers: Sequence[int]) -> None:
        """Obeys lines of which no moment is known."""
        rolls = [place for place, line in enumerate(lines, 1) if line.startswith(("roll ", "goto "))]
        for first, end in zip([0, *rolls], [*rolls, len(lines)]):
            replies = self.facts.ask_all(lines[first:end])
            self.replies += replies
            for number, (line, reply) in enumerate(zip(lines[first:end], replies), first + 1):
                self.order.follow(number, line, reply, self.facts.ask_all)
        self.note(lines, viewers)

    def begun(self) -> State:
        """The first moment, of which all is asked."""
        ask = self.facts.ask_all
        counts = Counts(len(self.order.live), len(self.order.undone))
        self.ring = sum(1 for _ in all_of(ask, "show index 0.0 {}"))
        actors = dict(enumerate(map(Actor.read, all_of(ask, "actor {}", 1)), 1))
        self.begins = 1  # how often there was a first moment
        self.above = max(0, counts.live - self.most) if self.most is not None else 0
        slots = [f"acell {slot}" for slot in range(SLOTS)]
        replies = dict(zip((*ENDS, *slots), map(content_of, ask([f"show {place}" for place in (*ENDS, *slots)]))))
        self.used |= {slot for slot, place in enumerate(slots) if replies[place] != "empty"}
        self.nexts = segments_of(ask, len(actors))
        self.link(replies)
        first = State(
            len(self.texts), live=counts.live, undone=counts.undone, viewer=self.viewers[-1] if self.viewers else 0,
            actors=actors, places={place: replies[place] for place in ENDS},
        )
        state = self.completed(first, set(), {place: content for place, content in replies.items() if content})
        if self.most is None:
            self.at_begin = {*state.rows}
        else:
            self.fill_rows(state)
        return state

    def contents_of(self, places: Sequence[str]) -> dict[str, str]:
        """What is at each of these places, as far as it is there."""
        contents = map(content_of, self.facts.ask_all([f"show {place}" for place in places]))
        return {place: content for place, content in zip(places, contents) if content}

    # ---- A line

    def obey(self, line: str, viewer: int = 0) -> str:
        """Obeys a line; returns its reply."""
        before = self.order.live
        may_move = line.startswith(("undo", "roll ", "back ", "goto "))  # steps, which then have to be known
        known = dict(zip(before, self.teller.live.texts)) if may_move else {}
        before = [*before]
        spoken = self.teller.tell(line)
        self.note([line], [viewer])
        self.replies.append(spoken.reply)
        number = len(self.texts)
        self.order.follow(number, line, spoken.reply, self.facts.ask_all)
        changed = self.changed(before, known, spoken)
        state = replace(
            self.state, line=number, text=line.encode("latin-1").decode("ascii", "replace"), reply=spoken.reply,
            viewer=viewer, spoken=spoken, live=len(self.order.live), undone=len(self.order.undone),
            marks=[*self.order.marks],
        )
        if changed is not None:
            state = self.moved(state, changed)
        if self.has_left(before):
            self.begin_anew(state)
        else:
            self.put_rows(state)
            self.states.append(state)
        return spoken.reply

    def has_left(self, before: list[int]) -> bool:
        """Whether the steps that are listed are no longer all that stand around the border, or too many."""
        if self.most is None:
            return False
        above = self.order.live[: self.above] != before[: self.above]
        return above or len(self.listed()) > MOST_ROWS or len(self.states) >= MOST_STATES

    def begin_anew(self, state: State) -> None:
        """Takes a moment as the first one, with the steps around its border."""
        self.begins += 1
        self.above = max(0, state.live - (self.most or 0))
        state = replace(state, above=self.above, rows=self.listed())
        self.rows = {step: self.rows[step] for step in state.rows if step in self.rows}
        self.fill_rows(state)
        self.states = [state]

    def changed(self, before: list[int], known: dict[int, str], spoken: Spoken) -> set[Place] | None:
        """The places of the steps that a line made, took back or made again; nothing where it did none of these."""
        after = self.order.live
        if spoken.seen:
            return {spoken.seen.step.place}
        if before == after:
            return None
        same = common_of(before, after)
        gone, come = {*before[same:]} - {*after[same:]}, {*after[same:]} - {*before[same:]}
        texts = [known[step] for step in before[same:] if step in gone]
        texts += [self.teller.live.texts[place] for place, step in enumerate(after[same:], same) if step in come]
        return {Place.read(text.split("; ")[1]) for text in texts}

    def moved(self, state: State, changed: set[Place]) -> State:
        """The moment behind a line that changed these places."""
        segments = {place.segment for place in changed if place.kind in ("next", "whole")}
        names = sorted(segments, key=number_of)
        asked = [f"actor {actor}" for actor in state.actors] + [f"show {place}" for place in ENDS]
        replies = self.facts.ask_all(asked + [f"show next {name}" for name in names])
        count = len(state.actors)
        actors = {number: Actor.read(reply) for number, reply in zip(state.actors, replies)}
        ends = dict(zip(ENDS, map(content_of, replies[count:])))
        for name, following in zip(names, map(content_of, replies[count + len(ENDS):])):
            self.nexts.pop(name, "")
            self.nexts |= {name: following} if following else {}
        if names or self.ends != (ends["qhead"], ends["qtail"]):
            self.link(ends)
        return self.completed(replace(state, actors=actors), changed, ends)

    def completed(self, state: State, changed: set[Place], contents: dict[str, str]) -> State:
        """A moment whose actors are known, with all that is drawn. Of the places these may have changed, and those
        with contents are known."""
        tried = self.try_steps(state)
        touched = {step.place for step in tried.values() if isinstance(step, Step)} | changed
        self.near |= dict.fromkeys({place.segment for place in touched} - {""}, state.line)
        self.used |= {place.index or 0 for place in touched if place.kind == "acell"}
        linked, apart = (self.drawn_of(names, state.line) for names in (self.linked, self.apart))
        drawn = [name for name in (*linked, *apart) if isinstance(name, str)]
        slots = self.slots_of(contents, touched)
        last = self.teller.live[-1] if state.live else None
        places = self.places_of(state.places | contents, drawn, slots, changed)
        return replace(
            state, tried=tried, linked=linked, apart=apart, slots=slots, last=last, places=places,
            above=self.above, rows=self.listed(),
        )

    def link(self, ends: Mapping[str, str]) -> None:
        """Puts the segments into the order of their links, from the queue's ends on."""
        self.ends = ends["qhead"], ends["qtail"]
        nexts = {name: self.nexts[name] for name in sorted(self.nexts, key=number_of)}
        self.linked, self.apart = in_order(nexts, self.ends)

    def chain(self) -> list[str]:
        """All segments, the linked ones in the order of their links first."""
        return [*self.linked, *self.apart]

    def drawn_of(self, names: Sequence[str], line: int) -> list[str | int]:
        """The segments of a list that are drawn behind a line: all of a short one, and of a long one its ends and those
        that were touched lately."""
        if len(names) <= MOST_KEPT:
            return [*names]
        near = {names[0], names[-1], *self.ends}
        near |= {name for name, last in self.near.items() if line - last < NEAR}
        return counted(names, near.__contains__)

    def slots_of(self, contents: dict[str, str], touched: set[Place]) -> tuple[int, int] | None:
        """The slots of the array that are drawn: those that are used, and to which a counter leads."""
        counters = {int(contents[name]) for name in ("ahead", "atail")}
        aims = any(place.kind in ("ahead", "atail") for place in touched)
        if self.used or counters != {0} or aims:
            self.used |= counters
        return (min(self.used), max(self.used)) if self.used else None

    def places_of(
        self, before: dict[str, str], drawn: Sequence[str], slots: tuple[int, int] | None, changed: set[Place]
    ) -> dict[str, str]:
        """The content of each place that is drawn; what is known of those that didn't change isn't asked again."""
        first, last = slots or (0, -1)
        places = [*ENDS, *(f"acell {slot}" for slot in range(first, min(last, SLOTS - 1) + 1))]
        places += [place for name in drawn for place in places_in(name, self.ring)]
        whole = {place.segment for place in changed if place.kind == "whole"}
        stale = {str(place.half("cell")) if place.kind in ("value", "index") else str(place) for place in changed}
        asked = [
            place for place in places[len(ENDS):]
            if place not in before or place in stale or Place.read(place).segment in whole - {""}
        ]
        contents = before | dict(zip(asked, map(content_of, self.facts.ask_all([f"show {place}" for place in asked]))))
        return {place: contents[place] for place in places if contents.get(place)}

    def try_steps(self, state: State) -> dict[int, Step | Refusal]:
        """What each actor's next step would be."""
        busy = [number for number, actor in state.actors.items() if not actor.is_idle()]
        texts = self.teller.live.texts
        same = common_of(self.trial_steps, texts)
        back = [f"back {len(self.trial_steps) - same}"] if len(self.trial_steps) > same else []
        lines = back + [text.partition("; ")[0] for text in texts[same:]]
        self.trial_steps = [*texts]
        replies = self.trials.ask_all([*lines, *trials_of(busy, state.live)])
        return tried_by(busy, replies[len(lines):])

    # ---- Rows

    def listed(self) -> list[int]:
        """The steps that are listed now."""
        listed = self.order.all()[self.above:]
        return listed if self.most is None else listed[: len(self.order.live) - self.above + self.most]

    def put_rows(self, state: State) -> None:
        """Puts in the row of the step that a line made, or the rows of steps that come from elsewhere."""
        seen = state.spoken.seen
        if seen is None:
            if any(step not in self.rows and step not in self.at_begin for step in state.rows):
                self.fill_rows(state)
            return
        row, before = row_of(seen.step), self.state
        touched = self.lanes_of(seen.step.place)
        contents = [(lane, before.content(lane), state.content(lane)) for lane in touched]
        row.fill(before.actors[row.actor()], contents)
        row.seen, row.viewer = unnumbered(seen), state.viewer
        self.rows[len(self.texts)] = row

    def lanes_of(self, place: Place) -> list[str]:
        """The lanes of a place."""
        return lanes_of(place, lanes_in(place.segment, self.ring) if place.kind == "whole" else ())

    def fill_rows(self, state: State, wanted: Container[int] | None = None) -> None:
        """Puts in the rows of a moment that aren't known, all or those that are wanted, going along their steps and
        back."""
        missing = [
            place for place, step in enumerate(state.rows, state.above)
            if step not in self.rows and (wanted is None or step in wanted)
        ]
        if not missing:
            return
        first, last = missing[0], missing[-1] + 1
        texts = self.texts_of(first, last)
        self.facts.ask_all(moved_between(state.live, first))
        for place, text in enumerate(texts, first):
            row = row_of(Step.read(f"step {place + 1}; {text}"))
            lanes = lanes_in(row.step.place.segment, self.ring) if row.step.place.kind == "whole" else ()
            row.take(lanes, self.facts.ask_all(row.questions(lanes, place)))
            step = state.rows[place - state.above]
            row.viewer = viewer_of(step, self.viewers)
            self.rows[step] = row
        self.facts.ask_all(moved_between(last, state.live))

    def texts_of(self, first: int, last: int) -> list[str]:
        """What the steps at these places did, live or undone, as texts."""
        live = len(self.order.live)
        more = max(0, last - live)
        asked = [f"step {place + 1}" for place in range(first, last)]
        lines = [f"forward {more}", *asked, f"back {more}"] if more else asked
        replies = self.facts.ask_all(lines)
        return [reply.partition("; ")[2] for reply in (replies[1:-1] if more else replies)]


def moved_between(before: int, after: int) -> list[str]:
    """The line that leads from so many live steps to so many."""
    if before == after:
        return []
    return [f"forward {after - before}" if after > before else f"back {before - after}"]
