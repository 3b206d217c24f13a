"""Asks the program anew what a moment of a run has, for the checks of pictures, pages and the browser.

They compare it with what they read from a drawing. It is asked in another way than the drawing was made: of the
session's trace, which `lcrqdb load` loads, or of a new run of the script. Only Python's standard library is used.
"""

import contextlib
import itertools
import json
from collections.abc import Callable, Collection, Iterable, Iterator, Mapping, Sequence
from dataclasses import replace
from typing import Any, NamedTuple

from lcrq_tools import program
from lcrq_tools.checks.answers import file_of
from lcrq_tools.draw.figure import Session
from lcrq_tools.draw.lanes import lanes_of
from lcrq_tools.faults import Fault
from lcrq_tools.records import Actor, Counts, Place, Step, content_of, is_made
from lcrq_tools.speak.sentences import Seen, of_actor, of_step
from lcrq_tools.speak.teller import Teller, asked_of, seen_of

TRACE = "--trace"
SLOTS = 64  # of the array
CELL = ("cell", "value", "index")  # a cell, and its halves

Trace = dict[str, Any]  # as JSON has it
Ask = Callable[[list[str]], list[str]]  # gives the replies to lines that are asked of a moment


# ---- Runs ----------------------------------------------------------------------------------------


def written(words: list[str], script: bytes = b"") -> list[str]:
    """The lines that a run writes which ends well."""
    ended = program.run(words, script)
    if ended.status or ended.errors:
        raise Fault(f"status {ended.status} of {' '.join(words[1:])}: {ended.errors.strip()}")
    text = ended.output.decode("latin-1")
    if not text.endswith("\n"):
        raise Fault(f"{' '.join(words[1:])} writes no line feed at the end")
    return program.lines_of(text)


def trace_of(session: Session) -> Trace:
    """A session as a trace."""
    built, command, *others = session.words
    trace: Trace = json.loads(written([built, command, TRACE, *others], session.script)[-1])
    return trace


@contextlib.contextmanager
def loaded(built: str, trace: Trace) -> Iterator[Ask]:
    """What asks a trace, which is loaded anew for each list of lines."""
    with file_of(json.dumps(trace)) as name:
        yield lambda lines: written([built, "load", name], program.script_of(lines))


# ---- A moment ------------------------------------------------------------------------------------


def array() -> list[str]:
    """The places of the array."""
    return ["ahead", "atail", *(f"acell {slot}" for slot in range(SLOTS))]


def places_of(segments: Iterable[str], ring: int) -> list[str]:
    """The queue's ends, and the places of these segments."""
    names = [f"{kind} {name}" for name in segments for kind in ("whole", "head", "tail", "next")]
    cells = [f"{name} {cell}" for name in segments for cell in range(ring)]
    return ["qhead", "qtail", *names, *(f"{kind} {cell}" for cell in cells for kind in CELL)]


def segments_of(trace: Trace) -> set[str]:
    """The segments of a trace's start, and the root."""
    given = enumerate(trace.get("start", {}).get("segments", []))
    return {"0.0", *(f"{maker}.{index}" for maker, segments in given for index in range(len(segments)))}


def chain_of(nexts: Mapping[str, str]) -> list[str]:
    """The segments in the order of their links from the root on, by what follows each."""
    chain = ["0.0"]
    while nexts[chain[-1]] != "none":
        chain.append(nexts[chain[-1]])
    return chain


class Call(NamedTuple):
    """What a drawing has of an actor in a call."""

    stand: str  # its control point and its call
    words: str  # some of its words
    place: str  # that its next step would touch


class Replies:
    """The replies about the moment of a session: about all actors and steps, the places of these segments and of
    those that a step names, and these places of the array."""

    def __init__(self, ask: Ask, session: Session, segments: Collection[str], slots: Sequence[str]) -> None:
        self.live, self.undone, self.ring = session.live, session.undone, session.ring
        self.numbers = range(1, session.actors + 1)
        self.ask_all(ask, [*places_of(segments, self.ring), *slots])
        named = {step.place.segment for step in self.steps} - {""}
        if not named <= {*segments}:
            self.ask_all(ask, [*places_of({*named, *segments}, self.ring), *slots])

    def ask_all(self, ask: Ask, places: Sequence[str]) -> None:
        """Asks all in one run. An undone step is replied as long as it is made again, and a step that an actor
        would make is made and left."""
        forward, back = ([f"{word} {self.undone}"] * bool(self.undone) for word in ("forward", "back"))
        words = [place for place in places if not place.startswith(("whole ", "cell "))]
        parts = [
            ["len"],
            [f"actor {actor}" for actor in self.numbers],
            [f"show {place}" for place in places],
            [f"writer {place}" for place in words],
            forward,
            [f"step {number}" for number in range(1, self.live + self.undone + 1)],
            [*back, "mark here"],
            [line for actor in self.numbers for line in (f"go {actor}", f"step {self.live + 1}", "goto here")],
        ]
        replies = iter(ask([*itertools.chain(*parts)]))
        length, stands, shown, writers, _, self.records, _, tried = (
            [*itertools.islice(replies, len(part))] for part in parts
        )
        if length != [f"at {self.live} {self.undone}"]:
            raise Fault(f"{self.live} steps are live and {self.undone} undone, and the program replies {length}")
        self.actors = {actor: stand.removeprefix("actor ") for actor, stand in zip(self.numbers, stands)}
        self.busy = [actor for actor, stand in self.actors.items() if not stand.startswith("Idle ")]
        self.contents = {place: content for place, content in zip(places, map(content_of, shown)) if content}
        self.nexts = {place[5:]: name for place, name in self.contents.items() if place.startswith("next ")}
        self.writers = dict(zip(words, writers))
        self.steps = [*map(Step.read, self.records)]
        self.tried = dict(zip(self.numbers, zip(tried[::3], tried[1::3])))  # the replies to `go` and to `step`

    def touched(self, actor: int) -> str:
        """The place that an actor's next step would touch; nothing if there is none."""
        reply, record = self.tried[actor]
        return str(Step.read(record).place) if is_made(reply) else ""

    def is_last_written(self, name: str) -> bool:
        """Whether the last live step wrote this place. Where it made a segment, that is written as a whole."""
        place, last = Place.read(name), self.steps[self.live - 1].place if self.live else Place("qhead")
        is_new = last.kind == "whole" and last.segment == place.segment
        if is_new or place.kind == "whole":
            return is_new and place.kind == "whole"
        return self.writers.get(name) == f"writer {self.live}"

    # ---- What is wrong with what a drawing has ----

    def marks_fault(self, places: Iterable[str], marked: Collection[str]) -> str:
        """Which of these places is marked as written last and is not, or the other way round, or nothing."""
        wrong = next((place for place in places if (place in marked) != self.is_last_written(place)), "")
        return wrong and f"{wrong} is marked or is not, and {self.writers.get(wrong)} made its last write"

    def segments_fault(self, linked: list[str], apart: Collection[str], wanted: Collection[str]) -> str:
        """What is wrong with the segments that a drawing has in the order of their links and apart, or nothing:
        these are wanted."""
        made = {step.place.segment for step in self.steps[: self.live] if step.place.kind == "whole"}
        if sorted([*linked, *apart]) != sorted(wanted) or not made <= {*self.nexts}:
            return f"the segments {linked} and {apart} are shown, wanted {wanted}; {made} are made"
        chain = chain_of(self.nexts)
        if linked != [name for name in chain if name in linked]:
            return f"the segments are in the order {linked}, and their links lead along {chain}"
        named = {"0.0", *self.nexts.values(), self.contents["qhead"], self.contents["qtail"]}
        unlinked = ({*self.nexts} - named) & {*wanted}
        return "" if {*apart} == unlinked else f"the segments {apart} are shown as never linked"

    def drawn_fault(self, state: Mapping[str, Any]) -> str:
        """Which place or segment of a page's moment isn't as the program replies, or is missing there, or nothing. Of
        long lists some segments are counted, and slots of the array that nobody used are left out."""
        linked, apart = ([name for name in state[part] if isinstance(name, str)] for part in ("linked", "apart"))
        wanted = places_of([*linked, *apart], self.ring)
        drawn = {place for place in wanted if not place.startswith(("whole ", "value ", "index "))}
        used = {place for place, content in self.contents.items() if place.startswith("acell ") and content != "empty"}
        for place in sorted({*drawn, *used, "ahead", "atail", *state["places"]}):
            content, other = state["places"].get(place), self.contents.get(place)
            if content != other:
                return f"{place} is {content}, and {other} as the program replies"
        halves = [half for place in state["places"] for half in lanes_of(Place.read(place), ())]
        marks = self.marks_fault([*halves, *(f"whole {name}" for name in [*linked, *apart])], state["written"])
        left_out = len(self.nexts) - len(linked) - len(apart)
        if left_out != sum(count for count in [*state["linked"], *state["apart"]] if isinstance(count, int)):
            return f"{left_out} segments are left out of {state['linked']} and {state['apart']}"
        return marks or self.segments_fault(linked, apart, [*linked, *apart] if left_out else [*self.nexts])

    def actors_fault(self, calls: Mapping[int, Call]) -> str:
        """Which actor has another call than replied, or nothing."""
        if {*calls} != {*self.busy}:
            return f"the actors {[*calls]} are shown in a call, and {self.busy} are in one"
        return next(filter(None, (self.call_fault(actor, call) for actor, call in calls.items())), "")

    def chips_fault(self, chips: Mapping[str, Any]) -> str:
        """Which actor of a page's moment has another call than replied, or nothing."""
        return self.actors_fault({
            int(actor): Call(f"{chip['point']} {chip['call']}", chip["words"], chip["place"])
            for actor, chip in chips.items() if chip
        })

    def call_fault(self, actor: int, call: Call) -> str:
        """What of an actor in a call isn't as replied, or nothing."""
        about, _, rest = self.actors[actor].partition(" crq ")  # as it stands, not by records.py
        if call.stand != about:
            return f"actor {actor} is at {call.stand}, and the program replies {about}"
        for word in call.words.removeprefix("its words: ").split(", ") if call.words else []:
            if f" {word} " not in f" crq {rest} ":
                return f"actor {actor} has {word}, and its words are crq {rest}"
        wanted, reply = self.touched(actor), self.tried[actor][0]
        return "" if call.place == wanted else f"actor {actor} would touch {call.place}, wanted {wanted} by {reply}"


def asked_at(session: Session, drawn: Collection[str] = ()) -> Replies:
    """The replies about a session, which is loaded as a trace, and about these segments and those of its start."""
    trace = trace_of(session)
    with loaded(session.words[0], trace) as ask:
        return Replies(ask, session, {*drawn, *segments_of(trace)}, array())


# ---- What a drawing says ---------------------------------------------------------------------------


def seen_along(words: list[str], steps: Sequence[Step]) -> list[Seen]:
    """The steps of a run of these words, each with what is around it: its events are made anew, one by one."""
    parts = []
    for step in steps:
        stand = f"actor {step.event.actor}"
        parts.append([stand, str(step.event), stand, *asked_of(step)])
    with program.Driven(words) as driven:
        driven.ask_all([f"back {Counts.read(driven.ask('len')[0]).live}"])
        replies = iter(driven.ask_all([*itertools.chain(*parts)]))
    found = []
    for step, part in zip(steps, parts):
        before, made, after, *about = itertools.islice(replies, len(part))
        if not is_made(made):
            raise Fault(f"step {step.number} is answered {made} when it is made anew")
        found.append(seen_of(step, Actor.read(before), Actor.read(after), about, steps))
    return found


def labels_along(words: list[str], steps: Sequence[Step]) -> list[str]:
    """What the rows of these steps say on a page, where no other step is named."""
    return [of_actor(replace(seen, read=0, writer=0)) for seen in seen_along(words, steps)]


def told_by(words: list[str], lines: Sequence[str]) -> list[str]:
    """What each of these lines did, as a page says it behind its reply."""
    with program.Driven(words) as driven:
        teller = Teller(driven.ask_all)
        spoken = [teller.tell(line) for line in lines]
    texts = [of_step(each.seen) if each.seen else each.sentence.removeprefix("refused: ") for each in spoken]
    return [f"{text[:1].upper()}{text[1:]}{'' if text.endswith(('?', '.')) else '.'}" for text in texts]
