"""Takes the port's side of a difference for `conform.py --go-on`, so that a comparison goes on behind it: the
world before the step is frozen, one of its words is changed, and the run goes on over that start.

Which change will do is tried through the program: a start has to load, and the step over it has to
do what the port did.
"""

import copy
import itertools
import json
from collections.abc import Iterator
from dataclasses import dataclass

from lcrq_tools import program, records
from lcrq_tools.port.port_compare import Comparison, Difference
from lcrq_tools.records import Cell, Place, Step, Tail, content_of, is_made
from lcrq_tools.start.starts import IDLE, WORDS, Actor, Trace, actor_of, segment_names, set_content, text_of, with_words

MOST_WORDS = 2  # that are changed beside the control point


@dataclass
class Change:
    """A start that may take the port's side, and what to put back when the step is made."""

    said: str
    start: Trace
    restored: tuple[Place, str] | None = None  # a place, and its content


# ---- Changes -------------------------------------------------------------------------------------


def one_word(actor: Actor) -> list[tuple[str, object]]:
    """Words that may keep an actor from being at another control point, with other values."""
    bits = [(word, value) for word in ("safe", "closed") for value in (False, True)]
    numbers = [("idx", actor["t"]), ("idx", actor["h"]), ("idx", max(0, actor["h"] - 1)), ("h", actor["t"] + 1)]
    return [("val", None), ("val", 0), *bits, *numbers, ("pass", 0), ("pass", 1), ("pass", 2)]


class Side:
    """Takes the port's side of one difference."""

    def __init__(self, comparison: Comparison, found: Difference):
        self.comparison, self.found, self.replay = comparison, found, comparison.replay
        self.actor = found.record.actor
        self.world = self.replay.start()

    def take(self) -> str:
        """Takes it; returns what was changed, or nothing if no change will do."""
        if self.found.record.kind == "reply":
            return self.take_reply()
        if self.found.kind == "words":
            return self.take_words()
        if self.found.kind == "choice" and self.comparison.choose(self.found.record):
            return "nothing: the choice at E10 follows from the record"
        for change in self.changes():
            if self.is_taken_by(change):
                return self.go_on(change)
        if self.found.kind == "reuse":
            self.make_step()
            return "nothing: the name is the new segment's from here on"
        return ""

    def changes(self) -> Iterator[Change]:
        """The changes that are tried, the smallest first."""
        record = self.found.record
        if self.found.kind == "call":
            yield self.with_actor(IDLE, "the actor is in no call")
        elif record.label and self.found.kind in ("line", "choice"):
            yield from self.at_point(record.label)
        elif self.found.kind in ("place", "access", "line", "choice") and not record.label:
            for label in sorted(self.replay.steps.all_points() - {"Idle"}):
                yield from self.at_point(label, 0)
        if self.found.made and not self.found.made.answer.startswith("made "):
            yield from self.contents(self.found.made.place)

    def with_actor(self, record: Actor, said: str) -> Change:
        """The world with another record of the actor."""
        changed = copy.deepcopy(self.world)
        changed["start"]["actors"][self.actor - 1] = record
        return Change(said, changed)

    def at_point(self, label: str, most: int = MOST_WORDS) -> Iterator[Change]:
        """The actor at another control point, with other words where these don't fit it."""
        actor = self.world["start"]["actors"][self.actor - 1]
        if actor["pc"] == "Idle" and self.actor in self.comparison.states_before:
            actor = actor_of(self.comparison.states_before[self.actor])
        for count in range(most + 1):
            for words in itertools.combinations(one_word(actor), count):
                others = [f"{word} {json.dumps(value)}" for word, value in words]
                changed = with_words(actor, {**dict(words), "pc": label})
                yield self.with_actor(changed, ", ".join([f"pc {label}", *others]))

    def contents(self, place: Place) -> Iterator[Change]:
        """Other contents of the place of the step: what the port found there, what its
        compare-and-swap expects, and what it does not expect."""
        before = content_of(self.replay.ask([f"show {place}"])[0])
        for content in self.contents_of(place, before):
            changed = copy.deepcopy(self.world)
            try:
                set_content(changed["start"], place, content)
            except (ValueError, LookupError, TypeError):
                continue
            lost = self.found.port == "lost" or self.found.kind == "access" and self.found.port == "read"
            yield Change(f"{place} is {content}", changed, (place, before) if lost else None)

    def contents_of(self, place: Place, before: str) -> Iterator[str]:
        """The contents that are tried at a place."""
        words = self.found.state.words
        answer = self.comparison.names.meant(self.found.record.answer)
        if answer and answer not in ("won", "lost"):
            yield answer
        names = [name for name, _, _ in segment_names(self.world["start"])]
        if place.kind in ("qhead", "qtail", "next"):
            yield from dict.fromkeys([words["crq"], "none", words["next"], words["new"], *names])
        elif place.kind == "tail":
            yield from (f"open {words['t']}", str(Tail(True, Tail.read(before).count)))
        elif place.kind == "cell":
            cell = Cell.read(before)
            yield from (f"{words['safe']} {words['idx']} {words['val']}", f"{words['safe']} {words['idx']} none")
            yield str(Cell(cell.is_safe, cell.index + 1, cell.value))

    # ---- Trials

    def is_taken_by(self, change: Change) -> bool:
        """Whether the record's step over a changed start takes the port's side of this difference."""
        record, file = self.found.record, self.replay.folder / "tried.trace"
        file.write_text(text_of(change.start), encoding="ascii")
        script = program.script_of([f"actor {self.actor}", *record.asked(1)])
        ended = program.run([self.replay.program, "load", "--", str(file)], script)
        replies = ended.output.decode("ascii").splitlines()
        if ended.status or not is_made(replies[1]):
            return False
        if record.kind == "call" or record.label and self.found.kind in ("line", "choice"):
            return True
        found = self.comparison.compare_made(record, Step.read(replies[2]), records.Actor.read(replies[3]))
        return not found or found.kind in ("reply", "words")

    def go_on(self, change: Change) -> str:
        """Goes on over a changed start. What the step only had to find is put back behind it."""
        self.replay.open_start(change.start)
        if change.restored:
            self.make_step()
            world = self.replay.start()
            set_content(world["start"], *change.restored)
            self.replay.open_start(world)
        return change.said

    def make_step(self) -> None:
        """Makes the step of the record, as the model makes it."""
        _, made, state = self.replay.ask(self.found.record.asked(self.replay.live() + 1))
        self.comparison.note(self.found.record, Step.read(made), records.Actor.read(state))
        self.comparison.source.take(1)

    def take_words(self) -> str:
        """Lets the actor have the port's word after the step."""
        self.make_step()
        world = self.replay.start()
        word, _, value = self.found.port.partition(" ")
        actors = world["start"]["actors"]
        try:
            actors[self.actor - 1] = with_words(actors[self.actor - 1], {word: WORDS[word](value)})
        except ValueError:
            return ""
        self.replay.open_start(world)
        return self.found.port

    def take_reply(self) -> str:
        """Lets the call be over, as the port has it."""
        self.comparison.pass_over()
        if self.found.state.is_idle():
            return "nothing: both calls are over"
        change = self.with_actor(IDLE, "the actor is in no call")
        self.replay.open_start(change.start)
        return change.said
