"""Finds an order of the records of a port's log for `conform.py`, where their stamps leave it open: the program
tries them one by one, and takes them back, as the search of `port_orders.py` asks.
"""

from collections.abc import Callable, Iterator
from dataclasses import dataclass
from pathlib import Path

from lcrq_tools import dependence
from lcrq_tools.port.port_ahead import reply_in
from lcrq_tools.port.port_allow import POINTS
from lcrq_tools.port.port_compare import NEEDS_CHOICE, Comparison, Difference, Listed, never
from lcrq_tools.port.port_ledger import Ledger
from lcrq_tools.port.port_log import Names, Record
from lcrq_tools.port.port_orders import Found, Search, Tried, open_records
from lcrq_tools.port.port_replay import FREEZE_AT
from lcrq_tools.port.port_touches import names_in
from lcrq_tools.records import Actor, Step

ADDS = ("E4", "Q2", "A1", "B1")  # what these leave follows from what they found
HOPELESS = ("line", "call")  # kinds of differences that no step of another actor takes away
EVERYTHING = "everything"  # a place that each record touches
ORDER = "order.log"


class KeptNames(Names):
    """Names whose older meanings stay where they are, to go back to."""

    def __init__(self) -> None:
        super().__init__()
        self.ever: frozenset[str] = frozenset()  # the segments that had a name

    def learn(self, name: str, segment: str) -> None:
        """Learns a name."""
        self.segments, self.names, self.ever = dict(self.segments), dict(self.names), self.ever | {segment}
        super().learn(name, segment)

    def go_back(self, before: "Before") -> None:
        """Goes back to the names before a record."""
        self.segments, self.names, self.ever = before.names


class NoLedger(Ledger):
    """Counts nothing, since a record may be taken back."""

    def begin(self, actor: int, call: str, reply: str) -> None:
        """A call begins."""

    def reply(self, actor: int, reply: str) -> None:
        """A call ends."""


@dataclass(frozen=True)
class Before:
    """What was before a record."""

    actor: int
    state: Actor
    replied: str  # by its last step
    count: int  # of steps
    names: tuple[dict[str, str], dict[str, str], frozenset[str]]
    made: int  # how many segments it made
    contents: dict[str, int]  # of the places that it wrote
    key: int


class Trial:
    """A run of the program that goes on by a record, and back."""

    def __init__(self, comparison: Comparison):
        self.comparison, self.replay = comparison, comparison.replay
        assert isinstance(comparison.source, Listed)  # so all of its records are known
        self.records = comparison.source.all
        self.names = comparison.names = KeptNames()
        comparison.ledger = NoLedger(())
        self.contents: dict[str, int] = {}  # of places that are written: a number for each content
        self.sum = 0  # of what is at all places, and of all actors
        self.has_names = any(next(names_in(record), "") for record in self.records)
        self.made: list[Before] = []

    def go(self, record: Record) -> Tried:
        """Goes on by a record; where it disagrees, the run stays as it was."""
        before, chosen = self.before(record.actor), self.comparison.chosen
        self.names.again = None
        found = self.compared(record)
        touched = self.touched(record, found, before)
        if found:
            self.names.go_back(before)
            is_hopeless = found.kind in HOPELESS or record.kind == "reply"
            return Tried(False, touched, is_hopeless=is_hopeless and not self.is_open(found))
        self.made.append(before)
        self.note(before)
        is_known = record.kind != "step" or bool(record.choice or record.answer)
        is_alone = touched.wrote == (f"actor {record.actor}",)
        return Tried(True, touched, is_known and is_alone and (self.comparison.chosen == chosen or bool(record.label)))

    def lacks_choice(self, found: Difference) -> bool:
        """Whether the log leaves the choice at E10 out, before this record."""
        return found.model.startswith(NEEDS_CHOICE) and not self.comparison.asks_choices

    def compared(self, record: Record) -> Difference | None:
        """Whether the model goes on by a record, or what differs."""
        found = self.comparison.compare([record])
        if found and self.lacks_choice(found):
            return None if self.comparison.choose(record) else found
        return None if found and self.comparison.follow(self.comparison, found) else found

    def is_open(self, found: Difference) -> bool:
        """Whether what any other actor does may take a difference away."""
        may_follow = self.comparison.follow is not never and found.point in POINTS
        return may_follow or found.kind == "refused" or self.lacks_choice(found)

    def before(self, actor: int) -> Before:
        """What is now."""
        state, names = self.replay.states[actor - 1], (self.names.segments, self.names.names, self.names.ever)
        made = self.comparison.made[actor]
        return Before(actor, state, self.replied(actor), self.replay.count(), names, made, {}, self.sum)

    def replied(self, actor: int) -> str:
        """What the last step of an actor replied."""
        return reply_in(self.replay.steps.last_line(actor))

    def touched(self, record: Record, found: Difference | None, before: Before) -> dependence.Step:
        """What a record touched and wrote, or would where it agrees."""
        steps = [found.made] if found else [step for _, step in self.replay.steps.behind(before.count)]
        made = [dependence.step_of(str(step), self.replay.ring) for step in steps if step]
        itself = f"actor {record.actor}"
        touched = {itself}.union(*(step.touched for step in made))
        wrote = {itself}.union(*(step.wrote for step in made))
        is_unknown = found is not None and self.is_open(found)
        names = {f"name {word}" for word in names_in(record)}
        is_learning = self.names.segments is not before.names[0]
        is_making = any(step is not None and step.answer.startswith("made ") for step in steps)
        wrote |= names if is_learning and is_making else set()
        wrote |= {EVERYTHING} if is_unknown or self.names.again or is_learning and not is_making else set()
        return dependence.Step("", "", (*touched, *names, EVERYTHING), tuple(wrote), "")

    # ---- What worlds have in common

    def key(self) -> int:
        """What worlds in which the same records agree from here on have in common."""
        return self.sum

    def note(self, before: Before) -> None:
        """Notes what the steps of a record left."""
        state = self.replay.states[before.actor - 1]
        replied = self.replied(before.actor)
        self.sum ^= hash((before.actor, str(before.state), before.replied)) ^ hash((before.actor, str(state), replied))
        if self.names.segments is not before.names[0]:
            self.sum ^= hash(frozenset(before.names[0].items())) ^ hash(frozenset(self.names.segments.items()))
        for point, step in self.replay.steps.behind(before.count):
            for place in self.places(step):
                old = self.contents.get(place, 0)
                before.contents.setdefault(place, old)
                self.contents[place] = content_of(point, step, before.state, old)
                self.sum ^= hash((place, old)) ^ hash((place, self.contents[place]))

    def places(self, step: Step) -> Iterator[str]:
        """The places that a step wrote."""
        wrote = dependence.step_of(str(step), self.replay.ring).wrote
        return (place for place in wrote if not place.startswith("actor"))

    def learns(self) -> bool:
        """Whether a segment has no name yet."""
        return self.has_names and len(self.names.ever) < sum(self.comparison.made)

    # ---- Back

    def back(self) -> None:
        """Takes the last record back."""
        before = self.made.pop()
        count = self.replay.count() - before.count
        if count:
            self.replay.ask([f"back {count}"])
            self.replay.steps.cut(before.count)
            self.replay.states[before.actor - 1] = before.state
        self.comparison.made[before.actor] = before.made
        self.names.go_back(before)
        self.contents |= before.contents
        self.sum = before.key

    def settle(self) -> bool:
        """Freezes a long run, which can't go back then."""
        if self.replay.room() > 0:
            return False
        self.comparison.freeze()
        self.made.clear()
        return True


def content_of(point: str, step: Step, state: Actor, before: int) -> int:
    """A number for what a step of this control point leaves at a place, by what decides it."""
    if point in ADDS:
        return hash((point, step.answer))
    return hash((point, before)) if point == "E11" else hash((point, str(state), step.answer))


# ---- Logs ----------------------------------------------------------------------------------------


def found_order(comparison: Comparison, tries: int, progress: Callable[[int], None]) -> Found:
    """An order of the records of a comparison at its begin, or the one that came furthest."""
    trial = Trial(comparison)
    return Search(trial, trial.records, comparison.replay.ring, tries, progress).found()


def lines_of(found: Found, tries: int, folder: Path | None) -> Iterator[str]:
    """What is said of an order, which is written into a folder, if one is given."""
    many = f"{open_records(found.by_stamps):,} of {len(found.records):,} records overlap others"
    cost = f"{found.tried:,} tried, {found.back:,} taken back"
    if found.count == len(found.records):
        yield f"order: {many}, and in this order all agree: {cost}"
    elif found.is_whole:
        yield f"order: {many}, and in no order all agree; this one came furthest: {cost}"
    else:
        none = f"no order in which all agree was found within --tries {tries:,}"
        far = f", and none that differs before the last {FREEZE_AT:,} steps was tried"
        yield f"order: {many}; {none}{far if found.is_settled else ''}; this one came furthest: {cost}"
    if folder:
        folder.mkdir(parents=True, exist_ok=True)
        stamped = (f"{number} {it.text.split(None, 1)[1]}\n" for number, it in enumerate(found.records, 1))
        (folder / ORDER).write_text("".join(stamped), encoding="utf-8")
        yield f"  {folder / ORDER}: the log in this order"


