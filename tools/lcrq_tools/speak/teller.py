"""Runs a session a line at a time and says each line in words, for `explain.py`, `prompt.py` and pages.

A `Teller` asks the program a line, and then what the sentence needs: the step, its actor before and after
it, and the content of its place. So a sentence says only what replies say. These questions change nothing.
Only Python's standard library is used.
"""

import collections
from collections.abc import Callable, Sequence
from dataclasses import dataclass
from typing import overload

from lcrq_tools import manual
from lcrq_tools.order import common_of
from lcrq_tools.records import (
    NOTHING,
    Actor,
    Cell,
    Counts,
    Event,
    Made,
    Place,
    Refusal,
    Reply,
    Said,
    Step,
    Tail,
    content_of,
    read_reply,
)
from lcrq_tools.speak.forms import expected
from lcrq_tools.speak.sentences import Seen, sentence

Ask = Callable[[Sequence[str]], list[str]]  # gives the replies to lines
AT_ONCE = 256  # lines that are asked at once: their replies fit into a pipe
EVENTS = ("enq", "deq", "aenq", "adeq", "go", "starve")

NO_COMMAND = ("BadLine", "LineTooLong", "BadName")  # the refusals of what is no command
# Why a line of an actor is refused, by the name of the refusal.
OF_ACTORS = {
    "NoActor": "there is no actor {a}",
    "NotIdle": "actor {a} is in a call already, `{call}`, at {point}",
    "Idle": "actor {a} is in no call: begin one, as by `enq {a} 7` or `deq {a}`",
    "NeedsChoice": "actor {a} has a choice: `starve {a} yes` or `starve {a} no`",
    "NoChoice": "actor {a} has no choice at {point}: `go {a}`",
}


@dataclass(frozen=True)
class Spoken:
    """A line of a script, its reply, and what that means."""

    line: str
    reply: str
    sentence: str
    seen: Seen | None = None  # the step that the line made


# ---- Words for what replies have ------------------------------------------------------------------

PLACE_WORDS = {
    "qhead": "the queue's head",
    "qtail": "the queue's tail",
    "ahead": "the array's head",
    "atail": "the array's tail",
    "acell": "slot {index} of the array",
    "head": "the head of ring {segment}",
    "tail": "the tail of ring {segment}",
    "next": "the next of segment {segment}",
    "whole": "segment {segment}",
    "cell": "cell {index} of ring {segment}",
    "value": "the value of cell {index} of ring {segment}",
    "index": "the index half of cell {index} of ring {segment}",
}


def place_words(place: Place) -> str:
    """A place in words."""
    return PLACE_WORDS[place.kind].format(segment=place.segment, index=place.index)


def counted(count: int, noun: str) -> str:
    """A number of things."""
    return f"{count or 'no'} {noun}{'' if count == 1 else 's'}"


def numbers_words(numbers: Sequence[int]) -> str:
    """The numbers of steps, those in a row by their ends."""
    rows: list[list[int]] = []
    for number in numbers:
        if rows and number == rows[-1][-1] + 1:
            rows[-1].append(number)
        else:
            rows.append([number])
    return ", ".join(f"{row[0]} to {row[-1]}" if len(row) > 2 else ", ".join(map(str, row)) for row in rows)


def content_words(place: Place, content: str) -> str:
    """What is at a place, in words."""
    where = place_words(place)
    if place.kind == "whole":
        return f"{where} is there"
    if place.kind == "tail":
        tail = Tail.read(content)
        return f"{where} is {tail.state()}, at {tail.count}"
    if place.kind == "cell":
        cell = Cell.read(content)
        held = "no value" if cell.value is None else f"value {cell.value}"
        return f"{where} is {'safe' if cell.is_safe else 'unsafe'}, with index {cell.index} and {held}"
    if place.kind == "index":
        safe, index = content.split(" ")
        return f"{where} is {'safe' if safe == '1' else 'unsafe'}, {index}"
    return f"{where} is {content}"


def stand_words(number: int, actor: Actor) -> str:
    """Where an actor is, in words."""
    return f"actor {number} is " + ("in no call" if actor.is_idle() else f"at {actor.point} of `{actor.call}`")


def actor_of(reply: str) -> Actor | None:
    """The actor of a reply, if it isn't refused."""
    return Actor.read(reply) if reply.startswith("actor ") else None


def touch_words(step: Step) -> str:
    """What a step did at its place, in words that fit any control point."""
    if not step.place:
        return f"`{step.event}`"
    access = "wrote" if step.wrote() else "read"
    return f"actor {step.event.actor} {access} {place_words(step.place)}: {step.answer}"


def depended_words(step: Step, later: Step) -> str:
    """Why a later step depends on a step."""
    if step.event.actor == later.event.actor:
        return f"step {later.number} is a later step of actor {later.event.actor}"
    place = later.place if later.place.kind != "whole" else step.place
    first, then = ("wrote" if each.wrote() else "read" for each in (step, later))
    too = " too" if first == then else ""
    return f"step {later.number} {then} {place_words(place)}, which step {step.number} {first}{too}"


def origin_words(said: Said) -> str:
    """Where a value came from."""
    call, put, take = said.rest.split(" ")[1::2]
    begun, made = ("before the start" if number == NOTHING else f"in step {number}" for number in (call, put))
    return f"step {take} took a value that was put {made}, by a call that began {begun}"


class Steps(Sequence[Step]):
    """The steps of a run. They are kept as texts, which take little room, and read when they are asked for."""

    def __init__(self, texts: list[str]) -> None:
        self.texts = texts  # of each what its reply has behind the number

    def __len__(self) -> int:
        return len(self.texts)

    @overload
    def __getitem__(self, place: int) -> Step: ...

    @overload
    def __getitem__(self, place: slice) -> "Steps": ...

    def __getitem__(self, place: "int | slice") -> "Step | Steps":
        if isinstance(place, slice):
            return Steps(self.texts[place])
        text = self.texts[place]
        return Step.read(f"step {place % len(self.texts) + 1}; {text}")

    def event(self, place: int) -> Event:
        """The event of the step at this place, from 0 on."""
        return Event.read(self.texts[place].partition("; ")[0])


def taken_from(before: Steps, after: Steps) -> list[int]:
    """The numbers of the steps that were taken back: of each actor its last ones."""
    same = common_of(before.texts, after.texts)
    kept = collections.Counter(after.event(place).actor for place in range(same, len(after)))
    numbers = []
    for place in range(same, len(before)):
        actor = before.event(place).actor
        kept[actor] -= 1
        if kept[actor] < 0:
            numbers.append(place + 1)
    return numbers


def bookmark_words(answer: Said, rest: str) -> str:
    """What a reply about bookmarks says to a line with these words behind its first one."""
    match answer.word:
        case "marked":
            return f"sets bookmark {rest}, which keeps {counted(int(answer.rest), 'step')}"
        case "dropped":
            return f"removes bookmark {rest}"
        case "marks":
            return f"{counted(int(answer.rest), 'bookmark')}"
        case "mark":
            name, length = answer.rest.split(" ")
            return f"bookmark {rest} is {name}, which keeps {counted(int(length), 'step')}"
    return f"the bookmarks keep {'the same steps, up to order' if answer.rest == 'yes' else 'different steps'}"


def answered(line: str, answer: Reply) -> str:
    """What the reply to a query or about a bookmark says."""
    rest = line.partition(" ")[2]
    match answer:
        case Counts(live, undone):
            return f"{counted(live, 'step')} live, {undone or 'none'} undone"
        case Step():
            return f"step {answer.number}: {touch_words(answer)}"
        case Actor():
            return stand_words(int(rest), answer)
        case Said("is", content):
            return content_words(Place.read(rest), content)
        case Said("origin"):
            return origin_words(answer)
        case Said("writer", number):
            where = place_words(Place.read(rest))
            return f"no live step has written {where}" if number == "none" else f"step {number} wrote {where} last"
        case Said():
            return bookmark_words(answer, rest)
    return ""


# ---- What is asked about a step ----------------------------------------------------------------------


def asked_of(step: Step) -> list[str]:
    """What is asked about a step right behind it."""
    writer = [f"writer {step.place}"] if step.answer == "lost" else []
    return [f"show {step.place}", *writer] if step.place else []


def reader_of(steps: Sequence[Step], step: Step) -> int:
    """The number of the step, among these, in which a step's actor read what it compares with; 0 if none did."""
    place = step.place.half("value") if step.place.kind == "cell" else step.place
    own = (
        number for number in range(min(step.number - 1, len(steps)), 0, -1)
        if steps[number - 1].event.actor == step.event.actor and steps[number - 1].place == place
    )
    return next(own, 0)


def seen_of(step: Step, before: Actor, after: Actor, about: Sequence[str], steps: Sequence[Step] = ()) -> Seen:
    """A step with what is around it: its actor, the replies to `asked_of`, and the steps of the run. Without these
    no other step is named, as where steps have other numbers later."""
    shown = content_of(about[0]) if about else ""
    if step.answer != "lost" or not steps:
        return Seen(step, before, after, shown)
    writer = about[1].removeprefix("writer ")
    return Seen(step, before, after, shown, reader_of(steps, step), int(writer) if writer.isdecimal() else 0)


# ---- A session in words ---------------------------------------------------------------------------


class Teller:
    """A session that is asked a line at a time. `live` has its live steps."""

    def __init__(self, ask_all: Ask) -> None:
        self.ask_all = ask_all
        self.live = Steps(self.steps(1, Counts.read(self.ask("len")).live))
        self.marks: dict[str, list[str]] = {}  # of each bookmark that was set its steps, as texts

    def ask(self, line: str) -> str:
        """The reply to a line."""
        return self.ask_all([line])[0]

    def steps(self, first: int, last: int) -> list[str]:
        """What these live steps did, as texts."""
        numbers = range(first, last + 1)
        parts = (numbers[begin:begin + AT_ONCE] for begin in range(0, len(numbers), AT_ONCE))
        replies = (reply for part in parts for reply in self.ask_all([f"step {number}" for number in part]))
        return [reply.partition("; ")[2] for reply in replies]

    def actor(self, number: int) -> Actor | None:
        """An actor, if there is one of this number."""
        return actor_of(self.ask(f"actor {number}"))

    def tell(self, line: str) -> Spoken:
        """The reply to a line, and what it means."""
        word, *words = line.split(" ")
        number = int(words[0]) if word in EVENTS and words and words[0].isdecimal() else 0
        stand, reply = self.ask_all([f"actor {number}", line]) if number else ("", self.ask(line))
        before = actor_of(stand)
        match read_reply(reply):
            case Made(made) if before:
                seen = self.seen(made, number, before)
                return Spoken(line, reply, sentence(seen), seen)
            case Refusal() as refusal:
                return Spoken(line, reply, self.why(line, refusal, number, before))
            case Counts() as counts if word != "len":
                return Spoken(line, reply, self.moved(line, counts))
            case Said("marked"):
                self.marks[words[0]] = [*self.live.texts]
        return Spoken(line, reply, answered(line, read_reply(reply)))

    def seen(self, number: int, mover: int, before: Actor) -> Seen:
        """The step of this number, which an actor just made, with what is around it."""
        made, stand = self.ask_all([f"step {number}", f"actor {mover}"])
        step, after = Step.read(made), Actor.read(stand)
        self.live.texts[number - 1:] = [made.partition("; ")[2]]
        asked = asked_of(step)
        return seen_of(step, before, after, self.ask_all(asked) if asked else [], self.live)

    def last(self) -> Seen | None:
        """The last live step, if there is one, which is taken back and made again."""
        if not self.live:
            return None
        mover = self.live[-1].event.actor
        before = self.ask_all(["back 1", f"actor {mover}", "forward 1"])[1]
        return self.seen(len(self.live), mover, Actor.read(before))

    # What changes the live steps without making a new one.

    def moved(self, line: str, counts: Counts) -> str:
        """What a line did that took steps back or made them again."""
        before, word, last = self.live, *line.partition(" ")[::2]
        if word == "undo" and last:
            self.live = Steps(before.texts[: int(last) - 1] + before.texts[int(last):])
            return self.back_words([int(last)], before)
        kept = {"goto": 0, "roll": int(last) - 1 if word == "roll" else 0}.get(word, min(len(before), counts.live))
        known = self.marks.get(last) if word == "goto" else None
        self.live = Steps([*known] if known else before.texts[:kept] + self.steps(kept + 1, counts.live))
        if word == "goto":
            return f"goes to bookmark {last}: {counted(counts.live, 'step')} live"
        if word in ("redo", "forward"):
            return self.again_words(len(before))
        return self.back_words(taken_from(before, self.live), before)

    def again_words(self, before: int) -> str:
        """What was made again, if so many steps were live before."""
        numbers = range(before + 1, len(self.live) + 1)
        if len(numbers) == 1:
            return f"makes `{self.live[-1].event}` again, as step {len(self.live)}"
        return f"makes {counted(len(numbers), 'step')} again: {numbers_words(numbers)}" if numbers else "does nothing"

    def back_words(self, numbers: Sequence[int], before: Steps) -> str:
        """What was taken back: steps of these numbers, of those that were live before."""
        if len(numbers) != 1:
            said = f"takes back {counted(len(numbers), 'step')}: {numbers_words(numbers)}"
            return said if numbers else "does nothing"
        event = before.event(numbers[0] - 1)
        actor = self.actor(event.actor)
        stand = stand_words(event.actor, actor) if actor else ""
        return f"takes back step {numbers[0]}, `{event}`: {stand} again"

    def why(self, line: str, refusal: Refusal, number: int, actor: Actor | None) -> str:
        """Why a line is refused."""
        if refusal.name in OF_ACTORS and number:
            stands = {"call": actor.call, "point": actor.point} if actor else {}
            return "refused: " + OF_ACTORS[refusal.name].format(a=number, **stands)
        if refusal.name == "Depended":
            step, later = map(Step.read, self.ask_all([f"step {line.split(' ')[1]}", f"step {refusal.data[0]}"]))
            return f"refused: {depended_words(step, later)}"
        if refusal.name in NO_COMMAND:
            return f"refused: {expected(line)}"
        return "refused: " + manual.refusals()[str(refusal.number)].partition(": ")[2]
