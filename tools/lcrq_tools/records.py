"""Reads and spells what the program takes and says, for all tools: the one place for the words of an event, a
place, a content and a reply, as the tables of docs/MANUAL.md have them.

`read` of a class reads a text, and `str` spells it again, byte for byte; `read_reply` reads any reply.
Two keep a reading of their own, since they check the program independently: `dependence.py`, and
`model.py` with `checks/pseudo_code.py`.
"""

import functools
from collections.abc import Callable, Iterator
from dataclasses import dataclass, field

MOST_KEPT = 1 << 14  # texts of one class whose reading is kept: a run names the same ones again and again
NOTHING = "-"  # how a step spells a part that it lacks

# How many words come after the kind of a place. An actor counts as a place that each of its steps writes.
PLACES = {"qhead": 0, "qtail": 0, "ahead": 0, "atail": 0, "acell": 1}
PLACES |= dict.fromkeys(("head", "tail", "next", "whole"), 1) | dict.fromkeys(("cell", "value", "index"), 2)
KINDS = PLACES | {NOTHING: 0, "actor": 1}
CALLS = {"enq": 1, "deq": 0, "aenq": 1, "adeq": 0}  # how many words come after each
AT_ONCE = 64  # lines that are asked at most where nobody knows how many there are; the first time two
WORDS = ("crq", "new", "next", "t", "h", "closed", "val", "safe", "idx", "pass")


def number_or_none(word: str) -> int | None:
    """A number, or `none`."""
    return None if word == "none" else int(word)


# ---- Places and contents --------------------------------------------------------------------------


@dataclass(frozen=True)
class Place:
    """A place, or an actor. That of a call or a choice is false."""

    kind: str
    segment: str = ""
    index: int | None = None  # of a cell or a slot, or an actor's number

    @staticmethod
    @functools.lru_cache(MOST_KEPT)
    def read(text: str) -> "Place":
        """The place that a text names."""
        kind, *words = text.split(" ")
        if KINDS.get(kind) != len(words):
            raise ValueError(f"{text!a} is no place")
        if kind in ("acell", "actor"):
            return Place(kind, "", int(words[0]))
        return Place(kind, words[0] if words else "", int(words[1]) if words[1:] else None)

    def __str__(self) -> str:
        words = (self.kind, self.segment, "" if self.index is None else str(self.index))
        return " ".join(word for word in words if word)

    def __bool__(self) -> bool:
        return self.kind != NOTHING

    def half(self, kind: str) -> "Place":
        """The value half or the index half of this cell."""
        return Place(kind, self.segment, self.index)

    def parts(self) -> tuple["Place", ...]:
        """The halves of a cell, or itself; nothing where there is no place."""
        if self.kind == "cell":
            return self.half("value"), self.half("index")
        return (self,) if self else ()

    def overlaps(self, other: "Place") -> bool:
        """Whether two names name one place of memory: a segment has all that are of it."""
        if "whole" in (self.kind, other.kind):
            return self.segment == other.segment != ""
        return not set(self.parts()).isdisjoint(other.parts())


@dataclass(frozen=True)
class Cell:
    """The content of a cell."""

    is_safe: bool
    index: int
    value: int | None

    @staticmethod
    def read(text: str) -> "Cell":
        """The cell of a content."""
        safe, index, value = text.split(" ")
        return Cell(safe == "1", int(index), number_or_none(value))

    def __str__(self) -> str:
        return f"{self.index_half()} {self.value_half()}"

    def index_half(self) -> str:
        """What its index half shows."""
        return f"{int(self.is_safe)} {self.index}"

    def value_half(self) -> str:
        """What its value half shows."""
        return "none" if self.value is None else str(self.value)


@dataclass(frozen=True)
class Tail:
    """The content of a segment's tail."""

    is_closed: bool
    count: int

    @staticmethod
    def read(text: str) -> "Tail":
        """The tail of a content."""
        state, count = text.split(" ")
        return Tail(state == "closed", int(count))

    def __str__(self) -> str:
        return f"{self.state()} {self.count}"

    def state(self) -> str:
        """Its closed bit as a word."""
        return "closed" if self.is_closed else "open"


# ---- Steps and actors -----------------------------------------------------------------------------


@dataclass(frozen=True)
class Event:
    """A line that makes a step."""

    word: str
    actor: int
    value: int | None = None  # of a call that enqueues
    choice: str = ""  # of `starve`

    @staticmethod
    @functools.lru_cache(MOST_KEPT)
    def read(line: str) -> "Event":
        """The event of a line."""
        word, actor, *words = line.split(" ")
        last = words[0] if words else ""
        return Event(word, int(actor), int(last) if last.isdecimal() else None, "" if last.isdecimal() else last)

    def __str__(self) -> str:
        last = self.choice if self.value is None else str(self.value)
        return f"{self.word} {self.actor} {last}" if last else f"{self.word} {self.actor}"

    def is_call(self) -> bool:
        """Whether it begins a call."""
        return self.word in CALLS

    def called(self) -> str:
        """Its call or its choice, without the actor; nothing for `go`."""
        if not self.is_call():
            return self.choice
        return self.word if self.value is None else f"{self.word} {self.value}"


@dataclass(frozen=True)
class Step:
    """A step, as the reply to `step K` has it. Its number is not compared, since other steps change it."""

    number: int = field(compare=False)
    event: Event
    place: Place = Place(NOTHING)
    access: str = "none"
    answer: str = ""
    reply: str = ""  # of the call, if the step ended it

    @staticmethod
    @functools.lru_cache(MOST_KEPT)
    def read(text: str) -> "Step":
        """The step of a reply."""
        head, line, place, access, answer, reply = text.split("; ")
        parts = (part.removeprefix(NOTHING) for part in (answer, reply))
        return Step(int(head.removeprefix("step ")), Event.read(line), Place.read(place), access, *parts)

    def __str__(self) -> str:
        return f"step {self.number}; {self.event}; {self.did()}"

    def did(self) -> str:
        """What it did: its place, its access, its answer and its reply."""
        return f"{self.place}; {self.access}; {self.answer or NOTHING}; {self.reply or NOTHING}"

    def wrote(self) -> tuple[Place, ...]:
        """The places that it wrote. A cell has two halves."""
        if self.access == "wrote index":
            return (self.place.half("index"),)
        return self.place.parts() if self.access == "wrote" else ()


@dataclass(frozen=True)
class Actor:
    """An actor, as the reply to `actor A` has it."""

    point: str
    call: str  # `none` where it is in no call
    words: dict[str, str]

    @staticmethod
    def read(text: str) -> "Actor":
        """The actor of a reply."""
        head, _, rest = text.partition(f" {WORDS[0]} ")
        _, point, call = head.split(" ", 2)
        return Actor(point, call, dict(zip(WORDS, rest.split(" ")[::2])))

    def __str__(self) -> str:
        return " ".join(["actor", self.point, self.call, *(f"{word} {value}" for word, value in self.words.items())])

    def is_idle(self) -> bool:
        """Whether it is in no call."""
        return self.point == "Idle"

    def call_word(self) -> str:
        """The first word of its call."""
        return self.call.split(" ")[0]

    def stand(self) -> str:
        """Where it is: its control point and its call; nothing if it is in no call."""
        return "" if self.is_idle() else f"{self.point} {self.call}"


# ---- Other replies --------------------------------------------------------------------------------


@dataclass(frozen=True)
class Made:
    """The reply to an event: the number of its step, and the reply of the call if the step ended it."""

    number: int
    ended: str = ""

    def __str__(self) -> str:
        return f"ok {self.number} {self.ended}".rstrip(" ")


@dataclass(frozen=True)
class Counts:
    """How many steps are live and undone."""

    live: int
    undone: int

    @staticmethod
    def read(text: str) -> "Counts":
        """The counts of a reply that begins with `at`."""
        _, live, undone = text.split(" ")
        return Counts(int(live), int(undone))

    def __str__(self) -> str:
        return f"at {self.live} {self.undone}"


@dataclass(frozen=True)
class Refusal:
    """The reply to a refused line."""

    number: int
    name: str
    data: tuple[str, ...] = ()

    @staticmethod
    def read(text: str) -> "Refusal":
        """The refusal of a reply."""
        _, number, name, *data = text.split(" ")
        return Refusal(int(number), name, tuple(data))

    def __str__(self) -> str:
        return " ".join(["refused", str(self.number), self.name, *self.data])


@dataclass(frozen=True)
class Said:
    """Any other reply: its first word, and the others."""

    word: str
    rest: str = ""

    def __str__(self) -> str:
        return f"{self.word} {self.rest}" if self.rest else self.word


Reply = Made | Counts | Refusal | Step | Actor | Said


def read_reply(text: str) -> Reply:
    """The reply of a line that the program writes."""
    match text.split(" "):
        case ["ok", number, *ended]:
            return Made(int(number), " ".join(ended))
        case ["at", *_]:
            return Counts.read(text)
        case ["refused", *_]:
            return Refusal.read(text)
        case ["step", *_]:
            return Step.read(text)
        case ["actor", *_]:
            return Actor.read(text)
        case words:
            return Said(words[0], " ".join(words[1:]))


def is_made(reply: str) -> bool:
    """Whether a line made a step."""
    return reply.startswith("ok ")


def content_of(reply: str) -> str:
    """What is at a place, by the reply to `show`; nothing if there is no such place."""
    return reply.removeprefix("is ") if reply.startswith("is ") else ""


def all_of(ask: Callable[[list[str]], list[str]], line: str, first: int = 0) -> Iterator[str]:
    """What is replied to a line with this number and each one after it, up to one that is refused."""
    count = 1
    while True:
        count = min(AT_ONCE, 2 * count)
        for reply in ask([line.format(number) for number in range(first, first + count)]):
            if reply.startswith("refused "):
                return
            yield reply.removeprefix("is ")
        first += count


def stand_of(reply: str) -> str:
    """Where an actor is, or what is at a place, by the reply; nothing for one that is in no call."""
    return Actor.read(reply).stand() if reply.startswith("actor ") else content_of(reply)
