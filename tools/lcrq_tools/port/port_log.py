"""Reads the log of a port's accesses for `conform.py`, in the form that docs/MANUAL.md has under PORTS: its
records, and what they say in the program's words.

A record is a line `STAMP ACTOR WHAT`: a call, a step with its label or its place, or a reply. Its stamp may be
two, `BEFORE-AFTER`; the records are then in the order of the first ones.
Segments may have any names; `Names` learns which segment of the model each of them is.
"""

import contextlib
import functools
import re
from collections.abc import Collection, Iterator, Sequence
from dataclasses import dataclass

from lcrq_tools import model
from lcrq_tools.faults import Fault
from lcrq_tools.records import CALLS, NOTHING, PLACES, WORDS

MOST_NUMBER = 2**64 - 1
MOST_NAMES = 10_000  # of segments, of which most are out of use
MOST_LETTERS = 1000  # of a word; Python reads no number of some thousand digits
SHOWN_LETTERS = 100  # of a record that can't be read
NO_RECORD = "a record is a stamp, which is a whole number, or two as 3-5, an actor, and what it did"
BYTE_ORDER_MARKS = ("\ufeff", "\ufffd\ufffd")  # of UTF-8, and how one of UTF-16 comes through

ACCESSES = ("read", "wrote", "wrote index")
CHOICES = ("yes", "no")

SEGMENT = re.compile(r"[0-9]+\.[0-9]+")
NUMBER = re.compile(r"[0-9]+|0x[0-9a-fA-F]+")
ABSENT = ("none", "(nil)", "0x0", "NULL", "null")  # how C and others write that a name or a value is absent


class Unreadable(Fault, ValueError):
    """What of a log can't be read: the record, and why."""


@dataclass(slots=True)
class Record:
    """A line of a log. What it leaves out is empty."""

    stamp: int
    name: str  # of its actor, as the log has it
    where: str  # the file and the line
    text: str
    kind: str = "step"  # or "call", or "reply"
    actor: int = 0  # the model's number of it
    call: str = ""  # the words after the actor's number in the line of a call
    label: str = ""
    choice: str = ""  # of the schedule, at E10
    place: tuple[str, ...] = ()
    access: tuple[str, ...] = ()
    answer: tuple[str, ...] = ()
    reply: tuple[str, ...] = ()
    words: tuple[str, ...] = ()  # words of the actor, each with its value after it
    after: int = 0  # the second stamp, which is the first where there is one

    def line(self) -> str:
        """The line of a script that makes this call or step."""
        if self.kind == "call":
            word, *rest = self.call.split(" ")
            return " ".join([word, str(self.actor), *rest])
        return f"starve {self.actor} {self.choice}" if self.choice else f"go {self.actor}"

    def asked(self, number: int) -> list[str]:
        """The lines that make it as the step of this number, and ask for the step and its actor; none for a reply."""
        if self.kind == "reply":
            return []
        step = [f"step {number}"] if self.kind == "step" else []
        return [self.line(), *step, f"actor {self.actor}"]


@dataclass(frozen=True)
class Reuse:
    """A name that was another segment's before."""

    name: str
    old: str
    segment: str


# ---- Records -------------------------------------------------------------------------------------


@functools.cache
def label_names() -> set[str]:
    """The labels of the pseudo-code."""
    return set(model.read(model.PAGE.read_text(encoding="utf-8"))[0])


def is_place(words: list[str]) -> bool:
    """Whether these words are a place."""
    return bool(words) and PLACES.get(words[0]) == len(words) - 1


def number_of(word: str) -> str:
    """A number of a log as the program writes it; nothing for what is none."""
    is_number = len(word) <= MOST_LETTERS and NUMBER.fullmatch(word)
    number = int(word, 16 if "x" in word else 10) if is_number else MOST_NUMBER + 1
    return str(number) if number <= MOST_NUMBER else ""


def is_reply(words: list[str]) -> bool:
    """Whether a call may end with these words. A port may fail in ways that the model doesn't know."""
    is_value = words[0] == "value" and len(words) == 2 and bool(number_of(words[1]))
    return is_value or len(words) == 1 and words[0].islower()


def said(words: list[str]) -> tuple[str, ...]:
    """The words of a part of a record; none where it is left out."""
    return () if words == [NOTHING] else tuple(words)


def read_call(record: Record, words: list[str]) -> None:
    """Puts a call into its record."""
    word, *rest = words
    numbers = [*map(number_of, rest)]
    if len(rest) != CALLS[word] or not all(numbers):
        raise Unreadable(f"a call is enq X, deq, aenq X or adeq, with X up to {MOST_NUMBER}")
    record.kind, record.call = "call", " ".join([word, *numbers])


def read_choice(record: Record, words: list[str]) -> None:
    """Puts the choice of the schedule into its record."""
    if len(words) != 1 or words[0] not in CHOICES:
        raise Unreadable("the choice is yes or no")
    record.choice = words[0]


def read_tail(record: Record, parts: list[list[str]]) -> None:
    """Puts the parts that may follow a step into its record: its reply and its words."""
    for part in parts:
        if part in ([], [NOTHING]):
            continue
        if is_reply(part) and part[0] not in WORDS:
            record.reply = tuple(part)
        elif unknown := [word for word in part[::2] if word not in WORDS]:
            raise Unreadable(f"`{' '.join(part)}` is no reply, and an actor has no word {unknown[0]}")
        elif len(part) % 2:
            raise Unreadable(f"`{' '.join(part)}` should be words of an actor, each with its value")
        else:
            record.words += tuple(part)


def read_place(record: Record, words: list[str], parts: list[list[str]]) -> None:
    """Puts a step by its place into its record: the place, the access and the answer."""
    record.place = tuple(words)
    if parts and " ".join(parts[0]) in (*ACCESSES, NOTHING):
        record.access = said(parts.pop(0))
    if parts:
        record.answer = said(parts.pop(0))
    read_tail(record, parts)


def read_step(record: Record, words: list[str], parts: list[list[str]], labels: set[str]) -> None:
    """Puts a step, by its label or its place, into its record."""
    if words[0] in labels:
        record.label, words = words[0], words[1:]
    elif words[0] == NOTHING:
        words = words[1:]
    elif words[0] == "starve":
        return read_choice(record, words[1:])
    if is_place(words):
        return read_place(record, words, parts)
    if record.label and words and words[0] in CHOICES:
        return read_choice(record, words)
    record.answer = said(words)
    return read_tail(record, parts)


def stamps_of(word: str) -> tuple[int, int]:
    """The two stamps of a record."""
    before, between, after = word.partition("-")
    if not before.isdecimal() or between and not after.isdecimal():
        raise Unreadable(NO_RECORD)
    stamps = int(before), int(after or before)
    if stamps[1] < stamps[0]:
        raise Unreadable(f"the stamp after it, {after}, is before the one before it, {before}")
    return stamps


def record_of(where: str, text: str, labels: set[str]) -> Record:
    """The record of a line."""
    first, *parts = (part.split() for part in text.split(";"))
    if text.startswith(BYTE_ORDER_MARKS):
        raise Unreadable("a byte-order mark comes before it: a log is plain UTF-8")
    if long := next((word for part in (first, *parts) for word in part if len(word) > MOST_LETTERS), ""):
        raise Unreadable(f"a word of it has {len(long):,} letters, and may have {MOST_LETTERS:,}")
    if len(first) < 3:
        raise Unreadable(NO_RECORD)
    before, after = stamps_of(first[0])
    record, words = Record(before, first[1], where, text, after=after), first[2:]
    if words[0] in CALLS:
        read_call(record, words)
    elif words[0] in labels or words[0] in (NOTHING, "starve") or is_place(words):
        read_step(record, words, parts, labels)
    elif is_reply(words):
        record.kind, record.reply = "reply", tuple(words)
    else:
        raise Unreadable("no call, label, place or reply comes after the actor")
    return record


@contextlib.contextmanager
def shown(where: str, text: str) -> Iterator[None]:
    """Says of what can't be read where it is, and shows it."""
    try:
        yield
    except Unreadable as fault:
        more = "..." if len(text) > SHOWN_LETTERS else ""
        raise Unreadable(f"{where}: `{text[:SHOWN_LETTERS]}{more}`: {fault}") from fault


# ---- Names ---------------------------------------------------------------------------------------


class Names:
    """The segments of the model by the names that the port gives them. A name is learned when its
    segment is made, or the first time that it is seen where the model has a segment without one. So a name
    may be used again; whether it may be, `port_reuse.py` says."""

    def __init__(self) -> None:
        self.segments: dict[str, str] = {}  # the port's name, and the segment
        self.names: dict[str, str] = {}  # the segment, and the port's name
        self.again: Reuse | None = None  # the last name that was another segment's before

    def learn(self, name: str, segment: str) -> None:
        """Learns a name; an older meaning of it, or an older name of the segment, is forgotten."""
        self.note_reuse(name, segment)
        self.names.pop(self.segments.get(name, ""), None)
        self.segments.pop(self.names.get(segment, ""), None)
        self.segments[name], self.names[segment] = segment, name

    def forget(self, kept: Collection[str]) -> None:
        """Forgets the names of other segments than these, once there are many."""
        gone = [segment for segment in self.names if segment not in kept] if len(self.names) > MOST_NAMES else []
        for segment in gone:
            self.segments.pop(self.names.pop(segment), None)

    def note_reuse(self, name: str, segment: str) -> None:
        """Notes that a name comes to be this segment's, if it was another one's before."""
        if self.segments.get(name, segment) != segment:
            self.again = Reuse(name, self.segments[name], segment)

    def segment_of(self, name: str) -> str:
        """The segment of a name, which may be the model's own; nothing if it is not known."""
        return self.segments.get(name) or (name if SEGMENT.fullmatch(name) else "")

    def is_segment(self, name: str, segment: str) -> bool:
        """Whether the port calls this segment so."""
        known = self.segment_of(name)
        if not known and segment not in self.names and name not in ABSENT:
            self.learn(name, segment)
            return True
        if segment not in self.names and not SEGMENT.fullmatch(name):
            self.note_reuse(name, segment)  # which isn't learned yet
        return known == segment

    def agree(self, port: Sequence[str], words: Sequence[str]) -> bool:
        """Whether words of a log say what these words of the program say."""
        return len(port) == len(words) and all(map(self.agrees, port, words))

    def agrees(self, port: str, word: str) -> bool:
        """Whether a word of a log says what a word of the program says."""
        if port == word and "." not in word:
            return True
        if SEGMENT.fullmatch(word):
            return self.is_segment(port, word)
        if word == "none":
            return port in ABSENT
        return word.isdecimal() and number_of(port) == word

    def meant(self, port: Sequence[str]) -> str:
        """Words of a log in the program's words, as far as they are known."""
        return " ".join(self.segments.get(word) or ("none" if word in ABSENT else word) for word in port)
