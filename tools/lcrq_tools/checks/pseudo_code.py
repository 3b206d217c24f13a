"""Executes the pseudo-code of docs/MODEL.md beside the built program, and compares them.

    python3 tools/check.py pseudo_code [--program P] [--page PAGE]

`model.py` reads the lines from the page. Here they are executed, one access a step, for random schedules of 1 to
4 actors over rings of 2, 4 and 8 cells and the array, over a world of this script's own that knows the page
alone. Most schedules begin in the fresh world. A few begin where the root, still open, has a next already: no run
over a fresh world comes to that, and so none wins the CAS of Q12 in pass 2. The program gets the same schedules,
and after each step its replies have to be what the pseudo-code gives: the reply of the call, the actor's control
point and words, the entry of the step, and what its place has then. Now and then, and at each schedule's end, all
actors and all places are compared; then `back` leads to the start, where the next schedule begins. The seeds are
fixed.

A line that can't be read is a fault, and so are the first difference and a line that no schedule reaches with each
of its outcomes: a condition holds and fails, a CAS wins and loses. The status is 1 then. A word that means the same
where it stands is no difference: at Q5 idx is h, and at E8 and Q7 val is none. Replies are compared as they stand,
not by `records.py`. Only Python's standard library is used.
"""

import argparse
import itertools
import json
import operator
import random
from collections import Counter
from collections.abc import Callable, Iterable, Iterator
from dataclasses import dataclass, field
from pathlib import Path
from typing import NamedTuple, TypeVar

from lcrq_tools import model, program
from lcrq_tools.checks.answers import run_over
from lcrq_tools.faults import Parser
from lcrq_tools.options import add_program

ACTORS, RINGS = (1, 2, 3, 4), (2, 4, 8)
STARTS = {"fresh": 34, "linked": 4}  # schedules for each start, each number of actors and each ring
EVENTS = 500  # of a schedule
WANTED = 200_000  # so many steps are made in all, at least
SLOTS = 64  # of the array
LOOK = 0.01  # how often all places are compared in the middle of a schedule
ROOT = "0.0"
SIGNS: dict[str, Callable[[int, int], bool]] = {">": operator.gt, "<": operator.lt}
SIGNS |= {">=": operator.ge, "<=": operator.le}
KINDS = {"QHead": "qhead", "QTail": "qtail", "ArrHead": "ahead", "ArrTail": "atail", "ArrCell": "acell"}
SHOWN_AS = {"value": "cell", "index": "cell", "whole": "tail"}  # the place that is asked for one with part of it


class Tail(NamedTuple):
    """What a ring's tail has."""

    is_closed: bool
    number: int


Word = str | int | None  # what a word of an actor has: a segment's name, a number, a bit, or none


class Cell(NamedTuple):
    """What a cell has."""

    is_safe: bool
    idx: int
    value: Word


class Start(NamedTuple):
    """Where schedules begin: how many actors there are, how many cells a ring has, and which world."""

    actors: int
    ring: int
    world: str


Content = Word | Tail | Cell  # what a place has
Asked = tuple[str, str]  # a line, and the reply that is wanted
PseudoCode = tuple[dict[str, model.Step], dict[str, str]]  # the steps, and the first control point of each call
# A control point; or of one the position of a sentence, its text, and what that came to.
Met = str | tuple[str, int, str, bool]
Kind = TypeVar("Kind", str, Tail, Cell)

IDLE: dict[str, Word] = {"crq": ROOT, "new": ROOT, "next": ROOT, "t": 0, "h": 0, "closed": False, "val": None}
IDLE |= {"safe": False, "idx": 0, "pass": 0}


class Refused(Exception):
    """The reply to an event that the machine refuses."""


# ---- The world -----------------------------------------------------------------------------------


def text_of(kind: str, content: Content) -> str:
    """A content as the program shows it, by the kind of its place."""
    match content:
        case Tail(is_closed, number):
            return f"{'closed' if is_closed else 'open'} {number}"
        case Cell(is_safe, idx, value):
            halves = {"index": f"{int(is_safe)} {idx}", "value": text_of("value", value)}
            return halves.get(kind, " ".join(halves.values()))
        case None:
            return "empty" if kind == "acell" else "none"
        case bool():
            return str(int(content))
    return f"value {content}" if kind == "acell" and content != "top" else str(content)


def named(name: str) -> list[int]:
    """The name of a segment as a trace has it."""
    return [int(number) for number in name.split(".")]


@dataclass
class Actor:
    """An actor's record."""

    point: str = "Idle"
    call: str = ""  # the word of a script that began its call
    argument: int | None = None
    words: dict[str, Word] = field(default_factory=lambda: dict(IDLE))

    def text(self) -> str:
        """The words as the program shows them."""
        argument = "" if self.argument is None else f" {self.argument}"
        words = " ".join(f"{word} {text_of('value', content)}" for word, content in self.words.items())
        return f"actor {self.point} {self.call or 'none'}{argument} {words}"


class World:
    """The places and the actors, with the pseudo-code that decides each step."""

    def __init__(self, pseudo_code: PseudoCode, start: Start, seen: Counter[Met]) -> None:
        self.steps, self.firsts = pseudo_code
        self.ring, self.seen = start.ring, seen
        self.actors = {number: Actor() for number in range(1, start.actors + 1)}
        self.made = dict.fromkeys(self.actors, 0)
        self.places: dict[str, Content] = {"qhead": ROOT, "qtail": ROOT, "ahead": 0, "atail": 0}
        self.places |= {f"acell {slot}": None for slot in range(SLOTS)}
        self.add_segment(ROOT)
        if start.world == "linked":
            self.add_segment("1.0")
            self.made[1], self.places[f"next {ROOT}"] = 1, "1.0"

    def add_segment(self, name: str) -> None:
        """Puts a fresh segment into the world."""
        self.places |= {f"head {name}": 0, f"tail {name}": Tail(False, 0), f"next {name}": None}
        self.places |= {f"cell {name} {cell}": Cell(True, cell, None) for cell in range(self.ring)}

    def questions(self) -> Iterator[Asked]:
        """A line for each place and each actor, and for a segment that nobody has made, with the
        reply that is wanted."""
        for place, content in self.places.items():
            yield f"show {place}", f"is {text_of(place.split(' ')[0], content)}"
        for number, actor in self.actors.items():
            yield f"actor {number}", actor.text()
            yield f"show whole {number}.{self.made[number]}", "refused 19 NoSuchPlace"

    def segment(self, name: str) -> dict[str, object]:
        """A segment as a trace has it."""
        tail, after = self.places[f"tail {name}"], self.places[f"next {name}"]
        assert isinstance(tail, Tail)
        return {
            "head": self.places[f"head {name}"],
            "tail": tail.number,
            "closed": tail.is_closed,
            "next": named(after) if isinstance(after, str) else None,
            "cells": [self.places[f"cell {name} {cell}"] for cell in range(self.ring)],
        }

    def trace(self) -> str:
        """The trace without events that begins here, while all actors are idle and the array is as
        in the fresh world."""
        idle = {word: named(ROOT) if content == ROOT else content for word, content in IDLE.items()}
        made = [[f"{maker}.{number}" for number in range(count)] for maker, count in self.made.items()]
        start = {
            "actors": [idle | {"pc": "Idle", "op": None} for _ in self.actors],
            "segments": [[self.segment(name) for name in names] for names in [[ROOT], *made]],
            "qhead": named(ROOT),
            "qtail": named(ROOT),
            "array": {"head": 0, "tail": 0, "cells": []},
        }
        lists: dict[str, list[object]] = {"events": [], "undone": [], "marks": []}
        return json.dumps({"version": 2, "ring": self.ring, "start": start} | lists)


# ---- One step ------------------------------------------------------------------------------------


class Turn:
    """One step of an actor: the lines of its control point are executed from the first to the last,
    or to the first that leads elsewhere. There is a row of `CONDITIONS` for each form of a condition, and
    for each form of another sentence a row of `SETS` or a method."""

    def __init__(self, world: World, number: int, choice: str = "") -> None:
        self.world, self.number, self.choice = world, number, choice
        self.actor = world.actors[number]
        self.words = self.actor.words
        self.step = world.steps[self.actor.point]
        self.place, self.access, self.answer = "-", "none", "-"
        self.found: Content = None  # what was at the place
        self.is_won: bool | None = None
        self.goes = self.step.after
        self.reply: str | None = None
        self.position = 0  # of the sentence in the step

    def make(self) -> str:
        """Makes the step; returns the parts of its entry from its place on."""
        for self.position, part in enumerate(self.step.body):
            end = self.end_of(part)
            if end:
                self.do(end)
            if end and end.form in ("go", "answer"):
                break
        else:
            if not self.goes:
                raise model.Unreadable(f"the text ends after {self.step.label}")
        if self.reply:
            self.world.actors[self.number] = Actor()
        elif self.goes:
            self.actor.point = self.goes
        return f"{self.place}; {self.access}; {self.answer}; {self.reply or '-'}"

    def do(self, sentence: model.Sentence) -> None:
        """Does what a sentence says."""
        if sentence.form in SETS:
            self.words |= SETS[sentence.form](self, **sentence.parts)
        else:
            self.text = sentence.text
            getattr(self, f"do_{sentence.form}")(**sentence.parts)

    def see(self, text: str, outcome: bool) -> bool:
        """Notes what a condition or a CAS came to."""
        self.world.seen[self.step.label, self.position, text, outcome] += 1
        return outcome

    def end_of(self, part: model.Part) -> model.Sentence | None:
        """What is done for a sentence of the step, or nothing."""
        if isinstance(part, model.Sentence):
            return part
        return part.then if any(map(self.holds, part.conditions)) else part.other

    def holds(self, condition: model.Sentence) -> bool:
        """Whether a condition holds."""
        return self.see(condition.text, bool(CONDITIONS[condition.form](self, **condition.parts)))

    def unread(self, what: str) -> model.Unreadable:
        """That the step can't be made, and why."""
        return model.Unreadable(f"{self.step.label} {what}")

    # ---- Places and values

    def place_of(self, text: str) -> tuple[str, str]:
        """The kind and the name of a place that the page names."""
        if text.startswith("cell "):
            index = self.sum(text.split(" ")[1]) % self.world.ring
            return "cell", f"cell {self.words['crq']} {index}"
        name, _, word = text.removeprefix("the counter of ").rstrip(")").partition("(")
        kind = KINDS.get(name, name.lower())
        return kind, f"{kind} {self.words[word]}" if word else kind

    def look(self, place: str) -> Content:
        """Reads a place."""
        kind, self.place = self.place_of(place)
        self.found = self.world.places[self.place]
        self.access, self.answer = "read", text_of(kind, self.found)
        return self.found

    def look_for(self, place: str, kind: type[Kind]) -> Kind:
        """Reads a place that has something of this kind."""
        found = self.look(place)
        if not isinstance(found, kind):
            raise self.unread(f"reads {found} at {place}")
        return found

    def look_half(self, place: str, half: str) -> Cell:
        """Reads one half of a cell."""
        cell = self.look_for(place, Cell)
        self.place, self.answer = self.place.replace("cell", half), text_of(half, cell)
        return cell

    def count(self, place: str) -> int:
        """Reads a counter, also one beside a closed bit."""
        found = self.look(place)
        number = found.number if isinstance(found, Tail) else found
        if not isinstance(number, int):
            raise self.unread(f"reads {found} at {place}")
        return number

    def found_at(self, kind: str) -> Content:
        """What was found at the place, which the page calls by a word for one of this kind."""
        if self.place.split(" ")[0] != kind:
            raise self.unread(f"names a {kind} that it has not read")
        return self.found

    def write(self, content: Content, access: str = "wrote") -> None:
        """Writes the place that was read."""
        self.world.places[self.place], self.access = content, access

    def swap_if(self, place: str, old: Content, new: Content, access: str = "wrote") -> None:
        """Writes a place, if it has what a CAS asks for."""
        self.is_won = self.see(self.text, self.look(place) == old)
        if self.is_won:
            self.write(new, access)
        self.answer = "won" if self.is_won else "lost"

    def has_outcome(self, is_won: bool) -> bool:
        """Whether the CAS of this step won, or lost."""
        if self.is_won is None:
            raise self.unread("has an outcome and no CAS")
        return self.is_won == is_won

    def value(self, term: str) -> Word:
        """What a word, a number or a letter of the page stands for."""
        if term == "x" and self.actor.argument is None:
            raise self.unread("names x in a call without it")
        known: dict[str, Word] = {"R": self.world.ring, "x": self.actor.argument}
        known |= {"none": None, "true": True, "false": False} | self.words
        return known[term] if term in known else int(term)

    def sum(self, text: str) -> int:
        """A number, or the sum of two."""
        total = 0
        for term in text.split(" + "):
            found = self.value(term)
            if not isinstance(found, int):
                raise self.unread(f"takes {term} for a number, and it is {found}")
            total += found
        return total

    def triple(self, text: str) -> Cell:
        """What a CAS2 expects or writes."""
        bit, index, value = text.split(", ")
        return Cell(bool(self.value(bit)), self.sum(index), self.value(value))

    # ---- Sentences

    def do_add(self, word: str, place: str) -> None:
        count = self.count(place)
        if self.place in ("ahead", "atail") and count == SLOTS:
            raise Refused("refused 8 ArrayEnd")
        self.words[word] = count
        self.write(Tail(self.found.is_closed, count + 1) if isinstance(self.found, Tail) else count + 1)

    def do_cas(self, place: str, old: str, new: str) -> None:
        self.swap_if(place, self.value(old), self.value(new))

    def do_cas_tail(self, place: str, old: str, new: str) -> None:
        self.swap_if(place, Tail(False, self.sum(old)), Tail(False, self.sum(new)))

    def do_cas2(self, place: str, old: str, new: str) -> None:
        before, after = self.triple(old), self.triple(new)
        self.swap_if(place, before, after, "wrote index" if before.value == after.value else "wrote")

    def do_close(self, place: str) -> None:
        is_closed, count = self.look_for(place, Tail)
        self.write(Tail(True, count))
        self.answer = f"was {'closed' if is_closed else 'open'}"

    def do_make(self, word: str, place: str, cell: str, tail: str) -> None:
        name = f"{self.number}.{self.world.made[self.number]}"
        self.world.made[self.number] += 1
        self.world.add_segment(name)
        self.world.places[f"cell {name} {cell}"] = Cell(True, int(cell), self.value(place[0]))
        self.world.places[f"tail {name}"] = Tail(False, int(tail))
        self.words[word] = name
        self.place, self.access, self.answer = f"whole {name}", "wrote", f"made {name}"

    def do_swap(self, what: str, place: str) -> None:
        self.look(place)
        self.write("top" if what == "top" else self.value(what))

    def do_go(self, to: str, number: str = "", then: str = "") -> None:
        self.goes = then if number and self.see(self.text, self.words["pass"] == int(number)) else to

    def do_answer(self, what: str) -> None:
        taken = self.found_at("acell") if what == "v" else self.words["val"]
        self.reply = what if what in ("enqueued", "empty") else f"value {taken}"


# The words that a sentence of each form sets, by its parts.
SETS: dict[str, Callable[..., dict[str, Word]]] = {
    "name": lambda turn, word, place: {word: turn.look_for(place, str)},
    "counter": lambda turn, word, place: {word: turn.count(place)},
    "tail": lambda turn, bit, word, place: dict(zip((bit, word), turn.look_for(place, Tail))),
    "value": lambda turn, place: {"val": turn.look_half(place, "value").value},
    "index": lambda turn, bit, word, place: dict(zip((bit, word), turn.look_half(place, "index"))),
    "set": lambda turn, number: {"pass": int(number)},
    "take": lambda turn, word: {word: turn.found_at("next")},
}
# Whether a condition of each form holds, by its parts.
CONDITIONS: dict[str, Callable[..., object]] = {
    "won": lambda turn: turn.has_outcome(True),
    "lost": lambda turn: turn.has_outcome(False),
    "has_none": lambda turn, place: turn.look(place) is None,
    "was_closed": lambda turn: turn.found_at("tail").is_closed,
    "has_value": lambda turn: turn.words["val"] is not None,
    "has_no_value": lambda turn: turn.words["val"] is None,
    "bit": lambda turn, word: turn.words[word],
    "compare": lambda turn, sign, right, place="", left="": SIGNS[sign](
        turn.count(place) if place else turn.sum(left), turn.sum(right)
    ),
    "changed": lambda turn, place, bit, word: turn.look(place) != (turn.words[bit], turn.words[word]),
    "chosen": lambda turn, choice: turn.choice == choice,
    "was_empty": lambda turn: turn.found_at("acell") is None,
    "was_value": lambda turn: turn.found_at("acell") not in (None, "top"),
}

# ---- Schedules -----------------------------------------------------------------------------------


class Schedule:
    """A random schedule: its lines, each with the reply that the pseudo-code gives and the control
    point at which it was."""

    def __init__(self, pseudo_code: PseudoCode, start: Start, seed: int, seen: Counter[Met]) -> None:
        self.world, self.seen = World(pseudo_code, start, seen), seen
        self.chance, self.count = random.Random(" ".join(map(str, (*start, seed)))), 0
        self.rows: list[tuple[str, str, str]] = []
        self.draw_mix()
        while self.able and self.drawn < EVENTS:
            self.drawn += 1
            self.event()
        self.ask("its end", self.world.questions())
        self.ask("its end", [(f"back {self.count}", f"at 0 {self.count}")])

    def ask(self, point: str, asked: Iterable[Asked]) -> None:
        """Adds lines, asked at this control point."""
        self.rows += ((*row, point) for row in asked)

    def draw_mix(self) -> None:
        """Draws which calls there are, how fast each actor is and how long it goes on alone, and how
        often one starves. Slow actors come late to their cells, and so to the seldom branches."""
        chance = self.chance
        enqueues, array = chance.choice([0.3, 0.4, 0.5]), chance.choice([0, 0, 0, 0.1, 1])
        self.mix = [enqueues * (1 - array), (1 - enqueues) * (1 - array), enqueues * array, (1 - enqueues) * array]
        self.stays, self.starves = chance.choice([0, 0.5, 0.8]), chance.choice([0, 0, 0.3])
        self.speeds = {number: chance.choice([1, 4, 20]) for number in self.world.actors}
        self.able, self.last, self.drawn = [*self.world.actors], 1, 0

    def event(self) -> None:
        """Draws an event, and makes it."""
        if self.last not in self.able or self.chance.random() >= self.stays:
            self.last = self.chance.choices(self.able, [self.speeds[number] for number in self.able])[0]
        number, point = self.last, self.world.actors[self.last].point
        try:
            line, entry = self.begin(number) if point == "Idle" else self.go_on(number)
        except Refused as refusal:  # for good: a counter never goes down
            self.able.remove(number)
            self.ask(point, [(f"go {number}", str(refusal))])
            return
        self.count += 1
        self.seen[point] += 1
        self.ask(point, self.questions(number, line, entry))
        if self.chance.random() < LOOK:
            self.ask(point, self.world.questions())

    def begin(self, number: int) -> tuple[str, str]:
        """An actor begins a call. Returns the line, and the parts of the entry after it."""
        actor, chance = self.world.actors[number], self.chance
        actor.call = chance.choices([*model.CALLS.values()], self.mix)[0]
        actor.point = self.world.firsts[actor.call]
        if actor.call.endswith("enq"):
            actor.argument = chance.choice([0, 7, 7, 2**64 - 1, chance.randrange(100)])
        return f"{actor.call} {number}" + ("" if actor.argument is None else f" {actor.argument}"), "-; none; -; -"

    def go_on(self, number: int) -> tuple[str, str]:
        """An actor makes the next step of its call. Returns the same."""
        line, choice = f"go {number}", ""
        if self.world.steps[self.world.actors[number].point].has_choice():
            choice = "yes" if self.chance.random() < self.starves else "no"
            line = f"starve {number} {choice}"
        return line, Turn(self.world, number, choice).make()

    def questions(self, number: int, line: str, entry: str) -> Iterator[Asked]:
        """The line of a step and the questions after it, each with the reply that is wanted."""
        place, *_, reply = entry.split("; ")
        yield line, f"ok {self.count} {reply}".removesuffix(" -")
        yield f"actor {number}", self.world.actors[number].text()
        yield f"step {self.count}", f"step {self.count}; {line}; {entry}"
        kind, *name = place.split(" ")
        kind = SHOWN_AS.get(kind, kind)
        if kind != "-":
            shown = " ".join([kind, *name])
            yield f"show {shown}", f"is {text_of(kind, self.world.places[shown])}"


# ---- The checks ----------------------------------------------------------------------------------


def replies_to(built: str, start: Start, schedules: list[Schedule]) -> program.Ended:
    """What the program gives to the lines of all schedules, one after the other."""
    script = program.script_of(line for schedule in schedules for line, *_ in schedule.rows)
    if start.world == "fresh":
        return program.run([built, "run", "-", "--actors", str(start.actors), "--ring", str(start.ring)], script)
    return run_over(built, World(({}, {}), start, Counter()).trace(), script)


def fault_of(ended: program.Ended, lines: dict[str, list[str]], schedules: list[Schedule]) -> str:
    """The first difference between the pseudo-code and the program over these schedules, or
    nothing."""
    replies = iter(ended.output.decode("ascii", "replace").splitlines())
    for seed, schedule in enumerate(schedules, 1):
        for line, wanted, point in schedule.rows:
            reply = next(replies, "nothing")
            if reply != wanted:
                causes = "".join(f"\n    {point:5}{text}" for text in lines.get(point, []))
                differ = f"the program replies\n    {reply}\nand the page gives\n    {wanted}"
                return f"seed {seed}, `{line}` at {point}: {differ}{causes and f'{chr(10)}by{causes}'}"
    return "" if not ended.status else f"the program ended with status {ended.status}: {ended.errors.strip()}"


def outcomes_of(steps: dict[str, model.Step]) -> Iterator[Met]:
    """All that the lines may come to, as `seen` counts it: that an actor is there; that a condition
    holds and that it doesn't; that a CAS wins and loses; which way a word of the pass leads. What
    follows an outcome of a CAS has only to be reached."""
    for step in steps.values():
        yield step.label
        for position, part in enumerate(step.body):
            conditions, end = ([], part) if isinstance(part, model.Sentence) else (part.conditions, part.then)
            either = [*conditions, end] if end.form.startswith("cas") or "then" in end.parts else conditions
            for sentence in either:
                ways = [True] if sentence.form in model.OUTCOMES else [True, False]
                yield from ((step.label, position, sentence.text, way) for way in ways)


def unreached(steps: dict[str, model.Step], seen: Counter[Met]) -> str:
    """What of the lines was not reached, or nothing."""
    missing = [met for met in outcomes_of(steps) if not seen[met]]
    return ", ".join(m if isinstance(m, str) else f"{m[0]}: `{m[2]}` {'yes' if m[3] else 'no'}" for m in missing)


def comparisons(built: str, page: str, seen: Counter[Met]) -> Iterator[tuple[str, int, str]]:
    """The comparisons, each a name, how many steps it has, and what is wrong, or nothing."""
    pseudo_code = model.read(page)
    lines = {label: text for column in model.lines_of(page).values() for label, text in column.items()}
    for start in map(Start._make, itertools.product(ACTORS, RINGS, STARTS)):
        count = STARTS[start.world]
        drawn = [Schedule(pseudo_code, start, seed, seen) for seed in range(1, count + 1)]
        steps = sum(schedule.count for schedule in drawn)
        name = f"{start.actors} actors, rings of {start.ring}, {start.world} start, seeds 1 to {count}: {steps:,} steps"
        yield name, steps, fault_of(replies_to(built, start, drawn), lines, drawn)


def checks(given: argparse.Namespace) -> Iterator[tuple[str, str]]:
    """The checks, each a name and what is wrong, or nothing; the first difference ends them."""
    seen: Counter[Met] = Counter()
    total = 0
    try:
        page = given.page.read_text(encoding="utf-8")
        points = model.read(page)[0]
        yield f"the lines of {len(points)} control points are read", ""
        for name, steps, fault in comparisons(given.program, page, seen):
            total += steps
            yield name, fault
            if fault:
                return
    except (model.Unreadable, OSError) as fault:
        yield given.page.name, str(fault)
        return
    yield f"{total:,} steps in all", "" if total >= WANTED else f"{WANTED:,} are wanted"
    least = min(seen[met] for met in outcomes_of(points))
    yield f"each line, and all that it may come to, {least} times or more", unreached(points, seen)


def main() -> int:
    """Compares the program with the page; returns the exit status."""
    parser = Parser(__doc__, "--page docs/MODEL.md")
    parser.add_argument("--page", type=Path, default=model.PAGE, help="another page in place of docs/MODEL.md")
    add_program(parser)
    return program.print_checks(checks(parser.parse_args()))
