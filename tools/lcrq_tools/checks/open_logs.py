"""Blurs the stamps of logs of random small runs, for `check.py ports`: `tools/conform.py` has to find an order in
which they agree, or to say that there is none, as a search by brute force does.

The runs are made, and all their orders tried, by the pseudo-code of docs/MODEL.md alone, as `pseudo_code.py` executes
it. Brute force goes on by every record that may come next, from every world that is reached: nothing is left
out but worlds that are equal in all.
"""

import copy
import random
from collections import Counter
from collections.abc import Iterator
from dataclasses import dataclass, replace

from lcrq_tools import model
from lcrq_tools.checks.changed_logs import OTHERS
from lcrq_tools.checks.port_runs import Bench, Report
from lcrq_tools.checks.pseudo_code import PseudoCode, Start, Turn, World, text_of

FOUND, REFUSED = 200, 20  # runs whose stamps are blurred, and those of them with a bug
FIRST_SEEDS = 1, 1_000_000  # of these
ACTORS, RING, CALLS = (2, 3), 2, (1, 3)
APART = 10  # ticks between two accesses
WIDTHS = (5, 20, 60, 200)  # of the longest wait between an access and a stamp of it, of which a log has one
COARSE = 0.2  # the share of logs with a clock that stands still for some accesses
SILENT, UNCHOSEN = 0.2, 0.2  # of those that leave out answers, and the choices at E10
OF_ANOTHER = 0.7  # the share of bugs in which an access finds what another one found
ALL_SAID = ("E10", "E12", "reply")  # whose answers are never left out


@dataclass(frozen=True)
class Access:
    """A record of a run: what an actor did, and when."""

    actor: int
    what: str  # a call, a label, or `reply`
    answer: str = ""  # of the access; or the reply
    before: int = 0
    after: int = 0

    def line(self, is_plain: bool) -> str:
        """The line of a log, with one stamp or with two."""
        stamp = f"{self.before}" if is_plain else f"{self.before}-{self.after}"
        what = "" if self.what == "reply" else f"{self.what} "
        return f"{stamp} {self.actor} {what}{named(self.answer)}".rstrip(" ")


def named(answer: str) -> str:
    """An answer with an address for each segment."""
    return " ".join(f"0x{word.replace('.', 'b')}" if "." in word else word for word in answer.split(" "))


# ---- Runs ----------------------------------------------------------------------------------------


def go(world: World, actor: int, choice: str = "") -> tuple[str, str, str]:
    """Makes a step of an actor; returns its label, its answer and the reply of its call."""
    point = world.actors[actor].point
    _, _, answer, reply = Turn(world, actor, choice).make().split("; ")
    return point, "" if answer == "-" else answer, "" if reply == "-" else reply


def begin(world: World, actor: int, call: str) -> bool:
    """Begins a call; returns whether the actor was in none."""
    record, (word, *value) = world.actors[actor], call.split(" ")
    if record.point != "Idle":
        return False
    record.call, record.argument = word, int(value[0]) if value else None
    record.point = world.firsts[word]
    return True


def run_of(world: World, chance: random.Random) -> list[Access]:
    """The records of a random run."""
    left = {actor: chance.randint(*CALLS) for actor in world.actors}
    made: list[Access] = []
    while able := [actor for actor in left if left[actor] or world.actors[actor].point != "Idle"]:
        actor = chance.choice(able)
        if world.actors[actor].point == "Idle":
            left[actor] -= 1
            call = chance.choice([f"enq {100 * left[actor] + actor}", "deq"])
            begin(world, actor, call)
            made.append(Access(actor, call))
            continue
        has_choice = world.steps[world.actors[actor].point].has_choice()
        choice = chance.choice(["yes", "no"]) if has_choice else ""
        label, answer, reply = go(world, actor, choice)
        made.append(Access(actor, label, choice or answer))
        made += [Access(actor, "reply", reply)] * bool(reply)
    return made


def blurred(run: list[Access], chance: random.Random) -> list[Access]:
    """A run with stamps around each access. Those of an actor follow each other."""
    width = chance.choice(WIDTHS)
    made: list[Access] = []
    ends = dict.fromkeys((access.actor for access in run), 0)  # where the stamps of an actor end
    for number, access in enumerate(run):
        time = APART * (number + 1)
        following = (APART * (it + 1) for it in range(number + 1, len(run)) if run[it].actor == access.actor)
        room = (next(following, time + 2 * width) - time) // 2
        first = max(ends[access.actor] + 1, time - width)
        ends[access.actor] = time + chance.randint(0, min(width, room))
        made.append(replace(access, before=chance.randint(first, time), after=ends[access.actor]))
    return made


def coarse(run: list[Access], chance: random.Random) -> list[Access]:
    """A run with one stamp for each record, of a clock that stands still for some accesses."""
    width = chance.choice(WIDTHS)
    times = [APART * (number + 1) // width for number in range(len(run))]
    return [replace(access, before=time, after=time) for access, time in zip(run, times)]


def silent(run: list[Access], chance: random.Random) -> list[Access]:
    """A run that leaves half of the answers out."""
    said = [access.what in ALL_SAID or chance.random() < 0.5 for access in run]
    return [access if is_said else replace(access, answer="") for access, is_said in zip(run, said)]


def other_answer(access: Access, run: list[Access], chance: random.Random) -> str:
    """Another answer of an access: one that another access of this label got, or any; nothing if there is none."""
    others = [it.answer for it in run if it.what == access.what and it.answer not in ("", access.answer)]
    if others and chance.random() < OF_ANOTHER:
        return chance.choice(others)
    words = access.answer.split(" ")
    at = chance.randrange(len(words))
    word = words[at]
    words[at] = str(int(word) + chance.choice([1, 2])) if word.isdecimal() else OTHERS.get(word, "")
    return " ".join(words) if words[at] else ""


def with_bug(run: list[Access], chance: random.Random) -> list[Access]:
    """A run in which one access found something else."""
    while True:
        number = chance.randrange(len(run))
        access = run[number]
        answer = "" if access.what == "E12" else other_answer(access, run, chance)
        if answer:
            return [*run[:number], replace(access, answer=answer), *run[number + 1 :]]


# ---- Brute force ---------------------------------------------------------------------------------


def copy_of(world: World) -> World:
    """Another world with the same in it."""
    other = copy.copy(world)
    other.places, other.made = dict(world.places), dict(world.made)
    other.actors = {number: copy.copy(actor) for number, actor in world.actors.items()}
    for actor in other.actors.values():
        actor.words = dict(actor.words)
    return other


def key_of(world: World, replied: dict[int, str]) -> str:
    """All that is in a world."""
    places = [text_of(place.split(" ")[0], content) for place, content in world.places.items()]
    return repr((places, [*world.places], [actor.text() for actor in world.actors.values()], sorted(replied.items())))


@dataclass
class Reached:
    """A world with what calls replied that have no record of it yet."""

    done: frozenset[int]
    world: World
    replied: dict[int, str]

    def after(self, number: int, access: Access) -> Iterator["Reached"]:
        """What is reached by a record that agrees, by each choice that the log leaves out before it."""
        for choice in ("", "yes", "no"):
            made = Reached(self.done | {number}, copy_of(self.world), dict(self.replied))
            if choice and (made.point(access) != "E10" or access.what == "E10"):
                return
            if choice:
                go(made.world, access.actor, choice)
            if made.agrees(access):
                yield made

    def point(self, access: Access) -> str:
        """Where the actor of a record is."""
        return self.world.actors[access.actor].point

    def agrees(self, access: Access) -> bool:
        """Goes on by a record; returns whether it agrees."""
        if access.what == "reply":
            return self.replied.pop(access.actor, "") == access.answer
        if access.what.startswith(("enq ", "deq")):
            return begin(self.world, access.actor, access.what)
        if self.point(access) != access.what:
            return False
        choice = access.answer if access.what == "E10" else ""
        _, answer, reply = go(self.world, access.actor, choice)
        self.replied |= {access.actor: reply} if reply else {}
        return bool(choice) or access.answer in ("", answer)


def any_order(world: World, run: list[Access]) -> bool:
    """Whether a run from this world agrees with the records in any of their orders."""
    before = [
        {first for first, other in enumerate(run) if other.after < access.before
         or other.actor == access.actor and first < number}
        for number, access in enumerate(run)
    ]
    level = [Reached(frozenset(), world, {})]
    for _ in run:
        following: dict[tuple[frozenset[int], str], Reached] = {}
        for reached in level:
            for number in (it for it in range(len(run)) if it not in reached.done and before[it] <= reached.done):
                for made in reached.after(number, run[number]):
                    following[made.done, key_of(made.world, made.replied)] = made
        level = [*following.values()]
    return bool(level)


# ---- The rows ------------------------------------------------------------------------------------


def fault_of(report: Report, agrees: bool) -> str:
    """What is wrong with what the tool says of a log that should agree in some order, or in none; or nothing."""
    status, text = report
    said = "in no order all agree" if "order: " in text else "step "
    is_right = text.startswith("agrees: ") and not status if agrees else status == 1 and said in text
    return "" if is_right else f"status {status}: {text.strip()[-300:]}"


class Drawn:
    """The log of a random run, with the order of its records left open."""

    def __init__(self, pseudo_code: PseudoCode, seed: int) -> None:
        self.chance = random.Random(seed)
        self.start = Start(self.chance.choice(ACTORS), RING, "fresh")
        self.pseudo_code = pseudo_code
        run = run_of(self.world(), self.chance)
        run = silent(run, self.chance) if self.chance.random() < SILENT else run
        run = [it for it in run if it.what != "E10"] if self.chance.random() < UNCHOSEN else run
        self.is_coarse = self.chance.random() < COARSE
        self.run = (coarse if self.is_coarse else blurred)(run, self.chance)

    def world(self) -> World:
        """The world in which it begins."""
        return World(self.pseudo_code, self.start, Counter())

    def fault(self, bench: Bench, agrees: bool) -> str:
        """What is wrong with what the tool says of it, or nothing."""
        lines = [access.line(self.is_coarse) for access in self.run]
        if not self.is_coarse:
            self.chance.shuffle(lines)
        return fault_of(bench.compare(lines, "--ring", RING), agrees)

def blurred_runs(bench: Bench, pseudo_code: PseudoCode, count: int) -> Iterator[tuple[str, str]]:
    """Logs of so many runs."""
    fault = ""
    for seed in range(FIRST_SEEDS[0], FIRST_SEEDS[0] + count):
        drawn = Drawn(pseudo_code, seed)
        wrong = drawn.fault(bench, True)
        fault = fault or wrong and f"seed {seed}: {wrong}"
    yield f"{count} runs whose stamps are blurred, in the order found", fault


def wrong_runs(bench: Bench, pseudo_code: PseudoCode, count: int) -> Iterator[tuple[str, str]]:
    """Logs with a bug, of which so many agree in no order."""
    fault, refused, excused, seed = "", 0, 0, FIRST_SEEDS[1]
    while refused < count:
        drawn = Drawn(pseudo_code, seed)
        drawn.run = with_bug(drawn.run, drawn.chance)
        agrees = any_order(drawn.world(), drawn.run)
        refused, excused = refused + (not agrees), excused + agrees
        wrong = drawn.fault(bench, agrees)
        fault, seed = fault or wrong and f"seed {seed}: {wrong}", seed + 1
    yield f"{refused} runs with a bug that no order excuses, and {excused} with one that an order does", fault


def open_runs(bench: Bench) -> Iterator[tuple[str, str]]:
    """All of these."""
    pseudo_code = model.read(model.PAGE.read_text(encoding="utf-8"))
    yield from blurred_runs(bench, pseudo_code, FOUND)
    yield from wrong_runs(bench, pseudo_code, REFUSED)
