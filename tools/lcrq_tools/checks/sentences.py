"""Makes random steps, and compares what the sentence of each says with what the program shows: run by the gate.

    python3 tools/check.py sentences [--program P]

20,000 steps are made, in sessions of two to five actors over rings of each size, with calls of both queues. Of
each step the content of its place is asked before it, by undoing it alone, and after it. Each number, name and
outcome in the sentence has to be the one that these replies have: `CLAIMS` has what a sentence may claim.
There is a line for each control point of the table in docs/MODEL.md, and each of its sentences has to come up.
Only Python's standard library is used.
"""

import argparse
import collections
import functools
import itertools
import random
import re
from collections.abc import Callable, Iterable, Iterator
from dataclasses import dataclass

from lcrq_tools import model, program
from lcrq_tools.options import start_words
from lcrq_tools.program import EXAMPLES, TOP, Driven
from lcrq_tools.records import Cell, Step, Tail, content_of
from lcrq_tools.speak.sentences import IDLE, POINTS, SENTENCES, Seen
from lcrq_tools.speak.teller import Spoken, Teller

STEPS, LENGTH = 20_000, 500  # of all sessions, and of one
RINGS, ACTORS = (2, 4, 8), (2, 3, 5)
RARE = EXAMPLES / "14-what-the-safe-bit-prevents-2.script"
BURSTS = (1, 2, 5, 20)  # how many steps an actor makes before another one goes on


@dataclass(frozen=True)
class Shown:
    """A step with what is at its place before and after it, as the program shows it."""

    seen: Seen
    before: str
    after: str
    teller: Teller

    def cells(self) -> tuple[Cell, Cell]:
        """The cell of its place, before and after it."""
        return Cell.read(self.before), Cell.read(self.after)

    def counts(self) -> tuple[int, int]:
        """The counter at its place, before and after it."""
        before, after = (content.rpartition(" ")[2] for content in (self.before, self.after))
        return int(before), int(after)

    def step(self, number: str) -> Step:
        """A live step."""
        return self.teller.live[int(number) - 1]


# ---- What a sentence may claim --------------------------------------------------------------------

Claim = Callable[..., object]  # true of the words of a claim that are true of what is shown


def read_claim(shown: Shown, value: str) -> bool:
    """A read leaves its place as it is, and says what is there, with safe bit and state in words."""
    state = value.replace("unsafe,", "0").replace("safe,", "1").replace("open,", "open").replace("closed,", "closed")
    is_tail = shown.seen.step.place.kind == "tail" and state.isdecimal()
    wanted = str(Tail.read(shown.after).count) if is_tail else shown.after
    return shown.before == shown.after and state == wanted


def since_claim(shown: Shown, read: str, writer: str) -> bool:
    """The actor's own step read a part of the place, and a later step of another actor wrote a part of it."""
    step, earlier, later = shown.seen.step, shown.step(read), shown.step(writer)
    reads = earlier.event.actor == step.event.actor and earlier.place.overlaps(step.place) and not earlier.wrote()
    writes = any(place.overlaps(step.place) for place in later.wrote())
    return reads and writes and int(read) < int(writer) and later.event.actor != step.event.actor


def swap_claim(shown: Shown, slot: str, old: str) -> bool:
    """A slot had this, and has the value of an enqueue, or top."""
    new = "top" if shown.seen.before.point == "B2" else f"value {shown.seen.before.call.split(' ')[1]}"
    old_content = {"which was empty": "empty", "which had no value": shown.before}.get(old, f"value {old.split()[-1]}")
    old_content = "top" if old == "which had top" else old_content
    is_valueless = old != "which had no value" or shown.before in ("empty", "top")
    is_there = slot == str(shown.seen.step.place.index)
    return shown.before == old_content and shown.after == new and is_valueless and is_there


def of_words(shown: Shown, name: str, value: str) -> bool:
    """An actor's word has this value, after the step or, where the call is over, before it."""
    return shown.seen.words()[name] == value


def point_of(shown: Shown) -> str:
    """The kind of counter of which a step's actor has a position: `t` in an enqueue, `h` in a dequeue."""
    return "t" if shown.seen.before.point[0] in "EA" else "h"


CLAIMS: dict[str, Claim] = {
    r"reads (?:the|which|safe)[^:]*: ([^;:]+?)(?:, so .*)?(?:;.*)?$": read_claim,
    r", (\d+) → (\d+)": lambda shown, old, new: shown.counts() == (int(old), int(new)) and int(new) == int(old) + 1,
    r"actor (\d+) has (?:position|slot) (\d+)":
        lambda shown, actor, old: (shown.seen.step.event.actor, shown.counts()[0]) == (int(actor), int(old)),
    r"but the ring is closed": lambda shown: Tail.read(shown.before).is_closed,
    r"CAS won: moves .* on from (\S+) to ([^;]+)": lambda shown, old, new: (shown.before, shown.after) == (old, new),
    r"CAS won: links (\S+) behind (\S+)": lambda shown, new, segment:
        (shown.before, shown.after, shown.seen.step.place.segment) == ("none", new, segment),
    r"CAS won: raises .* from (\d+) to (\d+)": lambda shown, old, new: shown.counts() == (int(old), int(new)),
    r"CAS2? lost": lambda shown: shown.before == shown.after and shown.seen.step.answer == "lost",
    r"read in step (\d+), by step (\d+)": since_claim,
    r"CAS lost: (\S+) is linked": lambda shown, name: shown.before == name,
    r"moved already, by step \d+, to ([^;]+)": lambda shown, name: shown.before == name,
    r"puts (\d+) into cell (\d+) .* for position (\d+)": lambda shown, value, _, position:
        shown.cells()[0].value is None and shown.cells()[1] == Cell(True, int(position), int(value)),
    r"takes (\d+) out of cell .* for position (\d+) now": lambda shown, value, index:
        shown.cells()[0].value == int(value) and (shown.cells()[1].index, shown.cells()[1].value) == (int(index), None),
    r"marks cell .* unsafe": lambda shown:
        not shown.cells()[1].is_safe and shown.cells()[0].value == shown.cells()[1].value,
    r"moves cell .* on to index (\d+)": lambda shown, index:
        shown.cells()[1].index == int(index) and shown.cells()[0].value is shown.cells()[1].value is None,
    r"closes the tail .* which was (\w+)": lambda shown, state:
        (Tail.read(shown.before).state(), Tail.read(shown.after).state()) == (state, "closed"),
    r"makes segment (\S+), which holds (\d+)": lambda shown, name, value:
        (shown.before, shown.after) == ("", "exists") and shown.teller.ask(f"show value {name} 0") == f"is {value}",
    r"swaps top into slot (\d+), and takes (\d+)": swap_claim,
    r"swaps \S+ into slot (\d+), (which [^;:]+)": swap_claim,
    r"swaps (\d+) into": lambda shown, value: shown.after == f"value {value}",
    r"(?:cell|slot) (\d+)(?! of segment)": lambda shown, index: index in (str(shown.seen.step.place.index), "0")
        or shown.seen.step.place.kind in ("ahead", "atail"),
    r"ring (\d+\.\d+)": lambda shown, name: name in (shown.seen.step.place.segment, shown.seen.words()["crq"]),
    r"(?:free for|for|older than|that of|behind|past|drawn|of) position (\d+)\b(?! now)": lambda shown, number:
        of_words(shown, point_of(shown), number),
    r"(?:behind|of this) slot (\d+)": lambda shown, number: of_words(shown, "h", number),
    r"below head (\d+)": lambda shown, number: of_words(shown, "h", number),
    r"the cell holds (\d+)": lambda shown, value: of_words(shown, "val", value),
    r"begins to enqueue (\d+)": lambda shown, value: shown.seen.after.call.endswith(f" {value}"),
    r"chooses (not )?to starve": lambda shown, no: shown.seen.after.point == ("E4" if no else "E11"),
    r"the call returns (\S+)": lambda shown, result: shown.seen.step.reply.removeprefix("value ") == result,
}


def false_claims(sentence: str, shown: Shown) -> list[str]:
    """What of a sentence isn't true of what is shown."""
    found = ((claim, re.search(form, sentence)) for form, claim in CLAIMS.items())
    return [match[0] for claim, match in found if match and not claim(shown, *match.groups())]


# ---- Random sessions ------------------------------------------------------------------------------


def next_line(teller: Teller, chance: random.Random, actor: int) -> str:
    """A line of an actor's next step."""
    stand = teller.actor(actor)
    assert stand  # there is one of this number
    if stand.is_idle():
        value = chance.randrange(1000)
        return chance.choice([f"enq {actor} {value}", f"enq {actor} {value}", f"deq {actor}", f"deq {actor}",
                              f"aenq {actor} {value}", f"adeq {actor}"])
    return f"starve {actor} {chance.choice(['yes', 'no'])}" if stand.point == "E10" else f"go {actor}"


def shown_of(teller: Teller, seen: Seen) -> Shown:
    """A step, which is the last one, with what is at its place before it too."""
    if not seen.step.place:
        return Shown(seen, "", "", teller)
    show = f"show {seen.step.place}"
    _, before, _, after = teller.ask_all([f"undo {len(teller.live)}", show, "redo", show])
    return Shown(seen, content_of(before), content_of(after), teller)


def random_lines(teller: Teller, seed: int, actors: int) -> Iterator[str]:
    """The lines of a random session, of which the last one is refused if the array comes to its end."""
    chance = random.Random(seed)
    while len(teller.live) < LENGTH:
        actor = chance.randint(1, actors)
        for _ in range(chance.choice(BURSTS)):
            before = len(teller.live)
            yield next_line(teller, chance, actor)
            if len(teller.live) == before:
                return


def steps_in(words: list[str], lines_of: Callable[[Teller], Iterable[str]]) -> Iterator[tuple[Spoken, Shown]]:
    """The steps that these lines of a session make, each with what is shown of it."""
    with Driven(words) as driven:
        teller = Teller(driven.ask_all)
        for line in lines_of(teller):
            spoken = teller.tell(line)
            if spoken.seen:
                yield spoken, shown_of(teller, spoken.seen)


def all_steps(path: str) -> Iterator[tuple[Spoken, Shown]]:
    """The steps of a script with what seldom comes up by chance, and those of random sessions."""
    trace, lines = str(RARE.with_suffix(".trace")), RARE.read_text(encoding="ascii").splitlines()
    yield from steps_in([path, *start_words(trace, None, None)], lambda _: lines)
    made = 0
    for seed in itertools.count():
        if made >= STEPS:
            return
        actors, ring = ACTORS[seed % len(ACTORS)], RINGS[seed // len(ACTORS) % len(RINGS)]
        words = [path, *start_words(None, actors, ring)]
        for each in steps_in(words, functools.partial(random_lines, seed=seed, actors=actors)):
            made += 1
            yield each


# ---- The checks -----------------------------------------------------------------------------------


def wrong_of(point: str, counts: collections.Counter[str], faults: dict[str, str]) -> str:
    """What is wrong with the sentences of a control point, or nothing."""
    keys = [key for key in SENTENCES if key.startswith(f"{point} ")]
    missing = [key for key in keys if not counts[key]]
    if not keys:
        return "it has no sentence"
    return faults.get(point, "") or (f"no step came to {', '.join(missing)}" if missing else "")


def checks(arguments: argparse.Namespace) -> Iterator[tuple[str, str]]:
    """A check for each control point: a name and what is wrong, or nothing."""
    counts: collections.Counter[str] = collections.Counter()
    faults: dict[str, str] = {}
    for spoken, shown in all_steps(arguments.program):
        key, point = shown.seen.key(), shown.seen.before.point
        counts[key] += 1
        false = [] if key in SENTENCES and point not in faults else [key]
        if not false and (false := false_claims(spoken.sentence, shown)):
            faults[point] = f"`{'`, `'.join(false)}` of `{spoken.sentence}`, from {shown.before} to {shown.after}"
    table = [IDLE, *model.control_points((TOP / "docs" / "MODEL.md").read_text(encoding="utf-8"))]
    for point in table:
        own = sum(count for key, count in counts.items() if key.startswith(f"{point} "))
        yield f"{point}, {own} steps", wrong_of(point, counts, faults)
    known = set(POINTS) == set(table)
    fault = "" if known else "they have other control points than the table"
    yield f"{len(SENTENCES)} sentences, {sum(counts.values())} steps", fault
