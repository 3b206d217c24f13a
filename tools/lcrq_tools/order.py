"""Knows each step of a run again while its lines move steps, for `draw/askers.py` and `page/mirror.py`.

A step is known by the number of the line that made it first, also after others undid it or made it again. Steps of the
start have numbers below 1. The lines are gone along one by one, and each reply says what moved; which steps a `roll`
takes is asked of the program, since that depends on what they touched, and so are those of a bookmark of the start.
"""

from collections import Counter
from collections.abc import Callable, Sequence
from dataclasses import dataclass, field

from lcrq_tools.faults import Fault
from lcrq_tools.records import Counts, Event, Said, is_made, read_reply

Ask = Callable[[Sequence[str]], list[str]]  # gives the replies to lines


def common_of(before: Sequence[object], after: Sequence[object]) -> int:
    """With how many equal parts two lists begin: by halves, since lists are compared at once."""
    same, end = 0, min(len(before), len(after))
    while same < end:
        middle = (same + end + 1) // 2
        if before[same:middle] == after[same:middle]:
            same = middle
        else:
            end = middle - 1
    return same


def actors_of(ask: Ask, live: int, undone: int) -> list[int]:
    """The actors of the first undone steps, so many of them: each is made again for that, and taken back."""
    if not undone:
        return []
    asked = [f"forward {undone}", *(f"step {live + number}" for number in range(1, undone + 1)), f"back {undone}"]
    return [*map(actor_in, ask(asked)[1:-1])]


def actor_in(reply: str) -> int:
    """The actor of the step of a reply, of which nothing else is read."""
    return Event.read(reply.split("; ", 2)[1]).actor


@dataclass
class Order:
    """The steps of a run at one of its lines."""

    live: list[int] = field(default_factory=list)
    undone: list[int] = field(default_factory=list)  # in the order of `redo`
    marks: dict[str, list[int]] = field(default_factory=dict)  # of each bookmark its steps
    actors: dict[int, int] = field(default_factory=dict)  # of each step
    unasked: int = 0  # how many steps no line made so far

    @staticmethod
    def begin(ask: Ask) -> "Order":
        """The steps of the start."""
        counts = Counts.read(ask(["len"])[0])
        order = Order()
        order.live = order.fresh([*map(actor_in, ask(steps_named(counts.live)))])
        order.undone = order.fresh(actors_of(ask, counts.live, counts.undone))
        return order

    def all(self) -> list[int]:
        """The live steps, and then the undone ones."""
        return self.live + self.undone

    def fresh(self, actors: Sequence[int]) -> list[int]:
        """Steps of these actors that no line made."""
        numbers = range(-self.unasked, -self.unasked - len(actors), -1)
        self.actors |= zip(numbers, actors)
        self.unasked += len(actors)
        return [*numbers]

    def follow(self, number: int, line: str, reply: str, ask: Ask) -> None:
        """Does what the line of this number did, by its reply. The program is asked behind that line."""
        if is_made(reply):
            self.actors[number] = Event.read(line).actor
            self.live.append(number)
            self.undone = []
        elif not reply.startswith("refused "):
            self.follow_others(line, reply, ask)

    def follow_others(self, line: str, reply: str, ask: Ask) -> None:
        """Does what a line did that made no new step."""
        word, _, rest = line.partition(" ")
        match read_reply(reply):
            case Said("marked"):
                self.marks[rest] = [*self.live]
            case Said("dropped"):
                self.marks.pop(rest, None)
            case Counts(live, undone):
                self.move(word, rest, live, undone, ask)
                if (len(self.live), len(self.undone)) != (live, undone):
                    raise Fault(f"the steps can't be followed: `{line}` is answered {reply}")

    def move(self, word: str, rest: str, live: int, undone: int, ask: Ask) -> None:
        """Moves steps as a line that begins with this word does, after which so many are live and undone."""
        count = len(self.live)
        if word == "undo":
            self.take([int(rest) - 1 if rest else count - 1])
        elif word == "back":
            self.take(range(live, count))
        elif word == "roll":
            self.take(self.last_of(actors_of(ask, live, undone - len(self.undone))))
        elif word in ("redo", "forward"):
            made = live - count
            self.live, self.undone = self.live + self.undone[:made], self.undone[made:]
        elif word == "goto":
            self.live, self.undone = self.marked(rest, live, ask), []

    def marked(self, name: str, live: int, ask: Ask) -> list[int]:
        """The steps of a bookmark, so many. Those of one that no line set are known by no other moment."""
        if name in self.marks:
            return [*self.marks[name]]
        return self.fresh([*map(actor_in, ask(steps_named(live)))])

    def take(self, places: Sequence[int]) -> None:
        """Undoes the steps at these places, the last one first."""
        taken = set(places)
        self.undone = [self.live[place] for place in sorted(taken)] + self.undone
        first = min(taken, default=len(self.live))
        rest = [step for place, step in enumerate(self.live[first:], first) if place not in taken]
        self.live = self.live[:first] + rest

    def last_of(self, actors: Sequence[int]) -> list[int]:
        """The places of the last live steps of these actors, as many of each as it is named."""
        left, missing, places = Counter(actors), len(actors), []
        for place in reversed(range(len(self.live))):
            if not missing:
                break
            actor = self.actors[self.live[place]]
            if left[actor]:
                left[actor] -= 1
                missing -= 1
                places.append(place)
        return places


def steps_named(count: int) -> list[str]:
    """The lines that ask for the first steps, so many."""
    return [f"step {number}" for number in range(1, count + 1)]
