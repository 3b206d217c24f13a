"""Runs the program for `conform.py`, which replays a port's log. The run may be frozen, and goes on over that
start, so it has any length.

Of a frozen run's steps only those stay known that a report may name.
"""

import contextlib
import fcntl
import itertools
import os
import select
from collections.abc import Collection, Iterator, Sequence
from pathlib import Path

from lcrq_tools.program import Broken, Driven
from lcrq_tools.records import Actor, Counts, Place, Step, all_of
from lcrq_tools.start.starts import Asked, Segment, Start, Trace, text_of

SET_AT = {"crq": ("E1", "Q1"), "new": ("E12",), "next": ("E2", "Q13")}  # words of an actor, and the lines that set each
LINKING = {b"qh", b"qt", b"ne", b"wh"}  # how the places begin that they touch
LONGEST = len("actor Idle none")  # letters of a reply to `actor A` that have the control point
SETS = {point for points in SET_AT.values() for point in points}
LINK, TRIED = "E13", (b"won", b"lost")  # the line that links what an actor made, and its answers
FREEZE_AT = 60_000  # live steps, of the 65,535 that there may be
AHEAD = 1 << 20  # bytes of lines and of replies that may wait in the pipes
Made = tuple[str, Step]  # a step, with its control point


# ---- The steps that were made --------------------------------------------------------------------


def point_of(stand: bytes) -> str:
    """The control point in a reply to `actor A`."""
    return stand.split(b" ", 2)[1].decode("ascii")


class Steps(Sequence[Made]):
    """The steps of a run from the first on, each as the program replied it, and read when it is asked for."""

    def __init__(self) -> None:
        self.before = 0  # how many came before the start, of which only some are known
        self.known: dict[object, tuple[int, Made]] = {}  # these, the last ones of their kinds, with their numbers
        self.points: set[str] = set()  # of all steps that came before
        self.first: dict[int, bytes] = {}  # the actors at the start
        self.actors = bytearray()  # whose step each is, of those since the start
        self.made: list[bytes] = []  # the replies to `step K`
        self.stands: list[bytes] = []  # their actors after them

    def __len__(self) -> int:
        return self.before + len(self.made)

    def __getitem__(self, at: int) -> Made:  # type: ignore[override]  # no slices
        if at >= self.before:
            here = at - self.before
            return self.point(here), Step.read(self.made[here].decode("ascii"))
        return next(made for number, made in self.known.values() if number == at + 1)

    def point(self, here: int) -> str:
        """The control point of a step since the start."""
        actor = self.actors[here]
        last = self.actors.rfind(actor, 0, here)
        return point_of(self.first[actor] if last < 0 else self.stands[last])

    def add(self, step: Step, state: Actor) -> None:
        """Adds a step, and its actor after it."""
        self.actors.append(step.event.actor)
        self.made.append(str(step).encode("ascii"))
        self.stands.append(str(state).encode("ascii"))

    def extend(self, actors: bytes, made: Sequence[bytes], stands: Sequence[bytes]) -> None:
        """Adds the replies about steps of these actors."""
        self.actors += actors
        self.made += made
        self.stands += stands

    def own(self, actor: int) -> Iterator[Made]:
        """The known steps of an actor, the last first."""
        here = self.actors.rfind(actor)
        while here >= 0:
            yield self[self.before + here]
            here = self.actors.rfind(actor, 0, here)
        known = {number: made for number, made in self.known.values() if made[1].event.actor == actor}
        yield from (known[number] for number in sorted(known, reverse=True))

    def last_line(self, actor: int) -> bytes:
        """The reply to `step K` about an actor's last step; nothing if it has none."""
        here = self.actors.rfind(actor)
        if here >= 0:
            return self.made[here]
        return str(self.known[actor][1][1]).encode("ascii") if actor in self.known else b""

    def stand(self, actor: int) -> bytes:
        """Where an actor is, as the program replied it."""
        here = self.actors.rfind(actor)
        return self.stands[here] if here >= 0 else self.first[actor]

    def behind(self, count: int) -> Iterator[Made]:
        """The steps behind the first ones, which are so many."""
        return map(self.__getitem__, range(count, len(self)))

    def cut(self, count: int) -> None:
        """Forgets the steps behind the first ones, which are so many."""
        here = count - self.before
        del self.actors[here:], self.made[here:], self.stands[here:]

    def numbers(self) -> Iterator[int]:
        """The numbers of the known steps, the last first."""
        yield from range(len(self), self.before, -1)
        yield from sorted({number for number, _ in self.known.values()}, reverse=True)

    def last_of(self, actor: int) -> int:
        """The number of an actor's last step; 0 if it has none."""
        here = self.actors.rfind(actor)
        return self.before + here + 1 if here >= 0 else self.known.get(actor, (0,))[0]

    def before_last_of(self, actor: int) -> bytes:
        """The actor before its last step since the start."""
        here = self.actors.rfind(actor)
        last = self.actors.rfind(actor, 0, max(0, here))
        return self.first[actor] if last < 0 else self.stands[last]

    def all_points(self) -> set[str]:
        """The control points of all steps."""
        stands = {stand[:LONGEST] for stand in itertools.chain(self.first.values(), self.stands)}
        return self.points.union(map(point_of, stands))

    def segments(self) -> set[str]:
        """The segments that the steps since the start touched."""
        places = {text.split(b"; ", 3)[2] for text in self.made}
        return {words[1].decode("ascii") for place in places if len(words := place.split(b" ")) > 1}

    def touching(self, place: Place, first: int) -> list[int]:
        """The numbers of the steps since the start, from this one on, that touched a place."""
        word = (place.segment or place.kind).encode("ascii")
        rows = (number for number in range(first, len(self) + 1) if word in self.made[number - 1 - self.before])
        return [number for number in rows if self[number - 1][1].place.overlaps(place)]

    def freeze(self, first: dict[int, bytes]) -> None:
        """Forgets the steps since the last start, but for what a report may name."""
        self.points = self.all_points()
        for here in self.last_ones():
            made, number = self[self.before + here], self.before + here + 1
            if made[1].access == "wrote":
                self.known[made[1].place] = number, made
            if made[0] in (*SETS, LINK):
                self.known[self.actors[here], made[0]] = number, made
        self.known |= {actor: (last, self[last - 1]) for actor in {*self.actors} if (last := self.last_of(actor))}
        self.before, self.first, self.actors = len(self), first, bytearray()
        self.made, self.stands = [], []

    def last_ones(self) -> list[int]:
        """Of the steps since the start the last that linked each segment, and the last of each actor that set a
        word or tried to link: which they are."""
        found: dict[object, int] = {}
        for here in range(len(self.made) - 1, -1, -1):
            _, _, place, access, answer, _ = self.made[here].split(b"; ", 5)
            kind, actor = place[:2], self.actors[here]
            if kind in LINKING and answer != b"lost":
                found.setdefault(place if answer == b"won" else (actor, kind), here)
            if kind == b"ne" and answer in TRIED:
                found.setdefault((actor, LINK), here)
        return sorted({*found.values()})

    def forget_links(self, segments: Collection[str]) -> None:
        """Forgets who linked segments, but for these."""
        gone = [key for key in self.known if isinstance(key, Place) and key.segment and key.segment not in segments]
        for key in gone:
            del self.known[key]


# ---- The program ---------------------------------------------------------------------------------


class Flow:
    """Lines to a program that are written ahead, and its replies in their order."""

    def __init__(self, driven: Driven):
        self.driven, self.waiting, self.replies = driven, bytearray(), [b""]
        self.ends = driven.stdin.fileno(), driven.stdout.fileno()
        self.seen = 0  # whole replies that are read
        for end in self.ends:
            with contextlib.suppress(OSError, AttributeError):  # of another system, or without the right to
                fcntl.fcntl(end, fcntl.F_SETPIPE_SZ, AHEAD)

    def send(self, lines: bytes) -> None:
        """Writes lines, as far as the pipe has room."""
        self.waiting += lines
        self.move(0.0)

    def move(self, seconds: float) -> bool:
        """Writes and reads what can be; whether anything was, within this time."""
        write, read = self.ends
        can_read, can_write, _ = select.select([read], [write] if self.waiting else [], [], seconds)
        if can_write:
            os.set_blocking(write, False)
            try:
                del self.waiting[: os.write(write, self.waiting)]
            except BlockingIOError:
                can_write = []
            except OSError as fault:
                raise Broken(f"the program ended: {fault}") from fault
            finally:
                os.set_blocking(write, True)
        if can_read:
            self.read(os.read(read, AHEAD))
        return bool(can_read or can_write)

    def read(self, piece: bytes) -> None:
        """Takes what was read."""
        if not piece:
            raise Broken(f"the program ended with status {self.driven.child.wait(self.driven.seconds)}")
        self.seen += piece.count(b"\n")
        self.replies.append(piece)

    def take(self, count: int) -> list[bytes]:
        """The next replies, so many."""
        while self.seen < count:
            if not self.move(self.driven.seconds):
                raise Broken(f"the program took more than {self.driven.seconds} s")
        *taken, rest = b"".join(self.replies).split(b"\n", count)
        self.replies, self.seen = [rest], self.seen - count
        return taken


def trimmed(start: Trace, actors: int) -> Trace:
    """A start with so many of its actors; the others have made nothing."""
    parts = start["start"]
    kept: Start = {
        "actors": parts["actors"][:actors], "segments": parts["segments"][: actors + 1],
        "qhead": parts["qhead"], "qtail": parts["qtail"], "array": parts["array"],
    }
    return {"ring": start["ring"], "start": kept}


class Replay:
    """A run of the program: the live steps since its start, and how many were made before that."""

    def __init__(self, program: str, folder: Path, options: Sequence[str]):
        self.program, self.folder = program, folder
        self.is_fresh = options[0] == "run"  # so it has idle actors whom no log may know
        self.known: list[list[Segment]] = []  # the segments at the start, if it is one of the tool's own
        self.driven: Driven | None = None  # none before it is opened
        self.steps = Steps()
        self.open(options)

    def open(self, options: Sequence[str]) -> None:
        """Starts the program with these words, in place of the run before it."""
        self.close()
        self.options = list(options)
        self.driven = Driven([self.program, *options])
        self.flow = Flow(self.driven)
        self.first = Counts.read(self.ask(["len"])[0]).live  # live steps that a trace brings along
        asked = Asked(self.ask)
        self.ring = asked.count("show index 0.0 {}")
        self.states = [*map(Actor.read, all_of(self.ask, "actor {}", 1))]
        self.steps.freeze({actor: str(state).encode("ascii") for actor, state in enumerate(self.states, 1)})

    @property
    def before(self) -> int:
        """How many steps were made before the start."""
        return self.steps.before

    def open_start(self, start: Trace) -> None:
        """Goes on over a start."""
        file = self.folder / f"{len(self.steps)}.trace"
        file.write_text(text_of(start), encoding="ascii")
        last = self.options[-1] if self.before else ""
        self.open(["load", "--", str(file)])
        self.known = start["start"]["segments"]
        if last and last != str(file):
            Path(last).unlink(missing_ok=True)

    def close(self) -> None:
        """Ends the program."""
        if self.driven:
            self.driven.__exit__()

    def count(self) -> int:
        """How many steps are made in all."""
        return len(self.steps)

    def live(self) -> int:
        """How many steps are live."""
        return self.first + len(self.steps) - self.before

    def room(self, live: int | None = None) -> int:
        """How many steps may be made before it is frozen, where so many are live."""
        return FREEZE_AT - (self.live() if live is None else live)

    def go_back(self) -> None:
        """Goes back to the last step that is noted."""
        ahead = Counts.read(self.ask(["len"])[0]).live - self.live()
        if ahead:
            self.ask([f"back {ahead}"])

    def lines(self) -> list[str]:
        """The lines of the steps since its start."""
        return [made.decode("ascii").split("; ", 2)[1] for made in self.steps.made]

    def ask(self, lines: list[str]) -> list[str]:
        """The replies to these lines."""
        assert self.driven  # it is open
        return self.driven.ask_all(lines)

    def send(self, lines: bytes) -> None:
        """Writes lines whose replies are taken later."""
        self.flow.send(lines)

    def take(self, count: int) -> list[bytes]:
        """So many replies to the lines that were sent."""
        return self.flow.take(count)

    def keep(self, step: Step, state: Actor) -> None:
        """Notes a step that was made, and its actor after it."""
        self.steps.add(step, state)
        self.states[step.event.actor - 1] = state

    def drop(self, state: Actor) -> None:
        """Takes the last step back, before which its actor was so."""
        self.ask(["back 1"])
        self.states[self.steps.actors[-1] - 1] = state
        self.steps.cut(len(self.steps) - 1)

    def start(self) -> Trace:
        """The world as a start."""
        return Asked(self.ask).trace(self.known, self.steps.segments() if self.known else ())
