"""Reads which differences of a port are meant, for `conform.py --allow`, and lets the model follow the port there.

A line of the file is `LABEL WHAT: WHY`: at this line of the pseudo-code the port does something else. Two such things
the model follows by steps of its own, `reuses its own unlinked ring` and `reads the whole cell`. Any other is what the
report of a difference says after `the port`, such as `is at E8`; the port's side is taken there, as --go-on does it.
"""

import re
from collections import Counter
from collections.abc import Iterator, Sequence
from dataclasses import dataclass, replace

from lcrq_tools.port.port_compare import Comparison, Difference, Follow
from lcrq_tools.port.port_log import Unreadable, label_names
from lcrq_tools.port.port_report import said_of
from lcrq_tools.port.port_side import Side
from lcrq_tools.program import bytes_of, counted
from lcrq_tools.records import Actor, Step

# What a report may say after `the port`.
SAID = re.compile(r"(is at|replied|found|accessed|has|begins the call) .+|won|lost|read|wrote|wrote index")


@dataclass(frozen=True)
class Meant:
    """A difference that is meant."""

    where: str  # the file and the line
    label: str
    what: str

    def __str__(self) -> str:
        return f"{self.label} {self.what}"


# ---- What the model follows by steps -------------------------------------------------------------


def unlinked_ring(comparison: Comparison, actor: int) -> str:
    """The segment that an actor made last, if it lost the race to link it; nothing if it won."""
    own = ((point, step.answer) for point, step in comparison.replay.steps.own(actor))
    linked = next((answer for point, answer in own if point == "E13"), "")
    made = next((answer for point, answer in own if point == "E12"), "")
    return made.removeprefix("made ") if linked == "lost" else ""


def reuse_ring(comparison: Comparison, found: Difference) -> bool:
    """Makes a segment where the port takes the one that it could not link: the name of that one is the new one's."""
    replay, names, actor = comparison.replay, comparison.names, found.record.actor
    is_there = found.point == "E12" and found.record.label in ("E13", "")
    old = unlinked_ring(comparison, actor) if is_there else ""
    if not old:
        return False
    _, made, state = replay.ask([f"go {actor}", f"step {replay.live() + 1}", f"actor {actor}"])
    replay.keep(Step.read(made), Actor.read(state))
    name = names.names.get(old, "")
    if name:
        names.learn(name, replay.states[actor - 1].words["new"])
    if not comparison.compare([found.record]):
        comparison.accesses += 1
        comparison.made[actor] += 1
        return True
    replay.drop(found.state)
    if name:
        names.learn(name, old)
    return False


def read_cell(comparison: Comparison, found: Difference) -> bool:
    """Reads both halves of a cell where the port reads the cell at once."""
    record, replay = found.record, comparison.replay
    if record.label not in ("", found.point) or len(record.answer) != 3:
        return False
    where, value, index = record.place[1:], record.answer[2:], record.answer[:2]
    halves = [
        replace(record, place=("value", *where) if where else (), answer=value, words=()),
        replace(record, place=("index", *where) if where else (), answer=index, label=""),
    ]
    if not comparison.compare(halves):
        return True
    if replay.states[record.actor - 1] is not found.state:
        replay.drop(found.state)
    return False


BY_STEPS: dict[str, Follow] = {
    "E12 reuses its own unlinked ring": reuse_ring, "E5 reads the whole cell": read_cell,
    "Q3 reads the whole cell": read_cell,
}
POINTS = {said.split(" ")[0] for said in BY_STEPS}


# ---- Files ---------------------------------------------------------------------------------------


def read_allowed(name: str | None) -> "Allowed":
    """The differences that a file names, if one is given."""
    if name is None:
        return Allowed()
    *lines, rest = bytes_of(name).decode("utf-8", "replace").split("\n")
    if rest:
        raise Unreadable(f"{name}:{len(lines) + 1} has no line feed")
    rows = ((f"{name}:{number}", text) for number, text in enumerate(map(str.strip, lines), 1))
    return Allowed([meant_of(where, text, label_names()) for where, text in rows if text and text[0] != "#"])


def meant_of(where: str, text: str, labels: set[str]) -> Meant:
    """The difference of a line."""
    said, _, why = text.partition(": ")
    label, _, what = said.partition(" ")
    if label not in labels or not what or not why.strip():
        raise Unreadable(f"{where}: `{text}`: a line is a label, what the port does there, `: ` and why")
    if said not in BY_STEPS and not SAID.fullmatch(what):
        known = ", ".join(f"`{it}`" for it in BY_STEPS)
        raise Unreadable(f"{where}: `{what}` is neither what a report says after `the port`, nor one of {known}")
    return Meant(where, label, what)


class Allowed:
    """Differences that are meant."""

    def __init__(self, meant: Sequence[Meant] = ()):
        self.meant = meant
        self.used = Counter[str]()  # how often each was, by where it is named

    def by_steps(self, comparison: Comparison, found: Difference) -> bool:
        """Follows the port by steps of the model, which can be taken back; returns whether it did."""
        next_one = comparison.next
        for meant in self.meant:
            steps = BY_STEPS.get(str(meant))
            if steps and meant.label == found.point and kept(comparison, steps, found):
                comparison.next = next_one + 1
                comparison.followed[meant.where] += 1
                return True
            comparison.next = next_one
        return False

    def follow(self, comparison: Comparison, found: Difference) -> bool:
        """Follows the port; returns whether it did."""
        if self.by_steps(comparison, found):
            comparison.source.take(1)
            return True
        side = said_of(found).partition("the port ")[2].partition(", the model")[0]
        for meant in self.meant:
            if (meant.label, meant.what) == (found.point, side) and Side(comparison, found).take():
                comparison.followed[meant.where] += 1
                return True
        return False

    def lines(self) -> Iterator[str]:
        """A line that counts the uses."""
        counts = [(meant, self.used[meant.where]) for meant in self.meant]
        used = [f"`{meant}` {counted(count, 'time')}" for meant, count in counts if count]
        unused = [f"`{meant}` ({meant.where})" for meant, count in counts if not count]
        parts = [", ".join(used), f"never used: {', '.join(unused)}" if unused else ""]
        if counts:
            yield f"allowed: {'; '.join(filter(None, parts))}"


def kept(comparison: Comparison, steps: Follow, found: Difference) -> bool:
    """Whether these steps agree; where they don't, nothing of them is counted."""
    compared, accesses = dict(comparison.compared), comparison.accesses
    if steps(comparison, found):
        return True
    comparison.compared, comparison.accesses = compared, accesses
    return False
