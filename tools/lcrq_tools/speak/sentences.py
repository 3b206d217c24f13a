"""Says in a sentence what a step did, for whatever shows steps to a person: pages, pictures, prompts, reports.

`SENTENCES` has a sentence for each outcome of each control point, in the order of the table in docs/MODEL.md.
Its words in braces come from replies of the program alone: the step, its actor before and after it, and the
content of its place after it. Only Python's standard library is used.
"""

from collections.abc import Mapping
from dataclasses import dataclass

from lcrq_tools.records import Actor, Cell, Place, Step, Tail

IDLE = "Idle"
OUTCOMES = ("won", "lost")

# What a step did, by its control point and by what came of it: a compare-and-swap that won or lost, else the
# control point to which its actor goes. Idle is there for a call that begins, and for one that ends.
SENTENCES = {
    "Idle E1": "begins to enqueue {x}",
    "Idle Q1": "begins to dequeue",
    "Idle A1": "begins to enqueue {x} on the array",
    "Idle B1": "begins to dequeue from the array",
    "E1 E2": "reads the queue's tail: {crq}",
    "E2 E3": "reads which segment follows {s}: {next}, so the queue's tail is behind",
    "E2 E4": "reads which segment follows {s}: none, so {s} is the last",
    "E3 won": "CAS won: moves the queue's tail on from {crq} to {next}",
    "E3 lost": "CAS lost: the queue's tail has changed since it was read{read}{writer}",
    "E4 E5": "adds 1 to the tail of ring {s}, {old} → {new}: actor {a} has position {old}",
    "E4 E12": "adds 1 to the tail of ring {s}, {old} → {new}, but the ring is closed: actor {a} needs a new one",
    "E5 E6": "reads the value of cell {i} of ring {s}: {val}",
    "E6 E7": "reads safe bit and index of cell {i}: {half}; free if no dequeue has drawn position {t}",
    "E6 E8": "reads safe bit and index of cell {i}: {half}; free for position {t}",
    "E6 E9": "reads safe bit and index of cell {i}: {half}; {taken}",
    "E7 E8": "reads the head of ring {s}: {answer}; no dequeue has drawn position {t}",
    "E7 E9": "reads the head of ring {s}: {answer}; a dequeue has drawn position {t}",
    "E8 won": "CAS2 won: puts {x} into cell {i} of ring {s}, for position {t}",
    "E8 lost": "CAS2 lost: the cell has changed since it was read{read}{writer}",
    "E9 E10": "reads the head of ring {s}: {h}; the ring is not full",
    "E9 E11": "reads the head of ring {s}: {h}; the ring is full for position {t}",
    "E10 E4": "chooses not to starve, and will draw again",
    "E10 E11": "chooses to starve, and will close ring {crq}",
    "E11 E12": "closes the tail of ring {s}, which {answer}: later draws there need a new ring",
    "E12 E13": "makes segment {new}, which holds {x} in cell 0",
    "E13 won": "CAS won: links {new} behind {s}",
    "E13 lost": "CAS lost: {shown} is linked behind {s} already{writer}",
    "E14 won": "CAS won: moves the queue's tail on from {crq} to {new}",
    "E14 lost": "CAS lost: the queue's tail has been moved already{writer}, to {shown}",
    "Q1 Q2": "reads the queue's head: {crq}",
    "Q2 Q3": "adds 1 to the head of ring {s}, {old} → {new}: actor {a} has position {old}",
    "Q3 Q4": "reads the value of cell {i} of ring {s}: {val}",
    "Q4 Q5": "reads safe bit and index of cell {i}: {half}; the value is that of position {h}",
    "Q4 Q6": "reads safe bit and index of cell {i}: {half}; the value is older than position {h}",
    "Q4 Q7": "reads safe bit and index of cell {i}: {half}; nothing is there for position {h}",
    "Q4 Q8": "reads safe bit and index of cell {i}: {half}; the cell is past position {h}",
    "Q5 won": "CAS2 won: takes {val} out of cell {i} of ring {s}, which stands for position {idx} now",
    "Q5 lost": "CAS2 lost: the cell has changed since it was read{read}{writer}",
    "Q6 won": "CAS2 won: marks cell {i} of ring {s} unsafe, to warn the enqueue of position {h}",
    "Q6 lost": "CAS2 lost: the cell has changed since it was read{read}{writer}",
    "Q7 won": "CAS2 won: moves cell {i} of ring {s} on to index {idx}: the enqueue of position {h} can't use it",
    "Q7 lost": "CAS2 lost: the cell has changed since it was read{read}{writer}",
    "Q8 Q2": "reads the tail of ring {s}: {t}; something may be behind position {h}, so it draws again",
    "Q8 Q9": "reads the tail of ring {s}: {t}; nothing is behind position {h}",
    "Q9 Q10": "reads the tail of ring {s}: {tail}; the repair begins",
    "Q10 Q11": "reads the head of ring {s}: {h}",
    "Q11 Q9": "reads the tail of ring {s} again: {answer}; changed, so the repair begins anew",
    "Q11 Q12": "reads the tail of ring {s} again: {answer}; unchanged, and below head {h}",
    "Q11 Q13": "reads the tail of ring {s} again: {answer}; unchanged, and {fine}",
    "Q11 Q14": "reads the tail of ring {s} again: {answer}; unchanged, and {fine}",
    "Q12 won": "CAS won: raises the tail of ring {s} from {t} to {h}",
    "Q12 lost": "CAS lost: the tail has changed since it was read{read}{writer}",
    "Q13 Idle": "reads which segment follows {s}: none",
    "Q13 Q2": "reads which segment follows {s}: {next}, so it goes over ring {s} once more",
    "Q14 won": "CAS won: moves the queue's head on from {crq} to {next}",
    "Q14 lost": "CAS lost: the queue's head has been moved already{writer}, to {shown}",
    "A1 A2": "adds 1 to the array's tail, {old} → {new}: actor {a} has slot {old}",
    "A2 Idle": "swaps {x} into slot {i}, which was empty",
    "A2 A1": "swaps {x} into slot {i}, which had {answer}: it does not count there, so it draws again",
    "B1 B2": "adds 1 to the array's head, {old} → {new}: actor {a} has slot {old}",
    "B2 Idle": "swaps top into slot {i}, and takes {took}",
    "B2 B3": "swaps top into slot {i}, which had no value: the enqueue of this slot must draw again",
    "B3 Idle": "reads the array's tail: {answer}; nothing is behind slot {h}",
    "B3 B1": "reads the array's tail: {answer}; something may be behind slot {h}, so it draws again",
}
POINTS = tuple(dict.fromkeys(key.split(" ")[0] for key in SENTENCES))


@dataclass(frozen=True)
class Seen:
    """A step with what the program shows beside it."""

    step: Step
    before: Actor  # its actor before it
    after: Actor  # and after it
    shown: str = ""  # the content of its place after it; nothing where there is none
    read: int = 0  # the step that read what a compare-and-swap compares with, 0 if that isn't known
    writer: int = 0  # the last step that wrote the place of one that lost, 0 if that isn't known

    def key(self) -> str:
        """Its row of `SENTENCES`."""
        answer = self.step.answer
        return f"{self.before.point} {answer if answer in OUTCOMES else self.after.point}"

    def words(self) -> Mapping[str, str]:
        """The words of its actor: those that it set, and where its call is over those from before."""
        return self.before.words if self.after.is_idle() else self.after.words


def cell_at(seen: Seen) -> Cell:
    """The cell that an actor has read, by its words."""
    words = seen.words()
    return Cell(words["safe"] == "1", int(words["idx"]), None if words["val"] == "none" else int(words["val"]))


def count_of(place: Place, content: str) -> str:
    """The counter in the content of a tail or a head."""
    return str(Tail.read(content).count) if place.kind == "tail" else content


def whence_of(seen: Seen) -> dict[str, str]:
    """Which step read a place before a compare-and-swap that lost, and which wrote it since."""
    return {
        "read": f" in step {seen.read}" if seen.read else "",
        "writer": f", by step {seen.writer}" if seen.writer else "",
    }


def access_words(seen: Seen) -> dict[str, str]:
    """The words that depend on the kind of a step's place."""
    step, place, words = seen.step, seen.step.place, seen.words()
    if place.kind in ("head", "tail", "ahead", "atail"):
        is_count = step.answer.removeprefix("open ").removeprefix("closed ").isdecimal()
        old = count_of(place, step.answer) if is_count else ""
        state = f"{'closed' if words['closed'] == '1' else 'open'}, {words['t']}"
        fine = "closed" if words["closed"] == "1" else f"not below head {words['h']}"
        return {"old": old, "new": count_of(place, seen.shown), "tail": state, "fine": fine}
    if place.kind in ("cell", "value", "index"):
        cell = cell_at(seen)
        taken = f"the cell holds {cell.value}" if cell.value is not None else f"too late for position {words['t']}"
        index = str(Cell.read(seen.shown).index) if place.kind == "cell" else str(cell.index)
        half = f"{'safe' if cell.is_safe else 'unsafe'}, {cell.index}"
        return {"half": half, "taken": taken, "idx": index}
    return {}


def fields_of(seen: Seen) -> dict[str, str]:
    """What the words in braces of a sentence stand for."""
    step, words = seen.step, seen.words()
    fields = {**words, "a": str(step.event.actor), "s": step.place.segment, "i": str(step.place.index)}
    call = step.event.called() if step.event.is_call() else seen.before.call
    fields |= {"x": call.rpartition(" ")[2], "answer": step.answer, "shown": seen.shown}
    fields |= {"took": step.reply.removeprefix("value "), **whence_of(seen), **access_words(seen)}
    return fields


def end_of(step: Step) -> str:
    """What a step adds that ends its call."""
    return f"; the call returns {step.reply.removeprefix('value ')}" if step.reply else ""


def did(seen: Seen) -> str:
    """What a step did, without its actor and its control point."""
    return SENTENCES[seen.key()].format_map(fields_of(seen)) + end_of(seen.step)


def sentence(seen: Seen) -> str:
    """What a step did, behind its control point; of a call that begins, without one."""
    point = seen.before.point
    return did(seen) if point == IDLE else f"{point}: {did(seen)}"


def of_actor(seen: Seen) -> str:
    """What a step did, behind its actor."""
    return f"actor {seen.step.event.actor}{' ' if seen.before.point == IDLE else ', '}{sentence(seen)}"


def of_step(seen: Seen) -> str:
    """What a step did, behind its number and its actor."""
    return f"step {seen.step.number}, {of_actor(seen)}"
