"""Compares the records of a log by batches for `conform.py`, as long as all is as predicted: one batch is compared
while the program works at the next one. What differs, and what can't be predicted, is left to
`port_compare.py`, a record at a time.
"""

from collections.abc import Callable, Iterator, Sequence
from typing import TYPE_CHECKING

from lcrq_tools.port.port_batch import LINES, Batch, Plan, Predictor, name_in
from lcrq_tools.port.port_log import Record
from lcrq_tools.port.port_stream import Raw, Source
from lcrq_tools.records import Actor

if TYPE_CHECKING:
    from lcrq_tools.port.port_compare import Comparison

MOST, LEAST = 2048, 32  # records of a batch
Known = dict[int, tuple[bytes, bytes]]  # of each actor the replies about its last step and about itself
Replies = tuple[Sequence[bytes], Sequence[bytes], Sequence[bytes]]  # to the three lines of each step


def reply_in(step: bytes) -> str:
    """The reply of the call in a reply to `step K`, if there is one."""
    reply = step.rpartition(b"; ")[2].decode("ascii")
    return "" if reply == "-" else reply


class Ahead:
    """Runs ahead of a comparison."""

    def __init__(self, comparison: "Comparison", source: Source):
        self.comparison, self.source, self.size = comparison, source, LEAST
        self.plans: dict[bytes, Plan] = {}

    def run(self, progress: Callable[[int], None]) -> bool:
        """Goes on as far as all is as predicted; whether there may be more."""
        self.predictor = Predictor(self.comparison, self.source.actors, self.plans)
        self.moved: set[int] = set()  # the actors that made steps
        flying: Batch | None = None
        is_right = True
        while is_right:
            room = min(self.size, self.comparison.replay.room(self.predictor.number - 1))
            raws = self.source.some(room, waits=not flying) if room > 0 else []
            batch = self.predictor.batch(raws)
            self.source.put(raws[len(batch.plans) :])
            self.comparison.replay.send(batch.text())
            is_right = not flying or self.take(flying, batch)
            progress(self.comparison.next)
            if not flying and not raws or raws and not batch.plans:
                break
            flying = batch if batch.plans else None
        self.settle()
        return not is_right or bool(raws) or room <= 0

    def take(self, batch: Batch, following: Batch) -> bool:
        """Takes the replies to a batch, and notes what is as predicted; whether all is. If not, the program goes
        back, also from the batch that follows."""
        replay, steps = self.comparison.replay, self.comparison.replay.steps
        lines = replay.take(LINES * len(batch.tails))
        replies = lines[::LINES], lines[1::LINES], lines[2::LINES]
        known = {actor: (steps.last_line(actor), steps.stand(actor)) for actor in batch.last_raws}
        right = batch.first_fault(replies, known)
        self.note(batch, right, replies, known)
        is_right = right == len(batch.plans)
        self.size = min(MOST, 2 * self.size) if is_right else max(LEAST, self.size // 2)
        if not is_right:
            replay.take(LINES * len(following.tails))
            replay.go_back()
            self.source.put(following.raws[: len(following.plans)])
            self.source.put(batch.raws[right : len(batch.plans)])
        return is_right

    def note(self, batch: Batch, right: int, replies: Replies, known: Known) -> None:
        """Notes so many records of a batch."""
        comparison, cut = self.comparison, batch.cut(right)
        self.note_calls(batch, right, replies[1], known)
        for record, actor, names in batch.learned:
            if record < right:
                comparison.made[actor] += 1
                comparison.learn_names(names, f"{actor}.{comparison.made[actor] - 1}")
        comparison.replay.steps.extend(batch.actors[:cut], replies[1][:cut], replies[2][:cut])
        self.moved.update(batch.actors[:cut])
        words = sum(len(them) for step, them in batch.words.items() if step < cut and not reply_in(replies[1][step]))
        comparison.count(right, batch.counted(right), words)
        if right == len(batch.plans):
            comparison.last |= batch.last_raws
        else:
            comparison.last |= {self.source.actors.number(name_in(raw)): raw for raw in batch.raws[:right]}

    def note_calls(self, batch: Batch, right: int, steps: Sequence[bytes], known: Known) -> None:
        """Notes the calls and the replies of so many records."""
        for record, actor, plan, step in batch.calls:
            if record >= right:
                return
            if plan.way:
                self.comparison.ledger.reply(actor, plan.said)
            else:
                before = steps[step] if step >= 0 else known[actor][0]
                self.comparison.ledger.begin(actor, plan.said, reply_in(before))

    def rest(self) -> Iterator[tuple[int, Record | Raw, str]]:
        """The records that are left, which are not compared: of each the actor, and the call or the reply."""
        predictor = Predictor(self.comparison, self.source.actors, self.plans)
        while raws := self.source.some(MOST):
            for raw in raws:
                actor, plan = predictor.parsed(raw)
                yield self.whole(raw) if plan.way < 0 or not actor else (actor, raw, plan.said)

    def whole(self, raw: Raw) -> tuple[int, Raw, str]:
        """A record, as one of those that are left."""
        record = self.source.record(raw)
        return record.actor, raw, record.call or " ".join(record.reply)

    def settle(self) -> None:
        """Brings the actors of the comparison to where the program is."""
        replay = self.comparison.replay
        for actor in self.moved:
            replay.states[actor - 1] = Actor.read(replay.steps.stand(actor).decode("ascii"))
            before = replay.steps.before_last_of(actor)
            self.comparison.states_before[actor] = Actor.read(before.decode("ascii"))
