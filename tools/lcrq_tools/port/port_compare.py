"""Compares the records of a port's log with the replies of the program for `conform.py`, up to the first that
differs.
"""

import collections
import itertools
from collections.abc import Callable, Iterable, Iterator, Sequence
from dataclasses import dataclass, replace

from lcrq_tools.options import MOST_ACTORS
from lcrq_tools.port import port_reuse
from lcrq_tools.port.port_ahead import Ahead, reply_in
from lcrq_tools.port.port_ledger import Ledger
from lcrq_tools.port.port_log import CHOICES, Names, Record, Reuse
from lcrq_tools.port.port_replay import Replay
from lcrq_tools.port.port_stream import Actors, HasChoices, Raw, Source
from lcrq_tools.records import CALLS, NOTHING, Actor, Event, Refusal, Step, is_made
from lcrq_tools.start.starts import reachable, values_in

RECORDS, FEW = 1000, 20  # that are compared at a time, the few behind one that was not compared alone
NEEDS_CHOICE = "refused 4 "


@dataclass
class Difference:
    """Where port and model differ."""

    index: int  # of the record, from 0
    record: Record
    step: int  # the number of the model's step
    kind: str  # "line", "choice", "call", "place", "access", "answer", "reply", "words", "reuse" or "refused"
    port: str  # what the port did, in the model's words
    model: str  # what the model does
    point: str  # the model's control point
    made: Step | None  # the model's step; nothing where it made none
    state: Actor  # before it

    def label(self) -> str:
        """The label under which it is counted."""
        return self.record.label or self.point


Follow = Callable[["Comparison", Difference], bool]  # lets the model do as the port does; whether it does


def never(_comparison: "Comparison", _found: Difference) -> bool:
    """Lets the model do what it does."""
    return False


class Listed:
    """Records that are all known."""

    def __init__(self, records: list[Record], actors: Actors | None = None):
        self.all, self.at, self.actors = records, 0, actors or Actors()
        self.has_choices = any(record.choice for record in records)

    def take(self, most: int) -> list[Record]:
        """The next records."""
        self.at += most
        return self.all[self.at - most : self.at]

    def back(self, count: int) -> None:
        """Goes back by so many of those that were taken last."""
        self.at = min(self.at, len(self.all)) - count

    def early_records(self, most: int) -> list[Record]:
        """The first records."""
        return self.all[:most]

    def check_rest(self, *, has_choices: bool) -> None:
        """Nothing is to be checked: they were."""


class Comparison:
    """The records of a log beside a run of the program."""

    def __init__(
        self, replay: Replay, source: Source | Listed, *,
        asks_choices: bool = False, permits_reuse: bool = False, follow: Follow = never,
    ):
        self.replay, self.source, self.permits_reuse = replay, source, permits_reuse
        self.follow, self.followed = follow, collections.Counter[str]()  # how often, by where it is allowed
        self.has_choices = isinstance(source, Listed) and source.has_choices  # in the records that are known
        self.asks_choices = asks_choices or self.has_choices  # so one that is missing is a difference
        self.ahead = Ahead(self, source) if isinstance(source, Source) else None
        self.names = Names()
        self.sent = replay.count()  # how many steps the program has made, of which the last are not compared yet
        start = None if replay.is_fresh else replay.start()["start"]  # the parts with which it began
        made = map(len, start["segments"]) if start else [1]
        self.made = [*made, *[0] * MOST_ACTORS]  # how many segments each actor has made, and the root
        self.ledger = Ledger(map(str, values_in(start, ("enq", "aenq")) if start else ()))
        self.next, self.is_over = 0, False  # the next record, and whether there is none
        self.most = RECORDS  # that are compared at a time
        self.states_before: dict[int, Actor] = {}  # each actor before its last step
        self.last: dict[int, Record | Raw] = {}  # the last record of each actor
        self.compared = dict.fromkeys(("labels", "places", "answers", "replies", "words"), 0)
        self.accesses, self.chosen = 0, 0  # the model's, and choices that the log left out

    def difference(self, progress: Callable[[int], None] = lambda _: None) -> Difference | None:
        """Goes on to the first record that differs, or to the end."""
        while not self.is_over:
            progress(self.next)
            if self.replay.room() <= 0:
                self.freeze()
            if self.ahead and not self.ahead.run(progress):
                self.is_over = True
            elif self.replay.room() > 0 and (found := self.compare_some()) and not self.follow(self, found):
                return found
        return None

    def compare_some(self) -> Difference | None:
        """Compares the next records, one at a time where most are compared ahead."""
        records, before = self.source.take(1 if self.ahead else self.most), self.next
        self.is_over = not records
        found = self.compare(records)
        self.most = FEW if found else min(2 * self.most, RECORDS)
        if found and found.model.startswith(NEEDS_CHOICE):
            if self.asks_choices:
                found = replace(found, kind="choice")
            elif self.choose(found.record):
                found = None
        self.source.back(len(records) - (self.next - before))
        return found

    def freeze(self) -> None:
        """Goes on over the world as a start. What nobody can name any more is forgotten."""
        start = self.replay.start()
        self.replay.open_start(start)
        segments = reachable(start["start"])
        self.names.forget(segments)
        self.replay.steps.forget_links(segments)

    def pass_over(self) -> None:
        """Passes over the next record, which was compared."""
        for record in self.source.take(1):
            self.note_record(record)

    def note_record(self, record: Record) -> None:
        """Notes that a record is compared, before its step is kept."""
        self.next += 1
        self.last[record.actor] = record
        if record.choice:
            self.see_choice()
        if record.kind == "call":
            self.ledger.begin(record.actor, record.call, reply_in(self.replay.steps.last_line(record.actor)))
        elif record.reply:
            self.ledger.reply(record.actor, self.names.meant(record.reply))

    def see_choice(self) -> None:
        """Notes that the log has a choice, so that it has all of them."""
        self.has_choices = True
        if self.chosen and not self.asks_choices:
            raise HasChoices("the log has a record of E10, and left one out before")
        self.asks_choices = True

    def count(self, records: int, counts: Sequence[int], words: int) -> None:
        """Counts records that agree, and what was compared of them."""
        self.next += records
        for kind, count in zip(self.compared, (*counts[:4], words)):
            self.compared[kind] += count
        self.accesses += counts[4]
        if counts[5]:
            self.see_choice()

    def learn_names(self, names: Iterable[bytes], segment: str) -> None:
        """Learns the names of a segment that was made."""
        for name in names:
            self.names.learn(name.decode(), segment)
        self.names.again = None

    def finish(self) -> None:
        """Reads the log to its end, for the calls in it, and counts those that go on."""
        self.asks_choices = True
        ended = {actor: reply_in(self.replay.steps.last_line(actor)) for actor in self.ledger.running}
        rows: Iterator[tuple[int, Record | Raw, str]] = self.ahead.rest() if self.ahead else self.listed_rest()
        for actor, record, said in rows:
            self.last[actor], reply = record, ended.pop(actor, "") if said else ""
            if said.split(" ")[0] in CALLS:
                self.ledger.begin(actor, said, reply)
            elif said:
                self.ledger.reply(actor, said)
        self.ledger.close(ended)

    def listed_rest(self) -> Iterator[tuple[int, Record | Raw, str]]:
        """The records that are left, as those of a log: of each the actor, and the call or the reply."""
        while records := self.source.take(RECORDS):
            yield from ((record.actor, record, record.call or " ".join(record.reply)) for record in records)

    def compare(self, records: list[Record]) -> Difference | None:
        """Compares these records; at the first that differs, the model is as before it."""
        number, asked = self.replay.live(), []
        for record in records:
            number += record.kind != "reply"
            asked.append(record.asked(number))
        replies = self.replay.ask([line for lines in asked for line in lines])
        self.sent = self.replay.count() + sum(map(is_made, replies))
        unread = iter(replies)
        for record, lines in zip(records, asked):
            if found := self.compare_one(record, [*itertools.islice(unread, len(lines))]):
                self.replay.ask([f"back {self.sent - self.replay.count()}"])
                return found
        return None

    def compare_one(self, record: Record, replies: list[str]) -> Difference | None:
        """Compares a record with what was replied, and notes its step where they agree."""
        if record.kind == "reply":
            return self.compare_reply(record)
        if record.kind == "call":
            return self.compare_call(record, replies)
        return self.compare_step(record, replies)

    def differ(self, record: Record, kind: str, port: str, model: str, made: Step | None = None) -> Difference:
        """A difference at this record. A reply belongs to its actor's last step."""
        state, step = self.replay.states[record.actor - 1], self.replay.count() + 1
        point = state.point
        if record.kind == "reply":
            step = self.replay.steps.last_of(record.actor)
            point = self.replay.steps[step - 1][0] if step else point
        return Difference(self.next, record, step, kind, port, model, point, made, state)

    def compare_reply(self, record: Record) -> Difference | None:
        """Compares what a call replied, in a record of its own."""
        is_over = self.replay.states[record.actor - 1].is_idle()
        model = reply_in(self.replay.steps.last_line(record.actor)) if is_over else ""
        if not model or not self.names.agree(record.reply, model.split(" ")):
            return self.differ(record, "reply", " ".join(record.reply), model)
        self.note_record(record)
        self.compared["replies"] += 1
        return None

    def compare_call(self, record: Record, replies: list[str]) -> Difference | None:
        """Compares the beginning of a call."""
        if not is_made(replies[0]):
            return self.differ(record, "call", record.call, replies[0])
        self.note_record(record)
        self.keep_without_place(record.line(), Actor.read(replies[1]))
        return None

    def compare_step(self, record: Record, replies: list[str]) -> Difference | None:
        """Compares a step."""
        point = self.replay.states[record.actor - 1].point
        if not is_made(replies[0]):
            kind = "line" if Refusal.read(replies[0]).name in ("Idle", "NeedsChoice", "NoChoice") else "refused"
            return self.differ(record, kind, record.label, replies[0])
        made, state = Step.read(replies[1]), Actor.read(replies[2])
        if record.label and record.label != point:
            return self.differ(record, "line", record.label, point, made)
        found = self.compare_made(record, made, state)
        if self.names.again:
            found = self.compare_reuse(record, self.names.again, made, state, found)
        if not found:
            self.note(record, made, state)
        return found

    def compare_reuse(
        self, record: Record, again: Reuse, made: Step, state: Actor, found: Difference | None
    ) -> Difference | None:
        """Finds whether a name of this record may be used again. A first use of it differs until then."""
        holders = [] if self.permits_reuse else self.holders(again.old)
        if holders:
            is_making = made.answer.startswith("made ")
            how = "was made anew" if is_making else f"is used for {again.segment}, which has no name yet,"
            model = f"{' and '.join(holders)}: it was {again.old}"
            return self.differ(record, "reuse", f"{again.name} {how}", model, made)
        if found:
            self.names.learn(again.name, again.segment)
            found = self.compare_made(record, made, state)
        return found

    def holders(self, segment: str) -> list[str]:
        """Who has a segment before the step that is compared."""
        ahead = self.sent - self.replay.count()
        self.replay.ask([f"back {ahead}"])
        found = [*port_reuse.holders(self.replay, segment)]
        self.replay.ask([f"forward {ahead}"])
        return found

    def compare_made(self, record: Record, made: Step, state: Actor) -> Difference | None:
        """Compares what a step did, and the actor's words after it."""
        answer = made.answer or NOTHING
        self.names.again = None
        if answer.startswith("made "):
            self.learn_segment(record, made.place.segment)
        rows: list[tuple[str, Sequence[str], str]] = [
            ("place", record.place, str(made.place)), ("access", record.access, made.access),
            ("answer", record.answer, answer), ("reply", record.reply, made.reply),
        ]
        for kind, port, model in rows:
            if port and not self.names.agree(port, model.split(" ")):
                said = " ".join(port) if kind == "reply" else self.names.meant(port)
                return self.differ(record, kind, said, model, made)
        for word, value in zip(record.words[::2], record.words[1::2]) if not made.reply else ():
            if not self.names.agrees(value, state.words[word]):
                port = f"{word} {self.names.meant([value])}"
                return self.differ(record, "words", port, f"{word} {state.words[word]}", made)
        return None

    def keep_without_place(self, line: str, state: Actor) -> None:
        """Notes a call or a choice."""
        self.replay.keep(Step(self.replay.count() + 1, Event.read(line)), state)

    def learn_segment(self, record: Record, segment: str) -> None:
        """Learns the port's name of a segment that is made."""
        if record.place[:1] == ("whole",):
            self.names.learn(record.place[1], segment)
        if record.answer[:1] == ("made",) and len(record.answer) == 2:
            self.names.learn(record.answer[1], segment)

    def note(self, record: Record, made: Step, state: Actor) -> None:
        """Notes a step on which port and model agree."""
        self.note_record(record)
        self.states_before[record.actor] = self.replay.states[record.actor - 1]
        self.replay.keep(made, state)
        self.made[record.actor] += made.answer.startswith("made ")
        self.accesses += bool(made.place)
        for kind, said in zip(self.compared, (record.label, record.place, record.answer, record.reply)):
            self.compared[kind] += bool(said)
        self.compared["words"] += 0 if made.reply else len(record.words) // 2

    def choose(self, record: Record) -> bool:
        """Makes the choice at E10 that a log leaves out, such that its next record agrees."""
        before = self.replay.states[record.actor - 1]
        for choice in CHOICES:
            line = f"starve {record.actor} {choice}"
            made, after = self.replay.ask([line, f"actor {record.actor}"])
            if not is_made(made):
                return False
            self.keep_without_place(line, Actor.read(after))
            if not self.compare([record]):
                self.chosen += 1
                return True
            self.replay.drop(before)
        return False
