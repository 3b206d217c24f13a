"""Predicts, for `conform.py`, what the program replies where it agrees with the records of a log, as bytes: many
records make a batch, whose replies are compared with what was predicted, all at once.

Each step of a batch is three lines: the one that makes it, `step K` and `actor A`. A record that this can't
predict ends its batch: a name's first use, memory that is used again, and a record that can't be read.
"""

import collections
import functools
import itertools
import re
from collections.abc import Callable, Iterator, Mapping, Sequence
from operator import itemgetter
from typing import TYPE_CHECKING, NamedTuple

from lcrq_tools.port.port_log import ABSENT, SEGMENT, Record, Unreadable, label_names, number_of, record_of
from lcrq_tools.port.port_stream import Actors, Raw

if TYPE_CHECKING:
    from lcrq_tools.port.port_compare import Comparison

MOST_PLANS = 1 << 15  # texts whose plans are kept
LINES = 3  # that are asked of a step
GO = b"go %d\nstep %d\nactor %d\n"
UNSAID = b"; -"  # how a step ends that ends no call, or whose reply no record has said yet
NEVER = b"\n"  # which no reply ends with
NAMED = ("E1", "E2", "Q1", "Q13")  # labels whose answer is a segment, as is that of the places below
OF_SEGMENTS = ("qhead", "qtail", "next")
NUMBER = rb"(?:0|[1-9][0-9]{0,18})"
USUAL = re.compile(
    rb"((?!E1 |E2 |E1[0234] |Q1 |Q1[34] )[EQ][0-9]+) ((?:won|lost|none|(?:open |closed |[01] )?%b))"
    rb"(?:; ((?:t|h|idx|pass) %b))?" % (NUMBER, NUMBER)
)
NAMING = re.compile(rb"(E1(?!2)|E2|Q1|Q13|E12(?= made)) (made )?(0x[1-9a-f][0-9a-f]*)")
CALLED = re.compile(rb"(enq %b|deq)" % NUMBER)
REPLIED = re.compile(rb"(value %b|empty|enqueued)" % NUMBER)


class Plan(NamedTuple):
    """What a record asks, and what is predicted of it. `%s` stands for a segment, by the port's name."""

    way: int  # 0 for a call, 1 for a step, 2 for a reply; -1 for what is predicted by nobody
    asked: bytes = GO
    head: bytes = b""  # with which the reply to `actor A` before it begins
    tail: bytes = b""  # with which the reply to `step K` ends
    names: tuple[bytes, ...] = ()
    words: tuple[bytes, ...] = ()  # which the reply to `actor A` behind it has
    word_names: tuple[bytes, ...] = ()
    makes: bool = False  # a segment
    made: tuple[bytes, ...] = ()  # the port's name of it
    is_choice: bool = False
    said: str = ""  # the call or the reply
    counts: tuple[int, ...] = (0, 0, 0, 0, 0, 0)  # labels, places, answers, replies, accesses and choices


SLOW = Plan(-1)


# ---- The plan of a record ------------------------------------------------------------------------


@functools.lru_cache(64)
def head_of(label: bytes) -> bytes:
    """How the reply to `actor A` begins at a control point."""
    return b"actor %b " % label


def quick_plan(what: bytes) -> Plan | None:
    """The plan of a usual record that names no segment; none for others."""
    if step := USUAL.fullmatch(what):
        label, answer, word = step.groups()
        words = (b" %b" % word if word[:1] == b"p" else b" %b " % word,) if word else ()
        return Plan(1, GO, head_of(label), b"; %b; -" % answer, (), words, counts=(1, 0, 1, 0, 1, 0))
    if named := NAMING.fullmatch(what):
        label, makes, name = named.groups()
        made = (name,) if makes else ()
        tail = b"; made %s; -" if makes else b"; %s; -"
        return Plan(1, GO, head_of(label), tail, (name,), makes=bool(makes), made=made, counts=(1, 0, 1, 0, 1, 0))
    if call := CALLED.fullmatch(what):
        word, _, value = call[1].partition(b" ")
        said = b"%b %%d %b" % (word, value) if value else b"%b %%d" % word
        return Plan(0, said + GO[5:], said=call[1].decode("ascii"))
    if reply := REPLIED.fullmatch(what):
        return Plan(2, b"", tail=b"; %b" % reply[1], said=reply[1].decode("ascii"), counts=(0, 0, 0, 1, 0, 0))
    return None


def plan_of(what: bytes) -> Plan:
    """The plan of any record, by the text behind its actor."""
    try:
        record = record_of("", f"1 1 {what.decode('utf-8', 'replace')}", label_names())
        return quick_plan(what) or planned(record)
    except (Unreadable, UnicodeEncodeError, LookupError):
        return SLOW


def planned(record: Record) -> Plan:
    """The plan of a record."""
    if record.kind == "call":
        word, _, value = record.call.partition(" ")
        asked = f"{word} %d {value}".rstrip(" ").encode("ascii") + GO[5:]
        return Plan(0, asked, said=record.call)
    if record.kind == "reply":
        said = " ".join(map(plain, record.reply))
        return Plan(2, b"", tail=f"; {said}".encode("ascii"), said=said, counts=(0, 0, 0, 1, 0, 0))
    head = head_of(record.label.encode("ascii")) if record.label else b""
    if record.choice:
        asked = f"starve %d {record.choice}".encode("ascii") + GO[5:]
        return Plan(1, asked, head, is_choice=True, counts=(int(bool(record.label)), 0, 0, 0, 0, 1))
    return step_plan(record, head)


def step_plan(record: Record, head: bytes) -> Plan:
    """The plan of a step."""
    stated = [bool(part) for part in (record.place, record.access, record.answer)]
    if any(stated[:2]) and not all(stated) or not (record.label or all(stated)):
        return SLOW  # there is a gap between what is stated
    if record.place[:1] == ("whole",) and record.place[1:] != record.answer[1:]:
        return SLOW  # a segment with two names
    parts = [*map(spelled, (record.place, record.access, record.answer), (is_place_name, never, is_named(record)))]
    tail = "".join(f"; {text}" for text, _ in parts if text)
    words, word_names = words_of(record)
    makes = record.label == "E12" or record.place[:1] == ("whole",)
    return Plan(
        1, GO, head, f"{tail}; {' '.join(map(plain, record.reply)) or '-'}".encode("ascii"),
        tuple(name for _, names in parts for name in names), words, word_names, makes,
        tuple(name.encode() for name in record.answer[1:2] if makes), said=" ".join(map(plain, record.reply)),
        counts=(int(bool(record.label)), int(stated[0]), int(stated[2]), int(bool(record.reply)), 1, 0),
    )


def plain(word: str) -> str:
    """A word that names no segment, in the program's words."""
    return "none" if word in ABSENT else number_of(word) or word


def never(_at: int, _word: str) -> bool:
    """That no word names a segment."""
    return False


def is_place_name(at: int, word: str) -> bool:
    """Whether a word of a place names a segment: the first one, unless the place has only an index."""
    return at == 1 and word not in ABSENT


def is_named(record: Record) -> Callable[[int, str], bool]:
    """Which words of a record's answer name segments."""
    makes = record.answer[:1] == ("made",)
    names = record.label in NAMED or not record.label and record.place[0] in OF_SEGMENTS

    def test(at: int, word: str) -> bool:
        return word not in (*ABSENT, "won", "lost") and (at == 1 if makes else names)

    return test


def spelled(words: Sequence[str], names: Callable[[int, str], bool]) -> tuple[str, list[bytes]]:
    """Words in the program's spelling, with `%s` for each name of a segment, and these names."""
    is_slot = words[:1] == ("acell",)
    rows = [(word, names(at, word) and not is_slot) for at, word in enumerate(words)]
    text = " ".join("%s" if is_name else plain(word) for word, is_name in rows)
    return text, [word.encode() for word, is_name in rows if is_name]


def words_of(record: Record) -> tuple[tuple[bytes, ...], tuple[bytes, ...]]:
    """What the reply to `actor A` has of the words of a record, and the names in it."""
    pairs = [*zip(record.words[::2], record.words[1::2])]
    rows = [(word, *spelled([value], link_in(word))) for word, value in pairs]
    texts = (f" {word} {text}" + ("" if word == "pass" else " ") for word, text, _ in rows)
    return tuple(text.encode("ascii") for text in texts), tuple(name for *_, names in rows for name in names)


def link_in(word: str) -> Callable[[int, str], bool]:
    """Whether the value of an actor's word names a segment."""
    return (lambda _, value: value not in ABSENT) if word in ("crq", "new", "next") else never


# ---- Batches -------------------------------------------------------------------------------------


class Batch:
    """Records, and what is predicted of them. Of each step: the actor, and the beginning and the end of replies."""

    def __init__(self, raws: list[Raw]):
        self.raws = raws
        self.plans: list[Plan] = []
        self.asked: list[bytes] = []
        self.actors = bytearray()
        self.heads, self.tails = [b"actor "] * len(raws), list[bytes]()
        self.words: dict[int, tuple[bytes, ...]] = {}  # of a step
        self.ends: dict[int, bytes] = {}  # of steps whose replies no record says: the end without a reply
        self.firsts: list[tuple[int, int, bytes, bytes]] = []  # records, actors, and what is known of both replies
        self.learned: list[tuple[int, int, tuple[bytes, ...]]] = []  # records, actors, and the segments' names
        self.calls: list[tuple[int, int, Plan, int]] = []  # records, actors, plans, and the actors' steps before
        self.last_raws: dict[int, Raw] = {}  # the last record of each actor

    def text(self) -> bytes:
        """The lines that are asked."""
        return b"".join(self.asked)

    def at(self) -> list[int]:
        """Which of the records each step is."""
        return [record for record, plan in enumerate(self.plans) if plan.way < 2]

    def cut(self, record: int) -> int:
        """How many of the steps are of records before this one."""
        return len(self.tails) if record == len(self.plans) else sum(plan.way < 2 for plan in self.plans[:record])

    def by(self, record: int) -> int:
        """The next record of the same actor."""
        name = name_in(self.raws[record])
        return next(at for at in range(record + 1, len(self.plans)) if name_in(self.raws[at]) == name)

    def first_fault(self, replies: Sequence[Sequence[bytes]], known: Mapping[int, tuple[bytes, bytes]]) -> int:
        """The first record, or one before it, of which something is not as predicted; how many there are if all
        is. Of each actor the replies before the batch are known."""
        if self.agrees(*replies) and all(self.is_first(it, known) for it in self.firsts):
            return len(self.plans)
        faults = [it[0] for it in self.firsts if not self.is_first(it, known)]
        return min(itertools.chain(faults, self.faults(*replies)), default=len(self.plans))

    def agrees(self, oks: Sequence[bytes], steps: Sequence[bytes], stands: Sequence[bytes]) -> bool:
        """Whether all replies are as predicted."""
        return (
            all(map(bytes.startswith, oks, itertools.repeat(b"ok ")))
            and all(map(bytes.endswith, steps, self.tails))
            and all(map(bytes.startswith, stands, self.heads))
            and all(has_words(stands[step], words) for step, words in self.words.items())
            and all(steps[step].rpartition(b"; ")[0].endswith(end) for step, end in self.ends.items())
        )

    def faults(self, oks: Sequence[bytes], steps: Sequence[bytes], stands: Sequence[bytes]) -> Iterator[int]:
        """The records whose replies are not as predicted."""
        for step, at in enumerate(self.at()):
            if not oks[step].startswith(b"ok ") or not steps[step].endswith(self.tails[step]):
                yield at
            if not steps[step].rpartition(b"; ")[0].endswith(self.ends.get(step, b"")):
                yield at
            if not has_words(stands[step], self.words.get(step, ())):
                yield at
            if not stands[step].startswith(self.heads[step]):
                yield self.by(at)

    @staticmethod
    def is_first(row: tuple[int, int, bytes, bytes], known: Mapping[int, tuple[bytes, bytes]]) -> bool:
        """Whether an actor is where its first record has it."""
        _, actor, head, tail = row
        step, stand = known[actor]
        return stand.startswith(head) and step.endswith(tail)

    def counted(self, count: int) -> tuple[int, ...]:
        """How many labels, places, answers and replies its first records have."""
        rows = collections.Counter(map(itemgetter(-1), self.plans[:count]))
        return tuple(sum(row[at] * times for row, times in rows.items()) for at in range(len(SLOW.counts)))


def name_in(raw: Raw) -> bytes:
    """The name of a record's actor."""
    return raw[2].split(b" ", 2)[1]


def has_words(stand: bytes, words: tuple[bytes, ...]) -> bool:
    """Whether a reply to `actor A` has these words."""
    return all(word in stand if word.endswith(b" ") else stand.endswith(word) for word in words)


# ---- Predictions ---------------------------------------------------------------------------------


class Predictor:
    """Makes batches of the records that come, from where a comparison is."""

    def __init__(self, comparison: "Comparison", actors: Actors, plans: dict[bytes, Plan]):
        self.actors, self.plans, self.permits_reuse = actors, plans, comparison.permits_reuse
        self.number = comparison.replay.live() + 1  # of the next step
        self.made = [*comparison.made]  # how many segments each actor has made
        names = comparison.names.segments.items()
        self.segments = {name.encode(): segment.encode("ascii") for name, segment in names}
        self.ways = (self.call, self.step, self.reply)

    def batch(self, raws: list[Raw]) -> Batch:
        """A batch of these records, up to one that can't be predicted."""
        self.now, self.last = Batch(raws), dict[int, int]()
        plans, last_raws = self.now.plans, self.now.last_raws
        for raw, (actor, plan) in zip(raws, map(self.parsed, raws)):
            if not actor or plan.way < 0 or not self.ways[plan.way](actor, plan):
                break
            last_raws[actor] = raw
            plans.append(plan)
        for step in self.last.values():
            self.leave_reply(step)
        return self.now

    def parsed(self, raw: Raw) -> tuple[int, Plan]:
        """The actor of a record, 0 if it is new, and its plan."""
        try:
            _, name, what = raw[2].split(b" ", 2)
        except ValueError:
            return 0, SLOW
        return self.actors.numbers.get(name, 0), self.plans.get(what) or self.plan(what)

    def plan(self, what: bytes) -> Plan:
        """A plan that was not kept."""
        if len(self.plans) >= MOST_PLANS:
            self.plans.clear()
        self.plans[what] = plan = quick_plan(what) or plan_of(what)
        return plan

    def made_by(self, actor: int, asked: bytes) -> int:
        """Adds a step of an actor; returns which one it is."""
        batch = self.now
        batch.asked.append(asked % (actor, self.number, actor))
        batch.actors.append(actor)
        self.number += 1
        self.last[actor] = step = len(batch.tails)
        return step

    def head(self, actor: int, head: bytes, tail: bytes = b"") -> None:
        """Says where an actor has to be before this record, and how its last step has to end."""
        batch, last = self.now, self.last.get(actor)
        if last is None:
            batch.firsts.append((len(batch.plans), actor, head, tail))
        else:
            batch.heads[last] = head

    def call(self, actor: int, plan: Plan) -> bool:
        """Adds a call."""
        last = self.last.get(actor, -1)
        if last >= 0:
            self.leave_reply(last)
        self.now.calls.append((len(self.now.plans), actor, plan, last))
        self.made_by(actor, plan.asked)
        self.now.tails.append(b"")
        return True

    def step(self, actor: int, plan: Plan) -> bool:
        """Adds a step."""
        _, asked, head, tail, names, words, word_names, makes, _, _, said, _ = plan
        if makes and not self.learn(actor, plan):
            return False
        if names or word_names:
            tail, words, is_known = self.filled(plan)
            if not is_known:
                return False
        if head:
            self.head(actor, head)
        step = self.made_by(actor, asked)
        self.now.tails.append(tail)
        if words and not said:
            self.now.words[step] = words
        if said:
            self.now.calls.append((len(self.now.plans), actor, plan, step))
        return True

    def reply(self, actor: int, plan: Plan) -> bool:
        """Adds a reply: it is that of the actor's last step."""
        batch, last = self.now, self.last.get(actor)
        self.head(actor, b"actor Idle ", plan.tail)
        if last is not None:
            said = batch.tails[last]
            is_same = said.endswith(plan.tail)
            batch.tails[last] = said[:-3] + plan.tail if said.endswith(UNSAID) else said if is_same else NEVER
            batch.words.pop(last, None)
        batch.calls.append((len(batch.plans), actor, plan, -1))
        return True

    def leave_reply(self, step: int) -> None:
        """Lets a step have any reply, if no record says its own."""
        tail = self.now.tails[step]
        if tail.endswith(UNSAID):
            self.now.ends[step], self.now.tails[step] = tail[:-3], b""

    # ---- Names

    def learn(self, actor: int, plan: Plan) -> bool:
        """Learns the name of a segment that is made; whether it may be so."""
        segment = b"%d.%d" % (actor, self.made[actor])
        for name in plan.made:
            if name in self.segments and not self.permits_reuse:
                return False
        self.now.learned.append((len(self.now.plans), actor, plan.made))
        self.segments |= dict.fromkeys(plan.made, segment)
        self.made[actor] += 1
        return True

    def filled(self, plan: Plan) -> tuple[bytes, tuple[bytes, ...], bool]:
        """The end and the words of a plan with its segments, and whether all of these are known."""
        found = [self.segment(name) for name in (*plan.names, *plan.word_names)]
        if not all(found):
            return b"", (), False
        count = len(plan.names)
        words, rest = [], iter(found[count:])
        for word in plan.words:
            words.append(word % next(rest) if b"%s" in word else word)
        return plan.tail % tuple(found[:count]), tuple(words), True

    def segment(self, name: bytes) -> bytes:
        """The segment of a name; nothing if it is not known."""
        return self.segments.get(name) or (name if SEGMENT.fullmatch(name.decode("utf-8", "replace")) else b"")
