"""Compares what `tools/calls.py` says of histories with a search by brute force, and tries it on the examples.

    python3 tools/check.py calls [--program P]

The gate runs it. Random histories are made by a queue that answers calls of a few actors; in most of them replies are
then exchanged or replaced. The answer has to be that of the brute search, which tries each order; an order has to be
replayed right; and of a set of calls without an order, no part may be left out. Then the scripts of the examples, whose
calls have an order each, a log in which a value is lost, logs made by hand, and 1,000 calls by 8 actors, which are
decided in 10 seconds. Each check prints a line; the status is 1 if one of them fails. Only Python's standard library
is used.
"""

import argparse
import contextlib
import io
import random
import time
from collections.abc import Iterator, Sequence
from contextlib import AbstractContextManager

from lcrq_tools import program
from lcrq_tools.calls import calls as tool
from lcrq_tools.calls.culprits import culprits_of, parts_of
from lcrq_tools.calls.intervals import Call
from lcrq_tools.calls.orders import answer_of, is_order
from lcrq_tools.calls.search import searched
from lcrq_tools.checks import pictures
from lcrq_tools.checks.answers import file_of
from lcrq_tools.faults import status_of
from lcrq_tools.program import EXAMPLES

COUNT, SEED, TRIES = 20_000, 1, 100_000
MANY, ACTORS, SECONDS = 1000, 8, 10.0
KINDS = (0, 0, 1, 2, 3)  # of how many values a history is made; 0 stands for values that are put once
# The scripts of the examples whose start has values, so that nobody knows in which order these were put.
FULL = ("13-a-start-of-ones-own", "15-why-a-dequeue-looks-twice-1", "15-why-a-dequeue-looks-twice-2")
ALONE = ("session", "manual-1", "manual-2", "manual-3", "model", "moment", "two-closers", "guide-1", "guide-6")
LOST = "the queue is found empty while 201 is surely there"

# Calls of a log by hand, each an actor, its call or its reply; what is said of them; and the begins of the calls in their
# order, or of those that have none. Of two queues, and of what can't be read, no begins are given.
ByHand = tuple[str, str, int, str, tuple[int, ...]]
CAN = "a FIFO queue can"
BY_HAND: list[ByHand] = [
    (
        "taken twice", "1 enq 7|1 enqueued|1 deq|1 value 7|2 deq|2 value 7", 1,
        "7 is taken 2 times, and put 1 time", (1, 3, 5),
    ),
    (
        "taken twice, among others", "1 enq 7|1 enqueued|1 deq|1 value 7|2 deq|2 value 7|2 enq 8|2 enqueued", 1,
        "7 is taken 2 times, and put 1 time", (1, 3, 5),
    ),
    ("taken before it is put", "1 deq|1 value 7|2 enq 7|2 enqueued", 1, "7 is taken before it is put", (1, 3)),
    ("never put", "1 deq|1 value 7", 1, "7 is taken, and never put", (1,)),
    (
        "a planted swap", "1 enq 7|1 enqueued|1 enq 8|1 enqueued|2 deq|2 value 8|2 deq|2 value 7", 1,
        "8 overtakes 7, which is put before it and is taken after 8", (1, 3, 5, 7),
    ),
    (
        "overtaken and left", "1 enq 7|1 enqueued|1 enq 8|1 enqueued|2 deq|2 value 8", 1,
        "8 overtakes 7, which is put before it and is never taken", (1, 3, 5),
    ),
    (
        "empty, and one is there", "1 enq 7|1 enqueued|2 deq|2 empty", 1,
        "the queue is found empty while 7 is surely there", (1, 3),
    ),
    (
        "empty, and two in turn", "1 enq 7|1 enqueued|2 deq|1 enq 8|1 enqueued|1 deq|1 value 7|2 empty", 1,
        "the queue is found empty, and at each moment of that call one of 7, 8 is surely there", (1, 3, 4, 6),
    ),
    ("put at once", "1 enq 7|2 enq 8|1 enqueued|2 enqueued|1 deq|1 value 8|1 deq|1 value 7", 0, CAN, (2, 1, 5, 7)),
    ("put at once, one left", "1 enq 7|2 enq 8|1 enqueued|2 enqueued|1 deq|1 value 8", 0, CAN, (2, 1, 5)),
    ("empty between two", "1 enq 7|1 enqueued|3 deq|1 deq|1 value 7|1 enq 8|1 enqueued|3 empty", 0, CAN, (1, 4, 3, 6)),
    ("put twice", "1 enq 7|1 enqueued|1 enq 7|1 enqueued|2 deq|2 value 7|2 deq|2 value 7", 0, CAN, (1, 3, 5, 7)),
    ("put twice, once pending", "1 enq 7|3 deq|3 value 7|2 enq 7|2 enqueued|1 enqueued", 0, CAN, (1, 2, 4)),
    ("the array's own", "1 enq 7|1 enqueued|2 adeq|2 empty|2 deq|2 value 7", 0, "the array queue, 1 call: a FIFO", ()),
    ("pending", "1 enq 7|1 enqueued|1 enq 8|1 enqueued|2 deq|3 deq|3 value 8", 0, CAN, (1, 3, 5, 6)),
    ("pending, and taken", "1 enq 7|2 deq|2 value 7", 0, CAN, (1, 2)),
    ("pending, and left out", "1 enq 7|2 deq|2 empty", 0, CAN, (2,)),
    ("no reply", "1 deq|1 deq", 2, "has no reply", ()),
    ("another reply", "1 deq|1 enqueued", 2, "is no reply to `deq`", ()),
    ("no call", "1 enqueued", 2, "has begun no call", ()),
    ("no record", "1 WHAT", 2, "no call, label, place or reply", ()),
]


# ---- Histories at random --------------------------------------------------------------------------


def answered(chance: random.Random, count: int, actors: int, kinds: int) -> list[Call]:
    """So many calls as a queue answers them. A call takes effect somewhere between its begin and its end."""
    running: dict[int, tuple[Call, bool]] = {}
    queue: list[int] = []
    calls: list[Call] = []
    begun = now = 0
    while begun < count or running and chance.random() < 0.97:
        actor = chance.randrange(actors)
        call, has_effect = running.pop(actor, (None, False))
        now += 1
        if call is None:
            if begun < count:
                begun += 1
                value = chance.randrange(kinds) if kinds else begun
                is_put = chance.random() < 0.5
                running[actor] = Call(actor, "enq" if is_put else "deq", value if is_put else None, now), False
        elif has_effect and chance.random() < 0.5:
            calls.append(Call(actor, call.word, call.value, call.begin, now))
        elif not has_effect and call.is_put():
            queue.append(call.value or 0)
            running[actor] = call, True
        else:
            took = call.value if has_effect else queue.pop(0) if queue else None
            running[actor] = Call(actor, call.word, took, call.begin), True
    for call, _ in running.values():
        calls.append(Call(call.actor, call.word, call.value if call.is_put() else None, call.begin))
    return sorted(calls, key=lambda call: call.begin)


def with_faults(chance: random.Random, calls: list[Call]) -> list[Call]:
    """Calls of which some replies are exchanged or replaced."""
    takes = [number for number, call in enumerate(calls) if not call.is_put() and not call.is_pending()]
    for _ in range(chance.randint(0, 2) if takes else 0):
        number, other = chance.choice(takes), chance.choice(takes)
        one, two = calls[number], calls[other]
        if number == other:
            value = chance.choice([None, *(call.value for call in calls if call.is_put())])
            calls[number] = Call(one.actor, one.word, value, one.begin, one.end)
        else:
            calls[number] = Call(one.actor, one.word, two.value, one.begin, one.end)
            calls[other] = Call(two.actor, two.word, one.value, two.begin, two.end)
    return calls


def has_order(left: Sequence[Call], queue: tuple[int | None, ...] = ()) -> bool:
    """Whether these calls have an order, from this queue on, by trying each of them next."""
    if all(call.is_pending() for call in left):
        return True
    latest = min(call.end for call in left)
    for number, call in enumerate(left):
        after = (*queue, call.value) if call.is_put() else queue[1:]
        took = queue[0] if queue else None
        is_right = call.is_put() or (bool(queue) if call.is_pending() else took == call.value)
        if call.begin < latest and is_right and has_order([*left[:number], *left[number + 1:]], after):
            return True
    return False


def answer_fault(calls: Sequence[Call]) -> str:
    """What is wrong with what is said of a history, or nothing."""
    answer, wanted = answer_of(calls, TRIES), has_order(calls)
    found = searched(calls, TRIES)[0]
    if not answer.is_decided or (answer.order is not None) != wanted or (found is not None) != wanted:
        return f"{answer}, by the search {found}, and by brute force {wanted}"
    if wanted:
        return "" if all(is_order(order or (), calls) for order in (answer.order, found)) else "the order is none"
    culprits = culprits_of(calls, TRIES).calls
    always = [call for call in calls if not call.is_put() and call.is_pending()]
    parts = parts_of(culprits)
    if has_order([*always, *culprits]):
        return f"{culprits} have an order"
    smaller = ([call for other in parts if other is not part for call in other] for part in parts)
    return "" if all(has_order([*always, *some]) for some in smaller) else f"{culprits} is not the least set"


def random_fault() -> tuple[str, str]:
    """How many histories were compared, and what is wrong with the first that is answered wrongly, or nothing."""
    chance = random.Random(SEED)
    wrong = 0
    for number in range(COUNT):
        calls = with_faults(chance, answered(chance, chance.randint(1, 7), chance.randint(2, 4), chance.choice(KINDS)))
        if fault := answer_fault(calls):
            return f"history {number}", f"{fault}: {'; '.join(map(repr, calls))}"
        wrong += answer_of(calls, TRIES).order is None
    return f"{COUNT:,} random histories, {wrong:,} of them without an order", ""


def speed_fault(kinds: int) -> str:
    """What is wrong with the answers about many calls, or nothing."""
    chance = random.Random(SEED)
    calls = answered(chance, MANY, ACTORS, kinds)
    begin = time.process_time()
    right, wrong = answer_of(calls, TRIES), answer_of(with_faults(chance, list(calls)), TRIES)
    took = time.process_time() - begin
    if right.order is None or not wrong.is_decided:
        return f"{right.is_decided} and {wrong.is_decided} after {right.tried} and {wrong.tried} configurations"
    return f"{took:.1f} s" if took > SECONDS else ""


# ---- The tool -------------------------------------------------------------------------------------


def said(given: argparse.Namespace, *words: str) -> tuple[int, str]:
    """The status of the tool with these words, and what it writes."""
    output = io.StringIO()
    with contextlib.redirect_stdout(output), contextlib.redirect_stderr(output):
        status = status_of(tool.main, [*words, "--refused", "--fifo", "--program", given.program])
    return status, output.getvalue()


def said_fault(given: argparse.Namespace, words: Sequence[str], status: int, wanted: str) -> str:
    """What is wrong with what the tool does with these words, or nothing."""
    ended, text = said(given, *words)
    return "" if ended == status and wanted in text else f"status {ended}, {text!r}"


def log_of(calls: str) -> AbstractContextManager[str]:
    """The name of a file with a log of these calls, whose stamps are their numbers."""
    return file_of(program.script_of(f"{number} {text}" for number, text in enumerate(calls.split("|"), 1)))


def checks(given: argparse.Namespace) -> Iterator[tuple[str, str]]:
    """The checks, each a name and what is wrong, or nothing."""
    yield random_fault()
    for kinds in (0, 3, 50):
        about = f"of {kinds} values" if kinds else "whose values are put once"
        yield f"{MANY:,} calls by {ACTORS} actors {about}", speed_fault(kinds)
    for lesson in [*pictures.LESSONS, *(pictures.Lesson(name, "", "") for name in ALONE)]:
        world = [str(EXAMPLES / word) if word.endswith(".trace") else word for word in lesson.world_options().split()]
        row = (2, "the start has values") if lesson.name in FULL else (0, "a FIFO queue can have answered so")
        yield f"the calls of {lesson.name}", said_fault(given, [str(EXAMPLES / f"{lesson.name}.script"), *world], *row)
    yield "a log that loses a value", said_fault(given, [str(EXAMPLES / "port" / "unsafe-ignored.log")], 1, LOST)
    for name, text, status, wanted, _ in BY_HAND:
        with log_of(text) as log:
            yield f"a log by hand: {name}", said_fault(given, [log], status, wanted)
