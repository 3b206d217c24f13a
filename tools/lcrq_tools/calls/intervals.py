"""Reads the calls of a run, of viewers or of a port's log as intervals, for `calls.py`.

A call begins at the step, or the record, that begins it, and ends at the one that has its reply. One that has not
ended is pending. Steps that were undone are no part of a run: the program is asked for its live steps.
"""

import argparse
import io
import sys
import tempfile
from collections.abc import Iterable, Iterator
from dataclasses import dataclass
from pathlib import Path

from lcrq_tools.draw.boxes import SLOTS
from lcrq_tools.draw.figure import Session, script_name
from lcrq_tools.drafts import is_draft
from lcrq_tools.faults import Fault
from lcrq_tools.places import found_program, required
from lcrq_tools.port.port_log import Record, number_of
from lcrq_tools.port.port_stream import read_logs
from lcrq_tools.program import bytes_of, lines_of, standard_input
from lcrq_tools.records import Actor, Event, Step

FOREVER = 1 << 62  # the end of what is pending
RING, ARRAY = "the ring queue", "the array queue"
PUTS, OF_THE_ARRAY = ("enq", "aenq"), ("aenq", "adeq")


@dataclass(frozen=True)
class Call:
    """A call: what an actor asked, what it was replied, and when. No two begins or ends are at one time."""

    actor: int
    word: str
    value: int | None  # what it puts, or what it took; none if it found the queue empty or is pending
    begin: int
    end: int = FOREVER
    where: str = ""  # the step or the record that begins it

    def queue(self) -> str:
        """The queue that it is about."""
        return ARRAY if self.word in OF_THE_ARRAY else RING

    def is_put(self) -> bool:
        """Whether it enqueues."""
        return self.word in PUTS

    def is_pending(self) -> bool:
        """Whether it has not ended, so that it may or may not have taken effect."""
        return self.end == FOREVER

    def asked(self) -> str:
        """What was asked."""
        return f"{self.word} {self.value}" if self.is_put() else self.word

    def reply(self) -> str:
        """What was replied."""
        if self.is_pending():
            return "pending"
        if self.is_put():
            return "enqueued"
        return "empty" if self.value is None else f"value {self.value}"

    def __str__(self) -> str:
        return f"actor {self.actor}: {self.asked()}, {self.reply()}, {self.where}"


@dataclass(frozen=True)
class Found:
    """The calls of a run in the order of their begins, its name, what to say of refused lines or of the names of
    actors, and why the calls can't be judged, if they can't."""

    calls: tuple[Call, ...]
    name: str
    said: str = ""
    hindrance: str = ""


def ended(call: Call, reply: str, end: int, where: str) -> Call:
    """A call with its reply."""
    word, _, value = reply.partition(" ")
    number = number_of(value) if word == "value" else ""
    wanted = reply == "enqueued" if call.is_put() else reply == "empty" or number
    if not wanted:
        raise Fault(f"{where}: `{reply}` is no reply to `{call.asked()}` of actor {call.actor}")
    took = call.value if call.is_put() else int(number) if number else None
    return Call(call.actor, call.word, took, call.begin, end, call.where)


# ---- A run of the program -------------------------------------------------------------------------


def calls_at_start(session: Session) -> dict[int, Call]:
    """The calls in which the actors of a start are, by their actors: they began before all others."""
    asked = [f"actor {number}" for number in range(1, session.actors + 1)]
    actors = map(Actor.read, session.ask([*session.moved_to(1), *asked])[-len(asked):])
    running = {}
    for number, actor in enumerate(actors, 1):
        if not actor.is_idle():
            word, *value = actor.call.split(" ")
            put = int(value[0]) if value else None
            running[number] = Call(number, word, put, number - session.actors, where="before the start")
    return running


def calls_of_steps(steps: Iterable[Step], running: dict[int, Call]) -> Iterator[Call]:
    """The calls that steps begin and end, those that end first, and then what is pending."""
    for step in steps:
        event = step.event
        if event.is_call():
            where = f"from step {step.number}"
            running[event.actor] = Call(event.actor, event.word, event.value, step.number, where=where)
        elif step.reply:
            call = running.pop(event.actor)
            done = f"{call.where} to step {step.number}"
            yield ended(Call(call.actor, call.word, call.value, call.begin, where=done), step.reply, step.number, done)
    yield from running.values()


def hindrance_of(session: Session) -> str:
    """Why the calls of a run can't be judged, if they can't: a start may have values, or further segments, and nobody
    knows in which order those were put."""
    cells = [f"show value 0.0 {cell}" for cell in range(session.ring)]
    slots = [f"show acell {slot}" for slot in range(SLOTS)]
    asked = ["show next 0.0", *cells, *slots]
    replies = session.ask([*session.moved_to(1), *asked])[-len(asked):]
    has_values = {*replies[:len(cells) + 1]} != {"is none"} or any(reply.startswith("is value ") for reply in replies)
    return "the start has values or segments, and the order in which they were put isn't known" if has_values else ""


def calls_of_run(arguments: argparse.Namespace) -> Found:
    """The calls of a script or of a history, by the program's live steps."""
    session = Session(arguments)
    replies = session.ask([f"step {number}" for number in range(1, session.live + 1)])
    calls = sorted(calls_of_steps(map(Step.read, replies), calls_at_start(session)), key=lambda call: call.begin)
    name = f"{script_name(arguments)}, {session.world()}"
    return Found(tuple(calls), name, session.refused, hindrance_of(session) if arguments.trace else "")


# ---- A port's log ---------------------------------------------------------------------------------


def in_time(records: Iterable[Record]) -> list[Record]:
    """Records in the order of their times: a call's begin is at its first stamp, another record at its second
    one, and of equal times begins are the first. An actor's records keep their order."""
    latest: dict[int, tuple[int, bool]] = {}
    times: list[tuple[tuple[int, bool], int, Record]] = []
    for record in records:
        is_end = record.kind != "call"
        time = max((record.after if is_end else record.stamp, is_end), latest.get(record.actor, (0, False)))
        latest[record.actor] = time
        times.append((time, len(times), record))
    return [record for _, _, record in sorted(times, key=lambda row: row[:2])]


def calls_of_records(records: Iterable[Record]) -> Iterator[Call]:
    """The calls that records begin and end, those that end first, and then what is pending."""
    running: dict[int, Call] = {}
    for time, record in enumerate(in_time(records)):
        actor = record.actor
        if record.kind == "call":
            if actor in running:
                raise Fault(f"{record.where}: actor {record.name} begins a call, and `{running[actor].asked()}`"
                            f" of {running[actor].where} has no reply")
            event = Event.read(record.line())
            running[actor] = Call(actor, event.word, event.value, time, where=record.where)
        elif record.reply:
            if actor not in running:
                raise Fault(f"{record.where}: actor {record.name} is replied, and has begun no call")
            yield ended(running.pop(actor), " ".join(record.reply), time, record.where)
    yield from running.values()


def calls_of_logs(names: list[str]) -> Found:
    """The calls of logs, which are merged by their stamps."""
    if "-" in names:  # it was read to see what it is
        sys.stdin = io.TextIOWrapper(tempfile.TemporaryFile())
        sys.stdin.buffer.write(standard_input())
        sys.stdin.buffer.seek(0)
    logs = read_logs(names)
    named = ", ".join(logs.named)
    calls = sorted(calls_of_records(logs.records), key=lambda call: call.begin)
    name = ", ".join("a log" if name == "-" else Path(name).name for name in names)
    return Found(tuple(calls), name, f"the actors of the logs: {named}" if named else "")


def is_log(name: str) -> bool:
    """Whether a file is a log, whose records begin with a stamp; a script's lines begin with a word."""
    if is_draft(name):
        return False
    lines = (line.split() for line in lines_of(bytes_of(name).decode("utf-8", "replace")))
    first = next((words[0] for words in lines if words and not words[0].startswith("#")), "")
    return first[:1].isdecimal()


def read(arguments: argparse.Namespace) -> Found:
    """The calls that a command line asks for."""
    names: list[str] = arguments.names
    if bool(names) == (arguments.history is not None):
        raise Fault("give a script, logs, or --history FILE")
    if names and is_log(names[0]):
        return calls_of_logs(names)
    if len(names) > 1:
        raise Fault(f"{names[0]} is no log, and only logs are merged")
    arguments.script = names[0] if names else None
    arguments.program = arguments.program or required(found_program())
    return calls_of_run(arguments)
