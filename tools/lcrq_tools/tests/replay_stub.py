"""What tests of the tools for ports put in the place of a run of the program: it makes the steps of a list."""

import contextlib
import copy
import tempfile
from collections.abc import Iterator, Mapping, Sequence
from pathlib import Path

from lcrq_tools import model, records
from lcrq_tools.port import port_log
from lcrq_tools.port.port_compare import Comparison, Listed
from lcrq_tools.port.port_log import Record
from lcrq_tools.port.port_replay import Replay, Steps
from lcrq_tools.port.port_stream import Actors, Source
from lcrq_tools.records import Actor
from lcrq_tools.start import starts
from lcrq_tools.start.starts import Trace

Made = tuple[str, str, Actor]  # the line that makes a step, what it did as text, and its actor after it

LABELS = set(model.read(model.PAGE.read_text(encoding="utf-8"))[0])


def actor(point: str, call: str = "enq 7", **words: object) -> Actor:
    """An actor, with these words in the place of those of an idle one."""
    values = dict.fromkeys(records.WORDS, "0") | {"crq": "0.0", "new": "0.0", "next": "0.0", "val": "none"}
    return Actor(point, call, values | {word: str(it) for word, it in words.items()})


IDLE = actor("Idle", "none")
# Actor 1 enqueues 7 into the fresh world with rings of 2.
ENQUEUE: list[Made] = [
    ("enq 1 7", "-; none; -; -", actor("E1")),
    ("go 1", "qtail; read; 0.0; -", actor("E2")),
    ("go 1", "next 0.0; read; none; -", actor("E4")),
    ("go 1", "tail 0.0; wrote; open 0; -", actor("E5")),
    ("go 1", "value 0.0 0; read; none; -", actor("E6")),
    ("go 1", "index 0.0 0; read; 1 0; -", actor("E8", safe=1)),
    ("go 1", "cell 0.0 0; wrote; won; enqueued", IDLE),
]
AFTER = {"show tail 0.0 after 4": "is open 1"}  # what is at a place behind one of these steps
# The log of a port that does the same, with names of its own.
LOG = [
    "1 1 enq 7",
    "2 1 E1 qtail; read; root",
    "3 1 E2 next root; read; NULL",
    "4 1 E4 tail root; wrote; open 0; t 0 closed 0",
    "5 1 E5 none",
    "6 1 - index root 0; -; 1 0",
    "7 1 E8 won; enqueued",
]
# A start of two actors over rings of 2.
START: Trace = {
    "ring": 2,
    "start": {
        "actors": [starts.IDLE, starts.IDLE], "segments": [[starts.segment(2, 0)], [], []],
        "qhead": [0, 0], "qtail": [0, 0], "array": {"head": 0, "tail": 0, "cells": []},
    },
}


class Told(Replay):
    """A run that makes these steps and no others. After a line of `forks` it goes on with other ones."""

    def __init__(
        self, steps: Sequence[Made] = ENQUEUE, shown: Mapping[str, str] = {}, forks: Mapping[str, list[Made]] = {}
    ) -> None:
        self.listed, self.shown, self.forks = [*steps], {**AFTER, **shown}, forks
        self.made = 0  # how many of them are live
        self.asked: list[str] = []
        self.opened: list[Trace] = []  # starts, over which it went on
        self.program, self.folder, self.driven = "lcrqdb", Path("/nowhere"), None
        self.options = ["run", "-", "--actors", "16", "--ring", "2"]
        self.is_fresh, self.known = True, []
        self.sent: list[str] = []  # lines whose replies are not taken yet
        self.first, self.ring, self.states, self.steps = 0, 2, [IDLE, IDLE], Steps()
        self.steps.freeze({1: str(IDLE).encode("ascii"), 2: str(IDLE).encode("ascii")})

    def ask(self, lines: list[str]) -> list[str]:
        """The replies to these lines."""
        self.asked += lines
        return [self.reply(line) for line in lines]

    def send(self, lines: bytes) -> None:
        """Takes lines whose replies are taken later."""
        self.sent += lines.decode("ascii").splitlines()

    def take(self, count: int) -> list[bytes]:
        """So many replies to the lines that were sent."""
        lines, self.sent = self.sent[:count], self.sent[count:]
        return [reply.encode("ascii") for reply in self.ask(lines)]

    def reply(self, line: str) -> str:
        """The reply to a line."""
        word, _, rest = line.partition(" ")
        match word:
            case "show":
                return self.shown.get(f"{line} after {self.made}", self.shown.get(line, "refused 19 NoSuchPlace"))
            case "writer":
                return self.writer_of(rest)
            case "actor":
                own = [state for event, _, state in self.listed[: self.made] if event.split(" ")[1] == rest]
                return str(own[-1] if own else IDLE)
            case "step":
                return self.step_of(int(rest))
            case "len":
                return f"at {self.made} 0"
            case "back" | "forward":
                self.made += int(rest) if word == "forward" else -int(rest)
                return f"at {self.made} 0"
        return self.event(line)

    def step_of(self, number: int) -> str:
        """The reply that has a step."""
        if number > self.made:
            return f"refused 12 NoSuchStep {self.made}"
        event, did, _ = self.listed[number - 1]
        return f"step {number}; {event}; {did}"

    def writer_of(self, place: str) -> str:
        """The last live step that wrote just this place."""
        live = enumerate(self.listed[: self.made], 1)
        writers = [at for at, (_, did, _) in live if did.startswith(f"{place}; wrote; ")]
        return f"writer {writers[-1]}" if writers else "writer none"

    def event(self, line: str) -> str:
        """The reply to a line that makes a step."""
        self.listed = self.listed[: self.made] + self.forks[line] if line in self.forks else self.listed
        wanted = self.listed[self.made][0] if self.made < len(self.listed) else ""
        if line == wanted:
            self.made += 1
            return f"ok {self.made}"
        if line.split(" ")[0] in records.CALLS:
            return "refused 2 NotIdle"
        return "refused 4 NeedsChoice" if wanted.startswith("starve ") else "refused 3 Idle"

    def start(self) -> Trace:
        """The world as a start, which is always the same here."""
        return copy.deepcopy(START)

    def open_start(self, start: Trace) -> None:
        """Goes on over a start."""
        self.opened.append(start)
        self.steps.freeze({actor: str(state).encode("ascii") for actor, state in enumerate(self.states, 1)})
        self.listed, self.made = self.listed[self.made:], 0


def records_of(*texts: str) -> list[Record]:
    """The records of a log whose actors have the model's numbers."""
    made, actors = [port_log.record_of(f"a.log:{at}", text, LABELS) for at, text in enumerate(texts, 1)], Actors()
    for record in made:
        record.actor = actors.number(record.name.encode())
    return made


def compared(*texts: str, replay: Replay | None = None) -> Comparison:
    """A comparison of these records, at its begin."""
    return Comparison(replay or Told(), Listed(records_of(*texts)))


def with_record(at: int, text: str) -> list[str]:
    """The log with this record in the place of one, which is its last one then."""
    return [*LOG[:at], text]


@contextlib.contextmanager
def source(*logs: bytes) -> Iterator[Source]:
    """The records of these logs."""
    with tempfile.TemporaryDirectory() as folder:
        names = [str(Path(folder) / f"{at}.log") for at in range(len(logs))]
        for name, log in zip(names, logs):
            Path(name).write_bytes(log)
        with contextlib.closing(Source(names)) as made:
            yield made
