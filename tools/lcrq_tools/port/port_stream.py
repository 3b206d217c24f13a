"""Reads the logs of a port for `conform.py` as they come: merges them by their stamps, a piece at a time, and keeps
no record that was taken.

A record is raw here: its first stamp, where it is, and its line as bytes. `port_log.py` has the grammar of a line.
Stamps of a log that go down raise `OutOfOrder`, and such of two actors that meet `Open`; after `again`, all of the
logs is read first.
"""

import bisect
import contextlib
import copy
import itertools
import operator
import os
import re
import select
import stat
import sys
from collections.abc import Iterator, Sequence
from dataclasses import dataclass
from typing import IO

from lcrq_tools.faults import Fault
from lcrq_tools.options import MOST_ACTORS
from lcrq_tools.port.port_log import Record, Unreadable, label_names, record_of, shown

Raw = tuple[int, int, bytes]  # a record: its first stamp, the number of its file and line, and its line
LINES = 1 << 40  # more than a file has
PIECE = 1 << 17  # bytes that are read at a time
MOST = 1 << 14  # records that are looked at, at a time
AGAIN = 1 << 20  # bytes of a pipe that can be read again
EARLY = 10_000  # records from the first on that are kept

STAMPS = re.compile(rb"^[0-9]{1,30}(?= )", re.MULTILINE)
PAIRS = re.compile(rb"^([0-9]{1,30})-([0-9]{1,30})(?= )", re.MULTILINE)
USUAL = bytes([*range(0x20, 0x7F), 10])  # bytes
ENDS = (b" ", b";")  # of a line that is looked at by itself
CHOICE = re.compile(rb"^\S+\s+\S+\s+(?:E10|starve)\s", re.MULTILINE)
STAMP = operator.itemgetter(0)


class OutOfOrder(Fault):
    """A log whose stamps go down."""


class Open(OutOfOrder):
    """Logs in which stamps of two actors meet, so that the order of their records has to be found."""


class HasChoices(Fault):
    """A log that has a choice at E10, and left one out before."""


def end_of(raw: Raw) -> int:
    """The second stamp of a record, or the only one; -1 of none."""
    if not raw[2]:
        return -1
    before, _, after = raw[2].split(None, 1)[0].decode("utf-8").partition("-")
    return int(after or before)


# ---- One log -------------------------------------------------------------------------------------


class Log:
    """A log that is read a piece at a time; `-` is standard input."""

    def __init__(self, name: str, number: int, cuts: list[str]):
        self.where, self.number, self.cuts = "standard input" if name == "-" else name, number, cuts
        self.file: IO[bytes] = sys.stdin.buffer if name == "-" else open(name, "rb", buffering=0)
        about = os.fstat(self.file.fileno())
        self.is_file, self.size = name != "-" and stat.S_ISREG(about.st_mode), about.st_size
        self.begun: list[bytes] = []  # the first pieces of a pipe
        self.pieces: Iterator[bytes] = iter(())  # that are read again
        self.is_sorted = True  # so stamps that go down are a fault
        self.has_two = False  # whether records with two stamps were read
        self.is_held = True  # whether all that was read can be read again
        self.begin()

    def begin(self) -> None:
        """Stands before its first piece."""
        self.order = self.number * LINES  # of the last line
        self.rest = b""  # the begin of a line
        self.ready: list[Raw] = []  # records that are read and not taken
        self.last = -1  # the last stamp
        self.read_bytes, self.is_over = 0, False

    def again(self, why: Fault) -> None:
        """Begins again."""
        if self.is_file:
            self.file.seek(0)
        elif not self.is_held or self.read_bytes > AGAIN and not self.has_two:
            raise Unreadable(f"{why}: no pipe is read twice, so compare it as a file") from why
        self.pieces = iter([*self.begun])
        self.begin()

    def has_more(self) -> bool:
        """Whether it can be read without waiting."""
        return self.is_file or bool(select.select([self.file], [], [], 0)[0])

    def ahead(self) -> "Log":
        """The log from here on, to look at; of a pipe only what is read, which is all if it has two stamps."""
        while self.has_two and not self.is_file and not self.is_over:
            self.fill()
        other = copy.copy(self)
        other.ready, other.cuts, other.is_over = [*self.ready], [], self.is_over or not self.is_file
        return other

    def piece(self) -> bytes:
        """Its next piece. Of a pipe with two stamps all is held, since they may meet."""
        piece = next(self.pieces, b"")
        if not piece:
            piece = os.read(self.file.fileno(), PIECE)
            self.is_held = self.is_held and (self.has_two or self.read_bytes <= AGAIN)
            self.begun += [piece] * (not self.is_file and self.is_held)
        self.read_bytes += len(piece)
        return piece

    def fill(self) -> None:
        """Reads its next piece."""
        piece = self.piece()
        self.is_over = not piece
        whole, feed, self.rest = (self.rest + piece).rpartition(b"\n")
        if feed:
            self.add((whole + feed).replace(b"\r\n", feed)[:-1] if b"\r" in whole else whole)
        if self.is_over and self.rest.strip() and not self.rest.lstrip().startswith(b"#"):
            self.add_last(self.rest)

    def add_last(self, rest: bytes) -> None:
        """Adds what is behind the last line feed, which may be half a record."""
        if rest.endswith(b"\r"):
            self.add(rest)
        else:
            self.cuts.append(f"{self.place(self.order + 1)} has no line feed and is not compared")

    def place(self, order: int) -> str:
        """Where a line is."""
        return f"{self.where}:{order % LINES}"

    def add(self, whole: bytes) -> None:
        """Adds the records of whole lines."""
        lines, first = whole.split(b"\n"), self.order + 1
        self.order += len(lines)
        stamps = self.stamps(whole, len(lines))
        raws = [*(zip(stamps, itertools.count(first), lines) if stamps else self.one_by_one(lines, first))]
        order = [self.last, *map(STAMP, raws)]
        if self.is_sorted and not all(map(operator.le, order, order[1:])):
            raise OutOfOrder(f"{self.where}: its stamps go down behind line {first % LINES}")  # and are sorted
        self.last = order[-1]
        self.ready += raws

    def stamps(self, whole: bytes, count: int) -> list[int]:
        """The first stamps of so many whole lines; none if one of these is unusual."""
        if whole.translate(None, USUAL) or whole.endswith(ENDS) or any(end + b"\n" in whole for end in ENDS):
            return []
        stamps = [*map(int, STAMPS.findall(whole))]
        if len(stamps) == count:
            return stamps
        pairs = [(int(before), int(after)) for before, after in PAIRS.findall(whole)]
        if len(pairs) < count or any(after < before for before, after in pairs):
            return []
        self.has_two = True
        return [before for before, _ in pairs]

    def one_by_one(self, lines: Sequence[bytes], first: int) -> Iterator[Raw]:
        """The records of lines, of which some are unusual."""
        for order, line in enumerate(lines, first):
            text = line.decode("utf-8", "replace").strip()
            if not text or text.startswith("#"):
                continue
            if text.endswith(";"):
                self.cuts.append(f"{self.place(order)} ends behind a `;`")
            with shown(self.place(order), text):
                record = record_of(self.place(order), text, label_names())
            self.has_two |= record.after > record.stamp
            yield record.stamp, order, text.encode()


# ---- All logs ------------------------------------------------------------------------------------


class Actors:
    """The model's numbers of the actors. A name that is such a number is this one, if no other name came before;
    all others are numbered as they come."""

    def __init__(self) -> None:
        self.numbers: dict[bytes, int] = {}
        self.are_numbers, self.limit = True, MOST_ACTORS

    def number(self, name: bytes) -> int:
        """The number of an actor."""
        if name not in self.numbers:
            self.add(name)
        return self.numbers[name]

    def add(self, name: bytes) -> None:
        """Numbers a new actor."""
        taken = {*self.numbers.values()}
        free = [number for number in range(1, MOST_ACTORS + 1) if number not in taken]
        own = [number for number in free if name == b"%d" % number] if self.are_numbers else []
        if not free:
            raise Unreadable(f"the logs have {len(taken) + 1} actors, and a world has {MOST_ACTORS} at most")
        self.are_numbers, number = bool(own), [*own, *free][0]
        if number > self.limit:
            raise Unreadable(f"the logs have an actor {number}, and the trace {self.limit} actors")
        self.numbers[name] = number

    def most(self) -> int:
        """The highest number."""
        return max(self.numbers.values(), default=1)

    def named(self) -> list[str]:
        """The names in the order of their numbers; none where they are the numbers."""
        rows = sorted((number, name.decode("utf-8", "replace")) for name, number in self.numbers.items())
        return [] if self.are_numbers else [f"{name} is {number}" for number, name in rows]


class Source:
    """The records of logs, in the order of their stamps."""

    def __init__(self, names: Sequence[str]):
        if names.count("-") > 1:
            raise Unreadable("standard input can be read once, and - is given twice")
        self.names, self.cuts = names, list[str]()  # where a log is cut, and what that is
        self.logs = [Log(name, number, self.cuts) for number, name in enumerate(names)]
        self.labels = label_names()
        self.all: list[Raw] = []  # all records, where they were sorted
        self.sorted: Iterator[Raw] | None = None  # those of them that come
        self.is_open = False  # whether the order of records whose stamps meet is to be found
        self.begin()

    def begin(self) -> None:
        """Stands before the first record."""
        self.early: list[Raw] = []  # the first ones
        self.put_back: list[Raw] = []  # which were taken, and are not compared
        self.taken: list[Raw] = []  # the last ones, with all their parts
        self.last: Raw = (-1, 0, b"")  # the one of those taken that ends last
        self.may_meet = self.is_open  # stamps of two actors
        self.actors = Actors()

    def again(self, why: Fault) -> None:
        """Begins again, and sorts all records if their stamps go down or meet."""
        self.is_open |= isinstance(why, Open)
        self.begin()
        is_sorted = not self.sorted and not isinstance(why, OutOfOrder)
        for log in self.logs if not self.all else ():
            log.is_sorted = is_sorted
            log.again(why)
        if not self.all:
            self.cuts.clear()
        self.sorted = None if is_sorted else self.all_sorted()

    def all_sorted(self) -> Iterator[Raw]:
        """All records, sorted."""
        for log in self.logs:
            while not log.is_over:
                log.fill()
        self.all = self.all or sorted(itertools.chain.from_iterable(log.ready for log in self.logs))
        for log in self.logs:
            log.ready = []
        self.check_stamps(self.all)
        yield from self.all

    def whole(self) -> list[Record]:
        """All records with all their parts."""
        raws: list[Raw] = []
        while more := self.some(MOST):
            raws += more
        return [*map(self.record, raws)]

    def close(self) -> None:
        """Closes the logs."""
        for log in self.logs:
            if log.file is not sys.stdin.buffer:
                log.file.close()

    def where(self, raw: Raw) -> str:
        """Where a record is."""
        return self.logs[raw[1] // LINES].place(raw[1])

    def record(self, raw: Raw) -> Record:
        """A record with all its parts."""
        where, text = self.where(raw), raw[2].decode("utf-8", "replace")
        with shown(where, text):
            record = record_of(where, text, self.labels)
        record.actor = self.actors.number(record.name.encode())
        return record

    def take(self, most: int) -> list[Record]:
        """The next records with all their parts."""
        self.taken = self.some(most)
        return [*map(self.record, self.taken)]

    def back(self, count: int) -> None:
        """Goes back by so many of the records that were taken last."""
        self.put(self.taken[len(self.taken) - count :])

    def no_record(self) -> Unreadable:
        """That the logs have none."""
        return Unreadable("; ".join([f"{' '.join(self.names)}: no record", *self.cuts]))

    def early_records(self, most: int) -> list[Record]:
        """The first records."""
        missing = most - len(self.early)
        while missing > 0 and len(self.early) < EARLY and (more := self.fresh(missing, waits=True)):
            self.put_back += more
            missing -= len(more)
        return [*map(self.record, self.early[:most])]

    # ---- Taking

    def some(self, most: int, *, waits: bool = True) -> list[Raw]:
        """The next records; none at the end, or where it would have to wait and may not."""
        if self.put_back:
            taken, self.put_back = self.put_back[:most], self.put_back[most:]
            return taken
        return self.fresh(most, waits=waits)

    def fresh(self, most: int, *, waits: bool) -> list[Raw]:
        """The next records of those that were never taken."""
        if self.sorted:
            taken = [*itertools.islice(self.sorted, most)]
        while not self.sorted and not (taken := self.merged(most)):
            log = min(self.logs, key=lambda log: (log.is_over, bool(log.ready), log.last))
            if log.is_over or not waits and not log.has_more():
                return []
            log.fill()
        if not self.sorted:
            self.check_stamps(taken)
        self.early += taken[: EARLY - len(self.early)]
        return taken

    def merged(self, most: int) -> list[Raw]:
        """The next records of those that are read, as far as no log can have one before them."""
        ends = [log.ready[-1][0] if log.ready else -1 for log in self.logs if not log.is_over]
        parts = [log.ready for log in self.logs]
        if len(self.logs) > 1 and ends:
            parts = [ready[: bisect.bisect_left(ready, (min(ends) + 1,))] for ready in parts]
        taken = (sorted(itertools.chain(*parts)) if len(self.logs) > 1 else parts[0])[:most]
        for log in self.logs if taken else ():
            log.ready = log.ready[bisect.bisect_right(log.ready, taken[-1]) :]
        return taken

    def put(self, raws: list[Raw]) -> None:
        """Puts records back, which come next then."""
        self.put_back = raws + self.put_back

    def check_stamps(self, raws: list[Raw]) -> None:
        """That no stamps of two actors meet, unless they may."""
        has_two = any(log.has_two for log in self.logs)
        if self.may_meet or not has_two and len({self.last[0], *map(STAMP, raws)}) > len(raws):
            self.last = raws[-1] if raws else self.last
            return
        for raw in raws:
            if raw[0] <= end_of(self.last) and raw[2].split()[1] != self.last[2].split()[1]:
                raise Open(f"{self.where(raw)}: its stamp meets that of {self.where(self.last)}, by another actor")
            self.last = max(self.last, raw, key=end_of)

    def check_rest(self, *, has_choices: bool) -> None:
        """That nothing in the rest of the logs makes them begin again: stamps that go down or meet, and choices, unless
        they have choices. Of a pipe, only what is read is looked at; what comes then may meet."""
        rest = copy.copy(self)
        rest.logs, rest.early = [log.ahead() for log in self.logs], []
        rest.sorted = iter(self.all) if self.sorted else None
        with contextlib.suppress(Unreadable):  # it is compared up to there
            while raws := rest.some(MOST):
                if not has_choices and CHOICE.search(b"\n".join(raw[2] for raw in raws)):
                    raise HasChoices("the log has records of E10, and left one out before")
        for log in self.logs:
            if log.is_file:
                log.file.seek(log.read_bytes)
        self.may_meet = True

    def far(self) -> float:
        """Which part of the logs is read; 0 where it isn't known."""
        if not all(log.is_file for log in self.logs):
            return 0.0
        return sum(log.read_bytes for log in self.logs) / max(1, sum(log.size for log in self.logs))


# ---- All at once ---------------------------------------------------------------------------------


@dataclass(frozen=True)
class Logs:
    """What all logs of a command line have."""

    records: list[Record]  # in the order of their stamps
    named: list[str]  # which actor each name is; none where the names are the numbers
    cuts: list[str]  # where a log is cut, and what that is


def read_logs(names: Sequence[str]) -> Logs:
    """What all logs have, which need not be in the order of their stamps."""
    with contextlib.closing(Source(names)) as source:
        source.again(Open("all is read at once"))
        records = source.whole()
        if not records:
            raise source.no_record()
        return Logs(records, source.actors.named(), source.cuts)
