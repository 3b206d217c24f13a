"""Compares a port of the queue with the model: replays a log of the port's accesses by the program,
and names the first access where the two differ, with what is around it.

    python3 tools/conform.py LOG.. [--ring R | --trace TRACE] [--strict] [--reuse] [--cut] [--allow FILE]
        [--tries N] [--go-on] [-o DIR] [--program P]

The form of a log is in docs/MANUAL.md under PORTS; `-` is standard input. The logs are merged by
their stamps as they come, and a record that agrees is forgotten. Over a fresh world with rings of R cells,
4 if left out, or over a trace, each record is made as a step, and what it says is compared with the replies:
the control point, the place, the access, the answer, the reply of the call, and words of the actor. What a
record leaves out is not compared. A run may be longer than the most live steps: it is frozen then, and goes on.

Where stamps overlap, all is read first, and an order is looked for in which all agree. The last line says whether
there is one, or whether the search ended because it failed --tries times without getting further; it is the order
that came furthest then whose difference is told.

A log that has records of E10 has all of them; of one that has none, the choices follow from what comes
after, unless --strict asks for them. A segment whose memory is used again while an actor, an end or a next
still has it differs, unless --reuse permits it. Where a log is cut is said at the end.

Differences that are meant are lines `LABEL WHAT: WHY` of --allow FILE: the model follows the port there, and the
last line counts how often. WHAT is `reuses its own unlinked ring` at E12, `reads the whole cell` at E5 or Q3, or
what the report says after `the port`, such as `is at E8`; the last is followed in no search for an order.

The status is 0 if all agree, in one line; 1 if something differs, and then the first difference is
told, and for a log that is cut, unless --cut permits it; 2 if a log can't be read, with the record, and
for any other fault, Control-C and a pipe that nobody reads. With -o the folder DIR gets
a script to there, the start before it, a picture and a page, and the order that was found as a log. With
--go-on the port's side is taken at each difference, and all are listed, by label and kind. At the end
come values that were put and never taken, taken more often than put, or never put, and calls that
never ended.
"""

import argparse
import collections
import contextlib
import functools
import os
import sys
import tempfile
import time
import traceback
from collections.abc import Callable, Iterator
from pathlib import Path

from lcrq_tools import options
from lcrq_tools.faults import FAULTS, Fault, Parser, say, text_of
from lcrq_tools.port.port_allow import Allowed, read_allowed
from lcrq_tools.port.port_compare import Comparison, Difference, Follow, Listed, never
from lcrq_tools.port.port_ledger import first_of
from lcrq_tools.port.port_log import Record
from lcrq_tools.port.port_orders import Found
from lcrq_tools.port.port_replay import Replay
from lcrq_tools.port.port_report import About, emptied
from lcrq_tools.port.port_rings import guesses
from lcrq_tools.port.port_side import Side
from lcrq_tools.port.port_stream import HasChoices, OutOfOrder, Raw, Source
from lcrq_tools.port.port_tried import found_order, lines_of
from lcrq_tools.program import counted

MOST_AT_ONE = 4  # differences of one record whose side is taken
SECONDS = 0.2  # between two lines of progress
TRIES = 100_000  # that fail, before a search for an order ends that comes no further


# ---- The command line ----------------------------------------------------------------------------


def parser() -> argparse.ArgumentParser:
    """The command line."""
    command = Parser(__doc__, "port/unsafe-ignored.log --ring 2 -o difference")
    command.add_argument("logs", metavar="LOG", nargs="+", help="a log; - is standard input")
    options.add_ring(command)
    options.add_trace(command)
    command.add_argument("--strict", action="store_true", help="ask for a record of each choice at E10")
    reuse = "let memory be used again while an actor, an end or a next still has it"
    command.add_argument("--reuse", action="store_true", help=reuse)
    allow = "a file with differences that are meant"
    command.add_argument("--allow", metavar="FILE", help=allow)
    command.add_argument("--cut", action="store_true", help="let a log end in the middle of a record")
    command.add_argument("--go-on", action="store_true", help="take the port's side at each difference, and list all")
    tries = f"how often a search for an order fails before it ends, without getting further: {TRIES:,} if left out"
    command.add_argument("--tries", metavar="N", type=options.number_above_0, default=TRIES, help=tries)
    files = "the folder for the files about the first difference"
    command.add_argument("-o", dest="output", metavar="DIR", type=Path, help=files)
    options.add_program(command)
    return command


def options_of(given: argparse.Namespace, ring: int | None = None) -> list[str]:
    """The words after the program's name, with these rings in place of those of the command line. Nobody knows
    yet how many actors the logs have."""
    return options.start_words(given.trace, None if given.trace else options.MOST_ACTORS, ring or given.ring)


class Progress:
    """A line on a terminal that says how far the comparison is."""

    def __init__(self, far: Callable[[], float] = lambda: 0.0):
        self.far, self.said, self.is_shown = far, 0.0, sys.stderr.isatty()

    def __call__(self, number: int) -> None:
        now = time.monotonic()
        if self.is_shown and now - self.said > SECONDS:
            self.said, far = now, self.far()
            part = f", {far:.0%} of the logs" if far else ""
            print(f"\r{number:,} records{part}", end="", file=sys.stderr, flush=True)

    def end(self) -> None:
        """Takes the line away."""
        if self.is_shown:
            print("\r\033[K", end="", file=sys.stderr, flush=True)


# ---- The comparison ------------------------------------------------------------------------------


def summary(comparison: Comparison) -> str:
    """How much was compared."""
    counts = [f"{count:,} {kind}" for kind, count in comparison.compared.items()]
    chosen = ""
    if comparison.chosen and comparison.has_choices:
        chosen = f"; {comparison.chosen:,} of the choices at E10 follow from what comes after"
    elif comparison.chosen:
        count = counted(comparison.chosen, "choice")
        chosen = f"; nothing checked the decision to starve: no record has E10, so {count} there followed from the next"
    made = f"{comparison.replay.count():,} steps, {comparison.accesses:,} accesses"
    return f"{made} over rings of {comparison.replay.ring}: {', '.join(counts)} compared{chosen}"


def go_on(comparison: Comparison, found: Difference, progress: Progress) -> tuple[list[tuple[str, str, str]], str]:
    """All differences to the end of the log, the first being known: of each the label with the kind, the
    headline and what was changed; and why it stopped before the end, or nothing."""
    differences: list[tuple[str, str, str]] = []
    seen: collections.Counter[int] = collections.Counter()
    following: Difference | None = found
    while following:
        headline = About(comparison, following).headline()
        seen[following.index] += 1
        changed = Side(comparison, following).take() if seen[following.index] <= MOST_AT_ONE else ""
        differences.append((f"{following.kind} at {following.label()}", headline, changed))
        if not changed:
            return differences, "no change of one place or actor takes the port's side here: the rest is not compared"
        following = comparison.difference(progress)
    return differences, ""


def grouped(differences: list[tuple[str, str, str]]) -> Iterator[str]:
    """The differences by label and kind, the first of each in full."""
    groups: dict[str, list[tuple[str, str]]] = {}
    for name, headline, changed in differences:
        groups.setdefault(name, []).append((headline, changed))
    yield f"{counted(len(differences), 'difference')} to the end of the log:"
    for name, rows in groups.items():
        steps = [headline.partition(":")[0].removeprefix("step ") for headline, _ in rows]
        yield f"  {name}: {len(rows)}, at step {first_of(steps)}"
        yield f"    the first: {rows[0][0]}"
        yield f"    changed: {rows[0][1] or 'nothing'}"


def first_difference(comparison: Comparison, progress: Progress) -> Difference | None:
    """The first difference. Control-C ends the search, and it is said how far it was."""
    try:
        return comparison.difference(progress)
    except KeyboardInterrupt as fault:
        raise Fault(f"interrupted: {comparison.next:,} records agree so far") from fault
    finally:
        progress.end()


def compare(given: argparse.Namespace, folder: Path) -> int:
    """Compares the logs; returns the exit status. Where it comes out late that they have to be sorted, that their
    order is to be found, or that they have choices, it begins again."""
    asks, allowed = given.strict, read_allowed(given.allow)
    if given.output:
        emptied(given.output)
    with contextlib.closing(Source(given.logs)) as source:
        while True:
            try:
                return compare_over(given, folder, source, asks, allowed)
            except (OutOfOrder, HasChoices) as fault:
                asks = asks or isinstance(fault, HasChoices)
                source.again(fault)


def compare_over(given: argparse.Namespace, folder: Path, source: Source, asks: bool, allowed: Allowed) -> int:
    """Compares the records of logs over a world; returns the exit status."""
    source.put(source.some(1))
    if not source.put_back:
        raise source.no_record()
    with contextlib.closing(Replay(given.program, folder, options_of(given))) as replay:
        source.actors.limit = len(replay.states)
        found = order_of(given, folder, source, allowed) if source.is_open else None
        records: Source | Listed = Listed(found.records, source.actors) if found else source
        comparison = compared(given, replay, records, asks, allowed.follow)
        is_different = compare_records(given, comparison, Progress(source.far))
    if source.cuts:
        print(f"the log is cut: {first_of(source.cuts)}")
    order = lines_of(found, given.tries, given.output) if found else ()
    allowed.used = comparison.followed
    sys.stdout.writelines(f"{line}\n" for line in (*order, *allowed.lines()))
    sys.stdout.flush()
    return 1 if is_different or source.cuts and not given.cut else 0


def compared(
    given: argparse.Namespace, replay: Replay, records: Source | Listed, asks: bool, follow: Follow
) -> Comparison:
    """A comparison of these records, at its begin."""
    return Comparison(replay, records, asks_choices=asks, permits_reuse=given.reuse, follow=follow)


def order_of(given: argparse.Namespace, folder: Path, source: Source, allowed: Allowed) -> Found:
    """The order in which the records are compared, where their stamps leave it open."""
    progress, records = Progress(), Listed(source.whole())
    with contextlib.closing(Replay(given.program, folder, options_of(given))) as replay:
        follow = allowed.by_steps if allowed.meant else never
        found = found_order(compared(given, replay, records, given.strict, follow), given.tries, progress)
    progress.end()
    return found


def compare_records(given: argparse.Namespace, comparison: Comparison, progress: Progress) -> bool:
    """Compares the records, and prints what comes of it; returns whether they differ."""
    found = first_difference(comparison, progress)
    if found:
        comparison.source.check_rest(has_choices=comparison.asks_choices)
    named = say_names(comparison, [])
    for line in report_of(given, comparison, found) if found else [f"agrees: {summary(comparison)}"]:
        print(line, flush=True)
    if found and given.go_on:
        differences, stopped = go_on(comparison, found, progress)
        progress.end()
        print("\n".join(filter(None, [*grouped(differences), stopped, summary(comparison)])))
    comparison.finish()
    sys.stdout.writelines(f"{line}\n" for line in ends(comparison))
    say_names(comparison, named)
    return bool(found)


def say_names(comparison: Comparison, known: list[str]) -> list[str]:
    """Says which actors the names of the logs are, if that is not what is known; returns it."""
    named = comparison.source.actors.named()
    if named != known:
        say(f"the actors of the logs: {', '.join(named)}")
    return named


def ends(comparison: Comparison) -> Iterator[str]:
    """What is to be said of the values and the calls: nothing where the log has no replies and was not compared
    to its end."""
    ledger = comparison.ledger
    if not comparison.is_over and not ledger.has_replies:
        return
    yield from ledger.lines()
    for actor, call in sorted(ledger.running.items()):
        yield f"never ended: `{call}` of actor {actor}; its last record is `{text_in(comparison.last[actor])}`"


def text_in(record: Record | Raw) -> str:
    """The text of a record."""
    return record.text if isinstance(record, Record) else record[2].decode("utf-8", "replace")


def report_of(given: argparse.Namespace, comparison: Comparison, found: Difference) -> Iterator[str]:
    """What is said of the first difference."""
    about = About(comparison, found)
    yield from about.text()
    yield f"  before it {summary(comparison)}"
    if not given.trace:
        yield from (f"  {line}" for line in guesses(comparison, found, functools.partial(opened_with, given)))
    yield from (f"  {line}" for line in about.write(given.output)) if given.output else ()


def opened_with(given: argparse.Namespace, ring: int, folder: Path) -> Replay:
    """A fresh world with rings of so many cells."""
    return Replay(given.program, folder, options_of(given, ring))


def leave_output() -> None:
    """Lets what is still to be written go nowhere, where nobody reads it."""
    with contextlib.suppress(OSError, ValueError):
        os.dup2(os.open(os.devnull, os.O_WRONLY), sys.stdout.fileno())


def main(words: list[str] | None = None) -> int:
    """Compares the logs of a command line. Its status is 1 where they differ or are cut, and so 2 for a fault,
    whatever it is."""
    try:
        given = parser().parse_args(words)
    except FAULTS as fault:
        raise Fault(text_of(fault), 2) from fault
    return status_with(given)


def status_with(given: argparse.Namespace) -> int:
    """The exit status with these options."""
    try:
        with tempfile.TemporaryDirectory() as folder:
            return compare(given, Path(folder))
    except KeyboardInterrupt as fault:
        raise Fault("interrupted", 2) from fault
    except BrokenPipeError as fault:
        leave_output()
        raise Fault("nobody reads what is said here: the pipe is closed", 2) from fault
    except FAULTS as fault:
        raise Fault(text_of(fault), 2) from fault
    except Exception as fault:
        traceback.print_exc()
        raise Fault("this is a fault of the tool itself", 2) from fault
