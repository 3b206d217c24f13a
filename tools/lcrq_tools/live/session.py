"""Runs what a live page shows, for `room.py`: the desk, the mirror and the file in which the run is kept.

Lines of several viewers are asked at the desk at once. The numbers of the replies give their order, in which they are
kept and followed by the mirror, and only then is a reply given on. The mirror has to reply as the desk did: if it
doesn't, or if the program ends, the run is over, and is never drawn wrong. What is kept goes on in another run.
"""

import contextlib
import json
import tempfile
import threading
from collections.abc import Callable, Sequence
from dataclasses import dataclass
from pathlib import Path
from typing import Any, NamedTuple, Protocol

from lcrq_tools.faults import FAULTS, Fault
from lcrq_tools.live.desk import Desk
from lcrq_tools.live.folded import Change, Moment, folded, moments_of
from lcrq_tools.live.kept import Keep, Kept, Note, call_line, name_line, note_line
from lcrq_tools.options import start_words
from lcrq_tools.speak import forms
from lcrq_tools.speak.teller import NO_COMMAND, numbers_words

LISTED = 200  # steps around the border, if nothing else is asked
AROUND = 100  # moments on each side of a past one
SECONDS = 30.0  # that a line waits for the next one of those before it
TOOK_BACK = ("undo", "back")  # the first words of lines that take back the last steps
LINE_TOO_LONG = "refused 23 LineTooLong"
BAD_LINE = "refused 22 BadLine"


class Mirror(Protocol):
    """What follows a run line by line, and knows what is drawn."""

    def obey(self, line: str, viewer: int = 0) -> str:
        """Follows a line of a viewer; returns the reply."""

    def replies(self) -> Sequence[str]:
        """The replies to all lines so far."""

    def run(self) -> dict[str, Any]:
        """The run as a page has it."""

    def change(self) -> dict[str, object] | None:
        """What the last line changed; nothing, if the page has to fetch the run anew."""

    def close(self) -> None:
        """Ends the program's runs."""


Run = dict[str, Any]  # as a page has it
More = Callable[[Run], dict[str, object]]  # what holds with a run at the same time

class MirrorOf(Protocol):
    """What begins to follow a run."""

    def __call__(
        self, words: Sequence[str], lines: Sequence[str], viewers: Sequence[int], followed: int = ..., listed: int = ...
    ) -> Mirror:
        """What follows a run of these words, which has lines of viewers; the moments of so many last ones are known, and
        so many steps are listed around the border."""


Publish = Callable[[dict[str, object]], None]  # hands an event to all who look


class Call(NamedTuple):
    """A line of the run."""

    viewer: int  # 0 of a line that was opened
    line: str
    reply: str


@dataclass(frozen=True)
class Answer:
    """What whoever asked a line gets."""

    call: int | None  # the line's number in the run, if it is one
    reply: str
    expected: str = ""  # what should stand in the place of a line that is no command
    took: str = ""  # which steps of another viewer it took back, in words

    def fields(self) -> dict[str, object]:
        """The answer as the page gets it."""
        named = {"expected": self.expected, "took": self.took}
        return {"call": self.call, "reply": self.reply} | {name: text for name, text in named.items() if text}


class Over(Fault):
    """The run is over."""


def letters_of(line: str) -> str:
    """A line whose letters are its bytes."""
    return line.encode("utf-8", "replace").decode("latin-1")


def said_of(fault: Exception) -> str:
    """What a page is told of a fault: no path is in it."""
    if isinstance(fault, Fault):
        return str(fault)
    return f"{type(fault).__name__}: {(fault.strerror if isinstance(fault, OSError) else str(fault)) or ''}"


def taken_by(before: Moment, after: Moment, above: int, rows: dict[str, Any]) -> dict[int, int]:
    """The steps that were last live and aren't now, by their numbers: the viewer of each, as far as it is known."""
    listed = before["rows"][: before["live"] - above]
    gone = range(max(after["live"], above), before["live"])
    return {place + 1: rows.get(str(listed[place - above]), {}).get("viewer", 0) for place in gone}


class LiveRun:
    """A run that is asked by its viewers."""

    def __init__(self, program: str, kept: Kept, people: int, mirror_of: MirrorOf, publish: Publish) -> None:
        self.program, self.mirror_of, self.publish = program, mirror_of, publish
        self.turn = threading.Condition()  # held by whoever puts a line into the run
        self.why = ""  # the run is over, if it isn't empty
        self.keep: Keep | None = None
        self.trace = ""  # the file of the trace over which the run began
        with contextlib.ExitStack() as held:
            self.folder = held.enter_context(tempfile.TemporaryDirectory(prefix="lcrq-live-"))
            if kept.trace:
                self.trace = str(Path(self.folder, "start.trace"))
                Path(self.trace).write_text(kept.trace, encoding="latin-1")
            self.words = [program, *start_words(self.trace or None, kept.actors, kept.ring)]
            start = ["--start", self.trace] if self.trace else kept.options()
            self.desk = held.enter_context(Desk(program, start, people, kept.lines))
            self.mirror = mirror_of(self.words, kept.lines, kept.viewers)  # which follows while the desk replies
            held.callback(lambda: self.mirror.close())
            self.begin(kept)
            self.held = held.pop_all()

    def begin(self, kept: Kept) -> None:
        """Takes the lines that are there already. One that is no call isn't in the run."""
        replies = self.desk.replies()
        places = [place for place, (number, _) in enumerate(replies) if number is not None]
        self.left_out = len(replies) - len(places)
        if self.left_out and not places:
            raise Fault(f"no line is a command: {forms.expected(kept.lines[0])}")
        self.kept = kept.only(places) if self.left_out else kept
        rows = zip(self.kept.viewers, self.kept.lines, (replies[place][1] for place in places))
        self.calls = [Call(*row) for row in rows]
        self.notes = [*self.kept.notes]
        if self.left_out:
            self.mirror.close()
            self.mirror = self.mirror_of(self.words, self.kept.lines, self.kept.viewers)
        for line, (call, said) in enumerate(zip(self.calls, self.mirror.replies()), 1):
            if said != call.reply:
                raise Fault(f"line {line} is answered {call.reply}, and {said} by the mirror")
        self.see_all()

    def see_all(self) -> None:
        """Takes the whole run from the mirror."""
        run: Run = self.mirror.run()
        self.seen = run  # as long as no other line is asked
        self.above, self.rows = run["above"], {**run["rows"]}
        self.moment = moments_of(run)[-1]

    # ---- Lines

    def ask(self, viewer: int, line: str, name_of: Callable[[int], str] = str) -> Answer:
        """Asks a line of a viewer; it is kept before its reply is returned."""
        self.check()
        if len(line.encode("utf-8", "replace")) > forms.MOST_BYTES:
            return Answer(None, LINE_TOO_LONG, forms.expected("x" * (forms.MOST_BYTES + 1)))
        if "\n" in line:
            return Answer(None, BAD_LINE, "one line at a time")
        letters = letters_of(line)
        try:
            number, reply = self.desk.ask(viewer, letters)
        except FAULTS as fault:
            self.stop(f"the program replies no more: {said_of(fault)}")
            raise Over(self.why) from fault
        if number is None:
            is_no_command = reply.split(" ")[-1] in NO_COMMAND
            return Answer(None, reply, forms.expected(line) if is_no_command else "")
        with self.turn:
            self.await_turn(number)
            took = self.put(Call(viewer, letters, reply), name_of)
            self.turn.notify_all()
        return Answer(number, reply, took=took)

    def await_turn(self, number: int) -> None:
        """Waits until all calls before this one are in the run, as long as others come."""
        while number > (known := len(self.calls)) + 1 and not self.why:
            if not self.turn.wait(SECONDS) and len(self.calls) == known:
                self.stop("a line was asked and never answered")
        self.check()

    def put(self, call: Call, name_of: Callable[[int], str]) -> str:
        """Keeps a call, follows it, and tells all who look; returns which steps of another viewer it took back."""
        try:
            if self.keep:
                self.keep.add(call_line(call.viewer, call.line))
            self.calls.append(call)
            self.seen = {}
            said = self.mirror.obey(call.line, call.viewer)
            if said != call.reply:
                raise Fault(f"line {len(self.calls)}, {call.line}, is answered {call.reply}, and {said} by the mirror")
            return self.follow(call, self.mirror.change(), name_of)
        except Exception as fault:  # whatever it is: nothing is drawn any more
            self.stop(said_of(fault))
            raise Over(self.why) from fault

    def follow(self, call: Call, change: Change | None, name_of: Callable[[int], str]) -> str:
        """Tells all who look what a call changed; returns which steps of another viewer it took back, in words."""
        before, rows, above = self.moment, self.rows, self.above
        if change is None:
            self.see_all()
            self.publish({"fresh": len(self.calls)})
        else:
            self.moment = folded(before, change["moment"])
            self.rows |= change["rows"]
            self.publish({"change": change, "line": len(self.calls)})
        word, _, rest = call.line.partition(" ")
        if word not in TOOK_BACK or word == "undo" and rest or not call.reply.startswith("at "):
            return ""
        taken = taken_by(before, self.moment, above, rows)
        others = dict.fromkeys(viewer for viewer in taken.values() if viewer not in (0, call.viewer))
        return "; ".join(self.took_words(taken, viewer, name_of(viewer)) for viewer in others)

    def took_words(self, taken: dict[int, int], viewer: int, name: str) -> str:
        """Which of these steps are a viewer's, in words."""
        numbers = [number for number, asker in taken.items() if asker == viewer]
        return f"{'steps' if len(numbers) > 1 else 'step'} {numbers_words(numbers)} of {name}"

    # ---- What is kept beside lines

    def note(self, text: str) -> None:
        """Keeps a note behind the last line."""
        with self.turn:
            self.check()
            self.notes.append(Note(len(self.calls), text))
            self.add(note_line(text))

    def note_rows(self) -> list[tuple[int, str]]:
        """The notes, each with how many lines stand before it."""
        return [(note.calls, note.text) for note in self.notes]

    def name(self, viewer: int, name: str) -> None:
        """Keeps what a viewer is called."""
        with self.turn:
            if not self.why:
                self.add(name_line(viewer, name))

    def add(self, line: str) -> None:
        """Appends a line to the file."""
        if self.keep:
            self.keep.add(line)

    def kept_now(self, names: dict[int, str]) -> Kept:
        """The run as it is kept now."""
        with self.turn:
            lines, viewers = [call.line for call in self.calls], [call.viewer for call in self.calls]
            kept, notes = self.kept, tuple(self.notes)
        return Kept(kept.title, kept.actors, kept.ring, kept.trace, lines, viewers, kept.people, names, notes)

    # ---- What is drawn

    def whole(self, more: More) -> bytes:
        """The run as the page fetches it, with more that holds at the same time, as JSON."""
        with self.turn:
            self.check()
            self.seen = self.seen or self.mirror.run()
            return self.encoded(self.seen, len(self.calls), more)

    def encoded(self, run: Run, line: int, more: More) -> bytes:
        """A run up to this line, with more, as JSON."""
        fields = run | {"line": line, "title": self.kept.title} | more(run)
        return json.dumps(fields, separators=(",", ":")).encode()

    def past(self, line: int, more: More, listed: int = LISTED) -> bytes:
        """The run with the moments around a line, and so many steps around the border, as JSON."""
        with self.turn:
            calls = self.calls[: line + AROUND]
        run = self.around(line, calls, listed)
        while run is None:  # the moments begin anew behind the line
            calls = calls[: max(line, (line + len(calls)) // 2)]
            run = self.around(line, calls, listed)
        return self.encoded(run, len(calls), more)

    def around(self, line: int, calls: Sequence[Call], listed: int) -> Run | None:
        """The run of these calls from some moments before a line on; nothing, if its moments begin behind that line."""
        first = max(0, line - AROUND)
        lines, viewers = [call.line for call in calls], [call.viewer for call in calls]
        mirror = self.mirror_of(self.words, lines[:first], viewers[:first], 0, listed)
        try:
            for call in calls[first:]:
                mirror.obey(call.line, call.viewer)
            run = mirror.run()
            return run if run["first"] <= line else None
        finally:
            mirror.close()

    def rows_of(self, first: int, last: int) -> bytes:
        """These lines of the run, counted from 1, each with its viewer and its reply, as JSON."""
        with self.turn:
            calls = self.calls[max(0, first - 1):last]
        return json.dumps(calls, separators=(",", ":")).encode()

    # ---- The end

    def check(self) -> None:
        """Raises a fault if the run is over."""
        if self.why:
            raise Over(self.why)

    def stop(self, why: str) -> None:
        """Ends the run for this reason, and tells all who look."""
        with self.turn:
            if not self.why:
                self.why = why
                self.publish({"ended": why})
            self.turn.notify_all()

    def end(self, why: str) -> None:
        """Ends the run well: what the program has as its history is what is kept."""
        with self.turn:
            is_on, self.why = not self.why, self.why or why
            self.turn.notify_all()
        try:
            if is_on:
                self.compare(self.desk.end()[1:])
        finally:
            self.close()

    def compare(self, lines: Sequence[str]) -> None:
        """Compares the program's history with the calls. A line that wasn't answered in time may be there too."""
        opened = len(self.kept.lines)
        asked = [line.partition(" ")[2] if place < opened else line for place, line in enumerate(lines)]
        kept = [call.line if place < opened else call_line(*call[:2]) for place, call in enumerate(self.calls)]
        if asked[: len(kept)] != kept:
            raise Fault("the program's history isn't the run that is kept")

    def close(self) -> None:
        """Ends the processes, and closes the file."""
        self.held.close()
        if self.keep:
            self.keep.close()
