"""Has what a live page shows: the run that is on, the people, and the streams of their tabs, for `server.py`.

Another run may be opened in its place; the file of the one before stays. Whatever is asked here may come from
several threads at once.
"""

import re
import threading
from collections.abc import Sequence
from dataclasses import replace
from pathlib import Path
from typing import NamedTuple

from lcrq_tools.faults import Fault
from lcrq_tools.live.kept import MOST_NOTE, Keep, Kept, free_path
from lcrq_tools.live.opened import opened_text
from lcrq_tools.live.people import People, tidied
from lcrq_tools.live.session import Answer, LiveRun, MirrorOf, Run, letters_of
from lcrq_tools.live.streams import Event, Stream, Streams
from lcrq_tools.speak import completion

TAB = re.compile("[A-Za-z0-9-]{8,64}")
ANOTHER = "another run was opened"


class Joined(NamedTuple):
    """What a tab gets that joins."""

    viewer: int  # 0 if it can only look
    name: str
    why: str = ""  # it can only look

    def fields(self) -> dict[str, object]:
        """What the page gets."""
        return self._asdict() if self.why else {"viewer": self.viewer, "name": self.name}


class Room:
    """A run with whoever looks at it."""

    def __init__(self, program: str, kept: Kept, people: int, mirror_of: MirrorOf, keep: Keep | Path) -> None:
        self.program, self.mirror_of, self.count = program, mirror_of, people
        self.streams, self.people = Streams(), People(people, kept.names)
        self.opening = threading.Lock()
        self.number = 0  # of the run
        self.run = self.begun(kept)
        self.number = 1
        try:
            self.run.keep = keep if isinstance(keep, Keep) else Keep(keep, self.run.kept)
        except BaseException:
            self.run.close()
            raise
        self.path = self.run.keep.path

    def begun(self, kept: Kept) -> LiveRun:
        """A run that begins so."""
        return LiveRun(self.program, replace(kept, people=self.count), self.count, self.mirror_of, self.publish)

    # ---- Who is there

    def join(self, tab: str, name: str) -> Joined:
        """Gives a tab a viewer, if there is one for it."""
        if not TAB.fullmatch(tab):
            raise Fault("a tab's name has 8 to 64 letters, digits and hyphens")
        before = self.people.names()
        viewer = self.people.join(tab, name)
        if not viewer:
            return Joined(0, "", f"all {self.count} viewers are taken: this tab can only look")
        if before != self.people.names():
            self.run.name(viewer, self.people.seats[viewer].name)
        self.tell_people()
        return Joined(viewer, self.people.name(viewer))

    def tell_people(self) -> None:
        """Tells all who is there."""
        self.streams.publish(self.people_event())

    def people_event(self) -> Event:
        """Who is there."""
        return Event.of("", {"people": self.people.shown()})

    def viewer_of(self, tab: str, viewer: int) -> int:
        """The viewer that a tab is; none other may ask for it."""
        if not viewer or self.people.of(tab) != viewer:
            raise Fault("this tab is not that viewer")
        return viewer

    # ---- Events

    def publish(self, fields: dict[str, object]) -> None:
        """Hands an event of the run to all who look."""
        self.streams.publish(Event.of("" if "ended" in fields else self.event_name(), fields))

    def event_name(self) -> str:
        """The run and its last line."""
        return f"{self.number}.{len(self.run.calls) if self.number else 0}"

    def look(self, tab: str, last: str) -> Stream:
        """Opens the stream of a tab that has the run up to this event."""
        stream = self.streams.begin(last, self.now())
        self.people.come(tab)
        if self.people.of(tab):
            self.tell_people()
        else:
            stream.put(self.people_event())
        return stream

    def now(self) -> Event:
        """What makes a tab fetch the run, or says why it is over."""
        if self.run.why:
            return Event.of("", {"ended": self.run.why})
        return Event.of(self.event_name(), {"fresh": len(self.run.calls)})

    def leave(self, tab: str, stream: Stream) -> None:
        """Closes the stream of a tab."""
        self.streams.end(stream)
        self.people.leave(tab)
        if self.people.of(tab):
            self.tell_people()

    # ---- The run

    def about(self, run: Run) -> dict[str, object]:
        """What a page has beside the run, and what it calls the viewers."""
        return {
            "names": {viewer: self.people.name(int(viewer)) for viewer in run["names"]},
            "people": self.people.shown(), "viewers": self.count, "event": self.event_name(),
            "kept": self.path.name, "notes": self.run.note_rows(),
        }

    def ask(self, tab: str, viewer: int, line: str) -> Answer:
        """Asks a line of a viewer."""
        return self.run.ask(self.viewer_of(tab, viewer), line, self.people.name)

    def note(self, tab: str, viewer: int, text: str) -> None:
        """Keeps a note."""
        self.viewer_of(tab, viewer)
        if not text.isascii() or not text.isprintable() or len(text) > MOST_NOTE:
            raise Fault(f"a note is one line of at most {MOST_NOTE} letters")
        self.run.note(text)

    def complete(self, line: str) -> Sequence[str]:
        """What the last word of a line may become."""
        moment = self.run.moment
        segments = [name for name in (*moment["linked"], *moment["apart"]) if isinstance(name, str)]
        known = completion.Known(len(moment["actors"]), lambda: segments, lambda: [*moment.get("marks", [])])
        return completion.completed(known, line, line.rpartition(" ")[2])

    def kept_now(self) -> Kept:
        """The run as it is kept now."""
        return self.run.kept_now({viewer: seat.name for viewer, seat in self.people.seats.items() if seat.name})

    def end(self, why: str) -> None:
        """Ends the run, and says so to all who look."""
        with self.opening:
            self.publish({"ended": why})
            self.run.end(why)

    def open(self, title: str, text: str, actors: int | None, ring: int | None) -> None:
        """Begins anew with what a text is; the run before stays in its file. If that one doesn't end well, it is said,
        and the new one is on all the same."""
        kept = opened_text(tidied(title) or "run", letters_of(text.replace("\r\n", "\n")), actors, ring)
        with self.opening:
            run, before = self.begun(kept), self.run
            try:
                run.keep = Keep(free_path(self.path.parent, kept.title), run.kept)
            except BaseException:
                run.close()
                raise
            try:
                before.end(ANOTHER)
            finally:
                with run.turn:
                    self.run, self.number, self.path = run, self.number + 1, run.keep.path
                    self.publish({"fresh": len(run.calls)})
