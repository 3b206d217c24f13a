"""Tries what a live page loses when processes are killed or files are cut, and what a second tab shows, for
`checks/live_page.py`: nothing is lost that was answered, and each tab shows the same.
"""

import http.client
import os
import signal
import threading
from collections.abc import Sequence
from pathlib import Path
from typing import Any

from lcrq_tools import history, program
from lcrq_tools.checks import histories
from lcrq_tools.checks.live_clients import Served, Tab, at_once
from lcrq_tools.checks.live_moments import WORLD, Line
from lcrq_tools.live.folded import moments_of


class Asker(threading.Thread):
    """A tab that asks its lines, one after the other."""

    def __init__(self, tab: Tab, lines: Sequence[str]) -> None:
        super().__init__()
        self.tab, self.lines, self.fault = tab, lines, ""
        self.answers: list[dict[str, Any]] = []

    def run(self) -> None:
        """Asks all lines."""
        try:
            for line in self.lines:
                self.answers.append(self.tab.ask(line))
        except (OSError, ValueError, http.client.HTTPException, program.Broken) as fault:
            self.fault = repr(fault)

    def wrong(self, lines: Sequence[Line]) -> str:
        """What is wrong with the answers, where these are the lines of the run, or nothing."""
        numbers = [answer["call"] for answer in self.answers if answer["call"] is not None]
        if self.fault or numbers != sorted(numbers):
            return self.fault or f"viewer {self.tab.viewer} has the calls {numbers}"
        for line, answer in zip(self.lines, self.answers):
            refusal, number = histories.refusal_of(line), answer["call"]
            if refusal and (number, answer["reply"]) != (None, refusal) or refusal and not answer["expected"]:
                return f"`{line[:20]}` is answered {answer}"
            if not refusal and lines[number - 1] != (self.tab.viewer, line, answer["reply"]):
                return f"`{line}` of viewer {self.tab.viewer} is answered {answer}, and the run has {lines[number - 1]}"
        return ""


def stands(tab: Tab) -> object:
    """What a page has of the last moment."""
    moment = moments_of(tab.run())[-1]
    return [moment[name] for name in ("live", "undone", "places", "actors", "rows", "written")], tab.lines()


def begun(tab: Tab) -> object:
    """Asks some lines; returns what the page has then."""
    for line in ("enq 1 7", "go 1", "deq 2", "go 2", "mark a", "go 1", "undo 4", "hello"):
        tab.ask(line)
    return stands(tab)


def program_fault(built: str, folder: Path) -> str:
    """What is lost when a program is killed, or nothing."""
    with Served(built, folder, *WORLD) as served:
        tab = served.tab().join("Ann")
        before, kept = begun(tab), served.kept
        os.kill(served.children()[0], signal.SIGKILL)
        status, answer = tab.post("ask", tab=tab.name, viewer=tab.viewer, line="go 1")
        if status != 409 or not answer.get("ended"):
            return f"a line has status {status} then, and the answer {answer}"
        if served.end()[0] != 1:
            return "live.py doesn't say that the run was over"
    return going_on_fault(built, folder, kept, before)


def going_on_fault(built: str, folder: Path, kept: Path, before: object) -> str:
    """Whether a kept run doesn't go on where it was, or nothing."""
    with Served(built, folder, str(kept)) as served:
        tab = served.tab("tab-of-another").join("Ann")
        if stands(tab) != before or served.kept != kept:
            return f"it goes on with {stands(tab)}, wanted {before}"
        count = len(tab.lines())
        if tab.ask("len")["call"] != count + 1 or tab.viewer != 1:
            return f"line {count + 1} isn't asked by viewer 1"
        return end_fault(served, count + 1)


def server_fault(built: str, folder: Path) -> str:
    """What is lost when the server is killed while lines are asked, or nothing."""
    with Served(built, folder, *WORLD) as served:
        tabs = [served.tab(f"tab-number-{number}").join() for number in range(2)]
        askers = [Asker(tab, ["len"] * 1000) for tab in tabs]
        killer = threading.Timer(0.5, served.child.kill)
        at_once([*askers, killer])
        answers = [answer for asker in askers for answer in asker.answers]
        children = served.children()
    calls = history.read(str(served.kept))
    lost = [answer for answer in answers if answer["call"] > len(calls.lines)]
    if lost or not answers or children:
        return f"{lost} of {len(answers)} answers are lost, and {children} go on"
    with Served(built, folder, str(served.kept)) as served:
        count = len(served.tab().lines())
        return "" if count == len(calls.lines) else f"{count} lines of {len(calls.lines)} go on"


def cut_fault(built: str, folder: Path) -> str:
    """Whether a file whose last line is cut loses another line, or nothing."""
    with Served(built, folder, *WORLD) as served:
        tab = served.tab().join("Ann")
        before, kept = begun(tab), served.kept
        tab.ask("enq 3 123456")
    whole = kept.read_bytes()
    for cut in (1, 4, len("1 enq 3 123456\n") - 1):
        kept.write_bytes(whole[:-cut])
        with Served(built, folder, str(kept)) as served:
            if stands(served.tab()) != before:
                return f"without {cut} bytes it is {stands(served.tab())}"
            served.tab().join().ask("len")
        if not kept.read_bytes().endswith(b"\n1 len\n"):
            return f"without {cut} bytes it goes on as {kept.read_bytes()!r}"
    return ""


def tabs_fault(built: str, folder: Path) -> str:
    """Whether a second tab or one that is loaded again shows something else, or nothing."""
    with Served(built, folder, *WORLD, "--viewers", "2") as served:
        one = served.tab("tab-number-1").join("Ann")
        before = begun(one)
        again, other, third = (served.tab(f"tab-number-{number}").join() for number in (1, 2, 3))
        if (again.viewer, other.viewer, third.viewer) != (1, 2, 0):
            return f"the viewers are {(again.viewer, other.viewer, third.viewer)}"
        wrong = [tab.name for tab in (again, other, third) if stands(tab) != before]
        if wrong:
            return f"{wrong} show something else"
        if other.ask("undo").get("took") != "step 4 of Ann" or "took" in other.ask("len"):
            return "it isn't said whose step was taken"
        with open(served.kept, "rb") as file:
            text = file.read()
        try:
            Served(built, folder, str(served.kept)).__exit__()
            return "two servers go on with one run"
        except program.Broken:
            return "" if served.kept.read_bytes() == text else "a second server changes the file"


def end_fault(served: Served, count: int) -> str:
    """What is wrong with the end of a server whose run has so many lines, or nothing."""
    status, said = served.end()
    wanted = f"{count} lines kept: live.py {served.kept} goes on"
    return "" if (status, said) == (0, wanted) else f"it ends with status {status} and says {said}"


