"""Lets clients, some of them hostile, ask a live page at once, and compares what it says with what `run` replies.

    python3 tools/check.py live_page [--program P]

The gate runs it, without a browser. Four tabs ask `live.py` 1,000 lines at once, some of which are refused or no
commands; a fifth one follows the events. The kept script is run: its replies are those that the tabs got, and at 50
lines the queue, the actors and the steps of the page are those that the program replies when it is asked anew. Then it
is tried that nobody else is let in, that nobody holds up the others, and that a run goes on after each process was
killed. Each check prints a line; the status is 1 if one of them fails.
"""

import argparse
import random
import tempfile
from collections.abc import Callable, Iterator, Sequence
from pathlib import Path

from lcrq_tools import history, program
from lcrq_tools.checks import histories, live_doors, live_losses
from lcrq_tools.checks.histories import difference
from lcrq_tools.checks.live_clients import Follower, Served, Tab, at_once
from lcrq_tools.checks.live_losses import Asker, end_fault
from lcrq_tools.checks.live_moments import ACTORS, RING, WORLD, Line, moment_fault
from lcrq_tools.checks.random_scripts import random_script
from lcrq_tools.live.folded import moments_of
from lcrq_tools.options import start_words

TABS, LINES = 4, 250  # and how many lines each asks
COMPARED, ROUND = 50, 5  # moments that are compared, and of them those that are fetched later

Check = Callable[[str, Path], str]  # finds what is wrong with a program, with a folder for files


def asked_at_once(served: Served) -> tuple[list[Asker], Follower]:
    """Tabs that have asked their lines at once, and what followed them."""
    chance = random.Random("live page")
    tabs = [served.tab(f"tab-number-{number}").join(f"person {number}") for number in range(1, TABS + 1)]
    follower = Follower(served.tab(tabs[0].name))
    follower.start()
    askers = [Asker(tab, random_script(chance, histories.LINES, ACTORS, LINES)) for tab in tabs]
    at_once(askers)
    return askers, follower


# ---- The guarantee ---------------------------------------------------------------------------------


def kept_fault(built: str, served: Served, lines: Sequence[Line]) -> str:
    """What is wrong with what is kept, if these are the lines of the page, or nothing."""
    calls = history.read(str(served.kept))
    if [*zip(calls.viewers, calls.lines)] != [line[:2] for line in lines]:
        return "the file has other calls than the page"
    script = served.tab().got("script")
    if script != calls.script():
        return "the script has other lines than the file"
    given = program.replies_to([built, *start_words(None, ACTORS, RING)], script)
    return difference("reply", [reply for _, _, reply in lines], given)


def together_fault(built: str, folder: Path) -> str:
    """What is wrong with a page that four tabs ask at once, or nothing."""
    with Served(built, folder, *WORLD, "--viewers", str(TABS)) as served:
        askers, follower = asked_at_once(served)
        tab = served.tab()
        lines = tab.lines()
        wrong = [asker.wrong(lines) for asker in askers]
        if len(lines) != sum(1 for asker in askers for line in asker.lines if not histories.refusal_of(line)):
            wrong.append(f"the run has {len(lines)} lines")
        if fault := next(filter(None, [*wrong, kept_fault(built, served, lines)]), ""):
            return fault
        follower.await_line(len(lines))
        script = folder / "kept.script"
        script.write_bytes(tab.got("script"))
        chance = random.Random("moments")
        known = chance.sample(sorted(follower.moments), COMPARED - ROUND)
        for line in known:
            fault = moment_fault(built, script, lines, follower.moments[line], follower.rows, follower.above[line])
            if fault:
                return fault
        return past_fault(built, script, tab, lines, chance) or follower.fault or end_fault(served, len(lines))


def past_fault(
    built: str, script: Path, tab: Tab, lines: Sequence[Line], chance: random.Random
) -> str:
    """What is wrong with parts of the run that are fetched, or nothing."""
    for line in chance.sample(range(1, len(lines)), ROUND):
        run = tab.run(line)
        moment = next((moment for moment in moments_of(run) if moment["line"] == line), None)
        if not moment:
            return f"line {line} isn't in the part around it"
        if fault := moment_fault(built, script, lines, moment, run["rows"], run["above"]):
            return f"fetched, {fault}"
    return ""


# ---- All -------------------------------------------------------------------------------------------

CHECKS: dict[str, Check] = {
    "four tabs ask 1,000 lines at once": together_fault,
    "nobody else is let in": live_doors.let_in_fault,
    "the page's policy": live_doors.policy_fault,
    "it listens at 127.0.0.1 alone": live_doors.address_fault,
    "names with markup": live_doors.markup_fault,
    "long lines, and heads without an end": live_doors.lines_fault,
    f"{live_doors.CONNECTIONS} connections at once": live_doors.connections_fault,
    "the program is killed": live_losses.program_fault,
    "the server is killed": live_losses.server_fault,
    "a kept file is cut in its last line": live_losses.cut_fault,
    "a second tab, and one that is loaded again": live_losses.tabs_fault,
}


def checks(given: argparse.Namespace) -> Iterator[tuple[str, str]]:
    """The checks, each a name and what is wrong, or nothing."""
    for name, check in CHECKS.items():
        with tempfile.TemporaryDirectory() as folder:
            yield name, program.tried(check, given.program, Path(folder))
