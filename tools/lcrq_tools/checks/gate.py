"""Runs the gate: all that has to pass before a push, one command after the other.

    python3 tools/check.py gate

`.ci/run` calls it, and so does whoever changed something. docs/GATE.md says what each command shows. What a
command writes is passed through as it comes. The gate stops at the first command that fails, with its status.
Where all pass, the last line says so, and what each check skipped since it isn't installed. `rt` of the kit
has to be on the PATH; the commands after `rt ci` take the program that it builds. Only Python's standard
library is used.
"""

import os
import re
import subprocess
import sys
from collections.abc import Iterable, Sequence

from lcrq_tools.faults import Parser, say
from lcrq_tools.places import TOP

# The commands in order, each as it is typed at the top of the repository.
COMMANDS = (
    "python3 tools/check.py pages",
    "python3 tools/check.py units",
    "rt ci",
    "python3 tools/check.py lessons",
    "python3 tools/check.py rehearsals",
    "python3 tools/check.py views",
    "python3 tools/check.py live",
    "python3 tools/check.py pseudo_code",
    "python3 tools/check.py pictures",
    "python3 tools/check.py run_pages",
    "python3 tools/check.py ports",
    "python3 tools/check.py calls",
    "python3 tools/check.py statuses",
    "python3 tools/check.py exercises",
    "python3 tools/check.py sentences",
    "python3 tools/check.py prompt",
    "python3 tools/check.py live_page",
    "python3 tools/check.py conversation",
    "python3 tools/check.py ample",
    "python3 tools/check.py refused_memory back",
)
SKIPPED = re.compile(rb"\d+ right, \d+ wrong, \d+ skipped: (.*)\n?")  # how a check ends that skipped something
BY_SIGNAL = 128  # with a signal's number, the status of a shell for what the signal ended


def words_of(command: str) -> list[str]:
    """The words that run a command: `python3` is the Python that runs this."""
    first, *others = command.split()
    return [sys.executable if first == "python3" else first, *others]


def passed_through(command: str) -> tuple[int, str]:
    """Runs a command, and passes on what it writes; returns its status, and the names that it says it skipped."""
    skipped = ""
    with subprocess.Popen(
        words_of(command), cwd=TOP, stdout=subprocess.PIPE, env=os.environ | {"PYTHONUNBUFFERED": "1"},
    ) as child:
        assert child.stdout  # a pipe
        for line in iter(child.stdout.readline, b""):
            sys.stdout.write(line.decode(errors="replace"))
            sys.stdout.flush()
            if found := SKIPPED.fullmatch(line):
                skipped = found[1].decode(errors="replace")
    status = child.returncode
    return (status if status >= 0 else BY_SIGNAL - status), skipped


def name_of(command: str) -> str:
    """What a command is called in the last line: a check by its name."""
    return command.removeprefix("python3 tools/check.py ").split()[0]


def passed(count: int, skipped: Sequence[tuple[str, str]]) -> str:
    """The last line, where all commands passed: what each skipped."""
    left_out = "; ".join(f"{name}: {names}" for name, names in skipped)
    return f"all {count} commands passed, " + (f"skipped: {left_out}" if left_out else "nothing was skipped")


def run_all(commands: Iterable[str]) -> int:
    """Runs commands up to the first that fails; returns its status, or 0."""
    count = 0
    skipped: list[tuple[str, str]] = []
    for count, command in enumerate(commands, 1):
        print(f"# {command}", flush=True)
        status, names = passed_through(command)
        if status:
            say(f"`{command}` ended with status {status}: the gate stops here")
            return status
        if names:
            skipped.append((name_of(command), names))
    print(passed(count, skipped))
    return 0


def main() -> int:
    """Runs the gate; returns the exit status."""
    Parser(__doc__).parse_args()
    return run_all(COMMANDS)
