"""What tests put in the place of the built program and of its answers, and how they run a script of
tools/."""

import contextlib
import io
import shutil
import sys
from collections.abc import Callable, Iterator
from unittest import mock

from lcrq_tools import options
from lcrq_tools.faults import status_of

NO_PROGRAM = shutil.which("true") or "/bin/true"  # which is not lcrqdb, and replies nothing
SESSION = '{"events":[["enq",1,7],["go",1]]}'  # a trace


@contextlib.contextmanager
def with_program() -> Iterator[None]:
    """While this holds, a command line takes any name of a program for one that is there."""
    with mock.patch.object(options, "required", lambda path: path):
        yield


def told(main: Callable[..., int], tool: str, *words: str) -> tuple[int, str, str]:
    """The status of a tool with this command line, its standard output and its standard error."""
    output, errors = io.StringIO(), io.StringIO()
    with (
        contextlib.redirect_stdout(output),
        contextlib.redirect_stderr(errors),
        mock.patch.object(sys, "argv", [tool, *words]),
    ):
        try:
            status = status_of(main)
        except SystemExit as ended:  # as after --help
            status = int(ended.code or 0)
    return status, output.getvalue(), errors.getvalue()


def answers(script: bytes) -> list[str]:
    """What a run answers to lines that are `len` or make a step, and the trace."""
    steps, lines = 0, script.decode().splitlines()
    replies = []
    for line in lines:
        steps += line != "len"
        replies.append(f"at {steps} 0" if line == "len" else f"ok {steps}")
    return [*replies, SESSION]
