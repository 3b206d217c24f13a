"""The one way in which a tool says what is wrong: `name: what` on standard error, with status 1.

What finds a fault raises `Fault`. The `main` of a tool lets it through, as it does a file that can't
be read or written, and `status_of` says it in one line. A `Parser` says a faulty command line in the
same way, and ends its help with an example. Only Python's standard library is used.
"""

import argparse
import subprocess
import sys
import textwrap
from collections.abc import Callable
from pathlib import Path
from typing import NoReturn

WIDTH = 79  # letters of a line of help


class Fault(Exception):
    """What is wrong, in one line, and the status with which the tool ends."""

    def __init__(self, what: str, status: int = 1) -> None:
        super().__init__(what)
        self.status = status


FAULTS = (Fault, OSError, subprocess.TimeoutExpired)  # what a `main` may let through


def text_of(fault: BaseException) -> str:
    """What a fault says: of a file, its name and what is wrong with it."""
    if isinstance(fault, OSError) and fault.filename is not None:
        return f"{fault.filename}: {fault.strerror}"
    return str(fault)


def say(what: str, tool: str = "") -> None:
    """Says something on standard error, after the name of the tool: that of the command line, if
    none is given."""
    print(f"{tool or Path(sys.argv[0]).name}: {what}", file=sys.stderr)


def status_of(main: Callable[..., int], *given: object, tool: str = "") -> int:
    """The exit status of a tool, whose fault is said."""
    try:
        return main(*given)
    except FAULTS as fault:
        say(text_of(fault), tool)
        return fault.status if isinstance(fault, Fault) else 1


class Parser(argparse.ArgumentParser):
    """A command line: what the tool is for, as the first paragraph of a text says it, and an example, which is
    the tool's name and these words."""

    def __init__(self, about: str | None, example: str = "") -> None:
        paragraph = (about or "").partition("\n\n")[0]
        described = textwrap.fill(" ".join(paragraph.split()), WIDTH)
        super().__init__(description=described, formatter_class=argparse.RawDescriptionHelpFormatter)
        self.epilog = f"example:\n  {self.prog} {example}".rstrip()

    def error(self, message: str) -> NoReturn:
        """Raises what is wrong with the command line."""
        raise Fault(f"{message}; --help shows what may be given")
