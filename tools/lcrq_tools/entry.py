"""The one way in: a tool by its name, as `lcrq NAME` where pip has installed the package, and by its script in
tools/ where it hasn't.

A name stands for a module with a function `main`, or with one `checks`, which gives what it finds with the options,
or one `rows`, which gives what is tried with each build; or for a folder of such modules, which are named next:
`lcrq check pages`. Without a name, each is listed with the first sentence of what it says of itself. What isn't there
isn't listed: the archive that is handed out has only the tools that its pages name. What takes the repository is run by
the repository's own package. Only Python's standard library is used.
"""

import ast
import functools
import importlib
import os
import re
import sys
import textwrap
from collections.abc import Callable, Mapping
from pathlib import Path
from typing import NoReturn

from lcrq_tools import program
from lcrq_tools.faults import Fault, status_of
from lcrq_tools.places import CRATES, PACKAGE, TOP

# The tools in the order in which a reader meets them: the module of each, or its folder.
TOOLS = {
    "picture": "draw.picture",
    "moment": "draw.moment",
    "calls": "calls.calls",
    "page": "page.page",
    "live": "live.live",
    "prompt": "speak.prompt",
    "explain": "speak.explain",
    "draft": "speak.draft",
    "freeze": "start.freeze",
    "continue_run": "start.continue_run",
    "schema": "schema",
    "conform": "port.conform",
    "quick_build": "release.quick_build",
    "check": "checks",
    "bench": "bench",
    "definitions": "look.definitions",
    "promises": "look.promises",
    "contracts": "look.clause_counts",
    "lines": "look.lines",
    "gate": "look.gate",
    "release": "release.release",
}
RUN = ("main", "checks", "rows")  # the functions of which a module that can be run has one
OF_THE_REPOSITORY = ("bench", "checks", "look", "release")  # the folders whose modules take it
WIDTH, NAMES = 100, 16  # letters of a list's line, and of them those for a name

# ---- What there is --------------------------------------------------------------------------------


def file_of(module: str) -> Path:
    """The file of a module, or a folder of modules."""
    path = PACKAGE.joinpath(*module.split("."))
    return path if path.is_dir() else path.with_suffix(".py")


def parsed(module: str) -> ast.Module:
    """The source of a module, or of what makes a folder a package."""
    path = file_of(module)
    return ast.parse((path / "__init__.py" if path.is_dir() else path).read_text(encoding="utf-8"))


def about(module: str) -> str:
    """The first sentence of what a module says of itself."""
    paragraph = (ast.get_docstring(parsed(module)) or "").partition("\n\n")[0]
    return re.split(r"(?<=\.) ", " ".join(paragraph.split()))[0]


def tools_in(folder: str) -> dict[str, str]:
    """The modules of a folder that can be run, and are no parts of other ones, by their names."""
    modules = {path.stem: f"{folder}.{path.stem}" for path in sorted(file_of(folder).glob("*.py"))}
    functions = {name: {part.name for part in parsed(module).body if isinstance(part, ast.FunctionDef)}
                 for name, module in modules.items()}
    return {name: module for name, module in modules.items() if not functions[name].isdisjoint(RUN)}


def main_of(module: str) -> Callable[[], int]:
    """What runs a module."""
    found = importlib.import_module(f"lcrq_tools.{module}")
    main: Callable[[], int] | None = getattr(found, "main", None)
    checks = getattr(found, "checks", lambda given: program.by_each_build(given.program, found.rows()))
    return main or functools.partial(program.run_checks, found.__doc__, checks)


# ---- Runs -----------------------------------------------------------------------------------------


def choose(called: str, tools: Mapping[str, str], words: list[str]) -> int:
    """Runs the tool that the first word names, by the words after it; without one, all are listed."""
    sys.argv = [called, *words]
    if not words or words[0] in ("-h", "--help"):
        print(f"usage: {called} NAME [arguments]\n")
        for name, module in tools.items():
            print(textwrap.fill(about(module), WIDTH, initial_indent=f"{name:<{NAMES}}", subsequent_indent=" " * NAMES))
        print(f"\n`{called} NAME --help` says more of each.")
        return 0
    if words[0] not in tools:
        raise Fault(f"{words[0]}: no such name; without one they are listed")
    return run(f"{called} {words[0]}", tools[words[0]], words[1:])


def run(called: str, module: str, words: list[str]) -> int:
    """Runs a module, which calls itself so in what it says, by these words."""
    if file_of(module).is_dir():
        return choose(called, tools_in(module), words)
    sys.argv = [called, *words]
    if module.split(".")[0] in OF_THE_REPOSITORY and not CRATES.is_dir():
        raise Fault("this takes the repository of lcrqdb, and the current folder is not in one")
    return main_of(module)()


def script_around(words: list[str]) -> Path | None:
    """The script of the repository around the current folder, where these words name a tool that takes the
    repository, and the package is not that one's own, which may be older or newer."""
    module = TOOLS.get(words[0], "") if words else ""
    is_others = CRATES.is_dir() and PACKAGE.parent != TOP / "tools"
    return TOP / "tools" / f"{words[0]}.py" if is_others and module.split(".")[0] in OF_THE_REPOSITORY else None


def lcrq() -> int:
    """What the command `lcrq` does; returns the exit status."""
    words = sys.argv[1:]
    if path := script_around(words):
        os.execv(sys.executable, [sys.executable, str(path), *words[1:]])
    tools_here = {name: module for name, module in TOOLS.items() if file_of(module).exists()}
    return status_of(choose, "lcrq", tools_here, words)


def script(name: str) -> NoReturn:
    """What a script of tools/ does: runs the tool of this name."""
    sys.exit(status_of(run, Path(sys.argv[0]).name, TOOLS[name], sys.argv[1:]))
