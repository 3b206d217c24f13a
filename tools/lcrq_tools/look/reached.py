"""Finds what a contract reaches, for `definitions.py` and `statement.py`: names by their words, from the clauses of a
function through `ghost use` and the imports of definitions to the last definition or type.

`reached_from` takes the words of a command line, `FILE FUNCTION[.LABEL]..`, and gives a `Reached`: the clauses, the
texts of all that they reach, which of these names which other one, and what is taken from the kit.
"""

import collections
import functools
import re
from collections.abc import Iterable, Iterator, Sequence
from pathlib import Path
from typing import NamedTuple, TypeVar

from lcrq_tools.faults import Fault
from lcrq_tools.look.contracts import (
    GHOST_FIELD, Clause, Function, blocks_of, code_of, crate_of, functions_of, imports_of, lines_of, parts_of,
    without_ghosts,
)
from lcrq_tools.look.kit import fields_of, place_of, shown
from lcrq_tools.look.lines import COMMENT, crate_names, sources_of
from lcrq_tools.program import CRATES

# The clause that carries the headline, as on a command line: this is the one place that names it.
HEADLINE = ["rd_script/src/script.rt", "run.runs"]
WORD = re.compile(r"(?<![.\w])[A-Za-z_]\w*")
TYPE_NAME = re.compile(r"\b[A-Z]\w*")
NAMED_FIELD = re.compile(r"\.(\w+)|[{;]\s(\w+) = ")
FROM_CRATE = re.compile(r"^use (\w+)::([^;]*);", re.MULTILINE)

Key = TypeVar("Key")
Value = TypeVar("Value")


class Unknown(Fault):
    """What is asked for is not there."""


# ---- What a name means ---------------------------------------------------------------------------


class Own(NamedTuple):
    """A definition or a type of the crates."""

    path: Path
    name: str


class OfKit(NamedTuple):
    """A name of the kit, with the module that it is imported from."""

    module: str
    name: str


def grouped(pairs: Iterable[tuple[Key, Value]]) -> dict[Key, list[Value]]:
    """The second members of pairs as lists, by the first ones."""
    found: dict[Key, list[Value]] = {}
    for key, value in pairs:
        found.setdefault(key, []).append(value)
    return found


@functools.cache
def types() -> dict[str, list[Path]]:
    """The source files that have a type of each name."""
    paths = (path for crate in crate_names() for path in sources_of(CRATES / crate))
    return grouped((name, path) for path in paths for name in blocks_of(path))


@functools.cache
def crates_of_names(path: Path) -> dict[str, list[str]]:
    """The crates from which a source file imports each name."""
    uses = FROM_CRATE.findall("\n".join(lines_of(path)))
    return grouped((name, crate) for crate, names in uses for name in re.findall(r"\w+", names))


def type_named(name: str, path: Path) -> Own | OfKit | None:
    """The type of this name that a source file means: its own, its crate's, or an imported one."""
    files, crates = types().get(name, []), crates_of_names(path).get(name, [])
    own = [file for file in files if file == path]
    of_crate = [file for file in files if crate_of(file) == crate_of(path)]
    of_others = [file for file in files if crate_of(file) in crates]
    for file in own + of_crate + of_others:
        return Own(file, name)
    own_words = ("crate", "self", "super")
    kits = (crate for crate in crates if crate not in own_words and not (CRATES / crate).is_dir())
    return next((OfKit(crate, name) for crate in kits if name[0].isupper()), None)


def declared(crate: str, names: Sequence[str]) -> Own | None:
    """The type or the constant of the code that a module of declared names has."""
    for end in range(len(names), 0, -1):
        path = CRATES / crate / "src" / Path(*names[:end]).with_suffix(".rt")
        if path.is_file():
            return next((Own(path, name) for name in names[end:] if name in blocks_of(path)), None)
    return None


def imported(module: str, name: str | None) -> Own | OfKit | None:
    """What an imported name stands for."""
    root, crate, *names = module.split(".")
    if root != "Rattle" or not (CRATES / crate).is_dir():
        return OfKit(module, name or names[-1])
    if names[1] == "declared":
        return declared(crate, [*names[2:], name or ""])
    path = CRATES / crate / "specs" / Path(*names[1:]).with_suffix(".antt")
    return meant(name, path) if name and path.is_file() else None


def meant(name: str, path: Path) -> Own | OfKit | None:
    """The definition or type that a word means in a file, if it means one."""
    if path.suffix == ".antt" and name in blocks_of(path):
        return Own(path, name)
    if name in imports_of(path):
        return imported(*imports_of(path)[name])
    return type_named(name, path) if path.suffix == ".rt" else None


# ---- What is reached -----------------------------------------------------------------------------


def functions_named(path: Path, name: str) -> list[Function]:
    """The functions of a source file that a name means, as `obey` or `Book::obey`."""
    owner, _, short = name.rpartition("::")
    found = [function for function in functions_of(path) if function.name == short and owner in ("", function.owner)]
    if not found:
        raise Unknown(f"no function {name} in {path.relative_to(CRATES)}")
    return found


def kept_by(path: Path, name: str) -> Function:
    """A type as a function that ensures what each value of the type keeps."""
    text = blocks_of(path)[name]
    head = next(line for line in text.splitlines() if not line.startswith(COMMENT[path.suffix]))
    fields = [Clause("ensures", field[1], field[0].rstrip(",\n")) for field in GHOST_FIELD.finditer(text)]
    return Function(None, name, True, head.rstrip("{ "), tuple(fields))


def clauses_of(path: Path, name: str, label: str) -> list[tuple[Function, Clause]]:
    """What the functions of this name require, and what they ensure, by this label if there is one; each clause with
    its function. What a type keeps stands for what it ensures."""
    functions = [kept_by(path, name)] if name in blocks_of(path) else functions_named(path, name)
    found = [(function, clause) for function in functions for clause in function.clauses]
    ensured = [clause for _, clause in found if clause.kind == "ensures"]
    wanted = [clause for clause in ensured if label in ("", clause.label)]
    if not ensured:
        raise Unknown(f"{name} ensures nothing")
    if not wanted:
        labels = ", ".join(clause.label or "a clause without a label" for clause in ensured)
        raise Unknown(f"no clause {label} of {name}, which ensures {labels}")
    return [(function, clause) for function, clause in found if clause in wanted or clause.kind == "requires"]


class Reached:
    """What contracts reach, in the order in which it is reached, breadth first."""

    def __init__(self) -> None:
        self.clauses: dict[tuple[Path, str, Function], list[Clause]] = {}  # by files, names and functions
        self.texts: dict[Own, str] = {}  # those of definitions and types
        self.taken: set[OfKit] = set()
        self.uses: dict[Own, dict[Own | OfKit, None]] = {}  # what each clause, definition and type names, in order
        self.waiting: collections.deque[tuple[Own, str]] = collections.deque()  # texts whose words are to be followed
        self.unread: list[tuple[Own, str, str]] = []  # fields that nothing has named so far: owner, name and type
        self.read: set[str] = set()  # the names of the others

    def add_clauses(self, path: Path, asked: str) -> None:
        """Adds the clauses of a function that are asked for."""
        name, _, label = asked.partition(".")
        for function, clause in clauses_of(path, name, label):
            clauses = self.clauses.setdefault((path, name, function), [])
            clauses += [clause] if clause not in clauses else []
            self.waiting.append((Own(path, asked), clause.text.partition("{")[2]))

    def add(self, path: Path, name: str) -> None:
        """Adds a definition or a type of a file."""
        own = Own(path, name)
        self.texts[own] = text = without_ghosts(blocks_of(path)[name])
        head, fields = parts_of(code_of(text, path.suffix))
        self.waiting.append((own, head))
        self.unread += [(own, *field) for field in fields]

    def follow(self) -> None:
        """Follows all words, those of a field once something names it."""
        while self.waiting:
            owner, text = self.waiting.popleft()
            for word in dict.fromkeys(WORD.findall(text)):
                self.follow_word(owner, word)
            self.read |= {name or key for name, key in NAMED_FIELD.findall(text)}
            self.waiting.extend((own, type_) for own, name, type_ in self.unread if name in self.read)
            self.unread = [field for field in self.unread if field[1] not in self.read]

    def follow_word(self, owner: Own, word: str) -> None:
        """Adds what a word means in its owner's file, if it means anything that isn't there yet."""
        found = meant(word, owner.path)
        if found and found != owner:
            self.uses.setdefault(owner, {})[found] = None
        if isinstance(found, OfKit):
            self.taken.add(found)
        elif found and found not in self.texts:
            self.add(*found)

    def counts(self, path: Path, name: str) -> tuple[int, int]:
        """How many lines of code and of comments a definition or a type has."""
        text = self.texts[Own(path, name)]
        code = len(code_of(text, path.suffix).splitlines())
        return code, sum(bool(line.strip()) for line in text.splitlines()) - code

    def totals(self) -> tuple[int, int, int, int]:
        """How many definitions and types there are, in how many files, with how many lines of code and of comments."""
        code, comments = (sum(column) for column in zip((0, 0), *(self.counts(*own) for own in self.texts)))
        return len(self.texts), len({path for path, _ in self.texts}), code, comments

    def from_kit(self) -> Iterator[tuple[str, list[str]]]:
        """The kit's files with the names that are taken from them, each with the name that it is given here, if it is
        another one, and with those fields of a type that something names."""
        files: dict[Path | str, dict[str, str]] = {}
        for module, name in sorted(self.taken):
            place = place_of(module, name)
            names = files.setdefault(place.file, {})
            names[place.name if place.name == name else f"{place.name} as {name}"] = ""
            there, fields = fields_of(place)
            if self.read.intersection(fields):
                named = ", ".join(f".{field}" for field in fields if field in self.read)
                files.setdefault(there.file, {})[there.name] = f" ({named})"
        for file, names in files.items():
            yield shown(file), [name + fields for name, fields in sorted(names.items())]


def asked_for(words: Sequence[str]) -> list[tuple[str, list[str]]]:
    """The files of a command line, each with the names after it."""
    asked: list[tuple[str, list[str]]] = []
    for word in words:
        if word.endswith(".rt") or not asked:
            asked.append((word.removeprefix("crates/"), []))
        else:
            asked[-1][1].append(word)
    return asked


def reached_from(words: Sequence[str]) -> Reached:
    """What the clauses reach that a command line asks for."""
    reached = Reached()
    for file, names in asked_for(words):
        path = CRATES / file
        if not (path.is_file() and path.suffix == ".rt"):
            raise Unknown(f"no source file {file} in crates/")
        if not names:
            raise Unknown(f"which function of {file}?")
        for name in names:
            reached.add_clauses(path, name)
    for path, name, function in reached.clauses:
        types = TYPE_NAME.findall(f"{function.signature} {function.owner}")
        reached.waiting.append((Own(path, name), " ".join(types)))
    reached.follow()
    return reached
