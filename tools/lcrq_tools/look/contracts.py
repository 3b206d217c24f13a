"""Reads contracts, definitions and types of the crates off the layout that `rt fmt` gives, for what looks at them.

`functions_of` gives the functions of a source file, each with its clauses, and `blocks_of` the definitions of a file of
definitions, or the types and constants of a source file. `labels_of` and `names_in` are for pages that name these.
"""

import functools
import re
from collections.abc import Sequence
from pathlib import Path
from typing import NamedTuple

from lcrq_tools.look.lines import COMMENT, counts_as_line
from lcrq_tools.program import CRATES

OWNER = re.compile(r"(?:pub )?(?:impl\b(?:<.*?>)? (?:.* for )?|trait )(\w+)\b.*\{$")
FUNCTION = re.compile(r" *(pub )?(?:pub\(\w+\) )?(?:const )?fn (\w+)")
CLAUSE = re.compile(r" *(requires|ensures)(?: (\w+))? \{")
HEADING = re.compile(r" *(?://.*)?$")  # of a group of clauses, or the blank line above it
BEGINS_CLAUSES = re.compile(f"{CLAUSE.pattern}|{HEADING.pattern}")
DEFINITION = re.compile(r" *(?:(?:abbrev|unfoldable) (?:pub )?|pub (?:record|data) )(\w+)")
END = {".antt": re.compile(r"\s*$"), ".rt": re.compile(r"\}$|\S.*;$")}  # of a definition and of a type
TYPE = re.compile(r"(?:pub(?:\(\w+\))? )?(?:struct|enum|trait|const|type) (?!fn )(\w+)")
STRUCT = re.compile(r"(?:pub(?:\(\w+\))? )?struct .*\{$", re.MULTILINE)
FIELD = re.compile(r" {4}(?:pub(?:\(\w+\))? )?(\w+): (.*)")
MEMBER = re.compile(r"^ +(?:pub |ghost )?(\w+)(?: ?:|,$|[({]| \{)", re.MULTILINE)  # of a type or a record
IMPORT = re.compile(r"^ *(?:pub |ghost |unfoldable )*use ([\w.]+?)(?:\.\{([^}]*)\}| as (\w+));?$", re.MULTILINE)
OTHER = re.compile(r"^pub (\w+) :|\bconst (\w+):|^ *(?:pub |ghost )*use (.*)", re.MULTILINE)
GHOST_FIELD = re.compile(r"^(?: *//.*\n)* {4}ghost (\w+): \{.*(?:\n {8}.*)*\},\n", re.MULTILINE)


class Clause(NamedTuple):
    """A clause of a contract; `kind` is `requires` or `ensures`."""

    kind: str
    label: str | None
    text: str


class Function(NamedTuple):
    """A function, with the type or the trait that it is of, if any."""

    owner: str | None
    name: str
    is_public: bool
    signature: str
    clauses: tuple[Clause, ...]


@functools.cache
def lines_of(path: Path) -> list[str]:
    """The lines of a file."""
    return path.read_text(encoding="utf-8").splitlines()


def crate_of(path: Path) -> str:
    """The crate of a file."""
    return path.relative_to(CRATES).parts[0]


# ---- Functions -----------------------------------------------------------------------------------


def clauses_at(lines: Sequence[str], first: int) -> list[Clause]:
    """The clauses from this line on."""
    found: list[Clause] = []
    for line in lines[first:]:
        if begins := CLAUSE.match(line):
            found.append(Clause(begins[1], begins[2], line.rstrip(";")))
        elif found and found[-1].text.count("{") != found[-1].text.count("}"):
            found[-1] = found[-1]._replace(text=f"{found[-1].text}\n{line}")
        elif not HEADING.match(line):
            break
    return found


def function_at(lines: Sequence[str], first: int, begins: re.Match[str], header: str | None) -> Function:
    """The function that begins at this line, in what begins with this header, if in anything."""
    last = first
    while not lines[last].endswith(("{", ";")) and not BEGINS_CLAUSES.match(lines[last + 1]):
        last += 1
    signature = "\n".join(lines[first : last + 1]).rstrip("{; \n")
    owner = OWNER.match(header or "")
    is_public = bool(begins[1]) or (header or "").startswith("pub trait")
    return Function(owner[1] if owner else None, begins[2], is_public, signature, tuple(clauses_at(lines, last + 1)))


@functools.cache
def functions_of(path: Path) -> list[Function]:
    """The functions of a source file, each with the type or the trait that it is of, if any."""
    lines = lines_of(path)
    header: str | None = None
    found: list[Function] = []
    for number, line in enumerate(lines):
        if OWNER.match(line) or line == "}":
            header = line if line != "}" else None
        elif begins := FUNCTION.match(line):
            found.append(function_at(lines, number, begins, header))
    return found


def body_of(path: Path, name: str) -> str:
    """The first function of this name in a source file, from its first line to its closing brace."""
    lines = lines_of(path)
    begins = ((number, FUNCTION.match(line)) for number, line in enumerate(lines))
    first = next(number for number, found in begins if found and found[2] == name)
    indent = lines[first][: len(lines[first]) - len(lines[first].lstrip())]
    return "\n".join(lines[first : lines.index(f"{indent}}}", first)])


# ---- Definitions and types -----------------------------------------------------------------------


def last_line_of(lines: Sequence[str], first: int, suffix: str) -> int:
    """The last line of a definition, before a blank one, or of a type, whose brace or semicolon is not indented."""
    end = END[suffix]
    last = next((number for number in range(first, len(lines)) if end.match(lines[number])), len(lines) - 1)
    return last if lines[last].strip() else last - 1


def block_at(lines: list[str], first: int, suffix: str) -> str:
    """The definition or the type that begins at this line, with the comment above it."""
    above = first
    while lines[above - 1].strip().startswith((COMMENT[suffix], "#[")):
        above -= 1
    comment = [line for line in lines[above:first] if not line.strip().startswith("#[")]
    return "\n".join(comment + lines[first : last_line_of(lines, first, suffix) + 1])


@functools.cache
def blocks_of(path: Path) -> dict[str, str]:
    """The definitions of a file of definitions, or the types of a source file, by their names."""
    begins, lines = {".antt": DEFINITION, ".rt": TYPE}[path.suffix], lines_of(path)
    found = ((first, begins.match(line)) for first, line in enumerate(lines))
    return {name[1]: block_at(lines, first, path.suffix) for first, name in found if name}


def without_ghosts(text: str) -> str:
    """A type without what the checker proves of each of its values; a trait keeps its ghost words."""
    return GHOST_FIELD.sub("", text)


def ghosts_of(text: str) -> list[str]:
    """The names of what the checker proves of each value of a type."""
    return GHOST_FIELD.findall(text)


def code_of(text: str, suffix: str) -> str:
    """A block without its comments and blank lines."""
    return "\n".join(line for line in text.splitlines() if counts_as_line(line, suffix))


def parts_of(text: str) -> tuple[str, list[tuple[str, str]]]:
    """A struct without comments as its first line, and the names and types of its fields; another block is whole, with
    no field."""
    found: list[tuple[str, str]] = []
    lines = text.splitlines()
    if not STRUCT.match(text):
        return text, []
    for line in lines[1:-1]:
        if begins := FIELD.match(line):
            found.append((begins[1], begins[2]))
        else:
            found[-1] = (found[-1][0], f"{found[-1][1]} {line.strip()}")
    return lines[0], found


@functools.cache
def imports_of(path: Path) -> dict[str, tuple[str, str | None]]:
    """What each imported name of a file stands for: a module of definitions, and the name there, or none for the module
    itself."""
    found: dict[str, tuple[str, str | None]] = {}
    for module, names, alias in IMPORT.findall("\n".join(lines_of(path))):
        if alias:
            found[alias] = (module, None)
        for name in filter(None, map(str.strip, names.split(","))):
            original, _, renamed = name.partition(" as ")
            found[renamed or original] = (module, original)
    return found


# ---- Names ---------------------------------------------------------------------------------------


def labels_of(path: Path, name: str) -> set[str | None] | None:
    """The labels of what a file promises under a name: a function's clauses, a type's ghost fields, a record's fields;
    none if the file has no such name."""
    owner, _, short = name.rpartition("::")
    functions = [function for function in functions_of(path) if function.name == short]
    named = [function for function in functions if owner in ("", "laws", function.owner)]
    if named:
        return {clause.label for function in named for clause in function.clauses}
    text = blocks_of(path).get(short)
    return None if text is None else set(MEMBER.findall(text))


def names_in(path: Path) -> set[str]:
    """The names that a file of a crate has: its own, those of functions, clauses, definitions, lemmas, types and their
    members, and what it imports."""
    found = {path.stem, *path.relative_to(CRATES).parts}
    if path.suffix == ".rt":
        for function in functions_of(path):
            found |= {function.name, *(clause.label for clause in function.clauses if clause.label)}
    if path.suffix in COMMENT:
        for name, text in blocks_of(path).items():
            found |= {name, *MEMBER.findall(text)}
        others = OTHER.findall("\n".join(lines_of(path)))
        found |= {word for names in others for word in re.findall(r"\w+", " ".join(names))}
    return found
