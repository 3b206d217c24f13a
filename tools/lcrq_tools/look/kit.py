"""Finds where the kit's files define the names that the project takes from it, for `definitions.py`.

`place_of` follows a name from the module that it is imported from, through the modules that pass it on, to the file
that defines it; `fields_of` gives the fields that definitions see of a type. Both go by words, as `definitions.py`
does. Where there is no `rt`, a module stands for its file.
"""

import functools
import json
import re
import shutil
import subprocess
from collections.abc import Collection
from pathlib import Path
from typing import NamedTuple

from lcrq_tools.look.contracts import blocks_of, imports_of
from lcrq_tools.look.lines import sources_of

STD = ["std", "core", "std_alloc", "std_collections", "std_heap", "std_io"]  # what `std` consists of
BUILT_IN = "the checker itself"
HEAD = re.compile(r"= ([\w.]+)")  # the type that an abbreviation stands for
FIELD = re.compile(r"^ +(?:pub )?(?:ghost )?(\w+) ?: ", re.MULTILINE)


class Place(NamedTuple):
    """Where a name is defined."""

    file: Path | str  # a word where the kit has no file
    name: str


@functools.cache
def has_kit() -> bool:
    """Whether `rt` is there to ask."""
    return shutil.which("rt") is not None


@functools.cache
def kit() -> Path:
    """The folder of the kit's crates."""
    page = subprocess.run(["rt", "doc"], capture_output=True, text=True, check=True).stdout.strip()
    return (Path(page).parent / "rattle").resolve()


@functools.cache
def mounts() -> dict[str, Path]:
    """The folders of the logic's modules, by the first words of their names."""
    project = kit() / "logic" / "antt-project.json"
    folders = json.loads(project.read_text(encoding="utf-8"))["mounts"]
    return {name: (project.parent / folder).resolve() for name, folder in folders.items()}


def shown(file: Path | str) -> str:
    """A file of the kit as a reader finds it, from the folder of the kit's crates."""
    return str(file.relative_to(kit())) if isinstance(file, Path) else file


def folders_of(crate: str) -> list[Path]:
    """The folders of a crate: those of std are several."""
    return [kit() / name for name in (STD if crate == "std" else [crate])]


def file_of(module: str) -> Path | None:
    """The file of a module of definitions, or that of the module around it."""
    root, *names = module.split(".")
    if root == "Rattle":
        crate, kind, *names = names
        folders = [folder / kind for folder in folders_of(crate)]
    else:
        folders = [mounts()[root], mounts()[root] / "src"] if root in mounts() else []
    for end in range(len(names), 0, -1):
        for folder in folders:
            path = folder.joinpath(*names[:end]).with_suffix(".antt")
            if path.is_file():
                return path
    return None


def type_at(crate: str, name: str, near: Collection[str] = ()) -> Place:
    """The place of a type of a crate's code, of those of its name in the file that is nearest."""
    found = [path for folder in folders_of(crate) for path in sources_of(folder) if name in blocks_of(path)]
    found.sort(key=lambda path: len(set(path.with_suffix("").parts) & set(near)), reverse=True)
    return Place(found[0], name) if found else Place(crate, name)


def place_of(module: str, name: str) -> Place:
    """Where the name that a module has is defined. The name of a crate alone stands for its code."""
    root, *names = module.split(".")
    if not has_kit():
        return Place(module, name)
    if not names:
        return type_at(root, name)
    if "declared" in names:
        near = names[names.index("declared") + 1 :]
        owners = [word for word in near if word[0].isupper() and word not in ("TheVariants", "TheViews")]
        return Place(type_at(names[0], owners[-1] if owners else name, near).file, name)
    path = file_of(module)
    if path:
        return place_in(path, name)
    return Place(BUILT_IN if root == "Prim" else module, name)


def place_in(path: Path, name: str) -> Place:
    """Where the name that a file of definitions has is defined."""
    if name not in imports_of(path):
        return Place(path, name)
    module, original = imports_of(path)[name]
    return place_of(module, original or name)


def text_at(place: Place) -> str:
    """The definition at a place, if its file is one of the kit's and has it."""
    return blocks_of(place.file).get(place.name, "") if isinstance(place.file, Path) else ""


def meaning_of(place: Place) -> Place:
    """The place of the type that an abbreviation stands for, or the place itself."""
    text = text_at(place)
    head = HEAD.search(text) if text.rpartition("\n")[2].startswith(f"{place.name} ") else None
    if not head or not isinstance(place.file, Path):
        return place
    alias, _, name = head[1].rpartition(".")
    if alias in imports_of(place.file):
        return meaning_of(place_of(imports_of(place.file)[alias][0], name))
    return meaning_of(place_in(place.file, head[1]))


def fields_of(place: Place) -> tuple[Place, list[str]]:
    """The place of a type as definitions see it, with the names of its fields; none of what is no type."""
    if place.name[0].islower() or not isinstance(place.file, Path):
        return place, []
    seen = [place] if place.file.suffix == ".antt" else [*views_of(place.file, place.name), place]
    for meaning in map(meaning_of, seen):
        if re.search(r"\b(?:record|struct)\b", text_at(meaning)):
            return meaning, FIELD.findall(text_at(meaning))
    return place, []


def views_of(file: Path, name: str) -> list[Place]:
    """The place where the specs of a type's crate say what is seen of the type, if they do."""
    path = kit() / file.relative_to(kit()).parts[0] / "specs" / f"{name}.antt"
    return [Place(path, name)] if path.is_file() and name in blocks_of(path) else []
