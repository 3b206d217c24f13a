"""The elements of pandoc's documents, and the text in them: for `release_pages.py`, `worksheet.py` and `handout.py`."""

from collections.abc import Iterator
from typing import Any, NotRequired, TypedDict

Json = Any  # a part of a document, as pandoc writes it: what an element has is another thing for each kind


class Element(TypedDict):
    """An element of a document: its kind, and what it has."""

    t: str
    c: NotRequired[Json]


def element(kind: str, *content: Json) -> Element:
    """An element of a document."""
    return {"t": kind, "c": [*content]}


def elements_in(value: Json) -> Iterator[Json]:
    """The elements of a part of a document, outer ones first."""
    if isinstance(value, dict):
        yield value
        value = value.get("c")
    for part in value if isinstance(value, list) else []:
        yield from elements_in(part)


def text_in(value: Json) -> str:
    """The text of a part of a document."""
    text = ""
    for part in elements_in(value):
        if part["t"] in ("Str", "Code"):
            text += part["c"] if part["t"] == "Str" else part["c"][1]
        elif part["t"] in ("Space", "SoftBreak", "LineBreak"):
            text += " "
    return text
