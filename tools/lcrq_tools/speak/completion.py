"""Says what may come next in a line, for `prompt.py` and `live.py`.

What a run has, the one who asks knows: how many actors, which segments and which bookmarks. Only Python's standard
library is used.
"""

from collections.abc import Callable, Sequence
from dataclasses import dataclass

from lcrq_tools import manual
from lcrq_tools.speak import forms
from lcrq_tools.speak.teller import EVENTS


@dataclass(frozen=True)
class Known:
    """What a run has that lines name."""

    actors: int
    segments: Callable[[], list[str]]
    marks: Callable[[], list[str]]  # the bookmarks' names


def places_of(known: Known, words: Sequence[str]) -> list[str]:
    """What may come next in a place of which these words are there."""
    kinds = {place.split(" ")[0]: place.split(" ")[1:] for place in manual.PLACES}
    if not words:
        return [*kinds]
    after = kinds.get(words[0], [])[len(words) - 1:]
    if not after:
        return []
    return known.segments() if after[0] == "M.S" else [str(number) for number in range(8)]


def completions(known: Known, before: str) -> list[str]:
    """What may come next behind the words of a line that are whole."""
    words = before.split()
    if not words:
        return [*forms.WORDS]
    word, *rest = words
    if word in ("show", "writer"):
        return places_of(known, rest)
    if word in ("drop", "goto", "same") and len(rest) < 1 + (word == "same"):
        return known.marks()
    if word in (*EVENTS, "actor") and not rest:
        return [str(actor) for actor in range(1, known.actors + 1)]
    return ["yes", "no"] if word == "starve" and len(rest) == 1 else []


def completed(known: Known, line: str, text: str) -> list[str]:
    """What the last word of a line, begun so, may become."""
    whole = line[: len(line) - len(text)]
    return [word for word in completions(known, whole) if word.startswith(text)]
