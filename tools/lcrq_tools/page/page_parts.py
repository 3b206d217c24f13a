"""Makes the colours of a page of a run as CSS, and the rooms of what changes along the run.

`page.js` puts the rooms into a style sheet of their own. Whatever changes its size has the room that the largest of its
texts needs, so that the page keeps its size along the whole run.
"""

from collections import Counter

from lcrq_tools.draw.figure import ACTORS, width_of
from lcrq_tools.page.mirror import State
from lcrq_tools.records import Cell, Place

PINS, DISC = 2, 1.35  # discs beside each other, and the room of one, in the page's letters
SHORT = 6  # digits of a value that is written large
LARGE, SMALLER = 1.25, 0.85  # the sizes of values, in the page's letters
CELL = 4.2  # how wide a cell may be for pins to stand beside its texts, in the page's letters
LEAST_VALUE = 1.5  # how wide a value is at least, in the page's letters
HALVES = ("label", "value", "index")  # texts of a cell

Chips = dict[int, dict[str, str] | None]  # of each actor what it is about to do; nothing of one that is in no call

# The page's own colours: by day, and in the dark. Letters have a contrast of 4.5 at least.
COLOURS = {
    "text": ("#222222", "#ececec"), "soft": ("#595959", "#b6b9be"), "ground": ("#ffffff", "#17191c"),
    "band": ("#f1f1ee", "#25282d"), "line": ("#b9b9b4", "#565b63"), "mark": ("#fff0b8", "#4b4017"),
    "warned": ("#fbe3d2", "#50301a"), "depends": ("#d7ebf9", "#1d4259"), "asked": ("#9c4500", "#ff9f5c"),
    "focus": ("#0059b3", "#7cc0ff"),
}
# Of an actor's lines, letters and ground in the dark, by the order of `figure.ACTORS`.
IN_THE_DARK = [
    ("#3f8cff", "#8fbcff", "#1a3560"), ("#21b48a", "#4fd6ad", "#123f33"), ("#cc79a7", "#eda9cd", "#47293a"),
    ("#5cc8f0", "#9fe2fa", "#154554"), ("#e69f00", "#f2bb45", "#4a370b"), ("#d0d0d0", "#e4e4e4", "#3b3b3b"),
]
TINTS = ["#cce3f0", "#ccece3", "#f5e4ed", "#ddf0fb", "#faecca", "#d9d9d9"]  # of an actor's ground by day
ACTORS_BY_DAY = [(*colours_of_actor, tint) for colours_of_actor, tint in zip(ACTORS, TINTS)]


def variables(names: dict[str, str]) -> str:
    """Values of CSS by their names."""
    return " ".join(f"--{name}: {value};" for name, value in names.items())


def colours() -> str:
    """The colours as CSS, by day and in the dark: those of the page, and those of actors."""
    themes = []
    for theme, actors in enumerate((ACTORS_BY_DAY, IN_THE_DARK)):
        rules = [f":root {{ {variables({name: pair[theme] for name, pair in COLOURS.items()})} }}"]
        for number, values in enumerate(actors, 1):
            rules.append(f".a{number} {{ {variables(dict(zip(('colour', 'dark', 'tint'), values)))} }}")
        themes.append("\n".join(rules))
    day, night = themes
    return f"{day}\n@media screen and (prefers-color-scheme: dark) {{\n{night}\n}}"


# ---- Rooms ----------------------------------------------------------------------------------------

# What room the pins of a place have: of each kind of place, where they are.
WHERE = {
    "qhead": "qhead", "qtail": "qtail", "head": "below", "tail": "above", "next": "content", "cell": "label",
    "value": "value", "index": "index", "ahead": "below", "atail": "above", "acell": "value", "whole": "whole",
}


def pins_of(chips: Chips) -> Counter[str]:
    """How many pins a place of each kind has at most at a moment, and a line of the pseudo-code."""
    abouts = [about for about in chips.values() if about]
    needs = Counter(point=max(Counter(about["point"] for about in abouts).values(), default=0))
    for place, count in Counter(about["place"] for about in abouts if about["place"]).items():
        needs |= Counter({WHERE[Place.read(place).kind]: count})  # the greater one
    return needs


class Rooms:
    """How much room texts and pins need at most in the moments that it has taken. What never stood there has none."""

    def __init__(self) -> None:
        self.pins: Counter[str] = Counter()
        self.widths = dict.fromkeys(("marker", "name", *HALVES, "next"), 0.0)  # that of values in letters of size 1
        self.digits, self.warns = 0, False  # of the longest value, and whether a cell was unsafe
        self.measured: set[tuple[str, str]] = set()  # places with a content that was there

    def take_least(self) -> None:
        """Takes what most runs have, so that little moves in one that goes on."""
        self.pins |= Counter(dict.fromkeys({*WHERE.values(), "point"}, 1))
        least = {"head 0.0": "10", "next 0.0": "10.0", "cell 0.0 0": "1 10 none", "acell 0": "value 10"}
        for place, content in least.items():
            self.measure(Place.read(place), content)

    def take(self, state: State, chips: Chips) -> None:
        """Takes a moment too."""
        for name, content in state.places.items() - self.measured:
            self.measure(Place.read(name), content)
        self.measured |= state.places.items()
        self.pins |= pins_of(chips)

    def measure(self, place: Place, content: str) -> None:
        """Makes room for what stands at a place with this content."""
        last = content.split(" ")[-1]
        if place.kind in ("head", "tail", "ahead", "atail"):
            self.widen("marker", f"head {last} →", 0.9, True)
        if place.kind in ("next", "qhead", "qtail"):
            self.widen("next", content, 0.9, True)
            self.widen("name", f"segment {place.segment or content}", 1.0, True)
        if place.kind == "cell":
            self.widen("label", f"cell {place.index}", 0.85)
            self.widen("index", f"idx {Cell.read(content).index}", 0.85)
            self.warns = self.warns or not Cell.read(content).is_safe
        if place.kind in ("cell", "acell") and last.isdecimal():
            self.widen("value", last, 1.0, True)
            self.digits = max(self.digits, len(last))

    def widen(self, kind: str, text: str, size: float, bold: bool = False) -> None:
        """Makes room for a text of this kind."""
        self.widths[kind] = max(self.widths[kind], width_of(text, size, bold))

    def css(self) -> str:
        """The rooms as CSS."""
        size = LARGE if self.digits <= SHORT else SMALLER
        widths, rules = self.widths | {"value": max(LEAST_VALUE, size * self.widths["value"])}, []
        for kind, count in sorted(self.pins.items()):
            wide, high = DISC * min(PINS, count), DISC * -(-count // PINS)
            rules.append(f".p-{kind} {{ width: {wide:.2f}rem; min-height: {high:.2f}rem; }}")
            if kind in ("above", "below"):  # their pins stand in the room of other cells
                rules.append(f".place.{kind} {{ min-height: {high + 0.1:.2f}rem; }}")
            elif kind in widths and widths[kind] + wide > max(CELL, *(widths[half] for half in HALVES)):
                rules.append(f".place.{kind} {{ flex-direction: column; align-items: flex-start; }}")
        rules += [] if self.warns else [".warning { display: none; }"]
        sizes = {f"{kind}-room": f"{width:.2f}rem" for kind, width in widths.items()} | {"value-size": f"{size}rem"}
        return "\n".join([f":root {{ {variables(sizes)} }}", *rules])
