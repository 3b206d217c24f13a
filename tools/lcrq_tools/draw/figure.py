"""The tools that draw take from here the session whose replies they draw, the elements of SVG, colours and sizes.

A figure's text is plain: no script, no font of its own, and a title and a description in words.
"""

import argparse
import functools
import itertools
from collections.abc import Callable, Iterable, Iterator, Sequence
from contextlib import contextmanager
from pathlib import Path
from xml.etree import ElementTree
from xml.etree.ElementTree import Element

from lcrq_tools import history
from lcrq_tools.faults import Fault, say
from lcrq_tools.options import MOST_ACTORS, start_words, write
from lcrq_tools.program import Broken, Driven, bytes_of, lines_of, refusals_of, run, world_of
from lcrq_tools.records import Counts, content_of

# The colours of Okabe and Ito: of an actor's dots and lines, and darker for its words. Their
# vermilion is that of `--undo` and `--roll`, and of what is unsafe or closed.
ACTORS = [
    ("#0072b2", "#005a8c"),
    ("#009e73", "#006b4e"),
    ("#cc79a7", "#8f3c6a"),
    ("#56b4e9", "#1c6791"),
    ("#e69f00", "#855c00"),
    ("#000000", "#000000"),
]
ASKED, ASKED_WORDS, SHADE = "#d55e00", "#9c4500", 0.2
BAND, GROUND, LANE, GREY, DARK = "#f1f1ee", "#ffffff", "#b9b9b4", "#6a6a6a", "#222222"
FONTS = "DejaVu Sans, Verdana, sans-serif"

# Sizes, in pixels.
MARGIN = 16
SMALL, PLAIN, HEAD = 10, 11, 12

MOST_MEASURED = 1 << 14  # texts whose widths are kept
MOST_CELLS = 64  # that are asked for, to see how many a ring has

# How wide a letter is, as a part of the size, in a wide font; other letters are as wide as NORMAL.
WIDTHS = {"ijl.,:;|'! ": 0.34, "frt-()": 0.44, "mwMW→": 0.98, "ABCDEGHNOQRSTUV": 0.75}
NORMAL, BOLD = 0.64, 1.1


# ---- What the program replies ---------------------------------------------------------------------


class Session:
    """The session that a script or a history leaves: each question is asked of a new run of it."""

    def __init__(self, arguments: argparse.Namespace) -> None:
        self.arguments, self.words = arguments, words_of(arguments)
        self.script, self.viewers = given_of(arguments)
        self.lines = lines_of(self.script.decode("latin-1"))  # whose letters are their bytes
        trace: str | None = arguments.trace
        takes_refused: bool = arguments.refused
        self.over = f"{trace}: " if trace else ""  # what a fault of the program names
        cells = [f"show index 0.0 {cell}" for cell in range(MOST_CELLS)]
        actors = [f"actor {actor}" for actor in range(1, MOST_ACTORS + 1)]
        asked = ["len", *cells, *actors]
        replies = self.replies_to([*self.lines, *asked])
        given, about = replies[:-len(asked)], replies[-len(asked):]
        if len(about) < len(asked) or not about[0].startswith("at "):
            raise Fault(f"{self.words[0]} does not reply as lcrqdb does")
        counts = Counts.read(about[0])
        self.live, self.undone = counts.live, counts.undone
        self.ring = sum(map(bool, map(content_of, about)))
        self.actors = sum(reply.startswith("actor ") for reply in about)
        self.refused, has_fault = refusals_of(self.script, given)
        if has_fault and not takes_refused:
            raise Fault(f"{self.refused}; --refused draws it all the same")

    def at(self, line: int) -> "Session":
        """The session that so many of its lines leave."""
        return Session(argparse.Namespace(**vars(self.arguments) | {"lines": line}))

    def text(self, line: int) -> str:
        """A line as a page shows it; nothing before the first one."""
        return self.lines[line - 1].encode("latin-1").decode("ascii", "replace") if line else ""

    def world(self) -> str:
        """What the world is, in words."""
        return world_of(self.actors, self.ring)

    def replies_to(self, lines: Iterable[str]) -> list[str]:
        """The replies to these lines alone, whose letters are their bytes."""
        ended = run(self.words, "".join(f"{line}\n" for line in lines).encode("latin-1"))
        if ended.status:
            raise Fault(self.over + (ended.errors.strip() or f"the program ended with status {ended.status}"))
        return ended.output.decode("ascii").splitlines()

    def replies_to_parts(self, parts: Sequence[Sequence[str]]) -> list[list[str]]:
        """The replies to the lines of each part, all in one run."""
        replies = iter(self.replies_to(itertools.chain(*parts)))
        return [[*itertools.islice(replies, len(part))] for part in parts]

    def ask_parts(self, parts: Iterable[Sequence[str]]) -> list[list[str]]:
        """The replies to the lines of each part after the script."""
        return self.replies_to_parts([self.lines, *parts])[1:]

    def ask(self, lines: Sequence[str]) -> list[str]:
        """The replies to these lines after the script."""
        return self.ask_parts([lines])[0] if lines else []

    @contextmanager
    def driven(self, what: str) -> Iterator[Driven]:
        """A run that is asked line by line, for what these words name."""
        try:
            with Driven(self.words) as driven:
                yield driven
        except (Broken, OSError) as fault:
            raise Fault(f"{what} can't be asked for: {fault}") from fault

    def moved_to(self, first: int) -> list[str]:
        """Lines that undo all steps, and then make those before this one."""
        moves = [f"forward {self.undone}", f"back {self.live + self.undone}", f"forward {first - 1}"]
        return [line for line in moves if not line.endswith(" 0")]


def words_of(arguments: argparse.Namespace) -> list[str]:
    """The words that start the program."""
    program: str = arguments.program
    return [program, *start_words(arguments.trace, arguments.actors, arguments.ring)]


def given_of(arguments: argparse.Namespace) -> tuple[bytes, tuple[int, ...]]:
    """The bytes of the lines that are run, and of a history the viewer who asked each of them."""
    name: str | None = arguments.history
    lines: int | None = arguments.lines
    if name is None:
        return script_of(arguments.script, lines), ()
    calls = history.read(name).first(lines)
    return calls.script(), calls.viewers


def script_of(name: str, count: int | None) -> bytes:
    """The bytes of a script, or of so many first lines, with a line feed after the last one."""
    try:
        script = bytes_of(name)
    except OSError as fault:
        raise Fault(f"{name}: {fault.strerror}") from fault
    lines = script.removesuffix(b"\n").split(b"\n") if script else []
    return b"".join(line + b"\n" for line in lines[:count])


def in_order(nexts: dict[str, str], ends: Sequence[str]) -> tuple[list[str], list[str]]:
    """The names of linked segments in the order of their links, and then the other ones, by what follows
    each and by the queue's ends."""
    named = set(nexts.values())
    begins = [name for name in nexts if name not in named and (name in ("0.0", *ends) or nexts[name] != "none")]
    linked: dict[str, None] = {}
    for name in [*begins, *ends, *(name for name in nexts if name in named)]:
        while name in nexts and name not in linked:
            linked[name] = None
            name = nexts[name]
    return [*linked], [name for name in nexts if name not in linked]


# ---- Elements of SVG ------------------------------------------------------------------------------


@functools.lru_cache(MOST_MEASURED)
def width_of(text: str, size: float, bold: bool = False) -> float:
    """How wide a text may be, as a wide font has it."""
    wide = sum(next((width for letters, width in WIDTHS.items() if letter in letters), NORMAL) for letter in text)
    return wide * size * (BOLD if bold else 1)


def element(name: str, text: str | None = None, /, **values: object) -> Element:
    """An element of SVG; `_` in a name is `-`, and a value of None is left out."""
    given = {key.rstrip("_").replace("_", "-"): number(value) for key, value in values.items() if value is not None}
    made = Element(name, given)
    made.text = text
    return made


def number(value: object) -> str:
    """A value as text: a number with a fraction of one digit at most."""
    return f"{value:.1f}".removesuffix(".0") if isinstance(value, float) else str(value)


def words_at(
    x: float, y: float, text: str, size: float, fill: str, anchor: str = "start", bold: bool = False
) -> Element:
    """A text at this point."""
    weight = "bold" if bold else None
    return element("text", text, x=x, y=y, font_size=size, fill=fill, text_anchor=anchor, font_weight=weight)


def colour_of(actor: int) -> tuple[str, str]:
    """The colours of an actor: of its dots, and of its words."""
    return ACTORS[(actor - 1) % len(ACTORS)]


def mixed(colour: str, ground: str, part: float) -> str:
    """The colour that is seen where this part of it is over a ground."""
    pairs = [(int(colour[digit: digit + 2], 16), int(ground[digit: digit + 2], 16)) for digit in (1, 3, 5)]
    return "#" + "".join(f"{round(part * over + (1 - part) * under):02x}" for over, under in pairs)


def group(kind: str, inside: Iterable[Element], **values: object) -> Element:
    """Elements as one, of this class."""
    made = element("g", class_=kind, **values)
    made.extend(inside)
    return made


def xml_of(root: Element) -> str:
    """An element as ElementTree writes it, but that an empty one ends without a blank. As `>` is escaped, there is no
    other ` />`."""
    return ElementTree.tostring(root, "unicode").replace(" />", "/>")


def svg(title: str, about: str, width: float, height: float, inside: Iterable[Element]) -> str:
    """A whole figure on a white ground of its own, with its title and its description: an element a line.
    Groups that have nothing in them are left out."""
    root = element(
        "svg", xmlns="http://www.w3.org/2000/svg", width=width, height=height, viewBox=f"0 0 {width} {height}",
        role="img", font_family=FONTS,
    )
    ground = element("rect", width=width, height=height, fill=GROUND)
    root.extend([element("title", title), element("desc", about), ground])
    root.extend(child for child in inside if child.tag != "g" or len(child))
    ElementTree.indent(root, "")
    return xml_of(root) + "\n"


# ---- The command line -----------------------------------------------------------------------------


def kind_of(arguments: argparse.Namespace) -> str:
    """What is run: a script or a history."""
    return "script" if arguments.history is None else "history"


def script_name(arguments: argparse.Namespace) -> str:
    """What a title calls the script or the history."""
    name: str = arguments.script if arguments.history is None else arguments.history
    return f"a {kind_of(arguments)}" if name == "-" else Path(name).name


def write_drawn(arguments: argparse.Namespace, drawn_of: Callable[[argparse.Namespace], tuple[str, str]]) -> int:
    """Writes the text that `drawn_of` makes of a command line, which comes with what to say of the
    script's refused lines; returns the exit status."""
    drawn, refused = drawn_of(arguments)
    write(arguments.out, drawn)
    if refused:
        say(refused)
    return 0
