"""The handout of a class: the queue on two pages, and the chosen lessons for paper. `release.py` lays it into its
archive as docs/handout.html, and prints it.

It takes the lessons from their pages as the archive has them (`release_pages.py`), with numbered lines and without
links. `worksheet.py` empties the columns that students fill in, and `paper.py` cuts the pictures. The second line
of a lesson says which other lessons it needs.
"""

import argparse
import json
import re
from collections.abc import Iterable, Iterator
from html import escape
from pathlib import Path
from string import Template

from lcrq_tools import model
from lcrq_tools.faults import Fault
from lcrq_tools.release import paper
from lcrq_tools.release.elements import Element, Json, text_in
from lcrq_tools.release.release_pages import (
    ANSWER, DOCS, LESSONS, Choice, Part, changed, pandoc, span, words,
)
from lcrq_tools.release.worksheet import worksheet_of

PAPERS = ("A4", "Letter")
TEMPLATE, STYLE = (Path(__file__).with_suffix(ending) for ending in (".html", ".css"))
MODEL, QUEUE, MACHINE = DOCS / "MODEL.md", "The queue", "The machine"
NEEDS = re.compile(r"^Needs: (.*?), about \d+ minutes\.$", re.MULTILINE)
ANSWERS = "answers"  # what the pages with them are called, in the archive of their own too

# ---- Options --------------------------------------------------------------------------------------


def add_options(parser: argparse.ArgumentParser) -> None:
    """Adds the options of a handout."""
    about = "also the lessons that these need, and those that they need"
    parser.add_argument("--with-needed", action="store_true", help=about)
    about = "leave the columns of the lessons' tables empty, for a class to fill in"
    parser.add_argument("--worksheet", action="store_true", help=about)
    parser.add_argument("--paper", choices=PAPERS, default=PAPERS[0], help="what is printed on (A4)")


def choice_of(given: argparse.Namespace) -> Choice:
    """What a command line chooses."""
    lessons = with_needed(given.lessons) if given.with_needed else given.lessons
    return Choice(lessons, given.answers, given.worksheet, given.paper)


# ---- Which lessons are needed ---------------------------------------------------------------------


def needs_of(number: int) -> list[int]:
    """The lessons that a lesson needs, as it says itself."""
    page = LESSONS[number]
    found = NEEDS.search(page.read_text(encoding="utf-8"))
    if not found:
        raise Fault(f"{page} doesn't say which lessons it needs")
    ranges = re.sub(r"(\d+) to (\d+)", lambda it: " ".join(map(str, range(int(it[1]), int(it[2]) + 1))), found[1])
    return [int(it) for it in re.findall(r"\d+", ranges)]


def with_needed(lessons: Iterable[int]) -> tuple[int, ...]:
    """Lessons with those that they need, and that these need."""
    found: set[int] = set()
    left = [*lessons]
    while left:
        number = left.pop()
        left += [it for it in needs_of(number) if it not in found]
        found.add(number)
    return tuple(sorted(found))


def lacks_of(lessons: tuple[int, ...]) -> str:
    """What to say of lessons that need others which aren't chosen; nothing, if none does."""
    lacks = {number: [it for it in needs_of(number) if it not in lessons] for number in lessons}
    said = [f"lesson {number} needs {', '.join(map(str, them))}" for number, them in lacks.items() if them]
    return f"{'; '.join(said)}: not chosen, and --with-needed brings them" if said else ""


# ---- Two archives ---------------------------------------------------------------------------------


def archives_of(name: str, files: dict[str, bytes]) -> dict[str, dict[str, bytes]]:
    """The archives with these files: the answers apart have one of their own, for the teacher."""
    apart = {path: data for path, data in files.items() if Path(path).stem == ANSWERS}
    others = {path: data for path, data in files.items() if path not in apart}
    return {name: others} | ({f"{name}-{ANSWERS}": apart} if apart else {})


# ---- Blocks for paper -----------------------------------------------------------------------------


def html(text: str) -> Element:
    """HTML as a block."""
    return {"t": "RawBlock", "c": ["html", text]}


def in_section(kind: str, blocks: list[Element]) -> list[Element]:
    """Blocks as a section of a kind."""
    return [html(f'<section class="{kind}">'), *blocks, html("</section>")]


class Sheets:
    """The parts of a handout, whose pictures are counted."""

    def __init__(self, choice: Choice) -> None:
        self.choice, self.pictures = choice, 0
        self.document: Json = {}  # what pandoc has beside blocks

    def figure(self, path: Path, about: str) -> Element:
        """A picture."""
        self.pictures += 1
        try:
            svg = path.read_text(encoding="utf-8")
        except OSError as fault:
            raise Fault(f"the picture {path} can't be read: {fault.strerror}") from fault
        return html(paper.figure_of(svg, f"picture-{self.pictures}", about))

    def for_paper(self, element: Element, part: Part) -> Element:
        """An element as paper has it: a picture cut, a link as its text, and a heading below that of all."""
        kind = element["t"]
        inside: Json = element.get("c")
        if kind == "Link":
            return span(part.text_of(element))
        if kind == "Para" and [it["t"] for it in inside] == ["Image"]:
            _, about, (url, _) = inside[0]["c"]
            return self.figure(part.source.parent / url, text_in(about))
        if kind == "Header":
            level, (name, *attributes), inlines = inside
            return {"t": kind, "c": [level + 1, [f"{part.source.stem}-{name}", *attributes], inlines]}
        return element if kind == "Image" else part.for_page(element)

    def blocks_of(self, source: Path) -> list[Element]:
        """A page of the repository as blocks for paper."""
        part = Part(self.choice, "handout", source)
        self.document = part.document()
        blocks: list[Element] = changed(self.document["blocks"], lambda element: self.for_paper(element, part))
        return blocks

    def body(self, blocks: list[Element]) -> str:
        """Blocks as HTML."""
        return pandoc(["-f", "json", "-t", "html5"], json.dumps(self.document | {"blocks": blocks}).encode()).decode()

    def lesson(self, source: Path) -> list[Element]:
        """A lesson, with its answer or without."""
        blocks = self.blocks_of(source)
        begin = next(at for at, it in enumerate(blocks) if it["t"] == "RawBlock" and it["c"][1].strip() == ANSWER)
        answer: list[Element] = [{"t": "Para", "c": [{"t": "Strong", "c": words("Answer")}]}, *blocks[begin + 1: -1]]
        kept = [*blocks[:begin], *(answer if self.choice.answers == "with" else [])]
        return worksheet_of(kept) if self.choice.worksheet else kept

    def queue(self) -> list[Element]:
        """The queue: how it works and the code of its calls, on two pages."""
        blocks = self.blocks_of(MODEL)
        queue = section_of(blocks, QUEUE)
        picture = next(it for it in section_of(blocks, MACHINE) if it["t"] == "RawBlock")
        at = next(at for at, it in enumerate(queue) if it["t"] == "CodeBlock")
        code = {word: html(text) for word, text in listings().items()}
        first = [*queue[:at], code["enq"], picture]
        second = [code["deq"], code["aenq"], code["adeq"], *queue[at + 1:]]
        return [*in_section("queue", first), *in_section("queue", second)]


def section_of(blocks: list[Element], name: str) -> list[Element]:
    """The section with this heading."""
    heads = [at for at, it in enumerate(blocks) if it["t"] == "Header"]
    begin = next(at for at in heads if text_in(blocks[at]["c"][2]) == name)
    return blocks[begin: next((at for at in heads if at > begin), len(blocks))]


def listings() -> dict[str, str]:
    """The pseudo-code of each call, by its word in a script."""
    code = model.lines_of(MODEL.read_text(encoding="utf-8"))
    heads = {word: head for head, word in model.CALLS.items()}
    return {word: listing(heads[word], points) for word, points in code.items()}


def listing(head: str, points: dict[str, list[str]]) -> str:
    """The pseudo-code of a call."""
    rows = [f"{label if not at else '':<5}{line}" for label, lines in points.items() for at, line in enumerate(lines)]
    return f'<div class="listing"><h4>{escape(head)}</h4><pre>{escape(chr(10).join(rows))}</pre></div>'


# ---- The page -------------------------------------------------------------------------------------


def contents(choice: Choice) -> Iterator[str]:
    """A line for each lesson, with what it needs."""
    for number in choice.lessons:
        title = LESSONS[number].read_text(encoding="utf-8").partition("\n")[0].removeprefix(f"# {number}. ")
        title = title.replace("`", "")
        lacks = [it for it in needs_of(number) if it not in choice.lessons]
        more = f" It needs {', '.join(map(str, lacks))}, not in here." if lacks else ""
        yield f'<li value="{number}">{escape(title)}{"." if more else ""}{more}</li>'


def page_of(version: str, choice: Choice) -> bytes:
    """The handout as a page of HTML, which a browser prints."""
    sheets = Sheets(choice)
    kind = "worksheet" if choice.worksheet else "handout"
    queue = sheets.queue()
    lessons = [it for number in choice.lessons for it in in_section("lesson", sheets.lesson(LESSONS[number]))]
    title = f"lcrqdb {version}: {kind}"
    about = [html(f"<h1>{title}</h1>"), html("<ol>"), *map(html, contents(choice)), html("</ol>")]
    template = Template(TEMPLATE.read_text(encoding="utf-8"))
    text = template.substitute(
        title=title, paper=choice.paper, kind=kind, style=STYLE.read_text(encoding="utf-8").rstrip(),
        body=sheets.body([*queue, *in_section("contents", about), *lessons]),
    )
    return text.encode()
