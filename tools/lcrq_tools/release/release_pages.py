"""The pages of the archive that `tools/release.py` makes, by pandoc, of the pages of the repository.

A page of the archive names what is in the archive. So a page of the repository may have passages
with two readings, the first as it is read there, the second in a comment:

    <!-- repository -->`examples/` at the top of the repository<!-- archive: `examples/` -->
    <!-- all lessons -->Fifteen lessons<!-- chosen lessons: Lessons -->

The second of the first pair is what the archive has, that of the second pair only where lessons are
chosen. A mark without its other ends the making in one line. So does one that begins a line of
text, which Markdown would take for HTML, and a comment in a line of text that has an empty line in
it. A link to a page of the archive leads there, any other one becomes text.
"""

import base64
import json
import mimetypes
import re
import tempfile
from collections.abc import Callable
from dataclasses import dataclass
from pathlib import Path
from string import Template
from typing import TypedDict

from lcrq_tools import program
from lcrq_tools.faults import Fault
from lcrq_tools.program import EXAMPLES, TOP
from lcrq_tools.release.elements import Element, Json, element, elements_in, text_in
from lcrq_tools.release.worksheet import key_of, numbered, worksheet_of

DOCS = TOP / "docs"
SCHEMA = DOCS / "trace.schema.json"
LESSONS = {int(path.name[:2]): path for path in sorted(EXAMPLES.glob("[0-9]*.md"))}  # by number
SHORT = 30  # letters of code in a line of text that a page does not part
HANDED_OUT = (".script", ".history", ".trace", ".report", ".svg")  # of the examples
PORT = EXAMPLES / "port"  # the worked port, which the manual names
MARKS = {"repository": "archive", "all lessons": "chosen lessons"}
ANSWER = "<details><summary>Answer</summary>"  # how the answer to an exercise begins
TEMPLATE, STYLE = (Path(__file__).with_suffix(ending) for ending in (".html", ".css"))

# ---- What is chosen ------------------------------------------------------------------------------


@dataclass(frozen=True)
class Choice:
    """The lessons of an archive, by their numbers, and where the answers to their exercises are."""

    lessons: tuple[int, ...]
    answers: str  # "with" each exercise, "apart" on a page of their own, or "none"
    worksheet: bool = False  # whether the columns of the lessons' tables are empty
    paper: str = "A4"

    @property
    def is_all(self) -> bool:
        """Whether all lessons are chosen."""
        return len(self.lessons) == len(LESSONS)

    def pages(self) -> dict[str, list[Path]]:
        """The pages of the archive, each with its sources."""
        lessons = [LESSONS[number] for number in self.lessons]
        pages = {
            "manual": [DOCS / "MANUAL.md"],
            "recipes": [DOCS / "RECIPES.md"],
            "model": [DOCS / "MODEL.md"],
            "guide": [EXAMPLES / "guide.md"],
            "lessons": [EXAMPLES / "README.md", *lessons],
        }
        return pages | ({"answers": lessons} if self.answers == "apart" else {})


def read_for(choice: Choice, source: Path) -> str:
    """The text of a page of the repository with what the archive has in the place of its marks."""
    try:
        text = source.read_text(encoding="utf-8")
    except OSError as fault:
        raise Fault(f"{source} can't be read: {fault.strerror}") from fault
    names = "|".join([*MARKS, *MARKS.values()])
    if begins := re.search(rf"^ *(?:<!-- (?:{names})\b.*?)?-->.*\S", text, re.MULTILINE):
        raise Fault(f"{source}: a mark begins this line of text: {begins[0]}")
    if parted := re.search(rf"\S.*<!-- (?:{names}):(?:(?!-->).|\n(?!\n))*\n\n", text):
        raise Fault(f"{source}: a mark in a line of text has an empty line in it: {parted[0].splitlines()[0]}")
    for first, second in MARKS.items():
        taken = 1 if first == "all lessons" and choice.is_all else 2
        pair = re.compile(rf"<!-- {first} -->((?:(?!<!-- {first} ).)*?)<!-- {second}:\s?(.*?)\s?-->", re.DOTALL)
        text = pair.sub(rf"\{taken}", text)
    if left := re.search(rf"<!-- ({names})\b", text):
        raise Fault(f"{source}: the mark {left[0]} --> has no other")
    return text


# ---- Documents -----------------------------------------------------------------------------------

PLAIN = ["", [], []]  # the attributes of an element without any


class Document(TypedDict):
    """A document, as far as it is changed here."""

    blocks: list[Element]


def pandoc(words: list[str], given: bytes) -> bytes:
    """What pandoc writes."""
    ended = program.run(["pandoc", *words], given)
    if ended.status:
        raise Fault(f"pandoc {' '.join(words)}: {ended.errors.strip()}")
    return ended.output


def changed(value: Json, change: Callable[[Element], Element]) -> Json:
    """A part of a document with what `change` makes of each of its elements, inner ones first."""
    if isinstance(value, list):
        return [changed(part, change) for part in value]
    if not isinstance(value, dict):
        return value
    inside: Json = {key: changed(part, change) for key, part in value.items()}
    return change(inside) if "t" in inside else inside




def span(inlines: list[Element]) -> Element:
    """Inlines as one element."""
    return element("Span", PLAIN, inlines)


def words(text: str) -> list[Element]:
    """A text as inlines."""
    return [{"t": "Str", "c": text}]


# ---- A page of the repository in a page of the archive -------------------------------------------


@dataclass(frozen=True)
class Part:
    """A page of the repository as a part of a page of the archive."""

    choice: Choice
    page: str
    source: Path

    def document(self) -> Document:
        """It as pandoc reads it."""
        text = read_for(self.choice, self.source)
        whole: Document = json.loads(pandoc(["-f", "gfm", "-t", "json"], text.encode()))
        return whole

    def text(self) -> str:
        """It as text, with links that lead to the pages of the archive."""

        def led(found: re.Match[str]) -> str:
            """A link in the text, where it leads in the archive."""
            target = self.target_of(found[3])
            return f"{found[1]}[{found[2]}]({target})" if target else found[2]

        return LINK.sub(led, read_for(self.choice, self.source))

    def page_of(self, file: Path) -> str | None:
        """The page of the archive that has a file of the repository; of a lesson the one with it whole."""
        pages = self.choice.pages().items()
        return next((page for page, sources in pages if file in sources and page != "answers"), None)

    def is_first(self, file: Path) -> bool:
        """Whether a file is the first of its page, on which the others follow below its heading."""
        page = self.page_of(file)
        return page is not None and self.choice.pages()[page][0] == file

    def anchor(self, file: Path, fragment: str) -> str:
        """The name that a heading of a file has on its page; of the file's own, with no fragment."""
        return "-".join(filter(None, ("" if self.is_first(file) else file.stem, fragment)))

    def file_of(self, url: str) -> Path:
        """The file to which a link leads."""
        path = url.partition("#")[0]
        return (self.source.parent / path).resolve() if path else self.source

    def target_of(self, url: str) -> str | None:
        """Where a link leads in the archive; none if nowhere."""
        if "://" in url:
            return url
        file, fragment = self.file_of(url), url.partition("#")[2]
        leads_to = self.page_of(file)
        if leads_to:
            page = "" if leads_to == self.page else f"{leads_to}.html"
            name = self.anchor(file, fragment)
            return f"{page}#{name}" if name or not page else page
        if file == SCHEMA:
            return SCHEMA.name
        is_example = file.parent == PORT or file.parent == EXAMPLES and file.suffix in HANDED_OUT
        is_there = is_example and is_chosen(file, self.choice)
        return f"../examples/{file.relative_to(EXAMPLES)}" if is_there else None

    def text_of(self, link: Element) -> list[Element]:
        """The text of a link. Where that is the name of a page of the repository, it is the name of
        the page in the archive."""
        inlines: list[Element] = link["c"][1]
        page = self.page_of(self.file_of(link["c"][2][0]))
        return words(f"{page}.html") if text_in(inlines).endswith(".md") and page else inlines

    def linked(self, link: Element) -> Element:
        """A link as it is on a page of the archive."""
        attributes, _, (url, title) = link["c"]
        target, text = self.target_of(url), self.text_of(link)
        return element("Link", attributes, text, [target, title]) if target else span(text)

    def with_picture(self, image: Element) -> Element:
        """An image with its picture in it."""
        attributes, inlines, (url, title) = image["c"]
        try:
            data = base64.b64encode((self.source.parent / url).read_bytes()).decode()
        except OSError as fault:
            raise Fault(f"{self.source}: its picture {url} can't be read: {fault.strerror}") from fault
        inside = f"data:{mimetypes.guess_type(url)[0]};base64,{data}"
        return element("Image", attributes, inlines, [inside, title])

    def with_chosen(self, table: Element) -> Element:
        """A table without the rows that lead to lessons that are not chosen."""
        *others, bodies, foot = table["c"]
        left_out = {path for number, path in LESSONS.items() if number not in self.choice.lessons}

        def is_kept(row: Json) -> bool:
            """Whether no link of a row leads to a lesson that is left out."""
            links = (part["c"][2][0] for part in elements_in(row) if part["t"] == "Link")
            return left_out.isdisjoint(map(self.file_of, links))

        return element("Table", *others, [[*body[:3], [*filter(is_kept, body[3])]] for body in bodies], foot)

    def for_page(self, part: Json) -> Element:
        """An element as its page has it. Lessons are below the heading of their page, a browser
        finds the widths of columns itself, code has no colours, and a short one no end of a line in
        it."""
        match part:
            case {"t": "Link"}:
                return self.linked(part)
            case {"t": "Image"}:
                return self.with_picture(part)
            case {"t": "Header", "c": [level, [name, *attributes], inlines]}:
                is_first = self.is_first(self.source)
                name = self.anchor(self.source, name if level > 1 or is_first else "")
                return element("Header", level if is_first else level + 1, [name, *attributes], inlines)
            case {"t": "ColWidth"}:
                return {"t": "ColWidthDefault"}
            case {"t": "Code", "c": [_, text]}:
                return element("Code", ["", ["short"] if len(text) <= SHORT else [], []], text)
            case {"t": "CodeBlock", "c": [[_, classes, _], text]}:
                return element("CodeBlock", ["", [], [["language", *classes]] if classes else []], text)
        return numbered(part)

    def blocks(self) -> list[Element]:
        """Its blocks on the page of the archive."""
        whole = self.document()["blocks"]
        if self.source == EXAMPLES / "README.md":
            whole = [self.with_chosen(block) if block["t"] == "Table" else block for block in whole]
        blocks: list[Element] = changed(whole, self.for_page)
        is_lesson = self.source in LESSONS.values()
        if self.page == "answers":
            key = key_of(blocks) if self.choice.worksheet else []
            return [blocks[0], *key, *answers_in(blocks)[1:]]
        blocks = without_answers(blocks) if is_lesson and self.choice.answers != "with" else blocks
        return worksheet_of(blocks) if is_lesson and self.choice.worksheet else blocks


LINK = re.compile(r"(!?)\[([^][]*)\]\(([^()\s]+)\)")


def is_chosen(path: Path, choice: Choice) -> bool:
    """Whether a file of the examples goes with the chosen lessons: it has a lesson's number, or no
    lesson names it, or a chosen one does."""
    if path.parent == PORT:
        return True
    if path.name[:2].isdecimal():
        return int(path.name[:2]) in choice.lessons
    name = re.compile(rf"(?<![\w-]){re.escape(path.stem)}\.(?:script|svg|trace)\b")
    those = {number for number, page in LESSONS.items() if name.search(page.read_text(encoding="utf-8"))}
    return not those or bool(those.intersection(choice.lessons))


# ---- Answers -------------------------------------------------------------------------------------


def bounds_of_answer(blocks: list[Element]) -> tuple[int, int]:
    """Where the folded answer of a lesson begins and ends."""
    html = [block["c"][1].strip() if block["t"] == "RawBlock" else "" for block in blocks]
    if html.count(ANSWER) != 1:
        raise Fault(f"{text_in(blocks[0])}: it has {html.count(ANSWER)} folded answers")
    begin = html.index(ANSWER)
    return begin, html.index("</details>", begin)


def without_answers(blocks: list[Element]) -> list[Element]:
    """A lesson without the answer to its exercise."""
    begin, end = bounds_of_answer(blocks)
    return blocks[:begin] + blocks[end + 1:]


def answers_in(blocks: list[Element]) -> list[Element]:
    """A lesson's exercise and its answer, under the lesson's heading."""
    begin, end = bounds_of_answer(blocks)
    exercise = max(index for index, block in enumerate(blocks[:begin]) if block["t"] == "Header") + 1
    answer = element("Para", element("Strong", *words("Answer")))
    return [blocks[0], *blocks[exercise:begin], answer, *blocks[begin + 1: end]]


# ---- Pages ---------------------------------------------------------------------------------------


def template_of(page: str, choice: Choice) -> str:
    """The template by which pandoc makes a page, with the style and the links to the other pages. What has
    two dollars in the file is a variable of pandoc's."""
    shown = [name for name in choice.pages() if name in (page, "manual", "recipes", "model", "guide", "lessons")]
    names = (name if name == page else f'<a href="{name}.html">{name}</a>' for name in shown)
    template = Template(TEMPLATE.read_text(encoding="utf-8"))
    return template.substitute(style=STYLE.read_text(encoding="utf-8").rstrip(), nav=" · ".join(names))


def page_of(page: str, version: str, choice: Choice, run_pages: list[str]) -> bytes:
    """A page of HTML. After the heading of a lesson come links to the pages of its runs."""
    whole = Part(choice, page, choice.pages()[page][0]).document()
    blocks: list[Element] = []
    if page == "answers":
        blocks.append(element("Header", 1, ["answers", [], []], words("Answers to the exercises")))
    for source in choice.pages()[page]:
        first, *others = Part(choice, page, source).blocks()
        is_lesson = page == "lessons" and source in LESSONS.values()
        runs = [name for name in run_pages if is_lesson and name.startswith(source.stem)]
        links = [element("Link", PLAIN, words(name), [f"../examples/{name}", ""]) for name in runs]
        line = [inline for link in links for inline in (*words(", "), link)][1:]
        blocks += [first, *([element("Para", *words("Step by step: "), *line)] if line else []), *others]
    with tempfile.NamedTemporaryFile("w", suffix=".html", encoding="utf-8") as template:
        template.write(template_of(page, choice))
        template.flush()
        options = ["-f", "json", "-t", "html5", "--standalone", f"--template={template.name}"]
        options += ["--toc", "--toc-depth=2", "-M", f"pagetitle=lcrqdb {version}: {page}"]
        return pandoc(options, json.dumps({**whole, "blocks": blocks}).encode())
