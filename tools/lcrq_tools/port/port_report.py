"""Says what differs between a port and the model for `conform.py`, and writes the files about it: both sides
in the words of docs/MODEL.md, who wrote the places in question and who touched them since, a script, a
start, a picture and a page.
"""

import collections
import json
import re
from collections.abc import Callable, Iterable, Iterator
from html import escape
from pathlib import Path

from lcrq_tools import model
from lcrq_tools.draw import picture
from lcrq_tools.faults import FAULTS, text_of
from lcrq_tools.page import page
from lcrq_tools.port.port_compare import NEEDS_CHOICE, Comparison, Difference
from lcrq_tools.port.port_replay import trimmed
from lcrq_tools.program import script_of
from lcrq_tools.records import Actor, Cell, Place, Step, content_of
from lcrq_tools.speak.sentences import sentence
from lcrq_tools.speak.teller import asked_of, seen_of
from lcrq_tools.start import starts
from lcrq_tools.start.starts import Trace

ROWS = 25  # steps of the picture
PAGE_LINES = 100  # of the script, on the page
TOUCHES = 8  # steps that are named, of those that touched a place
FILES = ("to.script", "before.trace", "from.trace", "steps.svg", "steps.html")
Tool = Callable[[list[str]], int]  # the `main` of what draws a run, by the words of a command line
VERBS = {"reply": "replied ", "place": "accessed ", "access": "", "answer": "found "}  # for each kind of difference
ENDS = {"qhead": "QHead", "qtail": "QTail", "ahead": "ArrHead", "atail": "ArrTail"}
SEGMENT = re.compile(r"(?<![\w.])[0-9]+\.[0-9]+(?![\w.])")  # where a text names one

# ---- Words ---------------------------------------------------------------------------------------


def phrase_of(place: Place, content: str) -> str:
    """What is at a place, in a sentence."""
    match place.kind:
        case "index" | "cell":
            cell = Cell.read(content if place.kind == "cell" else f"{content} none")
            value = f" and {value_phrase(cell.value_half())}" if place.kind == "cell" else ""
            safe = "safe" if cell.is_safe else "unsafe"
            return f"cell {place.index} of {place.segment} is {safe} with index {cell.index}{value}"
        case "value":
            return f"cell {place.index} of {place.segment} has {value_phrase(content)}"
        case "head" | "tail" | "next":
            return f"{place.kind.capitalize()} of {place.segment} is {content}"
        case "acell":
            return f"slot {place.index} of the array is {content}"
    return f"{ENDS.get(place.kind, str(place))} is {content}"


def value_phrase(value: str) -> str:
    """A value, or that there is none, in a sentence."""
    return "no value" if value == "none" else f"the value {value}"


def said_of(found: Difference) -> str:
    """Both sides of a difference."""
    port, ours, point = found.port, found.model, found.point
    where = "in no call" if point == "Idle" else f"at {point}"
    match found.kind:
        case "line" if ours.startswith(NEEDS_CHOICE):
            side = f"at {port}" if port else "past the choice"
            return f"the port is {side}, the model {where}, with starve to choose"
        case "choice":
            side = f"at {port}" if port else "past the choice"
            return f"the port is {side}, the model {where}, whose record is missing"
        case "line":
            return f"the port is {f'at {port}' if port else 'in its call'}, the model {where}"
        case "call":
            return f"the port begins the call {port}, the model is {where} of another one"
        case "reply" if found.record.kind == "reply" and not ours:
            where = "in no call" if found.state.is_idle() else f"at {found.state.point}"
            return f"the port's call replied {port} after {point}, the model is {where}"
        case "words":
            return f"after {point} the port has {port}, the model {ours}"
        case "reuse":
            return f"{port} while {ours}"
        case "refused":
            return f"the model, at {point}, can't make this step: {ours}"
    verb = "" if port in ("won", "lost") else VERBS[found.kind]
    return f"at {point} the port {verb}{port}, the model {ours or 'goes on'}"


def emptied(folder: Path) -> None:
    """Makes a folder for the files about a difference, or takes those of an older run out of it."""
    folder.mkdir(parents=True, exist_ok=True)
    for name in FILES:
        (folder / name).unlink(missing_ok=True)


class About:
    """A difference, with what the program and the steps before it say about it."""

    def __init__(self, comparison: Comparison, found: Difference):
        self.replay, self.found, self.names = comparison.replay, found, comparison.names.names
        self.last = self.replay.steps.last_of(found.record.actor)
        self.actors = max([found.record.actor, *comparison.last])  # the highest of those that the log has so far
        self.last_point, self.last_step = self.replay.steps[self.last - 1] if self.last else ("", None)
        page = model.PAGE.read_text(encoding="utf-8")
        self.code_lines = {label: text for column in model.lines_of(page).values() for label, text in column.items()}

    def places(self) -> list[Place]:
        """The places in question: that of the actor's last step, and that of the model's next."""
        found = [step.place for step in (self.last_step, self.found.made) if step]
        return [place for place in dict.fromkeys(found) if place]

    def facts(self) -> Iterator[str]:
        """What the actor saw last, what is at the place of the model's step, and the position."""
        if self.found.record.kind == "reply" or self.found.kind == "reuse":
            return
        last, made, state = self.last_step, self.found.made, self.found.state
        if self.found.kind == "line" and last and last.access == "read" and last.answer not in ("won", "lost"):
            yield phrase_of(last.place, last.answer)
        if made:
            content = content_of(self.replay.ask([f"show {made.place}"])[0])
            if content and content != "exists":
                yield phrase_of(made.place, content)
        if self.found.point != "Idle":
            yield f"position {state.words['t' if state.call_word().endswith('enq') else 'h']}"

    def headline(self) -> str:
        """The difference in one line."""
        facts = list(dict.fromkeys(self.facts()))
        known = [fact for fact in facts if not any(other != fact and other.startswith(fact) for other in facts)]
        more = f": {', '.join(known)}" if known else ""
        return f"step {self.found.step}: {self.with_names(f'{said_of(self.found)}{more}')}"

    def with_names(self, text: str) -> str:
        """A text with the port's name of each segment beside the model's, where the text has it first."""
        seen: set[str] = set()

        def both(found: re.Match[str]) -> str:
            segment = found[0]
            name = segment if segment in seen else self.names.get(segment, segment)
            seen.add(segment)
            return segment if name == segment else f"{segment} ({name})"

        return SEGMENT.sub(both, text)

    def named(self, lines: list[str]) -> Iterator[str]:
        """The segments that these lines name, as the model and as the port has them."""
        segments = sorted(set(SEGMENT.findall(" ".join(lines))) & self.names.keys())
        pairs = [f"{segment}, {self.names[segment]}" for segment in segments if self.names[segment] != segment]
        if pairs:
            yield f"  names  {'; '.join(pairs)}"

    def step_text(self, number: int) -> str:
        """A step by its number in the log, its control point, its line and what it did."""
        point, step = self.replay.steps[number - 1]
        line = step.event if number > self.replay.before else "a step before the start"
        did = step.did() if step.reply else step.did().removesuffix("; -")
        return f"step {number}, `{line}` at {point}: {did}"

    def meaning(self, number: int, step: Step) -> Iterator[str]:
        """What a step did in words, by its number in the log; nothing of one before the start. The run goes there
        and back: to a step that it made, or to the model's next one."""
        later, own = self.replay.count() - number, f"actor {step.event.actor}"
        if number <= self.replay.before or not step.place:
            return
        there, back = [f"back {later + 1}"] * (later >= 0), [f"forward {later}" if later >= 0 else "back 1"]
        lines = [*there, own, "forward 1", own, *asked_of(step), *back]
        before, _, after, *about = self.replay.ask(lines)[len(there): -1]
        yield sentence(seen_of(step, Actor.read(before), Actor.read(after), about))

    def code(self, label: str) -> Iterator[str]:
        """The lines of the pseudo-code of a control point."""
        for number, text in enumerate(self.code_lines.get(label, [])):
            yield f"         {'' if number else label:5}{text}"

    def touched(self, place: Place) -> Iterator[str]:
        """Who wrote a place last, and who touched it since."""
        word, _, number = self.replay.ask([f"writer {place}"])[0].partition(" ")
        own = int(number) - self.replay.first if word == "writer" and number.isdecimal() else 0
        writer = self.replay.before + own if own > 0 else 0
        yield f"{place} was written by {self.step_text(writer) if writer else 'no step of this run'}"
        if writer:
            yield from (f"  {words}" for words in self.meaning(writer, self.replay.steps[writer - 1][1]))
        since = self.replay.steps.touching(place, (writer or self.replay.before) + 1)
        if since:
            more = f"{len(since) - TOUCHES} more, then " if len(since) > TOUCHES else ""
            yield f"  and touched since by {more}" + "; ".join(map(self.step_text, since[-TOUCHES:]))

    def text(self) -> Iterator[str]:
        """All lines that are said of the difference."""
        lines = [*self.details()]
        yield self.headline()
        yield from lines
        yield from self.named(lines)

    def details(self) -> Iterator[str]:
        """What is said below the headline."""
        found, record = self.found, self.found.record
        yield f"  port   {record.where}: `{record.text}`"
        if self.last:
            yield f"  before {self.step_text(self.last)}"
            yield from (f"         {words}" for words in self.meaning(self.last, self.replay.steps[self.last - 1][1]))
            yield from self.code(self.last_point)
        if found.made:
            yield f"  model  at {found.point}: {found.made.did()}"
            yield from (f"         {words}" for words in self.meaning(found.step, found.made))
        yield from self.code(found.point) if found.point != self.last_point else ()
        yield f"  words  {found.state}"
        for place in self.places():
            yield from (f"  {line}" for line in self.touched(place))

    # ---- Files

    def script(self) -> list[str]:
        """The lines to there, with that of the model's step where it can make one."""
        made = [self.found.record.line()] if self.found.made else []
        return [*self.replay.lines(), *made][: self.found.step - self.replay.before]

    def start(self) -> Trace:
        """The start before the step, which is made already where only its reply differs."""
        made = min(max(0, self.replay.count() - self.found.step + 1), self.replay.count() - self.replay.before)
        self.replay.ask([f"back {made}"])
        start = self.replay.start()
        self.replay.ask([f"forward {made}"])
        return trimmed(start, self.actors) if self.replay.is_fresh else start

    def options(self, folder: Path) -> list[str]:
        """The options of the tools for the script, whose start is written beside it where it is one of
        the tool's own."""
        words = self.replay.options
        if words[0] == "run":
            return ["--actors", str(self.actors), *words[4:]]
        start = words[-1]
        if self.replay.before:
            trace: Trace = json.loads(Path(start).read_text(encoding="ascii"))
            start = str(folder / "from.trace")
            Path(start).write_text(starts.text_of(trimmed(trace, self.actors) if self.replay.is_fresh else trace))
        return ["--trace", start]

    def write(self, folder: Path) -> Iterator[str]:
        """Writes the files about the difference; returns a line for each."""
        folder.mkdir(parents=True, exist_ok=True)
        script, lines = folder / "to.script", self.script()
        script.write_bytes(script_of(lines))
        yield f"{script}: the {len(lines)} steps to there{' from from.trace on' if self.replay.before else ''}"
        start = folder / "before.trace"
        start.write_text(starts.text_of(self.start()), encoding="ascii")
        yield f"{start}: the start before the step"
        options = [str(script), *self.options(folder), "--program", self.replay.program]
        yield self.drawn(picture.main, options, self.windows(self.replay.first + len(lines)), folder / "steps.svg")
        part = ["--lines", f"{max(1, len(lines) - PAGE_LINES + 1)}:{len(lines)}"]
        yield self.drawn(page.main, options, [part], folder / "steps.html")
        if (folder / "steps.html").exists():
            self.open_at(len(lines), folder / "steps.html")

    def open_at(self, line: int, file: Path) -> None:
        """Lets a page open at a line, and shows the port's side above it."""
        text = file.read_text(encoding="utf-8")
        opens = f'<script>location.hash = location.hash || "#line={line}";</script>'
        said = f"<strong>Line {line}: the port differs.</strong> {escape(self.headline())}"
        note = f'<p class="head">{said}<br>Its record: <code>{escape(self.found.record.text)}</code></p>'
        text = text.replace("</head>", f"{opens}\n</head>", 1).replace("</header>", f"</header>\n{note}", 1)
        file.write_text(text, encoding="utf-8")

    def windows(self, count: int) -> Iterator[list[str]]:
        """The options that choose the rows of the picture of so many steps: the last ones at the places in
        question and of the actor, and else the last ones."""
        yield self.chosen_rows(count)
        yield ["--from", str(max(1, count - ROWS + 1)), "--to", str(max(1, count))]

    def chosen_rows(self, count: int) -> list[str]:
        """The options for the last steps at the places in question and of the actor."""
        actor, places = self.found.record.actor, self.places()
        since_start = self.replay.steps.behind(self.replay.before)
        steps = enumerate((step for _, step in since_start), self.replay.first + 1)
        chosen = (
            number for number, step in steps if step.event.actor == actor or any(map(step.place.overlaps, places))
        )
        first = (collections.deque(chosen, ROWS) or [self.replay.first + 1])[0]
        named = ["--places", ",".join(map(str, places))] if places else []
        return ["--from", str(first), "--to", str(max(1, count)), "--actor", str(actor), *named]

    def drawn(self, tool: Tool, options: list[str], parts: Iterable[list[str]], output: Path) -> str:
        """Draws the run by a tool, the first of these parts that it can draw; returns what to say of it."""
        said = ""
        for part in parts:
            try:
                tool([*options, *part, "-o", str(output)])
                return f"{output}: the last steps"
            except FAULTS as fault:
                said = text_of(fault) or type(fault).__name__
            except Exception as fault:  # of the tool that draws; the report is right all the same
                said = f"{type(fault).__name__}: {fault}"
        return f"no {output.name}: {said}"
