"""What `tools/check.py pictures` checks of the pictures of runs that `tools/picture.py` draws.

A picture is read from its elements. What it should have is found by other means than it was drawn
by: which steps depend on which by `dependence.py`, which knows it from docs/MODEL.md alone;
which steps are drawn, and when an actor is in a call, by the steps' records and the trace's start;
the order of the segments by the links of the same steps, loaded as a trace.
"""

import argparse
import itertools
import json
import re
from collections.abc import Sequence
from dataclasses import replace
from pathlib import Path
from xml.etree import ElementTree
from xml.etree.ElementTree import Element

from lcrq_tools import dependence
from lcrq_tools.checks import moments, replies
from lcrq_tools.draw import figure, picture
from lcrq_tools.records import Step
from lcrq_tools.speak.sentences import of_actor

SVG = "{http://www.w3.org/2000/svg}"
HIGH, LOW = 0.8, 0.22  # how far a letter reaches above and below its line, as a part of its size
MOST_BELOW = 40  # rows below one heading
ROW = 22  # how far a row is from the next one, in pixels
SHADE = re.compile(r"M(\d+) (\d+)(a6 6|h12).*V(\d+)(a6 6|h-12).*z")

Box = tuple[float, float, float, float]  # left, top, right, bottom

# ---- What a picture has --------------------------------------------------------------------------


def box_of(text: Element) -> Box:
    """The box of a label, as a wide font has it."""
    size, x, y = (float(text.attrib[name]) for name in ("font-size", "x", "y"))
    width = figure.width_of(text.text or "", size, text.get("font-weight") == "bold")
    left = x - width * {"start": 0, "middle": 0.5, "end": 1}[text.attrib["text-anchor"]]
    return left, y - HIGH * size, left + width, y + LOW * size


def frame_of(rect: Element) -> Box:
    """The box of a rectangle."""
    left, top, width, height = (float(rect.attrib[name]) for name in ("x", "y", "width", "height"))
    return left, top, left + width, top + height


def dot_of(element: Element) -> tuple[float, float, bool]:
    """Where a dot or a cross is, and whether it is filled."""
    if element.tag == f"{SVG}circle":
        return float(element.attrib["cx"]), float(element.attrib["cy"]), element.get("fill") != figure.GROUND
    found = re.match(r"M([\d.]+) ([\d.]+)l([\d.]+) ", element.attrib["d"])
    assert found, "a cross begins otherwise"
    x, y, half = map(float, found.groups())
    return x + half / 2, y + half / 2, False


def shade_of(path: Element) -> tuple[int, int, int]:
    """The lane of a shade, and from where to where it is."""
    found = SHADE.fullmatch(path.attrib["d"])
    assert found, "a shade has another form"
    left, top, begins, bottom, ends = found.groups()
    return int(left) + 6, int(top) - 6 * (begins == "a6 6"), int(bottom) + 6 * (ends == "a6 6")


def marks_of(root: Element, downs: list[float]) -> dict[str, set[int]]:
    """The rows that are marked, from 1 on, by the kind of mark; by a bar the first and the last that it has."""
    marked: dict[str, set[int]] = {}
    for rect in (rect for group in groups_of(root, "asked", "row") for rect in group.iter(f"{SVG}rect")):
        _, top, _, bottom = frame_of(rect)
        inside = [number for number, down in enumerate(downs, 1) if top < down < bottom]
        marked.setdefault(rect.get("class", ""), set()).update(inside)
    marked.pop("", None)  # those that mark nothing
    if "bar" in marked:
        marked["bar"] = {min(marked["bar"]), max(marked["bar"])}
    return marked


def groups_of(root: Element, *kinds: str) -> list[Element]:
    """The groups of these kinds."""
    return [group for group in root.iter(f"{SVG}g") if group.attrib["class"].split(" ")[0] in kinds]


def viewers_in(group: Element) -> list[int]:
    """The viewers whose marks a group has. A mark has the viewer's number."""
    marks = [(int(mark.attrib["data-viewer"]), mark.findtext(f"{SVG}text", "")) for mark in groups_of(group, "viewer")]
    assert all(label == f"V{viewer}" for viewer, label in marks), "a mark has another viewer's number"
    return [viewer for viewer, _ in marks]


def marks_in(svg: str) -> list[int]:
    """The viewers whose marks a drawing has."""
    return viewers_in(ElementTree.fromstring(svg))


class Drawn:
    """A picture as its elements say it."""

    def __init__(self, svg: str) -> None:
        root = ElementTree.fromstring(svg)
        rows = groups_of(root, "row")
        dots = [[dot_of(mark) for mark in row if mark.get("class") in ("wrote", "read", "lost")] for row in rows]
        bands = [rect for group in groups_of(root, "bands") for rect in group]
        bars = root.findall(f"{SVG}g[@class='asked']/{SVG}rect[@class='bar']")
        breaks = (group.findall(f"{SVG}line")[0] for group in groups_of(root, "break"))
        calls = (path for path in root.iter(f"{SVG}path") if path.get("class") == "call")
        # of each row its dots: the lane's position, and whether it is filled
        self.rows = [{round(x): is_filled for x, _, is_filled in row} for row in dots]
        self.names = [row.findtext(f"{SVG}text", "") for row in rows]  # what is at the left of each row
        self.downs = [row[0][1] for row in dots]  # how far down each row is
        # the boxes of all labels, each with its text
        self.texts = [(box_of(text), text.text or "") for text in root.iter(f"{SVG}text")]
        # those of each part: where each is, and its text
        self.headings = [moments.labels_of(group) for group in groups_of(root, "headings")]
        # from where to where each is, and whether its frame is broken
        self.bands = [(*frame_of(band)[::2], band.get("stroke-dasharray") is not None) for band in bands]
        self.shades = [*map(shade_of, calls)]  # the lane's position, from where, to where
        self.bars = [*map(frame_of, bars)]
        self.breaks = [float(line.attrib["y1"]) for line in breaks]  # how far down each is
        # the labels of the row before the first step, and where each is
        self.starts = [(x, text) for row in groups_of(root, "start") for x, _, text in moments.labels_of(row)]
        self.size = float(root.attrib["width"]), float(root.attrib["height"])
        self.title, self.about = root.findtext(f"{SVG}title", ""), root.findtext(f"{SVG}desc", "")
        self.marked = marks_of(root, self.downs)
        self.viewers = [max(viewers_in(row), default=0) for row in rows]  # whose mark each row has; 0 without one
        self.legend = [viewer for group in groups_of(root, "legend") for viewer in viewers_in(group)]
        # the actors that have lanes, from left to right, and where
        headings = self.headings[0] if self.headings else []
        self.actors = {int(text.split(" ")[1]): x for x, _, text in headings if text.startswith("actor ")}


# ---- What it should have ---------------------------------------------------------------------------


class Run:
    """A run, of which a command line draws some steps."""

    def __init__(self, arguments: argparse.Namespace, session: figure.Session, records: list[str]) -> None:
        trace = json.loads(Path(arguments.trace).read_text(encoding="utf-8")) if arguments.trace else {}
        self.arguments, self.session, self.live, self.records = arguments, session, session.live, records
        self.ring = trace.get("ring") or int(arguments.ring or 4)
        self.start: replies.Trace = trace.get("start", {})  # that of the trace; nothing over a fresh world
        self.steps = [dependence.step_of(record, self.ring) for record in records]
        self.first, self.last = arguments.first or 1, arguments.last or len(records)  # that may be drawn
        # the actors and the places that are chosen
        self.actors = [int(actor) for text in arguments.of_actors or [] for actor in text.split(",")]
        self.places = [place.strip() for text in arguments.places or [] for place in text.split(",")]
        self.busy = self.busy_before()
        self.viewers: list[int] = []  # of each step of a history, who asked it; 0 of the start's

    def drawn(self) -> list[int]:
        """The numbers of the steps that are drawn."""
        window = range(self.first, self.last + 1)
        if not self.actors and not self.places:
            return [*window]
        chosen = {f"actor {actor}" for actor in self.actors}
        chosen.update(name for place in self.places for name in dependence.names(place, self.ring))
        return [number for number in window if not chosen.isdisjoint(self.steps[number - 1].touched)]

    def busy_before(self) -> list[dict[int, str]]:
        """The calls of the actors that are in one before each step, and last after all of them."""
        given = enumerate(self.start.get("actors", []), 1)
        now = {actor: " ".join(map(str, record["op"])) for actor, record in given if record["op"] is not None}
        stands = [dict(now)]
        for step in self.steps:
            word, actor, *value = step.line.split(" ")
            if word.endswith(("enq", "deq")):
                now[int(actor)] = " ".join([word, *value])
            if step.ended:
                del now[int(actor)]
            stands.append(dict(now))
        return stands

    def busy_at_start(self) -> dict[int, str]:
        """The calls of the actors that are in one before the first step, where a row has that."""
        has_row = self.first > 1 or "actors" in self.start
        return self.busy[self.first - 1] if has_row else {}


# ---- Words ----------------------------------------------------------------------------------------


def overlap(box: Box, other: Box) -> bool:
    """Whether two boxes overlap."""
    return box[0] < other[2] and other[0] < box[2] and box[1] < other[3] and other[1] < box[3]


def labels_fault(drawn: Drawn) -> str:
    """What is wrong with the labels of a picture, or nothing."""
    width, height = drawn.size
    for (left, top, right, bottom), text in drawn.texts:
        if left < 0 or top < 0 or right > width or bottom > height:
            return f"the label {text} is cut off"
    for (box, text), (other_box, other) in itertools.combinations(drawn.texts, 2):
        if overlap(box, other_box):
            return f"the labels {text} and {other} overlap"
    under = [*drawn.bars, *((x - 6, top, x + 6, bottom) for x, top, bottom in drawn.shades)]
    marked = (text for (box, text), mark in itertools.product(drawn.texts, under) if overlap(box, mark))
    return next((f"the label {text} is on a bar or on the shade of a call" for text in marked), "")


def words_fault(drawn: Drawn, run: Run) -> str:
    """What is wrong with the title, the description and the legend, or nothing."""
    if not drawn.title:
        return "it has no title"
    if "" in (text for _, text in drawn.texts):
        return "it has a label without words"
    if drawn.about.count("actor ") < len(drawn.rows):
        return "its description lacks steps"
    for text in (*run.places, *map(str, run.actors)):
        if not all(re.search(rf" {re.escape(text)}\b", words) for words in (drawn.title, drawn.about)):
            return f"its title or its description doesn't say that {text} is chosen"
    texts = [text for _, text in drawn.texts]
    shown = {
        "safe, index": any(text == "safe idx" for text in texts),
        "pale: undone": "undone" in drawn.names,
        "in a call": bool(drawn.shades),
        "steps are left out": bool(drawn.breaks),
        "orange frame around a number: could be undone alone now": run.arguments.free,
    }
    return next((f"its legend has {words}, or lacks it" for words in shown if shown[words] != (words in texts)), "")


# ---- Rows -----------------------------------------------------------------------------------------


def rows_fault(drawn: Drawn, run: Run) -> str:
    """What is wrong with the choice of rows, the breaks between them and the headings, or nothing."""
    numbers, downs = run.drawn(), drawn.downs
    if drawn.names != [str(number) if number <= run.live else "undone" for number in numbers]:
        return f"it has the rows {drawn.names}, wanted {numbers}"
    if downs != sorted(set(downs)):
        return "its rows are not below each other"
    ends = [(run.first - 1, 0.0), *zip(numbers, downs), (run.last + 1, drawn.size[1])]
    for (number, upper), (later, lower) in itertools.pairwise(ends):
        if (later > number + 1) != any(upper < down < lower for down in drawn.breaks):
            return f"between the steps {number} and {later} it has a break, or lacks it"
    return headings_fault(drawn)


def headings_fault(drawn: Drawn) -> str:
    """Which headings are missing, or nothing."""
    firsts = drawn.downs[::MOST_BELOW]
    lasts = [0.0, *drawn.downs[MOST_BELOW - 1:: MOST_BELOW]]
    if len(drawn.headings) != len(firsts):
        return f"it has {len(drawn.headings)} times headings for {len(drawn.rows)} rows"
    for texts, above, below in zip(drawn.headings, lasts, firsts):
        if not all(above < y < below for _, y, _ in texts):
            return "its headings are not above their rows"
        if [(x, text) for x, _, text in texts] != [(x, text) for x, _, text in drawn.headings[0]]:
            return "its headings are not the same each time"
    return ""


def dots_fault(drawn: Drawn, run: Run) -> str:
    """Where the dots of a picture and the dependence of its steps differ, or nothing. Two rows share a lane on which
    one of their dots is filled where the two steps depend on each other."""
    for (number, dots), (later, others) in itertools.combinations(zip(run.drawn(), drawn.rows), 2):
        share = any(is_filled or others[lane] for lane, is_filled in dots.items() if lane in others)
        if share != dependence.depend(run.steps[number - 1], run.steps[later - 1]):
            return f"steps {number} and {later} look as if they did or did not depend"
    return ""


def marks_fault(drawn: Drawn, run: Run) -> str:
    """What is marked that should not be, or the other way round, or nothing."""
    steps, undo, roll, wanted = run.steps[: run.live], run.arguments.undo, run.arguments.roll, {}
    if undo:
        later = dependence.first_dependant(steps, undo)
        wanted = {"bar": {undo, later}, "end": {undo, later}} if later else {"free": {undo}}
    if roll:
        wanted = {"goes": set(dependence.closure(steps, roll))}
    if run.arguments.free:
        wanted["lone"] = {step for step in range(1, run.live + 1) if not dependence.first_dependant(steps, step)}
    rows = {number: row for row, number in enumerate(run.drawn(), 1)}
    hidden = len(wanted.get("goes", set()) - {*rows})
    wanted = {kind: {rows[step] for step in marked if step in rows} for kind, marked in wanted.items()}
    wanted = {kind: marked for kind, marked in wanted.items() if marked}
    if drawn.marked != wanted:
        return f"it marks {drawn.marked}, wanted {wanted}"
    texts = [text for _, text in drawn.texts if text.startswith("orange rows: ")]
    said = f"these go, and {hidden} more that have no row here" if hidden else "these go, and no others"
    return "" if texts == ([f"orange rows: {said}"] if roll else []) else f"it says {texts}, and {hidden} are hidden"


def bar_fault(drawn: Drawn) -> str:
    """What is wrong with the lane of a bar or with what is said of it, or nothing."""
    if not drawn.bars:
        return ""
    first, last = (drawn.rows[row - 1] for row in sorted(drawn.marked["bar"]))
    lane = {round((left + right) / 2) for left, _, right, _ in drawn.bars}.pop()
    if lane not in first or lane not in last or not (first[lane] or last[lane]):
        return "its bar is on a lane that the two steps don't share"
    is_actor = any(x == lane and text.startswith("actor ") for x, _, text in drawn.headings[0])
    said = [text for _, text in drawn.texts if text.startswith("orange bar: ")]
    return "" if said and is_actor == ("each dot" in said[0]) != ("one of them" in said[0]) else f"it says {said}"


# ---- Viewers --------------------------------------------------------------------------------------


def viewers_fault(drawn: Drawn, run: Run) -> str:
    """Which row has the mark of another viewer than who asked its step, or what is wrong with their legend
    or with what is said of them, or nothing."""
    wanted = [run.viewers[number - 1] if run.viewers else 0 for number in run.drawn()]
    if drawn.viewers != wanted:
        return f"its rows have the marks of the viewers {drawn.viewers}, wanted {wanted}"
    named = sorted({*wanted} - {0})
    words = [text for _, text in drawn.texts if text.startswith("viewer ")]
    if drawn.legend != named or words != [f"viewer {viewer}" for viewer in named]:
        return f"its legend has the viewers {drawn.legend}, and says {words}"
    return about_fault(drawn, run, wanted)


def about_fault(drawn: Drawn, run: Run, viewers: Sequence[int]) -> str:
    """Which step isn't said as the program replies it, or nothing. These viewers asked those that are drawn."""
    seen, end = replies.seen_along(run.session.words, [*map(Step.read, run.records)]), 0
    for number, viewer in zip(run.drawn(), viewers):
        asker, own = f"viewer {viewer}, " if viewer else "", seen[number - 1]
        live = f"Step {number}, {asker}{of_actor(own)}"
        undone = f"Undone, {asker}{of_actor(replace(own, read=0, writer=0))}"
        said = live if number <= run.live else undone
        if (end := drawn.about.find(said, end)) < 0:
            return f"its description lacks `{said}`"
    return ""


# ---- Lanes ----------------------------------------------------------------------------------------


def actors_fault(drawn: Drawn, run: Run) -> str:
    """Which actor has a lane and should have none, or the other way round, or nothing."""
    wanted = {int(run.steps[number - 1].line.split(" ")[1]) for number in run.drawn()}
    busy = run.busy_at_start()
    wanted.update(set(busy) & {*run.actors} if run.actors or run.places else busy)
    lanes = drawn.actors
    if [*lanes] != sorted(wanted):
        return f"it has the actors {[*lanes]}, wanted {sorted(wanted)}"
    for actor, x in lanes.items():
        said = [text for left, text in drawn.starts if left == x - 9]
        pattern = rf"[A-Z]\d+ {busy[actor]}" if actor in busy else ""
        if not re.fullmatch(pattern, " ".join(said)):
            return f"it says that actor {actor} is at {said}, and its call is {busy.get(actor)}"
    return ""


def lanes_fault(drawn: Drawn) -> str:
    """Which lane of memory no row touches, or nothing; the halves of a cell are one here."""
    touched = {x for row in drawn.rows for x in row}
    names = {"qhead", "qtail", "head", "tail", "value", "safe idx", "next"}
    named = [(x, text) for x, _, text in drawn.headings[0] if text in names or text.startswith("slot ")]
    for (x, text), (after, _) in zip(named, [*named[1:], (0.0, "")]):
        before = max((left for left, _ in named if left < x), default=0.0)
        beside = {"value": after, "safe idx": before}.get(text, x)
        if x not in touched and beside not in touched:
            return f"no row touches the lane {text}"
    return ""


def shades_fault(drawn: Drawn, run: Run) -> str:
    """Where a shade and the calls of its actor differ, or nothing."""
    lanes, busy, rows = drawn.actors, run.busy, list(zip(run.drawn(), drawn.downs))

    def is_shaded(actor: int, down: float) -> bool:
        """Whether the shade of a call is on an actor's lane here."""
        return any(x == lanes[actor] and top <= down <= bottom for x, top, bottom in drawn.shades)

    for actor in lanes:
        if is_shaded(actor, drawn.downs[0] - ROW) != (actor in run.busy_at_start()):
            return f"the shade of actor {actor} is wrong before the first step"
        for number, down in rows:
            if is_shaded(actor, down) != (actor in busy[number - 1] or actor in busy[number]):
                return f"the shade of actor {actor} is wrong at step {number}"
        for (number, upper), (_, lower) in itertools.pairwise(rows):
            if lower - upper == ROW and is_shaded(actor, upper + ROW / 2) != (actor in busy[number]):
                return f"the shade of actor {actor} is wrong after step {number}"
    return ""


def segments_of(run: Run) -> set[str]:
    """The names of the segments that the steps or the start name, and of the root."""
    made = {Step.read(record).place.segment for record in run.records}
    given = enumerate(run.start.get("segments", []))
    return {"0.0", *made, *(f"{maker}.{number}" for maker, own in given for number in range(len(own)))} - {""}


def chain_of(run: Run) -> tuple[list[str], set[str]]:
    """The segments in the order of their links from the root on, and all that are linked, when
    the steps are loaded as a trace."""
    trace = replies.trace_of(run.session)
    trace |= {"events": trace["events"] + trace["undone"], "undone": []}
    names = sorted(segments_of(run))
    with replies.loaded(run.arguments.program, trace) as ask:
        nexts = {name: reply[3:] for name, reply in zip(names, ask([f"show next {name}" for name in names]))}
    chain = replies.chain_of(nexts)
    return chain, {*chain, *nexts.values()}


def bands_fault(drawn: Drawn, run: Run) -> str:
    """Which band is out of the chain's order, or says wrongly whether it was linked, or nothing."""
    lefts = {left: is_broken for left, _, is_broken in drawn.bands}
    headings = [(x, text.removeprefix("segment ")) for x, _, text in drawn.headings[0] if text.startswith("segment ")]
    if len(segments_of(run)) == 1:
        return "" if not any(lefts.values()) else "the root has a broken frame"
    chain, linked = chain_of(run)
    names = [text.removesuffix(", never linked") for _, text in sorted(headings)]
    apart = [name for name in names if name not in linked]
    if names != [*(name for name in chain if name in names), *sorted(apart, key=names.index)]:
        return f"the segments stand in the order {names}, and are linked in the order {chain}"
    if [text for _, text in headings if text.endswith(", never linked")] != [f"{name}, never linked" for name in apart]:
        return f"it does not say which were never linked, {apart}"
    broken = [name for (x, _), name in zip(sorted(headings), names) if lefts[max(left for left in lefts if left < x)]]
    return "" if broken == apart else f"the frames of {broken} are broken, and {apart} were never linked"


# ---- All of it ------------------------------------------------------------------------------------


def faults_of(svg: str, run: Run) -> str:
    """The first thing that is wrong with the picture of a run or of some of its rows, or nothing."""
    drawn = Drawn(svg)
    return (
        words_fault(drawn, run)
        or labels_fault(drawn)
        or rows_fault(drawn, run)
        or viewers_fault(drawn, run)
        or dots_fault(drawn, run)
        or marks_fault(drawn, run)
        or bar_fault(drawn)
        or actors_fault(drawn, run)
        or lanes_fault(drawn)
        or shades_fault(drawn, run)
        or bands_fault(drawn, run)
    )


def fault_of(svg: str, arguments: argparse.Namespace, viewers: Sequence[int] = ()) -> str:
    """The first thing that is wrong with a picture, by a session of its command line, or nothing. These
    viewers asked its steps, if it is of a history."""
    session = figure.Session(arguments)
    run = Run(arguments, session, picture.records_of(session))
    run.viewers = [*viewers]
    return faults_of(svg, run)
