"""Checks the moments that `tools/moment.py` draws, for `tools/check.py pictures`.

The session is asked again in another way: the program writes it as a trace, which `lcrqdb load`
loads. Of each place that is drawn, the labels are compared with what is shown there, half by half,
and the mark with its last writer; of each chip, the control point, the call and the words with the
line `actor A`, the lines with the text of docs/MODEL.md, and the place with the record of the
actor's next step; of each pin, that it is at that place.
"""

import argparse
import re
from collections.abc import Sequence
from dataclasses import dataclass, field
from typing import NamedTuple
from xml.etree import ElementTree

from lcrq_tools import model
from lcrq_tools.checks import replies
from lcrq_tools.checks.replies import Call, Replies
from lcrq_tools.draw import figure
from lcrq_tools.records import Place, Step, is_made
from lcrq_tools.speak.sentences import of_step

SVG = "{http://www.w3.org/2000/svg}"

Label = tuple[float, float, str]  # its x, its y and its text

class Chip(NamedTuple):
    """What an actor is about to do."""

    place: str  # that it would touch; - without one
    texts: list[str]  # of the labels

    def reads(self) -> list[str]:
        """The labels that have its words."""
        return [text for text in self.texts if text.startswith("its words: ")]

    def call(self) -> Call:
        """The call of the actor."""
        return Call(f"{self.texts[3]} {self.texts[2]}", ", ".join(self.reads()), self.place.removeprefix("-"))


@dataclass
class Drawn:
    """A moment as its elements say it."""

    places: dict[str, list[Label]] = field(default_factory=dict)  # the labels of each place
    written: set[str] = field(default_factory=set)  # the places that are marked
    broken: set[str] = field(default_factory=set)  # the segments in a broken frame
    chips: dict[int, Chip] = field(default_factory=dict)  # of each actor
    pins: dict[int, tuple[str, float]] = field(default_factory=dict)  # of each actor its place, and the pin's x
    segments: list[str] = field(default_factory=list)  # the linked segments, as they are read


def labels_of(group: ElementTree.Element) -> list[Label]:
    """The labels of a group."""
    texts = group.iter(f"{SVG}text")
    return [(float(text.attrib["x"]), float(text.attrib["y"]), text.text or "") for text in texts]


def read(svg: str) -> Drawn:
    """What a moment has."""
    drawn = Drawn()
    for group in ElementTree.fromstring(svg).iter(f"{SVG}g"):
        (kind, *more), place = group.attrib["class"].split(" "), group.get("data-place", "")
        actor = int(group.get("data-actor", 0))
        if kind == "chip":
            drawn.chips[actor] = Chip(place, [text for _, _, text in labels_of(group)])
        elif kind == "pin":
            drawn.pins[actor] = (place, float(group[0].attrib["cx"]))
        elif kind == "place":
            drawn.places[place] = labels_of(group)
            drawn.written |= {place} if "written" in more else set()
            if place.startswith("whole "):
                is_broken = "stroke-dasharray" in group[0].attrib
                (drawn.broken.add if is_broken else drawn.segments.append)(place.removeprefix("whole "))
    return drawn


# ---- The checks of a moment -----------------------------------------------------------------------


def labels_wanted(place: str, content: str) -> list[str]:
    """The labels of a place that has this content."""
    kind, *rest = place.split(" ")
    if kind == "value":
        return [f"cell {rest[1]}", *([] if content == "none" else [content])]
    if kind == "index":
        safe, index = content.split(" ")
        return [f"idx {index}", *(["unsafe"] if safe == "0" else [])]
    if kind == "tail":
        return [f"tail {content.split(' ')[1]} ▾", content.split(" ")[0]]
    if kind == "acell":
        return [f"slot {rest[0]}", *([] if content == "empty" else [content.removeprefix("value ")])]
    named = {"whole": f"segment {place[6:]}", "next": content, "atail": f"tail {content} ▾"}
    named |= {"qhead": f"QHead {content}", "qtail": f"QTail {content}"}
    return [named.get(kind, f"head {content} ▴")]


def places_fault(drawn: Drawn, asked: Replies) -> str:
    """Where a label or a mark of a place isn't as the program replies, or nothing."""
    for place, labels in drawn.places.items():
        texts, content = [text for _, _, text in labels], asked.contents.get(place, "")
        is_end = place == f"acell {replies.SLOTS}"  # behind the last slot
        if texts != (["end"] if is_end else labels_wanted(place, content)):
            return f"{place} has the labels {texts}, and it is {content}"
    return asked.marks_fault(drawn.places, drawn.written)


def segments_fault(drawn: Drawn, asked: Replies) -> str:
    """Which segment is missing, or stands where it should not, or nothing. Of many, some are left out."""
    wanted = [*asked.nexts] if len(asked.nexts) <= 6 else [*drawn.segments, *drawn.broken]
    return asked.segments_fault(drawn.segments, drawn.broken, wanted)


def missing_fault(drawn: Drawn, asked: Replies) -> str:
    """Which place should be drawn and is not, or nothing."""
    touched = [place for place in replies.array() if asked.contents[place] not in ("0", "empty")]
    places = replies.places_of([*drawn.segments, *drawn.broken], asked.ring)
    wanted = [place for place in places if not place.startswith("cell ")]
    wanted += ["ahead", "atail", *touched] if touched else []
    return next((f"{place} is not drawn" for place in wanted if place not in drawn.places), "")


def counters_fault(drawn: Drawn, ring: int) -> str:
    """Which counter stands at another cell than that of its position, or nothing."""
    for place, labels in drawn.places.items():
        kind, _, name = place.partition(" ")
        if kind in ("tail", "head"):
            position = int(labels[0][2].split(" ")[1])
            cell = drawn.places[f"value {name} {position % ring}"]
            if labels[0][0] != cell[0][0] or (labels[0][1] < cell[0][1]) != (kind == "tail"):
                return f"{place} does not stand at cell {position % ring}"
        if kind in ("atail", "ahead"):
            slot = drawn.places[f"acell {labels[0][2].split(' ')[1]}"]
            if labels[0][0] != slot[0][0]:
                return f"{place} does not stand at its slot"
    return ""


def chip_fault(actor: int, chip: Chip, asked: Replies, page: str) -> str:
    """What of a chip isn't as the page and the program have it, or nothing."""
    number, name, _, point, *texts = chip.texts
    if [number, name] != [str(actor), f"actor {actor}"]:
        return f"the chip of actor {actor} has {number} and {name}"
    rows = [text for text in texts[:-1] if text not in chip.reads()]
    if f"{point:<5}{rows[0]}" not in page or not all(row in page for row in rows):
        return f"the lines of actor {actor} are not those of {point}"
    reply, choice = asked.tried[actor][0], f"a choice: starve {actor} yes, or starve {actor} no"
    said = f"touches {chip.place}" if is_made(reply) else choice if reply.startswith("refused 4 ") else reply
    return "" if texts[-1] == said else f"the chip of actor {actor} says {texts[-1]}, wanted {said}"


def chips_fault(drawn: Drawn, asked: Replies) -> str:
    """What of the chips isn't as the program replies, or nothing."""
    fault = asked.actors_fault({actor: chip.call() for actor, chip in drawn.chips.items()})
    page = model.PAGE.read_text(encoding="utf-8")
    faults = (chip_fault(actor, chip, asked, page) for actor, chip in drawn.chips.items())
    return fault or next(filter(None, faults), "")


def pins_fault(drawn: Drawn) -> str:
    """Which pin is missing, or is not at its place, or nothing."""
    there = {*drawn.places} | {re.sub("^value ", "cell ", place) for place in drawn.places}
    wanted = {actor: place for actor, (place, _) in drawn.chips.items() if place in there}
    if wanted != {actor: place for actor, (place, _) in drawn.pins.items()}:
        return f"the pins are {drawn.pins}, and the actors would touch {wanted}"
    for actor, (place, x) in drawn.pins.items():
        is_end, segment = place in ("qhead", "qtail"), Place.read(place).segment
        kinds = (place,) if is_end else ("value", "head", "tail", "next", "acell", "ahead", "atail")
        others = (other for other in drawn.places if other.startswith(kinds) and Place.read(other).segment == segment)
        near = [drawn.places[other][0][0] for other in others]
        own = drawn.places[re.sub("^(cell|index) ", "value ", place)][0][0]  # a cell is where its value is
        if own != min((right for right in near if right > x), default=None):
            return f"the pin of actor {actor} is not at the left of {place}"
    return ""


def last_fault(svg: str, session: figure.Session, steps: Sequence[Step]) -> str:
    """What is wrong with the words of the last live one of these steps, or nothing."""
    seen = replies.seen_along(session.words, steps[: session.live])
    said = of_step(seen[-1]) if seen else "no step yet"
    texts = {label.text for label in ElementTree.fromstring(svg).iter(f"{SVG}text")}
    return "" if said in texts else f"it doesn't say `{said}`"


def faults_of(svg: str, arguments: argparse.Namespace) -> str:
    """The first thing that is wrong with a moment, but for its labels' boxes, or nothing."""
    drawn, session = read(svg), figure.Session(arguments)
    asked = replies.asked_at(session, {*drawn.segments, *drawn.broken})
    return (
        places_fault(drawn, asked)
        or segments_fault(drawn, asked)
        or missing_fault(drawn, asked)
        or counters_fault(drawn, session.ring)
        or chips_fault(drawn, asked)
        or pins_fault(drawn)
        or last_fault(svg, session, asked.steps)
    )
