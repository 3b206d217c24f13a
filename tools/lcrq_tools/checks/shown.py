"""Compares a moment that a browser shows with the program's replies, for `tools/check.py browser`.

`Moment` asks new runs of the script's first lines; the functions get what `browser.js` read from the
page, and name the first thing that isn't as the program replies.
"""

import itertools
from typing import Any

from lcrq_tools.checks import replies
from lcrq_tools.checks.moments import labels_wanted
from lcrq_tools.checks.replies import Call
from lcrq_tools.draw.figure import Session

Shown = dict[str, Any]  # what the page shows, as a function of browser.js returns it
Node = dict[str, Any]  # of the accessibility tree: its role, its name and more


class Moment(replies.Replies):
    """What the program replies after so many lines of a script."""

    def __init__(self, run: Session, line: int) -> None:
        session = run.at(line)
        segments = replies.segments_of(replies.trace_of(session))
        super().__init__(session.ask, session, segments, replies.array())
        self.line, self.text, self.reply, self.viewer = line, "", "", ""
        if line:
            self.text, self.reply = run.text(line), session.replies_to(session.lines)[-1]
            self.viewer = f"viewer {session.viewers[-1]}" if session.viewers else ""
        self.labels = replies.labels_along(session.words, self.steps)
        self.told = replies.told_by(session.words, session.lines)[-1] if line else ""
        self.begin = f"{self.viewer}, {self.text}" if self.viewer else self.text  # how the line is named in words


# ---- The checks of a moment -----------------------------------------------------------------------


def wanted_at(place: str, content: str, ring: int) -> Shown:
    """What a page has at a place with this content: its text, where it is, and which words stand with asked."""
    kind, *rest = place.split(" ")
    text, *more = labels_wanted(place, content)
    number = content.split(" ")[-1]
    if kind in ("qhead", "qtail"):
        return {"text": f"{text.split(' ')[0]} ▾", "segment": f"segment {content}"}
    about: Shown = {"text": "".join(more) if kind in ("value", "acell") else text}
    if kind in ("ahead", "atail", "acell"):
        return about | {"slot": rest[0] if rest else number}
    if kind in ("value", "index", "head", "tail"):
        about["column"] = int(rest[1]) if rest[1:] else int(number) % ring
    if kind in ("index", "tail"):
        about["warning" if kind == "index" else "closed"] = "".join(more)
    return about | {"segment": f"segment {rest[0]}"}


def places_fault(shown: Shown, asked: Moment) -> str:
    """Which place isn't as the program replies, or nothing. The array is shown where it is used."""
    places, known = shown["places"], {}
    for place, content in asked.contents.items():
        if place.startswith(("whole ", "cell ")):
            continue
        known[place] = places.get(place, {})
        if place not in places and place.startswith("a") and content in ("0", "empty"):
            continue
        wanted = wanted_at(place, content, asked.ring)
        if {key: known[place].get(key) for key in wanted} != wanted:
            return f"{place} is {content}, and the page has {known[place]}"
    marked = [place for place, about in known.items() if about.get("written")]
    return asked.marks_fault([place for place in known if place in places], marked)


def order_fault(shown: Shown, asked: Moment) -> str:
    """Where the segments stand in another order than that of their links, or an arrow is missing or leads to
    another one, or nothing."""
    for (name, _, leads), (after, _, _) in itertools.pairwise([*shown["order"], ["", "", ""]]):
        link = asked.nexts[name.removeprefix("segment ")]
        if leads != (f"segment {link}" == after):
            return f"{name} has an arrow to {after} or has not, and its next is {link}"
    named = [(name.removeprefix("segment "), apart) for name, apart, _ in shown["order"]]
    linked, others = ([name for name, apart in named if apart == is_apart] for is_apart in (False, True))
    return asked.segments_fault(linked, others, [*asked.nexts])


def call_of(chip: Shown) -> Call:
    """The call of an actor with this chip."""
    call, words, note = chip["texts"]
    place = note.removeprefix("touches ") if note.startswith("touches ") else ""
    return Call(f"{chip['points'][0][0]} {call}", words, place)


def actors_fault(shown: Shown, asked: Moment, code: dict[str, str]) -> str:
    """Which actor isn't as the program replies, or nothing."""
    pins = {actor: place for place, about in shown["places"].items() for actor in about["pins"]}
    at_lines = {actor: point for point, actors in shown["code"].items() for actor in actors}
    busy = {actor: chip for actor, chip in shown["chips"].items() if chip["points"]}
    calls = {actor: call_of(chip) for actor, chip in busy.items()}
    if fault := asked.actors_fault({int(actor): call for actor, call in calls.items()}):
        return fault
    if any(chip["texts"] != ["in no call", "", ""] for actor, chip in shown["chips"].items() if actor not in busy):
        return f"an actor is in no call, and the page has {shown['chips']}"
    points = {actor: call.stand.split(" ")[0] for actor, call in calls.items()}
    for actor, point in points.items():
        if busy[actor]["points"] != [[point, point, code[point]]]:
            return f"actor {actor} is at {point}, and has the lines {busy[actor]['points']}"
    places = {actor: call.place for actor, call in calls.items()}
    there = {actor: name for actor, name in places.items() if name in shown["places"] or name.startswith("cell ")}
    if (pins, at_lines) != (there, points):
        return f"the pins are {pins}, and the lines {at_lines}; wanted {there} and {points}"
    return ""


def rows_fault(shown: Shown, asked: Moment) -> str:
    """Which step isn't as the program replies, or nothing."""
    rows, live = shown["rows"], asked.live
    found = [(row["number"], row["side"], row["undone"], row["last"]) for row in rows]
    wanted = [(str(number), "above", False, number == live) for number in range(1, live + 1)]
    wanted += [("undone", "below", True, False)] * asked.undone
    if found != wanted:
        return f"the rows are {found}, and {live} steps are live and {asked.undone} undone"
    if sum(row["stops"] for row in rows) != (1 if rows else 0):
        return "the tab key does not come to one row"
    for row, label in zip(rows, asked.labels):
        name = row["number"] if row["number"] == "undone" else f"step {row['number']}"
        said = ", ".join(filter(None, [name, row["viewer"], f"{label}."]))
        if row["about"] != said:
            return f"row {row['number']} is {row['about']}, wanted {said}"
    return ""


def words_fault(shown: Shown, asked: Moment, tree: list[Node], last_line: int) -> str:
    """What of the line and its words isn't as the program replies, or nothing."""
    line, said = ["0", "before the first line"], f"Before the first line: {asked.live} live steps"
    if asked.line:
        line = [str(asked.line), *filter(None, [asked.viewer]), asked.text, asked.reply]
        said = f"Line {asked.line}, {asked.begin}: {asked.reply}. {asked.told}"
    wanted = {"current": [line], "where": f"line {asked.line} of {last_line}", "slider": str(asked.line)}
    wanted |= dict.fromkeys(("asker", "askerMark", "lineMark"), asked.viewer) | {"valuetext": shown["said"]}
    for part, text in wanted.items():
        if shown[part] != text:
            return f"the {part} is {shown[part]}, wanted {text}"
    if asked.reply.startswith("refused ") and shown["why"][0].rstrip(".").lower() != asked.told.rstrip(".").lower():
        return f"the line is {asked.reply}, and the page says {shown['why']}"
    if f"| head -n {asked.line} " not in f"| {shown['command']}":
        return f"the command is {shown['command']}"
    names = [node["name"] for node in tree]
    if not shown["said"].startswith(said) or shown["said"] not in names:
        return f"the accessibility tree has no {said}"
    heard = " ".join(line)
    if not any(node["role"] == "button" and node["name"] == heard for node in tree):
        return f"the accessibility tree has no button {heard}"
    slider = [node for node in tree if node["role"] == "slider"]
    if len(slider) != 1 or shown["where"] != slider[0]["name"]:
        return f"the slider is {slider}"
    if not any(node.get("live") == "polite" for node in tree):
        return "no node of the accessibility tree is live"
    nameless = [node["role"] for node in tree if node["role"] in ("button", "slider", "link") and not node["name"]]
    return f"without a name: {nameless}" if nameless else ""
