"""Makes slides of the page of a run: the chosen lines, one a slide, full screen. `page.py` calls it for `--slides`.

A slide begins with the queue and the steps before its line. The first press of Enter or the down arrow shows a
question, the second the reply, the sentence of the line, and the queue and the steps after it. Right arrow, space
and PageDown go to the next slide, left arrow, Shift and space, and PageUp to the one before.

The sentence is the page's own, `said` of its moments, which `page_moments.sentences_of` makes by `teller.py`.
"""

import argparse
import json
from collections.abc import Sequence
from pathlib import Path

from lcrq_tools.faults import Fault
from lcrq_tools.page.mirror import State

STYLE, SCRIPT = (Path(__file__).with_suffix(ending) for ending in (".css", ".js"))
# What is asked of a line, by its first word.
QUESTIONS = {
    "go": "What does the step do, and what is the reply?",
    "starve": "Where does the actor go on?",
    "undo": "Is it refused, and because of which step?",
    "roll": "Which steps does it take back?",
    "show": "What is there?",
    "writer": "Which step wrote it last?",
    "origin": "Which step put the value?",
    "same": "Are they the same run?",
}
ANY_LINE = "What is the reply?"
# The room of a slide's words, which slides.js fills.
ROOM = """\
<section id="slide" aria-live="polite">
<p class="where"></p>
<p class="typed"><code></code></p>
<p class="asked"></p>
<p class="told"></p>
</section>
"""


def lines_in(text: str) -> list[int]:
    """The lines of a command line, by their numbers, in its order."""
    words = text.split(",")
    if not all(word.isdecimal() and int(word) for word in words):
        raise argparse.ArgumentTypeError(f"{text} is not N,N.., numbers of lines")
    return [*dict.fromkeys(map(int, words))]


def add_option(parser: argparse.ArgumentParser) -> None:
    """Adds the option that chooses the lines of slides."""
    about = "make slides of these lines: the sentence and the question of each are hidden until Enter is pressed"
    parser.add_argument("--slides", type=lines_in, metavar="N,N..", help=about)


def chosen(lines: Sequence[int], states: list[State]) -> list[dict[str, object]]:
    """What a slide has of each of these lines: its moment, its text, and the question."""
    places = {it.line: at for at, it in enumerate(states) if at}
    if not places:
        raise Fault("without a line there is no slide")
    if wrong := [line for line in lines if line not in places]:
        raise Fault(f"line {wrong[0]} is not among the lines {min(places)} to {max(places)} of the page")
    found = [(places[line], states[places[line]]) for line in lines]
    questions = (QUESTIONS.get(it.text.partition(" ")[0], ANY_LINE) for _, it in found)
    return [{"at": at, "text": it.asked(), "question": asked} for (at, it), asked in zip(found, questions)]


def parts_of(lines: Sequence[int] | None, states: list[State]) -> dict[str, str]:
    """What makes a page slides of these lines; nothing, if none are chosen."""
    if not lines:
        return {}
    data = json.dumps(chosen(lines, states), separators=(",", ":")).replace("<", "\\u003c")
    style, script = (path.read_text(encoding="utf-8") for path in (STYLE, SCRIPT))
    more = f'<script type="application/json" id="slides">{data}</script>\n<script>\n{script}</script>'
    return {"kind": "slides", "toolbar": ROOM, "more_style": f"<style>\n{style}</style>", "more_script": more}
