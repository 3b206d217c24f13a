"""Makes the moments of a run the data of its page: whole moments with their sentences, and what each differs in from
the one before it.

`page.js` makes whole moments of the differences again.
"""

import itertools
from collections.abc import Iterable, Mapping

from lcrq_tools import model
from lcrq_tools.draw import moment
from lcrq_tools.draw.boxes import Chip
from lcrq_tools.order import common_of
from lcrq_tools.page.page_parts import Chips
from lcrq_tools.page.mirror import State
from lcrq_tools.records import Refusal, Said, Step, read_reply
from lcrq_tools.speak.sentences import of_step

REFUSED = "refused: "  # with which the sentence of a refused line begins

Whole = dict[str, object]  # a moment as a page has it, or what differs from the one before


def chips_of(state: State, page: moment.Code, rows: dict[str, model.Step]) -> Chips:
    """What each actor is about to do; nothing of one that is in no call."""
    chips = {
        actor: about(moment.chip_of(actor, state.actors[actor], tried, page, rows), tried)
        for actor, tried in state.tried.items()
    }
    return dict.fromkeys(state.actors) | chips


def about(chip: Chip, tried: Step | Refusal) -> dict[str, str]:
    """What a page shows of an actor in a call, and what it may do next: a step, a choice, or nothing."""
    acts = "step" if isinstance(tried, Step) else "choice" if tried.name == "NeedsChoice" else ""
    words = f"its words: {', '.join(chip.words)}" if chip.words else ""
    note = f"touches {chip.place}" if chip.place else chip.note
    return {
        "point": chip.point, "call": chip.call, "words": words, "note": note, "place": chip.place, "acts": acts,
    }


def named_steps(line: str, reply: str) -> list[str]:
    """The numbers of the steps that a reply names: where an undo is refused, of that step and of the one that depends
    on it; of the step that wrote a place last; and of those where a value came from."""
    word, _, rest = line.partition(" ")
    match read_reply(reply) if reply else None:
        case Refusal(name="Depended", data=data) if word == "undo":
            return [rest, data[0]]
        case Said("writer", number):
            return [number]
        case Said("origin", steps):
            return steps.split(" ")[1::2]
    return []


def named_rows(state: State) -> list[int]:
    """The rows of the steps that a reply names, as far as they are listed."""
    numbers = [int(number) for number in named_steps(state.text, state.reply) if number.isdecimal()]
    places = [number - 1 - state.above for number in numbers]
    return [state.rows[place] for place in places if 0 <= place < len(state.rows)]


def reason_of(state: State) -> str:
    """Why a line is refused; nothing where it isn't."""
    return state.spoken.sentence.removeprefix(REFUSED) if state.reply.startswith("refused ") else ""


def told_of(state: State) -> str:
    """What a line did, as a sentence on its own."""
    seen = state.spoken.seen
    told = of_step(seen) if seen else state.spoken.sentence.removeprefix(REFUSED)
    return f"{told[:1].upper()}{told[1:]}{'' if told.endswith(('?', '.')) else '.'}"


def sentence_of(state: State) -> str:
    """A moment in words: its line, the reply, and what the line did. The first one has no reply."""
    if state.reply:
        return f"Line {state.line}, {state.asked()}: {state.reply}. {told_of(state)}"
    begin = f"After line {state.line}" if state.line else "Before the first line"
    return f"{begin}: {state.live} live steps, {state.undone} undone."


def whole_of(state: State, chips: Chips) -> Whole:
    """A moment as a page has it."""
    last = state.last
    return {
        "line": state.line,
        "text": state.text,
        "reply": state.reply,
        "why": reason_of(state),
        "viewer": state.viewer,
        "said": sentence_of(state),
        "words": told_of(state) if state.reply else "",
        "live": state.live,
        "undone": state.undone,
        "rows": state.rows,
        "last": state.rows[state.live - 1 - state.above] if state.live > state.above else None,
        "by": last.event.actor if last else 0,
        "named": named_rows(state),
        "marks": state.marks,
        "places": state.places,
        "written": [str(place) for place in last.wrote()] if last else [],
        "linked": state.linked,
        "apart": state.apart,
        "array": state.slots,
        "actors": {str(actor): about for actor, about in chips.items()},
    }


def changed_of(old: Mapping[str, object], new: Mapping[str, object]) -> Whole:
    """What differs in a part of a state; None stands for what isn't there any more."""
    gone: dict[str, object] = {name: None for name in old if name not in new}
    return gone | {name: value for name, value in new.items() if name not in old or old[name] != value}


def changes_between(before: Whole, after: Whole) -> Whole:
    """What differs between two moments. A dictionary has its own differences; of the rows so many are kept."""
    changes = changed_of(before, after)
    for name, value in changes.items():
        old = before.get(name)
        if isinstance(value, dict):
            changes[name] = changed_of(old if isinstance(old, dict) else {}, value)
        elif name == "rows" and isinstance(value, list):
            kept = common_of(old, value) if isinstance(old, list) else 0
            changes[name] = [kept, value[kept:]]
    return changes


def differences_of(moments: Iterable[Whole]) -> list[Whole]:
    """What each moment changes of the one before it; the first one is whole."""
    wholes: list[Whole] = [{}, *moments]
    return [changes_between(before, after) for before, after in itertools.pairwise(wholes)]
