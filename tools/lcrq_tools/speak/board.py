"""Shows the queue and its actors in characters, for `prompt.py`: what `queue` and `where` print there.

All that is shown are replies: contents of places, words of actors, and the place that an actor's next step would
touch, which is asked by making that step in a run of its own. Only Python's standard library is used.
"""

from collections.abc import Callable, Iterator, Sequence

from lcrq_tools import model
from lcrq_tools.draw.figure import in_order
from lcrq_tools.program import TOP
from lcrq_tools.records import Actor, Cell, Refusal, Step, Tail, all_of, content_of, read_reply
from lcrq_tools.speak.teller import Ask, place_words, stand_words

SLOTS = 64
BOLD, DIM, RED, PLAIN = "\033[1m", "\033[2m", "\033[31m", "\033[0m"

Paint = Callable[[str, str], str]  # a text in a colour, or as it is


def in_colour(text: str, code: str) -> str:
    """A text in a colour of the terminal."""
    return f"{code}{text}{PLAIN}" if text else text


def without_colour(text: str, _: str) -> str:
    """A text as it is."""
    return text


# ---- The queue ------------------------------------------------------------------------------------


def segments_of(ask_all: Ask, makers: int) -> dict[str, str]:
    """The segments, each with what follows it."""
    nexts: dict[str, str] = {}
    for maker in range(makers + 1):
        after = enumerate(all_of(ask_all, f"show next {maker}.{{}}"))
        nexts |= {f"{maker}.{number}": name for number, name in after}
    return nexts


def segment_lines(ask_all: Ask, name: str, ends: Sequence[str], paint: Paint) -> Iterator[str]:
    """A segment: its counters, and its cells with the marks of the counters below them."""
    head, tail = (content_of(reply) for reply in ask_all([f"show head {name}", f"show tail {name}"]))
    cells = [*map(Cell.read, all_of(ask_all, f"show cell {name} {{}}"))]
    state = Tail.read(tail)
    closed = paint("closed ", RED) if state.is_closed else ""
    yield f"{paint(name, BOLD)}  head {head}  tail {closed}{state.count}{''.join(f'  {end}' for end in ends)}"
    values = ["·" if cell.value is None else str(cell.value) for cell in cells]
    indices = [f"{cell.index}{'' if cell.is_safe else '!'}" for cell in cells]
    marks = [
        "".join(mark for mark, count in (("h", int(head)), ("t", state.count)) if count % len(cells) == at)
        for at in range(len(cells))
    ]
    wide = [max(map(len, column)) for column in zip(values, indices, marks)]
    for title, row in (("value", values), ("index", indices), ("", marks)):
        yield f"    {title:<5} " + "  ".join(text.rjust(width) for text, width in zip(row, wide))


def array_lines(ask_all: Ask) -> Iterator[str]:
    """The array up to its last slot in use; nothing if it was never touched."""
    head, tail = (content_of(reply) for reply in ask_all(["show ahead", "show atail"]))
    slots = [content_of(reply) for reply in ask_all([f"show acell {slot}" for slot in range(SLOTS)])]
    used = max((number for number, slot in enumerate(slots, 1) if slot != "empty"), default=0)
    if used or head != "0" or tail != "0":
        yield f"array  head {head}  tail {tail}"
        yield "    " + "  ".join(slot.removeprefix("value ").replace("empty", "·") for slot in slots[:used])


def queue_lines(ask_all: Ask, actors: int, paint: Paint) -> Iterator[str]:
    """The queue: its segments in the order of their links, those that were never linked, and the array."""
    ends = {end: content_of(reply) for end, reply in zip(("QHead", "QTail"), ask_all(["show qhead", "show qtail"]))}
    linked, apart = in_order(segments_of(ask_all, actors), [*ends.values()])
    for name in linked:
        yield from segment_lines(ask_all, name, [end for end, at in ends.items() if at == name], paint)
    for name in apart:
        yield from segment_lines(ask_all, name, ["never linked"], paint)
    yield from array_lines(ask_all)
    yield paint("h, t: the cell of the head, of the tail   !: unsafe   ·: no value", DIM)


# ---- The actors -----------------------------------------------------------------------------------


def code_lines() -> dict[str, list[str]]:
    """The lines of the pseudo-code of each control point."""
    calls = model.lines_of((TOP / "docs" / "MODEL.md").read_text(encoding="utf-8"))
    return {point: lines for points in calls.values() for point, lines in points.items()}


def next_words(replies: Sequence[str]) -> str:
    """What an actor's next step would do, by the replies to that step and to a question about it."""
    if isinstance(refused := read_reply(replies[0]), Refusal):
        return "a choice" if refused.name == "NeedsChoice" else f"refused: {refused.name}"
    step = Step.read(replies[1])
    return f"would {'write' if step.wrote() else 'read'} {place_words(step.place)}"


def where_lines(ask_all: Ask, live: int, actors: int, paint: Paint) -> Iterator[str]:
    """Where each actor is, and what its next step would touch, in a run that may lose its undone steps."""
    code = code_lines()
    for number in range(1, actors + 1):
        actor = Actor.read(ask_all([f"actor {number}"])[0])
        if actor.is_idle():
            yield paint(stand_words(number, actor), DIM)
            continue
        trial = [f"go {number}", f"step {live + 1}"]
        replies = ask_all(trial)
        if replies[0].startswith("ok "):
            ask_all([f"undo {live + 1}"])
        yield f"{stand_words(number, actor)}, {next_words(replies)}"
        yield from (f"    {line}" for line in code.get(actor.point, []))
