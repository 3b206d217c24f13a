"""Finds who still has a segment whose name a port gives to another one, for `port_compare.py`: memory that is
used again too early.

An actor has a segment while a later line of its call names it, an end has the one that it names, and so does
the `next` of a segment of the queue, or of one that an actor has. Whatever is unlinked and left by all may
be used again. What is at a place is asked of the program, which stands before the record's step.
"""

from collections.abc import Callable, Iterator

from lcrq_tools.port.port_replay import SET_AT, Replay
from lcrq_tools.records import Actor, Place, Step, content_of

ENDS = {"qhead": "QHead", "qtail": "QTail"}


def has(state: Actor, word: str) -> bool:
    """Whether an actor's call goes on to use the segment in this word, before it is set anew."""
    point = state.point
    if point[0] not in "EQ" or point in SET_AT["crq"]:
        return False
    if word == "crq":
        return True
    if word == "new":
        return point in ("E13", "E14")
    return point in ("E3", "Q14") or state.words["pass"] == "2"


def since(replay: Replay, is_it: Callable[[str, Step], bool]) -> str:
    """Since which step it is so: the last one that is such."""
    steps = replay.steps
    number = next((number for number in steps.numbers() if is_it(*steps[number - 1])), 0)
    return f"since step {number}" if number else "since the start"


def writer(replay: Replay, place: Place) -> str:
    """Since which step a place has what it has."""
    return since(replay, lambda _, step: step.place == place and step.access == "wrote")


def next_of(replay: Replay, segment: str) -> str:
    """The segment after this one; nothing where none follows."""
    content = content_of(replay.ask([f"show next {segment}"])[0])
    return "" if content == "none" else content


def held(replay: Replay) -> Iterator[tuple[int, str, str]]:
    """The segments that actors have: the actor's number, the word and the segment."""
    for actor, state in enumerate(replay.states, 1):
        yield from ((actor, word, state.words[word]) for word in SET_AT if has(state, word))


def linked(replay: Replay, ends: dict[str, str]) -> dict[str, str]:
    """The segments of the queue and those that actors have, each with the one after it."""
    found: dict[str, str] = {}
    for segment in ends.values():
        while segment and segment not in found:
            found[segment] = next_of(replay, segment)
            segment = found[segment]
    for _, _, segment in held(replay):
        if segment not in found:
            found[segment] = next_of(replay, segment)
    return found


def holders(replay: Replay, segment: str) -> Iterator[str]:
    """Who has a segment, each in a sentence."""
    for actor, word, other in held(replay):
        if other == segment:
            def sets(point: str, step: Step, actor: int = actor, word: str = word) -> bool:
                return step.event.actor == actor and point in SET_AT[word]

            yield f"actor {actor} has it as {word}, {since(replay, sets)}"
    ends = {end: content_of(replay.ask([f"show {end}"])[0]) for end in ENDS}
    yield from (f"{ENDS[end]} has it, {writer(replay, Place(end))}" for end, at in ends.items() if at == segment)
    for before, after in linked(replay, ends).items():
        if after == segment:
            yield f"Next of {before} has it, {writer(replay, Place('next', before))}"
