"""Draws random runs as scripts for the measurements. The pseudo-code of docs/MODEL.md says which line each
actor takes next, so no line is refused.
"""

import collections
import random

from lcrq_tools import model
from lcrq_tools.checks.pseudo_code import Start, Turn, World

SEED = 20130223


def fresh_world(actors: int, ring: int) -> World:
    """The fresh world of actors, numbered from 1, over rings of this many cells."""
    pseudo_code = model.read(model.PAGE.read_text(encoding="utf-8"))
    return World(pseudo_code, Start(actors, ring, "fresh"), collections.Counter())


def make(world: World, line: str) -> None:
    """Makes the event of a line."""
    word, number, *rest = line.split(" ")
    actor = world.actors[int(number)]
    if word in world.firsts:
        actor.point, actor.call, actor.argument = world.firsts[word], word, int(rest[0]) if rest else None
    else:
        Turn(world, int(number), *rest).make()


def random_line(world: World, source: random.Random, number: int, enqueues: float) -> str:
    """The line of an actor's next event."""
    point = world.actors[number].point
    if point == "Idle":
        return f"enq {number} {source.randrange(1000)}" if source.random() < enqueues else f"deq {number}"
    if world.steps[point].has_choice():
        return f"starve {number} {'yes' if source.random() < 0.5 else 'no'}"
    return f"go {number}"


def random_run(steps: int, enqueues: float = 0.5, actors: int = 4, ring: int = 4) -> list[str]:
    """This many events of actors that take turns by chance."""
    world, source = fresh_world(actors, ring), random.Random(SEED)
    lines: list[str] = []
    for _ in range(steps):
        lines.append(random_line(world, source, source.randint(1, actors), enqueues))
        make(world, lines[-1])
    return lines
