"""Finds a small set of calls that no FIFO queue can have answered so, among calls that have no order, for `calls.py`.

Who leaves a value out has to leave out all calls that put or took it: then what is left of an order is an order. So
the parts of a set are values, each with its calls, and dequeues that found the queue empty. A pending dequeue may
have taken any value, and stays. None of the parts of the set that is found can be left out.
"""

from collections.abc import Iterable, Sequence
from dataclasses import dataclass

from lcrq_tools.calls.intervals import FOREVER, Call
from lcrq_tools.calls.orders import answer_of, by_values
from lcrq_tools.program import counted

Part = tuple[Call, ...]


@dataclass(frozen=True)
class Culprits:
    """A set of calls without an order, and why it has none."""

    calls: tuple[Call, ...]
    why: str


def parts_of(calls: Sequence[Call]) -> list[Part]:
    """What can be left out of calls, by the last end."""
    parts: list[Part] = [(*puts, *takes) for puts, takes in by_values(calls).values()]
    parts += [(call,) for call in calls if is_empty(call)]
    return sorted(parts, key=lambda part: max((call.end for call in part if not call.is_pending()), default=FOREVER))


def is_empty(call: Call) -> bool:
    """Whether a call found the queue empty."""
    return not call.is_put() and call.value is None and not call.is_pending()


class Narrowed:
    """The calls that are looked at, and whether some of their parts have no order."""

    def __init__(self, calls: Sequence[Call], tries: int) -> None:
        self.always = tuple(call for call in calls if not call.is_put() and call.is_pending())
        self.tries = tries

    def calls_of(self, parts: Iterable[Part]) -> list[Call]:
        """The calls of parts, and those that stay."""
        return sorted((*self.always, *(call for part in parts for call in part)), key=lambda call: call.begin)

    def is_refused(self, parts: Iterable[Part]) -> bool:
        """Whether it is sure that parts have no order."""
        return answer_of(self.calls_of(parts), self.tries).is_refused()

    def reduced(self, parts: Sequence[Part]) -> list[Part]:
        """Parts without an order, none of which can be left out: as many of the first ones as are needed end with
        one that belongs to them, and so on with those before it."""
        kept: list[Part] = []
        while parts and not self.is_refused(kept):
            low, high = 1, len(parts)  # the first `high` have no order with those that are kept
            while low < high:
                middle = (low + high) // 2
                low, high = (low, middle) if self.is_refused([*kept, *parts[:middle]]) else (middle + 1, high)
            kept.append(parts[high - 1])
            parts = parts[:high - 1]
        return kept


# ---- Small sets -----------------------------------------------------------------------------------


def taken_at(part: Part) -> tuple[int, int]:
    """When the value of a part that is put once can be taken at first and at last."""
    return (part[1].begin, part[1].end) if len(part) > 1 else (FOREVER, FOREVER)


def is_once(part: Part) -> bool:
    """Whether a part is a value that is put once, and taken once at most."""
    return part[0].is_put() and (len(part) == 1 or len(part) == 2 and not part[1].is_put())


def pairs_of(parts: Sequence[Part]) -> list[tuple[Part, Part]]:
    """Two parts of which the first is a value that another one overtakes, or that is surely there while the other
    one finds the queue empty. Of each later part, the earlier one that is taken last."""
    once = sorted((part for part in parts if is_once(part)), key=lambda part: part[0].end)
    later = [(part[0].begin, taken_at(part)[1], part) for part in once if len(part) > 1]
    later += [(part[0].begin, part[0].end, part) for part in parts if is_empty(part[0])]
    pairs: list[tuple[Part, Part]] = []
    number, last = 0, None
    for begin, end, part in sorted(later, key=lambda row: row[0]):
        while number < len(once) and once[number][0].end < begin:
            last = max(last or once[number], once[number], key=taken_at)
            number += 1
        if last and taken_at(last)[0] > end:
            pairs.append((last, part))
    return sorted(pairs, key=lambda pair: (sum(map(len, pair)), max(call.end for part in pair for call in part)))


def smallest(calls: Sequence[Call], tries: int) -> list[Part]:
    """Parts of calls that have no order: one if one will do, or a pair, or else parts of which none can be left out."""
    narrowed, parts = Narrowed(calls, tries), parts_of(calls)
    for part in parts:
        if narrowed.is_refused([part]):
            return [part]
    pairs = ([*pair] for pair in pairs_of(parts) if narrowed.is_refused(pair))
    return next(pairs, []) or narrowed.reduced(parts)


# ---- In words -------------------------------------------------------------------------------------


def why_alone(part: Part) -> str:
    """Why a part alone has no order."""
    value = part[0].value
    puts, takes = by_values(part)[value] if value is not None else ([], [])
    if not puts:
        return f"{value} is taken, and never put"
    if len(takes) > len(puts):
        return f"{value} is taken {counted(len(takes), 'time')}, and put {counted(len(puts), 'time')}"
    return f"{value} is taken before it is put" + (" so often" if len(puts) > 1 else "")


def why_both(first: Part, then: Part) -> str:
    """Why two parts have no order."""
    if is_empty(then[0]):
        return f"the queue is found empty while {first[0].value} is surely there"
    fate = "is never taken" if len(first) == 1 else f"is taken after {then[0].value}"
    return f"{then[0].value} overtakes {first[0].value}, which is put before it and {fate}"


def why_some(parts: Sequence[Part], has_open: bool) -> str:
    """Why parts have no order."""
    values = sorted(part[0].value for part in parts if part[0].value is not None)
    listed = ", ".join(map(str, values))
    if not has_open and all(map(is_once, (part for part in parts if not is_empty(part[0])))):
        return f"the queue is found empty, and at each moment of that call one of {listed} is surely there"
    return f"no order answers the calls of {listed} so" + (", whatever is pending" if has_open else "")


def culprits_of(calls: Sequence[Call], tries: int) -> Culprits:
    """A small set of calls without an order, where the calls have none."""
    parts = smallest(calls, tries)
    narrowed = Narrowed(calls, tries)
    pair = next(iter(pairs_of(parts)), None) if len(parts) == 2 else None
    if len(parts) == 1:
        why = why_alone(parts[0])
    else:
        why = why_both(*pair) if pair else why_some(parts, bool(narrowed.always))
    found = [call for part in parts for call in part]
    return Culprits(tuple(sorted(found, key=lambda call: call.begin)), why)
