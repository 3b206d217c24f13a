"""Guesses for `conform.py` whether a port has rings of another size than the model's: where the first difference
would not be one under another `--ring`.
"""

import contextlib
import tempfile
from collections.abc import Callable, Iterator
from pathlib import Path

from lcrq_tools.options import RINGS
from lcrq_tools.port.port_compare import Comparison, Difference, Listed
from lcrq_tools.port.port_log import Record
from lcrq_tools.port.port_replay import Replay

MORE = 1000  # records behind the difference that are compared
Opened = Callable[[int, Path], Replay]  # a fresh world with rings of so many cells, and a folder for its files


def began_again(comparison: Comparison, replay: Replay, records: list[Record]) -> Comparison:
    """A comparison like this one, of these records over another world."""
    asks, permits, follow = comparison.asks_choices, comparison.permits_reuse, comparison.follow
    return Comparison(replay, Listed(records), asks_choices=asks, permits_reuse=permits, follow=follow)


def guesses(comparison: Comparison, found: Difference, opened: Opened) -> Iterator[str]:
    """A line for each other ring under which the first difference is none."""
    records = comparison.source.early_records(found.index + 1 + MORE)
    for ring in RINGS:
        if ring == comparison.replay.ring or len(records) <= found.index:
            continue
        with tempfile.TemporaryDirectory() as folder, contextlib.closing(opened(ring, Path(folder))) as replay:
            then = began_again(comparison, replay, records).difference()
        if not then or then.index > found.index:
            which = "the first" if len(records) == found.index + 1 + MORE else "all"
            rest = f"the first is at step {then.step}" if then else f"{which} {len(records):,} records agree"
            yield f"with --ring {ring} this is no difference, and {rest}: is that the port's ring?"
