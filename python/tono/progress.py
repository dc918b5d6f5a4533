"""A line of progress on a terminal, and nothing in a pipe."""
from __future__ import annotations

import sys
import time
from typing import Iterator, Sequence, TypeVar

Item = TypeVar("Item")


def counted(items: Sequence[Item], what: str) -> Iterator[Item]:
    """The items, with a line on standard error that says how many are done and how long the rest takes, if it is a terminal
    and the work takes more than half a second."""
    shows, began = sys.stderr.isatty() and len(items) > 1, time.monotonic()
    shown = False
    try:
        for place, item in enumerate(items):
            passed = time.monotonic() - began
            if shows and passed > 0.5:
                left = passed / max(place, 1) * (len(items) - place)
                print(f"\r{what} {place}/{len(items)}, {left:.0f} s left \x1b[K", end="", file=sys.stderr, flush=True)
                shown = True
            yield item
    finally:
        if shown:
            print("\r\x1b[K", end="", file=sys.stderr, flush=True)
