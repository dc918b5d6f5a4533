"""What a call raises: Refused with place and cure, LibraryError, and a warning where numbers are narrowed."""
from __future__ import annotations

from typing import Any, Optional, Tuple

from .names import CURES, REASONS


class Refused(Exception):
    """The library refused the call and changed nothing.

    number: an int, as in the table of docs/refusals.md
    reason: what it means, in one line
    place: what is refused, as 'lane[3] is nan', 'notes[2], pitch inf' or 'line 5'; None if it was not looked for
    cure: what to do, in one line
    """

    def __init__(self, number: int, place: Optional[str] = None) -> None:
        super().__init__(number, place)
        self.number, self.place = number, place
        self.reason = REASONS.get(number, "an unknown number")
        self.cure = CURES.get(number, "report it as a fault")

    def __reduce__(self) -> Tuple[Any, ...]:
        return Refused, (self.number, self.place)

    def __str__(self) -> str:
        said = f"refused with {self.number}: {self.reason}"
        return said if self.place is None else f"{said}: {self.place}; {self.cure}"


class LibraryError(OSError):
    """libtono.so is missing, cannot be loaded, or is of another version than this package."""


def malformed() -> ValueError:
    """What is raised where the library answers that there is no such call."""
    return ValueError("the call is malformed")
