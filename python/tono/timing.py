"""Where each note of a score starts, how many of its frames sound and how often it draws: all by the planning call.

A note's draws are what the planning call gives for it alone. The wave noise draws once in each frame that sounds, so that the
same call with wave noise counts a note's sounded frames, and the fewest frames in which the note sounds at all give its start.
"""
from __future__ import annotations

from typing import Any, List, NamedTuple, Optional, Sequence

from .lending import read_values
from .library import library_calls, refuse
from .names import Values
from .session import Session
from .values import Notes, Seq, note_words_lent


class NoteRow(NamedTuple):
    """A line of a cue sheet. start and draw_before are None for a note that is skipped."""
    place: int
    step: int
    start: Optional[int]
    frames: int
    draw_before: Optional[int]
    draws: int


class _Planner:
    """The planning call for one note of a list at a time."""

    def __init__(self, seq: Seq, notes: Notes, lane: Values) -> None:
        self.library, self.session = library_calls(), Session()
        self.words, self.values = note_words_lent(notes), read_values("lane", lane)
        self.seq, self.noise = seq, seq.with_(wave="noise")

    def draws(self, seq: Seq, place: int, frames: int) -> int:
        number = self.library.tono_planned_draws(
            *self.session._arguments, 0, *seq._arguments, self.words.at + 20 * place, 5, self.values.at, self.values.count, frames)
        if number:
            refuse(number)
        return int(self.session._made.value)

    def start(self, place: int, sounded: int, frames: int) -> int:
        """The frame at which a note that sounds begins: one less than the fewest frames in which it sounds."""
        low, high = 0, frames - sounded + 1
        while high - low > 1:
            middle = (low + high) // 2
            if self.draws(self.noise, place, middle):
                high = middle
            else:
                low = middle
        return high - 1


def note_rows(seq: Seq, notes: Notes, frames: int, lane: Values = (), draw: int = 0) -> List[NoteRow]:
    """The cue sheet's numbers of a score from a draw on, note by note in list order."""
    planner, rows = _Planner(seq, notes, lane), []
    for place in range(planner.words.count // 5):
        step = planner.words.items()[5 * place]
        sounded = planner.draws(planner.noise, place, frames)
        if not sounded:
            rows.append(NoteRow(place, step, None, 0, None, 0))
            continue
        draws = planner.draws(seq, place, frames)
        rows.append(NoteRow(place, step, planner.start(place, sounded, frames), sounded, draw, draws))
        draw += draws
    return rows


def sheet_lines(rows: Sequence[NoteRow], wave: str) -> List[str]:
    """The lines of a cue sheet, 72 columns each, as tono_cue_sheet writes them."""
    def shown(value: Any) -> str:
        return "-" if value is None else str(value)
    return [f"{row.place:4}{row.step:8}{shown(row.start):>9}{row.frames:9}{wave:<10}{shown(row.draw_before):>21}{row.draws:11}"
            for row in rows]
