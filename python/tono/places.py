"""Where what is refused stands: worked out beside the proved call, which alone decides what is refused."""
from __future__ import annotations

import ctypes
from typing import Any, Iterator, Optional, Tuple

from .lending import Lent
from .names import FRAMES_MOST, KNOBS, NUMBER, STRING_LENGTH
from .session import Session
from .values import Envelope, Seq

#: The largest magnitude of a number that is sized.
SIZE_MOST = 65536.0
_NOTE_NUMBERS = (8, 9, 10, 12, 30)


def is_sized(x: float) -> bool:
    """Whether a number is finite and of magnitude at most 65,536."""
    return abs(x) <= SIZE_MOST


def first_not_sized(values: Any) -> Optional[Tuple[int, float]]:
    """The first value that is not sized, with its place."""
    return next(((i, x) for i, x in enumerate(values) if not is_sized(x)), None)


def voice_numbers(seq: Seq) -> Iterator[Tuple[str, float]]:
    yield from zip(KNOBS, seq.knobs)
    yield from ((f"bars[{i}]", x) for i, x in enumerate(seq.bars))
    yield "duty", seq.duty
    yield from zip((f"env.{name}" for name in Envelope._fields), seq.env)


def _point_place(seq: Seq, number: int) -> Optional[str]:
    points = seq.tempo_map
    if number == 31 and len(points) > 64:
        return f"{len(points)} points"
    for i, point in enumerate(points):
        if number == 31 and (point.den == 0 or abs(point.num) > 10**9 or not 1 <= point.bpm <= 1000):
            return f"tempo_map[{i}] is beat {point.num}/{point.den}, tempo {point.bpm:g}"
        if number == 32 and i == 0 and point.num != 0:
            return f"tempo_map[0] is at beat {point.num}/{point.den}"
        if number == 32 and i and point.num * points[i - 1].den <= points[i - 1].num * point.den:
            before = points[i - 1]
            return f"tempo_map[{i}] is at beat {point.num}/{point.den}, and the one before at {before.num}/{before.den}"
    return None


def note_place(place: int, words: Any, number: int) -> str:
    """A note by its place, with what is refused of it."""
    step, length, kind, pitch, gain = words
    hertz, loud = (ctypes.c_float.from_buffer_copy(ctypes.c_uint32(word)).value for word in (pitch, gain))
    if number == 8:
        said = f"kind {kind}"
    elif number == 9:
        said = f"step {step}" if step > 1048575 else f"length {length}"
    elif number == 10:
        said = f"gain {loud:g}" if kind != NUMBER or not is_sized(loud) else f"pitch {hertz:g}"
    elif number == 30:
        said = f"quarter tone {pitch}"
    else:
        said = f"a curve from place {pitch}, step {step}, length {length}"
    return f"notes[{place}], {said}"


def _note_refused(number: int, library: ctypes.CDLL, session: Session, seq: Seq, words: Lent, values: Lent, count: int,
                  station: int) -> Optional[str]:
    """The first note that the planning call refuses by itself."""
    for i in range(words.count // 5):
        if library.tono_planned_draws(*session._arguments, station, *seq._arguments, words.at + 20 * i, 5, values.at,
                                      values.count, count) == number:
            return note_place(i, words.items()[5 * i:5 * i + 5], number)
    return None


def place_of_score(number: int, library: ctypes.CDLL, session: Session, seq: Seq, words: Lent, values: Lent, count: int,
                   station: int) -> Optional[str]:
    """What a score call was refused for. The session's lock is held."""
    if number in _NOTE_NUMBERS:
        return _note_refused(number, library, session, seq, words, values, count, station)
    if number in (31, 32):
        return _point_place(seq, number)
    if number == 6:
        return next((f"{name} is {x:g}" for name, x in voice_numbers(seq) if not is_sized(x)), None)
    if number == 11:
        found = first_not_sized(values.items())
        return f"lane[{found[0]}] is {found[1]:g}" if found else None
    return {
        1: f"rate is {seq.rate}", 2: f"{count} frames", 3: f"tempo is {seq.tempo:g}",
        4: f"steps_per_beat is {seq.steps_per_beat}", 7: f"{words.count} words", 33: f"station is {station}",
        5: f"humanize is {seq.humanize:g}" if 0 <= seq.swing <= 1 else f"swing is {seq.swing:g}", 35: f"hop is {seq.hop}",
        20: f"out has {count} frames", 21: None, 22: f"station {station} stands at draw {session.draws[station % 8]}",
    }.get(number)


def place_of_note_call(number: int, seq: Seq, gain: float, pitch: Lent, duty: Lent, count: int,
                       string: int) -> Optional[str]:
    """What a note call was refused for."""
    if number == 10:
        if not is_sized(gain):
            return f"gain is {gain:g}"
        for lent in (pitch, duty):
            found = first_not_sized(lent.items())
            if found:
                return f"{lent.name}[{found[0]}] is {found[1]:g}"
    if number == 6:
        return next((f"{name} is {x:g}" for name, x in voice_numbers(seq) if not is_sized(x)), None)
    return {
        1: f"rate is {seq.rate}", 2: f"more than {FRAMES_MOST} frames", 21: f"string_buffer has {string} of {STRING_LENGTH}",
        14: f"pitch has {pitch.count}, duty {duty.count}, out {count}",
    }.get(number)
