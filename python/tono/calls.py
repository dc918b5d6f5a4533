"""The calls on whole scores and on one note: render, plan and note."""
from __future__ import annotations

import array
import ctypes
from typing import Any, NamedTuple, Optional, Union

from .lending import FLOATS, Lent, judge_apart, read_values, zeros
from .library import library_calls, refuse
from .names import FRAMES_MOST, STATIONS, STRING_LENGTH, Buffer, Values
from .places import place_of_note_call, place_of_score
from .rendered import Rendered
from .session import Session
from .singles import is_number, single, whole
from .values import Notes, Seq, note_words_lent


def _judge_kinds(session: Session, seq: Seq) -> None:
    """The first two arguments of a score call, which are easily exchanged."""
    if not isinstance(session, Session):
        raise TypeError(f"session: {type(session).__name__} is no Session; make one by tono.Session(seed=..)")
    if not isinstance(seq, Seq):
        raise TypeError(f"seq: {type(seq).__name__} is no Seq; make one by tono.Seq(rate=.., wave=..)")


def render(session: Session, seq: Seq, notes: Notes, out: Union[int, Buffer], *, lane: Values = (),
           station: int = 0, note_buffer: Optional[Buffer] = None,
           string_buffer: Optional[Buffer] = None) -> Rendered:
    """Plays a score on a station of a session.

    notes: Notes in list order, or a buffer of their words (`pack_notes`)
    out: how many frames to render, up to 16,777,216 (2), or a buffer that is filled with them
    lane: the pitches that notes on curves read, in hertz; each is finite and of magnitude at most 65,536 (11)
    station: 0 to 7 (33)
    note_buffer, string_buffer: scratch of at least as many values as out has (20), and of 9,600 (21);
        without them the session's own is used

    Refused raises and leaves session and buffers as they were, with the first number that applies of 33, 1,
    2, 3, 4, 31, 32, 5, 6, 20, 21, 35, 7, 11, then note by note 8, 9, 10, 30 or 12, then 22.
    """
    library = library_calls()
    _judge_kinds(session, seq)
    words, values, place = note_words_lent(notes), read_values("lane", lane), whole("station", station)
    if is_number(out):
        count = whole("out", out, 64)
        if count > FRAMES_MOST:
            plan(session, seq, notes, count, lane=lane, station=station)
        out = zeros(count)
    frames = Lent("out", out, FLOATS, True)
    written = [frames]
    for name, given in (("note_buffer", note_buffer), ("string_buffer", string_buffer)):
        if given is not None:
            written.append(Lent(name, given, FLOATS, True))
    judge_apart(written, (words, values))
    with session._lock:
        room = session._note_room(frames.count) if note_buffer is None else (written[1].at, written[1].count)
        string = session._string_room if string_buffer is None else (written[-1].at, written[-1].count)
        before = session._draws[place] if place < STATIONS else 0
        number = library.tono_render_seq(
            *session._arguments, place, *seq._arguments, words.at, words.count, values.at, values.count,
            frames.at, frames.count, *room, *string)
        if number:
            refuse(number, place_of_score(number, library, session, seq, words, values, frames.count, place))
        draws, seed = session._made.value, session._seeds[place]
    length = frames.count
    return Rendered(out, seq.rate, draws, seed, place, before, (seq, notes, length, lane))


def plan(session: Session, seq: Seq, notes: Notes, frames: int, *, lane: Values = (), station: int = 0) -> int:
    """How many draws `render` would make with these arguments. Nothing is played and nothing changes.
    Refused as `render` is, but for 20 and 21."""
    library = library_calls()
    _judge_kinds(session, seq)
    words, values, place = note_words_lent(notes), read_values("lane", lane), whole("station", station)
    count = whole("frames", frames, 64)
    with session._lock:
        number = library.tono_planned_draws(
            *session._arguments, place, *seq._arguments, words.at, words.count, values.at, values.count,
            count)
        if number:
            refuse(number, place_of_score(number, library, session, seq, words, values, count, place))
        return session._made.value


class NoteSignal(NamedTuple):
    """What an accepted note call gave.

    frames: the buffer that was lent, or a new array("f")
    draws: how many draws it made
    state: the generator's state after it, from which the next note goes on
    """
    frames: Buffer
    draws: int
    state: int


def note(seq: Seq, gain: float, pitch: Union[float, Values], out: Union[int, Buffer], *,
         duty: Union[float, Values, None] = None, state: int = 0,
         string_buffer: Optional[Buffer] = None) -> NoteSignal:
    """One note by itself, without envelope and mix: a voice's signal.

    seq: its rate, wave, style, knobs, drawbars and duty are taken, and nothing else of it
    gain: finite and of magnitude at most 65,536 (10)
    pitch: hertz, one number or a value for each frame (10, 13, 14)
    out: how many frames, 1 to 16,777,216 (2, 13), or a buffer that is filled with them
    duty: one number or a value for each frame (10, 14); without it that of seq
    state: the generator's, 0 to 2^64 - 1: a seed, or what a call before handed back
    string_buffer: scratch of at least 9,600 values (21)

    Refused raises and changes nothing, with the first number that applies of 1, 2, 6, 21, 10, 13, 14.
    """
    library = library_calls()
    if not isinstance(seq, Seq):
        raise TypeError(f"seq: {type(seq).__name__} is no Seq; make one by tono.Seq(rate=.., wave=..)")
    loud, from_state = single("gain", gain), ctypes.c_uint64(whole("state", state, 64))
    if is_number(out):
        out = zeros(min(whole("out", out, 64), FRAMES_MOST + 1))
    frames = Lent("out", out, FLOATS, written=True)
    pitches = _each_frame("pitch", pitch, frames.count)
    duties = _each_frame("duty", seq.duty if duty is None else duty, frames.count)
    string = Lent("string_buffer", zeros(STRING_LENGTH) if string_buffer is None else string_buffer,
                   FLOATS, written=True)
    judge_apart([frames, string], [pitches, duties])
    draws = ctypes.c_uint64()
    number = library.tono_note(
        *seq._voice, loud, ctypes.addressof(from_state), ctypes.addressof(draws), pitches.at, pitches.count,
        duties.at, duties.count, frames.at, frames.count, string.at, string.count)
    if number:
        refuse(number, place_of_note_call(number, seq, loud, pitches, duties, frames.count, string.count))
    return NoteSignal(out, draws.value, from_state.value)


def _each_frame(name: str, given: Union[float, Values], count: int) -> Lent:
    """A value for each frame: those given, or one number as often as there are frames."""
    number: Any = given
    if is_number(number):
        return Lent(name, array.array("f", [single(name, number)]) * count, FLOATS)
    return read_values(name, given)
