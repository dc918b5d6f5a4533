"""Whole stimuli from Python: scores, notes, text scores, cue sheets, stimulus files and WAVE files, to the bit.

The package calls the shared library libtono.so through ctypes and needs nothing but Python's standard
library. Make the library once, with ./shared-library at the top of the repository. It is looked for at
TONO_LIBRARY, in and beside this package, in target/lib of the repository, and where systems have their
libraries. Python 3.8 or later, x86-64 Linux; stimulus files need 3.11 or the package tomli.

    import tono
    session = tono.Session(seed=0x5EED)
    seq = tono.Seq(rate=48000, wave="pluck", env=tono.Envelope(release=0.05))
    played = tono.render(session, seq, [tono.Note(0, 4, 440.0), tono.Note(4, 4, 660.0)], 96000)
    tono.write_wave("pluck.wav", 48000, played.frames)
    print(played.cite())

Calls. help(tono.render) and so on say more of each.

    render, plan, note                  a score on a session; how many draws it would make; one voice's signal
    play_text, plan_text, cue_sheet     the same of a text score, and its cue sheet
    read_stimulus, Stimulus             a stimulus file: play(), plan(), cite(), to_toml()
    write_wave, read_wave, wave_bytes, wave_samples
    cite, replay, Score                 citations, and the input that is published with one
    selftest                            the original's answers, replayed on this machine
    Session, Seq, Note, Envelope, TempoPoint, pack_notes
    WAVES, STYLES, KNOBS, BARS, REASONS, CURES, VERSION

Numbers. Pitches are in hertz, times in seconds, tempos in beats a minute. The library computes in 32-bit
floats: a Python float is rounded to the nearest one, of two the even one; one that is too large becomes an
infinity, which is refused.

Buffers. Frames, pitch curves and note words may be any object with the buffer protocol: array.array, a
memoryview, a ctypes array, a numpy array. Nothing is copied. Frames and curves have items of 32-bit floats
(array "f", numpy.float32), note words of unsigned 32-bit integers (array "I", numpy.uint32). Another item
type is a TypeError. A buffer that is written to and is read-only, that has gaps or several dimensions, or
overlaps another, is a ValueError. A lane, a pitch or a duty may also be a list or a
tuple of numbers, which is copied. During a call no other thread may write to its buffers.

Refusals. A call that the library refuses raises Refused, with its number, reason, place and cure, and
changes nothing: no buffer, no seed, no count. An argument that the library has no place for, as a wave that
is none or 21 knobs, is a ValueError or a TypeError before anything is called.

Floating-point mode. A thread that rounds otherwise than to nearest or flushes subnormals would play other
bits; each call looks for it and raises RuntimeError.

Threads. The library keeps no state, and Python's lock is free while it works: threads may render at the
same time. Calls on one session wait for each other. Results and sessions can be pickled.

Citations. `Rendered.cite` gives the line to print in a paper, `Rendered.input` the bytes to publish with
it, and `replay` plays them again and says whether the sound is the same. See `cite`.

From a shell the command is tono, or python3 -m tono with PYTHONPATH=python; tono --help lists what it does.
"""
from typing import Any

from .calls import NoteSignal as NoteSignal, note as note, plan as plan, render as render
from .citations import Replayed as Replayed, cite as cite, replay as replay
from .errors import LibraryError as LibraryError, Refused as Refused
from .inputs import Score as Score
from .library import fp_ok as fp_ok, library_path as library_path
from .names import (BARS as BARS, CUE_SHEET_MOST as CUE_SHEET_MOST, CURES as CURES, CURVE as CURVE,
                    FRAMES_MOST as FRAMES_MOST, KNOBS as KNOBS, LISTING_MOST as LISTING_MOST, NUMBER as NUMBER,
                    QUARTER_TONE as QUARTER_TONE, REASONS as REASONS, STATIONS as STATIONS,
                    STRING_LENGTH as STRING_LENGTH, STYLES as STYLES, VERSION as VERSION, WAVE_HEADER as WAVE_HEADER,
                    WAVES as WAVES, Buffer as Buffer, Values as Values)
from .rendered import Rendered as Rendered
from .session import Session as Session
from .texts import cue_sheet as cue_sheet, plan_text as plan_text, play_text as play_text
from .values import (Envelope as Envelope, Note as Note, Notes as Notes, Seq as Seq, TempoPoint as TempoPoint,
                     pack_notes as pack_notes)
from .wavefiles import (read_wave as read_wave, wave_bytes as wave_bytes, wave_samples as wave_samples,
                        write_wave as write_wave)

__all__ = [
    "Envelope", "LibraryError", "Note", "NoteSignal", "Refused", "Rendered", "Replayed", "Score", "Seq",
    "Session", "TempoPoint", "NUMBER", "CURVE", "QUARTER_TONE", "BARS", "CURES", "KNOBS", "REASONS", "STATIONS", "STYLES",
    "VERSION", "WAVES", "cite", "cue_sheet", "note", "pack_notes", "plan", "plan_text", "play_text",
    "read_wave", "render", "replay", "selftest", "wave_bytes", "wave_samples", "write_wave",
]
__version__ = VERSION
# What is imported at its first use.
_LATER = {"read_stimulus": "stimuli", "Stimulus": "stimuli"}


def __getattr__(name: str) -> Any:
    if name in _LATER:
        import importlib
        return getattr(importlib.import_module("." + _LATER[name], __name__), name)
    raise AttributeError(f"module 'tono' has no attribute {name!r}")


def selftest(*arguments: Any, **options: Any) -> Any:
    """Replays the original's answers on this machine: every voice, style and refusal. See tono/selftest.py."""
    from .command_tools import selftest_module
    return selftest_module().selftest(*arguments, **options)


def main(arguments: Any = None) -> int:
    """The command; `tono --help` says more."""
    from .command import main as run
    return run(arguments)
