#!/usr/bin/env python3
"""What a call through python/tono/ takes beyond the call in C that it makes, and whether that is at most 50
microseconds or 2 % of C's time.

usage: bench.py [SECONDS]       with PYTHONPATH=python; SECONDS for each row, 1 by default

The module is given the calls of bench.c, which have a clock before and after the library's, so that each call is timed twice,
as a whole and in C. A row has the shortest time in C and by how much the shortest time of a whole call is longer, as the
other measurements of this repository go by the shortest, and last the median of the differences of all calls. That one rises
where the machine has other work, since Python then finds its caches cold after a long call. A row is marked `over` if
the first difference is above the larger of 50 microseconds and 2 % of C's time; then the status is 1. Needs cc.
"""
import array
import ctypes
import os
import statistics
import subprocess
import sys
import tempfile
import time
from typing import Any, Callable, Iterator, List, Sequence, Tuple

import tono
import tono.library

HERE = os.path.dirname(os.path.abspath(__file__))
ROOT = os.path.dirname(os.path.dirname(HERE))
FRAMES, RATE = 96000, 48000
#: A call of the module, with all its arguments.
Call = Callable[[], object]
TIMED = ("render_seq", "note", "play", "wave_write")


class Timed:
    """The library, with timed calls in the place of its own."""

    def __init__(self, folder: str) -> None:
        own, made = tono.library.library_calls(), os.path.join(folder, "bench.so")
        library = os.path.realpath(tono.library_path())
        subprocess.run([os.environ.get("CC", "cc"), "-std=c11", "-O2", "-D_POSIX_C_SOURCE=200809L", "-shared", "-fPIC",
                        "-I" + os.path.join(ROOT, "include"), os.path.join(HERE, "bench.c"), library,
                        "-Wl,-rpath," + os.path.dirname(library), "-o", made], check=True)
        bench = ctypes.CDLL(made)
        for name in TIMED:
            call = getattr(bench, "timed_" + name)
            call.restype, call.argtypes = tono.library.CALLS["tono_" + name]
            setattr(self, "tono_" + name, call)
        self.tono_planned_draws, self.tono_wave_read = own.tono_planned_draws, own.tono_wave_read
        self.in_c = ctypes.c_double.in_dll(bench, "in_c")


def times(call: Call, in_c: ctypes.c_double, seconds: float) -> Tuple[float, float, float]:
    """In microseconds: the shortest time in C, how much longer the shortest whole call takes, and the median of what the
    calls take more than in C."""
    call()
    within: List[float] = []
    whole: List[float] = []
    end = time.perf_counter() + seconds
    while len(within) < 20 or time.perf_counter() < end:
        begun = time.perf_counter_ns()
        call()
        whole.append((time.perf_counter_ns() - begun) / 1e3)
        within.append(in_c.value / 1e3)
    return min(within), min(whole) - min(within), statistics.median(w - c for w, c in zip(whole, within))


def floats(count: int, value: float = 0.0) -> "array.array[float]":
    return array.array("f", [value]) * count


def score(seq: tono.Seq, notes: tono.Notes, frames: Any, lane: Sequence[float] = ()) -> Call:
    session, values = tono.Session(1), array.array("f", lane)
    return lambda: tono.render(session, seq, notes, frames, lane=values)


def note(seq: tono.Seq, frames: int) -> Call:
    pitch, duty, out = floats(frames, 440.0), floats(frames, 0.5), floats(frames)
    return lambda: tono.note(seq, 0.8, pitch, out, duty=duty, state=1)


def text(name: str) -> Call:
    with open(os.path.join(ROOT, "examples", f"{name}.score"), "rb") as file:
        data = file.read()
    return lambda: tono.play_text(data)


def rows() -> Iterator[Tuple[str, Call]]:
    """Pairs of a name and a call."""
    one = [tono.Note(0, 16, 440.0)]
    for wave in tono.WAVES:
        yield f"2 s of one note, {wave}", score(tono.Seq(wave=wave), one, floats(FRAMES))
    saw = tono.Seq(wave="sawtooth")
    yield "2 s on a curve at hop 64, sine", score(
        tono.Seq(wave="sine", hop=64), [tono.Note.on_curve(0, 16, 0)], floats(FRAMES), [220.0 + k / 10 for k in range(1500)])
    yield "2 s of one note, sawtooth, frames made by the call", score(saw, one, FRAMES)
    many = [tono.Note(k % 16, 1, 440.0) for k in range(256)]
    yield "2 s of 256 notes, noise", score(tono.Seq(wave="noise"), many, floats(FRAMES))
    yield "2 s of 256 notes, noise, packed before", score(tono.Seq(wave="noise"), tono.pack_notes(many), floats(FRAMES))
    yield "64 frames of one note, sawtooth", score(saw, one, floats(64))
    for wave in ("sawtooth", "noise", "piano"):
        yield f"a note call of 1 s, {wave}", note(tono.Seq(wave=wave), RATE)
    yield "a note call of 64 frames, sawtooth", note(saw, 64)
    for name in ("sawtooth", "noise", "piano", "scope"):
        yield f"the text score {name}", text(name)
    samples, file = floats(FRAMES, 0.25), bytearray(tono.WAVE_HEADER + 4 * FRAMES)
    yield "a WAVE file of 2 s", lambda: tono.wave_bytes(RATE, samples, file=file)


def main(words: List[str]) -> bool:
    seconds = float(words[0]) if words else 1.0
    over = 0
    with tempfile.TemporaryDirectory() as folder:
        timed = Timed(folder)
        setattr(tono.library, "_loaded", timed)
        print("| call | in C, µs | more, µs | more, % | median more, µs |\n|---|---|---|---|---|")
        for name, call in rows():
            within, more, median = times(call, timed.in_c, seconds)
            mark = " over" if more > max(50.0, 0.02 * within) else ""
            over += bool(mark)
            print(f"| {name} | {within:.1f} | {more:.1f} | {100 * more / within:.1f} | {median:.1f} |{mark}", flush=True)
    print(f"{over} over")
    return over > 0


if __name__ == "__main__":
    sys.exit(main(sys.argv[1:]))
