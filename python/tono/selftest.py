"""Holds the library on this machine to the original's answers: tono.selftest().

The cases are those of the program tono-selftest: scores, notes, text scores, cue sheets, WAVE files and exponentials, each
wave, style and refusal. They stand in vectors.bin, in this package or in the repository's folder selftest; selftest/pack
writes the file and says what its form is. The calls are made through ctypes, as every call of this package is.
"""
from __future__ import annotations

import ctypes
import hashlib
import os
import platform
import struct
import sys
import time
from typing import Any, Callable, Dict, List, NamedTuple, Optional, Sequence, Tuple

from .library import fp_ok, library_calls, library_path
from .names import VERSION

__all__ = ["Tested", "main", "report", "selftest"]

_HEAD = b"tono vectors 1\n"
_MALFORMED = 2**32 - 1
_STATIONS, _KNOBS, _BARS, _STRING = 8, 22, 10, 9600
_NOTE_BUFFER, _STRING_BUFFER = 20, 21
_Words = Any


class Tested(NamedTuple):
    """What came of a self-test; as a str it is 'N passed, M failed'.

    passed, failed: how many cases
    failures: a line for each case that failed
    """
    passed: int
    failed: int
    failures: Tuple[str, ...]

    def __str__(self) -> str:
        return f"{self.passed} passed, {self.failed} failed"


def _vectors() -> bytes:
    here = os.path.dirname(os.path.realpath(__file__))
    for folder in (here, os.path.join(os.path.dirname(os.path.dirname(here)), "selftest")):
        path = os.path.join(folder, "vectors.bin")
        if os.path.isfile(path):
            with open(path, "rb") as file:
                data = file.read()
            if not data.startswith(_HEAD):
                raise OSError(f"{path} does not begin with {_HEAD.decode().strip()!r}; install the package again")
            return data
    raise FileNotFoundError("there is no vectors.bin; run selftest/pack at the top of the repository, or install the package")


def _fnv(data: bytes) -> int:
    value = 0xCBF29CE484222325
    for byte in data:
        value = (value ^ byte) * 0x100000001B3 & 0xFFFFFFFFFFFFFFFF
    return value


def _canonical(words: List[int]) -> List[int]:
    """Patterns of floats, where one NaN counts as any other."""
    return [word if word & 0x7FFFFFFF <= 0x7F800000 else 0x7FC00000 for word in words]


def _filled(count: int) -> _Words:
    """So many words whose bytes are all 2e."""
    words = (ctypes.c_uint32 * max(count, 1))()
    ctypes.memset(words, 0x2E, ctypes.sizeof(words))
    return words


def _single(word: int) -> float:
    value: float = struct.unpack("<f", struct.pack("<I", word))[0]
    return value


class _Run:
    """One run over the cases: where it stands in them, the session, the text, and what came of it."""

    def __init__(self, library: ctypes.CDLL, data: bytes) -> None:
        self.library, self.data, self.at = library, data, len(_HEAD)
        self.seeds: _Words = (ctypes.c_uint64 * _STATIONS)()
        self.counts: _Words = (ctypes.c_uint64 * _STATIONS)()
        self.text = b""
        self.sums: Dict[bytes, int] = {}
        library.tono_exp.restype, library.tono_exp.argtypes = ctypes.c_double, [ctypes.c_double]

    def words(self, count: int) -> List[int]:
        found = list(struct.unpack_from(f"<{count}I", self.data, self.at))
        self.at += 4 * count
        return found

    def word(self) -> int:
        return self.words(1)[0]

    def longs(self, count: int, signed: bool = False) -> List[int]:
        found = list(struct.unpack_from(f"<{count}{'q' if signed else 'Q'}", self.data, self.at))
        self.at += 8 * count
        return found

    def long(self, signed: bool = False) -> int:
        return self.longs(1, signed)[0]

    def raw(self, count: int) -> bytes:
        self.at += count
        return self.data[self.at - count:self.at]

    def listed(self, count: int) -> _Words:
        """A list of so many words, as the library is lent it."""
        return (ctypes.c_uint32 * max(count, 1))(*self.words(count))

    def open(self) -> None:
        numbers = self.longs(2 * _STATIONS)
        self.seeds[:], self.counts[:] = numbers[::2], numbers[1::2]

    def score(self) -> bool:
        (station, rate, tempo, steps, swing, humanize, hop, wave, style, duty, knobs, bars, env, notes, lane, points, out,
         note_buf, string) = self.words(19)
        lists = [(self.listed(count), count) for count in (knobs, bars, env, notes, lane, points)]
        number, draws, counts = self.word(), self.long(), self.longs(_STATIONS)
        frames = self.words(out) if number == 0 else list(_filled(out))[:out]
        held = [(station, rate, _single(tempo), steps), lists[5], (_single(swing), _single(humanize), hop, wave, style,
                                                                    _single(duty)), *lists[:5]]
        arguments = [part for group in held for part in group]
        before, planned, made = list(self.counts), ctypes.c_uint64(0), ctypes.c_uint64(0)
        sessions = (self.seeds, _STATIONS, self.counts, _STATIONS)
        plan = self.library.tono_planned_draws(*sessions, ctypes.byref(planned), *arguments, out)
        room = _filled(out)
        got = self.library.tono_render_seq(*sessions, ctypes.byref(made), *arguments, room, out, _filled(note_buf), note_buf,
                                           _filled(string), string)
        same = got == number and list(self.counts) == counts and _canonical(list(room)[:out]) == frames
        same &= number == _MALFORMED or made.value == draws
        same &= number in (_NOTE_BUFFER, _STRING_BUFFER) or (plan == number and planned.value == made.value)
        same &= number == 0 or list(self.counts) == before
        self.counts[:] = counts
        return same

    def note(self) -> bool:
        wave, style, rate, gain = self.words(4)
        state = ctypes.c_uint64(self.long())
        frames, given = self.words(2)
        curves = []
        for _ in range(2):
            values = self.words(given)
            curves.append((ctypes.c_uint32 * frames)(*(values + values[-1:] * (frames - given))))
        knobs, bars = self.listed(_KNOBS), self.listed(_BARS)
        samples, after, out, draws = self.words(frames), self.long(), _filled(frames), ctypes.c_uint64(0)
        number = self.library.tono_note(rate, wave, style, knobs, _KNOBS, bars, _BARS, _single(gain), ctypes.byref(state),
                                        ctypes.byref(draws), curves[0], frames, curves[1], frames, out, frames,
                                        _filled(_STRING), _STRING)
        return bool(number == 0 and state.value == after and _canonical(list(out)) == samples)

    def open_text(self) -> None:
        self.text = self.raw(self.word())

    def reply(self, call: Callable[..., int]) -> bool:
        room, answer, total = self.word(), self.long(signed=True), self.long()
        reply = ctypes.create_string_buffer(b"." * room, max(room, 1))
        got = call(self.text, len(self.text), reply, room)
        whole = reply.raw[:room]
        if whole not in self.sums:
            self.sums[whole] = _fnv(whole)
        return got == answer and self.sums[whole] == total

    def read(self) -> bool:
        room, size = self.words(2)
        file = self.raw(size)
        answer, rate, samples = self.long(signed=True), self.word(), self.words(room)
        found, into = ctypes.c_uint32(0x2E2E2E2E), _filled(room)
        got = self.library.tono_wave_read(file, size, ctypes.byref(found), into, room)
        return bool(got == answer and found.value == rate and list(into)[:room] == samples)

    def write(self) -> bool:
        rate, room, count = self.words(3)
        samples, answer, file = self.listed(count), self.long(signed=True), self.raw(room)
        into = ctypes.create_string_buffer(b"." * room, max(room, 1))
        got = self.library.tono_wave_write(rate, samples, count, into, room)
        return bool(got == answer and into.raw[:room] == file)

    def exponential(self) -> bool:
        x, y = (struct.unpack("<d", struct.pack("<Q", value))[0] for value in self.longs(2))
        got = self.library.tono_exp(x)
        return bool(struct.pack("<d", got) == struct.pack("<d", y) or (got != got and y != y))

    def frames(self) -> bool:
        frames, number = self.long(), self.word()
        knobs, bars = (ctypes.c_uint32 * _KNOBS)(), (ctypes.c_uint32 * _BARS)()
        nothing, draws = _filled(1), ctypes.c_uint64(7)
        got = self.library.tono_planned_draws(
            (ctypes.c_uint64 * _STATIONS)(), _STATIONS, (ctypes.c_uint64 * _STATIONS)(), _STATIONS, ctypes.byref(draws), 0,
            48000, 120.0, 4, nothing, 0, 0.0, 0.0, 1, 0, 0, 0.5, knobs, _KNOBS, bars, _BARS, (ctypes.c_uint32 * 5)(), 5,
            nothing, 0, nothing, 0, frames)
        return bool(got == number and draws.value == 0)

    def lengths(self) -> bool:
        pitch, duty, out, string, number = self.words(5)
        knobs, bars = (ctypes.c_uint32 * _KNOBS)(), (ctypes.c_uint32 * _BARS)()
        curve = (ctypes.c_float * 4)(440.0, 440.0, 440.0, 440.0)
        state, draws = ctypes.c_uint64(7), ctypes.c_uint64(0)
        got = self.library.tono_note(48000, 0, 0, knobs, _KNOBS, bars, _BARS, 0.5, ctypes.byref(state), ctypes.byref(draws),
                                     curve, pitch, curve, duty, _filled(4), out, _filled(_STRING), string)
        return bool(got == number)

    def all(self) -> Tested:
        openers = {"O": self.open, "X": self.open_text}
        cases: Dict[str, Callable[[], bool]] = {
            "S": self.score, "N": self.note, "T": lambda: self.reply(self.library.tono_play),
            "C": lambda: self.reply(self.library.tono_cue_sheet), "R": self.read, "W": self.write, "E": self.exponential,
            "F": self.frames, "M": self.lengths,
        }
        places = dict.fromkeys(cases, 0)
        failures: List[str] = []
        while self.at < len(self.data):
            kind = self.raw(1).decode("ascii", "replace")
            if kind in openers:
                openers[kind]()
                continue
            if kind not in cases:
                raise OSError("vectors.bin is damaged; install the package again")
            places[kind] += 1
            if not cases[kind]():
                failures.append(f"case {kind}{places[kind]}: FAILED")
        return Tested(sum(places.values()) - len(failures), len(failures), tuple(failures))


def selftest(library: Optional[ctypes.CDLL] = None) -> Tested:
    """Holds the library to the original's answers, in some seconds, and says how many cases passed and failed.

        result = tono.selftest()
        print(result)                   # 3862 passed, 0 failed

    library: another library than the package's, loaded with its argument types, for a test of the test
    """
    return _Run(library_calls() if library is None else library, _vectors()).all()


def _processor() -> str:
    try:
        with open("/proc/cpuinfo", encoding="utf-8") as file:
            return next(line.split(":", 1)[1].strip() for line in file if line.startswith("model name"))
    except (OSError, StopIteration):
        return "unknown"


# Rounding modes by the numbers that x86-64's fesetround takes.
_ROUNDING = {"down": 0x400, "up": 0x800, "toward zero": 0xC00}


def _noticed(mode: int) -> bool:
    """Whether a thread that rounds otherwise is noticed."""
    libm = ctypes.CDLL("libm.so.6")
    libm.fesetround(mode)
    try:
        return not fp_ok()
    finally:
        libm.fesetround(0)


def report() -> Tuple[Tested, str]:
    """The self-test as a page for the rig's log: machine, library, floating-point mode, time, and whether other rounding
    modes are noticed. The program tono-selftest --report says more of these, and times each wave."""
    path, began = os.path.realpath(library_path()), time.monotonic()
    tested = selftest()
    took = time.monotonic() - began
    with open(path, "rb") as file:
        digest = hashlib.sha256(file.read()).hexdigest()
    system = platform.uname()
    lines = [
        f"# tono.selftest {VERSION}", "", f"- date: {time.strftime('%Y-%m-%d %H:%M:%S UTC', time.gmtime())}",
        f"- machine: {system.node}", f"- kernel: {system.system} {system.release}, {system.machine}",
        f"- processor: {_processor()}", f"- Python: {platform.python_version()}", f"- library: {path}",
        f"- library's SHA-256: {digest}",
        f"- floating-point mode: {'rounds to nearest and keeps subnormals' if fp_ok() else 'NOT that of the library'}",
        *(f"- rounding {name}: {'noticed' if _noticed(mode) else 'NOT NOTICED'}" for name, mode in _ROUNDING.items()),
        f"- time: {took:.2f} s", "", *tested.failures, str(tested), ""]
    return tested, "\n".join(lines)


def main(arguments: Sequence[str]) -> int:
    """The self-test as a program: no words, or --report and the page's path. The status is 0 if all passed, else 1."""
    if not arguments:
        tested = selftest()
        print("\n".join([*tested.failures, str(tested)]))
    elif len(arguments) == 2 and arguments[0] == "--report":
        tested, page = report()
        if arguments[1] == "-":
            print(page, end="")
        else:
            with open(arguments[1], "w", encoding="utf-8") as file:
                file.write(page)
            print(tested)
    else:
        print("selftest: give no words, or --report and the page's path", file=sys.stderr)
        return 2
    return 1 if tested.failed else 0
