"""Names of pitches: notes of equal temperament with cents, quarter tones, drums."""
from __future__ import annotations

import functools
import math
import re
from decimal import Decimal, localcontext
from typing import Iterable, NamedTuple, Optional

from .decimals import narrow
from .names import CURVE, NUMBER, QUARTER_TONE
from .singles import of_bits

NAMES = "C C# D D# E F F# G G# A A# B".split()
#: The drums that all styles have, by the MIDI numbers that pick them; every other number picks a drum without a name.
DRUMS = {
    "kick": (35, 36), "rim": (37,), "snare": (38, 40), "clap": (39,), "closed hat": (42, 44), "open hat": (46,),
    "tom": (41, 43, 45, 47, 48, 50), "crash": (49, 55, 57), "ride": (51, 53, 59), "cowbell": (56,),
}
#: The number that a drum's name stands for in a stimulus file; toms are told apart by "tom 41" and so on.
DRUM_NUMBERS = {"kick": 36, "rim": 37, "snare": 38, "clap": 39, "closed hat": 42, "open hat": 46, "tom": 45, "crash": 49,
                "ride": 51, "cowbell": 56}
_NOTE = re.compile(r"([A-G])(#{1,2}|b{1,2}|)(-?[0-9]+)(?:\s*([+-])\s*([0-9]+(?:\.[0-9]+)?)\s*c(?:ents?)?)?")
_QUARTER = re.compile(r"q\s*([0-9]+)")
_DRUM = re.compile(r"(?:drum|tom)\s+([0-9]+)")
_PLACE = re.compile(r"(.*?)@([0-9]+)")


class Pitch(NamedTuple):
    """A pitch as a note has it: its kind, and hertz, a quarter tone, or a place in a curve with its name."""
    kind: int
    value: float
    curve: str = ""


@functools.lru_cache(maxsize=None)
def quarter_tone_bits(q: int) -> int:
    """The bits of the f32 nearest to t = 440 * 2^((q - 138) / 24), in whole numbers.

    It is m * 2^(e - 150) with m of 24 digits, and lies between its midpoints: 2m - 1 < 2 * t / 2^(e - 150) < 2m + 1.
    To the 24th power, t is 440^24 * 2^(q - 138), so that all three are whole numbers. No t lies on a midpoint, and no m
    is the first of its digits.
    """
    for e in range(130, 142):
        # 2 * t / 2^(e - 150), to the 24th power
        power = 440**24 * 2 ** (q - 138 + 24 * (151 - e))
        low, high = 2**23, 2**24
        while high - low > 1:
            m = (low + high) // 2
            if (2 * m - 1) ** 24 < power:
                low = m
            else:
                high = m
        if low > 2**23 and (2 * low - 1) ** 24 < power < (2 * low + 1) ** 24:
            return (e << 23) + low - 2**23
    raise ValueError(f"{q} is no quarter tone; they go from 0 to 255")


def quarter_tone(q: int) -> float:
    """Quarter tone q in hertz."""
    return of_bits(f"{quarter_tone_bits(q):08x}")


def quarter_tone_name(q: int) -> str:
    return f"{NAMES[q // 2 % 12]}{q // 24 - 1}" + (" +50 cents" if q % 2 else "")


def hertz_of(key: int, cents: Decimal) -> float:
    """The f32 nearest to the pitch of a MIDI number and so many cents."""
    with localcontext() as context:
        context.prec = 50
        octaves = (Decimal(key - 69) * 100 + cents) / 1200
        return narrow(Decimal(440) * (octaves * Decimal(2).ln()).exp())


def _key_of(letter: str, sharps: str, octave: str) -> int:
    raised = len(sharps) if sharps.startswith("#") else -len(sharps)
    return NAMES.index(letter) + raised + 12 * (int(octave) + 1)


def is_pitch_name(text: str) -> bool:
    """Whether a text is a note, a quarter tone or a drum, so that no curve may have it as its name."""
    return any(form.fullmatch(text) for form in (_NOTE, _QUARTER, _DRUM)) or text in DRUM_NUMBERS or "@" in text


def pitch_of(text: str, curves: Iterable[str], is_kit: bool) -> Pitch:
    """The pitch that a text names: 'A4', 'Bb3 -14c', 'q138', a drum of a kit, a curve or 'curve@place'. A ValueError says
    what is wrong."""
    found = _NOTE.fullmatch(text)
    if found:
        key, cents = _key_of(*found.group(1, 2, 3)), Decimal(found[5] or 0) * (-1 if found[4] == "-" else 1)
        q = Decimal(2 * key) + cents / 50
        if not 0 <= q <= 255:
            raise ValueError(f"{text!r} is not from C-1 to G9 +50c; write hertz for what is beyond")
        return Pitch(QUARTER_TONE, int(q)) if q == int(q) else Pitch(NUMBER, hertz_of(key, cents))
    found = _QUARTER.fullmatch(text)
    if found:
        if int(found[1]) > 255:
            raise ValueError(f"{text!r} is above q255, which is G9 +50 cents")
        return Pitch(QUARTER_TONE, int(found[1]))
    if text in DRUM_NUMBERS or _DRUM.fullmatch(text):
        if not is_kit:
            raise ValueError(f"{text!r} is a drum, and this voice is no kit; write hertz, a note as 'A4', or wave = \"kit\"")
        number = DRUM_NUMBERS.get(text) or int(text.split()[-1])
        if number > 127:
            raise ValueError(f"{text!r} is above 127, the last MIDI number")
        return Pitch(QUARTER_TONE, 2 * number)
    found = _PLACE.fullmatch(text)
    name, place = (found[1], int(found[2])) if found else (text, 0)
    if name in curves:
        return Pitch(CURVE, place, name)
    better = text[:1].upper() + text[1:]
    if _NOTE.fullmatch(better):
        raise ValueError(f"{text!r} is written with a capital letter: did you mean {better!r}?")
    raise ValueError(f"{text!r} is neither a note as 'A4' or 'A4 +50c', a quarter tone as 'q138', {'a drum, ' if is_kit else ''}"
                     "nor a curve of this file")


def midi_of(pitch: float) -> int:
    """The MIDI number that a pitch rounds to, at least that of 8 Hz: it picks the drum of a kit."""
    octaves = _round32(_round32(math.log(_round32(max(pitch, 8.0) / 440))) / _round32(math.log(2)))
    return math.floor(_round32(69 + _round32(12 * octaves)) + 0.5)


def _round32(x: float) -> float:
    import ctypes
    return ctypes.c_float(x).value


def drum_of(midi: int) -> str:
    return next((name for name, numbers in DRUMS.items() if midi in numbers), "any other")


def note_name(hertz: float) -> str:
    """The nearest note of equal temperament at A4 = 440 Hz, and by how many cents the pitch is off."""
    if not (math.isfinite(hertz) and hertz > 0):
        return ""
    key = 69 + 12 * math.log2(hertz / 440)
    nearest = math.floor(key + 0.5)
    cents = round(100 * (key - nearest))
    name = NAMES[nearest % 12] + str(nearest // 12 - 1)
    return f"{name} {cents:+d} cents" if cents else name


def name_of(wave: str, hertz: float) -> str:
    """What a pitch stands for: the drum that it picks of a kit, else the nearest note."""
    if wave != "kit":
        return note_name(hertz)
    midi = midi_of(hertz)
    return f"{midi}, {drum_of(midi)}"


def hertz_of_note(kind: int, word: int, lane: Optional[Iterable[float]] = None) -> float:
    """A note's first pitch in hertz, of its kind and pitch word."""
    if kind == QUARTER_TONE:
        return quarter_tone(word)
    if kind == CURVE:
        values = list(lane or ())
        return values[word] if word < len(values) else math.nan
    return of_bits(f"{word:08x}")
