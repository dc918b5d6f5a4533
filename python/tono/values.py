"""What is played: envelopes, tempo points, notes and the numbers of a score. None of these changes once it is made."""
from __future__ import annotations

import array
import operator
import struct
from fractions import Fraction
from typing import Any, Dict, Iterable, List, Mapping, NamedTuple, Sequence, Tuple, Union

from .lending import NOWHERE_AT, WORDS, Lent
from .names import BARS, CURVE, KNOBS, NUMBER, QUARTER_TONE, STYLES, WAVES, Buffer
from .singles import bits_of, nearest, place_in, single, singles, whole


class Envelope(NamedTuple):
    """How a note swells and fades.

    attack, decay, release: seconds. sustain: the level after the decay, 1 for none. punch: how much louder
    the start is. Each is finite and of magnitude at most 65,536 (6).
    """
    attack: float = 0.0
    decay: float = 0.0
    sustain: float = 1.0
    release: float = 0.0
    punch: float = 0.0


class TempoPoint(NamedTuple):
    """From beat num / den on the tempo is bpm beats a minute, 1 to 1,000 (31).

    num: a signed integer of 64 bits, of magnitude at most 1,000,000,000; den: 1 to 2^32 - 1 (31).
    """
    num: int
    den: int
    bpm: float

    @classmethod
    def at(cls, beat: Union[int, float, Fraction, str], bpm: float) -> "TempoPoint":
        """The point at a beat: TempoPoint.at(7.5, 50), TempoPoint.at(Fraction(15, 2), 50) and TempoPoint.at("7 1/2", 50)
        are TempoPoint(15, 2, 50). A float is the fraction that it is where that fits, else the decimal that Python prints
        for it, so that 0.1 is 1/10."""
        exact = beat_of(beat)
        return cls(exact.numerator, exact.denominator, bpm)

    def _words(self) -> Tuple[int, int, int, int]:
        num = operator.index(self.num)
        if not -2**63 <= num < 2**63:
            raise ValueError(f"tempo_map: the numerator {num} has more than 64 bits")
        den = whole("tempo_map: the denominator", self.den)
        return num % 2**32, num % 2**64 >> 32, den, int(bits_of(self.bpm), 16)


def beat_of(given: Union[int, float, Fraction, str]) -> Fraction:
    """A beat as a fraction: a whole number, a Fraction, '15/2', '7 1/2' or '7.5', or a float."""
    if isinstance(given, Fraction):
        exact = given
    elif isinstance(given, str):
        exact = _written_beat(given)
    elif hasattr(given, "__index__"):
        return Fraction(operator.index(given))
    else:
        try:
            exact = Fraction(float(given))
            if exact.denominator >= 2**32:
                exact = Fraction(repr(float(given)))
        except (TypeError, ValueError, OverflowError):
            raise TypeError(f"tempo_map: the beat {given!r} is no number; write 7.5, Fraction(15, 2) or '7 1/2'") from None
    if exact.denominator >= 2**32:
        near = exact.limit_denominator(1000)
        raise ValueError(f"tempo_map: the beat {given} is {exact}, whose denominator is not below 2^32; write it as a fraction: "
                         f"Fraction({near.numerator}, {near.denominator}) or '{near}' is near it")
    return exact


def _written_beat(text: str) -> Fraction:
    parts = text.split()
    try:
        if len(parts) == 2 and "/" in parts[1] and parts[0].lstrip("-").isdigit():
            rest = Fraction(parts[1])
            return int(parts[0]) + (-rest if parts[0].startswith("-") else rest)
        if len(parts) == 1:
            return Fraction(parts[0])
    except (ValueError, ZeroDivisionError):
        pass
    raise ValueError(f"tempo_map: the beat {text!r} is not of the form '7', '15/2', '7 1/2' or '7.5'")


class Note:
    """A note of a score. It does not change once it is made.

    step: where it starts, in steps of the score, 0 to 1,048,575 (9)
    length: how many steps it lasts, 0 to 1,048,575 (9); 0 counts as 1
    pitch: hertz, finite and of magnitude at most 65,536 (10); of other kinds see on_curve and at_quarter_tone
    gain: 0 to 1 is usual; finite and of magnitude at most 65,536 (10)
    kind: NUMBER, CURVE or QUARTER_TONE (8)
    words: the library's five words of it, as 20 bytes: step, length, kind, pitch, gain
    """
    __slots__ = ("words",)
    words: bytes

    def __init__(self, step: int, length: int, pitch: float, gain: float = 0.5, kind: int = NUMBER) -> None:
        sound = single("gain", gain)
        head = (whole("step", step), whole("length", length), whole("kind", kind))
        if kind == NUMBER:
            words = struct.pack("<3I2f", *head, single("pitch", pitch), sound)
        else:
            place: Any = pitch
            words = struct.pack("<4If", *head, whole(f"pitch of kind {kind}", place), sound)
        object.__setattr__(self, "words", words)

    @classmethod
    def on_curve(cls, step: int, length: int, offset: int, gain: float = 0.5) -> "Note":
        """A note whose pitch follows the lane from place `offset` on, each value for `hop` frames (12)."""
        return cls(step, length, offset, gain, CURVE)

    @classmethod
    def at_quarter_tone(cls, step: int, length: int, q: int, gain: float = 0.5) -> "Note":
        """A note at quarter tone q, 0 to 255 (30): 138 is 440 Hz, and 24 of them are an octave."""
        return cls(step, length, q, gain, QUARTER_TONE)

    def _fields(self) -> Tuple[int, int, float, float, int]:
        step, length, kind, place, gain = struct.unpack("<4If", self.words)
        pitch = place if kind else struct.unpack_from("<f", self.words, 12)[0]
        return step, length, pitch, gain, kind

    @property
    def step(self) -> int:
        return self._fields()[0]

    @property
    def length(self) -> int:
        return self._fields()[1]

    @property
    def pitch(self) -> float:
        return self._fields()[2]

    @property
    def gain(self) -> float:
        return self._fields()[3]

    @property
    def kind(self) -> int:
        return self._fields()[4]

    def __setattr__(self, name: str, value: object) -> None:
        raise AttributeError("a Note does not change; make another one")

    def __reduce__(self) -> Tuple[Any, ...]:
        return Note, self._fields()

    def __eq__(self, other: object) -> bool:
        return isinstance(other, Note) and self.words == other.words

    def __hash__(self) -> int:
        return hash(self.words)

    def __repr__(self) -> str:
        step, length, pitch, gain, kind = self._fields()
        return f"Note({step}, {length}, {pitch!r}, {gain!r}, {kind})"


_words_of = operator.attrgetter("words")


def pack_notes(notes: Iterable[Note]) -> "array.array[int]":
    """The words of notes, five each: step, length, kind, pitch, gain. `render` takes them in place of the
    notes, and then has nothing to pack. Tuples of a Note's arguments are taken too."""
    listed: List[Any] = list(notes)
    try:
        packed = b"".join(map(_words_of, listed))
    except AttributeError:
        packed = b"".join([given.words if isinstance(given, Note) else Note(*given).words for given in listed])
    return array.array("I", packed)


#: The notes of a score: Notes in list order, or a buffer of their words.
Notes = Union[Sequence[Note], Buffer]


def note_words_lent(notes: Notes) -> Lent:
    """The words of notes, as a call is lent them."""
    if isinstance(notes, (list, tuple)):
        notes = pack_notes(notes)
    return Lent("notes", notes, WORDS)


class Seq:
    """The numbers of a score. They do not change once it is made; `with_` makes another one.

    rate: frames a second, 8,000 to 192,000 (1)
    tempo: beats a minute, 1 to 1,000 (3)
    steps_per_beat: 1 to 64 (4)
    tempo_map: up to 64 points (31), the first at beat 0 and the others in rising order (32): each a
        TempoPoint, or a pair of beat and tempo, the beat as 7.5, Fraction(15, 2) or "7 1/2". With points `tempo` is judged and not played.
    swing, humanize: 0 to 1 (5)
    hop: for how many frames a value of the lane holds, 1 to 4,096 (35)
    wave: a name of WAVES or its number
    style: the drum kit's, a name of STYLES or its number
    duty: how much of a turn the square is high, 0.01 to 0.99; finite and of magnitude at most 65,536 (6)
    knobs: those that are not as usual, by name, as {"fm_ratio": 3.5}; or all 22 in the order of KNOBS (6)
    bars: the organ's drawbars: ratio 1, level 1, .. ratio 5, level 5 (6)
    env: an Envelope, or its five numbers (6)

    In brackets: the number that refuses a call with another value.
    """
    __slots__ = ("rate", "tempo", "steps_per_beat", "tempo_map", "swing", "humanize", "hop", "wave", "style",
                 "duty", "knobs", "bars", "env", "_held", "_arguments", "_voice")
    rate: int
    tempo: float
    steps_per_beat: int
    tempo_map: Tuple[TempoPoint, ...]
    swing: float
    humanize: float
    hop: int
    wave: int
    style: int
    duty: float
    knobs: Tuple[float, ...]
    bars: Tuple[float, ...]
    env: Envelope
    _held: Tuple[Any, ...]
    _arguments: Tuple[Any, ...]
    _voice: Tuple[Any, ...]

    def __init__(self, rate: int = 48000, tempo: float = 120.0, steps_per_beat: int = 4,
                 tempo_map: Iterable[Union[TempoPoint, Tuple[Any, ...]]] = (), swing: float = 0.0,
                 humanize: float = 0.0, hop: int = 1, wave: Union[str, int] = "square",
                 style: Union[str, int] = "classic", duty: float = 0.5,
                 knobs: Union[Mapping[str, float], Sequence[float], None] = None, bars: Sequence[float] = BARS,
                 env: Sequence[float] = Envelope(), **unknown: Any) -> None:
        if unknown:
            raise TypeError(_hint(next(iter(unknown))))
        points = tuple(_point(given) for given in tempo_map)
        words = array.array("I", [word for point in points for word in point._words()])
        all_knobs = singles("knobs", knobs_in_order(knobs), len(KNOBS))
        all_bars, numbers = singles("bars", bars, 10), singles("env", env, 5)
        values = {
            "rate": whole("rate", rate), "tempo": single("tempo", tempo),
            "steps_per_beat": whole("steps_per_beat", steps_per_beat), "tempo_map": points,
            "swing": single("swing", swing), "humanize": single("humanize", humanize), "hop": whole("hop", hop),
            "wave": place_in("wave", wave, WAVES), "style": place_in("style", style, STYLES),
            "duty": single("duty", duty), "knobs": tuple(all_knobs), "bars": tuple(all_bars),
            "env": Envelope(*numbers),
        }
        for name, value in values.items():
            object.__setattr__(self, name, value)
        self._hold(words, all_knobs, all_bars, numbers)

    def _hold(self, words: "array.array[int]", knobs: "array.array[float]", bars: "array.array[float]",
              env: "array.array[float]") -> None:
        """Keeps the arrays, which stay at their addresses, and the arguments that calls take from them."""
        held: Tuple["array.array[Any]", ...] = (words, knobs, bars, env)
        lent = [(a.buffer_info()[0] if a else NOWHERE_AT, len(a)) for a in held]
        points, voice = lent[0], (*lent[1], *lent[2])
        arguments = (self.rate, self.tempo, self.steps_per_beat, *points, self.swing, self.humanize, self.hop,
                     self.wave, self.style, self.duty, *voice, *lent[3])
        object.__setattr__(self, "_held", held)
        object.__setattr__(self, "_arguments", arguments)
        object.__setattr__(self, "_voice", (self.rate, self.wave, self.style, *voice))

    def __setattr__(self, name: str, value: object) -> None:
        raise AttributeError(f"a Seq does not change; seq.with_({name}=..) makes another one")

    def __delattr__(self, name: str) -> None:
        raise AttributeError("a Seq does not change")

    def _fields(self) -> Dict[str, Any]:
        return {name: getattr(self, name) for name in self.__slots__ if not name.startswith("_")}

    def with_(self, **changes: Any) -> "Seq":
        """The same numbers but for those that are named: seq.with_(wave="flute", hop=64). Knobs that are
        given by name change those of this Seq."""
        knobs = changes.get("knobs")
        if isinstance(knobs, Mapping):
            changes["knobs"] = knobs_in_order(knobs, dict(zip(KNOBS, self.knobs)))
        return Seq(**{**self._fields(), **changes})

    def __reduce__(self) -> Tuple[Any, ...]:
        return Seq, tuple(self._fields().values())

    def __eq__(self, other: object) -> bool:
        return isinstance(other, Seq) and self._fields() == other._fields()

    def __hash__(self) -> int:
        return hash(tuple(self._fields().values()))

    def __repr__(self) -> str:
        return f"Seq({', '.join(f'{name}={value}' for name, value in self._said().items())})"

    def _said(self) -> Dict[str, str]:
        """What differs from a Seq() without arguments, as one would write it; the rate and the wave always."""
        said: Dict[str, str] = {"rate": str(self.rate), "wave": repr(WAVES[self.wave])}
        for name, value in self._fields().items():
            if name in said or value == getattr(_USUAL, name):
                continue
            if name == "knobs":
                value = {knob: x for knob, x, usual in zip(KNOBS, self.knobs, _USUAL.knobs) if x != usual}
            said[name] = repr(STYLES[value] if name == "style" else value)
        return said


def _hint(name: str) -> str:
    """What to write in place of a keyword that a Seq does not have."""
    if name in KNOBS:
        return f"Seq has no {name}; a knob is given by knobs={{{name!r}: ..}}"
    if name in Envelope._fields:
        return f"Seq has no {name}; give env=tono.Envelope({name}=..)"
    return f"Seq has no {name}{nearest(name, [n for n in Seq.__slots__ if not n.startswith('_')])}"


def _point(given: Union[TempoPoint, Tuple[Any, ...]]) -> TempoPoint:
    if not hasattr(given, "__len__") or len(given) not in (2, 3):
        raise ValueError(f"tempo_map: {given!r} is neither a TempoPoint nor a pair of beat and tempo")
    num, den, bpm = given if len(given) == 3 else TempoPoint.at(*given)
    try:
        num, den = operator.index(num), operator.index(den)
    except TypeError:
        raise TypeError(f"tempo_map: {num!r} and {den!r} are not two integers; give a pair of beat and tempo") from None
    return TempoPoint(num, den, single("tempo_map: the tempo", bpm))


def knobs_in_order(knobs: Union[Mapping[str, float], Sequence[float], None],
               usual: Mapping[str, float] = KNOBS) -> Sequence[float]:
    """All 22 knobs in the library's order, of those that are given by name or of all."""
    if knobs is None:
        return list(usual.values())
    if not isinstance(knobs, Mapping):
        return knobs
    unknown = [name for name in knobs if name not in KNOBS]
    if unknown:
        raise ValueError(f"knobs: {unknown[0]!r} is none of {', '.join(KNOBS)}{nearest(unknown[0], KNOBS)}")
    return [knobs.get(name, value) for name, value in usual.items()]


_USUAL = Seq()
