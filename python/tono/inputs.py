"""A score that can be kept: the form `tono input 1`."""
from __future__ import annotations

import array
import struct
from typing import Any, Dict, List

from .calls import render
from .errors import Refused
from .lending import bytes_of, read_values
from .names import Buffer, Values
from .rendered import Rendered
from .session import Session
from .singles import bits_of, of_bits, whole
from .values import Notes, Seq, TempoPoint, note_words_lent

_INPUT_HEAD = "tono input 1"
# How many lane values a line has, but for the last.
_LANE_LINE = 16


class Score:
    """A score that can be kept: numbers, notes, frames and lane, without seed, draw and station.

    `to_bytes` writes it and `from_bytes` reads it, in this form, version 1. Lines end in a line feed, and
    one tab stands between fields. A float is the 8 lowercase hexadecimal digits of its bits; other numbers
    are decimal without leading zeros. A score has just one such text, and two scores have never the same.

        tono input 1
        S  rate  frames  tempo  steps_per_beat  swing  humanize  hop
        T  num  den  bpm                        for each tempo point
        E  attack  decay  sustain  release  punch
        V  wave  style  duty, the 22 knobs in the order of KNOBS, the 10 numbers of the drawbars
        N  step  length  kind  pitch  gain      for each note; pitch is a float if kind is 0, else decimal
        L  values of the lane                   16 in a line, in the last one those that are left
    """

    def __init__(self, seq: Seq, notes: Notes, frames: int, lane: Values = ()) -> None:
        """A copy of notes and lane is kept."""
        words, values = note_words_lent(notes), read_values("lane", lane)
        if words.count % 5:
            raise Refused(7, f"{words.count} words")
        self.seq, self.frames = seq, whole("frames", frames, 64)
        self.words = array.array("I", words.view.tobytes())
        self.lane = array.array("f", values.view.tobytes())

    def __repr__(self) -> str:
        return f"<Score: {self.frames} frames, {len(self.words) // 5} notes, {len(self.lane)} lane values, {self.seq!r}>"

    def play(self, session: Session, station: int = 0) -> Rendered:
        """Renders it on a station of a session."""
        return render(session, self.seq, self.words, self.frames, lane=self.lane, station=station)

    def to_bytes(self) -> bytes:
        """The input's bytes: what a citation has the SHA-256 of."""
        seq, words = self.seq, self.words
        rows: List[List[Any]] = [
            [_INPUT_HEAD],
            ["S", seq.rate, self.frames, bits_of(seq.tempo), seq.steps_per_beat, bits_of(seq.swing), bits_of(seq.humanize),
             seq.hop]]
        rows += [["T", point.num, point.den, bits_of(point.bpm)] for point in seq.tempo_map]
        rows += [["E", *map(bits_of, seq.env)],
                 ["V", seq.wave, seq.style, bits_of(seq.duty), *map(bits_of, seq.knobs), *map(bits_of, seq.bars)]]
        for i in range(0, len(words), 5):
            step, length, kind, pitch, gain = words[i:i + 5]
            rows.append(["N", step, length, kind, pitch if kind else f"{pitch:08x}", f"{gain:08x}"])
        bits = array.array("I", self.lane.tobytes())
        rows += [["L", *(f"{value:08x}" for value in bits[i:i + _LANE_LINE])]
                 for i in range(0, len(bits), _LANE_LINE)]
        return "".join("\t".join(map(str, row)) + "\n" for row in rows).encode("ascii")

    @classmethod
    def from_bytes(cls, data: Buffer) -> "Score":
        """The score that these bytes hold. A ValueError names the first line that does not have its form."""
        given = bytes(bytes_of("data", data))
        try:
            lines = given.decode("ascii").split("\n")
        except UnicodeDecodeError as error:
            raise ValueError(f"byte {error.start} of the input is no ASCII") from None
        rows: Dict[str, List[List[str]]] = {letter: [] for letter in "STEVNL"}
        if lines[0] != _INPUT_HEAD:
            raise ValueError(f"line 1 of the input is not {_INPUT_HEAD!r}")
        for place, line in enumerate(lines[1:-1], 2):
            letter, *fields = line.split("\t")
            if letter not in rows:
                raise ValueError(f"line {place} of the input starts with none of S, T, E, V, N and L")
            rows[letter].append(fields)
        try:
            score = cls._of_rows(rows)
        except (ValueError, TypeError, IndexError, OverflowError, struct.error, Refused) as error:
            raise ValueError(f"the input does not have its form: {error}") from None
        again = score.to_bytes()
        if again != given:
            first = next((i for i, (a, b) in enumerate(zip(again.split(b"\n"), given.split(b"\n")), 1) if a != b),
                         given.count(b"\n") + 1)
            raise ValueError(f"line {first} of the input does not have its form")
        return score

    @classmethod
    def _of_rows(cls, rows: Dict[str, List[List[str]]]) -> "Score":
        (numbers,), (env,), (voice,) = rows["S"], rows["E"], rows["V"]
        rate, frames, tempo, steps, swing, humanize, hop = numbers
        points = [TempoPoint(int(num), int(den), of_bits(bpm)) for num, den, bpm in rows["T"]]
        seq = Seq(int(rate), of_bits(tempo), int(steps), points, of_bits(swing), of_bits(humanize), int(hop),
                  int(voice[0]), int(voice[1]), of_bits(voice[2]), [of_bits(x) for x in voice[3:25]],
                  [of_bits(x) for x in voice[25:]], [of_bits(x) for x in env])
        words = array.array("I")
        for step, length, kind, pitch, gain in rows["N"]:
            pitch_word = int(pitch) if int(kind) else int(pitch, 16)
            words.extend([int(step), int(length), int(kind), pitch_word, int(gain, 16)])
        lane = array.array("I", [int(value, 16) for line in rows["L"] for value in line])
        return cls(seq, words, int(frames), array.array("f", lane.tobytes()))
