"""A text score as values: its form line by line, what it holds, and which line is refused."""
from __future__ import annotations

import array
import re
from typing import List, NamedTuple, Optional, Sequence, Tuple

from .names import BARS, KNOBS, WAVES, knobs_of
from .singles import bits_of, of_bits
from .values import Envelope, Note, Seq

_FORMS = {
    "S": "S rate frames tempo steps-per-beat swing humanize", "G": "G seed draw",
    "E": "E attack decay sustain release punch", "V": "V wave duty knobs",
    "N": "N step length pitch gain, where gain may be left out",
}
_BAR_NAMES = [f"{word} {k}" for k in range(1, 6) for word in ("ratio", "level")]
_FIELDS = {
    "S": (6, "rate,frames,tempo,steps per beat,swing,humanize".split(","), "nnfnff"), "G": (2, ["seed", "draw"], "sd"),
    "E": (5, list(Envelope._fields), "fffff"), "N": (3, ["step", "length", "pitch", "gain"], "nnff"),
}
#: The gain of a line N that stops after its pitch.
SHORT_GAIN = 0.5
FRAMES_MOST, NOTES_MOST, BYTES_MOST = 2048, 256, 65536


class _Fault(Exception):
    """What is wrong with a line."""


def _shown(text: str) -> str:
    text = text.replace("\r", "?")
    return f'"{text[:24]}.."' if len(text) > 24 else f'"{text}"'


def _is_decimal(text: str, most: int) -> bool:
    return re.fullmatch("0|[1-9][0-9]*", text) is not None and int(text) <= most


def _wrong(kind: str, text: str) -> str:
    """What is wrong with a field of a kind, or nothing."""
    if kind == "f":
        return "" if re.fullmatch("[0-9a-f]{8}", text) else "must be 8 lowercase hexadecimal digits (tono bits writes them)"
    if kind == "s":
        return "" if re.fullmatch("[0-9a-f]{16}", text) else "must be 16 lowercase hexadecimal digits"
    bits = 64 if kind == "d" else 32
    return "" if _is_decimal(text, 2**bits - 1) else f"must be a decimal below 2^{bits} without leading zeros"


def _judge_fields(row: Sequence[str], least: int, names: Sequence[str], kinds: str, form: str) -> None:
    if not least <= len(row) - 1 <= len(names):
        raise _Fault(f"has {len(row) - 1} fields after the letter, but the form is {form} (a tab stands between fields and "
                     "none at the end)")
    for name, kind, text in zip(names, kinds, row[1:]):
        wrong = _wrong(kind, text)
        if wrong:
            raise _Fault(f"the {name}, {_shown(text)}, {wrong}")


def _judge_voice(row: Sequence[str]) -> None:
    form, after = _FORMS["V"], len(row) - 3
    if after < 0:
        _judge_fields(row, 2, ["wave", "duty"], "nf", form)
    if not _is_decimal(row[1], 17):
        raise _Fault(f"the wave, {_shown(row[1])}, must be a number from 0 to 17")
    wave = WAVES[int(row[1])]
    if wave == "kit":
        if after != 1:
            raise _Fault(f"has {after} fields after the duty, but the drum kit has one, its style from 0 to 3")
        _judge_fields(row, 3, ["wave", "duty", "style"], "nfn", form)
        if not _is_decimal(row[3], 3):
            raise _Fault(f"the style, {_shown(row[3])}, must be a number from 0 to 3")
        return
    if wave == "organ" and after not in (0, 10):
        raise _Fault(f"has {after} numbers after the duty, but organ has none or ten drawbars: {','.join(_BAR_NAMES)}")
    names = _BAR_NAMES if wave == "organ" and after else list(knobs_of(wave))
    if after != len(names):
        said = f"{wave} has {len(names)}: {','.join(names)}" if names else f"wave {row[1]} has none; the line ends after the duty"
        raise _Fault(f"has {after} knobs, but {said}")
    _judge_fields(row, 2 + len(names), ["wave", "duty", *names], "n" + "f" * (1 + len(names)), form)


def _judge_line(place: int, line: str) -> None:
    letter = "SGEV"[place] if place < 4 else "N"
    if line.endswith("\r"):
        raise _Fault("ends in carriage return and newline; end it in a newline alone")
    if not line:
        raise _Fault("is empty; remove it")
    if line.startswith("#"):
        raise _Fault("is a comment, and a text score has none; remove it")
    if "\t" not in line and " " in line:
        raise _Fault("has spaces between its fields; put one tab between them")
    row = line.split("\t")
    if row[0] != letter:
        raise _Fault(f"starts with {_shown(row[0])}, but must be {'an' if letter in 'SEN' else 'a'} {letter} line: {_FORMS[letter]}")
    if letter == "V":
        _judge_voice(row)
    else:
        _judge_fields(row, *_FIELDS[letter], _FORMS[letter])


def form_fault(data: bytes) -> Optional[str]:
    """The first line that does not have its form, as 'line 3: ..', or nothing."""
    if data.startswith(b"\xef\xbb\xbf"):
        return "line 1: begins with a byte order mark; save the file as UTF-8 without one, or as ASCII"
    text = "".join(chr(byte) if byte in (9, 10, 13) or 32 <= byte < 127 else "?" for byte in data[:BYTES_MOST + 1])
    lines = text.split("\n")
    closed = lines[-1] == ""
    for place, line in enumerate(lines[:-1] if closed else lines):
        try:
            _judge_line(place, line)
        except _Fault as fault:
            return f"line {place + 1}: {fault}"
    count = len(lines) - closed
    if count < 4:
        return f"line {count + 1}: is missing; it must be: {_FORMS['SGEV'[count]]}"
    return None if closed else f"line {count}: has no newline at its end; add one"


class TextScore(NamedTuple):
    """What a text score holds. short: the places of the notes whose line stops after the pitch."""
    seq: Seq
    words: "array.array[int]"
    frames: int
    seed: int
    draw: int
    short: Tuple[int, ...]
    bars_written: bool


def read_text(data: bytes) -> TextScore:
    """The values of a text score. A ValueError names the first line that does not have its form."""
    fault = form_fault(data)
    if fault:
        raise ValueError(fault)
    rows = [line.split("\t") for line in data.decode("ascii").split("\n")[:-1]]
    s, g, e, v = rows[:4]
    wave, own = WAVES[int(v[1])], v[3:]
    bars = [of_bits(x) for x in own] if wave == "organ" and own else BARS
    seq = Seq(int(s[1]), of_bits(s[3]), int(s[4]), (), of_bits(s[5]), of_bits(s[6]), 1, wave, int(own[0]) if wave == "kit" else 0,
              of_bits(v[2]), {name: of_bits(x) for name, x in zip(knobs_of(wave), own)}, bars, [of_bits(x) for x in e[1:]])
    words = array.array("I")
    for row in rows[4:]:
        words.extend([int(row[1]), int(row[2]), 0, int(row[3], 16), int(row[4] if len(row) > 4 else bits_of(SHORT_GAIN), 16)])
    short = tuple(i for i, row in enumerate(rows[4:]) if len(row) == 4)
    return TextScore(seq, words, int(s[2]), int(g[1], 16), int(g[2]), short, wave == "organ" and bool(own))


def write_text(seq: Seq, words: Sequence[int], frames: int, seed: int, draw: int) -> bytes:
    """The text score of these values. A ValueError says what of them a text score has no place for."""
    wave = WAVES[seq.wave]
    kinds = {words[i + 2] for i in range(0, len(words), 5)}
    for holds, said in ((seq.tempo_map, "tempo points"), (1 in kinds, "pitch curves"),
                        (frames > FRAMES_MOST, f"more than {FRAMES_MOST:,} frames"),
                        (len(words) > 5 * NOTES_MOST, f"more than {NOTES_MOST} notes")):
        if holds:
            raise ValueError(f"a text score has no {said}" if "more" not in said else f"a text score can't have {said}")
    from .pitches import quarter_tone
    voice: List[object] = ["V", seq.wave, bits_of(seq.duty)]
    voice += [seq.style] if wave == "kit" else [bits_of(dict(zip(KNOBS, seq.knobs))[name]) for name in knobs_of(wave)]
    if wave == "organ" and seq.bars != Seq(bars=BARS).bars:
        voice += [bits_of(x) for x in seq.bars]
    rows: List[List[object]] = [
        ["S", seq.rate, frames, bits_of(seq.tempo), seq.steps_per_beat, bits_of(seq.swing), bits_of(seq.humanize)],
        ["G", f"{seed:016x}", draw], ["E", *map(bits_of, seq.env)], voice]
    for i in range(0, len(words), 5):
        step, length, kind, pitch, gain = words[i:i + 5]
        digits = f"{pitch:08x}" if kind == 0 else bits_of(quarter_tone(pitch))
        rows.append(["N", step, length, digits, f"{gain:08x}"])
    return "".join("\t".join(map(str, row)) + "\n" for row in rows).encode("ascii")


def notes_of(words: Sequence[int]) -> List[Note]:
    """The notes of their words."""
    made = []
    for i in range(0, len(words), 5):
        note = Note.__new__(Note)
        object.__setattr__(note, "words", array.array("I", words[i:i + 5]).tobytes())
        made.append(note)
    return made


def refused_line(data: bytes, number: int) -> Optional[str]:
    """What of a text score a call refused, by its line."""
    if number == 16 and len(data) > BYTES_MOST:
        return f"{len(data):,} bytes"
    fault = form_fault(data)
    if number == 15 or fault:
        return fault
    score = read_text(data)
    if number == 16:
        return f"line 1: {score.frames:,} frames" if score.frames > FRAMES_MOST else f"{len(score.words) // 5} notes"
    if number in (1, 3, 4, 5):
        said = {1: f"the rate is {score.seq.rate}", 3: f"the tempo is {score.seq.tempo:g}",
                4: f"the steps per beat are {score.seq.steps_per_beat}",
                5: f"swing is {score.seq.swing:g}, humanize {score.seq.humanize:g}"}
        return f"line 1: {said[number]}"
    if number == 22:
        return f"line 2: the draw is {score.draw}"
    return _number_line(score, number)


def _number_line(score: TextScore, number: int) -> Optional[str]:
    """The line of a knob, a drawbar, the duty, the envelope or a note that is refused."""
    from .places import voice_numbers, is_sized, note_place
    if number == 6:
        for name, x in voice_numbers(score.seq):
            if not is_sized(x):
                return f"line {3 if name.startswith('env.') else 4}: {name} is {x:g}"
    for i in range(0, len(score.words), 5):
        step, length, _, pitch, gain = words = score.words[i:i + 5]
        sized = all(is_sized(of_bits(f"{word:08x}")) for word in (pitch, gain))
        if number == 9 and max(step, length) > 1048575 or number == 10 and not sized:
            return f"line {5 + i // 5}: {note_place(i // 5, words, number).split(', ', 1)[1]}"
    return None
