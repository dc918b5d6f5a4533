"""The whole form of a stimulus: a TOML file with every curve in line and every number written that is played."""
from __future__ import annotations

import json
from typing import Iterable, List, Tuple

from .decimals import decimal_text
from .names import CURVE, KNOBS, NUMBER, QUARTER_TONE, STYLES, WAVES, knobs_of
from .stimuli import MAIN, Stimulus, Voice
from .values import Envelope, Note, Seq

_VALUES_A_LINE = 12
_USUAL = Seq()


def _quoted(text: str) -> str:
    return json.dumps(text, ensure_ascii=False).replace("\x7f", "\\u007F")


def _key(name: str) -> str:
    return name if name and all(c.isascii() and (c.isalnum() or c in "_-") for c in name) else _quoted(name)


def _array(values: Iterable[float]) -> List[str]:
    """The lines of an array of numbers."""
    texts = [decimal_text(x) for x in values]
    lines = [", ".join(texts[i:i + _VALUES_A_LINE]) + "," for i in range(0, len(texts), _VALUES_A_LINE)]
    return ["hertz = [", *("  " + line for line in lines), "]"]


def _starts(stimulus: Stimulus, voice: Voice) -> List[Tuple[int, str]]:
    """Where each curve of a voice begins in its lane; of two at one place the last comes first, as it has values."""
    at, made = 0, []
    for name in voice.curves:
        made.append((at, name))
        at += len(stimulus.curves[name].hertz)
    return made[::-1]


def _pitch(note: Note, starts: List[Tuple[int, str]]) -> str:
    if note.kind == NUMBER:
        return decimal_text(note.pitch)
    if note.kind == QUARTER_TONE:
        return f'"q{int(note.pitch)}"'
    if note.kind != CURVE or not starts:
        raise ValueError("a note on a curve has no curve in its lane, or its kind is none")
    place = int(note.pitch)
    at, name = next((start, name) for start, name in starts if start <= place)
    return _quoted(name if place == at else f"{name}@{place - at}")


def _seq_lines(seq: Seq) -> List[str]:
    lines = [f"tempo = {decimal_text(seq.tempo)}"]
    if seq.tempo_map:
        points = ", ".join(f'["{point.num}/{point.den}", {decimal_text(point.bpm)}]' for point in seq.tempo_map)
        lines.append(f"tempo_points = [{points}]")
    lines += [f"steps_per_beat = {seq.steps_per_beat}", f"swing = {decimal_text(seq.swing)}",
              f"humanize = {decimal_text(seq.humanize)}", f"hop = {seq.hop}", f"duty = {decimal_text(seq.duty)}"]
    wave = WAVES[seq.wave]
    if wave == "kit" or seq.style:
        lines.append(f'style = "{STYLES[seq.style]}"')
    own, usual = knobs_of(wave), dict(zip(KNOBS, _USUAL.knobs))
    knobs = {name: x for name, x in zip(KNOBS, seq.knobs) if name in own or decimal_text(x) != decimal_text(usual[name])}
    if knobs:
        lines.append("knobs = { " + ", ".join(f"{name} = {decimal_text(x)}" for name, x in knobs.items()) + " }")
    if wave == "organ" or seq.bars != _USUAL.bars:
        pairs = ", ".join(f"[{decimal_text(r)}, {decimal_text(v)}]" for r, v in zip(seq.bars[::2], seq.bars[1::2]))
        lines.append(f"drawbars = [{pairs}]")
    lines.append("envelope = { " + ", ".join(f"{n} = {decimal_text(x)}" for n, x in zip(Envelope._fields, seq.env)) + " }")
    return lines


def _voice_lines(stimulus: Stimulus, voice: Voice) -> List[str]:
    lines = ["", "[[voice]]"]
    if voice.name:
        lines.append(f"name = {_quoted(voice.name)}")
    lines += [f"station = {_quoted(voice.station)}", f'wave = "{WAVES[voice.seq.wave]}"', *_seq_lines(voice.seq)]
    if voice.curves:
        lines.append(f"curves = [{', '.join(map(_quoted, voice.curves))}]")
    starts, rows = _starts(stimulus, voice), []
    for note in voice.notes:
        rows.append(f"  [{note.step}, {note.length}, {_pitch(note, starts)}, {decimal_text(note.gain)}],")
    return [*lines, "notes = [", *rows, "]"]


def _head_lines(stimulus: Stimulus) -> List[str]:
    lines = ["form = 1", *([f"title = {_quoted(stimulus.title)}"] if stimulus.title else []), f"rate = {stimulus.rate}",
             f"frames = {stimulus.frames}", f'channels = "{stimulus.channels}"']
    stations = stimulus.stations
    if list(stations) == [MAIN] and stations[MAIN].number == 0:
        return [*lines, f'seed = "{stations[MAIN].seed:016x}"', f"draw = {stations[MAIN].draw}"]
    for name, station in stations.items():
        lines += ["", f"[station.{_key(name)}]", f"number = {station.number}", f'seed = "{station.seed:016x}"', f"draw = {station.draw}"]
    return lines


def to_toml(stimulus: Stimulus) -> str:
    """The whole form: two stimuli that are played alike, under the same names, have the same one."""
    lines = _head_lines(stimulus)
    for name, curve in stimulus.curves.items():
        lines += ["", f"[curve.{_key(name)}]", f"hop = {curve.hop}", *_array(curve.hertz)]
    for voice in stimulus.voices:
        lines += _voice_lines(stimulus, voice)
    return "\n".join(lines) + "\n"
