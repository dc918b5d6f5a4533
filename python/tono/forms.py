"""The three forms that are played: text scores, inputs (`tono input 1`) and stimulus files; each as a stimulus, and back."""
from __future__ import annotations

import array
import os
from typing import NamedTuple, Optional

from .inputs import Score
from .names import CURVE
from .stimuli import MAIN, Curve, Station, Stimulus, Voice, parse_stimulus
from .textscores import notes_of, read_text, write_text
from .values import pack_notes

TEXT, INPUT, STIMULUS = "text score", "input", "stimulus file"
SUFFIXES = {TEXT: ".score", INPUT: ".input", STIMULUS: ".toml"}
_LANE = "lane"


def kind_of(data: bytes, name: str = "") -> str:
    """Which form a file has, by what it begins with; a file that is none is taken for what its name ends in."""
    if data.startswith(b"tono input "):
        return INPUT
    if name.endswith(".toml"):
        return STIMULUS
    first = data.split(b"\n", 1)[0]
    if first[:1] == b"S" and first[1:2] in (b"\t", b" ") or name.endswith(".score"):
        return TEXT
    return STIMULUS if any(b"=" in line.split(b"#", 1)[0] for line in data.split(b"\n")) else TEXT


class Given(NamedTuple):
    """A file of any form: its path and name without folder and suffix, its bytes and its form."""
    path: str
    name: str
    data: bytes
    kind: str

    @property
    def folder(self) -> str:
        return os.path.dirname(self.path)


def read_given(path: str) -> Given:
    """A file with its form."""
    with open(path, "rb") as file:
        data = file.read()
    return Given(path, os.path.splitext(os.path.basename(path))[0], data, kind_of(data, path))


class FormError(ValueError):
    """A file that does not have its form: 'FILE: line N: ..'."""


def stimulus_of(given: Given, seed: Optional[int] = None, draw: Optional[int] = None,
                station: Optional[int] = None) -> Stimulus:
    """A file of any form as a stimulus. An input has no seed and draw of its own, and needs both."""
    if given.kind == STIMULUS:
        for name, asked in (("seed", seed), ("draw", draw), ("station", station)):
            if asked is not None:
                raise ValueError(f"{given.path} says its own seed and draw; leave --{name} out")
        return parse_stimulus(given.data, given.path, given.folder)
    if given.kind == TEXT:
        try:
            text = read_text(given.data)
        except ValueError as error:
            raise FormError(f"{given.path}: {error}") from None
        return Stimulus(text.seq.rate, text.frames, {MAIN: Station(0, text.seed, text.draw)},
                        [Voice("", MAIN, text.seq, tuple(notes_of(text.words)), ())])
    if seed is None or draw is None:
        raise ValueError(f"{given.path} is an input, which says neither seed nor draw: give both as its citation has them, as "
                         "--seed 0000000000005eed --draw 0")
    try:
        score = Score.from_bytes(given.data)
    except ValueError as error:
        raise FormError(f"{given.path}: {error}") from None
    return stimulus_of_score(score, seed, draw, station or 0)


def stimulus_of_score(score: Score, seed: int, draw: int, station: int = 0) -> Stimulus:
    """An input as a stimulus of one voice; its lane is a curve."""
    lane = score.lane if len(score.lane) else None
    if lane is None and any(score.words[i + 2] == CURVE for i in range(0, len(score.words), 5)):
        lane = score.lane
    curves = {_LANE: Curve(score.seq.hop, array.array("f", lane.tobytes()))} if lane is not None else {}
    voice = Voice("", MAIN, score.seq, tuple(notes_of(score.words)), tuple(curves))
    return Stimulus(score.seq.rate, score.frames, {MAIN: Station(station, seed, draw)}, [voice], curves)


def _one_voice(stimulus: Stimulus, what: str) -> Voice:
    if len(stimulus.voices) != 1:
        raise ValueError(f"{what} has one voice, and this stimulus {len(stimulus.voices)}; it stays a stimulus file")
    return stimulus.voices[0]


def text_of(stimulus: Stimulus) -> bytes:
    """A stimulus as a text score; a ValueError says what does not fit."""
    voice = _one_voice(stimulus, "a text score")
    station = stimulus.stations[voice.station]
    if station.number:
        raise ValueError(f"a text score plays on station 0, and this stimulus on {station.number}")
    return write_text(voice.seq, pack_notes(voice.notes), stimulus.frames, station.seed, station.draw)


def score_of(stimulus: Stimulus) -> Score:
    """A stimulus of one voice as an input, without seed and draw; a ValueError says what does not fit."""
    voice = _one_voice(stimulus, "an input")
    return Score(voice.seq, pack_notes(voice.notes), stimulus.frames, stimulus.lane(voice))
