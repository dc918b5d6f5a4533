"""A corpus of stimuli: the manifest, which gives each stimulus draws of its own, and the stimulus of each of its lines.

A manifest is a line of JSON for the whole, and then one for each stimulus: name, file, factors, its stations with seed and draw
before and after, frames, and the SHA-256 of its input. Every stimulus is a function of its line and its file, so that a corpus can
be rendered in any order and on any number of machines.
"""
from __future__ import annotations

import csv
import hashlib
import itertools
import json
import os
import re
from decimal import Decimal, InvalidOperation
from typing import Any, Dict, Iterator, List, NamedTuple, Sequence, Tuple

from .names import VERSION
from .playing import plan_stimulus
from .stimuli import Station, Stimulus, parse_tables, parse_toml
from .stimulus_fields import StimulusError

_HEAD = "tono manifest"
Factors = Dict[str, Any]


class Template(NamedTuple):
    """A stimulus file whose values factors change."""
    path: str
    text: str
    given: Dict[str, Any]

    @classmethod
    def read(cls, path: str) -> "Template":
        with open(path, encoding="utf-8") as file:
            text = file.read()
        return cls(path, text, parse_toml(text, path))

    def stimulus(self, factors: Factors) -> Stimulus:
        """The stimulus with these values in the places that the factors name."""
        return parse_tables(self.text, changed(self.given, factors, self.path), self.path)


def changed(given: Dict[str, Any], factors: Factors, path: str) -> Dict[str, Any]:
    """Tables with other values at 'voice.0.knobs.index' and the like; what is not changed is shared."""
    top: Any = dict(given)
    for name, value in factors.items():
        keys: List[Any] = [int(key) if key.isdecimal() else key for key in name.split(".")]
        here = top
        for key in keys[:-1]:
            try:
                inner = here[key]
                here[key] = dict(inner) if isinstance(inner, dict) else list(inner)
                here = here[key]
            except (KeyError, IndexError, TypeError):
                raise StimulusError(f"{path}:1: the factor {name} leads to no place in this file: {key!r} is not there") from None
        if isinstance(here, list) and not (isinstance(keys[-1], int) and keys[-1] < len(here)):
            raise StimulusError(f"{path}:1: the factor {name} leads to no place in this file: {keys[-1]!r} is not there")
        here[keys[-1]] = value
    return dict(top)


def read_factors(path: str) -> List[Factors]:
    """The rows of a table of factors. A CSV file has a factor in each column and a stimulus in each row. A TOML file has a table
    `factor` of arrays, which are crossed, the last one fastest, or taken row by row if `crossed = false`."""
    if path.endswith(".csv"):
        with open(path, encoding="utf-8-sig", newline="") as file:
            rows = list(csv.reader(file))
        for line, row in enumerate(rows[1:], 2):
            if len(row) != len(rows[0]):
                raise StimulusError(f"{path}:{line}: has {len(row)} cells; expected {len(rows[0])}, one for each factor")
        return [{name.strip(): _cell(cell) for name, cell in zip(rows[0], row)} for row in rows[1:]]
    with open(path, encoding="utf-8") as file:
        given = parse_toml(file.read(), path)
    table, crossed = given.get("factor"), given.get("crossed", True)
    if not isinstance(table, dict) or not table or not all(isinstance(values, list) for values in table.values()):
        raise StimulusError(f'{path}:1: expected a table [factor] of arrays, as "voice.0.knobs.index" = [1, 4, 9]')
    lengths = {len(values) for values in table.values()}
    if not crossed and len(lengths) != 1:
        raise StimulusError(f"{path}:1: the factors have {', '.join(map(str, sorted(lengths)))} values; row by row they need as many each")
    together: Any = itertools.product(*table.values()) if crossed else zip(*table.values())
    return [dict(zip(table, values)) for values in together]


def _cell(text: str) -> Any:
    """A cell as TOML would have it: a whole number, a decimal, or a text."""
    if re.fullmatch(r"-?[0-9]+", text.strip()):
        return int(text)
    try:
        return Decimal(text.strip())
    except InvalidOperation:
        return text


class Line(NamedTuple):
    """A stimulus of a manifest. stations: for each name its number, seed, and draw before and after."""
    name: str
    file: str
    factors: Factors
    stations: Dict[str, Tuple[int, int, int, int]]
    frames: int
    sum: str

    def to_json(self) -> str:
        stations = {name: [number, f"{seed:016x}", before, after] for name, (number, seed, before, after) in self.stations.items()}
        return json.dumps({"name": self.name, "file": self.file, "factors": self.factors, "stations": stations, "frames": self.frames,
                           "input-sha256": self.sum}, default=_decimal)

    @classmethod
    def of_json(cls, text: str) -> "Line":
        given = json.loads(text, parse_float=Decimal)
        stations = {name: (row[0], int(row[1], 16), row[2], row[3]) for name, row in given["stations"].items()}
        return cls(given["name"], given["file"], given["factors"], stations, given["frames"], given["input-sha256"])


def _decimal(value: Any) -> Any:
    """A decimal as a number of JSON; it is read as the same decimal again if it has at most 15 digits."""
    wide = float(value)
    if Decimal(repr(wide)) != value:
        raise ValueError(f"the factor {value} has more digits than JSON keeps; write it shorter")
    return wide


def _at(stimulus: Stimulus, draws: Dict[str, int]) -> Stimulus:
    """A stimulus whose stations begin at other draws."""
    stations = {name: Station(s.number, s.seed, draws[name]) for name, s in stimulus.stations.items()}
    return Stimulus(stimulus.rate, stimulus.frames, stations, stimulus.voices, stimulus.curves, stimulus.channels, stimulus.title)


def planned(sources: Sequence[Tuple[str, Template, Factors]]) -> Iterator[Line]:
    """The lines of a manifest: each stimulus gets the draws after those of the last one with the same seed on the same station,
    by the planning call. The first one begins at the draws of its file."""
    counts: Dict[Tuple[int, int], int] = {}
    for name, template, factors in sources:
        stimulus = template.stimulus(factors)
        before = {place: counts.get((s.number, s.seed), s.draw) for place, s in stimulus.stations.items()}
        placed = _at(stimulus, before)
        after = dict(before)
        for voice, one in zip(placed.voices, plan_stimulus(placed)):
            after[voice.station] = one.before + one.draws
        for place, s in placed.stations.items():
            counts[s.number, s.seed] = after[place]
        stations = {place: (s.number, s.seed, before[place], after[place]) for place, s in placed.stations.items()}
        yield Line(name, template.path, factors, stations, placed.frames, hashlib.sha256(placed.to_toml().encode()).hexdigest())


class Manifest(NamedTuple):
    """A manifest's lines, and the folder that their files are looked for in."""
    folder: str
    lines: Tuple[Line, ...]

    @classmethod
    def read(cls, path: str) -> "Manifest":
        with open(path, encoding="utf-8") as file:
            rows = file.read().splitlines()
        try:
            head = json.loads(rows[0])
            form, version = head[_HEAD], head["tono"]
            lines = tuple(Line.of_json(row) for row in rows[1:])
        except (ValueError, KeyError, IndexError, TypeError):
            raise ValueError(f"{path} is no manifest, or was changed; write it anew by tono corpus plan") from None
        if form != 1 or version != VERSION:
            raise ValueError(f"{path} is a manifest of form {form} for tono {version}, and this is tono {VERSION}; plan it anew, or take that version")
        return cls(os.path.dirname(path), lines)

    def stimulus(self, line: Line, templates: Dict[str, Template]) -> Stimulus:
        """The stimulus of a line, held to its sum."""
        path = os.path.join(self.folder, line.file)
        if path not in templates:
            templates[path] = Template.read(path)
        plain = templates[path].stimulus(line.factors)
        if {name: (s.number, s.seed) for name, s in plain.stations.items()} != {name: row[:2] for name, row in line.stations.items()}:
            raise ValueError(f"the manifest's line {line.name} has other stations or seeds than {path}: one of them was changed; plan it anew")
        made = _at(plain, {name: row[2] for name, row in line.stations.items()})
        if hashlib.sha256(made.to_toml().encode()).hexdigest() != line.sum:
            raise ValueError(f"{path} is not what the manifest was planned with: the input of {line.name} has another SHA-256; plan it anew")
        return made


def manifest_text(lines: Sequence[Line]) -> str:
    """The manifest of these lines."""
    return "\n".join([json.dumps({_HEAD: 1, "tono": VERSION, "stimuli": len(lines)}), *(line.to_json() for line in lines)]) + "\n"
