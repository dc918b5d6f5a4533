"""A stimulus: what a stimulus file holds, read from TOML and narrowed to what is played."""
from __future__ import annotations

import array
import os
import re
from decimal import Decimal
from typing import Any, Dict, List, NamedTuple, Optional, Sequence, Tuple, Union

from .decimals import narrow
from .names import BARS, CURVE, KNOBS, NUMBER, STATIONS, STYLES, WAVES, knobs_of
from .pitches import Pitch, is_pitch_name, pitch_of
from .singles import nearest
from .stimulus_fields import Source, StimulusError, Table, beat_of, frames_of, is_number, seed_of, shown
from .values import Envelope, Note, Seq, TempoPoint

CHANNELS = ("mono", "stations")
#: The name of the station that a file without stations has.
MAIN = "main"
_GROOVE = ("tempo", "tempo_points", "steps_per_beat", "swing", "humanize")


class Station(NamedTuple):
    """A named station: its number, seed, and the draw at which it begins."""
    number: int
    seed: int
    draw: int


class Curve(NamedTuple):
    """A pitch curve: hertz, each for `hop` frames."""
    hop: int
    hertz: "array.array[float]"


class Voice(NamedTuple):
    """A voice of a stimulus: one score call. curves: the names of the curves that its lane is made of, in order."""
    name: str
    station: str
    seq: Seq
    notes: Tuple[Note, ...]
    curves: Tuple[str, ...]


def _reader() -> Any:
    import importlib
    try:
        return importlib.import_module("tomllib")
    except ImportError:
        try:
            return importlib.import_module("tomli")
        except ImportError:
            raise StimulusError("a stimulus file is read by Python 3.11 or later, or with the package tomli "
                                "(Debian's python3-tomli)") from None


def parse_toml(text: str, name: str) -> Dict[str, Any]:
    """The tables of a TOML file, with decimals as they are written."""
    reader = _reader()
    try:
        return dict(reader.loads(text, parse_float=Decimal))
    except reader.TOMLDecodeError as error:
        found = re.search(r"\(at line (\d+), column (\d+)\)", str(error))
        said = re.sub(r" \(at .*\)$", "", str(error))
        line = int(found[1]) if found else text.count("\n") + 1
        raise StimulusError(f"{name}:{line}: this is no TOML: {said[0].lower()}{said[1:]}"
                            + (f" (column {found[2]})" if found else " (at the file's end)")) from None


class Stimulus:
    """What a stimulus file holds, as it is played.

    rate, frames: frames a second, and how many
    stations: a Station for each name
    curves: a Curve for each name that a voice reads
    voices: a Voice for each table [[voice]], in the order in which they are played
    channels: "mono", or "stations" for one channel a station
    title: what the file says of itself
    """

    def __init__(self, rate: int, frames: int, stations: Dict[str, Station], voices: Sequence[Voice],
                 curves: Optional[Dict[str, Curve]] = None, channels: str = "mono", title: str = "") -> None:
        self.rate, self.frames, self.stations, self.voices = rate, frames, dict(stations), tuple(voices)
        self.curves, self.channels, self.title = dict(curves or {}), channels, title

    def __eq__(self, other: object) -> bool:
        return isinstance(other, Stimulus) and vars(self) == vars(other)

    __hash__ = None  # type: ignore[assignment]

    def __repr__(self) -> str:
        waves = ", ".join(WAVES[voice.seq.wave] for voice in self.voices)
        return f"<Stimulus: {self.frames} frames at {self.rate} a second; {waves}>"

    def lane(self, voice: Voice) -> "array.array[float]":
        """The lane that a voice's notes read: its curves one after the other."""
        lane = array.array("f")
        for name in voice.curves:
            lane.extend(self.curves[name].hertz)
        return lane

    def to_toml(self) -> str:
        """The whole form of the file: every curve in line, every number that is played written out. It is what a citation
        has the SHA-256 of."""
        from .stimulus_write import to_toml
        return to_toml(self)

    def plan(self) -> List[int]:
        """How many draws each voice would make. Nothing is played."""
        from .playing import plan_stimulus
        return [planned.draws for planned in plan_stimulus(self)]

    def play(self) -> Any:
        """Plays it: see tono.playing.PlayedStimulus, which has the channels, write_wave(path) and cite()."""
        from .playing import play_stimulus
        return play_stimulus(self)


def read_stimulus(path: Union[str, "os.PathLike[str]"]) -> Stimulus:
    """The stimulus of a file. StimulusError says what is wrong, with file and line."""
    with open(path, "rb") as file:
        data = file.read()
    return parse_stimulus(data, os.fspath(path), os.path.dirname(os.fspath(path)))


def parse_stimulus(data: Union[bytes, str], name: str = "stimulus", folder: str = "") -> Stimulus:
    """The stimulus of a file's bytes; curves in CSV files are looked for in `folder`."""
    if isinstance(data, bytes):
        try:
            text = data.decode("utf-8")
        except UnicodeDecodeError as error:
            line = data[:error.start].count(b"\n") + 1
            raise StimulusError(f"{name}:{line}: a byte is no UTF-8; save the file as UTF-8") from None
    else:
        text = data
    return _Reader(Source(text, name), parse_toml(text, name), folder).stimulus()


def parse_tables(text: str, given: Dict[str, Any], path: str) -> Stimulus:
    """The stimulus of tables that were read from a file's text, and may have other values than it."""
    return _Reader(Source(text, path), given, os.path.dirname(path)).stimulus()


class _Reader:
    """Takes the tables of a file apart."""

    def __init__(self, source: Source, given: Dict[str, Any], folder: str) -> None:
        self.source, self.folder = source, folder
        self.top = Table(source, (), given, "the stimulus")
        self.rate = 0

    def stimulus(self) -> Stimulus:
        top = self.top
        form = top.whole("form", 1, 2**32 - 1, "1")
        if form != 1:
            top.fail("form", f"form is {form}; this version of tono reads form 1")
        self.rate = top.whole("rate", None, 2**32 - 1, "48000")
        frames, title = frames_of(top, self.rate), top.text("title", "")
        stations, curves = self.stations(), self.curves()
        groove = {key: top.given[key] for key in _GROOVE if top.has(key)}
        channels = top.choice("channels", CHANNELS, "mono", '"mono"')
        voices = [self.voice(place, given, groove, stations, curves) for place, given in enumerate(self.voice_tables())]
        top.end()
        read = {name for voice in voices for name in voice.curves}
        heard = {name: curve for name, curve in curves.items() if name in read}
        made = Stimulus(self.rate, frames, stations, voices, heard, channels, title)
        self.judge(made)
        return made

    def voice_tables(self) -> List[Dict[str, Any]]:
        tables = self.top.take("voice", "..: a table [[voice]] for each voice")
        if isinstance(tables, dict):
            self.top.fail("voice", "voice is one table; write its head as [[voice]], with two brackets")
        if not isinstance(tables, list) or not tables or not all(isinstance(table, dict) for table in tables):
            self.top.fail("voice", f"voice is {shown(tables)}; expected a table [[voice]] for each voice")
        return tables

    def stations(self) -> Dict[str, Station]:
        tables = self.top.table("station")
        if not tables:
            seed = seed_of(self.top, "seed")
            return {MAIN: Station(0, seed, self.top.whole("draw", 0, 2**64 - 1, "0"))}
        for key in ("seed", "draw"):
            if self.top.has(key):
                self.top.fail(key, f"the stimulus has stations, so that {key} stands in each of them and not here")
        made: Dict[str, Station] = {}
        for place, (name, given) in enumerate(tables.items()):
            if not isinstance(given, dict):
                self.top.fail(("station", name), f"station.{name} is {shown(given)}; write a table [station.{name}]")
            table = Table(self.source, ("station", name), given, f"station {name}")
            station = Station(table.whole("number", place, STATIONS - 1, "0"), seed_of(table, "seed"),
                              table.whole("draw", 0, 2**64 - 1, "0"))
            table.end()
            if any(other.number == station.number for other in made.values()):
                table.fail("number", f"station {name} has number {station.number}, as another one before it; number them from 0 to 7")
            made[name] = station
        return made

    def curves(self) -> Dict[str, Curve]:
        made = {}
        for name, given in self.top.table("curve").items():
            if not isinstance(given, dict):
                self.top.fail(("curve", name), f"curve.{name} is {shown(given)}; write a table [curve.{name}]")
            table = Table(self.source, ("curve", name), given, f"curve {name}")
            if is_pitch_name(name):
                table.fail((), f"{name!r} names a pitch, so that no curve can have that name; choose another one")
            hop = table.whole("hop", None, 2**32 - 1, "64, the frames that a value holds for")
            if table.has("csv") == table.has("hertz"):
                table.fail((), f"curve {name} has {'both' if table.has('csv') else 'neither'} hertz and csv; write one of them")
            made[name] = Curve(hop, self.csv_values(table) if table.has("csv") else self.hertz_values(table))
            table.end()
        return made

    def hertz_values(self, table: Table) -> "array.array[float]":
        rows = table.rows("hertz")
        for place, value in enumerate(rows):
            if not is_number(value):
                table.fail(("hertz", place), f"hertz[{place}] is {shown(value)}; expected a number of hertz")
        return array.array("f", [narrow(value) for value in rows])

    def csv_values(self, table: Table) -> "array.array[float]":
        from .stimulus_csv import read_column
        column: Any = table.given["column"] if table.has("column") else None
        try:
            return read_column(os.path.join(self.folder, table.text("csv", "")), column)
        except OSError as error:
            table.fail("csv", f"{table.given['csv']} cannot be read: {error.strerror}; the path is taken from the stimulus file's folder")

    def voice(self, place: int, given: Dict[str, Any], groove: Dict[str, Any], stations: Dict[str, Station],
              curves: Dict[str, Curve]) -> Voice:
        table = Table(self.source, ("voice", place), given, f"voice {place + 1}")
        wave = table.choice("wave", WAVES, None, '"piano"')
        name, station = table.text("name", ""), self.station_of(table, stations)
        notes, used = self.notes(table, wave, curves)
        lane = self.lane_of(table, curves, used)
        seq = self.seq(table, wave, groove, self.hop_of(table, curves, lane))
        table.end()
        at: Dict[str, int] = {}
        for curve in lane:
            at[curve] = sum(len(curves[before].hertz) for before in lane[:lane.index(curve)])
        rows = [Note(step, length, at[pitch.curve] + pitch.value if pitch.kind == CURVE else pitch.value, gain, pitch.kind)
                for step, length, pitch, gain in notes]
        return Voice(name, station, seq, tuple(rows), tuple(lane))

    def station_of(self, table: Table, stations: Dict[str, Station]) -> str:
        if len(stations) == 1 and "station" not in table.given:
            table.has("station")
            return next(iter(stations))
        return table.choice("station", list(stations), None, f'"{next(iter(stations))}"')

    def lane_of(self, table: Table, curves: Dict[str, Curve], used: List[str]) -> List[str]:
        if not table.has("curves"):
            return used
        listed = table.rows("curves")
        for place, name in enumerate(listed):
            if name not in curves or name in listed[:place]:
                table.fail(("curves", place), f"{shown(name)} is no curve of this file, or stands twice{nearest(str(name), curves)}")
        for name in used:
            if name not in listed:
                table.fail("curves", f"the notes read the curve {name!r}, which is not among {table.what}'s curves; add it")
        return [str(name) for name in listed]

    def hop_of(self, table: Table, curves: Dict[str, Curve], lane: List[str]) -> int:
        hops = {curves[name].hop for name in lane}
        if len(hops) > 1:
            table.fail("notes", f"{table.what} reads curves of the hops {', '.join(map(str, sorted(hops)))}; give them one hop, or "
                                "put their notes into two voices")
        hop = table.whole("hop", hops.pop() if hops else 1, 2**32 - 1, "64")
        if lane and hop != curves[lane[0]].hop:
            table.fail("hop", f"hop is {hop}, and the curve {lane[0]!r} has {curves[lane[0]].hop}; leave hop out")
        return hop

    def seq(self, table: Table, wave: str, groove: Dict[str, Any], hop: int) -> Seq:
        for key in _GROOVE:
            table.has(key)
        own = {key: table.given[key] for key in _GROOVE if key in table.given}
        at = {key: table if key in own else self.top for key in _GROOVE}
        numbers = {**groove, **own}
        points = []
        if "tempo_points" in numbers:
            points = self.points(at["tempo_points"])
        steps = at["steps_per_beat"].held("steps_per_beat", numbers.get("steps_per_beat", 4), "steps_per_beat", 2**32 - 1)
        tempo, swing, humanize = (at[key].narrowed(key, numbers[key], key) if key in numbers else usual
                                  for key, usual in (("tempo", 120.0), ("swing", 0.0), ("humanize", 0.0)))
        style = table.choice("style", STYLES, "classic", '"808"')
        duty, envelope = table.number("duty", 0.5), self.envelope(table)
        return Seq(self.rate, tempo, steps, points, swing, humanize, hop, wave, style, duty, self.knobs(table, wave),
                   self.drawbars(table), envelope)

    def points(self, table: Table) -> List[TempoPoint]:
        made = []
        for place, row in enumerate(table.rows("tempo_points")):
            at = ("tempo_points", place)
            if not isinstance(row, list) or len(row) != 2:
                table.fail(at, f'tempo_points[{place}] is {shown(row)}; expected a beat and a tempo, as ["7 1/2", 84]')
            made.append(TempoPoint(*beat_of(table, at, row[0]), table.narrowed(at, row[1], "the tempo")))
        return made

    def envelope(self, table: Table) -> Envelope:
        inner = Table(self.source, (*table.path, "envelope"), table.table("envelope"), "the envelope")
        made = Envelope(*(inner.number(name, usual) for name, usual in zip(Envelope._fields, Envelope())))
        inner.end()
        return made

    def knobs(self, table: Table, wave: str) -> Dict[str, float]:
        """Knobs by their names, those of the wave also without its name."""
        given, made = table.table("knobs"), {}
        short = {name[len(wave) + 1:]: name for name in knobs_of(wave)}
        for key, value in given.items():
            name = short.get(key, key)
            if name not in KNOBS or name in made:
                twice = "stands twice" if name in made else "is no knob of " + wave
                names = [*short, *short.values()]
                table.fail(("knobs", key), f"{key} {twice}{nearest(key, names or KNOBS) or '; it has ' + (', '.join(short) or 'none')}")
            made[name] = table.narrowed(("knobs", key), value, key)
        return made

    def drawbars(self, table: Table) -> Sequence[float]:
        if not table.has("drawbars"):
            return BARS
        rows, flat = table.rows("drawbars"), []
        for place, row in enumerate(rows):
            if not isinstance(row, list) or len(row) != 2:
                table.fail(("drawbars", place), f"drawbars[{place}] is {shown(row)}; expected a ratio and a level, as [2, 1.0]")
            flat += [table.narrowed(("drawbars", place), value, "a drawbar's number") for value in row]
        if len(rows) != 5:
            table.fail("drawbars", f"drawbars has {len(rows)} bars; expected five, each [ratio, level]; one that is not drawn has level 0")
        return flat

    def notes(self, table: Table, wave: str, curves: Dict[str, Curve]) -> Tuple[List[Tuple[int, int, Pitch, float]], List[str]]:
        """The rows of the notes, and the curves that they read, in the order of their first use."""
        rows, used = [], []
        if not table.has("notes"):
            table.fail((), f"{table.what} has no notes; add notes = [[0, 4, \"A4\", 0.5]]: step, length, pitch, gain")
        for place, row in enumerate(table.rows("notes")):
            at = ("notes", place)
            if isinstance(row, dict):
                unknown = [key for key in row if key not in ("step", "length", "pitch", "gain")]
                if unknown or not {"step", "length", "pitch"} <= set(row):
                    table.fail(at, f"note {place + 1} has {'no key ' + unknown[0] if unknown else 'not step, length and pitch'}; expected "
                                   "{ step = 0, length = 4, pitch = \"A4\", gain = 0.5 }")
                row = [row["step"], row["length"], row["pitch"], *([row["gain"]] if "gain" in row else [])]
            if not isinstance(row, list) or len(row) not in (3, 4):
                table.fail(at, f"note {place + 1} is {shown(row)}; expected [step, length, pitch, gain], where gain may be left out")
            pitch = self.pitch(table, at, place, row[2], wave, curves)
            if pitch.kind == CURVE and pitch.curve not in used:
                used.append(pitch.curve)
            gain = 0.5 if len(row) == 3 else table.narrowed(at, row[3], f"the gain of note {place + 1}")
            rows.append((table.held(at, row[0], f"the step of note {place + 1}", 2**32 - 1),
                         table.held(at, row[1], f"the length of note {place + 1}", 2**32 - 1), pitch, gain))
        return rows, used

    def pitch(self, table: Table, at: Any, place: int, value: Any, wave: str, curves: Dict[str, Curve]) -> Pitch:
        if is_number(value):
            return Pitch(NUMBER, narrow(value))
        if isinstance(value, str):
            try:
                return pitch_of(value, curves, wave == "kit")
            except ValueError as error:
                table.fail(at, f"the pitch of note {place + 1}: {error}{nearest(value, [*curves])}")
        table.fail(at, f"the pitch of note {place + 1} is {shown(value)}; expected hertz, or a text as \"A4\", \"q138\" or a curve's name")

    def judge(self, stimulus: Stimulus) -> None:
        """Lets the planning call judge every voice, and says which line it refuses."""
        from .playing import RefusedVoice, plan_stimulus
        try:
            plan_stimulus(stimulus)
        except RefusedVoice as refused:
            self.source.fail(_refused_path(refused, self.top.given, stimulus), str(refused.refused))


def _refused_path(refused: Any, given: Dict[str, Any], stimulus: Stimulus) -> Tuple[Any, ...]:
    """The path in the file of what a call refused."""
    number, voice = refused.refused.number, ("voice", refused.place)
    found = re.match(r"(notes|tempo_map)\[(\d+)\]", refused.refused.place or "")
    if found and found[1] == "notes":
        return (*voice, "notes", int(found[2]))
    simple = {1: "rate", 2: "frames" if "frames" in given else "seconds", 22: "draw", 33: "station"}
    if number in simple:
        return (simple[number],)
    key = {3: "tempo", 4: "steps_per_beat", 5: (refused.refused.place or "swing").split(" ")[0], 31: "tempo_points",
           32: "tempo_points", 35: "hop"}.get(number)
    if key:
        above = voice if key in given["voice"][refused.place] or key == "hop" else ()
        return (*above, key, *([int(found[2])] if found else []))
    if number == 11:
        place = int(re.findall(r"\d+", refused.refused.place or "0")[0])
        for name in stimulus.voices[refused.place].curves:
            if place < len(stimulus.curves[name].hertz):
                return ("curve", name, "hertz", place)
            place -= len(stimulus.curves[name].hertz)
    if number == 6:
        word = (refused.refused.place or "").split(" ")[0]
        key = "envelope" if word.startswith("env.") else "drawbars" if word.startswith("bars") else "duty" if word == "duty" else "knobs"
        return (*voice, key)
    return voice
