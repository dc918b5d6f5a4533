"""Drawings of what is played: the frames over seconds, and under them the notes as bars. Frames that are not numbers are
marked in red at the top."""
from __future__ import annotations

import math
from html import escape
from typing import Any, Iterator, List, NamedTuple, Sequence, Tuple

from .forms import Given
from .names import STYLES, WAVES
from .pitches import hertz_of_note, name_of
from .playing import play_stimulus
from .stimuli import Stimulus
from .timing import note_rows

LINE, BAR, GRID, TEXT, BAD = "#2c5f8a", "#d08a3c", "#dddddd", "#333333", "#cc2222"
# rows of notes in the drawing of one score: their height, and what all of them have at most
ROW, ROWS = 20, 400


def nice(peak: float) -> float:
    """The first of 0.1, 0.2, 0.5, 1, 2, 5, .. that is not below a peak."""
    size = 0.1
    for factor in [2, 2.5, 2] * 40:
        if size >= peak:
            return size
        size *= factor
    return size


def ticks(most: float, count: int) -> List[float]:
    """About so many round numbers from 0 to a length."""
    rough = most / count
    step = 10.0 ** math.floor(math.log10(rough))
    step *= next(f for f in (1, 2, 5, 10) if step * f >= rough * 0.999)
    return [k * step for k in range(int(most / step * 1.0001) + 1)]


def text(x: float, y: float, said: str, size: int = 12, anchor: str = "start", colour: str = TEXT, more: str = "") -> str:
    return f'<text x="{x:.1f}" y="{y:.1f}" font-size="{size}" text-anchor="{anchor}" fill="{colour}"{more}>{escape(said)}</text>'


def line(x1: float, y1: float, x2: float, y2: float, colour: str = GRID) -> str:
    return f'<line x1="{x1:.1f}" y1="{y1:.1f}" x2="{x2:.1f}" y2="{y2:.1f}" stroke="{colour}"/>'


class Bar(NamedTuple):
    """A note that sounds: the name of its wave, its first pitch, where it starts, how many frames sound, and its draws."""
    wave: str
    pitch: float
    start: int
    sounded: int
    draws: int


class Drawn:
    """A file with its frames, those of its channels added, and its notes as bars."""

    def __init__(self, given: Given, stimulus: Stimulus) -> None:
        self.name, self.stimulus = given.path.rsplit("/", 1)[-1], stimulus
        played = play_stimulus(stimulus)
        self.frames = played.channels[0].tolist() if len(played.channels) == 1 else list(map(sum, zip(*played.channels)))
        self.draws = sum(voice.draws for voice in played.voices)
        self.before = played.voices[0].draw_before
        self.bars = [bar for place in range(len(stimulus.voices)) for bar in self._bars(place)]

    def _bars(self, place: int) -> Iterator[Bar]:
        voice = self.stimulus.voices[place]
        lane = list(self.stimulus.lane(voice))
        for row in note_rows(voice.seq, voice.notes, self.stimulus.frames, lane):
            if row.start is not None:
                note = voice.notes[row.place]
                hertz = hertz_of_note(note.kind, int.from_bytes(note.words[12:16], "little"), lane)
                yield Bar(WAVES[voice.seq.wave], hertz, row.start, row.frames, row.draws)

    @property
    def order(self) -> Tuple[int, int]:
        return self.stimulus.voices[0].seq.wave, self.stimulus.voices[0].seq.style

    @property
    def voice(self) -> str:
        """The waves of the voices, of a kit with its style."""
        return " and ".join(WAVES[v.seq.wave] + (f", {STYLES[v.seq.style]}" if WAVES[v.seq.wave] == "kit" else "")
                            for v in self.stimulus.voices)

    def rows(self) -> List[Tuple[Tuple[float, str], List[Bar]]]:
        """Pitches from high to low, each with its notes."""
        found: Any = {}
        for bar in self.bars:
            found.setdefault((bar.pitch, bar.wave), []).append(bar)
        return sorted(found.items(), reverse=True)


class Panel:
    """A room of the drawing over the score's seconds."""

    def __init__(self, played: Drawn, left: float, top: float, wide: float, high: float) -> None:
        self.played, self.left, self.top, self.wide, self.high = played, left, top, wide, high
        self.count = max(1, len(played.frames))
        finite = [abs(x) for x in played.frames if math.isfinite(x)]
        self.most = nice(max(finite, default=0.0))

    def x(self, frame: float) -> float:
        return self.left + self.wide * frame / self.count

    def y(self, value: float) -> float:
        value = max(-self.most, min(self.most, value))
        return self.top + self.high * (0.5 - 0.5 * value / self.most)

    def wave(self) -> Iterator[str]:
        """The frames as a line; where many fall on a pixel, the lowest and the highest of it."""
        frames, points = self.played.frames, []
        columns = len(frames) if len(frames) <= 4 * self.wide else round(self.wide)
        for column in range(columns):
            places = range(column * len(frames) // columns, (column + 1) * len(frames) // columns)
            finite = [i for i in places if math.isfinite(frames[i])]
            x = self.x(places[0])
            if len(finite) < len(places):
                yield line(x, self.top, x, self.top + 6, BAD)
            if finite:
                ends = {min(finite, key=lambda i: frames[i]), max(finite, key=lambda i: frames[i])}
                points += [f"{x:.1f},{self.y(frames[i]):.1f}" for i in sorted(ends)]
        if len(points) == 1:
            points.append(f"{self.x(1):.1f},{points[0].split(',')[1]}")
        yield f'<polyline points="{" ".join(points)}" fill="none" stroke="{LINE}"/>'

    def axes(self, count: int, size: int) -> Iterator[str]:
        for value in (self.most, 0.0, -self.most):
            y = self.y(value)
            yield line(self.left, y, self.left + self.wide, y)
            yield text(self.left - 6, y + size / 3, f"{value:.6g}", size, "end")
        seconds = self.count / self.played.stimulus.rate
        for second in ticks(seconds, count):
            x = self.x(second * self.played.stimulus.rate)
            yield line(x, self.top, x, self.top + self.high)
            yield text(x, self.top + self.high + size + 3, f"{second:.6g}", size, "middle")


def bars(panel: Panel, top: float, row_high: float, rows: Sequence[Any]) -> Iterator[str]:
    """The notes, a row for each pitch."""
    for place, (_, notes) in enumerate(rows):
        y = top + place * row_high
        for _, _, start, sounded, _ in notes:
            x, wide = panel.x(start), max(1.5, panel.x(start + sounded) - panel.x(start) - 1)
            yield f'<rect x="{x:.1f}" y="{y:.1f}" width="{wide:.1f}" height="{row_high * 0.75:.1f}" fill="{BAR}"/>'


def drawing(wide: int, high: int, parts: Sequence[str]) -> str:
    head = f'<svg xmlns="http://www.w3.org/2000/svg" width="{wide}" height="{high}" viewBox="0 0 {wide} {high}" font-family="sans-serif">'
    return "\n".join([head, f'<rect width="{wide}" height="{high}" fill="#ffffff"/>', *parts, "</svg>", ""])


def pitch_words(row: Tuple[float, str]) -> str:
    pitch, wave = row
    name = name_of(wave, pitch)
    return f"{pitch:.6g} Hz" + (f", {name}" if name else "")


def many(draws: int) -> str:
    return "no draws" if draws == 0 else f"{draws} draws"


def draw_words(notes: Sequence[Bar]) -> str:
    """How many draws the notes of a row make."""
    made = [note.draws for note in notes]
    if len(made) > 1 and made[0] and len(set(made)) == 1:
        return f"{len(made)} × {made[0]} draws"
    return " + ".join(map(str, made)) + " draws" if len(made) < 4 and any(made) else many(sum(made))


def one(played: Drawn) -> str:
    """A score by itself."""
    wide, left, right, top, high = 1000, 190, 150, 60, 240
    panel = Panel(played, left, top, wide - left - right, high)
    parts = [text(16, 26, f"{played.name}: {played.voice}", 17, more=' font-weight="bold"')]
    parts.append(text(16, 44, f"{len(played.frames)} frames at {played.stimulus.rate} a second, {many(played.draws)} from draw {played.before} on"))
    parts += [*panel.axes(8, 12), *panel.wave()]
    parts.append(text(wide - right, top + high + 34, "seconds", anchor="end"))
    rows = played.rows()
    row_high = min(ROW, ROWS / max(1, len(rows)))
    under = top + high + 52
    each = math.ceil(15 / row_high)
    for place, (pitch, notes) in enumerate(rows):
        y = under + (place + 0.375) * row_high
        if place % each == 0:
            parts.append(line(left, y, wide - right, y))
            parts.append(text(left - 8, y + 4, pitch_words(pitch), anchor="end"))
            parts.append(text(wide - right + 8, y + 4, draw_words(notes)))
    if not rows:
        parts.append(text(left, under + 12, "no note sounds"))
    parts += bars(panel, under, row_high, rows)
    return drawing(wide, math.ceil(under + max(1, len(rows)) * row_high + 16), parts)


def small(played: Drawn, left: float, top: float, wide: float, high: float) -> List[str]:
    """A score as a part of a sheet."""
    edge, body, under = 46, high - 88, 26
    panel = Panel(played, left + edge, top + 30, wide - edge - 14, body)
    parts = [text(left + edge, top + 20, f"{played.order[0]} {played.voice}", 14, more=' font-weight="bold"')]
    parts.append(text(left + wide - 14, top + 20, many(played.draws), 11, "end"))
    parts += [*panel.axes(4, 10), *panel.wave()]
    rows = played.rows()
    row_high = min(6.0, (high - body - 30 - under) / max(1, len(rows)))
    return parts + [*bars(panel, panel.top + body + under, row_high, rows)]


def sheet(drawn: Sequence[Drawn]) -> str:
    across, wide, high, top = 3, 320, 200, 44
    scores = sorted(drawn, key=lambda played: played.order)
    down = math.ceil(len(scores) / across)
    parts = [text(16, 28, "Frames over seconds; below them the notes, a row for each pitch, high ones first", 14)]
    for place, played in enumerate(scores):
        parts += small(played, 10 + wide * (place % across), top + high * (place // across), wide, high)
    return drawing(across * wide + 20, top + down * high + 10, parts)
