"""Random stimulus files: parsed, written in their whole form and parsed again; their notes, frames and draws equal to those of
direct calls with the same numbers.

usage: lab_random.py [COUNT [FIRST]]      COUNT files, 300 if not given, of the random seeds FIRST, FIRST + 1, ..

Each file is written by this program as a person would write it, and beside it the numbers that it means are handed to tono.plan
and, if it is short, to tono.render. The last line is 'N passed, M failed'.
"""
import array
import ctypes
import random
import sys
from fractions import Fraction
from typing import Any, Dict, List, Tuple

import tono
from python_cases import expect, finish
from tono.forms import score_of, stimulus_of_score, text_of
from tono.stimuli import parse_stimulus
from tono.textscores import read_text
from tono.timing import note_rows
from tono.wavefiles import canonical

REFUSED = "refused as a direct call is"
NAMES = "C C# D D# E F F# G G# A A# B".split()
FLATS = {"C#": "Db", "D#": "Eb", "F#": "Gb", "G#": "Ab", "A#": "Bb"}
DRUMS = {"kick": 36, "rim": 37, "snare": 38, "clap": 39, "closed hat": 42, "open hat": 46, "crash": 49, "ride": 51, "cowbell": 56}


def single(x: float) -> float:
    return ctypes.c_float(x).value


class File:
    """A stimulus file in the making: its lines, and what they mean."""

    def __init__(self, seed: int) -> None:
        self.any = random.Random(seed)
        self.lines: List[str] = []
        self.stations: Dict[str, Tuple[int, int, int]] = {}
        self.curves: Dict[str, Tuple[int, List[float]]] = {}
        self.voices: List[Tuple[str, tono.Seq, List[tono.Note], List[float]]] = []

    def decimal(self, low: float, high: float) -> Tuple[str, float]:
        """A number as it is written, and as it is meant. At most 7 digits, so that a 64-bit float between decides nothing."""
        text = f"{self.any.uniform(low, high):.{self.any.choice([1, 2, 3, 4, 6])}g}"
        text = f"{float(text):.3e}" if self.any.random() < 0.05 else repr(float(text))
        return (text[:-2] if text.endswith(".0") and self.any.random() < 0.5 else text), single(float(text))

    def comment(self) -> str:
        return self.any.choice(["", "", "", "  # a [comment] = \"here\""])

    def add(self, line: str) -> None:
        self.lines.append(line + self.comment())
        if self.any.random() < 0.1:
            self.lines.append(self.any.choice(["", "# a line [[voice]]", "   "]))

    def write(self) -> str:
        self.rate = self.any.choice([8000, 16000, 22050, 44100, 48000, 96000, 192000, self.any.randint(8000, 192000)])
        self.add(f"rate = {self.rate}")
        if self.any.random() < 0.5:
            self.frames = self.any.randint(0, 6000)
            self.add(f"frames = {self.frames}")
        else:
            text, _ = self.decimal(0.0, 0.2)
            self.frames = int(Fraction(text) * self.rate + Fraction(1, 2))
            self.add(f"seconds = {text}")
        self.groove, self.groove_numbers = self.groove_lines(0.5)
        self.lines += self.groove
        self.station_lines()
        self.curve_lines()
        for _ in range(self.any.choice([1, 1, 1, 2, 3])):
            self.voice()
        return "\n".join(self.lines) + "\n"

    def groove_lines(self, often: float) -> Tuple[List[str], Dict[str, Any]]:
        lines, numbers = [], {}  # type: List[str], Dict[str, Any]
        for name, low, high in (("tempo", 30, 900), ("swing", 0, 1), ("humanize", 0, 1)):
            if self.any.random() < often:
                text, numbers[name] = self.decimal(low, high)
                lines.append(f"{name} = {text}")
        if self.any.random() < often:
            numbers["steps_per_beat"] = self.any.randint(1, 64)
            lines.append(f"steps_per_beat = {numbers['steps_per_beat']}")
        if self.any.random() < often / 2:
            lines.append(self.point_line(numbers))
        return lines, numbers

    def point_line(self, numbers: Dict[str, Any]) -> str:
        beat, rows, points = Fraction(0), [], []
        for place in range(self.any.randint(1, 6)):
            tempo, bpm = self.decimal(30, 900)
            num, den = beat.numerator, beat.denominator
            forms = [f'"{num}/{den}"', f'"{num // den} {num % den}/{den}"'] + ([str(num)] if den == 1 else []) + ([str(float(beat))] if den in (2, 4) else [])
            written = self.any.choice(forms)
            rows.append(f"[{written}, {tempo}]")
            points.append(tono.TempoPoint(num, den, bpm))
            beat += Fraction(self.any.randint(1, 20), self.any.choice([1, 2, 3, 4, 7]))
        numbers["tempo_map"] = points
        return f"tempo_points = [{', '.join(rows)}]"

    def station_lines(self) -> None:
        if self.any.random() < 0.5:
            seed, draw = self.any.getrandbits(64), self.any.choice([0, self.any.getrandbits(40)])
            self.add(self.any.choice([f'seed = "{seed:016x}"', f'seed = "0x{seed:x}"', f"seed = 0x{seed:x}", f"seed = {seed}"]))
            if draw or self.any.random() < 0.5:
                self.add(f"draw = {draw}")
            self.stations["main"] = (0, seed, draw)
            return
        numbers = self.any.sample(range(8), self.any.randint(1, 3))
        for name, number in zip(["left", "right", "third one"], numbers):
            seed, draw = self.any.getrandbits(64), self.any.getrandbits(20)
            key = f'"{name}"' if " " in name else name
            self.lines += [f"[station.{key}]", f"number = {number}", f'seed = "{seed:016x}"', f"draw = {draw}"]
            self.stations[name] = (number, seed, draw)

    def curve_lines(self) -> None:
        for name in self.any.sample(["glide", "f0", "a curve"], self.any.choice([0, 0, 1, 2])):
            values = [self.decimal(50, 2000) for _ in range(self.any.randint(1, 40))]
            hop = self.any.choice([512, 4096])
            key = f'"{name}"' if " " in name else name
            texts = self.any.choice([", ", ",\n  "]).join(text for text, _ in values)
            self.lines += [f"[curve.{key}]", f"hop = {hop}", f"hertz = [{texts}]"]
            self.curves[name] = (hop, [x for _, x in values])

    def pitch(self, kit: bool, curves: List[str]) -> Tuple[str, Any, int]:
        """How a pitch is written, and the pitch and the kind that it means; of a curve its name."""
        kind = self.any.choice(["hertz", "note", "quarter", "curve" if curves else "hertz", "drum" if kit else "note"])
        if kind == "hertz":
            text, x = self.decimal(20, 4000)
            return text, x, tono.NUMBER
        q = self.any.randint(0, 255)
        if kind == "quarter":
            return f'"q{q}"', q, tono.QUARTER_TONE
        if kind == "drum":
            name = self.any.choice(list(DRUMS))
            return f'"{name}"', 2 * DRUMS[name], tono.QUARTER_TONE
        if kind == "curve":
            name = self.any.choice(curves)
            place = self.any.randint(0, 3)
            return (f'"{name}@{place}"' if place else f'"{name}"'), (name, place), tono.CURVE
        letter, octave = NAMES[q // 2 % 12], q // 24 - 1
        letter = FLATS[letter] if letter in FLATS and self.any.random() < 0.3 else letter
        cents = self.any.choice([" +50c", "+50c", " + 50 cents"]) if q % 2 else ""
        return f'"{letter}{octave}{cents}"', q, tono.QUARTER_TONE

    def voice(self) -> None:
        self.lines.append("[[voice]]")
        station = self.any.choice(list(self.stations))
        if len(self.stations) > 1 or self.any.random() < 0.3:
            self.add(f'station = "{station}"')
        numbers: Dict[str, Any] = dict(self.groove_numbers)
        wave = self.any.choice(tono.WAVES)
        self.add(f'wave = "{wave}"')
        lines, own = self.groove_lines(0.2)
        self.lines += lines
        numbers.update(own)
        numbers.update(self.voice_numbers(wave))
        hops = {hop for hop, _ in self.curves.values()}
        names = list(self.curves) if len(hops) == 1 else list(self.curves)[:1]
        notes, used, rows = [], [], []  # type: List[Any], List[str], List[str]
        for _ in range(self.any.choice([0, 1, 2, 5, 12])):
            text, pitch, kind = self.pitch(wave == "kit", names)
            if kind == tono.CURVE and pitch[0] not in used:
                used.append(pitch[0])
            step, length, (gain_text, gain) = self.any.randint(0, 40), self.any.randint(0, 6), self.decimal(0, 1)
            short = self.any.random() < 0.2
            notes.append((step, length, pitch, 0.5 if short else gain, kind))
            row = f"[{step}, {length}, {text}]" if short else f"[{step}, {length}, {text}, {gain_text}]"
            if not short and self.any.random() < 0.1:
                row = f"{{ step = {step}, length = {length}, pitch = {text}, gain = {gain_text} }}"
            rows.append(row)
        self.lines.append("notes = [" + self.any.choice([", ", ",\n  ", ",\n  # a note\n  "]).join(rows) + "]")
        lane, at = [], {}  # type: List[float], Dict[str, int]
        for name in used:
            at[name] = len(lane)
            lane += self.curves[name][1]
        made = [tono.Note(step, length, at[pitch[0]] + pitch[1] if kind == tono.CURVE else pitch, gain, kind) for step, length, pitch, gain, kind in notes]
        seq = tono.Seq(rate=self.rate, wave=wave, hop=self.curves[used[0]][0] if used else 1, **numbers)
        self.voices.append((station, seq, made, lane))

    def voice_numbers(self, wave: str) -> Dict[str, Any]:
        numbers: Dict[str, Any] = {}
        own = [name for name in tono.KNOBS if name.startswith(wave + "_")]
        if own and self.any.random() < 0.7:
            picked = {name: self.decimal(0, 2) for name in self.any.sample(own, self.any.randint(1, len(own)))}
            numbers["knobs"] = {name: x for name, (_, x) in picked.items()}
            keys = [f"{name[len(wave) + 1:] if self.any.random() < 0.5 else name} = {text}" for name, (text, _) in picked.items()]
            self.lines.append("knobs = { " + ", ".join(keys) + " }" if self.any.random() < 0.7 else "\n".join("knobs." + key for key in keys))
        if wave == "kit" and self.any.random() < 0.8:
            numbers["style"] = self.any.choice(tono.STYLES)
            self.add(f'style = "{numbers["style"]}"')
        if wave == "organ" and self.any.random() < 0.5:
            bars = [self.decimal(0.5, 8) for _ in range(10)]
            numbers["bars"] = [x for _, x in bars]
            self.add("drawbars = [" + ", ".join(f"[{bars[i][0]}, {bars[i + 1][0]}]" for i in range(0, 10, 2)) + "]")
        if self.any.random() < 0.5:
            texts = {name: self.decimal(0, 0.3) for name in self.any.sample(list(tono.Envelope._fields), self.any.randint(0, 5))}
            numbers["env"] = tono.Envelope(**{name: x for name, (_, x) in texts.items()})
            self.add("envelope = { " + ", ".join(f"{name} = {text}" for name, (text, _) in texts.items()) + " }")
        if self.any.random() < 0.3:
            text, numbers["duty"] = self.decimal(0.05, 0.95)
            self.add(f"duty = {text}")
        return numbers


def judge(seed: int) -> str:
    """What is wrong with one random file, or nothing, or that it is refused as it should be."""
    file = File(seed)
    text = file.write()
    session = tono.Session()
    for number, start, draw in file.stations.values():
        session.open(number, start, draw)
    draws, refused = [], 0
    planning = tono.Session(seeds=session.seeds, draws=session.draws)
    for station, seq, notes, lane in file.voices:
        number = file.stations[station][0]
        try:
            draws.append(tono.plan(planning, seq, notes, file.frames, lane=lane, station=number))
        except tono.Refused as error:
            refused = error.number
            break
        planning.open(number, planning.seeds[number], planning.draws[number] + draws[-1])
    try:
        stimulus = parse_stimulus(text, "random.toml")
    except ValueError as error:
        return REFUSED if refused and f"refused with {refused}: " in str(error) and str(error).startswith("random.toml:") else f"refused: {error}"
    if refused:
        return f"accepted, but a direct call is refused with {refused}"
    if (stimulus.rate, stimulus.frames) != (file.rate, file.frames) or stimulus.plan() != draws:
        return "rate, frames or draws differ"
    for voice, (_, seq, notes, lane) in zip(stimulus.voices, file.voices):
        if (voice.seq, list(voice.notes), list(stimulus.lane(voice))) != (seq, notes, lane):
            return f"a voice differs: {voice.seq} {seq}"
    whole = stimulus.to_toml()
    again = parse_stimulus(whole, "whole.toml")
    if again != stimulus or again.to_toml() != whole:
        return "the whole form is read otherwise"
    return judge_forms(stimulus) or (judge_sound(stimulus, file, session) if seed % 5 == 0 else "")


def judge_forms(stimulus: Any) -> str:
    """An input and a text score, where they fit, hold the same."""
    if len(stimulus.voices) != 1:
        return ""
    voice = stimulus.voices[0]
    station = stimulus.stations[voice.station]
    score = score_of(stimulus)
    back = stimulus_of_score(tono.Score.from_bytes(score.to_bytes()), station.seed, station.draw, station.number)
    if score_of(back).to_bytes() != score.to_bytes() or parse_stimulus(back.to_toml()) != back or back.voices[0].notes != voice.notes:
        return "an input is not what it was"
    try:
        text = text_of(stimulus)
    except ValueError:
        return ""
    read = read_text(text)
    if tono.plan_text(text) != stimulus.plan()[0] or (read.frames, read.seed, read.draw) != (stimulus.frames, station.seed, station.draw):
        return "a text score is not what it was"
    same = canonical(tono.play_text(text).frames).tobytes() == canonical(stimulus.play().voices[0].frames).tobytes()
    return "" if same else "a text score plays otherwise"


def judge_sound(stimulus: Any, file: File, session: tono.Session) -> str:
    """Frames equal to direct calls, note by note the sheet's numbers add up, and the citation replays."""
    played = stimulus.play()
    for one, voice, (station, seq, notes, lane) in zip(played.voices, stimulus.voices, file.voices):
        direct = tono.render(session, seq, notes, file.frames, lane=lane, station=file.stations[station][0])
        if one.frames.tobytes() != direct.frames.tobytes() or (one.draw_before, one.draws) != (direct.draw_before, direct.draws):
            return "frames or draws differ from a direct call"
        rows = note_rows(voice.seq, voice.notes, stimulus.frames, stimulus.lane(voice), one.draw_before)
        if sum(row.draws for row in rows) != one.draws:
            return "the notes' draws do not add up"
    if len(played.voices) == 1 and played.channels[0].tobytes() != array.array("f", played.voices[0].frames).tobytes():
        if all(x == x for x in played.channels[0]):
            return "one voice is not its own mix"
    return "" if tono.replay(played.cite(), stimulus.to_toml().encode()).same else "the citation does not replay"


def main(words: List[str]) -> None:
    count, first = int(words[0]) if words else 300, int(words[1]) if len(words) > 1 else 0
    wrong, refused = 0, 0
    for seed in range(first, first + count):
        said = judge(seed)
        refused += said == REFUSED
        if said and said != REFUSED:
            wrong += 1
            if wrong < 5:
                expect(f"random file {seed}", False, said)
    expect(f"{count} random files, of which {wrong} are wrong", wrong == 0)
    print(f"python: {count} random files, {refused} of them refused as a direct call is")
    finish()


main(sys.argv[1:])
