"""A file of any form in words: each number with its bits, each note with its start, frames, pitch and draws."""
from __future__ import annotations

from typing import Any, Dict, Iterator, List, Optional, Tuple

from .command_play import plan_facts, told
from .decimals import to_decimal
from .errors import Refused
from .forms import INPUT, TEXT, Given, stimulus_of
from .names import CURVE, KNOBS, QUARTER_TONE, STYLES, WAVES, knobs_of
from .pitches import hertz_of_note, name_of, quarter_tone_name
from .playing import PlannedVoice, RefusedVoice, plan_stimulus
from .singles import bits_of
from .stimuli import Stimulus, Voice
from .textscores import read_text
from .timing import NoteRow, note_rows
from .values import Envelope


def said(x: float) -> str:
    """A 32-bit float by its shortest decimal and its bits."""
    digits = bits_of(x)
    return f"{to_decimal(digits)} ({digits})"


def _tempo(stimulus: Stimulus, voice: Voice) -> Iterator[Tuple[str, str]]:
    seq = voice.seq
    step = 60 / seq.tempo / seq.steps_per_beat if seq.tempo and seq.steps_per_beat else 0.0
    lasts = f": a step lasts {step:.4g} s" if not seq.tempo_map else ", which is judged and not played"
    yield "tempo", f"{said(seq.tempo)} beats a minute, {seq.steps_per_beat} steps a beat{lasts}"
    for point in seq.tempo_map:
        beat = str(point.num) if point.den == 1 else f"{point.num}/{point.den}"
        yield "point", f"from beat {beat} on {said(point.bpm)} beats a minute"
    yield "groove", f"swing {said(seq.swing)}, humanize {said(seq.humanize)}"


def voice_pairs(stimulus: Stimulus, voice: Voice, written: bool) -> Iterator[Tuple[str, str]]:
    seq, wave = voice.seq, WAVES[voice.seq.wave]
    yield from _tempo(stimulus, voice)
    yield "envelope", ", ".join(f"{name} {said(x)}{' s' if name in ('attack', 'decay', 'release') else ''}"
                                for name, x in zip(Envelope._fields, seq.env))
    yield "wave", f"{wave}, number {seq.wave}"
    yield "duty", said(seq.duty) + ("" if wave == "square" else ", which only square reads")
    if wave == "kit":
        yield "style", f"{STYLES[seq.style]}, number {seq.style}"
    for name, x in zip(KNOBS, seq.knobs):
        if name in knobs_of(wave):
            yield "knob", f"{name} {said(x)}"
    if wave == "organ":
        for ratio, level in zip(seq.bars[::2], seq.bars[1::2]):
            yield "drawbar", f"ratio {said(ratio)}, level {said(level)}" + ("" if written else ", not written")
    for name in voice.curves:
        curve = stimulus.curves[name]
        yield "curve", f"{name}, {len(curve.hertz)} values, each for {curve.hop} frames" + _ends(curve.hertz)
    yield "notes", str(len(voice.notes)) if voice.notes else "none"


def _ends(hertz: Any) -> str:
    return f", from {said(hertz[0])} to {said(hertz[-1])} Hz" if len(hertz) else ""


def pitch_words(voice: Voice, note: Any, lane: Any) -> Tuple[str, str]:
    """A note's pitch with its bits, and its name."""
    word = int.from_bytes(note.words[12:16], "little")
    wave, hertz = WAVES[voice.seq.wave], hertz_of_note(note.kind, word, lane)
    if note.kind == CURVE:
        return f"curve from place {word}", name_of(wave, hertz) or "no note"
    name = quarter_tone_name(word) if note.kind == QUARTER_TONE and wave != "kit" else name_of(wave, hertz)
    text = f"{said(hertz)} Hz" + (f", q{word}" if note.kind == QUARTER_TONE else "")
    return text, name or "no note"


def _rows(stimulus: Stimulus, voice: Voice, rows: List[NoteRow], short: Tuple[int, ...]) -> List[List[str]]:
    lane = list(stimulus.lane(voice))
    made = [["step", "length", "start", "frames", "draws", "pitch", "name", "gain"]]
    for row, note in zip(rows, voice.notes):
        start = "skipped" if row.start is None else f"{row.start / stimulus.rate:.4f} s"
        gain = said(note.gain) + (", not written" if row.place in short else "")
        made.append([str(note.step), str(note.length), start, str(row.frames), str(row.draws), *pitch_words(voice, note, lane), gain])
    return made if len(made) > 1 else []


def _seeded(given: Given, seed: Optional[int], draw: Optional[int], station: Optional[int]) -> Tuple[Stimulus, List[PlannedVoice]]:
    """The stimulus and its plan; an input without seed and draw is explained as one at 0 and 0, since neither moves a note."""
    try:
        if given.kind == INPUT and (seed is None or draw is None):
            seed, draw = seed or 0, draw or 0
        stimulus = stimulus_of(given, seed, draw, station)
        return stimulus, plan_stimulus(stimulus)
    except (Refused, RefusedVoice) as error:
        raise told(given, error) from None


def explained(given: Given, seed: Optional[int] = None, draw: Optional[int] = None, station: Optional[int] = None) -> List[str]:
    """The lines that say what a file holds."""
    stimulus, planned = _seeded(given, seed, draw, station)
    text = read_text(given.data) if given.kind == TEXT else None
    if text is not None:
        from .texts import plan_text
        try:
            plan_text(given.data)
        except Refused as error:
            raise told(given, error) from None
    seconds = f", {stimulus.frames / stimulus.rate:.4g} s" if stimulus.rate else ""
    pairs = [("file", f"{given.path}, {'an' if given.kind == INPUT else 'a'} {given.kind}")]
    pairs += [("title", stimulus.title)] if stimulus.title else []
    pairs += [("rate", f"{stimulus.rate} frames a second"), ("length", f"{stimulus.frames} frames{seconds}")]
    if stimulus.channels != "mono" or len(stimulus.voices) > 1:
        pairs.append(("channels", "one, the sum of all voices" if stimulus.channels == "mono" else f"{len(stimulus.stations)}, one for each station"))
    lines = [f"{word:10}{words}" for word, words in pairs]
    for place, (voice, plan) in enumerate(zip(stimulus.voices, planned)):
        if len(stimulus.voices) > 1:
            lines += ["", f"voice {place + 1}" + (f", {voice.name}" if voice.name else "")]
        noise = f"station {plan.station.number}, seed {plan.station.seed:016x}, draws {plan.before} to {plan.before + plan.draws}"
        if given.kind == INPUT and (seed is None or draw is None):
            noise = f"{plan.draws} draws; an input has no seed and draw of its own"
        lines.append(f"{'noise':10}{noise}")
        lines += [f"{word:10}{words}" for word, words in voice_pairs(stimulus, voice, text is None or text.bars_written)]
        rows = note_rows(voice.seq, voice.notes, stimulus.frames, stimulus.lane(voice), plan.before)
        table = _rows(stimulus, voice, rows, text.short if text else ())
        wide = [max(len(row[k]) for row in table) for k in range(7)] if table else []
        lines += ["  " + "  ".join(cell.ljust(w) for cell, w in zip(row, wide)) + "  " + row[7] for row in table]
    return lines


def facts_of(given: Given, seed: Optional[int] = None, draw: Optional[int] = None, station: Optional[int] = None) -> Dict[str, Any]:
    """What a file holds, for programs: the plan, and the whole form of the file as a stimulus."""
    stimulus, _ = _seeded(given, seed, draw, station)
    return {**plan_facts(given, stimulus), "form": given.kind, "toml": stimulus.to_toml()}
