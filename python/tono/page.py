"""One HTML page of a stimulus, for a paper's supplement: the sound, pictures, notes, knobs, citation and the cited input, with
nothing to fetch. page.css and page.js, beside this module, are put into it."""
from __future__ import annotations

import base64
import json
import os
from html import escape
from typing import Any, Dict, List, Tuple

from .citations import citation_of, play_input
from .explain import pitch_words, voice_pairs
from .forms import INPUT, STIMULUS, SUFFIXES, Given
from .names import VERSION, WAVES
from .playing import plan_stimulus, play_stimulus
from .stimuli import Stimulus
from .timing import note_rows
from .decimals import to_decimal
from .singles import bits_of
from .wavefiles import canonical, wave_bytes

_HERE = os.path.dirname(os.path.realpath(__file__))
_POLICY = "default-src 'none'; script-src 'unsafe-inline'; style-src 'unsafe-inline'; media-src blob:; img-src data:"


def _asset(name: str) -> str:
    with open(os.path.join(_HERE, name), encoding="utf-8") as file:
        return file.read()


def _sound(given: Given, stimulus: Stimulus) -> Tuple[bytes, str, bytes]:
    """The WAVE file, the citation and the cited input."""
    if given.kind == STIMULUS:
        played = play_stimulus(stimulus)
        return played.wave_bytes(), played.cite(), stimulus.to_toml().encode()
    station = next(iter(stimulus.stations.values()))
    place = (station.seed, station.draw, station.number) if given.kind == INPUT else (None, None, None)
    one = play_input(given.data, *place)
    return bytes(wave_bytes(one.seq.rate, canonical(one.frames))), citation_of(one), given.data


def _table(head: List[str], rows: List[List[str]], caption: str, numbers: int) -> str:
    """A table whose first columns, so many, hold numbers."""
    cells = "".join(f'<th scope="col"{_right(k, numbers)}>{escape(cell)}</th>' for k, cell in enumerate(head))
    body = "".join("<tr>" + "".join(f"<td{_right(k, numbers)}>{escape(cell)}</td>" for k, cell in enumerate(row)) + "</tr>\n" for row in rows)
    return f"<table><caption>{escape(caption)}</caption><thead><tr>{cells}</tr></thead>\n<tbody>{body}</tbody></table>\n"


def _right(place: int, numbers: int) -> str:
    return ' class="n"' if place < numbers else ""


def _voices(stimulus: Stimulus) -> str:
    """A section for each voice: its numbers in words, and its notes."""
    parts = []
    for place, (voice, plan) in enumerate(zip(stimulus.voices, plan_stimulus(stimulus))):
        wave, lane = WAVES[voice.seq.wave], list(stimulus.lane(voice))
        name = f"{voice.name}: {wave}" if voice.name else wave
        words = [["noise", f"station {plan.station.number}, seed {plan.station.seed:016x}, draws {plan.before} to {plan.before + plan.draws}"]]
        words += [list(pair) for pair in voice_pairs(stimulus, voice, True)]
        rows = []
        for row in note_rows(voice.seq, voice.notes, stimulus.frames, lane, plan.before):
            note = voice.notes[row.place]
            pitch, called = pitch_words(voice, note, lane)
            start = ["-", "-"] if row.start is None else [str(row.start), f"{row.start / stimulus.rate:.4f}"]
            rows.append([str(row.place), str(row.step), *start, str(row.frames), "-" if row.draw_before is None else str(row.draw_before),
                         str(row.draws), pitch, called, f"{to_decimal(bits_of(note.gain))} ({bits_of(note.gain)})"])
        head = ["note", "step", "first frame", "seconds", "frames", "first draw", "draws", "pitch", "name", "gain"]
        parts.append(f"<section><h2>Voice {place + 1}, {escape(name)}</h2>\n" + _table(["what", "value"], words, f"What voice {place + 1} is played with", 0)
                     + _table(head, rows, f"The notes of voice {place + 1}, as a cue sheet has them", 7) + "</section>\n")
    return "".join(parts)


def _facts(given: Given, stimulus: Stimulus) -> Dict[str, Any]:
    bars = []
    for voice in stimulus.voices:
        bars += [[row.start, row.frames] for row in note_rows(voice.seq, voice.notes, stimulus.frames, stimulus.lane(voice)) if row.start is not None]
    return {"name": given.name, "suffix": SUFFIXES[given.kind], "rate": stimulus.rate, "frames": stimulus.frames, "bars": bars}


def page_of(given: Given, stimulus: Stimulus) -> str:
    """The page."""
    wave, citation, data = _sound(given, stimulus)
    title = stimulus.title or given.name
    facts = json.dumps(_facts(given, stimulus)).replace("<", "\\u003c")
    length = f"{stimulus.frames} frames at {stimulus.rate} a second, {stimulus.frames / stimulus.rate:.4g} s"
    return f"""<!DOCTYPE html>
<html lang="en">
<head>
<meta charset="utf-8">
<meta name="viewport" content="width=device-width, initial-scale=1">
<meta http-equiv="Content-Security-Policy" content="{_POLICY}">
<title>{escape(title)}</title>
<link rel="icon" href="data:,">
<style>
{_asset("page.css")}</style>
</head>
<body>
<main>
<h1>{escape(title)}</h1>
<p>{length}. Made by tono {VERSION}. Everything is inside this file; nothing is fetched.</p>
<section aria-labelledby="sound"><h2 id="sound">The sound</h2>
<audio id="audio" controls aria-label="The stimulus"></audio>
<p><a id="save" href="#sound">Save the WAVE file</a> <a id="save-input" href="#sound">Save the input</a></p>
<div class="tools" role="group" aria-label="View">
<button type="button" id="in">Zoom in</button> <button type="button" id="out">Zoom out</button>
<button type="button" id="earlier">Earlier</button> <button type="button" id="later">Later</button>
<button type="button" id="all">Show all</button> <label id="which" hidden>Channel <select id="channel"></select></label>
<output id="view" aria-live="polite"></output></div>
<canvas id="wave" width="1000" height="180" tabindex="0" role="img" aria-label="Waveform; plus and minus zoom, arrow keys move"></canvas>
<canvas id="spectrum" width="1000" height="256" tabindex="0" role="img" aria-label="Spectrogram; plus and minus zoom, arrow keys move"></canvas>
<p class="note">Above: samples over seconds, with the notes as bars below. Under it: hertz over seconds, each 60 dB from dark to bright.</p>
</section>
<section aria-labelledby="cited"><h2 id="cited">The citation</h2>
<pre id="citation" tabindex="0">{escape(citation)}</pre>
<p><button type="button" id="check">Is this the cited sound?</button> <output id="verdict" aria-live="polite">Not checked yet.</output></p>
</section>
{_voices(stimulus)}<section><h2>The input</h2>
<pre id="input" tabindex="0"></pre></section>
</main>
<script type="application/json" id="facts">{facts}</script>
<script type="text/plain" id="wave-data">{base64.b64encode(wave).decode()}</script>
<script type="text/plain" id="input-data">{base64.b64encode(data).decode()}</script>
<script>
{_asset("page.js")}</script>
</body>
</html>
"""
