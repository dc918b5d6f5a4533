#!/usr/bin/env python3
"""Two seconds at 48,000 frames a second: a flute on a pitch curve, and drums, slowing down.

usage: stimulus.py OUT.wav      with PYTHONPATH=python

Writes the sum of both as a WAVE file, and beside it what a citation needs: OUT-flute.input and
OUT-drums.input. Prints the two citations. examples/stimulus.c writes the same WAVE file.
"""
import array
import os
import sys
from typing import List

import tono

RATE, FRAMES, HOP = 48000, 96000, 64
# each beat is slower than the one before: beat and tempo
SLOWER = [(0, 152), (1, 138), (2, 122), (3, 100), (3.5, 84)]
# MIDI numbers; a drum's quarter tone is twice its number
KICK, SNARE, HAT = 36, 38, 42


def pitch_at(k: int) -> float:
    """The pitch in hertz at place k of the curve: a glide from 220 Hz up to 330, with a slow vibrato.
    A lab has such values from its pitch tracker, one for each 64 frames."""
    turn = k % 136
    bend = (turn if turn < 68 else 136 - turn) - 34
    return 220 + 110 * k / 1500 + bend / 8


def flute(session: tono.Session) -> tono.Rendered:
    """The curve through the whole stimulus, a quarter tone over its third beat, a number over its fourth."""
    seq = tono.Seq(rate=RATE, tempo=152, tempo_map=SLOWER, hop=HOP, wave="flute",
                   env=tono.Envelope(attack=0.02, decay=0.1, sustain=0.8, release=0.05))
    notes = [tono.Note.on_curve(0, 16, offset=0, gain=0.5), tono.Note.at_quarter_tone(8, 4, q=127, gain=0.25),
             tono.Note(12, 4, pitch=392.5, gain=0.25)]
    curve = array.array("f", [pitch_at(k) for k in range(FRAMES // HOP)])
    return tono.render(session, seq, notes, FRAMES, lane=curve, station=0)


def drums(session: tono.Session) -> tono.Rendered:
    """A hat on every other step, kick and snare on the beats in turn."""
    seq = tono.Seq(rate=RATE, tempo=152, tempo_map=SLOWER, hop=HOP, wave="kit", style="acoustic",
                   swing=0.25, humanize=0.125)
    notes = [tono.Note.at_quarter_tone(step, 2, q=2 * HAT, gain=0.2) for step in range(0, 16, 2)]
    notes += [tono.Note.at_quarter_tone(step, 4, q=2 * drum, gain=0.5)
              for step, drum in ((0, KICK), (4, SNARE), (8, KICK), (12, SNARE))]
    return tono.render(session, seq, notes, FRAMES, station=1)


def main(words: List[str]) -> None:
    if len(words) != 1 or words[0].startswith("-"):
        sys.exit(__doc__.strip())
    path = words[0]
    session = tono.Session()
    session.open(0, seed=0x5EED)
    session.open(1, seed=0xD12C, draw=1000)
    parts = {"flute": flute(session), "drums": drums(session)}
    mixed = array.array("f", [a + b for a, b in zip(parts["flute"].frames, parts["drums"].frames)])
    tono.write_wave(path, RATE, mixed)
    for name, played in parts.items():
        with open(f"{os.path.splitext(path)[0]}-{name}.input", "wb") as file:
            file.write(played.input)
        print(played.cite())


main(sys.argv[1:])
