#!/usr/bin/env python3
"""An experiment to copy: 40 trials in four blocks, the brightness of a tone as the factor, the noise held.

usage: experiment.py DIR [--play] [--order N]      with PYTHONPATH=python

Each trial is an FM tone in noise. The tone has one of five brightnesses (the knob index), each eight times, in an order that N
decides (1 if not given), so that a participant's number can be it. Tone and noise have a station each, and every trial begins at
the same draws: the noise is the same, sample for sample, in all 40, and only the tone differs.

Writes trial-01.wav to trial-40.wav, the stimulus file of each brightness, and log.csv: a line for each trial with block, brightness,
file and citation, and with --play the answer and the time it took. --play plays each trial through sounddevice or PsychoPy,
whichever is installed, and waits for a line from the keyboard. Without it no sound card is needed.
"""
import argparse
import csv
import os
import random
import sys
import time
from typing import Any, Callable, Dict, List, Optional, Tuple

from tono.playing import PlayedStimulus
from tono.stimuli import parse_stimulus

BRIGHTNESS = (1.0, 2.5, 4.0, 6.0, 9.0)
TRIALS, BLOCKS = 40, 4
STIMULUS = """
title = "An FM tone of brightness {index} in noise"
rate = 48000
seconds = 1
tempo = 60

[station.tone]
seed = "0000000000005eed"
draw = 0

[station.noise]
seed = "00000000000a51ce"
draw = 0

[[voice]]
station = "tone"
wave = "fm"
knobs = {{ index = {index}, ratio = 2, strike = 0.4 }}
envelope = {{ attack = 0.005, release = 0.05 }}
notes = [[1, 2, "A3", 0.5]]

[[voice]]
station = "noise"
wave = "noise"
envelope = {{ attack = 0.02, release = 0.02 }}
notes = [[0, 4, 1000, 0.1]]
"""


def order_of(number: int) -> List[float]:
    """The brightness of each trial: in each block every one twice, shuffled."""
    shuffled, order = random.Random(number), []
    for _ in range(BLOCKS):
        block = list(BRIGHTNESS) * (TRIALS // BLOCKS // len(BRIGHTNESS))
        shuffled.shuffle(block)
        order += block
    return order


def player() -> Callable[[PlayedStimulus], None]:
    """How a trial is played: by sounddevice, else by PsychoPy."""
    try:
        import sounddevice

        def play(played: PlayedStimulus) -> None:
            sounddevice.play(memoryview(played.channels[0]).cast("B").cast("f"), played.rate, blocking=True)
        return play
    except (ImportError, OSError):
        pass
    try:
        from psychopy import core, sound

        def play_psychopy(played: PlayedStimulus) -> None:
            sound.Sound(played.channels[0].tolist(), sampleRate=played.rate).play()
            core.wait(played.frames / played.rate)
        return play_psychopy
    except ImportError:
        sys.exit("experiment.py: --play needs the package sounddevice or psychopy; without --play the files are written")


def answer_of(play: Callable[[PlayedStimulus], None], played: PlayedStimulus) -> Tuple[str, str]:
    """What is answered to a trial, and the seconds from its end."""
    play(played)
    began = time.monotonic()
    given = input("bright or dull? [b/d] ")
    return given, f"{time.monotonic() - began:.3f}"


def main() -> None:
    parser = argparse.ArgumentParser(description="40 trials, brightness as the factor, noise held.")
    parser.add_argument("folder", metavar="DIR")
    parser.add_argument("--play", action="store_true", help="play each trial and wait for an answer")
    parser.add_argument("--order", type=int, default=1, metavar="N", help="which order of the trials")
    words = parser.parse_args()
    os.makedirs(words.folder, exist_ok=True)
    play: Optional[Callable[[PlayedStimulus], None]] = player() if words.play else None
    made: Dict[float, Any] = {}
    for index in BRIGHTNESS:
        made[index] = parse_stimulus(STIMULUS.format(index=index), "experiment.py").play()
        with open(os.path.join(words.folder, f"brightness-{index:g}.toml"), "w", encoding="utf-8") as file:
            file.write(made[index].stimulus.to_toml())
    citations = {index: played.cite() for index, played in made.items()}
    with open(os.path.join(words.folder, "log.csv"), "w", newline="", encoding="utf-8") as file:
        log = csv.writer(file)
        log.writerow(["trial", "block", "brightness", "file", "answer", "seconds", "citation"])
        for place, index in enumerate(order_of(words.order)):
            name = f"trial-{place + 1:02}.wav"
            made[index].write_wave(os.path.join(words.folder, name))
            answer = answer_of(play, made[index]) if play else ("", "")
            log.writerow([place + 1, place * BLOCKS // TRIALS + 1, index, name, *answer, citations[index]])
            file.flush()
    print(f"{TRIALS} trials in {words.folder}; log.csv has a citation for each")


main()
