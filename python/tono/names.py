"""Names and numbers that the library has: version, waves, styles, knobs, drawbars, limits, and why a call is refused."""
from __future__ import annotations

from typing import Any, Sequence, Union

#: The version of this package, and of the library that it calls.
VERSION = "2.2.0"

#: The waves, in the order of their numbers.
WAVES = ("square", "triangle", "sawtooth", "sine", "noise", "fm", "pluck", "piano", "epiano", "organ",
         "strings", "brass", "flute", "mallet", "bell", "bass", "kit", "cowbell")
#: The drum kit's styles, in the order of their numbers.
STYLES = ("classic", "acoustic", "electronic", "808")
#: The knobs in the library's order, each with its usual value.
KNOBS = {
    "fm_ratio": 1.0, "fm_index": 5.0, "fm_strike": 0.2,
    "pluck_decay": 0.996, "pluck_body": 0.0, "pluck_pick": 0.0, "pluck_tone": 0.0,
    "piano_hammer": 1.0, "piano_strike": 0.125, "piano_inharm": 1.0, "piano_detune": 1.0, "piano_decay": 1.0,
    "bass_cutoff": 250.0, "bass_env": 700.0, "bass_env_vel": 1100.0, "bass_decay": 0.15, "bass_click": 0.0,
    "bass_body": 0.7, "bass_sub": 0.45, "bass_sub_ratio": 1.0, "bass_drive": 0.0, "bass_body_decay": 2.0,
}
#: The organ's usual drawbars: ratio 1, level 1, .. ratio 5, level 5.
BARS = (1.0, 0.45, 2.0, 1.0, 4.0, 0.45, 6.0, 0.3, 8.0, 0.22)
#: How many stations a session has, each with a seed and a draw count of its own.
STATIONS = 8
#: The most frames that one call renders.
FRAMES_MOST = 16_777_216
#: How many values the string buffer of a call has at least.
STRING_LENGTH = 9600
#: The length in bytes of the longest listing, and of the longest cue sheet.
LISTING_MOST = 32808
CUE_SHEET_MOST = 18692
#: How many bytes of a WAVE file stand before its samples.
WAVE_HEADER = 58
#: The kinds of a note's pitch: a number of hertz, a curve in the lane, a quarter tone.
NUMBER, CURVE, QUARTER_TONE = 0, 1, 2

#: Why a call is refused, by number.
REASONS = {
    1: "the rate is not from 8,000 to 192,000",
    2: "there are more than 16,777,216 frames",
    3: "the tempo is not from 1 to 1,000 beats a minute",
    4: "the steps per beat are not from 1 to 64",
    5: "swing or humanize is not from 0 to 1",
    6: "a knob, a drawbar's number, the duty or an envelope number is not sized",
    7: "the number of note words is not a multiple of five",
    8: "a note's kind is none of 0 (a number), 1 (a curve) and 2 (a quarter tone)",
    9: "a note's step or length is above 1,048,575",
    10: "a gain or a pitch is not sized",
    11: "a value of the lane is not sized",
    12: "a curve passes the end of its lane",
    13: "the pitch is empty",
    14: "pitch, duty and output differ in length",
    15: "a line does not have its form, or a line is missing or one too many",
    16: "there are more than 65,536 bytes, 2,048 frames or 256 notes",
    20: "the note buffer is shorter than the output",
    21: "the string buffer is shorter than 9,600 values",
    22: "the draw count would pass 2^64 - 1",
    23: "the reply, file or sample buffer is too short for what is written to it",
    30: "a quarter tone's number is above 255",
    31: "there are more than 64 tempo points, or one has a zero denominator, a numerator beyond "
        "1,000,000,000 or a tempo not from 1 to 1,000",
    32: "the first tempo point is not at beat 0, or a point's beat is not after the one before it",
    33: "the station is above 7",
    34: "the page buffer is shorter than the cue sheet",
    35: "the hop is not from 1 to 4,096",
    36: "the file's tag, channel count or sample width is not 3, 1 and 32",
    37: "the file's chunks are not those of a WAVE file of this form",
}

#: What to do about it, by number: as tools/refusals.tsv has it, without what concerns text scores alone.
CURES = {
    1: "choose a rate in that range",
    2: "render in parts",
    3: "choose a tempo in that range",
    4: "choose a number in that range",
    5: "choose a value in that range",
    6: "use finite numbers of magnitude at most 65,536",
    7: "pass five words for each note",
    8: "write 0, 1 or 2",
    9: "use smaller numbers, or fewer steps per beat",
    10: "use finite numbers of magnitude at most 65,536",
    11: "check the whole lane: values that no note reads count too",
    12: "lengthen the lane or shorten the note",
    13: "pass at least one frame",
    14: "make the three equally long",
    15: "look for spaces instead of tabs, a missing last newline, uppercase digits, leading zeros, the wrong "
        "number of knobs or drawbars, or a drum kit without its style",
    16: "split the score, or use the library for a longer one",
    20: "lend a note buffer as long as the output",
    21: "lend at least 9,600 values",
    22: "start at a smaller draw",
    23: "pass a longer one: a listing has at most 32,808 bytes, a file 58 and 4 for each sample",
    30: "write a number from 0 to 255",
    31: "check each point, as it was written and not in lowest terms",
    32: "put the first point at beat 0 and the others in rising order",
    33: "name a station from 0 to 7",
    34: "pass a longer one: a cue sheet has at most 18,692 bytes",
    35: "choose a number in that range; 1 is a value in each frame",
    36: "convert the file to mono and 32-bit float, as with SoX",
    37: "write the file anew, as with SoX",
}

#: An object with the buffer protocol; help(tono) says of which items.
Buffer = Any
#: What a call only reads: a buffer, or numbers that are copied into one.
Values = Union[Buffer, Sequence[float]]


def knobs_of(wave: str) -> Sequence[str]:
    """The names of a wave's own knobs."""
    return [name for name in KNOBS if name.startswith(wave + "_")]
