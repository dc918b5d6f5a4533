"""A text score as values, and where its notes stand: what explain and plot share.

Arithmetic is that of the scope's modules 4 and 5, rounded to 32 bits after each operation.
"""
import math
import os
import struct
import subprocess
import sys

import single

ROOT = os.path.dirname(os.path.dirname(os.path.abspath(__file__)))
WAVES = dict(enumerate(
    "square triangle sawtooth sine noise fm pluck piano epiano organ strings brass flute mallet bell bass kit cowbell".split()))
# the drum kit's styles
STYLES = "classic acoustic electronic 808".split()
# the drums that all styles have, by the MIDI numbers that pick them; every other number picks a drum without a name
DRUMS = {
    "kick": (35, 36), "rim": (37,), "snare": (38, 40), "clap": (39,), "closed hat": (42, 44), "open hat": (46,),
    "tom": (41, 43, 45, 47, 48, 50), "crash": (49, 55, 57), "ride": (51, 53, 59), "cowbell": (56,),
}
# milliseconds in which a drum draws, by style and name; the others draw in every frame, or never
EARLY = {("classic", "kick"): 2, ("acoustic", "kick"): 18, ("electronic", "kick"): 3, ("808", "kick"): 4, ("808", "rim"): 3}
KNOBS = {
    "fm": "fm_ratio fm_index fm_strike".split(),
    "pluck": "pluck_decay pluck_body pluck_pick pluck_tone".split(),
    "piano": "piano_hammer piano_strike piano_inharm piano_detune piano_decay".split(),
    "bass": "bass_cutoff bass_env bass_env_vel bass_decay bass_click bass_body bass_sub bass_sub_ratio bass_drive "
            "bass_body_decay".split(),
}
# the drawbars of an organ whose line V has none: ratio before level
BARS = "3f800000 3ee66666 40000000 3f800000 40800000 3ee66666 40c00000 3e99999a 41000000 3e6147ae".split()
# the gain of a line N that stops after the pitch: 0.5
SHORT_GAIN = "3f000000"
NAMES = "C C# D D# E F F# G G# A A# B".split()
MASK = 2**64 - 1


class Wrong(Exception):
    """What is wrong, where, and what to do: one line."""


class Score:
    """The fields of a text score; floats as they are written, by their 8 digits."""

    def __init__(self, text):
        rows = [line.split("\t") for line in text.splitlines()]
        s, g, e, v = rows[:4]
        self.rate, self.frames, self.tempo, self.steps, self.swing, self.humanize = (
            int(s[1]), int(s[2]), s[3], int(s[4]), s[5], s[6])
        self.seed, self.draw = g[1], int(g[2])
        self.envelope = e[1:]
        self.place, self.duty = int(v[1]), v[2]
        self.wave = WAVES[self.place]
        self.number = int(v[3]) if self.wave == "kit" else None
        self.style = STYLES[self.number] if self.wave == "kit" else None
        self.voice = f"{self.wave}, {self.style}" if self.style else self.wave
        self.knobs = list(zip(KNOBS.get(self.wave, []), v[3:]))
        self.bars_written = self.wave == "organ" and len(v) > 3
        bars = v[3:] if self.bars_written else BARS
        self.bars = list(zip(bars[::2], bars[1::2])) if self.wave == "organ" else []
        self.notes = [Note(*row[1:]) for row in rows[4:]]


class Note:
    def __init__(self, step, length, pitch, gain=None):
        self.step, self.length, self.pitch = int(step), int(length), pitch
        self.short = gain is None
        self.gain = SHORT_GAIN if self.short else gain


def read(path):
    """The score in a file. Its form is judged by tools/form."""
    form = subprocess.run([os.path.join(ROOT, "tools", "form"), path], capture_output=True, text=True)
    if form.returncode == 2:
        raise Wrong(f"{path} cannot be read; give the path of a text score")
    if form.returncode:
        raise Wrong(f"{path} {form.stdout.strip()}")
    with open(path, encoding="ascii") as file:
        return Score(file.read())


def round32(x):
    try:
        return struct.unpack("f", struct.pack("f", x))[0]
    except OverflowError:
        return math.copysign(math.inf, x)


def bi_of(state):
    """SplitMix64's next state and its draw between -1 and 1."""
    state = (state + 0x9E3779B97F4A7C15) & MASK
    z = (state ^ state >> 30) * 0xBF58476D1CE4E5B9 & MASK
    z = (z ^ z >> 27) * 0x94D049BB133111EB & MASK
    return state, ((z ^ z >> 31) >> 40) / 2**23 - 1


def step_frames(score):
    """Frames a step; nothing where rate, tempo or steps are refused anyway."""
    tempo = single.value(score.tempo)
    if not (score.rate > 0 and 1 <= tempo <= 1000 and score.steps > 0):
        return None
    return round32(round32(round32(score.rate * 60.0) / tempo) / score.steps)


def human_delay(score, note, step):
    humanize = single.value(score.humanize)
    if not humanize > 0:
        return 0.0
    pitch = int(note.pitch, 16)
    seed = note.step << 32 ^ note.length << 8 ^ 0x6A09E667 ^ (pitch << 17)
    _, draw = bi_of(seed & MASK)
    return round32(round32(round32(humanize * round32(0.12)) * step) * draw)


def place_of(score, note):
    """The frame at which a note starts, and how many of its frames sound; nothing where it is skipped."""
    step = step_frames(score)
    if step is None:
        return None
    swing = single.value(score.swing)
    delay = round32(round32(swing * 0.5) * step) if note.step % 2 else 0.0
    at = round32(round32(round32(note.step) * step) + delay)
    at = round32(at + human_delay(score, note, step))
    if not at < score.frames:
        return None
    start = int(max(at, 0.0))
    length = max(1, int(min(round32(round32(note.length) * step), score.frames)))
    return start, min(score.frames - start, length)


def midi_of(pitch):
    """The MIDI number that a pitch rounds to, at least that of 8 Hz: it picks the drum of a kit."""
    octaves = round32(round32(math.log(round32(max(pitch, 8.0) / 440))) / round32(math.log(2)))
    return math.floor(round32(69 + round32(12 * octaves)) + 0.5)


def drum_of(midi):
    return next((name for name, numbers in DRUMS.items() if midi in numbers), "any other")


def hit_draws(score, note, sounded):
    """How many draws a drum makes, of its style, rate and sounded frames."""
    drum = drum_of(midi_of(single.value(note.pitch)))
    if (score.style, drum) in EARLY:
        return min(sounded, (EARLY[score.style, drum] * score.rate + 999) // 1000)
    silent = drum == "cowbell" or score.style == "808" and drum in ("closed hat", "open hat", "tom")
    return 0 if silent else sounded


def draws_of(score, note, sounded):
    """How many draws a note makes, of its wave, style, rate, pitch and sounded frames."""
    if score.wave == "kit":
        return hit_draws(score, note, sounded)
    if score.wave in ("noise", "flute"):
        return sounded
    if score.wave == "piano":
        return min(sounded, (3 * score.rate + 499) // 500)
    if score.wave == "pluck":
        low = min(max(single.value(note.pitch), 20.0), score.rate / 2)
        return max(2, math.floor(round32(score.rate / low) + 0.5))
    return 0


def note_name(hertz):
    """The nearest note of equal temperament at A4 = 440 Hz, and by how many cents the pitch is off."""
    if not (math.isfinite(hertz) and hertz > 0):
        return ""
    key = 69 + 12 * math.log2(hertz / 440)
    nearest = math.floor(key + 0.5)
    cents = round(100 * (key - nearest))
    name = NAMES[nearest % 12] + str(nearest // 12 - 1)
    return f"{name} {cents:+d} cents" if cents else name


def name_of(score, hertz):
    """What a pitch stands for: the drum that it picks of a kit, else the nearest note."""
    if score.wave != "kit":
        return note_name(hertz)
    midi = midi_of(hertz)
    return f"{midi}, {drum_of(midi)}"


def listing(path):
    """The listing of a score, by ./play or what PLAY names."""
    command = os.environ.get("PLAY", os.path.join(ROOT, "play"))
    try:
        run = subprocess.run([command, path], stdout=subprocess.PIPE, text=True)
    except OSError as error:
        raise Wrong(f"{command} cannot be started: {error.strerror}; set PLAY to the path of play") from error
    if run.returncode:
        raise Wrong(f"{path} was not played, status {run.returncode}; ./play {path} says why")
    rows = [line.split("\t") for line in run.stdout.splitlines()]
    return int(rows[0][2]), [single.value(row[2]) for row in rows[1:]]


def run(name, main):
    """Runs a tool; whatever is wrong is one line on standard error, and status 2."""
    try:
        main(sys.argv[1:])
    except Wrong as wrong:
        print(f"{name}: {wrong}", file=sys.stderr)
        sys.exit(2)
    except BrokenPipeError:
        os.dup2(os.open(os.devnull, os.O_WRONLY), sys.stdout.fileno())
        sys.exit(2)
