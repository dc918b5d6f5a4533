"""Stimulus files and what is made of them, held to the proved calls: decimals, pitches, sheets, mixes, WAVE headers, the form of a
text score as tools/form has it, and what is said of each mistake. The last line is 'N passed, M failed'."""
import array
import glob
import multiprocessing
import os
import random
import re
import struct
import subprocess
import sys
import tempfile
from decimal import Decimal
from fractions import Fraction
from typing import Any, List, Tuple

import tono
from python_cases import expect, finish, raised
from tono import decimals, pitches
from tono.forms import Given, kind_of, read_given, stimulus_of, text_of
from tono.playing import added, plan_stimulus
from tono.stimuli import parse_stimulus
from tono.stimulus_fields import StimulusError
from tono.textscores import form_fault, read_text
from tono.timing import note_rows, sheet_lines
from tono.wavefiles import channel_bytes

ROOT = os.path.dirname(os.path.dirname(os.path.abspath(__file__)))
STIMULI = sorted(glob.glob(os.path.join(ROOT, "examples", "stimuli", "*.toml")))
SCORES = sorted(glob.glob(os.path.join(ROOT, "examples", "*.score")))
FIRST = open(os.path.join(ROOT, "examples", "stimuli", "first.toml"), encoding="utf-8").read()
GLIDE = """rate = 8000
frames = 400
seed = 1
[curve.glide]
hop = 64
hertz = [
  220, 221.5,
  223
]
[[voice]]
wave = "sine"
tempo = 480
notes = [[0, 0, "glide"]]
"""


# ---- mistakes: the file with something changed, the line and the words that are said of it

MISTAKES: List[Tuple[str, str, str, int, str]] = [
    (FIRST, "rate = 48000\n", "", 1, "the stimulus has no rate; add rate = 48000"),
    (FIRST, "rate = 48000", "rate = 7999", 1, "refused with 1: the rate is not from 8,000 to 192,000: rate is 7999; choose a rate in that range"),
    (FIRST, "rate = 48000", "rate = 48000.0", 1, "rate is 48000.0; expected a whole number from 0 to 4294967295"),
    (FIRST, "seconds = 2", "secnds = 2", 1, "the stimulus has neither frames nor seconds; write one of them, as seconds = 2"),
    (FIRST, "seconds = 2", "seconds = 2\nframes = 1", 3, "the stimulus has both frames and seconds; write one of them, as seconds = 2"),
    (FIRST, "seconds = 2", "seconds = -2", 2, "seconds is -2; expected a number of seconds, as 2 or 0.25"),
    (FIRST, "seconds = 2", "seconds = 400", 2, "refused with 2: there are more than 16,777,216 frames: 19200000 frames; render in parts"),
    (FIRST, 'seed = "0000000000005eed"\n', "", 1, 'the stimulus has no seed; add seed = "0000000000005eed"'),
    (FIRST, '"0000000000005eed"', '"5eed"', 3, 'seed is "5eed"; expected 16 hexadecimal digits as a citation has them, or 0x5eed'),
    (FIRST, "draw = 0", "draw = -1", 4, "draw is -1; expected a whole number from 0 to 18446744073709551615"),
    (FIRST, "tempo = 120", "tmpo = 120", 5, "the stimulus has no key tmpo; did you mean 'tempo'?"),
    (FIRST, "tempo = 120", "tempo = 0.5", 5, "refused with 3: the tempo is not from 1 to 1,000 beats a minute: tempo is 0.5; choose a tempo in that range"),
    (FIRST, "tempo = 120", 'tempo = "fast"', 5, 'tempo is "fast"; expected a number, as 0.5'),
    (FIRST, "tempo = 120", "tempo = 120\nswing = 2", 6, "refused with 5: swing or humanize is not from 0 to 1: swing is 2; choose a value in that range"),
    (FIRST, "tempo = 120", 'tempo_points = [\n  [0, 120],\n  ["7 halves", 90],\n]', 7, 'the beat is "7 halves"; expected 7, 7.5, "15/2" or "7 1/2"'),
    (FIRST, "tempo = 120", "tempo_points = [[0, 120],\n  [0, 90]]", 6, "refused with 32: "),
    (FIRST, "tempo = 120", "tempo_points = [[0.1234567890123, 90]]", 5, "the beat 0.1234567890123 is "),
    (FIRST, "[[voice]]", "[voice]", 7, "voice is one table; write its head as [[voice]], with two brackets"),
    (FIRST, "[[voice]]", "[[voices]]", 1, "the stimulus has no voice; add voice = ..: a table [[voice]] for each voice"),
    (FIRST, '"piano"', '"paino"', 8, "wave is \"paino\"; expected one of square, triangle, "),
    (FIRST, '"piano"', '"paino"', 8, "did you mean 'piano'?"),
    (FIRST, 'wave = "piano"\n', "", 7, 'voice 1 has no wave; add wave = "piano"'),
    (FIRST, "hammer", "hamer", 9, "hamer is no knob of piano; did you mean 'hammer'?"),
    (FIRST, "1.5", '"1.5"', 9, 'hammer is "1.5"; expected a number, as 0.5'),
    (FIRST, "1.5", "inf", 9, "refused with 6: a knob, a drawbar's number, the duty or an envelope number is not sized: piano_hammer is inf; "),
    (FIRST, '"E4"', '"H4"', 10, "the pitch of note 2: 'H4' is neither a note as 'A4' or 'A4 +50c', a quarter tone as 'q138', nor a curve of this file"),
    (FIRST, '"E4"', '"e4"', 10, "'e4' is written with a capital letter: did you mean 'E4'?"),
    (FIRST, '"E4"', '"q256"', 10, "'q256' is above q255, which is G9 +50 cents"),
    (FIRST, '"E4"', '"kick"', 10, "'kick' is a drum, and this voice is no kit; write hertz, a note as 'A4', or wave = \"kit\""),
    (FIRST, '"E4"', "true", 10, "the pitch of note 2 is true; expected hertz, or a text as \"A4\", \"q138\" or a curve's name"),
    (FIRST, '"E4"', "70000", 10, "refused with 10: a gain or a pitch is not sized: notes[1], pitch 70000; use finite numbers of magnitude at most 65,536"),
    (FIRST, '[4, 4, "E4", 0.5]', "[4, 4]", 10, "note 2 is an array of 2; expected [step, length, pitch, gain], where gain may be left out"),
    (FIRST, '[4, 4, "E4", 0.5]', '[4.5, 4, "E4"]', 10, "the step of note 2 is 4.5; expected a whole number from 0 to 4294967295"),
    (FIRST, '[4, 4, "E4", 0.5]', '[1048576, 4, "E4"]', 10, "refused with 9: a note's step or length is above 1,048,575: notes[1], step 1048576; "),
    (FIRST, '[4, 4, "E4", 0.5]', '{ step = 1, length = 1, pich = 4 }', 10, "note 2 has no key pich; expected { step = 0, "),
    (FIRST, '[4, 4, "E4", 0.5]', '[4, 4, "E4", "loud"]', 10, 'the gain of note 2 is "loud"; expected a number, as 0.5'),
    (FIRST, "notes =", "nots =", 7, 'voice 1 has no notes; add notes = [[0, 4, "A4", 0.5]]: step, length, pitch, gain'),
    (FIRST, "knobs = { hammer = 1.5 }", "envelope = { atack = 1 }", 9, "the envelope has no key atack; did you mean 'attack'?"),
    (FIRST, "knobs = { hammer = 1.5 }", "drawbars = [[1, 2]]", 9, "drawbars has 1 bars; expected five, each [ratio, level]; one that is not drawn has level 0"),
    (FIRST, "knobs = { hammer = 1.5 }", 'style = "jazz"', 9, 'style is "jazz"; expected one of classic, acoustic, electronic, 808'),
    (FIRST, "knobs = { hammer = 1.5 }", 'station = "left"', 9, 'station is "left"; expected one of main'),
    (FIRST, "tempo = 120", 'channels = "stereo"', 5, 'channels is "stereo"; expected one of mono, stations'),
    (FIRST, "tempo = 120", "form = 2", 5, "form is 2; this version of tono reads form 1"),
    (FIRST, "tempo = 120", "tempo = 1 2 0", 5, "this is no TOML: "),
    (FIRST, "tempo = 120", "tempo = ", 5, "this is no TOML: "),
    (FIRST, "tempo = 120\n", "tempo = 120\n[station.a]\nseed = 1\n", 3, "the stimulus has stations, so that seed stands in each of them and not here"),
    (GLIDE, "221.5", '"high"', 7, 'hertz[1] is "high"; expected a number of hertz'),
    (GLIDE, "  223\n", "  nan\n", 8, "refused with 11: a value of the lane is not sized: lane[2] is nan; "),
    (GLIDE, '[0, 0, "glide"]', '[0, 0, "glid"]', 13, "nor a curve of this file; did you mean 'glide'?"),
    (GLIDE, '[0, 0, "glide"]', '[0, 9, "glide"]', 13, "refused with 12: a curve passes the end of its lane: notes[0], a curve from place 0, step 0, length 9; "),
    (GLIDE, "hop = 64", "", 4, "curve glide has no hop; add hop = 64, the frames that a value holds for"),
    (GLIDE, "hop = 64", "hop = 5000", 10, "refused with 35: "),
    (GLIDE, "[curve.glide]", "[curve.A4]", 4, "'A4' names a pitch, so that no curve can have that name; choose another one"),
    (GLIDE, "hop = 64\n", "hop = 64\ncsv = 'x.csv'\n", 4, "curve glide has both hertz and csv; write one of them"),
    (GLIDE.replace("hertz = [\n  220, 221.5,\n  223\n]", "csv = 'no.csv'"), "", "", 6, "no.csv cannot be read: No such file or directory; the path is taken from the stimulus file's folder"),
]


def mistakes() -> None:
    for text, old, new, line, said in MISTAKES:
        broken = text.replace(old, new, 1) if old else text
        error = raised(lambda: parse_stimulus(broken, "x.toml"), StimulusError)
        message = str(error)
        expect(f"{new!r} for {old!r}", message.startswith(f"x.toml:{line}: ") and said in message and "\n" not in message, message)
    error = raised(lambda: parse_stimulus(b"rate = 1\n\xff", "x.toml"), StimulusError)
    expect("no UTF-8", str(error) == "x.toml:2: a byte is no UTF-8; save the file as UTF-8", str(error))
    for cells, column, line, said in (
            ("time,f0\n0,220\n1,\n", "f0", 3, "column 2 is empty"), ("time,f0\n0,220\n1,x\n", "f0", 3, "column 2 has 'x'"),
            ("time,f0\n0,220\n", "fo", 1, "did you mean 'f0'?"), ("220\n221\n", 2, 1, "there is no column 2; expected a number from 1 to 1"), ("", None, 1, "no number")):
        with tempfile.TemporaryDirectory() as folder:
            with open(os.path.join(folder, "x.csv"), "w", encoding="utf-8") as file:
                file.write(cells)
            key = "" if column is None else f"column = {column if isinstance(column, int) else repr(column)}\n"
            text = GLIDE.replace("hertz = [\n  220, 221.5,\n  223\n]", f"csv = 'x.csv'\n{key}")
            message = str(raised(lambda: parse_stimulus(text, "x.toml", folder), StimulusError))
            expect(f"a CSV file of {cells!r}", f"x.csv:{line}: " in message and said in message, message)


# ---- each step in Python, held to the proved call or to whole numbers

def steps() -> None:
    random.seed(2)
    for _ in range(20000):
        bits = random.getrandbits(32)
        x = struct.unpack("<f", struct.pack("<I", bits))[0]
        if x == x and abs(x) != float("inf") and (decimals.narrow(decimals.decimal_text(x)) != x or decimals.narrow(Decimal(x)) != x):
            return void("a float's decimal", x)
    wrong = 0
    for _ in range(2000):
        low = random.getrandbits(31) % 0x7F7FFFFF
        a, b = (Fraction(struct.unpack("<f", struct.pack("<I", low + k))[0]) for k in (0, 1))
        middle = (a + b) / 2
        # midpoints of two floats, and a little beside them: further than a 64-bit float can tell
        for value, wanted in ((middle, low if low % 2 == 0 else low + 1), (middle + middle / 10**25, low + 1), (middle - middle / 10**25, low)):
            text = decimal_digits(value)
            wrong += struct.pack("<f", decimals.narrow(text)) != struct.pack("<I", wanted)
    expect("decimals beside midpoints are rounded once", wrong == 0, str(wrong))
    with open(os.path.join(ROOT, "crates", "quarter_tones", "stdout"), encoding="ascii") as file:
        table = file.read().split()
    expect("quarter tones are those of the table", [f"{pitches.quarter_tone_bits(q):08x}" for q in range(256)] == table)
    expect("notes with 0 and 50 cents are the table's", all(
        pitches.hertz_of(q // 2, Decimal(50 * (q % 2))) == pitches.quarter_tone(q) for q in range(256)))
    wrong = 0
    for cents in (-1100, -49, -13, 1, 7, 33, 99, 1201):
        hertz, key = pitches.hertz_of(69, Decimal(cents)), struct.unpack("<I", struct.pack("<f", pitches.hertz_of(69, Decimal(cents))))[0]
        below, above = ((Fraction(hertz) + Fraction(struct.unpack("<f", struct.pack("<I", key + k))[0])) / 2 for k in (-1, 1))
        # between its midpoints, to the 1200th power: 440^1200 * 2^cents, in whole numbers
        power = Fraction(440) ** 1200 * Fraction(2) ** cents
        wrong += not below**1200 < power < above**1200
    expect("cents by 1200th powers", wrong == 0)
    mixes()


def decimal_digits(value: Fraction) -> str:
    """A fraction whose denominator is of twos and fives, or one cut after 60 digits more, as a decimal."""
    digits = 260
    scaled = value * 10**digits
    return f"{scaled.numerator // scaled.denominator}e-{digits}"


def void(name: str, x: Any) -> None:
    expect(name, False, repr(x))


def mixes() -> None:
    """Sums are those of 32-bit floats: of whole numbers and by fractions."""
    random.seed(3)
    a, b = (array.array("f", [struct.unpack("<f", struct.pack("<I", random.getrandbits(31) % 0x7F000000))[0] for _ in range(3000)]) for _ in range(2))
    wanted = [decimals.rounded(Fraction(x) + Fraction(y)) for x, y in zip(a, b)]
    got = array.array("I", added([a, b], len(a)).tobytes())
    expect("3,000 sums are rounded once", list(got) == wanted)
    expect("no voice is silence", added([], 3).tobytes() == bytes(12))
    frames = array.array("f", [0.25, -1.0, 0.5])
    expect("a file of one channel is the proved call's", channel_bytes(48000, [frames]) == bytes(tono.wave_bytes(48000, frames)))
    two = channel_bytes(48000, [frames, array.array("f", [1.0, 2.0, 3.0])])
    head = struct.unpack_from("<4sI4s4sIHHIIHHH4sII4sI", two)
    expect("a file of two channels", head == (b"RIFF", len(two) - 8, b"WAVE", b"fmt ", 18, 3, 2, 48000, 384000, 8, 32, 0, b"fact", 4, 3, b"data", 24)
           and list(struct.unpack_from("<6f", two, 58)) == [0.25, 1.0, -1.0, 2.0, 0.5, 3.0], str(head))


def sheets() -> None:
    """The cue sheet's numbers by the planning call are those of the proved sheet."""
    for path in SCORES:
        data = open(path, "rb").read()
        score = read_text(data)
        rows = note_rows(score.seq, score.words, score.frames, (), score.draw)
        lines = sheet_lines(rows, tono.WAVES[score.seq.wave])
        expect(f"the sheet of {os.path.basename(path)}", "".join(line + "\n" for line in lines) == tono.cue_sheet(data).replace("\f", ""))
        stimulus = stimulus_of(read_given(path))
        expect("a text score as a stimulus file, and back", text_of(parse_stimulus(stimulus.to_toml())) == data)
        played = stimulus.play()
        expect("it plays the same", played.channels[0].tobytes() == tono.play_text(data).frames.tobytes())


def forms() -> None:
    """What is said of a broken text score is what tools/form says."""
    random.seed(4)
    base = [open(path, "rb").read() for path in SCORES[:6]]
    wrong = []
    with tempfile.TemporaryDirectory() as folder:
        for place in range(60):
            data = bytearray(random.choice(base))
            for _ in range(random.randint(1, 2)):
                at = random.randrange(len(data))
                change = random.choice([b"", b"\t", b" ", b"\n", b"0", b"F", b"9", b"\r", b"x", b"-"])
                data[at:at + random.randint(0, 2)] = change
            path = os.path.join(folder, "x.score")
            with open(path, "wb") as file:
                file.write(data)
            said = subprocess.run([os.path.join(ROOT, "tools", "form"), path], stdout=subprocess.PIPE, check=False).stdout.decode().strip()
            own = (form_fault(bytes(data)) or "").replace("tono bits writes them", "tools/bits writes them")
            if said != own:
                wrong.append((said, own))
    expect("60 broken text scores", wrong == [], str(wrong[:2]))


def examples() -> None:
    for path in STIMULI:
        stimulus = tono.read_stimulus(path)
        played, whole = stimulus.play(), stimulus.to_toml()
        citation = played.cite()
        expect(f"{os.path.basename(path)} replays", tono.replay(citation, whole.encode()) == (True, ()))
        expect("its whole form is itself", parse_stimulus(whole).to_toml() == whole)
        expect("its plan is what is drawn", stimulus.plan() == [one.draws for one in played.voices])
        rows = [note_rows(voice.seq, voice.notes, stimulus.frames, stimulus.lane(voice), planned.before)
                for voice, planned in zip(stimulus.voices, plan_stimulus(stimulus))]
        expect("each note sounds, and the draws add up", all(row.start is not None for one in rows for row in one)
               and [sum(row.draws for row in one) for one in rows] == stimulus.plan())
    expect("there are ten", len(STIMULI) == 10)
    expect("the kinds of files", [kind_of(b"S\t8000"), kind_of(b"tono input 1\n"), kind_of(b"rate = 1"), kind_of(b"x", "a.toml")]
           == ["text score", "input", "stimulus file", "stimulus file"])
    error = raised(lambda: stimulus_of(Given("x.input", "x", b"tono input 1\n", "input")), ValueError)
    expect("an input without a seed", "--seed 0000000000005eed --draw 0" in str(error), str(error))


def square(seed: int) -> Any:
    return tono.render(tono.Session(seed), tono.Seq(wave="noise"), [tono.Note(0, 1, 440.0)], 100)


def pools() -> None:
    with multiprocessing.Pool(2) as pool:
        there = pool.map(square, range(4))
    expect("results from other processes", [one.cite() for one in there] == [square(k).cite() for k in range(4)])


def modules() -> None:
    """A module has at most 500 lines and says what it is for; nothing is imported but the standard library and the package."""
    for path in sorted(glob.glob(os.path.join(ROOT, "python", "tono", "*.py"))):
        with open(path, encoding="utf-8") as file:
            text = file.read()
        expect(f"{os.path.basename(path)} has at most 500 lines and a purpose", text.count("\n") <= 500 and text.startswith('"""'), str(text.count("\n")))
        names = {name.split(".")[0] for name in re.findall(r"^\s*(?:import|from) ([a-z_][\w.]*)", text, re.M)}
        outside = names - set(sys.stdlib_module_names) - {"tono", "tomli"} if hasattr(sys, "stdlib_module_names") else set()
        expect("and needs no package", outside == set(), str(outside))
    with open(os.path.join(ROOT, "README.md"), encoding="utf-8") as file:
        readme = file.read()
    expect("README's first screen has first.toml", "".join("    " + line + "\n" if line else "\n" for line in FIRST.splitlines()) in readme[:6000])


for part in (mistakes, steps, sheets, forms, examples, pools, modules):
    part()
finish()
