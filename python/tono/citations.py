"""Citations: the line that a paper prints, and whether an input is what a line cites."""
from __future__ import annotations

import array
import hashlib
import re
from typing import Any, Dict, NamedTuple, Optional, Tuple

from .errors import Refused
from .inputs import Score
from .lending import bytes_of
from .names import KNOBS, STATIONS, STYLES, VERSION, WAVES, Buffer, knobs_of
from .session import Session
from .singles import decimal_of, whole
from .textscores import read_text
from .texts import play_text
from .values import Seq
from .wavefiles import canonical, file_sum, wave_bytes


class Played(NamedTuple):
    """An input that was played, with what a citation says of it."""
    data: bytes
    seq: Seq
    frames: "array.array[float]"
    seed: int
    station: int
    before: int
    after: int


def is_input(data: bytes) -> bool:
    """Whether these bytes are of the form `tono input 1`, or of a later one."""
    return data.startswith(b"tono input ")


def play_input(data: Buffer, seed: Optional[int], draw: Optional[int], station: Optional[int]) -> Played:
    """Plays a text score on its own seed and draw, or an input on those that are given."""
    given = bytes(bytes_of("data", data))
    if is_input(given):
        score, place = Score.from_bytes(given), whole("station", station or 0)
        if place >= STATIONS:
            raise Refused(33, f"station {place}")
        if seed is None or draw is None:
            raise ValueError("an input says neither seed nor draw: give both as its citation has them (--seed 0000000000005eed "
                             "--draw 0, or seed=0x5eed, draw=0)")
        session = Session()
        session.open(place, seed, draw)
        played = score.play(session, place)
        seq = score.seq
    else:
        played = play_text(given)
        seq = read_text(given).seq
        for name, asked, own in (("seed", seed, played.seed), ("draw", draw, played.draw_before),
                                 ("station", station, 0)):
            if asked is not None and asked != own:
                raise ValueError(f"a text score plays at {name} {own} of its own, not at {asked}")
    return Played(given, seq, played.frames, played.seed, played.station, played.draw_before, played.draw_after)


def voice_words(seq: Seq) -> Dict[str, str]:
    """What a citation says of a voice."""
    wave = WAVES[seq.wave]
    words = {"wave": wave}
    if wave == "square":
        words["duty"] = decimal_of(seq.duty)
    if wave == "kit":
        words["style"] = STYLES[seq.style]
    if wave == "organ":
        words["bars"] = ",".join(f"{decimal_of(r)}x{decimal_of(v)}" for r, v in zip(seq.bars[::2], seq.bars[1::2]))
    words.update({name: decimal_of(dict(zip(KNOBS, seq.knobs))[name]) for name in knobs_of(wave)})
    return words


def citation_words(played: Played) -> Dict[str, str]:
    """The words of a citation by their names."""
    return {
        "tono": VERSION, "seed": f"{played.seed:016x}", "station": str(played.station),
        "draw-before": str(played.before), "draw-after": str(played.after), **voice_words(played.seq),
        "rate": str(played.seq.rate), "frames": str(len(played.frames)),
        "input-sha256": hashlib.sha256(played.data).hexdigest(),
        "file-sha256": file_sum(played.seq.rate, played.frames),
    }


def citation_of(played: Played) -> str:
    """The citation of an input that was played."""
    words = citation_words(played)
    return " ".join([f"tono {words.pop('tono')}", *(f"{name}={value}" for name, value in words.items())])


def cite(data: Buffer, *, seed: Optional[int] = None, draw: Optional[int] = None,
         station: Optional[int] = None) -> str:
    """Plays an input and gives its citation: one line to print in a paper.

    data: the bytes of a text score, or what Score.to_bytes wrote
    seed, draw, station: where it plays; an input needs seed and draw, and plays on station 0 if none is given; a text
        score says seed and draw itself

    The line has these words, with a blank between them:

        tono VERSION                the library
        seed=S                      16 hexadecimal digits
        station=K  draw-before=D  draw-after=D
                                    the station, and its draw count before the score and after it
        wave=NAME                   then the wave's own knobs by name; of the square its duty, of the drum kit
                                    its style, of the organ its drawbars, ratio x level
        rate=R  frames=N            frames a second, and how many
        input-sha256=..             the SHA-256 of `data`
        file-sha256=..              the SHA-256 of the WAVE file of the frames, as write_wave and ./wave write it;
                                    a NaN is written as 7fc00000

    Publish the line and `data`. Whoever has both can replay the stimulus (`replay`).
    """
    return citation_of(play_input(data, seed, draw, station))


class Replayed(NamedTuple):
    """What came of a citation that was replayed.

    same: whether input and sound are those that are cited
    differences: a line for each word of the citation that is another one here; the version may be another
        one where the sound is the same
    """
    same: bool
    differences: Tuple[str, ...]


def _compared(cited: Dict[str, str], here: Dict[str, str]) -> Replayed:
    differences = tuple(f"{name} is {here.get(name, 'not there')} here, and {cited.get(name, 'not there')} is cited"
                        for name in {**here, **cited} if here.get(name) != cited.get(name))
    return Replayed(all(line.startswith("tono is ") for line in differences), differences)


def replay(citation: str, data: Buffer) -> Replayed:
    """Plays an input from the seed, draw and station that a citation names, and holds it to the citation. A stimulus file is
    held to it by its whole form. A line break in the citation counts as a blank. Refused raises if the score is refused here."""
    return replay_played(citation, data)[0]


def replay_played(citation: str, data: Buffer, name: str = "the stimulus", folder: str = "") -> Tuple[Replayed, Any]:
    """What `replay` gives, and the WAVE file's bytes where the input is the one that is cited."""
    from .forms import STIMULUS, kind_of
    cited, given = cited_words(citation), bytes(bytes_of("data", data))
    if kind_of(given, name) == STIMULUS:
        return _replayed_stimulus(cited, given, name, folder)
    found = hashlib.sha256(given).hexdigest()
    if found != cited["input-sha256"] or "seed" not in cited:
        return _another(found, cited), None
    seed, draw, station = int(cited["seed"], 16), int(cited["draw-before"]), int(cited["station"])
    try:
        played = play_input(given, seed, draw, station)
    except ValueError as error:
        return Replayed(False, (str(error),)), None
    return _compared(cited, citation_words(played)), bytes(wave_bytes(played.seq.rate, canonical(played.frames)))


def _another(found: str, cited: Dict[str, str]) -> Replayed:
    return Replayed(False, (f"this is another input: its SHA-256 is {found}, and {cited['input-sha256']} is cited",))


def _replayed_stimulus(cited: Dict[str, str], given: bytes, name: str, folder: str) -> Tuple[Replayed, Any]:
    from .playing import citation_words_of
    from .stimuli import parse_stimulus
    stimulus = parse_stimulus(given, name, folder)
    whole = hashlib.sha256(stimulus.to_toml().encode()).hexdigest()
    if whole != cited["input-sha256"]:
        return _another(whole, cited), None
    played = stimulus.play()
    return _compared(cited, citation_words_of(played)), played.wave_bytes()


_NEEDED = {"tono": r"[0-9.]+", "input-sha256": "[0-9a-f]{64}", "file-sha256": "[0-9a-f]{64}"}
_PLACE = {"seed": "[0-9a-f]{16}", "station": "[0-7]", "draw-before": "[0-9]{1,20}"}
_STATIONS = {"stations": r"[0-7]:[0-9a-f]{16}:[0-9]{1,20}-[0-9]{1,20}(,[0-7]:[0-9a-f]{16}:[0-9]{1,20}-[0-9]{1,20})*"}


def cited_words(citation: str) -> Dict[str, str]:
    """The words of a citation by their names. A ValueError says what is missing."""
    words = citation.split()
    if len(words) < 2 or words[0] != "tono":
        raise ValueError("a citation begins with the word tono and a version")
    cited = {"tono": words[1]}
    for word in words[2:]:
        name, equals, value = word.partition("=")
        if not equals or name in cited:
            raise ValueError(f"{word!r} in the citation is not of the form name=value, or the name stands twice")
        cited[name] = value
    for name, form in {**_NEEDED, **(_STATIONS if "stations" in cited else _PLACE)}.items():
        if not re.fullmatch(form, cited.get(name, "")):
            raise ValueError(f"the citation has no {name}, or not in its form")
    if int(cited.get("draw-before", 0)) >= 2**64:
        raise ValueError("the citation's draw-before is above 2^64 - 1")
    return cited
