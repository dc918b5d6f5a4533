"""A stimulus is played: one score call for each voice, in the file's order, then the mix."""
from __future__ import annotations

import array
import hashlib
import operator
import os
from typing import Any, Dict, List, NamedTuple, Sequence, Tuple, Union

from .calls import plan, render
from .citations import voice_words
from .errors import Refused
from .names import VERSION
from .rendered import Rendered
from .session import Session
from .stimuli import Station, Stimulus, Voice
from .values import pack_notes
from .wavefiles import canonical, channel_bytes


class RefusedVoice(Exception):
    """The call of a voice was refused: `place` is the voice's place in the file, `refused` the library's answer."""

    def __init__(self, place: int, refused: Refused) -> None:
        super().__init__(f"voice {place + 1} is {refused}")
        self.place, self.refused = place, refused


class PlannedVoice(NamedTuple):
    """Where a voice begins and ends in its station's draws."""
    station: Station
    before: int
    draws: int


def _session(stimulus: Stimulus) -> Session:
    session = Session()
    for station in stimulus.stations.values():
        session.open(station.number, station.seed, station.draw)
    return session


def plan_stimulus(stimulus: Stimulus) -> List[PlannedVoice]:
    """What each voice would draw, by the planning call, in the order in which they are played."""
    session, planned = _session(stimulus), []
    for place, voice in enumerate(stimulus.voices):
        station = stimulus.stations[voice.station]
        before = session.draws[station.number]
        try:
            draws = plan(session, voice.seq, voice.notes, stimulus.frames, lane=stimulus.lane(voice), station=station.number)
        except Refused as refused:
            raise RefusedVoice(place, refused) from None
        session.open(station.number, station.seed, before + draws)
        planned.append(PlannedVoice(station, before, draws))
    return planned


def added(parts: Sequence["array.array[float]"], frames: int) -> "array.array[float]":
    """The sum of voices, frame by frame in their order. Each sum is rounded to 32 bits: adding two 32-bit floats as 64-bit
    ones and narrowing the sum gives the sum of the 32-bit format."""
    if not parts:
        return array.array("f", bytes(4 * frames))
    mixed = array.array("f", parts[0].tobytes())
    for part in parts[1:]:
        mixed = array.array("f", map(operator.add, mixed, part))
    return mixed


class PlayedStimulus:
    """What a stimulus played.

    voices: what each voice's call gave, a Rendered
    channels: the frames of each channel, an array("f"); every NaN is 7fc00000
    """

    def __init__(self, stimulus: Stimulus, voices: Sequence[Rendered]) -> None:
        self.stimulus, self.voices = stimulus, tuple(voices)
        self.rate, self.frames = stimulus.rate, stimulus.frames
        if stimulus.channels == "mono":
            groups: List[List[Any]] = [[played.frames for played in voices]]
        else:
            numbers = sorted(station.number for station in stimulus.stations.values())
            groups = [[played.frames for played in voices if played.station == number] for number in numbers]
        self.channels = [canonical(added(parts, stimulus.frames)) for parts in groups]

    def wave_bytes(self) -> bytes:
        """The WAVE file: mono by the proved call, several channels by a header of the same form."""
        return channel_bytes(self.rate, self.channels)

    def write_wave(self, path: Union[str, "os.PathLike[str]"]) -> int:
        """Writes the WAVE file whole, or not at all, and returns its length."""
        data = self.wave_bytes()
        write_whole(path, data)
        return len(data)

    def cite(self) -> str:
        """The citation: one line. Its input is the whole form, `stimulus.to_toml()`."""
        words = citation_words_of(self)
        return " ".join([f"tono {words.pop('tono')}", *(f"{name}={value}" for name, value in words.items())])


def play_stimulus(stimulus: Stimulus) -> PlayedStimulus:
    """Plays every voice of a stimulus on its station, in the file's order."""
    session, voices = _session(stimulus), []
    for place, voice in enumerate(stimulus.voices):
        try:
            voices.append(render(session, voice.seq, pack_notes(voice.notes), stimulus.frames, lane=stimulus.lane(voice),
                                 station=stimulus.stations[voice.station].number))
        except Refused as refused:
            raise RefusedVoice(place, refused) from None
    return PlayedStimulus(stimulus, voices)


def _voice_word(voice: Voice) -> str:
    words = voice_words(voice.seq)
    return ":".join([words.pop("wave"), *(f"{name}={value}" for name, value in words.items())])


def citation_words_of(played: PlayedStimulus) -> Dict[str, str]:
    """The words of a stimulus's citation, by their names."""
    stimulus = played.stimulus
    ends: Dict[int, Tuple[int, int, int]] = {s.number: (s.seed, s.draw, s.draw) for s in stimulus.stations.values()}
    for voice in played.voices:
        seed, before, _ = ends[voice.station]
        ends[voice.station] = seed, before, voice.draw_after
    stations = ",".join(f"{number}:{seed:016x}:{before}-{after}" for number, (seed, before, after) in sorted(ends.items()))
    return {
        "tono": VERSION, "stations": stations, "voices": "+".join(map(_voice_word, stimulus.voices)), "rate": str(stimulus.rate),
        "frames": str(stimulus.frames), "channels": str(len(played.channels)),
        "input-sha256": hashlib.sha256(stimulus.to_toml().encode()).hexdigest(),
        "file-sha256": hashlib.sha256(played.wave_bytes()).hexdigest(),
    }


def write_whole(path: Union[str, "os.PathLike[str]"], data: bytes) -> None:
    """Writes a file whole or not at all: under another name beside it, then in its place. What is no plain file, as a pipe
    or /dev/full, is written to as it is."""
    path = os.fspath(path)
    if os.path.exists(path) and not os.path.isfile(path):
        with open(path, "wb") as file:
            file.write(data)
        return
    beside = f"{path}.{os.getpid()}.part"
    try:
        with open(beside, "wb") as file:
            file.write(data)
        os.replace(beside, path)
    except BaseException:
        if os.path.exists(beside):
            os.unlink(beside)
        raise
