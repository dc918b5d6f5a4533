"""The parts of the command that play: render, plan, cite, replay, play-text, sheet."""
from __future__ import annotations

import argparse
import hashlib
import json
import os
import re
import sys
from typing import Any, Dict, List, NamedTuple, Sequence, Tuple

from .citations import Replayed, cited_words, citation_of, play_input, replay_played
from .errors import Refused
from .forms import STIMULUS, SUFFIXES, TEXT, FormError, Given, read_given, stimulus_of
from .names import WAVES
from .playing import RefusedVoice, plan_stimulus, write_whole
from .progress import counted
from .stimuli import Stimulus
from .timing import NoteRow, note_rows, sheet_lines
from .wavefiles import canonical, wave_bytes


class RefusedFile(ValueError):
    """A file that is refused, by its name; `brief` is without place and cure."""

    def __init__(self, path: str, refused: Refused) -> None:
        super().__init__(f"{path} is {refused}")
        self.brief = f"{path} is refused with {refused.number}: {refused.reason}"


def told(given: Given, error: Exception) -> Exception:
    """What a call raised, with the file's name."""
    if isinstance(error, Refused):
        return RefusedFile(given.path, error)
    if isinstance(error, RefusedVoice):
        return RefusedFile(given.path, error.refused)
    return error


class Sound(NamedTuple):
    """A file that was played: its WAVE file, its citation, and the input that is cited."""
    wave: bytes
    citation: str
    data: bytes


def place_words(words: argparse.Namespace) -> Tuple[Any, Any, Any]:
    return words.seed, words.draw, words.station


def sound_of(given: Given, words: argparse.Namespace) -> Sound:
    """Plays a file of any form."""
    try:
        if given.kind == STIMULUS:
            played = stimulus_of(given, *place_words(words)).play()
            return Sound(played.wave_bytes(), played.cite(), played.stimulus.to_toml().encode())
        one = play_input(given.data, *place_words(words))
        return Sound(bytes(wave_bytes(one.seq.rate, canonical(one.frames))), citation_of(one), given.data)
    except (Refused, RefusedVoice) as error:
        raise told(given, error) from None


def _say(words: argparse.Namespace, facts: Dict[str, Any], plain: str) -> None:
    print(json.dumps(facts) if words.json else plain)


def render(words: argparse.Namespace) -> int:
    """Plays files into a folder, or one into a WAVE file. All are read before the first is played, so that a mistake in one
    writes nothing."""
    alone = words.wave or (words.output if words.output and words.output.endswith(".wav") else None)
    if alone and len(words.files) > 1:
        raise ValueError(f"{len(words.files)} files are given, and {alone} is one WAVE file; give a folder by -o DIR")
    given = [read_given(path) for path in words.files]
    names = [one.name for one in given]
    for name in names:
        if names.count(name) > 1 and not alone:
            raise ValueError(f"two files have the name {name}, and would be written to {name}.wav; rename one, or render them apart")
    if len(given) > 1:
        for one in counted(given, "read"):
            judged(one, words)
    if not alone:
        os.makedirs(words.output, exist_ok=True)
    for one in counted(given, "played"):
        sound = sound_of(one, words)
        path = alone or os.path.join(words.output, one.name + ".wav")
        write_whole(path, sound.wave)
        if not alone:
            write_whole(os.path.join(words.output, one.name + SUFFIXES[one.kind]), sound.data)
            write_whole(os.path.join(words.output, one.name + ".cite"), (sound.citation + "\n").encode())
        if not words.wave:
            _say(words, {"file": one.path, "wave": path, "citation": sound.citation}, path)
    return 0


def judged(given: Given, words: argparse.Namespace) -> Stimulus:
    """A file as a stimulus that the planning call accepts."""
    try:
        made = stimulus_of(given, *place_words(words))
        plan_stimulus(made)
        return made
    except FormError:
        if given.kind == TEXT:
            _text_refused(given)
        raise
    except (Refused, RefusedVoice) as error:
        raise told(given, error) from None


def _text_refused(given: Given) -> None:
    from .texts import plan_text
    try:
        plan_text(given.data)
    except Refused as refused:
        raise told(given, refused) from None


def rows_of(stimulus: Stimulus) -> List[List[NoteRow]]:
    """The cue sheet's numbers of each voice."""
    return [note_rows(voice.seq, voice.notes, stimulus.frames, stimulus.lane(voice), planned.before)
            for voice, planned in zip(stimulus.voices, plan_stimulus(stimulus))]


def plan_facts(given: Given, stimulus: Stimulus) -> Dict[str, Any]:
    """What a plan says, for programs."""
    planned = plan_stimulus(stimulus)
    voices = [{"wave": WAVES[voice.seq.wave], "station": one.station.number, "seed": f"{one.station.seed:016x}",
               "draw_before": one.before, "draws": one.draws, "notes": [row._asdict() for row in rows]}
              for voice, one, rows in zip(stimulus.voices, planned, rows_of(stimulus))]
    return {"file": given.path, "rate": stimulus.rate, "frames": stimulus.frames, "voices": voices,
            "draws": sum(one.draws for one in planned)}


def plan(words: argparse.Namespace) -> int:
    """Prints for each voice its station, draw before and after, and for each note its start, frames and draws."""
    for path in counted(words.files, "planned"):
        given = read_given(path)
        stimulus = judged(given, words)
        if words.json:
            print(json.dumps(plan_facts(given, stimulus)))
            continue
        print(f"{given.path}: {stimulus.frames} frames at {stimulus.rate} a second, "
              f"{sum(one.draws for one in plan_stimulus(stimulus))} draws")
        for place, (voice, one, rows) in enumerate(zip(stimulus.voices, plan_stimulus(stimulus), rows_of(stimulus)), 1):
            print(f"  voice {place}, {WAVES[voice.seq.wave]}: station {one.station.number}, seed {one.station.seed:016x}, draws "
                  f"{one.before} to {one.before + one.draws}")
            for row in rows:
                start = "skipped" if row.start is None else f"from frame {row.start}, {row.frames} frames, {row.draws} draws"
                print(f"    note {row.place + 1}, step {row.step}: {start}")
    return 0


def cite(words: argparse.Namespace) -> int:
    """Prints the citation."""
    given = read_given(words.file)
    citation = sound_of(given, words).citation
    _say(words, {"file": given.path, "citation": citation, **cited_words(citation)}, citation)
    return 0


def _citations(given: str) -> List[str]:
    """The citations in an argument, or in the file that it names."""
    text = given
    if not re.match(r"\s*tono\s+[0-9.]+\s", given):
        with open(given, encoding="utf-8") as file:
            text = file.read()
    parts = re.split(r"(?:^|\s)(?=tono\s+[0-9.]+\s)", text.strip())
    return [part for part in parts if part.strip()] or [text]


def _sums(inputs: Sequence[Given]) -> Dict[str, Given]:
    """The files by the sums that a citation has of them: of a stimulus file that of its whole form."""
    sums = {hashlib.sha256(one.data).hexdigest(): one for one in inputs}
    for one in inputs:
        if one.kind == STIMULUS:
            sums[hashlib.sha256(stimulus_of(one).to_toml().encode()).hexdigest()] = one
    return sums


def replay(words: argparse.Namespace) -> int:
    """Replays each citation with the file that it has the sum of, or with the one file that there is."""
    inputs = [read_given(path) for path in words.files]
    citations = _citations(words.citation)
    if words.output and len(citations) > 1:
        raise ValueError(f"there are {len(citations)} citations, and {words.output} is one WAVE file; give one of them")
    sums, status = _sums(inputs), 0
    for citation in citations:
        cited = cited_words(citation)["input-sha256"]
        given = sums.get(cited) or (inputs[0] if len(inputs) == 1 else None)
        answer, wave, name = Replayed(False, (f"none of the {len(inputs)} files has the SHA-256 {cited}, which is cited",)), b"", "no file"
        if given is not None:
            try:
                answer, wave = replay_played(citation, given.data, given.path, given.folder)
            except (Refused, RefusedVoice) as error:
                raise told(given, error) from None
            name = given.path
        same, differences = answer
        if same and words.output:
            write_whole(words.output, wave)
        status = max(status, 0 if same else 1)
        lines = "".join(f"\n  {line}" for line in differences)
        _say(words, {"file": name, "same": same, "differences": list(differences)},
             f"{'same' if same else 'different'}: {name}{lines}")
    if status and words.output:
        print(f"tono: {words.output} is not written, since the sound is not the one that is cited", file=sys.stderr)
    return status


def play_text(words: argparse.Namespace) -> int:
    """Prints the listing of a text score: the generator's state, the draw count and each frame's bits."""
    from . import texts
    given = read_given(words.file)
    if given.kind != TEXT:
        raise ValueError(f"{given.path} is no text score but {'an' if given.kind[0] == 'i' else 'a'} {given.kind}; tono render plays it")
    try:
        played = texts.play_text(given.data)
    except Refused as refused:
        print(f"R\t{refused.number}")
        raise told(given, refused) from None
    words_of = memoryview(canonical(played.frames)).cast("B").cast("I")
    print(f"G\t{played.state:016x}\t{played.draw_after}")
    sys.stdout.write("".join(f"F\t{i}\t{bits:08x}\n" for i, bits in enumerate(words_of)))
    return 0


def sheet(words: argparse.Namespace) -> int:
    """Prints the cue sheet: of a text score by the proved call, of the other forms a sheet for each voice in the same columns."""
    given = read_given(words.file)
    if given.kind == TEXT:
        from .texts import cue_sheet
        try:
            print(cue_sheet(given.data), end="")
        except Refused as refused:
            raise told(given, refused) from None
        return 0
    stimulus = judged(given, words)
    for place, (voice, rows) in enumerate(zip(stimulus.voices, rows_of(stimulus))):
        wave = WAVES[voice.seq.wave]
        if len(stimulus.voices) > 1:
            print(f"{chr(10) if place else ''}voice {place + 1}, {wave}, station {stimulus.stations[voice.station].number}")
        lines = sheet_lines(rows, wave)
        for at in range(0, len(lines), 60):
            print("\n".join(lines[at:at + 60]), end="\n" if at + 60 >= len(lines) else "\n\f")
    return 0
