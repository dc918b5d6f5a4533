"""A manifest is rendered, by processes and in shards, and a folder is held to its manifest.

A file is written whole or not at all. What a run has made stands in a file of sums, a line for each stimulus, so that the next run
goes on from there; when every stimulus is made, SHA256SUMS has them all in the manifest's order, whoever made them.
"""
from __future__ import annotations

import ctypes
import glob
import hashlib
import os
import random
import signal
import time
from concurrent.futures import FIRST_COMPLETED, Future, ProcessPoolExecutor, wait
from concurrent.futures.process import BrokenProcessPool
from typing import Any, Callable, Dict, Iterator, List, NamedTuple, Optional, Sequence, Set, Tuple

from .corpus import Line, Manifest, Template
from .library import library_calls
from .playing import write_whole

SUMS = "SHA256SUMS"
#: How many stimuli a process takes at a time, and how often a run starts processes anew when one died.
CHUNK, TRIES = 16, 3
_templates: Dict[str, Template] = {}


def wave_of(manifest: Manifest, line: Line) -> bytes:
    """The WAVE file of a line."""
    stimulus = manifest.stimulus(line, _templates)
    played = stimulus.play()
    ends = {s.number: s.draw for s in stimulus.stations.values()}
    ends.update({voice.station: voice.draw_after for voice in played.voices})
    if ends != {row[0]: row[3] for row in line.stations.values()}:
        raise ValueError(f"{line.name} does not end at the draws of the manifest, which was changed; plan it anew")
    wave: bytes = played.wave_bytes()
    return wave


def _ends_with(parent: int) -> None:
    """A process that renders ends when the one that started it does, even if that one is killed (PR_SET_PDEATHSIG of Linux)."""
    ctypes.CDLL(None).prctl(1, signal.SIGKILL)
    if os.getppid() != parent:
        os._exit(1)


def _made(folder: str, lines: Sequence[Line], out: str) -> List[Tuple[str, str]]:
    """Renders some lines; gives each name with the sum of its file."""
    library_calls()
    made, manifest = [], Manifest(folder, ())
    for line in lines:
        wave = wave_of(manifest, line)
        write_whole(os.path.join(out, line.name + ".wav"), wave)
        made.append((line.name, hashlib.sha256(wave).hexdigest()))
    return made


def sums_of(path: str) -> Dict[str, str]:
    """The sums in a file, by the names of the stimuli; a line that was cut off is left out."""
    if not os.path.exists(path):
        return {}
    with open(path, encoding="utf-8") as file:
        rows = [row.rstrip("\n").split("  ", 1) for row in file if row.endswith("\n")]
    return {row[1][:-len(".wav")]: row[0] for row in rows if len(row) == 2 and len(row[0]) == 64 and row[1].endswith(".wav")}


def _done(out: str) -> Dict[str, str]:
    """What earlier runs, of any shard, have made and is still there."""
    found: Dict[str, str] = {}
    for path in [*glob.glob(os.path.join(glob.escape(out), SUMS + ".*")), os.path.join(out, SUMS)]:
        found.update(sums_of(path))
    return {name: digest for name, digest in found.items() if os.path.isfile(os.path.join(out, name + ".wav"))}


class Job(NamedTuple):
    """A run: which lines, where to, with how many processes, and what to call after each chunk."""
    manifest: Manifest
    out: str
    shard: Tuple[int, int]
    processes: int
    told: Callable[[int, int, float], None]


def shard_lines(manifest: Manifest, shard: Tuple[int, int]) -> List[Line]:
    """Every Nth line, from the Kth on."""
    return list(manifest.lines[shard[0] - 1::shard[1]])


def render_corpus(job: Job) -> int:
    """Renders what is not there yet, and gives how many. When the whole corpus is there, SHA256SUMS is written."""
    os.makedirs(job.out, exist_ok=True)
    mine, total = shard_lines(job.manifest, job.shard), 0
    for left in range(TRIES, 0, -1):
        done = _done(job.out)
        missing = [line for line in mine if line.name not in done]
        try:
            total += _run(job, missing)
            break
        except BrokenProcessPool:
            if left == 1:
                raise RuntimeError("processes died again and again; what they made is kept, and the same command goes on from there") from None
    _finish(job.manifest, job.out)
    return total


def _run(job: Job, missing: Sequence[Line]) -> int:
    record = os.path.join(job.out, f"{SUMS}.{job.shard[0]}-of-{job.shard[1]}")
    began, count = time.monotonic(), 0
    with open(record, "a", encoding="utf-8") as file:
        if file.tell() and not _ends_in_newline(record):
            file.write("\n")
        for made in _chunks_made(job, [missing[i:i + CHUNK] for i in range(0, len(missing), CHUNK)]):
            file.write("".join(f"{digest}  {name}.wav\n" for name, digest in made))
            file.flush()
            count += len(made)
            job.told(count, len(missing), time.monotonic() - began)
    return count


def _ends_in_newline(path: str) -> bool:
    with open(path, "rb") as file:
        file.seek(-1, os.SEEK_END)
        return file.read() == b"\n"


def _chunks_made(job: Job, chunks: Sequence[Sequence[Line]]) -> Iterator[List[Tuple[str, str]]]:
    """What each chunk gave, as soon as it is made; few are under way at a time, so that memory does not grow with the corpus."""
    if job.processes == 1:
        yield from (_made(job.manifest.folder, chunk, job.out) for chunk in chunks)
        return
    rest, under_way = iter(chunks), set()  # type: Iterator[Sequence[Line]], Set[Future[Any]]
    with ProcessPoolExecutor(job.processes, initializer=_ends_with, initargs=(os.getpid(),)) as pool:
        while True:
            for chunk in rest:
                under_way.add(pool.submit(_made, job.manifest.folder, chunk, job.out))
                if len(under_way) >= 3 * job.processes:
                    break
            if not under_way:
                return
            ended, under_way = wait(under_way, return_when=FIRST_COMPLETED)
            yield from (one.result() for one in ended)


def _finish(manifest: Manifest, out: str) -> None:
    """Writes SHA256SUMS if every stimulus of the manifest is there."""
    done = _done(out)
    if all(line.name in done for line in manifest.lines):
        write_whole(os.path.join(out, SUMS), "".join(f"{done[line.name]}  {line.name}.wav\n" for line in manifest.lines).encode())


def verify_corpus(manifest: Manifest, out: str, again: float = 0.0, chosen: Optional[int] = None) -> List[str]:
    """What differs between a folder and its manifest: a line for each file that is missing, extra or changed. A part of the
    stimuli is rendered anew, chosen at random."""
    sums, found = sums_of(os.path.join(out, SUMS)), []
    names = {line.name for line in manifest.lines}
    if not sums:
        found.append(f"missing: {SUMS}; tono corpus render writes it when every stimulus is made")
    count = round(again * len(manifest.lines))
    anew = {line.name for line in random.Random(chosen).sample(list(manifest.lines), min(len(manifest.lines), max(count, 1 if again > 0 else 0)))}
    for line in manifest.lines:
        path = os.path.join(out, line.name + ".wav")
        if not os.path.isfile(path):
            found.append(f"missing: {line.name}.wav")
            continue
        with open(path, "rb") as file:
            digest = hashlib.sha256(file.read()).hexdigest()
        if line.name in anew and digest != hashlib.sha256(wave_of(manifest, line)).hexdigest():
            found.append(f"changed: {line.name}.wav is not what the manifest plays")
        elif sums and digest != sums.get(line.name):
            found.append(f"changed: {line.name}.wav has another SHA-256 than {SUMS} says")
    found += [f"extra: {name}" for name in sorted(os.listdir(out)) if name.endswith(".wav") and name[:-4] not in names]
    return found
