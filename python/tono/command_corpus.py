"""The command `tono corpus`: plan, render and verify."""
from __future__ import annotations

import argparse
import json
import os
import re
import sys
from typing import List, Tuple

from .corpus import Factors, Manifest, Template, manifest_text, planned, read_factors
from .corpus_render import Job, render_corpus, shard_lines, verify_corpus
from .playing import write_whole


def shard_word(text: str) -> Tuple[int, int]:
    """K/N, as 3/10: K from 1 to N."""
    found = re.fullmatch("([0-9]+)/([0-9]+)", text)
    if not found or not 1 <= int(found[1]) <= int(found[2]):
        raise argparse.ArgumentTypeError(f"{text} is not K/N with K from 1 to N, as 3/10")
    return int(found[1]), int(found[2])


def fraction_word(text: str) -> float:
    """A number from 0 to 1."""
    try:
        value = float(text)
    except ValueError:
        value = -1.0
    if not 0 <= value <= 1:
        raise argparse.ArgumentTypeError(f"{text} is no number from 0 to 1")
    return value


def add_words(parser: argparse.ArgumentParser) -> None:
    """The words of the three parts."""
    parts = parser.add_subparsers(dest="part", metavar="PART", required=True)
    plan = parts.add_parser("plan", help="give each stimulus draws of its own, and write the manifest")
    plan.add_argument("files", metavar="FILE", nargs="+", help="stimulus files")
    plan.add_argument("--factors", metavar="TABLE", help="a table of factors, .toml or .csv, for one stimulus file")
    plan.add_argument("-o", "--output", metavar="MANIFEST", required=True)
    render = parts.add_parser("render", help="render what is not there yet")
    render.add_argument("-o", "--output", metavar="DIR", required=True)
    render.add_argument("-j", "--jobs", metavar="N", type=int, default=os.cpu_count() or 1, help="how many processes; as many as processors if not given")
    render.add_argument("--shard", metavar="K/N", type=shard_word, default=(1, 1), help="every Nth stimulus, from the Kth on")
    verify = parts.add_parser("verify", help="hold a folder to its manifest")
    verify.add_argument("-o", "--output", metavar="DIR", required=True)
    verify.add_argument("--again", metavar="FRACTION", type=fraction_word, default=0.0, help="render a random part anew, as 0.01")
    for one in (render, verify):
        one.add_argument("manifest", metavar="MANIFEST")
    for one in (plan, render, verify):
        one.add_argument("--json", action="store_true", help="print one JSON object")


def corpus(words: argparse.Namespace) -> int:
    """One of the parts."""
    return {"plan": _plan, "render": _render, "verify": _verify}[words.part](words)


def _plan(words: argparse.Namespace) -> int:
    folder = os.path.dirname(os.path.abspath(words.output))
    none: Factors = {}
    if words.factors is None:
        sources = [(os.path.splitext(os.path.basename(path))[0], Template.read(path), none) for path in words.files]
        names = [name for name, _, _ in sources]
        twice = next((name for name in names if names.count(name) > 1), None)
        if twice:
            raise ValueError(f"two files have the name {twice}; a stimulus is called after its file")
    else:
        if len(words.files) != 1:
            raise ValueError(f"--factors changes one stimulus file, and {len(words.files)} are given")
        template, rows = Template.read(words.files[0]), read_factors(words.factors)
        stem, wide = os.path.splitext(os.path.basename(words.files[0]))[0], len(str(len(rows)))
        sources = [(f"{stem}-{place:0{wide}}", template, row) for place, row in enumerate(rows, 1)]
    lines = [line._replace(file=os.path.relpath(line.file, folder)) for line in planned(sources)]
    write_whole(words.output, manifest_text(lines).encode())
    frames = sum(line.frames for line in lines)
    print(json.dumps({"manifest": words.output, "stimuli": len(lines), "frames": frames}) if words.json
          else f"{words.output}: {len(lines)} stimuli, {frames} frames")
    return 0


def _render(words: argparse.Namespace) -> int:
    shows = sys.stderr.isatty()

    def told(count: int, whole: int, seconds: float) -> None:
        if shows:
            rate = count / max(seconds, 1e-9)
            print(f"\r{count}/{whole}, {rate:.0f} a second, {(whole - count) / rate:.0f} s left \x1b[K", end="", file=sys.stderr, flush=True)

    manifest = Manifest.read(words.manifest)
    if words.jobs < 1:
        raise ValueError(f"-j {words.jobs}: give at least one process")
    made = render_corpus(Job(manifest, words.output, words.shard, words.jobs, told))
    if shows:
        print("\r\x1b[K", end="", file=sys.stderr)
    mine = len(shard_lines(manifest, words.shard))
    print(json.dumps({"folder": words.output, "made": made, "there": mine}) if words.json
          else f"{words.output}: {made} made, {mine - made} were there")
    return 0


def _verify(words: argparse.Namespace) -> int:
    manifest = Manifest.read(words.manifest)
    found: List[str] = verify_corpus(manifest, words.output, words.again)
    if words.json:
        print(json.dumps({"folder": words.output, "same": not found, "differences": found}))
    else:
        print("\n".join([*found, f"{words.output}: {'differs' if found else 'is what the manifest says'}"]))
    return 1 if found else 0
