"""The parts of the command that show and convert: explain, plot, page, convert, bits, selftest, completion."""
from __future__ import annotations

import argparse
import json
import os
import sys
from typing import Any

from . import decimals
from .command_play import judged, place_words
from .errors import Refused
from .forms import read_given, score_of, text_of
from .playing import write_whole


def explain(words: argparse.Namespace) -> int:
    """Prints what a file holds."""
    from .explain import explained, facts_of
    given = read_given(words.file)
    if words.json:
        print(json.dumps(facts_of(given, *place_words(words))))
    else:
        print("\n".join(explained(given, *place_words(words))))
    return 0


def plot(words: argparse.Namespace) -> int:
    """Writes a drawing."""
    from .plot import Drawn, one, sheet
    if len(words.files) < 2 or not words.files[-1].endswith(".svg"):
        raise ValueError("give one or more files and then the drawing's name, as tono plot examples/piano.score piano.svg")
    drawn = [Drawn(given, judged(given, words)) for given in map(read_given, words.files[:-1])]
    write_whole(words.files[-1], (one(drawn[0]) if len(drawn) == 1 else sheet(drawn)).encode())
    return 0


def page(words: argparse.Namespace) -> int:
    """Writes the page of a stimulus."""
    from .page import page_of
    given = read_given(words.file)
    out = words.output or given.name + ".html"
    made = page_of(given, judged(given, words))
    write_whole(out, made.encode())
    print(json.dumps({"file": given.path, "page": out}) if words.json else out)
    return 0


def convert(words: argparse.Namespace) -> int:
    """Writes a file in another form."""
    given, suffix = read_given(words.file), os.path.splitext(words.output)[1]
    makers: Any = {".toml": lambda s: s.to_toml().encode(), ".score": text_of, ".input": lambda s: score_of(s).to_bytes()}
    if suffix not in makers:
        raise ValueError(f"{words.output} ends in none of {', '.join(makers)}: a stimulus file, a text score, an input")
    stimulus = judged(given, words)
    try:
        data = makers[suffix](stimulus)
    except (Refused, ValueError) as error:
        raise ValueError(f"{given.path} does not fit: {error}") from None
    write_whole(words.output, data)
    if suffix == ".input":
        station = next(iter(stimulus.stations.values()))
        print(f"it plays with --seed {station.seed:016x} --draw {station.draw} --station {station.number}")
    return 0


def bits(words: argparse.Namespace) -> int:
    """Prints bits of decimals, and decimals of bits; if one is wrong, nothing of it."""
    lines, faults = [], 0
    for word in words.numbers:
        try:
            lines.append(decimals.to_decimal(word) if decimals.BITS.fullmatch(word) else decimals.to_bits(word))
        except ValueError as error:
            print(f"bits: {word}: {error}", file=sys.stderr)
            faults += 1
    if faults:
        return 2
    print("\n".join(lines))
    return 0


def selftest_module() -> Any:
    """The module tono/selftest.py, which is imported when it is asked for; tono.selftest stays the call."""
    import importlib
    package = sys.modules[__package__ or "tono"]
    call = package.selftest
    try:
        return importlib.import_module(".selftest", __package__)
    except ImportError as error:
        raise RuntimeError(f"this copy of tono has no self-test ({error}); install the package or the wheel, which have its "
                           "vectors") from None
    finally:
        setattr(package, "selftest", call)


def selftest(words: argparse.Namespace) -> int:
    """Runs the self-test as a program."""
    status: int = selftest_module().main([] if words.report is None else ["--report", words.report])
    return status


def completion(_: argparse.Namespace) -> int:
    """Prints what bash needs to complete the command's words: eval "$(tono completion)"."""
    path = os.path.join(os.path.dirname(os.path.realpath(__file__)), "completion.bash")
    with open(path, encoding="utf-8") as file:
        print(file.read(), end="")
    return 0
