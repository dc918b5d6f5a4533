"""The command `tono`: its words, and what each status means. The work is in the modules command_play and command_tools."""
from __future__ import annotations

import argparse
import os
import re
import sys
from typing import List, Optional, Sequence

from .errors import Refused

_ENDS = ("The status is 0, or 1 if a score or a stimulus is refused or a sound is another one, or 2 if a file or the library is "
         "missing or cannot be written, or the words of the command are wrong.")
_FILE = "FILE is a stimulus file (.toml), a text score, or an input that Score.to_bytes wrote (`tono input 1`)."
COMMANDS = {
    "render": "play files and write WAVE files, with their inputs and citations",
    "plan": "count draws, and say where each note starts; nothing is played",
    "cite": "print the citation of a file",
    "replay": "play what a citation cites, and say whether it is the same",
    "explain": "say in words what a file holds, each number with its bits",
    "plot": "draw frames and notes as SVG",
    "page": "write one HTML page of a stimulus: sound, pictures, notes, citation",
    "play-text": "print the listing of a text score",
    "sheet": "print the cue sheet",
    "convert": "turn one form into another, where it fits",
    "corpus": "plan, render and verify many stimuli, on one machine or many, to the same byte",
    "bits": "decimal numbers to the 8 digits of a text score, and back",
    "selftest": "replay the original's answers on this machine",
    "completion": "print the completion for bash",
}


def seed_word(text: str) -> int:
    """A seed as a citation prints it, 16 digits, or as 0x..; a decimal is refused, since it could be meant as either."""
    if re.fullmatch("[0-9a-fA-F]{16}|0[xX][0-9a-fA-F]{1,16}", text):
        return int(text, 16)
    hint = f": write 0x{int(text):x} for the decimal {int(text)}, or 0x{text}" if text.isdecimal() and len(text) < 17 else ""
    raise argparse.ArgumentTypeError(f"{text} is neither 16 hexadecimal digits, as a citation prints a seed, nor 0x..{hint}")


def number_word(text: str) -> int:
    """A draw or a station."""
    if not text.isdecimal() or int(text) >= 2**64:
        raise argparse.ArgumentTypeError(f"{text} is no whole number from 0 to 2^64 - 1")
    return int(text)


def _place_words(parser: argparse.ArgumentParser) -> None:
    parser.add_argument("--seed", metavar="HEX", type=seed_word, help="the seed of an input: 16 digits as a citation has it, or 0x..")
    parser.add_argument("--draw", metavar="N", type=number_word, help="the draw at which an input begins")
    parser.add_argument("--station", metavar="K", type=number_word, help="the station that an input plays on; 0 if not given")


def parser(with_corpus: bool = True) -> argparse.ArgumentParser:
    """The command's words; those of `tono corpus` only if they are asked for, since their module takes long to import."""
    top = argparse.ArgumentParser(prog="tono", description="Plays, plans, cites, explains and shows stimuli.",
                                  epilog=f"{_FILE} {_ENDS}")
    top.add_argument("--version", action="store_true", help="print the version and the library's path")
    parts = top.add_subparsers(dest="command", metavar="COMMAND")
    made = {name: parts.add_parser(name, help=said, description=f"{said[0].upper()}{said[1:]}. {_FILE}", epilog=_ENDS)
            for name, said in COMMANDS.items()}
    for name in ("render", "plan", "cite", "explain", "plot", "page", "sheet", "convert"):
        _place_words(made[name])
    for name in ("render", "plan", "cite", "replay", "explain", "page"):
        made[name].add_argument("--json", action="store_true", help="print one JSON object for each file, for programs")
    for name in ("render", "plan"):
        made[name].add_argument("files", metavar="FILE", nargs="+")
    for name in ("cite", "explain", "page", "play-text", "sheet", "convert"):
        made[name].add_argument("file", metavar="FILE")
    render = made["render"].add_mutually_exclusive_group(required=True)
    render.add_argument("-o", "--output", metavar="DIR", help="the folder for NAME.wav, NAME.cite and the input; or OUT.wav, for a WAVE file alone")
    render.add_argument("--wave", metavar="OUT", help=argparse.SUPPRESS)
    made["replay"].add_argument("citation", metavar="CITATION", help="the line itself, or a file of lines")
    made["replay"].add_argument("files", metavar="FILE", nargs="+")
    made["replay"].add_argument("-o", "--output", metavar="OUT.wav", help="write the sound that was replayed")
    made["plot"].add_argument("files", metavar="FILE", nargs="+", help="one or more files, and then OUT.svg")
    made["page"].add_argument("-o", "--output", metavar="OUT.html", help="the page; NAME.html beside you if not given")
    made["convert"].add_argument("-o", "--output", metavar="OUT", required=True, help="OUT.toml, OUT.score or OUT.input")
    if with_corpus:
        from .command_corpus import add_words
        add_words(made["corpus"])
    made["bits"].add_argument("numbers", metavar="NUMBER", nargs="+")
    made["selftest"].add_argument("--report", metavar="FILE", help="write a page for the rig's log")
    return top


def _as_command(words: Sequence[str]) -> List[str]:
    """The words of the forms FILE OUT.wav, --cite FILE and --replay CITATION FILE.. as those of a command."""
    given = list(words)
    if not given or given[0] in COMMANDS or given[0] in ("-h", "--help", "--version"):
        return given
    if "--cite" in given and "--replay" not in given:
        given.remove("--cite")
        return ["cite", *given]
    if "--replay" in given and "--cite" not in given:
        at = given.index("--replay")
        return ["replay", *given[at + 1:at + 2], *given[:at], *given[at + 2:]]
    pairs = {place + 1 for place, word in enumerate(given) if word in ("--seed", "--draw", "--station")}
    plain = [place for place, word in enumerate(given) if place not in pairs and not word.startswith("-")]
    is_file = plain and (os.path.exists(given[plain[0]]) or "/" in given[plain[0]] or "." in given[plain[0]])
    if len(plain) == 2 and is_file and "-o" not in given and "--cite" not in given:
        out = given.pop(plain[1])
        return ["render", *given, "--wave", out]
    return given


def _run(words: argparse.Namespace, top: argparse.ArgumentParser) -> int:
    if words.version:
        from .library import library_path
        from .names import VERSION
        print(f"tono {VERSION}, {os.path.realpath(library_path())}")
        return 0
    if words.command is None:
        top.error("give a command, as tono render FILE -o DIR; tono --help lists them")
    if words.command == "corpus":
        from .command_corpus import corpus
        return corpus(words)
    from . import command_play, command_tools
    name = words.command.replace("-", "_")
    status: int = (getattr(command_play, name, None) or getattr(command_tools, name))(words)
    return status


def main(arguments: Optional[Sequence[str]] = None) -> int:
    """The command. What is wrong is one line on standard error."""
    asked = list(sys.argv[1:] if arguments is None else arguments)
    given = _as_command(asked)
    top = parser(given[:1] == ["corpus"])
    if given and given[0] not in COMMANDS and not given[0].startswith("-"):
        from .singles import nearest
        files = os.path.exists(given[0])
        top.error(f"{given[0]} is no command{'; tono render FILE -o DIR plays a file' if files else nearest(given[0], COMMANDS)}")
    words = top.parse_args(given)
    try:
        return _run(words, top)
    except BrokenPipeError:
        os.dup2(os.open(os.devnull, os.O_WRONLY), sys.stdout.fileno())
        return 2
    except KeyboardInterrupt:
        print("tono: stopped", file=sys.stderr)
        return 130
    except Refused as refused:
        print(f"tono: {refused}", file=sys.stderr)
        return 1
    except (OSError, ValueError, RuntimeError) as error:
        return _told(error, given != asked)


def _told(error: Exception, is_brief: bool) -> int:
    """Prints what is wrong in one line, in the brief forms a refusal without place and cure; the status says whether the file
    or the machine is meant."""
    from .command_play import RefusedFile
    from .stimulus_fields import StimulusError
    said = error.brief if is_brief and isinstance(error, RefusedFile) else str(error)
    print(f"tono: {' '.join(said.split(chr(10)))}", file=sys.stderr)
    return 1 if isinstance(error, (RefusedFile, StimulusError)) else 2
