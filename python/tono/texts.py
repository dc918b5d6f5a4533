"""The calls on text scores: play_text, plan_text and cue_sheet."""
from __future__ import annotations

import array
import binascii
import ctypes
from typing import NoReturn, Optional, Union

from .errors import Refused
from .lending import address_of, bytes_of, bytes_to_write, judge_bytes_apart
from .library import library_calls
from .names import CUE_SHEET_MOST, LISTING_MOST, Buffer
from .rendered import Rendered

# How long the line R of a listing can be.
_REFUSAL_LINE = len("R\t37\n")


def _refuse_text(number: int, text: memoryview) -> NoReturn:
    """Raises a refusal with the line that it is about."""
    from .textscores import refused_line
    raise Refused(number, None if number in (23, 34) else refused_line(bytes(text), number))


def _answered(number: int, text: memoryview) -> int:
    if number < 0:
        _refuse_text(-number, text)
    return number


def play_text(score: Union[bytes, str, Buffer], *, reply: Optional[Buffer] = None) -> Rendered:
    """Plays a text score, whose bytes are given, on the seed and from the draw of its G line.

    reply: bytes to write the listing to, at most 32,808 (23); without it they are made

    Refused raises and changes nothing, with 1, 3 to 6, 9, 10, 15, 16, 22 or 23.
    """
    library, text = library_calls(), bytes_of("score", score)
    room = bytearray(LISTING_MOST) if reply is None else reply
    page = bytes_to_write("reply", room)
    judge_bytes_apart(page, text)
    was = bytes(page[:_REFUSAL_LINE])
    length = _answered(library.tono_play(address_of(text), text.nbytes, address_of(page), page.nbytes), text)
    listing = bytes(page[:length])
    end = listing.index(b"\n")
    head = listing[:end].split(b"\t")
    if head[0] == b"R":
        page[:length] = was[:length]
        _refuse_text(int(head[1]), text)
    held = bytes(text)
    lines = held.split(b"\n", 2)
    seed, before = int(lines[1].split(b"\t")[1], 16), int(lines[1].split(b"\t")[2])
    return Rendered(_listed_frames(listing, end + 1), int(lines[0].split(b"\t")[1]), int(head[2]) - before,
                    seed, 0, before, held)


def _listed_frames(listing: bytes, at: int) -> "array.array[float]":
    """The frames of the F lines from a place on. Lines of one length are decoded together: where they have 16
    bytes, every other word of 8 bytes, else a column of digits at a time."""
    digits = bytearray()
    for width in (1, 2, 3, 4):
        head, length = width + len("F\t\t"), width + len("F\t\t01234567\n")
        count = min((len(listing) - at) // length, 10**width - (10**(width - 1) if width > 1 else 0))
        lines = listing[at + head:at + count * length]
        at += count * length
        if length == 16:
            digits += array.array("Q", lines + bytes(head if lines else 0))[::2].tobytes()
            continue
        columns = bytearray(8 * count)
        for k in range(8 if count else 0):
            columns[k::8] = lines[k::length]
        digits += columns
    words = array.array("I", binascii.unhexlify(digits))
    words.byteswap()
    return array.array("f", words.tobytes())


def plan_text(score: Union[bytes, str, Buffer]) -> int:
    """How many draws a text score would make. Nothing is played. Refused as `play_text` is, but for 23."""
    library, text, draws = library_calls(), bytes_of("score", score), ctypes.c_uint64()
    _answered(library.tono_plan(address_of(text), text.nbytes, ctypes.addressof(draws)), text)
    return draws.value


def cue_sheet(score: Union[bytes, str, Buffer], *, page: Optional[Buffer] = None) -> str:
    """The cue sheet of a text score: a line of 72 columns for each note, a form feed after each 60 lines.

    page: bytes to write the sheet to, at most 18,692 (34); without it they are made

    Refused as `play_text` is, but for 23, and with 34.
    """
    library, text = library_calls(), bytes_of("score", score)
    room = bytes_to_write("page", bytearray(CUE_SHEET_MOST) if page is None else page)
    judge_bytes_apart(room, text)
    length = _answered(library.tono_cue_sheet(address_of(text), text.nbytes, address_of(room), room.nbytes), text)
    return bytes(room[:length]).decode("ascii")
