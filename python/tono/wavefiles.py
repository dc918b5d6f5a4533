"""WAVE files: mono ones by the proved calls, and several channels by a header of the same form."""
from __future__ import annotations

import array
import ctypes
import hashlib
import math
import os
import struct
from typing import BinaryIO, Optional, Sequence, Tuple, Union

from .errors import Refused
from .lending import BITS, Lent, address_of, bytes_of, bytes_to_write, judge_bytes_apart, zeros
from .library import answered, library_calls
from .names import FRAMES_MOST, WAVE_HEADER, Buffer
from .singles import whole


def wave_bytes(rate: int, samples: Buffer, *, file: Optional[Buffer] = None) -> Union[bytearray, memoryview]:
    """The WAVE file of these samples: mono, 32-bit floats, each with its own bits.

    rate: samples a second, 8,000 to 192,000 (1)
    samples: a buffer of 32-bit floats, or of their bits, up to 16,777,216 (2)
    file: bytes to write the file to, at least 58 and 4 for each sample (23); without it they are made
    """
    library, rate = library_calls(), whole("rate", rate)
    lent = Lent("samples", samples, BITS)
    made = bytearray(WAVE_HEADER + 4 * min(lent.count, FRAMES_MOST)) if file is None else file
    room = bytes_to_write("file", made)
    judge_bytes_apart(room, lent.view.cast("B"))
    number = library.tono_wave_write(rate, lent.at, lent.count, address_of(room), room.nbytes)
    if number < 0:
        raise Refused(-number, {1: f"rate is {rate}", 2: f"{lent.count} samples", 23: f"file has {room.nbytes} bytes"}.get(-number))
    length = answered(number)
    return made if isinstance(made, bytearray) and file is None else room[:length]


def write_wave(path: Union[str, "os.PathLike[str]", BinaryIO], rate: int, samples: Buffer) -> int:
    """Writes the WAVE file of these samples (`wave_bytes`) to a path or an open binary file, and returns its
    length in bytes. A refused call opens nothing."""
    made = wave_bytes(rate, samples)
    if hasattr(path, "write"):
        path.write(made)
    else:
        with open(path, "wb") as file:
            file.write(made)
    return len(made)


def wave_samples(data: Buffer, *, samples: Optional[Buffer] = None) -> Tuple[int, Buffer]:
    """The rate and the samples of a WAVE file's bytes, each sample with its own bits.

    samples: a buffer of 32-bit floats, or of their bits, to write to, as long as the file has samples (23);
        what it has after the last one stays. Without it an array("f") is made.

    Refused with 36 or 37 where the file has another form; docs/files.md describes which files are read.
    """
    library, file = library_calls(), bytes_of("data", data)
    made = zeros(max(file.nbytes - WAVE_HEADER, 0) // 4) if samples is None else samples
    lent, rate = Lent("samples", made, BITS, written=True), ctypes.c_uint32()
    judge_bytes_apart(lent.view.cast("B"), file)
    count = library.tono_wave_read(address_of(file), file.nbytes, ctypes.addressof(rate), lent.at, lent.count)
    if count < 0:
        raise Refused(-count, _chunks_said(bytes(file[:256])) if count in (-36, -37) else f"samples has {lent.count}")
    if samples is None:
        del lent
        del made[count:]
        return rate.value, made
    return rate.value, lent.view[:count]


def read_wave(path: Union[str, "os.PathLike[str]", BinaryIO]) -> Tuple[int, "array.array[float]"]:
    """The rate and the samples of a WAVE file, by its path or open for reading (`wave_samples`)."""
    if hasattr(path, "read"):
        return wave_samples(path.read())
    with open(path, "rb") as file:
        return wave_samples(file.read())


def _chunks_said(data: bytes) -> str:
    """What a file that is not read has instead, and the command that writes it anew."""
    cure = "sox IN.wav -c 1 -e floating-point -b 32 OUT.wav writes it so"
    if data[:4] != b"RIFF" or data[8:12] != b"WAVE":
        return f"it begins with {data[:12]!r} and not with RIFF and WAVE"
    at = data.find(b"fmt ", 12)
    if at < 0 or len(data) < at + 24:
        return f"it has no fmt chunk near its begin; {cure}"
    length, tag, channels, _, _, _, bits = struct.unpack_from("<IHHIIHH", data, at + 4)
    return f"its fmt chunk has {length} bytes, tag {tag}, {channels} channels, {bits} bits; {cure}"


def canonical(frames: Buffer) -> "array.array[float]":
    """The frames as they are filed: every NaN is 7fc00000."""
    made = array.array("f", memoryview(frames).tobytes())
    if math.isnan(sum(made)):
        bits = array.array("I", made.tobytes())
        made = array.array("f", array.array("I", [x if x & 0x7FFFFFFF <= 0x7F800000 else 0x7FC00000 for x in bits]).tobytes())
    return made


def file_sum(rate: int, frames: Buffer) -> str:
    """The SHA-256 of the WAVE file of these frames, in which every NaN is written as 7fc00000."""
    return hashlib.sha256(wave_bytes(rate, canonical(frames))).hexdigest()


def channel_bytes(rate: int, channels: Sequence[Buffer]) -> bytes:
    """The WAVE file of several channels of one length, 32-bit floats side by side. One channel is `wave_bytes`; the header
    of several has the same form, with their number in it, and is not proved."""
    if len(channels) == 1:
        return bytes(wave_bytes(rate, channels[0]))
    count, frames = len(channels), len(channels[0])
    head = bytearray(wave_bytes(rate, array.array("f")))
    side = array.array("f", bytes(4 * count * frames))
    for k, channel in enumerate(channels):
        side[k::count] = array.array("f", channel)
    struct.pack_into("<I", head, 4, WAVE_HEADER - 8 + 4 * count * frames)
    struct.pack_into("<HIIH", head, 22, count, rate, 4 * rate * count, 4 * count)
    at = head.index(b"fact")
    struct.pack_into("<I", head, at + 8, frames)
    struct.pack_into("<I", head, WAVE_HEADER - 4, 4 * count * frames)
    return bytes(head) + side.tobytes()
