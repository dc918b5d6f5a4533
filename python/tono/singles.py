"""Numbers as the library takes them: integers of so many bits, and 32-bit floats."""
from __future__ import annotations

import array
import ctypes
import struct
from typing import Any, Iterable, Sequence, Union

#: What a draw adds to the generator's state.
GOLDEN_GAMMA = 0x9E3779B97F4A7C15


def whole(name: str, value: int, bits: int = 32) -> int:
    """An integer from 0 to 2^bits - 1; any type that stands for an integer is taken, as numpy's."""
    try:
        value = value.__index__()
    except AttributeError:
        raise TypeError(f"{name}: {value!r} is no integer") from None
    if not 0 <= value < 1 << bits:
        raise ValueError(f"{name}: {value} is not from 0 to 2^{bits} - 1")
    return value


def is_number(given: Any) -> bool:
    """Whether this is one number, of Python or of numpy, and no buffer."""
    return hasattr(given, "__float__") and not hasattr(given, "__len__")


def single(name: str, value: float) -> float:
    """The nearest 32-bit float, as a Python float."""
    try:
        if isinstance(value, (str, bytes)):
            raise TypeError
        return ctypes.c_float(float(value)).value
    except (TypeError, ValueError):
        raise TypeError(f"{name}: {value!r} is no number") from None


def singles(name: str, values: Iterable[float], count: int) -> "array.array[float]":
    """So many 32-bit floats."""
    made = array.array("f", [single(f"{name}[{i}]", x) for i, x in enumerate(values)])
    if len(made) != count:
        raise ValueError(f"{name}: has {len(made)} numbers in place of {count}")
    return made


def place_in(name: str, value: Union[str, int], names: Sequence[str]) -> int:
    """The place of a wave or a style, given by its name or its place."""
    if isinstance(value, str):
        if value not in names:
            raise ValueError(f"{name}: {value!r} is none of {', '.join(names)}{nearest(value, names)}")
        return names.index(value)
    place = whole(name, value)
    if place >= len(names):
        raise ValueError(f"{name}: {place} is above {len(names) - 1}")
    return place


def bits_of(x: float) -> str:
    """The 8 digits of a 32-bit float."""
    return struct.pack(">f", x).hex()


def decimal_of(x: float) -> str:
    """The shortest decimal that is nearest to this 32-bit float, as 0.996."""
    for digits in range(1, 10):
        text = repr(float(f"{x:.{digits}g}"))
        if ctypes.c_float(float(text)).value == x:
            break
    return text[:-2] if text.endswith(".0") else text


def of_bits(digits: str) -> float:
    """The 32-bit float of 8 digits."""
    value: float = struct.unpack(">f", bytes.fromhex(digits))[0]
    return value


def nearest(name: str, names: Iterable[str]) -> str:
    """The words '; did you mean X?' for the name that is most like another one, or nothing."""
    import difflib
    found = difflib.get_close_matches(str(name).lower(), list(names), 1, 0.5)
    return f"; did you mean {found[0]!r}?" if found else ""
