"""Buffers that a call is lent: their items, their addresses, and that they are apart from each other."""
from __future__ import annotations

import array
import ctypes
from typing import FrozenSet, Sequence, Tuple

from .names import Buffer, Values
from .singles import single

class _PyBuffer(ctypes.Structure):
    """CPython's Py_buffer, of which only the address is read."""
    _fields_ = [("buf", ctypes.c_void_p), ("obj", ctypes.c_void_p), ("len", ctypes.c_ssize_t),
                ("itemsize", ctypes.c_ssize_t), ("readonly", ctypes.c_int), ("ndim", ctypes.c_int),
                ("format", ctypes.c_void_p), ("shape", ctypes.c_void_p), ("strides", ctypes.c_void_p),
                ("suboffsets", ctypes.c_void_p), ("internal", ctypes.c_void_p)]


# Where an empty buffer points to: the library takes no null pointer.
_NOWHERE = (ctypes.c_uint64 * 1)()
NOWHERE_AT = ctypes.addressof(_NOWHERE)
# The formats of items, as memoryview names them, and what they are in words. `L` has 32 bits in the standard sizes.
FLOATS = (frozenset(["f", "@f", "=f", "<f"]), "32-bit floats, as array('f') or numpy.float32")
WORDS = (frozenset(["I", "@I", "=I", "<I", "=L", "<L"]), "unsigned 32-bit integers, as array('I') or numpy.uint32")
BITS = (FLOATS[0] | WORDS[0], "32-bit floats or unsigned 32-bit integers, as array('f') or numpy.float32")


def address_of(view: memoryview) -> int:
    """Where the bytes of a view stand. They stay there as long as the view is held."""
    if not view.nbytes:
        return NOWHERE_AT
    if not view.readonly:
        return ctypes.addressof(ctypes.c_ubyte.from_buffer(view))
    raw = _PyBuffer()
    ctypes.pythonapi.PyObject_GetBuffer(ctypes.py_object(view), ctypes.byref(raw), 0)
    address: int = raw.buf
    ctypes.pythonapi.PyBuffer_Release(ctypes.byref(raw))
    return address


class Lent:
    """A buffer that a call is lent: its address, how many items it has, and the view that holds it there."""
    __slots__ = ("name", "view", "at", "count")

    def __init__(self, name: str, given: Buffer, items: Tuple[FrozenSet[str], str], written: bool = False) -> None:
        try:
            view = memoryview(given)
        except TypeError:
            raise TypeError(f"{name}: {type(given).__name__} is no buffer; lend one of {items[1]}") from None
        if view.format not in items[0]:
            raise TypeError(f"{name}: its items are of type {view.format!r}; lend {items[1]}")
        if view.ndim != 1 or not view.c_contiguous or written and view.readonly:
            raise ValueError(f"{name}: {_fault(view)}")
        self.name, self.view, self.count, self.at = name, view, view.nbytes // 4, address_of(view)
        if self.at % 4:
            raise ValueError(f"{name}: does not begin at a multiple of 4 bytes; lend a copy")

    def items(self) -> memoryview:
        """The items as Python reads them, whatever byte order their format names."""
        return self.view.cast("B").cast("f" if self.view.format in FLOATS[0] else "I")


def _fault(view: memoryview) -> str:
    """Why a view is not lent."""
    if view.ndim != 1:
        return f"has {view.ndim} dimensions; lend a buffer of one, as out.reshape(-1) of numpy"
    if not view.c_contiguous:
        return "its items have gaps between them; lend a copy"
    return "is read-only, and the call writes to it"


def read_values(name: str, given: Values, items: Tuple[FrozenSet[str], str] = FLOATS) -> "Lent":
    """A lane, a pitch or a duty: a buffer of 32-bit floats, or a list of numbers that are copied into one."""
    if isinstance(given, (list, tuple)):
        given = array.array("f", [single(f"{name}[{i}]", x) for i, x in enumerate(given)])
    return Lent(name, given, items)


def judge_apart(written: Sequence[Lent], read: Sequence[Lent]) -> None:
    """What is written to overlaps nothing else that a call is lent."""
    for i, one in enumerate(written):
        for other in (*written[i + 1:], *read):
            if one.at < other.at + 4 * other.count and other.at < one.at + 4 * one.count:
                raise ValueError(f"{one.name} and {other.name} overlap; lend buffers apart from each other")


def zeros(count: int) -> "array.array[float]":
    return array.array("f", [0.0]) * count


def bytes_of(name: str, given: Buffer) -> memoryview:
    """Bytes to read: bytes, a bytearray or any other buffer, or a str, which is encoded."""
    if isinstance(given, str):
        given = given.encode()
    try:
        return memoryview(given).cast("B")
    except TypeError:
        raise TypeError(f"{name}: {type(given).__name__} is neither bytes nor a str, or its items have gaps") from None


def bytes_to_write(name: str, given: Buffer) -> memoryview:
    view = bytes_of(name, given)
    if view.readonly:
        raise ValueError(f"{name}: is read-only, and the call writes to it")
    return view


def judge_bytes_apart(written: memoryview, read: memoryview) -> None:
    one, other = address_of(written), address_of(read)
    if one < other + read.nbytes and other < one + written.nbytes:
        raise ValueError("what is written to overlaps what is read; lend buffers apart from each other")
