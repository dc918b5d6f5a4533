"""The shared library: where it is found, which version is taken, and the floating-point mode that it needs."""
from __future__ import annotations

import ctypes
import os
import sys
import threading
from typing import Any, Dict, Iterator, List, NoReturn, Optional, Tuple

from .errors import LibraryError, Refused, malformed
from .names import VERSION

#: The answer of a call that is none.
MALFORMED = 2**32 - 1
_NAMES = ("libtono.so", "libtono.so." + VERSION.split(".")[0])
_SYSTEM = ("/usr/local/lib", "/usr/lib/x86_64-linux-gnu", "/usr/lib64", "/usr/lib")
_TO_BUILD = "run ./shared-library at the top of the repository, or set TONO_LIBRARY to the library's path"
_POINTER, _SIZE, _LONG = ctypes.c_void_p, ctypes.c_size_t, ctypes.c_int64
_WORD, _SINGLE = ctypes.c_uint32, ctypes.c_float
_SLICE = [_POINTER, _SIZE]
# station, rate, tempo, steps per beat, tempo points, swing, humanize, hop, wave, style, duty, knobs, drawbars, envelope
_SEQ = [_WORD, _WORD, _SINGLE, _WORD, *_SLICE, _SINGLE, _SINGLE, _WORD, _WORD, _WORD, _SINGLE,
        *_SLICE, *_SLICE, *_SLICE]
CALLS: Dict[str, Tuple[Any, List[Any]]] = {
    "tono_render_seq": (_WORD, [*_SLICE, *_SLICE, _POINTER, *_SEQ, *_SLICE, *_SLICE, *_SLICE, *_SLICE, *_SLICE]),
    "tono_planned_draws": (_WORD, [*_SLICE, *_SLICE, _POINTER, *_SEQ, *_SLICE, *_SLICE, _SIZE]),
    "tono_note": (_WORD, [_WORD, _WORD, _WORD, *_SLICE, *_SLICE, _SINGLE, _POINTER, _POINTER,
                          *_SLICE, *_SLICE, *_SLICE, *_SLICE]),
    "tono_play": (_LONG, [*_SLICE, *_SLICE]),
    "tono_plan": (_LONG, [*_SLICE, _POINTER]),
    "tono_cue_sheet": (_LONG, [*_SLICE, *_SLICE]),
    "tono_wave_write": (_LONG, [_WORD, *_SLICE, *_SLICE]),
    "tono_wave_read": (_LONG, [*_SLICE, _POINTER, *_SLICE]),
}
_loading = threading.Lock()
_loaded: Optional[ctypes.CDLL] = None


def _folders() -> Iterator[str]:
    """Where the library may be: in the package, beside it, in target/lib of its repository, and where systems have
    their libraries."""
    here = os.path.dirname(os.path.realpath(__file__))
    above = os.path.dirname(here)
    yield from (here, above, os.path.join(os.path.dirname(above), "target", "lib"), *_SYSTEM)


def library_path() -> str:
    """The path of the library: what TONO_LIBRARY names, else in or beside this package, else in target/lib of its
    repository, else where systems have their libraries. LibraryError where there is none."""
    named = os.environ.get("TONO_LIBRARY")
    if named:
        if not os.path.isfile(named):
            raise LibraryError(f"TONO_LIBRARY names {named}, which is no file; {_TO_BUILD}")
        return named
    for folder in _folders():
        for name in _NAMES:
            path = os.path.join(folder, name)
            if os.path.isfile(path):
                return path
    raise LibraryError(f"there is no {_NAMES[0]}; {_TO_BUILD}")


def _judge_version(library: ctypes.CDLL, path: str) -> None:
    """Holds the version that the library has in it to this package's."""
    try:
        version = ctypes.string_at(ctypes.addressof(ctypes.c_char.in_dll(library, "tono_library_version"))).decode()
    except ValueError:
        raise LibraryError(f"{path} does not say its version; {_TO_BUILD}") from None
    if version != VERSION:
        raise LibraryError(f"{path} has version {version}, and this module {VERSION}; take both from one revision: "
                           f"{_TO_BUILD}")


def _load() -> ctypes.CDLL:
    path = library_path()
    try:
        library = ctypes.CDLL(path)
    except OSError as error:
        raise LibraryError(f"{path} cannot be loaded: {error}; {_TO_BUILD}") from error
    _judge_version(library, path)
    for name, (answer, arguments) in CALLS.items():
        try:
            call = getattr(library, name)
        except AttributeError:
            raise LibraryError(f"{path} has no {name}; {_TO_BUILD}") from None
        call.restype, call.argtypes = answer, arguments
    return library


# Numbers that are computed with, as variables: the smallest normal and the smallest subnormal one, and two whose sum and
# difference are the first again where results are rounded to nearest.
_normal, _subnormal, _one, _little = sys.float_info.min, 5e-324, 1.0, 2.0**-60


def fp_ok() -> bool:
    """Whether this thread rounds to nearest and keeps subnormals, as every call needs it."""
    return not (_normal * 0.5 == 0.0 or _subnormal == 0.0 or _one + _little != 1.0 or _one - _little != 1.0)


def _refuse_mode() -> NoReturn:
    if _normal * 0.5 == 0.0 or _subnormal == 0.0:
        raise RuntimeError("this thread flushes subnormal numbers to zero, so that frames could have other bits; a "
                           "package that was built with -ffast-math sets that when it is imported: play scores in a "
                           "process, or a thread, without it")
    way = "up" if _one + _little != 1.0 else "toward zero" if -_one - _little == -1.0 else "down"
    raise RuntimeError(f"this thread rounds {way} and not to nearest, so that frames and draws would be others; set it "
                       "back before the call, as by ctypes.CDLL('libm.so.6').fesetround(0), or play scores in a thread "
                       "of its own")


def library_calls() -> ctypes.CDLL:
    """The library, loaded at the first call. Its bits hold in the floating-point mode that a program starts
    with, so each call looks whether this thread has it."""
    global _loaded
    if not fp_ok():
        _refuse_mode()
    if _loaded is None:
        with _loading:
            if _loaded is None:
                _loaded = _load()
    return _loaded


def answered(number: int) -> int:
    """A length that a call hands back, or minus a refusal's number."""
    if number < 0:
        raise Refused(-number)
    return number


def refuse(number: int, place: Optional[str] = None) -> NoReturn:
    """Raises what a call's number says, which is not 0."""
    if number == MALFORMED:
        raise malformed()
    raise Refused(number, place)
