"""What the tests of python/tono/ share: cases that pass or fail, and numbers by their bits."""
import array
import struct
import sys
from typing import Any, Callable, List, NoReturn, Optional, Sequence, Type

passed = failed = 0


def expect(name: str, holds: bool, said: str = "") -> bool:
    """One case. Of those that fail the name is printed."""
    global passed, failed
    if holds:
        passed += 1
    else:
        failed += 1
        print(f"python: {name}: FAILED {said}".rstrip())
    return holds


def raised(call: Callable[[], Any], *kinds: Type[Exception]) -> Optional[Any]:
    """What a call raises of these kinds, or nothing."""
    try:
        call()
    except kinds as error:
        return error
    return None


def floats(digits: Sequence[str]) -> "array.array[float]":
    """An array of floats from their 8 hexadecimal digits each."""
    return array.array("f", words(digits).tobytes())


def words(digits: Sequence[str]) -> "array.array[int]":
    return array.array("I", [int(x, 16) for x in digits])


def single(digits: str) -> float:
    value: float = struct.unpack(">f", bytes.fromhex(digits))[0]
    return value


def patterns(values: Any) -> List[int]:
    """The bits of floats, every NaN as 7fc00000."""
    bits = array.array("I", memoryview(values).tobytes())
    return [x if x & 0x7FFFFFFF <= 0x7F800000 else 0x7FC00000 for x in bits]


def finish() -> NoReturn:
    print(f"{passed} passed, {failed} failed")
    sys.exit(failed > 0)
