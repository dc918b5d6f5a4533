"""The fields of a stimulus file, taken one by one: each mistake is one message with file, line, what was expected and the
nearest right name."""
from __future__ import annotations

import re
from decimal import Decimal
from typing import Any, Dict, List, NoReturn, Optional, Sequence, Tuple, Union

from .decimals import narrow
from .singles import nearest
from .toml_lines import Path, line_of


class StimulusError(ValueError):
    """A stimulus file that cannot be played: 'FILE:LINE: what is wrong and what was expected'."""


class Source:
    """A file's text, with the name that messages give it."""

    def __init__(self, text: str, name: str) -> None:
        self.text, self.name = text, name

    def fail(self, path: Path, said: str) -> NoReturn:
        raise StimulusError(f"{self.name}:{line_of(self.text, path)}: {said}")


def shown(value: Any) -> str:
    """A value as one would write it in the file."""
    if isinstance(value, bool):
        return str(value).lower()
    if isinstance(value, (dict, list)):
        text = "a table" if isinstance(value, dict) else f"an array of {len(value)}"
        return text
    return f'"{value}"' if isinstance(value, str) else str(value)


def is_number(value: Any) -> bool:
    return isinstance(value, (int, Decimal)) and not isinstance(value, bool)


class Table:
    """A table of the file, whose keys are taken one by one; `end` refuses those that nobody took."""

    def __init__(self, source: Source, path: Path, given: Dict[str, Any], what: str) -> None:
        self.source, self.path, self.given, self.what = source, path, given, what
        self.known: List[str] = []

    def fail(self, key: Any, said: str) -> NoReturn:
        self.source.fail((*self.path, key) if not isinstance(key, tuple) else (*self.path, *key), said)

    def has(self, key: str) -> bool:
        self.known.append(key)
        return key in self.given

    def take(self, key: str, expected: str) -> Any:
        """The value of a key that must be there."""
        if not self.has(key):
            self.source.fail(self.path, f"{self.what} has no {key}; add {key} = {expected}")
        return self.given[key]

    def number(self, key: str, usual: float) -> float:
        if not self.has(key):
            return usual
        return self.narrowed(key, self.given[key], key)

    def narrowed(self, at: Any, value: Any, what: str) -> float:
        """A decimal of the file as a 32-bit float."""
        if not is_number(value):
            self.fail(at, f"{what} is {shown(value)}; expected a number, as 0.5")
        return narrow(value)

    def whole(self, key: str, usual: Optional[int], most: int, expected: str) -> int:
        value = self.take(key, expected) if usual is None else self.given[key] if self.has(key) else usual
        return self.held(key, value, key, most)

    def held(self, at: Any, value: Any, what: str, most: int) -> int:
        if isinstance(value, bool) or not isinstance(value, int) or not 0 <= value <= most:
            self.fail(at, f"{what} is {shown(value)}; expected a whole number from 0 to {most}")
        return int(value)

    def text(self, key: str, usual: str) -> str:
        value = self.given[key] if self.has(key) else usual
        if not isinstance(value, str):
            self.fail(key, f"{key} is {shown(value)}; expected a text in quotes")
        return str(value)

    def choice(self, key: str, names: Sequence[str], usual: Optional[str], expected: str) -> str:
        value = self.take(key, expected) if usual is None else self.given[key] if self.has(key) else usual
        if value not in names:
            self.fail(key, f"{key} is {shown(value)}; expected one of {', '.join(names)}{nearest(str(value), names)}")
        return str(value)

    def table(self, key: str) -> Dict[str, Any]:
        value = self.given[key] if self.has(key) else {}
        if not isinstance(value, dict):
            self.fail(key, f"{key} is {shown(value)}; expected a table, as {key} = {{ .. }}")
        return dict(value)

    def rows(self, key: str) -> List[Any]:
        value = self.given[key] if self.has(key) else []
        if not isinstance(value, list):
            self.fail(key, f"{key} is {shown(value)}; expected an array, as {key} = [ .. ]")
        return list(value)

    def end(self) -> None:
        """Refuses the first key that nobody took."""
        for key in self.given:
            if key not in self.known:
                self.fail(key, f"{self.what} has no key {key}{nearest(key, self.known) or '; it has ' + ', '.join(self.known)}")


def seed_of(table: Table, key: str) -> int:
    """A seed: a TOML integer, or a text of 16 hexadecimal digits or 0x.., as a citation prints it."""
    value = table.take(key, '"0000000000005eed"')
    if isinstance(value, str):
        if re.fullmatch("[0-9a-fA-F]{16}|0[xX][0-9a-fA-F]{1,16}", value):
            return int(value, 16)
        table.fail(key, f"{key} is {shown(value)}; expected 16 hexadecimal digits as a citation has them, or 0x5eed")
    return table.held(key, value, key, 2**64 - 1)


def beat_of(table: Table, at: Any, value: Any) -> Tuple[int, int]:
    """A beat as numerator and denominator, as they are written: 7, 7.5, "15/2" or "7 1/2"."""
    if isinstance(value, str):
        found = re.fullmatch(r"(?:(-?[0-9]+) +)?(-?[0-9]+)/([0-9]+)|(-?[0-9]+)", value.strip())
        if found:
            num, den = (int(found[4]), 1) if found[4] else (int(found[2]), int(found[3]))
            if found[1]:
                num = int(found[1]) * den + (-num if found[1].startswith("-") else num)
            return _fits(table, at, value, num, den)
    elif isinstance(value, Decimal) and value.is_finite():
        return _fits(table, at, value, *value.as_integer_ratio())
    elif is_number(value) and isinstance(value, int):
        return _fits(table, at, value, value, 1)
    table.fail(at, f'the beat is {shown(value)}; expected 7, 7.5, "15/2" or "7 1/2"')


def _fits(table: Table, at: Any, value: Any, num: int, den: int) -> Tuple[int, int]:
    if not 0 < den < 2**32 or abs(num) > 10**9:
        table.fail(at, f'the beat {shown(value)} is {num}/{den}; expected a numerator up to 1000000000 and a denominator from 1 to '
                       f'{2**32 - 1}: write it as a fraction, as "7 1/2"')
    return num, den


def frames_of(table: Table, rate: int) -> int:
    """The length: `frames`, or `seconds` times the rate, to the nearest frame, halves up."""
    frames, seconds = table.has("frames"), table.has("seconds")
    if frames == seconds:
        said = "both frames and seconds" if frames else "neither frames nor seconds"
        table.fail("frames" if frames else (), f"the stimulus has {said}; write one of them, as seconds = 2")
    if frames:
        return table.whole("frames", None, 2**63 - 1, "96000")
    value = table.given["seconds"]
    if not is_number(value) or not Decimal(value).is_finite() or value < 0:
        table.fail("seconds", f"seconds is {shown(value)}; expected a number of seconds, as 2 or 0.25")
    return int(Decimal(value) * rate + Decimal("0.5"))


Number = Union[int, Decimal]
