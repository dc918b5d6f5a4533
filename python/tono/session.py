"""A session: eight stations, each with a seed and a draw count."""
from __future__ import annotations

import ctypes
import threading
from typing import Any, List, Optional, Sequence, Tuple

from .errors import Refused
from .names import STATIONS, STRING_LENGTH
from .singles import whole


class Session:
    """Eight stations, 0 to 7, each with a seed and a draw count.

    Session(seed=5) opens station 0 with seed 5, the others with seed 0. Session(seeds=[..]) opens all
    eight. Counts are 0, or `draw` of station 0, or `draws` of all. A score call plays from the seed and
    the count of the station that it names, and adds its draws to that count; nothing else changes.
    """

    def __init__(self, seed: Optional[int] = None, draw: Optional[int] = None, *,
                 seeds: Optional[Sequence[int]] = None, draws: Optional[Sequence[int]] = None) -> None:
        for one, all_of in (("seed", "seeds"), ("draw", "draws")):
            if {"seed": seed, "draw": draw}[one] is not None and {"seeds": seeds, "draws": draws}[all_of] is not None:
                raise ValueError(f"{one} and {all_of} are both given: give {one}= for station 0, or {all_of}= for all eight")
        all_seeds = _eight("seeds", [0 if seed is None else seed, *[0] * 7] if seeds is None else seeds)
        all_draws = _eight("draws", [0 if draw is None else draw, *[0] * 7] if draws is None else draws)
        self._seeds = (ctypes.c_uint64 * STATIONS)(*all_seeds)
        self._draws = (ctypes.c_uint64 * STATIONS)(*all_draws)
        self._made = ctypes.c_uint64()
        self._lock = threading.Lock()
        at = ctypes.addressof
        self._note_buffer = (ctypes.c_float * 0)()
        self._string_buffer = (ctypes.c_float * STRING_LENGTH)()
        self._string_room = at(self._string_buffer), STRING_LENGTH
        self._arguments = (at(self._seeds), STATIONS, at(self._draws), STATIONS, at(self._made))

    @property
    def seeds(self) -> Tuple[int, ...]:
        """The eight seeds."""
        return tuple(self._seeds)

    @property
    def draws(self) -> Tuple[int, ...]:
        """The eight draw counts: how many draws each station has made, and at which it goes on."""
        return tuple(self._draws)

    def open(self, station: int, seed: int, draw: int = 0) -> None:
        """Sets a station, 0 to 7, to a seed and a count, each from 0 to 2^64 - 1."""
        seed, draw = whole("seed", seed, 64), whole("draw", draw, 64)
        if whole("station", station) >= STATIONS:
            raise Refused(33, f"station {station}")
        with self._lock:
            self._seeds[station], self._draws[station] = seed, draw

    def _note_room(self, count: int) -> Tuple[int, int]:
        """The session's own note buffer, at least so long."""
        if len(self._note_buffer) < count:
            self._note_buffer = (ctypes.c_float * count)()
        return ctypes.addressof(self._note_buffer), len(self._note_buffer)

    def __reduce__(self) -> Tuple[Any, ...]:
        return _session, (self.seeds, self.draws)

    def __eq__(self, other: object) -> bool:
        return isinstance(other, Session) and (self.seeds, self.draws) == (other.seeds, other.draws)

    __hash__ = None  # type: ignore[assignment]

    def __repr__(self) -> str:
        return f"Session(seeds={list(self.seeds)}, draws={list(self.draws)})"


def _session(seeds: Sequence[int], draws: Sequence[int]) -> Session:
    return Session(seeds=seeds, draws=draws)


def _eight(name: str, numbers: Sequence[int]) -> List[int]:
    eight = [whole(f"{name}[{i}]", n, 64) for i, n in enumerate(numbers)]
    if len(eight) != STATIONS:
        raise ValueError(f"{name}: has {len(eight)} numbers in place of {STATIONS}")
    return eight
