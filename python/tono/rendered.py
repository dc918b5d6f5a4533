"""What an accepted call played, with what a citation needs of it."""
from __future__ import annotations

import array
from typing import Any, Tuple, Union

from .names import Buffer
from .singles import GOLDEN_GAMMA


class Rendered:
    """What an accepted call played.

    frames: the buffer that was lent, or a new array("f")
    rate: frames a second
    draws: how many draws the call made
    seed, station: those that it played from
    draw_before, draw_after: the station's count before the call and after it

    It can be pickled, and then has its own copy of the frames and of the input.
    """
    __slots__ = ("frames", "rate", "draws", "seed", "station", "draw_before", "draw_after", "_played")

    def __init__(self, frames: Buffer, rate: int, draws: int, seed: int, station: int, draw_before: int,
                 played: Union[bytes, Tuple[Any, ...]]) -> None:
        """played: the input's bytes, or the four arguments of a Score."""
        self.frames, self.rate, self.draws = frames, rate, draws
        self.seed, self.station = seed, station
        self.draw_before, self.draw_after = draw_before, draw_before + draws
        self._played = played

    @property
    def state(self) -> int:
        """The generator's state after the call, from which `note` goes on."""
        return (self.seed + self.draw_after * GOLDEN_GAMMA) % 2**64

    @property
    def input(self) -> bytes:
        """What was played, as the bytes to publish with the citation: a text score itself, or
        Score.to_bytes of numbers, notes and lane, as notes and lane are now."""
        if isinstance(self._played, bytes):
            return self._played
        from .inputs import Score
        return Score(*self._played).to_bytes()

    def cite(self) -> str:
        """The citation of what was played (see the function `cite`). The input is played again for it. If
        notes, lane or frames were changed since the call, this is a ValueError."""
        from .citations import citation_of, play_input
        from .wavefiles import file_sum
        played = play_input(self.input, self.seed, self.draw_before, self.station)
        if file_sum(self.rate, played.frames) != file_sum(self.rate, self.frames):
            raise ValueError("notes, lane or frames were changed since the call; cite before you change them")
        return citation_of(played)

    def __reduce__(self) -> Tuple[Any, ...]:
        frames = array.array("f", memoryview(self.frames).tobytes())
        return Rendered, (frames, self.rate, self.draws, self.seed, self.station, self.draw_before, self.input)

    def __repr__(self) -> str:
        count = memoryview(self.frames).nbytes // 4
        return (f"<Rendered: {count} frames at {self.rate} a second, {count / self.rate if self.rate else 0:.4g} s; station "
                f"{self.station}, seed {self.seed:016x}, draws {self.draw_before} to {self.draw_after}>")
