#!/usr/bin/env python3
"""Holds calls through python/tono/ to the reference, as `compare call-cases FIRST COUNT` writes them to standard
input (compare/src/call_stream.rs has the form).

usage: calls.py FIRST           FIRST numbers the cases in messages

Each call is held to its number, its draws, the session or the state after it, its frames bit for bit (one NaN counts as
any other), that a refused call changes nothing, that what is only read stays, and that nothing past what a call uses
changes; a score call also to what `plan` gives. Buffers are lent as each kind of object in turn. The last lines are
the outcomes and 'C calls, D differ'.
"""
import array
import collections
import ctypes
import struct
import sys
from typing import Any, BinaryIO, Callable, Counter, Iterable, Iterator, List, Optional, Sequence, Tuple

import tono

NUMBERS = 26
NO_CALL = 2**32 - 1
SHOWN = 5
MARK = 0x4C012345
MARKED = struct.unpack("<f", struct.pack("<I", MARK))[0]


class Reader:
    """Numbers, words and floats from standard input."""

    def __init__(self, file: BinaryIO) -> None:
        self.file = file

    def _take(self, code: str, count: int, size: int) -> "array.array[Any]":
        data = self.file.read(count * size)
        if len(data) != count * size:
            sys.exit("calls: the input broke off")
        taken: "array.array[Any]" = array.array(code, data)
        return taken

    def head(self) -> "array.array[int]":
        data = self.file.read(8 * NUMBERS)
        if data and len(data) != 8 * NUMBERS:
            sys.exit("calls: the input broke off")
        return array.array("Q", data)

    def numbers(self, count: int) -> List[int]:
        return list(self._take("Q", count, 8))

    def words(self, count: int) -> "array.array[int]":
        return self._take("I", count, 4)

    def floats(self, count: int) -> "array.array[float]":
        return self._take("f", count, 4)


def single(bits: int) -> float:
    value: float = struct.unpack("<f", struct.pack("<I", bits))[0]
    return value


def lent(values: "array.array[Any]", kind: int) -> Any:
    """The same values as one of five kinds of buffer; the last is read-only."""
    if kind == 1:
        return memoryview(values)
    if kind == 2:
        return memoryview(bytearray(values.tobytes())).cast(values.typecode)
    if kind == 3:
        item: Any = {"f": ctypes.c_float, "I": ctypes.c_uint32}[values.typecode]
        return (item * len(values)).from_buffer_copy(values)
    if kind == 4:
        return memoryview(values.tobytes()).cast(values.typecode)
    return values


def room(count: int, kind: int) -> Any:
    return lent(array.array("f", [MARKED]) * count, kind % 4)


def raw(buffer: Any) -> bytes:
    return memoryview(buffer).tobytes()


def same_frames(ours: Any, theirs: Any) -> bool:
    """Bit for bit, but that one NaN is as good as any other."""
    ours, theirs = raw(ours), raw(theirs)
    if ours == theirs:
        return True
    pairs = zip(array.array("I", ours), array.array("I", theirs))
    return len(ours) == len(theirs) and all(a == b or a & b & 0x7F800000 == 0x7F800000
                                            and a & 0x7FFFFF and b & 0x7FFFFF for a, b in pairs)


def marked(buffer: Any, used: int) -> bool:
    return raw(memoryview(buffer)[used:]) == raw(array.array("f", [MARKED]) * (len(buffer) - used))


def call(made: Callable[[], Any]) -> Tuple[Any, int]:
    """What a call gives and its number: a refusal's, or NO_CALL for what Python does not pass on."""
    try:
        return made(), 0
    except tono.Refused as refused:
        return None, refused.number
    except ValueError:
        return None, NO_CALL


def faults(tests: List[Tuple[str, bool]]) -> Optional[str]:
    return next((name for name, fault in tests if fault), None)


def points_of(words: Iterable[int]) -> Iterator[tono.TempoPoint]:
    for low, high, den, tempo in zip(*[iter(words)] * 4):
        num = high << 32 | low
        yield tono.TempoPoint(num - (num >> 63 << 64), den, single(tempo))


def score_case(head: Sequence[Any], reader: Reader, place: int) -> Tuple[int, Optional[str]]:
    """The reference's number, and what differs."""
    (_, station, rate, tempo, steps, swing, humanize, hop, wave, style, duty, n, note_len, string_len, seeds, counts,
     knobs, bars, env, words, lane, points, frame_count, number, draws, plan) = head
    all_seeds, before, after = (reader.numbers(8) for _ in range(3))
    knobs, bars, env = reader.floats(knobs), reader.floats(bars), reader.floats(env)
    words, lane = lent(reader.words(words), place % 5), lent(reader.floats(lane), place // 5 % 5)
    points, frames = list(points_of(reader.words(points))), reader.floats(frame_count)
    out, note_buffer, string_buffer = (room(count, place // 3 + k) for k, count in enumerate((n, note_len, string_len)))
    was = raw(words), raw(lane)
    own = place % 3 == 0 and note_len >= n and string_len >= 9600
    rooms = {} if own else {"note_buffer": note_buffer, "string_buffer": string_buffer}

    def prepared() -> Tuple[tono.Session, tono.Seq]:
        session = tono.Session(seeds=(all_seeds + [1] * 9)[:seeds], draws=(before + [1] * 9)[:counts])
        return session, tono.Seq(rate, single(tempo), steps, points, single(swing), single(humanize), hop, wave, style,
                                 single(duty), knobs, bars, env)

    made, found = call(prepared)
    if made is None:
        return number, faults([("number", found != number)])
    session, seq = made
    plan_made, plan_number = call(lambda: tono.plan(session, seq, words, n, lane=lane, station=station))
    kept = session.draws == tuple(before)
    played, found = call(lambda: tono.render(session, seq, words, out, lane=lane, station=station, **rooms))
    used = (n, 9600) if found == 0 and not own else (0, 0)
    return number, faults([
        ("plan", (plan_made if plan_number == 0 else -plan_number % 2**64) != plan or not kept),
        ("number", found != number),
        ("seeds", session.seeds != tuple(all_seeds)),
        ("counts", session.draws != tuple(after)),
        ("draws", played is not None and (played.draws != draws or played.draw_after != after[station])),
        ("output", not (same_frames(out, frames) if found == 0 else marked(out, 0))),
        ("note buffer", not marked(note_buffer, used[0])), ("string", not marked(string_buffer, used[1])),
        ("input", (raw(words), raw(lane)) != was),
    ])


def note_case(head: Sequence[Any], reader: Reader, place: int) -> Tuple[int, Optional[str]]:
    (_, rate, wave, style, gain, state, n, string_len, knobs, bars, pitch, duty, frame_count, number, draws,
     after) = head[:16]
    knobs, bars = reader.floats(knobs), reader.floats(bars)
    pitch, duty = lent(reader.floats(pitch), place % 5), lent(reader.floats(duty), place // 5 % 5)
    frames, out, string = reader.floats(frame_count), room(n, place // 3), room(string_len, place // 3 + 1)
    was = raw(pitch), raw(duty)
    rooms = {} if place % 3 == 0 and string_len >= 9600 else {"string_buffer": string}
    signal, found = call(lambda: tono.note(
        tono.Seq(rate, wave=wave, style=style, knobs=knobs, bars=bars), single(gain), pitch, out, duty=duty, state=state,
        **rooms))
    return number, faults([
        ("number", found != number),
        ("draws", signal is not None and (signal.draws, signal.state) != (draws, after)),
        ("output", not (same_frames(out, frames) if found == 0 else marked(out, 0))),
        ("string", not marked(string, 9600 if found == 0 and rooms else 0)),
        ("input", (raw(pitch), raw(duty)) != was),
    ])


def main(first: int) -> bool:
    reader, place, differ = Reader(sys.stdin.buffer), first, 0
    outcomes: Counter[Tuple[str, int]] = collections.Counter()
    while True:
        head = reader.head()
        if not head:
            break
        kind = "note" if head[0] else "score"
        number, fault = (note_case if head[0] else score_case)(head, reader, place)
        outcomes[kind, number] += 1
        if fault:
            differ += 1
            if differ <= SHOWN:
                print(f"  case {place}, a {kind} call of number {number}: {fault}")
        place += 1
    for (kind, number), count in sorted(outcomes.items()):
        print(f"{kind} {number}: {count}")
    print(f"{place - first} calls, {differ} differ")
    return differ > 0


if __name__ == "__main__":
    if len(sys.argv) != 2 or not sys.argv[1].isdigit():
        sys.exit("usage: compare call-cases FIRST COUNT | calls.py FIRST")
    sys.exit(main(int(sys.argv[1])))
