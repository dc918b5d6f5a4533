"""The vectors of crates/*_vectors and crates/replay through python/tono/: note calls, score calls, text scores, cue
sheets and WAVE files, with the answers of the original and of the references. Buffers are lent as each kind of
object that has the buffer protocol in turn. The last line is 'N passed, M failed'."""
import array
import ctypes
import os
from typing import Any, Callable, Dict, Iterator, List, Optional, Sequence, Tuple

import tono
from python_cases import expect, finish, floats, patterns, single, words

CRATES = os.path.join(os.path.dirname(os.path.dirname(os.path.abspath(__file__))), "crates")
NO_CALL = 2**32 - 1
FRAME_BEFORE = 1.0
BYTE_BEFORE = ord(".")
WORD_BEFORE = 0x2E2E2E2E


def lines_of(crate: str) -> List[str]:
    with open(os.path.join(CRATES, crate, "stdout"), encoding="ascii") as file:
        return file.read().splitlines()


def bytes_of(crate: str, name: str) -> bytes:
    with open(os.path.join(CRATES, crate, name), "rb") as file:
        return file.read()


def lent(values: "array.array[Any]", place: int) -> Any:
    """The same values as another kind of buffer for each place; the last kind is read-only."""
    item: Any = {"f": ctypes.c_float, "I": ctypes.c_uint32}[values.typecode]
    kinds: List[Callable[[], Any]] = [
        lambda: values,
        lambda: memoryview(values),
        lambda: memoryview(bytearray(values.tobytes())).cast(values.typecode),
        lambda: (item * len(values))(*values),
        lambda: memoryview(values.tobytes()).cast(values.typecode),
    ]
    return kinds[place % len(kinds)]()


def writable(count: int, place: int) -> Any:
    filled = array.array("f", [FRAME_BEFORE]) * count
    return lent(filled, place % 4)


# ---- notes

def note_case(place: int, line: str) -> None:
    fields = line.split(" ")
    wave, style, rate, gain, state = fields[1:6]
    frames, count = int(fields[6], 16), int(fields[7], 16)
    at = 8
    parts = []
    for length in (count, count, 22, 10, frames):
        parts.append(fields[at:at + length])
        at += length
    pitch, duty, knobs, bars, samples = parts
    after, out = int(fields[at], 16), writable(frames, place)
    seq = tono.Seq(rate=int(rate, 16), wave=int(wave, 16), style=int(style, 16), knobs=floats(knobs), bars=floats(bars))
    prolonged = [floats(part + part[-1:] * (frames - count)) for part in (pitch, duty)]
    played = tono.note(seq, single(gain), lent(prolonged[0], place), out, duty=lent(prolonged[1], place + 1),
                       state=int(state, 16))
    drawn = (played.state - int(state, 16) - played.draws * 0x9E3779B97F4A7C15) % 2**64
    expect(f"note {place}", patterns(out) == [int(x, 16) for x in samples] and played.state == after and drawn == 0)


# ---- scores

def score_of(line: str) -> Tuple[Dict[str, str], Dict[str, List[str]], List[str]]:
    """A call's own fields, its lists and its answer."""
    fields = line.split(" ")[1:]
    names = ("rate tempo steps_per_beat swing humanize wave duty out note_buf string knobs env words lane points hop "
             "station bars style").split()
    head = dict(zip(names, fields))
    at = len(names)
    lists: Dict[str, List[str]] = {}
    for name in ("knobs", "bars", "env", "words", "lane", "points"):
        count = int(head[name], 16)
        lists[name] = fields[at:at + count]
        at += count
    return head, lists, fields[at:]


def points_of(digits: Sequence[str]) -> Iterator[tono.TempoPoint]:
    values = [int(x, 16) for x in digits]
    for low, high, den, tempo in zip(*[iter(values)] * 4):
        num = (high << 32 | low)
        yield tono.TempoPoint(num - (num >> 63 << 64), den, single(f"{tempo:08x}"))


def seq_of(head: Dict[str, str], lists: Dict[str, List[str]]) -> tono.Seq:
    return tono.Seq(
        rate=int(head["rate"], 16), tempo=single(head["tempo"]), steps_per_beat=int(head["steps_per_beat"], 16),
        tempo_map=list(points_of(lists["points"])), swing=single(head["swing"]), humanize=single(head["humanize"]),
        hop=int(head["hop"], 16), wave=int(head["wave"], 16), style=int(head["style"], 16), duty=single(head["duty"]),
        knobs=floats(lists["knobs"]), bars=floats(lists["bars"]), env=floats(lists["env"]))


def score_call(session: tono.Session, place: int, head: Dict[str, str],
               lists: Dict[str, List[str]]) -> Tuple[int, Optional[tono.Rendered], Dict[str, Any]]:
    """The number, the draws, the frames and the scratch of a call."""
    room = {name: writable(int(head[name], 16), place + k) for k, name in enumerate(("out", "note_buf", "string"))}
    number, played = 0, None
    try:
        played = tono.render(
            session, seq_of(head, lists), lent(words(lists["words"]), place), room["out"],
            lane=lent(floats(lists["lane"]), place + 1), station=int(head["station"], 16),
            note_buffer=room["note_buf"], string_buffer=room["string"])
    except tono.Refused as refused:
        number = refused.number
    except ValueError:
        number = NO_CALL
    return number, played, room


def planned(session: tono.Session, place: int, head: Dict[str, str], lists: Dict[str, List[str]]) -> int:
    """What plan says: the draws, or minus a number."""
    try:
        return tono.plan(session, seq_of(head, lists), lent(words(lists["words"]), place), int(head["out"], 16),
                         lane=lent(floats(lists["lane"]), place), station=int(head["station"], 16))
    except tono.Refused as refused:
        return -refused.number


def score_case(session: tono.Session, place: int, line: str) -> None:
    head, lists, answer = score_of(line)
    number, draws, state = (int(x, 16) for x in answer[:3])
    counts, frames = [int(x, 16) for x in answer[3:11]], [int(x, 16) for x in answer[11:]]
    if len(lists["points"]) % 4:
        # a tempo map has no words of its own in Python
        expect(f"score {place} is malformed", number == NO_CALL and list(session.draws) == counts)
        return
    plan = planned(session, place, head, lists) if number not in (NO_CALL, 20, 21) else None
    seeds = session.seeds
    got, played, room = score_call(session, place, head, lists)
    same = got == number and patterns(room["out"]) == frames and session.seeds == seeds and list(session.draws) == counts
    if number == 0:
        same &= played is not None and played.draws == draws and played.state == state and plan == draws
    elif plan is not None:
        same &= plan == -number
    used = {"note_buf": int(head["out"], 16), "string": 9600} if number == 0 else {"note_buf": 0, "string": 0}
    same &= all(set(list(room[name])[n:]) <= {FRAME_BEFORE} for name, n in used.items())
    expect(f"score {place}, number {number}", same, f"got {got}")


def scores() -> None:
    session = tono.Session()
    for place, line in enumerate(lines_of("score_vectors")):
        if line.startswith("open "):
            numbers = [int(x, 16) for x in line.split(" ")[1:17]]
            session = tono.Session(seeds=numbers[::2], draws=numbers[1::2])
        else:
            score_case(session, place, line)


# ---- texts, sheets and files: a line and then bytes

def cases_of(crate: str, fields: int) -> Iterator[Tuple[str, List[str], bytes]]:
    """The line's fields and the bytes of each case in stdin."""
    data, at = bytes_of(crate, "stdin"), 0
    while at < len(data):
        end = data.index(b"\n", at)
        line = data[at:end].decode("ascii")
        length = int(line.split(" ")[1], 16)
        yield line, line.split(" ", fields), data[end + 1:end + 1 + length]
        at = end + 1 + length


class Answers:
    """What stdout has after each line, taken piece by piece."""

    def __init__(self, crate: str) -> None:
        self.data, self.at = bytes_of(crate, "stdout"), 0

    def line(self) -> str:
        end = self.data.index(b"\n", self.at)
        line, self.at = self.data[self.at:end].decode("ascii"), end + 1
        return line

    def take(self, count: int) -> bytes:
        self.at += count + 1
        return self.data[self.at - count - 1:self.at - 1]


def signed(digits: str) -> int:
    value = int(digits, 16)
    return value - (value >> 63 << 64)


def fnv(data: bytes) -> int:
    value = 0xCBF29CE484222325
    for byte in data:
        value = (value ^ byte) * 0x100000001B3 & 0xFFFFFFFFFFFFFFFF
    return value


def length_of(call: Callable[[], Any]) -> Any:
    """The length that a call reports, or minus a refusal's number."""
    try:
        return call()
    except tono.Refused as refused:
        return -refused.number


def listed(played: tono.Rendered, listing: bytes) -> bool:
    """Whether what was played is what its listing says."""
    rows = [row.split(b"\t") for row in listing.split(b"\n")[:-1]]
    state, draws = rows[0][1].decode(), rows[0][2].decode()
    return ((f"{played.state:016x}", str(played.draw_after)) == (state, draws)
            and patterns(played.frames) == [int(row[2], 16) for row in rows[1:]])


def texts() -> None:
    answers = Answers("replay")
    seen: Dict[bytes, int] = {}
    for line, (command, _, room, _), text in cases_of("replay", 3):
        told = answers.line()[len(line) + 1:].split(" ")
        answer, reply = signed(told[0]), bytearray([BYTE_BEFORE]) * int(room, 16)
        played = length_of(lambda: tono.play_text(text, reply=reply))
        shown = answers.take(len(reply)) if command == "show" else b""
        whole = bytes(reply)
        if shown.startswith(b"R"):
            # a refused text is an exception in Python, and the reply stays as it was
            same = played == -int(shown[2:shown.index(b"\n")]) and set(whole) == {BYTE_BEFORE}
        else:
            seen.setdefault(whole, fnv(whole))
            same = seen[whole] == int(told[1], 16) and (not shown or shown == whole)
            same &= played == answer if answer < 0 else listed(played, whole[:answer]) and tono.plan_text(text) == played.draws
        expect(f"text {line}", same)


def sheets() -> None:
    answers = Answers("cue_vectors")
    for line, (_, _, room, _), text in cases_of("cue_vectors", 3):
        answer, page = signed(answers.line()[len(line) + 1:]), bytearray([BYTE_BEFORE]) * int(room, 16)
        got = length_of(lambda: len(tono.cue_sheet(text, page=page)))
        expect(f"sheet {line}", got == answer and answers.take(len(page)) == page)


def read_file(data: bytes, room: int) -> List[int]:
    """The answer, the rate and the samples of a read; where it is refused there is no rate."""
    samples = array.array("I", [WORD_BEFORE]) * room
    try:
        rate, read = tono.wave_samples(data, samples=samples)
        return [len(read), rate, *samples]
    except tono.Refused as refused:
        return [-refused.number, WORD_BEFORE, *samples]


def files() -> None:
    for told, (line, head, data) in zip(lines_of("wave_vectors"), cases_of("wave_vectors", 4)):
        values = told[len(line) + 1:].split(" ")
        if head[0] == "read":
            got = read_file(data, int(head[2], 16))
            same = got == [signed(values[0]), *(int(x, 16) for x in values[1:])]
        else:
            file = bytearray([BYTE_BEFORE]) * int(head[2], 16)
            samples = array.array("I", data)
            got = length_of(lambda: len(tono.wave_bytes(int(head[3], 16), samples, file=file)))
            same = got == signed(values[0]) and [f"{b:02x}" for b in file] == values[1:]
        expect(f"file {line}", same)


for place, line in enumerate(lines_of("voice_vectors")):
    note_case(place, line)
scores()
texts()
sheets()
files()
finish()
