"""python/tono/ call by call: every refusal, malformed arguments, each kind of buffer, sessions, threads, citations, and
that its numbers and reasons are those of tools/refusals.tsv and include/tono.h. The last line is 'N passed, M failed'."""
import array
import ctypes
import fractions
import hashlib
import os
import pickle
import re
import struct
import sys
import threading
from typing import Any, Dict, List, Optional, Sequence, Tuple

import tono
from python_cases import expect, finish, patterns, raised

ROOT = os.path.dirname(os.path.dirname(os.path.abspath(__file__)))
# The names that the package had as one module; they stay.
PUBLIC = ("Envelope LibraryError Note NoteSignal Refused Rendered Replayed Score Seq Session TempoPoint NUMBER CURVE QUARTER_TONE BARS KNOBS "
          "REASONS STATIONS STYLES VERSION WAVES cite cue_sheet note pack_notes plan plan_text play_text read_wave render replay wave_bytes "
          "wave_samples write_wave main library_path").split()
NAN, INFINITY, ABOVE = float("nan"), float("inf"), 65536.0078125
EXAMPLE = open(os.path.join(ROOT, "examples", "pluck.score"), "rb").read()


def filled(count: int, value: float = 0.25) -> "array.array[float]":
    return array.array("f", [value]) * count


class Whole:
    """An integer that is no int, as those of numpy are."""

    def __index__(self) -> int:
        return 48000


# ---- refusals: each leaves every buffer, seed and count as it was

def seq(**changes: Any) -> tono.Seq:
    numbers: Dict[str, Any] = {"rate": 8000, "tempo": 480.0, "wave": "noise", **changes}
    return tono.Seq(**numbers)


NOTES = [tono.Note(0, 1, 440.0), tono.Note(1, 1, 220.0)]
CURVES = [tono.Note.on_curve(0, 1, 0)]


class Call:
    """A score call, of which a case changes something: what it is lent, and what all of it was."""

    def __init__(self, numbers: Optional[Dict[str, Any]] = None, notes: Any = NOTES, lane: Sequence[float] = (),
                 out: int = 400, note_buffer: int = 400, string_buffer: int = 9600, station: int = 2, draws: int = 7) -> None:
        self.session = tono.Session(seeds=[11, 12, 13, 14, 15, 16, 17, 18], draws=[draws] * 8)
        self.seq, self.station = seq(**(numbers or {})), station
        self.notes = notes if isinstance(notes, array.array) else tono.pack_notes(notes)
        self.lane, self.out = array.array("f", lane), filled(out)
        self.rooms = [filled(note_buffer, 0.5), filled(string_buffer, 0.75)]
        self.was = self.all()

    def all(self) -> List[Any]:
        lent: List[Any] = [self.notes, self.lane, self.out, *self.rooms]
        return [self.session.seeds, self.session.draws, *(x.tobytes() for x in lent)]

    def render(self) -> None:
        tono.render(self.session, self.seq, self.notes, self.out, lane=self.lane, station=self.station,
                    note_buffer=self.rooms[0], string_buffer=self.rooms[1])

    def plan(self) -> None:
        tono.plan(self.session, self.seq, self.notes, len(self.out), lane=self.lane, station=self.station)


def points(*given: Tuple[int, int, float]) -> Dict[str, Any]:
    return {"tempo_map": [tono.TempoPoint(*point) for point in given]}


def word(place: int, value: int) -> "array.array[int]":
    """The usual notes with one word changed."""
    notes = tono.pack_notes(NOTES)
    notes[place] = value
    return notes


REFUSED: List[Tuple[int, Dict[str, Any]]] = [
    (33, {"station": 8}), (33, {"station": 2**32 - 1, "numbers": {"rate": 1}}),
    (1, {"numbers": {"rate": 7999}}), (1, {"numbers": {"rate": 192001}}), (1, {"numbers": {"rate": 0}}),
    (2, {"out": 16777217}),
    (3, {"numbers": {"tempo": 0.5}}), (3, {"numbers": {"tempo": NAN}}), (3, {"numbers": {"tempo": 1e39}}),
    (4, {"numbers": {"steps_per_beat": 0}}), (4, {"numbers": {"steps_per_beat": 65}}),
    (31, {"numbers": points((0, 0, 120))}), (31, {"numbers": points((0, 1, 0.5))}),
    (31, {"numbers": points((1000000001, 1, 120))}), (31, {"numbers": points((-2**63, 1, 120))}),
    (31, {"numbers": points(*((k, 1, 120) for k in range(65)))}),
    (32, {"numbers": points((1, 1, 120))}), (32, {"numbers": points((0, 1, 120), (2, 4, 120), (1, 2, 120))}),
    (32, {"numbers": {"tempo_map": [(0, 120), (1, 100), (fractions.Fraction(1, 2), 90)]}}),
    (5, {"numbers": {"swing": -0.5}}), (5, {"numbers": {"humanize": 1.5}}), (5, {"numbers": {"humanize": NAN}}),
    (6, {"numbers": {"duty": ABOVE}}), (6, {"numbers": {"knobs": {"fm_index": INFINITY}}}),
    (6, {"numbers": {"bars": [NAN] * 10}}), (6, {"numbers": {"env": (0, 0, 1, 0, -ABOVE)}}),
    (20, {"note_buffer": 399}), (20, {"note_buffer": 0}), (21, {"string_buffer": 9599}), (21, {"string_buffer": 0}),
    (35, {"numbers": {"hop": 0}}), (35, {"numbers": {"hop": 4097}}),
    (7, {"notes": array.array("I", [0, 1, 0, 0])}), (11, {"lane": [440.0, NAN]}), (11, {"lane": [ABOVE]}),
    (8, {"notes": word(7, 3)}), (8, {"notes": [tono.Note(0, 1, 5, kind=2**32 - 1)]}),
    (9, {"notes": word(0, 1048576)}), (9, {"notes": word(6, 2**32 - 1)}),
    (10, {"notes": [tono.Note(0, 1, ABOVE)]}), (10, {"notes": [tono.Note(0, 1, 440.0, NAN)]}),
    (10, {"notes": [tono.Note(0, 1, 1e39)]}),
    (30, {"notes": [tono.Note.at_quarter_tone(0, 1, 256)]}),
    (12, {"notes": CURVES}), (12, {"notes": CURVES, "lane": [440.0] * 249}),
    (12, {"notes": CURVES, "numbers": {"hop": 64}, "lane": [440.0] * 3}),
    (22, {"draws": 2**64 - 1}), (22, {"draws": 2**64 - 400}),
]


def refusals() -> None:
    for place, (number, changes) in enumerate(REFUSED):
        name, call = f"refusal {place} with {number}", Call(**changes)
        error = raised(call.render, tono.Refused)
        expect(name, error is not None and error.number == number, repr(error))
        expect(f"{name} changes nothing", call.all() == call.was)
        if number not in (20, 21):
            error = raised(call.plan, tono.Refused)
            expect(f"{name} of a plan", error is not None and error.number == number and call.all() == call.was, repr(error))
    call = Call(draws=2**64 - 501)
    call.render()
    expect("a call up to the last draw", call.session.draws == (2**64 - 501,) * 2 + (2**64 - 101,) + (2**64 - 501,) * 5)
    error = raised(lambda: tono.render(tono.Session(), seq(), NOTES, 16777217), tono.Refused)
    expect("too many frames by their number", error is not None and error.number == 2)
    error = raised(lambda: tono.render(tono.Session(), seq(rate=1), NOTES, 2**63), tono.Refused)
    expect("the rate before too many frames", error is not None and error.number == 1)
    expect("a refusal's reason", str(tono.Refused(33)) == "refused with 33: the station is above 7")
    again = pickle.loads(pickle.dumps(tono.Refused(22)))
    expect("a refusal is pickled", (again.number, again.reason) == (22, tono.REASONS[22]))


NOTE_REFUSED: List[Tuple[int, Dict[str, Any], Dict[str, Any]]] = [
    (1, {"rate": 7999}, {}), (2, {}, {"out": filled(16777217)}), (6, {"knobs": {"fm_ratio": NAN}}, {}),
    (6, {"bars": [INFINITY] * 10}, {}), (21, {}, {"string_buffer": filled(9599)}), (10, {}, {"gain": NAN}),
    (10, {}, {"pitch": filled(100, ABOVE)}), (10, {}, {"duty": filled(100, -INFINITY)}),
    (13, {}, {"pitch": [], "duty": [], "out": filled(0)}), (13, {}, {"pitch": []}),
    (14, {}, {"pitch": filled(99)}), (14, {}, {"duty": filled(101)}), (14, {}, {"out": filled(99)}),
]


def note_refusals() -> None:
    for place, (number, numbers, changes) in enumerate(NOTE_REFUSED):
        given: Dict[str, Any] = {"gain": 0.8, "pitch": filled(100, 440.0), "duty": filled(100, 0.5), "out": filled(100),
                 "string_buffer": filled(9600), **changes}
        if number == 2:
            given["pitch"] = given["duty"] = given["out"][:]
        lent = [x for x in given.values() if isinstance(x, array.array)]
        was = [x.tobytes() for x in lent]
        error = raised(lambda: tono.note(seq(**numbers), given["gain"], given["pitch"], given["out"], duty=given["duty"],
                                         state=99, string_buffer=given["string_buffer"]), tono.Refused)
        expect(f"note refusal {place} with {number}", error is not None and error.number == number, repr(error))
        expect(f"note refusal {place} changes nothing", [x.tobytes() for x in lent] == was)


def text_refusals() -> None:
    def line(pattern: bytes, new: bytes) -> bytes:
        return re.sub(pattern, new, EXAMPLE, count=1, flags=re.M)

    texts: List[Tuple[int, Any]] = [
        (1, line(rb"^S\t8000", b"S\t7999")), (3, line(rb"^(S\t\d+\t\d+\t)\w+", rb"\g<1>00000000")),
        (4, line(rb"^(S\t\d+\t\d+\t\w+\t)\d+", rb"\g<1>65")), (5, line(rb"^(S(?:\t\w+){4}\t)\w+", rb"\g<1>40000000")),
        (6, line(rb"^V\t6\t\w+", b"V\t6\t7fc00000")), (9, line(rb"^N\t0", b"N\t1048576")),
        (10, line(rb"^(N\t0\t\d+\t)\w+", rb"\g<1>7fc00000")), (15, b""), (15, EXAMPLE[:-1]), (15, "S\u00e4\n"),
        (16, bytes(65537)), (16, line(rb"^(S\t\d+\t)\d+", rb"\g<1>2049")),
        (22, line(rb"^G.*$", b"G\t0000000000000000\t18446744073709551615")),
    ]
    for number, text in texts:
        page = bytearray(b"." * 20000)
        for name, call in (("play_text", lambda: tono.play_text(text)), ("plan_text", lambda: tono.plan_text(text)),
                           ("cue_sheet", lambda: tono.cue_sheet(text, page=page))):
            error = raised(call, tono.Refused)
            expect(f"{name} refused with {number}", error is not None and error.number == number, repr(error))
        reply = bytearray(b"." * 40000)
        raised(lambda: tono.play_text(text, reply=reply), tono.Refused)
        expect(f"no sheet and no listing of a text refused with {number}", page == b"." * 20000 and reply == b"." * 40000)
    for number, call in ((23, lambda room: tono.play_text(EXAMPLE, reply=room)),
                         (34, lambda room: tono.cue_sheet(EXAMPLE, page=room))):
        room = bytearray(b"." * 100)
        error = raised(lambda: call(room), tono.Refused)
        expect(f"refused with {number}", error is not None and error.number == number and room == b"." * 100)


def file_refusals() -> None:
    file, good = bytearray(100), bytes(tono.wave_bytes(44100, filled(3)))
    for number, call in (
            (1, lambda: tono.wave_bytes(7999, filled(3), file=file)), (2, lambda: tono.wave_bytes(8000, filled(16777217))),
            (23, lambda: tono.wave_bytes(8000, filled(11), file=file)),
            (36, lambda: tono.wave_samples(good[:20] + b"\1" + good[21:])), (37, lambda: tono.wave_samples(good[:-1])),
            (37, lambda: tono.wave_samples(b"")), (23, lambda: tono.wave_samples(good, samples=filled(2)))):
        error = raised(call, tono.Refused)
        expect(f"file refused with {number}", error is not None and error.number == number, repr(error))
    expect("no file of a refused call", file == bytes(100))
    rate, samples = tono.wave_samples(good)
    expect("a file there and back", (rate, samples) == (44100, filled(3)) and tono.wave_bytes(rate, samples) == good)
    odd = array.array("I", [0x7FC00001, 0xFFFFFFFF, 0x7F800001, 1, 0x80000000])
    expect("every bit of a NaN", tono.wave_samples(tono.wave_bytes(8000, odd))[1].tobytes() == odd.tobytes())
    longer = filled(5, 9.0)
    rate, part = tono.wave_samples(good, samples=longer)
    expect("what is lent beyond stays", list(part) == [0.25] * 3 and list(longer) == [0.25] * 3 + [9.0] * 2)
    expect("no sample", tono.wave_samples(tono.wave_bytes(8000, filled(0))) == (8000, filled(0)))


# ---- what the library has no place for

def malformed() -> None:
    session, out = tono.Session(1), filled(10)
    cases: List[Tuple[Any, Any]] = [
        (ValueError, lambda: tono.Seq(wave="drum")), (ValueError, lambda: tono.Seq(wave=18)),
        (ValueError, lambda: tono.Seq(wave=-1)), (ValueError, lambda: tono.Seq(style=4)),
        (ValueError, lambda: tono.Seq(style="jazz")), (ValueError, lambda: tono.Seq(knobs=[0.0] * 21)),
        (ValueError, lambda: tono.Seq(knobs=[])), (ValueError, lambda: tono.Seq(knobs={"fm": 1.0})),
        (ValueError, lambda: tono.Seq(bars=[1.0] * 9)), (ValueError, lambda: tono.Seq(env=(0, 0, 1, 0))),
        (ValueError, lambda: tono.Seq(tempo_map=[(1,)])), (ValueError, lambda: tono.Seq(tempo_map=[(0, -1, 120)])),
        (ValueError, lambda: tono.Seq(tempo_map=[(2**63, 1, 120)])), (ValueError, lambda: tono.Seq(tempo_map=[(0, 2**32, 120)])),
        (ValueError, lambda: tono.Seq(rate=2**32)), (ValueError, lambda: tono.Seq(rate=-1)),
        (TypeError, lambda: tono.Seq(rate=48000.0)), (TypeError, lambda: tono.Seq(tempo="fast")),
        (TypeError, lambda: tono.Seq(tempo=None)), (ValueError, lambda: tono.Seq(hop=2**32 + 1)),
        (ValueError, lambda: tono.Session(seeds=[1] * 7)), (ValueError, lambda: tono.Session(draws=[1] * 9)),
        (ValueError, lambda: tono.Session(2**64)), (ValueError, lambda: tono.Session(-1)),
        (TypeError, lambda: tono.Session(0.5)), (tono.Refused, lambda: session.open(8, 1)),
        (ValueError, lambda: session.open(0, 2**64)),
        (ValueError, lambda: tono.render(session, seq(), NOTES, out, station=2**32)),
        (ValueError, lambda: tono.render(session, seq(), NOTES, out, station=-1)),
        (ValueError, lambda: tono.render(session, seq(), NOTES, -1)),
        (TypeError, lambda: tono.render(session, seq(), NOTES, 10.0)),
        (TypeError, lambda: tono.render(session, seq(), NOTES, None)),
        (ValueError, lambda: tono.render(session, seq(), [tono.Note(2**32, 1, 440.0)], out)),
        (ValueError, lambda: tono.render(session, seq(), [tono.Note(0, -1, 440.0)], out)),
        (ValueError, lambda: tono.render(session, seq(), [tono.Note.on_curve(0, 1, -1)], out)),
        (TypeError, lambda: tono.render(session, seq(), [tono.Note(0, 1, "A4")], out)),
        (TypeError, lambda: tono.render(session, seq(), [tono.Note.at_quarter_tone(0, 1, 120.5)], out)),
        (TypeError, lambda: tono.render(session, seq(), [(0, 1)], out)), (TypeError, lambda: tono.render(session, seq(), 5, out)),
        (TypeError, lambda: tono.render(session, seq(), [], out, lane=["a"])),
        (ValueError, lambda: tono.plan(session, seq(), [], -1)), (ValueError, lambda: tono.plan(session, seq(), [], 2**64)),
        (ValueError, lambda: tono.note(seq(), 0.5, 440.0, 10, state=2**64)),
        (TypeError, lambda: tono.note(seq(), "loud", 440.0, 10)), (TypeError, lambda: tono.play_text(5)),
        (TypeError, lambda: tono.cue_sheet(None)), (TypeError, lambda: tono.wave_samples(5)),
        (ValueError, lambda: tono.wave_bytes(2**32, out)), (TypeError, lambda: tono.wave_bytes(8000, [0.5])),
        (AttributeError, lambda: setattr(seq(), "rate", 1)), (TypeError, lambda: tono.Seq(tone=1)),
        (TypeError, lambda: tono.Seq(tempo="440")), (TypeError, lambda: tono.Seq(piano_hammer=2)),
        (TypeError, lambda: tono.render(1, seq(), NOTES, out)), (TypeError, lambda: tono.render(session, 1, NOTES, out)),
        (TypeError, lambda: tono.plan(seq(), session, NOTES, 10)), (TypeError, lambda: tono.note(session, 0.5, 440.0, 10)),
        (ValueError, lambda: tono.Session(seed=1, seeds=[1] * 8)), (ValueError, lambda: tono.Session(draw=1, draws=[1] * 8)),
        (ValueError, lambda: tono.TempoPoint.at(3 * 0.1, 120)), (ValueError, lambda: tono.TempoPoint.at("7 halves", 120)),
    ]
    for place, (kind, call) in enumerate(cases):
        error = raised(call, Exception)
        expect(f"malformed {place}", type(error) is kind and str(error) != "", repr(error))
    expect("nothing changed", session == tono.Session(1) and out == filled(10))


# ---- buffers

def buffers() -> None:
    usual = tono.render(tono.Session(3), seq(), NOTES, 400).frames
    lane, words = filled(300, 440.0), tono.pack_notes(CURVES)
    curved = tono.render(tono.Session(3), seq(wave="sine"), CURVES, 400, lane=lane).frames
    outs: Dict[str, Any] = {"array": filled(400), "memoryview": memoryview(filled(400)), "bytearray": memoryview(bytearray(1600)).cast("f"),
            "ctypes": (ctypes.c_float * 400)(), "part": memoryview(filled(500))[60:460]}
    for name, out in outs.items():
        played = tono.render(tono.Session(3), seq(), NOTES, out)
        expect(f"out as {name}", bytes(memoryview(out).cast("B")) == usual.tobytes() and played.frames is out)
    part = memoryview(filled(500, 7.0))
    tono.render(tono.Session(3), seq(), NOTES, part[60:460])
    expect("what is around a part stays", set(part[:60]) | set(part[460:]) == {7.0})
    lanes: Dict[str, Any] = {"array": lane, "list": [440.0] * 300, "tuple": (440.0,) * 300, "memoryview": memoryview(lane),
             "bytes": memoryview(lane.tobytes()).cast("f"), "ctypes": (ctypes.c_float * 300)(*lane),
             "read-only view": memoryview(lane).toreadonly()}
    for name, given in lanes.items():
        out = tono.render(tono.Session(3), seq(wave="sine"), CURVES, 400, lane=given).frames
        expect(f"lane as {name}", out == curved)
    for name, given in {"array": words, "bytes": memoryview(words.tobytes()).cast("I"), "tuple": tuple(CURVES),
                        "ctypes": (ctypes.c_uint32 * 5)(*words)}.items():
        out = tono.render(tono.Session(3), seq(wave="sine"), given, 400, lane=lane).frames
        expect(f"notes as {name}", out == curved)
    expect("an empty output", tono.render(tono.Session(3), seq(), NOTES, 0).draws == 0)
    beside = memoryview(filled(800))
    out = tono.render(tono.Session(3), seq(wave="sine"), CURVES, beside[:400], lane=memoryview(filled(800, 440.0))[400:]).frames
    expect("parts beside each other", out.tobytes() == curved.tobytes())


def freed_buffers() -> None:
    lane = filled(300, 440.0)
    grown, longer = filled(400), filled(300, 440.0)
    played = tono.render(tono.Session(3), seq(wave="sine"), CURVES, grown, lane=longer)
    grown.append(1.0)
    longer.append(1.0)
    expect("buffers are free after the call", len(grown) == 401 and played.frames is grown)
    out = (ctypes.c_float * 400)()
    played = tono.render(tono.Session(3), seq(wave="sine"), CURVES, out, lane=lane)
    expect("a citation from each kind of buffer", played.cite() == tono.render(
        tono.Session(3), seq(wave="sine"), CURVES, 400, lane=memoryview(lane.tobytes()).cast("f")).cite())
    text = bytearray(EXAMPLE)
    expect("a text as a bytearray", tono.play_text(text).frames == tono.play_text(EXAMPLE).frames)
    expect("a text as a str", tono.play_text(EXAMPLE.decode()).frames == tono.play_text(EXAMPLE).frames)
    expect("a text over its reply", raised(lambda: tono.play_text(text, reply=text), ValueError) is not None)
    expect("a read-only reply", raised(lambda: tono.play_text(EXAMPLE, reply=bytes(40000)), ValueError) is not None)


def wrong_buffers() -> None:
    shared = filled(900)
    wrong: List[Tuple[Any, Dict[str, Any]]] = [
        (TypeError, {"out": array.array("d", bytes(80))}), (TypeError, {"out": bytearray(40)}),
        (TypeError, {"out": array.array("i", bytes(40))}), (TypeError, {"out": [0.0] * 10}),
        (TypeError, {"out": array.array("I", bytes(40))}), (ValueError, {"out": memoryview(bytes(40)).cast("f")}),
        (ValueError, {"out": memoryview(filled(20))[::2]}),
        (ValueError, {"out": memoryview(bytearray(40)).cast("B").cast("f", [2, 5])}),
        (ValueError, {"out": memoryview(bytearray(41))[1:].cast("f")}),
        (TypeError, {"out": (ctypes.c_double * 10)()}),
        (TypeError, {"out": (ctypes.c_float.__ctype_be__ * 10)()}),
        (TypeError, {"lane": array.array("d", [1.0])}), (TypeError, {"lane": 5}), (TypeError, {"lane": b"abcd"}),
        (ValueError, {"lane": memoryview(filled(20))[::2]}), (TypeError, {"notes": array.array("Q", [0] * 5)}),
        (TypeError, {"notes": array.array("f", [0] * 5)}), (TypeError, {"notes": b"12345678901234567890"}),
        (ValueError, {"out": shared, "lane": shared}), (ValueError, {"out": memoryview(shared)[:400], "lane": memoryview(shared)[399:]}),
        (ValueError, {"out": shared, "note_buffer": shared}), (ValueError, {"note_buffer": shared, "string_buffer": shared}),
        (ValueError, {"note_buffer": memoryview(bytes(4000)).cast("f")}), (TypeError, {"string_buffer": bytearray(40000)}),
    ]
    for place, (kind, changes) in enumerate(wrong):
        given: Dict[str, Any] = {"notes": NOTES, "out": filled(10), "lane": (), **changes}
        session = tono.Session(3)
        error = raised(lambda: tono.render(session, seq(), given.pop("notes"), given.pop("out"), **given), Exception)
        expect(f"wrong buffer {place}", type(error) is kind and session == tono.Session(3), repr(error))
    expect("shared stays", shared == filled(900))


# ---- sessions, numbers and Seq

def sessions() -> None:
    session = tono.Session(seeds=range(8), draws=range(100, 108))
    played = tono.render(session, seq(), NOTES, 400, station=5)
    expect("only its own count rises", session.draws == (100, 101, 102, 103, 104, 105 + played.draws, 106, 107))
    expect("seeds stay", session.seeds == tuple(range(8)))
    expect("what is told", (played.seed, played.station, played.draw_before, played.draw_after, played.draws, played.rate)
           == (5, 5, 105, 105 + played.draws, 400, 8000))
    expect("a plan", tono.plan(session, seq(), NOTES, 400, station=5) == 400 and session.draws[5] == 505)
    alone = tono.Session()
    alone.open(5, 5, 105)
    expect("as if alone", tono.render(alone, seq(), NOTES, 400, station=5).frames == played.frames)
    expect("a session is pickled", pickle.loads(pickle.dumps(session)) == session)
    one, other = tono.render(tono.Session(9), seq(), NOTES, 400), tono.Session(9)
    halves = [tono.render(other, seq(), NOTES[:1], 400), tono.render(other, seq(), NOTES[1:], 400)]
    expect("the noise goes on where it stopped", other.draws[0] == one.draw_after == sum(p.draws for p in halves))
    signal = tono.note(seq(), 0.5, 440.0, 100, state=9)
    again = tono.note(seq(), 0.5, 440.0, 100, state=signal.state)
    both = tono.note(seq(), 0.5, filled(200, 440.0), 200, state=9)
    expect("notes go on where they stopped", signal.frames + again.frames == both.frames and again.state == both.state)
    expect("a score's state", tono.render(tono.Session(9), seq(), [tono.Note(0, 1, 440.0)], 100).state == signal.state)
    expect("a duty of its own", tono.note(seq(wave="square", duty=0.1), 0.5, 440.0, 99).frames
           == tono.note(seq(wave="square"), 0.5, [440.0] * 99, 99, duty=[0.1] * 99).frames)
    changed = seq(knobs={"fm_ratio": 3.5}).with_(wave="fm", knobs={"fm_index": 2.0})
    expect("with_", changed == seq(wave="fm", knobs={"fm_ratio": 3.5, "fm_index": 2.0}) and changed != seq())
    expect("a Seq is pickled", pickle.loads(pickle.dumps(changed)) == changed and hash(changed) == hash(changed.with_()))
    expect("tempo points", tono.Seq(tempo_map=[(7.5, 50)]).tempo_map == (tono.TempoPoint(15, 2, 50),))
    expect("numbers are rounded to 32 bits", tono.Seq(tempo=0.1).tempo == struct.unpack("f", struct.pack("f", 0.1))[0])
    expect("numpy's numbers", tono.Seq(rate=ctypes.c_uint32(48000).value).rate == 48000)
    expect("an integer of another type, as numpy's", tono.Seq(rate=Whole()).rate == 48000)
    numbers = tono.Seq(rate=Index(48000), steps_per_beat=Index(8), tempo_map=[tono.TempoPoint(Index(0), Index(1), 120), (Index(2), 90)])
    expect("numpy's integers", (numbers.rate, numbers.steps_per_beat) == (48000, 8)
           and numbers.tempo_map == ((0, 1, 120.0), (2, 1, 90.0)) and type(numbers.tempo_map[0].num) is int)


class Index:
    """An integer as numpy's are: one by __index__ alone, whose arithmetic is of 64 bits."""

    def __init__(self, value: int) -> None:
        self.value = value

    def __index__(self) -> int:
        return self.value

    def __mod__(self, other: Any) -> Any:
        raise OverflowError("Python integer too large to convert to C long")


def friction() -> None:
    """What a first user runs into: each message names the cure."""
    def said(call: Any) -> str:
        return str(raised(call, Exception))

    for name, expected, call in (
            ("a knob as a keyword", "knobs={'piano_hammer': ..}", lambda: tono.Seq(piano_hammer=2)),
            ("an envelope number", "env=tono.Envelope(attack=..)", lambda: tono.Seq(attack=2)),
            ("a keyword that is none", "did you mean 'tempo'?", lambda: tono.Seq(temp=2)),
            ("a wave that is none", "did you mean 'piano'?", lambda: tono.Seq(wave="paino")),
            ("a knob that is none", "did you mean 'fm_index'?", lambda: tono.Seq(knobs={"fm_indx": 2})),
            ("a beat of a float", "Fraction(3, 10)", lambda: tono.TempoPoint.at(0.1 + 0.2, 90)),
            ("no session", "tono.Session(seed=..)", lambda: tono.render(1, seq(), NOTES, 10)),
            ("two seeds", "give seed= for station 0, or seeds= for all eight", lambda: tono.Session(seed=1, seeds=[1] * 8)),
            ("a float64 output", "array('f')", lambda: tono.render(tono.Session(1), seq(), NOTES, array.array("d", bytes(80)))),
            ("a file of another form", "sox IN.wav -c 1 -e floating-point -b 32 OUT.wav",
             lambda: tono.wave_samples(b"RIFF\x2c\0\0\0WAVEfmt \x10\0\0\0\3\0\1\0" + bytes(24)))):
        text = said(call)
        expect(f"the cure for {name}", expected in text, text)
    for beat, num, den in ((7.5, 15, 2), (0.1, 1, 10), ("7 1/2", 15, 2), ("15/2", 15, 2), (fractions.Fraction(1, 3), 1, 3), ("0.1", 1, 10)):
        expect(f"the beat {beat}", tono.TempoPoint.at(beat, 50) == (num, den, 50))
    places()
    played = tono.render(tono.Session(3), seq(), NOTES, 400)
    again = pickle.loads(pickle.dumps(played))
    expect("a result is pickled", (again.frames, again.cite(), again.draws) == (played.frames, played.cite(), played.draws))
    expect("its repr", repr(played) == "<Rendered: 400 frames at 8000 a second, 0.05 s; station 0, seed 0000000000000003, draws 0 to 400>",
           repr(played))
    expect("a Seq's repr", eval(repr(seq(knobs={"fm_ratio": 2})), {"Seq": tono.Seq}) == seq(knobs={"fm_ratio": 2}))
    lines = str(tono.__doc__).count("\n")
    expect("the first page of help(tono) is short", lines < 100, str(lines))


def places() -> None:
    """A refusal says where."""
    lane = [440.0] * 300
    lane[7] = NAN
    for number, place, call in (
            (11, "lane[7] is nan", Call(notes=CURVES, lane=lane)), (10, "notes[1], gain inf", Call(notes=[NOTES[0], tono.Note(1, 1, 440.0, INFINITY)])),
            (10, "notes[0], pitch nan", Call(notes=[tono.Note(0, 1, NAN)])), (9, "notes[1], step 1048576", Call(notes=word(5, 1048576))),
            (8, "notes[1], kind 3", Call(notes=word(7, 3))), (30, "notes[0], quarter tone 256", Call(notes=[tono.Note.at_quarter_tone(0, 1, 256)])),
            (12, "notes[0], a curve from place 0, step 0, length 1", Call(notes=CURVES, lane=[440.0] * 249)),
            (6, "fm_index is inf", Call({"knobs": {"fm_index": INFINITY}})), (6, "env.punch is -65536", Call({"env": (0, 0, 1, 0, -ABOVE)})),
            (1, "rate is 7999", Call({"rate": 7999})), (5, "swing is -0.5", Call({"swing": -0.5})),
            (31, "tempo_map[1] is beat 1/1, tempo 0.5", Call(points((0, 1, 120), (1, 1, 0.5)))),
            (32, "tempo_map[1] is at beat 1/2, and the one before at 2/3", Call(points((0, 1, 120), (1, 2, 1)))),
            (22, "station 2 stands at draw 18446744073709551615", Call(draws=2**64 - 1)), (7, "4 words", Call(notes=array.array("I", [0, 1, 0, 0])))):
        if number == 32:
            call = Call(points((0, 1, 120), (2, 3, 1), (1, 2, 1)))
            place = "tempo_map[2] is at beat 1/2, and the one before at 2/3"
        error = raised(call.render, tono.Refused)
        expect(f"the place of {number}", error is not None and error.place == place and error.cure == tono.CURES[number], repr(error))
    for number, place, old, new in (
            (1, "line 1: the rate is 7999", b"S\t8000", b"S\t7999"), (9, "line 5: step 1048576", b"\nN\t0", b"\nN\t1048576"),
            (15, "line 4: the wave, \"18\", must be a number from 0 to 17", b"\nV\t6", b"\nV\t18"),
            (15, "line 2: is empty; remove it", b"\nG", b"\n\nG"), (16, "line 1: 2,049 frames", b"\t2048\t", b"\t2049\t")):
        error = raised(lambda: tono.play_text(EXAMPLE.replace(old, new, 1)), tono.Refused)
        expect(f"the line of {number}", error is not None and (error.number, error.place) == (number, place), repr(error))


def rounding() -> None:
    """A thread that rounds otherwise than to nearest is told so."""
    libm = ctypes.CDLL("libm.so.6")
    for name, mode in (("down", 0x400), ("up", 0x800), ("toward zero", 0xC00)):
        libm.fesetround(mode)
        error = raised(lambda: tono.plan_text(EXAMPLE), RuntimeError)
        libm.fesetround(0)
        expect(f"rounding {name} is seen", error is not None and f"rounds {name} " in str(error) and "fesetround(0)" in str(error), repr(error))
    expect("and all is well again", tono.fp_ok() and tono.plan_text(EXAMPLE) == 306)


def subnormals() -> None:
    """A thread that flushes subnormals is told so."""
    libm = ctypes.CDLL("libm.so.6")
    mode = (ctypes.c_uint32 * 8)()
    libm.fegetenv(mode)
    usual = mode[7]
    for name, bit in (("FTZ", 0x8000), ("DAZ", 0x40)):
        mode[7] = usual | bit
        libm.fesetenv(mode)
        error = raised(lambda: tono.plan_text(EXAMPLE), RuntimeError)
        mode[7] = usual
        libm.fesetenv(mode)
        expect(f"{name} is seen", error is not None)
    expect("and all is well again", tono.plan_text(EXAMPLE) == 306)


# ---- threads

def threads() -> None:
    waves = ["flute", "pluck", "piano", "kit", "noise", "organ", "strings", "bass"]
    seqs = [tono.Seq(wave=wave, tempo=240.0, humanize=0.5) for wave in waves]
    notes = [tono.Note.at_quarter_tone(k, 2, 100 + 5 * k) for k in range(8)]

    def work(place: int, session: tono.Session, station: int) -> List[bytes]:
        return [tono.render(session, seqs[place], notes, 12000, station=station).frames.tobytes() for _ in range(4)]

    alone = [work(place, tono.Session(place), 0) for place in range(8)]

    def at_once(sessions: Sequence[tono.Session], stations: Sequence[int]) -> List[Optional[List[bytes]]]:
        results: List[Optional[List[bytes]]] = [None] * 8
        gate = threading.Barrier(8)

        def run(place: int) -> None:
            gate.wait()
            results[place] = work(place, sessions[place], stations[place])

        started = [threading.Thread(target=run, args=(place,)) for place in range(8)]
        for thread in started:
            thread.start()
        for thread in started:
            thread.join()
        return results

    sessions = [tono.Session(place) for place in range(8)]
    results = at_once(sessions, [0] * 8)
    for place, wave in enumerate(waves):
        expect(f"8 threads, {wave}", results[place] == alone[place])
    shared = tono.Session(seeds=range(8))
    results = at_once([shared] * 8, range(8))
    for place, wave in enumerate(waves):
        expect(f"8 threads on one session, {wave}", results[place] == alone[place])
        expect(f"its count, {wave}", shared.draws[place] == sessions[place].draws[0])


# ---- citations

def citations() -> None:
    curve = array.array("f", [300.0 + k for k in range(40)])
    numbers = tono.Seq(wave="pluck", hop=512, tempo_map=[(0, 200), (0.5, 150.1)], knobs={"pluck_tone": 0.1})
    notes = [tono.Note.on_curve(0, 4, 0, 0.7), tono.Note.at_quarter_tone(1, 2, 130), tono.Note(2, 2, -0.0, 0.3)]
    session = tono.Session(seeds=[0, 0, 0, 77, 0, 0, 0, 0], draws=[0, 0, 0, 1234, 0, 0, 0, 0])
    played = tono.render(session, numbers, notes, 30000, lane=curve, station=3)
    line, data = played.cite(), played.input
    begin = (f"tono {tono.VERSION} seed=000000000000004d station=3 draw-before=1234 draw-after={1234 + played.draws} "
             "wave=pluck pluck_decay=0.996 pluck_body=0 pluck_pick=0 pluck_tone=0.1 rate=48000 frames=30000 input-sha256=")
    expect("a citation", re.fullmatch(re.escape(begin) + r"[0-9a-f]{64} file-sha256=[0-9a-f]{64}", line) is not None, line)
    expect("it replays", tono.replay(line, data) == (True, ()))
    expect("over line breaks", tono.replay(line.replace(" ", "\n  "), data).same)
    expect("cite does the same", tono.cite(data, seed=77, draw=1234, station=3) == line)
    expect("an input there and back", tono.Score.from_bytes(data).to_bytes() == data)
    score = tono.Score.from_bytes(data)
    expect("what it holds", (score.seq, score.frames, score.lane) == (numbers, 30000, curve)
           and score.words == tono.pack_notes(notes))
    curve[0] = 1.0
    expect("a lane that was changed", raised(played.cite, ValueError) is not None)
    curve[0] = 300.0
    expect("and changed back", played.cite() == line)
    played.frames[100] += 1.0
    expect("frames that were changed", raised(played.cite, ValueError) is not None)
    inputs(data)
    different(line, data, played.draws)
    text_citations()
    waves_of_citations()


def different(line: str, data: bytes, draws: int) -> None:
    """Citations and inputs that are not those of each other."""
    for name, other in {
            "another draw": line.replace("draw-before=1234", "draw-before=1235"),
            "another count after": line.replace(f"draw-after={1234 + draws}", "draw-after=1"),
            "another seed": line.replace("4d station", "4e station"), "another rate": line.replace("rate=48000", "rate=44100"),
            "another knob": line.replace("pluck_tone=0.1", "pluck_tone=0.2"),
            "a knob more": line.replace(" rate=", " pluck_x=1 rate="), "a knob less": line.replace("pluck_body=0 ", ""),
            "another sound": line[:-4] + "0000",
            "another wave": line.replace("wave=pluck", "wave=piano")}.items():
        answer = tono.replay(other, data)
        expect(f"{name} is different", other != line and not answer.same and answer.differences != (), repr(answer))
    expect("every station plays the same", tono.replay(line.replace("station=3", "station=2"), data).same)
    answer = tono.replay(line.replace(f"tono {tono.VERSION}", "tono 0.0.1"), data)
    expect("another version with the same sound", answer.same and len(answer.differences) == 1)
    answer = tono.replay(line, data.replace(b"\t30000\t", b"\t29999\t"))
    expect("another input", not answer.same and "another input" in answer.differences[0])
    for name, broken in {"empty": "", "no version": "tono", "no sum": line.rsplit(" ", 1)[0], "a stray word": line + " x",
                         "a word twice": line + " rate=1", "a draw above 2^64": line.replace("before=1234", "before=" + "9" * 20),
                         "a station above 7": line.replace("station=3", "station=8"), "other text": "see the appendix"}.items():
        expect(f"a broken citation: {name}", raised(lambda: tono.replay(broken, data), ValueError) is not None)


def inputs(data: bytes) -> None:
    lines = data.split(b"\n")
    for name, broken in {
            "empty": b"", "another head": b"tono input 2" + data[12:], "no last line feed": data[:-1], "a line more": data + b"\n",
            "no S": data.replace(b"\nS\t", b"\nX\t"), "two S": data.replace(lines[1], lines[1] + b"\n" + lines[1]),
            "a leading zero": data.replace(b"S\t48000", b"S\t048000"), "uppercase": data.replace(b"3f333333", b"3F333333"),
            "a sign": data.replace(b"S\t48000", b"S\t+48000"), "an underscore": data.replace(b"S\t48000", b"S\t48_000"),
            "a carriage return": data.replace(b"\n", b"\r\n"), "lines in another order": b"\n".join([lines[0], lines[2], lines[1], *lines[3:]]),
            "a field less": data.replace(lines[1], lines[1].rsplit(b"\t", 1)[0]), "a blank": data.replace(b"S\t", b"S \t"),
            "another wave": data.replace(b"\nV\t6\t", b"\nV\t18\t"), "a knob less": data.replace(b"\t3f7ef9db", b""),
            "a short lane line": data.replace(lines[-3], lines[-3].replace(b"\t", b"\nL\t", 2)), "no ASCII": data.replace(b"S\t", b"S\xe4\t"),
            "a word above 2^32": data.replace(b"N\t0\t4", b"N\t4294967296\t4"), "nothing but the head": b"tono input 1\n"}.items():
        error = raised(lambda: tono.Score.from_bytes(broken), ValueError)
        expect(f"a broken input: {name}", error is not None and broken != data, repr(error))
    expect("notes of a length that is none", raised(lambda: tono.Score(seq(), array.array("I", [1]), 1), tono.Refused) is not None)
    empty = tono.Score(seq(), [], 0)
    expect("an empty score", tono.Score.from_bytes(empty.to_bytes()).to_bytes() == empty.to_bytes())
    odd = tono.Score(tono.Seq(tempo_map=[(-5, 7, 120.5), (0, 0, 1)], knobs=[-0.0] * 22), [tono.Note(2**32 - 1, 0, 7, kind=9)], 2**63, [1e-45])
    expect("an odd score", tono.Score.from_bytes(odd.to_bytes()).to_bytes() == odd.to_bytes())


def text_citations() -> None:
    played = tono.play_text(EXAMPLE)
    line = played.cite()
    expect("a text's citation", line.startswith(f"tono {tono.VERSION} seed=0000000000000006 station=0 draw-before=0 draw-after=306 "
                                                "wave=pluck pluck_decay=0.99 pluck_body=0.2 pluck_pick=0.15 pluck_tone=0.1 rate=8000 "), line)
    expect("its input is the text", played.input == EXAMPLE and tono.cite(EXAMPLE) == line)
    expect("it replays", tono.replay(line, EXAMPLE) == (True, ()))
    expect("not at another draw", raised(lambda: tono.cite(EXAMPLE, draw=5), ValueError) is not None)
    answer = tono.replay(line.replace("draw-before=0", "draw-before=5"), EXAMPLE)
    expect("a citation of another draw", not answer.same and "of its own" in answer.differences[0])


def waves_of_citations() -> None:
    """What a citation says of each wave, and that no two voices have the same input."""
    seen = set()
    for place, wave in enumerate(tono.WAVES):
        played = tono.render(tono.Session(1), tono.Seq(wave=wave), [tono.Note(0, 1, 220.0)], 500)
        line = played.cite()
        knobs = [word.split("=")[0] for word in line.split()[7:-4]]
        own = {0: ["duty"], 9: ["bars"], 16: ["style"]}.get(place, [name for name in tono.KNOBS if name.startswith(wave + "_")])
        expect(f"the citation of {wave}", knobs == own and tono.replay(line, played.input).same, line)
        seen.add(played.input)
    expect("inputs differ", len(seen) == 18)
    nan = tono.render(tono.Session(1), tono.Seq(wave="piano"), [tono.Note(0, 1, 220.0, -1.0)], 50)
    expect("frames that are NaN", set(patterns(nan.frames)) == {0x7FC00000})
    expect("are cited", tono.replay(nan.cite(), nan.input).same)


def examples() -> None:
    """Each example has the listing of the original, by its sum, and its citation replays."""
    with open(os.path.join(ROOT, "examples", "SHA256SUMS"), encoding="ascii") as file:
        sums = dict(reversed(line.split()) for line in file)
    for name in sorted(name[:-len(".listing")] for name in sums if name.endswith(".listing")):
        with open(os.path.join(ROOT, "examples", f"{name}.score"), "rb") as file:
            text = file.read()
        played = tono.play_text(text)
        rows = [f"F\t{i}\t{bits:08x}\n" for i, bits in enumerate(patterns(played.frames))]
        listing = f"G\t{played.state:016x}\t{played.draw_after}\n" + "".join(rows)
        expect(f"the listing of {name}", hashlib.sha256(listing.encode()).hexdigest() == sums[f"{name}.listing"])
        expect(f"the plan of {name}", tono.plan_text(text) == played.draws)
        expect(f"the citation of {name}", tono.replay(played.cite(), text) == (True, ()))


# ---- the same words as elsewhere in the repository

def same_words() -> None:
    with open(os.path.join(ROOT, "tools", "refusals.tsv"), encoding="utf-8") as file:
        rows = [line.rstrip("\n").split("\t") for line in file]
    expect("reasons", {int(row[0]): row[3] for row in rows} == tono.REASONS)
    expect("cures", {int(row[0]): row[4].replace(" and write its 8 digits with tools/bits", "") for row in rows} == tono.CURES)
    with open(os.path.join(ROOT, "include", "tono.h"), encoding="utf-8") as file:
        header = file.read()
    expect("version", f'#define TONO_VERSION "{tono.VERSION}"\n' in header)
    expect("the longest listing", f"#define TONO_LISTING_MOST {tono.LISTING_MOST}\n" in header)
    expect("the longest sheet", tono.CUE_SHEET_MOST == 256 * 73 + 4)
    sys.path.insert(0, os.path.join(ROOT, "tools"))
    import text_score
    expect("waves", dict(enumerate(tono.WAVES)) == text_score.WAVES and list(tono.STYLES) == text_score.STYLES)
    expect("knobs", list(tono.KNOBS) == [k for w in ("fm", "pluck", "piano", "bass") for k in text_score.KNOBS[w]])
    with open(os.path.join(ROOT, "docs", "voices.md"), encoding="utf-8") as file:
        table = re.findall(r"^\| `([a-z]+_[a-z_]+)` \|.*\| ([0-9.,]+) \| `[0-9a-f]{8}` \|$", file.read(), re.M)
    expect("usual values", [(k, float(v.replace(",", ""))) for k, v in table] == list(tono.KNOBS.items()))
    expect("every public name has a docstring", all(getattr(tono, name).__doc__ for name in tono.__all__))
    expect("so has each that the package had as one module", all(getattr(tono, name).__doc__ for name in PUBLIC))


for part in (refusals, note_refusals, text_refusals, file_refusals, malformed, buffers, freed_buffers, wrong_buffers,
             sessions, friction, subnormals, rounding, threads,
             citations, examples, same_words):
    part()
finish()
