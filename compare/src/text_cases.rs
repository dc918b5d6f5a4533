//! The text scores of crates/replay: each form broken in each way, each limit on both sides, two
//! faults at once, the waves, and the last draws. A case has a name of one word.

use crate::drawbars::REGISTRATIONS;
use crate::kit_cases::DRUMS;
use crate::kits::pitch_of;
use crate::reference::STATIONS;
use crate::score::Score;
use crate::score_cases::note;
use crate::text::{Kind, Text};
use crate::text_random::padded;
use crate::text_reference::{listing, MOST_BYTES};
use crate::voice_vectors::USUAL;
use crate::waves::{BARS, KIT, ORGAN, WAVES};

#[derive(Clone)]
pub struct Case {
    pub name: String,
    pub text: Vec<u8>,
}

fn case(name: impl Into<String>, text: impl Into<Vec<u8>>) -> Case {
    let (name, text) = (name.into(), text.into());
    Case { name, text }
}

/// 7.5 frames a step; two notes that overlap, and one that is skipped.
fn usual(wave: u32) -> Score {
    let notes = [
        note(0, 2, 440.0, 0.8),
        note(1, 1, 1500.0, 0.5),
        note(9, 1, 220.0, 1.0),
    ];
    Score {
        seeds: STATIONS,
        counts: STATIONS,
        station: 0,
        rate: 8000,
        tempo: 1000.0,
        steps_per_beat: 64,
        points: Vec::new(),
        swing: 0.5,
        humanize: 0.25,
        hop: 1,
        wave,
        style: 0,
        duty: 0.4,
        knobs: USUAL.to_vec(),
        bars: BARS.to_vec(),
        env: vec![0.0005, 0.0005, 0.7, 0.0005, 0.3],
        words: notes.concat(),
        lane: Vec::new(),
        out: 20,
        note_buf: 20,
        string: 9600,
    }
}

fn text_of(score: &Score) -> Text {
    Text::of(score, 0x0123_4567_89ab_cdef, 7)
}

/// The text that most cases change: fm, so that its V line has knobs. Its lines are S, G, E, V and
/// three N.
fn base() -> Text {
    text_of(&usual(5))
}

fn with(change: impl FnOnce(&mut Text)) -> Vec<u8> {
    let mut text = base();
    change(&mut text);
    text.bytes()
}

/// Of the first five lines of the base. A field is named by its line's letter and its number.
const LETTERS: [&str; 5] = ["S", "G", "E", "V", "N"];

fn place(line: usize, field: usize) -> String {
    format!("{}.{field}", LETTERS[line])
}

/// Each field of the first five lines, but for the letters.
fn fields(kind: Kind) -> Vec<(usize, usize)> {
    let text = base();
    let line = |line: usize| (1..text.lines[line].len()).map(move |field| (line, field));
    let all = (0..5).flat_map(line);
    all.filter(|&(l, f)| text.kind(l, f) == kind).collect()
}

/// What is done to the bytes of a field.
type Change = (&'static str, fn(&[u8]) -> Vec<u8>);

fn around(before: &[u8], field: &[u8], after: &[u8]) -> Vec<u8> {
    [before, field, after].concat()
}

const DECIMAL_FORMS: [Change; 17] = [
    ("empty", |_| vec![]),
    ("zero", |_| b"0".into()),
    ("two-zeros", |_| b"00".into()),
    ("leading-zero", |f| around(b"0", f, b"")),
    ("plus", |f| around(b"+", f, b"")),
    ("minus", |f| around(b"-", f, b"")),
    ("space-before", |f| around(b" ", f, b"")),
    ("space-after", |f| around(b"", f, b" ")),
    ("return-after", |f| around(b"", f, b"\r")),
    ("letter-after", |f| around(b"", f, b"a")),
    ("point", |f| around(b"", f, b".0")),
    ("nul-after", |f| around(b"", f, b"\0")),
    ("high-byte-after", |f| around(b"", f, b"\xb2")),
    ("2^32-1", |_| b"4294967295".into()),
    ("2^32", |_| b"4294967296".into()),
    ("2^64-1", |_| b"18446744073709551615".into()),
    ("2^64", |_| b"18446744073709551616".into()),
];

const HEX_FORMS: [Change; 11] = [
    ("empty", |_| vec![]),
    ("digit-short", |f| f[1..].to_vec()),
    ("digit-more", |f| around(b"0", f, b"")),
    ("uppercase", |f| around(b"", &f[1..], b"A")),
    ("letter-g", |f| around(b"", &f[1..], b"g")),
    ("before-0", |f| around(b"", &f[1..], b"/")),
    ("after-9", |f| around(b"", &f[1..], b":")),
    ("before-a", |f| around(b"", &f[1..], b"`")),
    ("plus", |f| around(b"+", &f[1..], b"")),
    ("prefix", |f| around(b"0x", &f[2..], b"")),
    ("return-after", |f| around(b"", f, b"\r")),
];

/// Each change of each field of a kind.
fn forms(kind: Kind, changes: &[Change]) -> Vec<Case> {
    let mut cases = Vec::new();
    for (line, field) in fields(kind) {
        for (name, change) in changes {
            let name = format!("{}-{name}", place(line, field));
            let text = with(|t| t.lines[line][field] = change(&t.lines[line][field]));
            cases.push(case(name, text));
        }
    }
    cases
}

/// Both sides of each limit.
fn limits() -> Vec<Case> {
    let tempi = "3f800000 3f7fffff 447a0000 447a0001 7fc00000 00000000 bf800000";
    let parts = "00000000 80000000 3f800000 00000001 80000001 3f800001 7fc00000";
    let sizes = "47800000 c7800000 47800001 c7800001 7f800000 7fc00000 ffffffff";
    let steps = "1048575 1048576";
    let mut values = vec![
        (0, 1, "7999 8000 192000 192001"),
        (0, 2, "0 1 2047 2048 2049"),
        (0, 3, tempi),
        (0, 4, "0 1 64 65"),
        (0, 5, parts),
        (0, 6, parts),
        (1, 1, "0000000000000000 ffffffffffffffff"),
        (4, 1, steps),
        (4, 2, steps),
    ];
    let sized = fields(Kind::Hex).into_iter().filter(|p| p.0 > 1);
    values.extend(sized.map(|(line, field)| (line, field, sizes)));
    let mut cases = Vec::new();
    for (line, field, values) in values {
        for value in values.split(' ') {
            let name = format!("{}={value}", place(line, field));
            cases.push(case(name, with(|t| t.set(line, field, value))));
        }
    }
    cases
}

/// What is done to a line of a text.
type LineChange = (&'static str, fn(&mut Text, usize));

const LINE_CHANGES: [LineChange; 14] = [
    ("dropped", |t, i| drop(t.lines.remove(i))),
    ("doubled", |t, i| t.lines.insert(i, t.lines[i].clone())),
    ("after-the-next", |t, i| t.lines.swap(i, i + 1)),
    ("after-an-empty-line", |t, i| {
        t.lines.insert(i, vec![vec![]])
    }),
    ("return-after", |t, i| {
        t.lines[i].last_mut().unwrap().push(b'\r')
    }),
    ("tab-before", |t, i| t.lines[i].insert(0, vec![])),
    ("tab-after", |t, i| t.lines[i].push(vec![])),
    ("tab-doubled", |t, i| t.lines[i].insert(1, vec![])),
    ("space-for-tab", |t, i| {
        let line = t.lines[i].join(&b' ');
        t.lines[i] = vec![line];
    }),
    ("lowercase", |t, i| t.lines[i][0].make_ascii_lowercase()),
    ("letter-X", |t, i| t.set(i, 0, "X")),
    ("letter-twice", |t, i| {
        t.lines[i][0] = t.lines[i][0].repeat(2)
    }),
    ("field-short", |t, i| drop(t.lines[i].pop())),
    ("field-more", |t, i| t.lines[i].push(b"00000000".into())),
];

fn lines() -> Vec<Case> {
    let mut cases = Vec::new();
    for (i, letter) in LETTERS.iter().enumerate() {
        for (name, change) in LINE_CHANGES {
            cases.push(case(format!("{letter}-{name}"), with(|t| change(t, i))));
        }
    }
    cases
}

/// Of the whole text, and what an N line may leave out; `no-gain` plays as `gain-half` does.
fn wholes() -> Vec<Case> {
    let good = base().bytes();
    let short = &good[..good.len() - 1];
    let ended = |end: &[u8]| {
        let lines = short.split(|&b| b == b'\n');
        lines
            .flat_map(|line| [line, end].concat())
            .collect::<Vec<u8>>()
    };
    vec![
        case("as-it-is", good.clone()),
        case("empty", []),
        case("a-newline", b"\n"),
        case("a-tab", b"\t"),
        case("no-last-newline", short),
        case("empty-line-after", [&good, &b"\n"[..]].concat()),
        case("space-after", [&good, &b" "[..]].concat()),
        case("returns-for-newlines", ended(b"\r")),
        case("returns-before-newlines", ended(b"\r\n")),
        case("byte-order-mark", [&b"\xef\xbb\xbf"[..], &good].concat()),
        case("twice", [&good[..], &good].concat()),
        case("no-notes", with(|t| t.lines.truncate(4))),
        case(
            "no-gain",
            with(|t| t.lines.iter_mut().skip(4).for_each(|l| drop(l.pop()))),
        ),
        case(
            "gain-half",
            with(|t| (4..7).for_each(|i| t.set(i, 4, "3f000000"))),
        ),
        case("no-pitch", with(|t| t.lines[6].truncate(3))),
        case("a-G-line-after", with(|t| t.lines.push(t.lines[1].clone()))),
        case(
            "an-F-line-after",
            [&good, &b"F\t0\t00000000\n"[..]].concat(),
        ),
    ]
}

/// Waves that are none, and a knob too many or too few.
fn knobs() -> Vec<Case> {
    let mut cases = Vec::new();
    for wave in ["16", "18", "19", "255", "256", "65552", "4294967295"] {
        let none =
            with(|t| t.lines[3] = [b"V", wave.as_bytes(), b"3f000000"].map(Vec::from).into());
        cases.push(case(format!("wave-{wave}"), none));
        cases.push(case(
            format!("wave-{wave}-knobs"),
            with(|t| t.set(3, 1, wave)),
        ));
    }
    for (wave, name, _) in WAVES {
        let mut more = text_of(&usual(wave));
        let mut fewer = more.clone();
        more.lines[3].push(b"00000000".into());
        fewer.lines[3].pop();
        cases.push(case(format!("{name}-knob-more"), more.bytes()));
        cases.push(case(format!("{name}-field-short"), fewer.bytes()));
    }
    cases
}

/// The organ's V line with so many numbers of drawbars, with each registration, with the ten of `BARS`
/// written out, and with each number at each limit of what is sized.
fn drawbars() -> Vec<Case> {
    let organ = |bars: &[f32]| {
        let mut text = text_of(&usual(ORGAN));
        let written = bars.iter().map(|x| format!("{:08x}", x.to_bits()).into());
        text.lines[3].truncate(3);
        text.lines[3].extend(written);
        text
    };
    let many = REGISTRATIONS[0].repeat(3);
    let mut cases: Vec<Case> = (0..=21)
        .map(|count| {
            case(
                format!("organ-{count}-numbers"),
                organ(&many[..count]).bytes(),
            )
        })
        .collect();
    cases.push(case("organ-BARS-written", organ(&BARS).bytes()));
    for (i, bars) in REGISTRATIONS.iter().enumerate() {
        cases.push(case(format!("organ-registration-{i}"), organ(bars).bytes()));
    }
    for field in 3..13 {
        for value in [
            "47800000", "c7800000", "47800001", "c7800001", "7f800000", "7fc00000",
        ] {
            let mut text = organ(&BARS);
            text.set(3, field, value);
            cases.push(case(format!("organ-V.{field}={value}"), text.bytes()));
        }
        let mut text = organ(&BARS);
        text.set(3, field, "3F800000");
        cases.push(case(format!("organ-V.{field}-uppercase"), text.bytes()));
    }
    cases
}

/// A kit's V line, whose style is written so, in so many fields.
fn kit_line(styles: &[&str]) -> Vec<u8> {
    let mut text = text_of(&usual(KIT));
    text.lines[3].truncate(3);
    text.lines[3].extend(styles.iter().map(|style| style.as_bytes().to_vec()));
    text.bytes()
}

/// The style of a V line on both sides of its limit, in each wrong form, missing, doubled, and of other waves.
fn styles() -> Vec<Case> {
    let mut cases = Vec::new();
    for style in "0 1 2 3 4 5 7 9 10 13 30 255 256 4294967295 4294967296".split(' ') {
        cases.push(case(format!("kit-style={style}"), kit_line(&[style])));
    }
    for (name, change) in DECIMAL_FORMS {
        let mut text = text_of(&usual(KIT));
        text.lines[3][3] = change(b"2");
        cases.push(case(format!("kit-style-{name}"), text.bytes()));
    }
    cases.push(case("kit-no-style", kit_line(&[])));
    cases.push(case("kit-two-styles", kit_line(&["1", "1"])));
    cases.push(case("kit-style-and-knob", kit_line(&["1", "00000000"])));
    cases.push(case("kit-knob", kit_line(&["3f800000"])));
    cases.push(case("kit-knob-and-style", kit_line(&["00000000", "1"])));
    cases.push(case(
        "kit-five-styles",
        kit_line(&["0", "1", "2", "3", "0"]),
    ));
    for (wave, name, _) in WAVES.iter().filter(|w| w.0 != KIT) {
        let mut text = text_of(&usual(*wave));
        text.lines[3].push(b"0".into());
        cases.push(case(format!("{name}-style"), text.bytes()));
    }
    let mut before_duty = text_of(&usual(KIT));
    before_duty.lines[3].swap(2, 3);
    cases.push(case("kit-style-before-duty", before_duty.bytes()));
    let mut above = text_of(&usual(KIT));
    above.set(3, 1, "18");
    cases.push(case("wave-18-style", above.bytes()));
    cases
}

/// Drums of each style: a few short hits, a bar of 2,048 frames in which all drums sound, the same at a higher
/// rate, and the last draws.
fn kits() -> Vec<Case> {
    let mut cases = Vec::new();
    for style in 0..4 {
        let hit = |step: u32, len: u32, midi: u32| note(step, len, pitch_of(midi), 0.5);
        let mut short = usual(KIT);
        (short.style, short.out, short.note_buf) = (style, 40, 40);
        short.words = [hit(0, 4, 36), hit(1, 2, 38), hit(2, 1, 42), hit(3, 1, 56)].concat();
        let mut bar = short.clone();
        (bar.tempo, bar.steps_per_beat, bar.out) = (300.0, 16, 2048);
        bar.env = vec![0.002, 0.05, 0.7, 0.01, 0.3];
        let notes = (0..).zip(DRUMS).map(|(i, midi)| hit(i % 20, 20, midi));
        bar.words = notes.flatten().collect();
        let mut fast = bar.clone();
        (fast.rate, fast.tempo) = (48_000, 1000.0);
        let at = |draw| Text::of(&short, 0xfeed_beef_0000_0002, draw).bytes();
        let last = u64::MAX - listing(&at(0)).draw;
        cases.push(case(format!("kit-{style}"), text_of(&short).bytes()));
        cases.push(case(format!("kit-{style}-bar"), text_of(&bar).bytes()));
        cases.push(case(format!("kit-{style}-fast"), text_of(&fast).bytes()));
        cases.push(case(format!("kit-{style}-last-draw"), at(last)));
        cases.push(case(format!("kit-{style}-past-it"), at(last + 1)));
    }
    cases
}

/// Each wave by a few short notes.
pub fn waves() -> Vec<Case> {
    let of = |w: &(u32, &str, _)| case(w.1, text_of(&usual(w.0)).bytes());
    WAVES.iter().map(of).collect()
}

/// Each wave in one note that is held over 2,048 frames at 8,000 a second, about a quarter of a
/// second, with its usual knobs: long enough that slow phases turn over, such as the flute's vibrato
/// after 1 / 5.5 s.
fn held_waves() -> Vec<Case> {
    let of = |&(wave, name, _): &(u32, &str, _)| {
        let mut held = usual(wave);
        (held.tempo, held.steps_per_beat, held.swing, held.humanize) = (120.0, 4, 0.0, 0.0);
        (held.out, held.env) = (2048, vec![0.01, 0.05, 0.7, 0.02, 0.3]);
        held.words = note(0, 3, 440.0, 0.8).to_vec();
        case(format!("{name}-held"), text_of(&held).bytes())
    };
    WAVES.iter().map(of).collect()
}

/// Each wave as long as a text may have it, through a chord, and with gains that are negative or large,
/// of which some give NaNs.
fn long_waves() -> Vec<Case> {
    let mut cases = Vec::new();
    for (wave, name, _) in WAVES {
        let mut long = usual(wave);
        (long.rate, long.tempo, long.steps_per_beat) = (48_000, 300.0, 8);
        (long.out, long.env) = (2048, vec![0.002, 0.01, 0.6, 0.01, 0.3]);
        let chord = [110.0, 440.0, 1800.0].map(|pitch| note(0, 1, pitch, 0.7));
        long.words = [chord.concat(), note(1, 2, 65.4, 0.9).to_vec()].concat();
        let mut loud = usual(wave);
        loud.words = [note(0, 1, 440.0, -2.5), note(1, 1, 3000.0, 65536.0)].concat();
        cases.push(case(format!("{name}-long"), text_of(&long).bytes()));
        cases.push(case(format!("{name}-loud"), text_of(&loud).bytes()));
    }
    cases
}

/// The draws that end at the last one, and pass it by one; and a score that draws nothing there.
fn last_draws() -> Vec<Case> {
    let mut cases = Vec::new();
    for (wave, name, _) in WAVES {
        let score = usual(wave);
        let at = |draw| Text::of(&score, 0xfeed_beef_0000_0001, draw).bytes();
        let last = u64::MAX - listing(&at(0)).draw;
        cases.push(case(format!("{name}-last-draw"), at(last)));
        if last < u64::MAX {
            cases.push(case(format!("{name}-past-it"), at(last + 1)));
            cases.push(case(format!("{name}-at-2^64-1"), at(u64::MAX)));
        }
    }
    let skipped = with(|t| {
        t.lines.drain(4..6);
        t.lines[3] = [b"V", &b"4"[..], b"3f000000"].map(Vec::from).into();
        t.set(1, 2, "18446744073709551615");
    });
    cases.push(case("skipped-note-at-2^64-1", skipped));
    cases
}

/// The most notes and the most bytes, and one more.
fn sizes() -> Vec<Case> {
    let notes = |count: usize| {
        with(|t| {
            let note = t.lines[4].clone();
            t.lines.resize(4 + count, note);
        })
    };
    let bytes = |length: usize| padded(&base().bytes(), length);
    let broken = |length: usize| {
        let mut text = bytes(length);
        text[length - 1] = b' ';
        text
    };
    vec![
        case("256-notes", notes(256)),
        case("257-notes", notes(257)),
        case("65536-bytes", bytes(MOST_BYTES)),
        case("65537-bytes", bytes(MOST_BYTES + 1)),
        case("65536-bytes-broken", broken(MOST_BYTES)),
        case("65537-bytes-broken", broken(MOST_BYTES + 1)),
    ]
}

/// Scores whose cue sheets have no page, a full one, and one line more; steps and counts of every width; and
/// a page that is too short where 22 applies.
pub fn sheets() -> Vec<Case> {
    let many = |wave: u32, count: u32, draw: u64| {
        let mut score = usual(wave);
        score.out = 2048;
        let step = |k: u32| (10_u32.pow(k % 7) * (k % 10)).min(1_048_575);
        let words = |k: u32| note(step(k), 1 + k % 3, 110.0 + k as f32, 0.5);
        score.words = (0..count).flat_map(words).collect();
        Text::of(&score, 0x0123_4567_89ab_cdef, draw).bytes()
    };
    let mut cases = Vec::new();
    for count in [0, 1, 59, 60, 61, 119, 120, 121, 256] {
        cases.push(case(format!("{count}-lines"), many(4, count, 0)));
    }
    for digits in 1..20 {
        let draw = 10_u64.pow(digits);
        cases.push(case(format!("draw-{}", draw - 1), many(4, 2, draw - 1)));
        cases.push(case(format!("draw-{draw}"), many(6, 2, draw)));
    }
    let last = u64::MAX - listing(&many(4, 61, 0)).draw;
    cases.push(case("61-lines-last-draw", many(4, 61, last)));
    cases.push(case("61-lines-past-it", many(4, 61, last + 1)));
    cases
}

/// A fault by its line, its field and the value there.
type Fault = (usize, usize, &'static str);

/// Two faults at once, for each two refusals that follow each other; and of two notes the first.
fn orders() -> Vec<Case> {
    let faults: [Fault; 9] = [
        (6, 3, "7FC00000"),
        (0, 2, "2049"),
        (0, 1, "7999"),
        (0, 3, "447a0001"),
        (0, 4, "65"),
        (0, 5, "3f800001"),
        (2, 1, "47800001"),
        (4, 1, "1048576"),
        (4, 3, "7fc00000"),
    ];
    let notes: [Fault; 2] = [(4, 4, "47800001"), (5, 1, "1048576")];
    let both = |pair: &[Fault]| {
        let names = pair.iter().map(|f| place(f.0.min(4), f.1));
        let text = with(|t| pair.iter().for_each(|f| t.set(f.0, f.1, f.2)));
        case(names.collect::<Vec<_>>().join("-and-"), text)
    };
    faults.windows(2).chain([&notes[..]]).map(both).collect()
}

/// 01's own score and listing stand in examples/.
pub fn scope() -> Case {
    case("scope", include_bytes!("../../examples/scope.score"))
}

/// All but 01's own and the short ones of each wave.
pub fn others() -> Vec<Case> {
    let mut cases = forms(Kind::Decimal, &DECIMAL_FORMS);
    cases.extend(forms(Kind::Hex, &HEX_FORMS));
    for more in [limits(), lines(), wholes(), knobs(), long_waves()] {
        cases.extend(more);
    }
    for more in [held_waves(), last_draws(), sizes(), orders(), drawbars()] {
        cases.extend(more);
    }
    cases.extend(styles());
    cases.extend(kits());
    cases
}
