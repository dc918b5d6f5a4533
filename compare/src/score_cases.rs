//! The scores of crates/score_vectors: each limit of the domain on both sides, and a list of calls.

use crate::reference::STATIONS;
use crate::score::Score;
use crate::tones::TONES;
use crate::voice_vectors::USUAL;
use crate::waves::BARS;

/// The next number above 65,536, and above 1,000, and above 1, and the one below 1.
const ABOVE_65536: f32 = f32::from_bits(0x4780_0001);
pub const ABOVE_1000: f32 = f32::from_bits(0x447a_0001);
pub const ABOVE_1: f32 = f32::from_bits(0x3f80_0001);
pub const BELOW_1: f32 = f32::from_bits(0x3f7f_ffff);
const TINY: f32 = f32::from_bits(1);

/// Both ends of what is sized, and what isn't.
const SIZES: [f32; 6] = [
    65536.0,
    -65536.0,
    ABOVE_65536,
    -ABOVE_65536,
    f32::INFINITY,
    f32::NAN,
];

pub fn note(step: u32, len: u32, pitch: f32, gain: f32) -> [u32; 5] {
    [step, len, 0, pitch.to_bits(), gain.to_bits()]
}

pub fn curve(step: u32, len: u32, offset: u32, gain: f32) -> [u32; 5] {
    [step, len, 1, offset, gain.to_bits()]
}

pub fn tone(step: u32, len: u32, q: u32, gain: f32) -> [u32; 5] {
    [step, len, 2, q, gain.to_bits()]
}

/// 7.5 frames a step; a number that starts at once, and a curve of 15 frames, swung.
pub fn usual() -> Score {
    Score {
        seeds: STATIONS,
        counts: STATIONS,
        station: 0,
        rate: 8000,
        tempo: 1000.0,
        steps_per_beat: 64,
        points: Vec::new(),
        swing: 0.5,
        humanize: 0.25,
        hop: 1,
        wave: 0,
        style: 0,
        duty: 0.4,
        knobs: USUAL.to_vec(),
        bars: BARS.to_vec(),
        env: vec![0.0005, 0.0005, 0.7, 0.0005, 0.3],
        words: [note(0, 1, 440.0, 0.8), curve(1, 2, 1, 0.5)].concat(),
        lane: (0..16).map(|i| 200.0 + 10.0 * i as f32).collect(),
        out: 20,
        note_buf: 20,
        string: 9600,
    }
}

fn with(change: impl FnOnce(&mut Score)) -> Score {
    let mut score = usual();
    change(&mut score);
    score
}

/// The usual score once for each value of one of its numbers.
fn varied<T: Copy>(values: &[T], set: impl Fn(&mut Score, T)) -> Vec<Score> {
    let scores = values.iter().map(|&x| with(|score| set(score, x)));
    scores.collect()
}

/// 1 to 5.
fn numbers() -> Vec<Score> {
    let tempi = [1.0, BELOW_1, 1000.0, ABOVE_1000, f32::NAN, 0.0, -1.0];
    let parts = [0.0, -0.0, 1.0, TINY, -TINY, ABOVE_1, f32::NAN];
    [
        varied(&[7999, 8000, 192_000, 192_001], |s, x| s.rate = x),
        varied(&tempi, |s, x| s.tempo = x),
        varied(&[0, 1, 64, 65], |s, x| s.steps_per_beat = x),
        varied(&parts, |s, x| s.swing = x),
        varied(&parts, |s, x| s.humanize = x),
    ]
    .concat()
}

/// 6, 10 and 11: a knob of each set, each number of the drawbars, the duty, each number of the envelope, pitch, gain, lane.
fn sizes() -> Vec<Score> {
    let knobs = [0, 3, 7, 12, 21];
    let knobs = knobs.map(|k| varied(&SIZES, |s, x| s.knobs[k] = x));
    let bars = [0, 1, 2, 3, 4, 5, 6, 7, 8, 9];
    let bars = bars.map(|k| varied(&SIZES, |s, x| s.bars[k] = x));
    let env = [0, 1, 2, 3, 4].map(|k| varied(&SIZES, |s, x| s.env[k] = x));
    [
        knobs.concat(),
        bars.concat(),
        varied(&SIZES, |s, x| s.duty = x),
        env.concat(),
        varied(&SIZES, |s, x| s.words[3] = x.to_bits()),
        varied(&SIZES, |s, x| s.words[4] = x.to_bits()),
        varied(&SIZES, |s, x| s.words[9] = x.to_bits()),
        varied(&SIZES, |s, x| s.lane[0] = x),
        varied(&SIZES, |s, x| s.lane[15] = x),
    ]
    .concat()
}

/// 7, 8, 9 and 12.
fn words() -> Vec<Score> {
    let steps = [1_048_575, 1_048_576];
    [
        varied(&[0, 1, 4, 5, 9], |s, x| s.words.truncate(x)),
        varied(&[0, 1, 2, 3, u32::MAX], |s, x| s.words[2] = x),
        varied(&steps, |s, x| s.words[0] = x),
        varied(&steps, |s, x| s.words[1] = x),
        varied(&[0, 1, 2, u32::MAX], |s, x| s.words[8] = x),
        // a skipped note's curve has to reach as far
        varied(&[0, 1, 2], |s, x| (s.words[5], s.words[8]) = (500, x)),
        varied(&[16, 15, 0], |s, x| s.lane.truncate(x)),
    ]
    .concat()
}

/// 20 and 21, frames from 0 on, and what makes no call.
fn lengths() -> Vec<Score> {
    [
        varied(&[19, 20, 21], |s, x| s.note_buf = x),
        varied(&[9599, 9600, 9601], |s, x| s.string = x),
        varied(&[0, 1], |s, x| (s.out, s.note_buf) = (x, x)),
        varied(&[0, 1], |s, x| {
            (s.out, s.note_buf) = (x, x);
            s.words.clear();
        }),
        varied(&[21, 23], |s, x| s.knobs.resize(x, 0.5)),
        varied(&[0, 9, 11], |s, x| s.bars.resize(x, 0.5)),
        varied(&[4, 6], |s, x| s.env.resize(x, 0.5)),
        varied(&[15, 16, 17, 18], |s, x| s.wave = x),
    ]
    .concat()
}

/// Two faults at once, for each two refusals that follow each other.
fn orders() -> Vec<Score> {
    let faults: [fn(&mut Score); 13] = [
        |s| s.rate = 7999,
        |s| s.tempo = ABOVE_1000,
        |s| s.steps_per_beat = 65,
        |s| s.swing = ABOVE_1,
        |s| s.knobs[0] = ABOVE_65536,
        |s| s.note_buf = 19,
        |s| s.string = 9599,
        |s| s.words.push(0),
        |s| s.lane[0] = ABOVE_65536,
        |s| s.words[2] = 3,
        |s| s.words[0] = 1_048_576,
        |s| s.words[4] = ABOVE_65536.to_bits(),
        |s| s.words[8] = 2,
    ];
    let pairs = faults.windows(2);
    let both = |pair: &[fn(&mut Score)]| with(|s| pair.iter().for_each(|fault| fault(s)));
    let mut scores: Vec<Score> = pairs.map(both).collect();
    // the second note's kind is judged after the first note's gain
    scores.push(with(|s| {
        s.words[7] = 3;
        s.words[4] = ABOVE_65536.to_bits();
    }));
    scores
}

/// 30: on both sides of its limit, alone and with each fault that comes before it or after it.
fn untuned() -> Vec<Score> {
    let faults: [fn(&mut Score); 6] = [
        |_| (),
        |s| s.words[0] = 1_048_576,
        |s| s.words[1] = 1_048_576,
        |s| s.words[4] = ABOVE_65536.to_bits(),
        // the second note's kind, and its curve
        |s| s.words[7] = 3,
        |s| s.words[8] = 2,
    ];
    let mut scores = varied(&[0, 255, 256, u32::MAX], |s, q| {
        (s.words[2], s.words[3]) = (2, q)
    });
    for fault in faults {
        scores.push(with(|s| {
            (s.words[2], s.words[3]) = (2, 256);
            fault(s);
        }));
    }
    // a curve that passes the lane's end, and after it a q that has no tone
    scores.push(with(|s| {
        s.words[8] = 2;
        s.words.extend(tone(0, 1, 256, 0.5));
    }));
    scores
}

/// Every quarter tone, twelve a score, on waves that read the pitch, draw by it or groove by it.
fn tuned() -> Vec<Score> {
    let waves = [0, 3, 6, 7].iter().cycle();
    let tones: Vec<u32> = (0..TONES).collect();
    let scores = tones.chunks(12).zip(waves).map(|(row, &wave)| {
        with(|s| {
            s.words = row.iter().flat_map(|&q| tone(q % 4, 2, q, 0.3)).collect();
            (s.wave, s.humanize) = (wave, 1.0);
        })
    });
    scores.collect()
}

/// Scores that are each played on a session of its own.
pub fn edges() -> Vec<Score> {
    [
        numbers(),
        sizes(),
        words(),
        lengths(),
        orders(),
        untuned(),
        tuned(),
    ]
    .concat()
}

/// Noise, noise whose one note is skipped, and a wave that draws nothing.
pub fn drawing() -> [Score; 3] {
    let noise = with(|s| (s.wave, s.out, s.note_buf) = (4, 20, 20));
    let skipped = with(|s| {
        s.wave = 4;
        s.words = note(100, 1, 440.0, 0.8).to_vec();
    });
    [noise, skipped, usual()]
}

/// A list of calls on one session: every wave, and refused calls between them.
pub fn list() -> Vec<Score> {
    let mut scores = Vec::new();
    for wave in 0..18 {
        scores.push(with(|s| {
            s.wave = wave;
            s.words.extend(note(2, 1, 1500.0, 1.0));
        }));
        if wave % 3 == 0 {
            scores.push(with(|s| (s.wave, s.string) = (wave, 9599)));
        }
        if wave % 4 == 0 {
            scores.push(with(|s| (s.wave, s.words[4]) = (wave, f32::NAN.to_bits())));
        }
    }
    // noise through a chord, and strings of three lengths, at other rates
    let chord = [60.0, 440.0, 3000.0].map(|pitch| note(0, 4, pitch, 0.9));
    for (wave, rate) in [(4, 11_025), (6, 44_100), (7, 48_000), (12, 96_000)] {
        scores.push(with(|s| {
            (s.wave, s.rate, s.words) = (wave, rate, chord.concat());
            (s.out, s.note_buf) = (60, 64);
        }));
    }
    scores
}
