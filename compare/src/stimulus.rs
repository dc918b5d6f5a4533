//! The stimulus of examples/stimulus.c and examples/stimulus.py, by the original: two seconds at 48,000 frames a
//! second that slow down, a flute on a pitch curve at hop 64 on station 0, drums on station 1, and their sum as a
//! WAVE file.

use crate::reference::{frames, Session, Tally, STATIONS};
use crate::score::Score;
use crate::score_cases::{curve, note, tone};
use crate::tempo_points::{words_of, Point};
use crate::wave_reference::{write, HEADER};
use crate::waves::{BARS, KIT};
use std::io::{self, Write};

const RATE: u32 = 48_000;
const FRAMES: usize = 96_000;
const HOP: u32 = 64;
const FLUTE: u32 = 12;
const ACOUSTIC: u32 = 1;

/// Four beats, each slower than the one before.
const POINTS: [(i64, u32, f32); 5] = [
    (0, 1, 152.0),
    (1, 1, 138.0),
    (2, 1, 122.0),
    (3, 1, 100.0),
    (7, 2, 84.0),
];

/// MIDI numbers of the drums.
const KICK: u32 = 36;
const SNARE: u32 = 38;
const HAT: u32 = 42;

/// The usual knobs, in the order of the library.
const KNOBS: [f32; 22] = [
    1.0, 5.0, 0.2, // fm
    0.996, 0.0, 0.0, 0.0, // pluck
    1.0, 0.125, 1.0, 1.0, 1.0, // piano
    250.0, 700.0, 1100.0, 0.15, 0.0, 0.7, 0.45, 1.0, 0.0, 2.0, // bass
];

/// The pitch in hertz at place k of the curve: a glide from 220 Hz up to 330, with a slow vibrato.
fn pitch_at(k: i32) -> f32 {
    let turn = k % 136;
    let bend = if turn < 68 { turn } else { 136 - turn } - 34;
    (220.0 + f64::from(110 * k) / 1500.0 + f64::from(bend) / 8.0) as f32
}

fn part(wave: u32, words: Vec<u32>) -> Score {
    let points = POINTS.map(|(num, den, bpm)| Point { num, den, bpm });
    Score {
        seeds: STATIONS,
        counts: STATIONS,
        station: 0,
        rate: RATE,
        tempo: 152.0,
        steps_per_beat: 4,
        points: words_of(&points),
        swing: 0.0,
        humanize: 0.0,
        hop: HOP,
        wave,
        style: ACOUSTIC,
        duty: 0.5,
        knobs: KNOBS.to_vec(),
        bars: BARS.to_vec(),
        env: vec![0.02, 0.1, 0.8, 0.05, 0.0],
        words,
        lane: (0..1500).map(pitch_at).collect(),
        out: FRAMES,
        note_buf: FRAMES,
        string: 9600,
    }
}

/// The curve through the whole stimulus, a quarter tone over its third beat and a number over its fourth.
fn flute() -> Score {
    let words = [
        curve(0, 16, 0, 0.5),
        tone(8, 4, 127, 0.25),
        note(12, 4, 392.5, 0.25),
    ];
    part(FLUTE, words.concat())
}

/// A hat on every other step, kick and snare on the beats in turn; a drum's quarter tone is twice its MIDI number.
fn drums() -> Score {
    let hats = (0..16).step_by(2).map(|step| tone(step, 2, 2 * HAT, 0.2));
    let beats = [(0, KICK), (4, SNARE), (8, KICK), (12, SNARE)];
    let beats = beats.map(|(step, drum)| tone(step, 4, 2 * drum, 0.5));
    let words: Vec<u32> = hats.chain(beats).flatten().collect();
    Score {
        station: 1,
        swing: 0.25,
        humanize: 0.125,
        lane: Vec::new(),
        env: vec![0.0, 0.0, 1.0, 0.0, 0.0],
        ..part(KIT, words)
    }
}

/// Writes the WAVE file to standard output.
pub fn run() -> io::Result<()> {
    let mut session = Session::open(0x5eed, 0);
    session.stations[1] = Tally {
        seed: 0xd12c,
        draw: 1000,
    };
    let played = [flute(), drums()].map(|score| session.score_call(&score.call()));
    let parts = [0, 1].map(|i| frames(&played[i]).expect("the original plays it"));
    let sums = parts[0].iter().zip(parts[1]).map(|(a, b)| a + b);
    let samples: Vec<u32> = sums.map(f32::to_bits).collect();
    let mut file = vec![0; HEADER + 4 * samples.len()];
    assert_eq!(write(RATE, &samples, &mut file), file.len() as i64);
    for k in [0, 1] {
        let drawn = session.counts()[k];
        eprintln!("station {k} is at draw {drawn} after it");
    }
    io::stdout().write_all(&file)
}
