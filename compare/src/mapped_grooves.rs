//! The mapped notes of crates/groove_vectors: where each starts and ends, by the original.

use crate::example;
use crate::grid::{bare, Grid};
use crate::long_scores::ritardando;
use crate::mapped_random::just_after;
use crate::score::Score;
use crate::score_cases::{curve, note};
use crate::tempo_points::{words_of, Point};

/// The rates and steps per beat that are tried.
const RATES: [(u32, u32); 6] = [
    (8_000, 1),
    (11_025, 3),
    (44_100, 4),
    (48_000, 7),
    (96_000, 63),
    (192_000, 64),
];

/// A score of one note, with all its frames.
fn one(words: [u32; 5]) -> Score {
    Score {
        words: words.to_vec(),
        out: 16_777_216,
        ..example::score()
    }
}

fn with(words: [u32; 5], change: impl Fn(&mut Score)) -> Score {
    let mut score = one(words);
    change(&mut score);
    score
}

/// The example of docs/scores.md: each of its notes by itself.
fn slowing() -> Vec<Score> {
    let words = example::score().words;
    let notes = words.chunks_exact(5);
    notes.map(|w| one(w.try_into().expect("five"))).collect()
}

/// Every step about the example's points, with swing and humanize.
fn steps() -> Vec<Score> {
    let mut scores = Vec::new();
    for step in 14..34 {
        for (swing, humanize) in [(0.0, 0.0), (1.0, 0.0), (0.3, 1.0)] {
            let words = note(step, step % 5, 300.0 + step as f32, 0.8);
            scores.push(with(words, |s| (s.swing, s.humanize) = (swing, humanize)));
        }
    }
    scores
}

/// Both ends of steps, lens, frames and gains, and a curve.
fn ends() -> Vec<Score> {
    let mut scores = Vec::new();
    for step in [0, 1, 1_048_575] {
        for len in [0, 1, 1_048_575] {
            for n in [0, 1, 100_000, 16_777_216] {
                scores.push(with(note(step, len, 440.0, 0.8), |s| s.out = n));
            }
        }
    }
    for gain in [0.0, -1.0, 2.0] {
        scores.push(with(note(5, 2, 440.0, gain), |s| s.humanize = 1.0));
    }
    scores.push(with(curve(5, 2, 7, 0.8), |s| s.humanize = 1.0));
    // a note that humanize would start before frame 0, or that is just late
    for pitch in [100.0, 200.0, 300.0, 440.0] {
        scores.push(with(note(0, 1, pitch, 0.8), |s| s.humanize = 1.0));
    }
    scores
}

/// Other maps, at several rates, with notes at and about their points.
fn maps() -> Vec<Score> {
    let (c, d) = just_after((1, 3));
    let maps: [&[(i64, u32, f32)]; 5] = [
        &[(0, 1, 120.0)],
        &[(0, 9, 1.0), (2, 6, 1000.0)],
        &[(0, 1, 1000.0), (1, 3, 1.0), (c, d, 999.999_94)],
        &[(0, 1, 61.7), (1, u32::MAX, 300.1), (7, 2, 90.0)],
        &[
            (0, 1, 90.0),
            (1_000_000_000, u32::MAX, 77.7),
            (1_000_000_000, 1, 1.0),
        ],
    ];
    let mut scores = Vec::new();
    for points in maps {
        let points = points
            .iter()
            .map(|&(num, den, bpm)| Point { num, den, bpm });
        let points = words_of(&points.collect::<Vec<_>>());
        for (rate, steps_per_beat) in RATES {
            for step in [steps_per_beat / 3, 7 * steps_per_beat / 2] {
                scores.push(with(note(step, 3, 440.0, 0.8), |s| {
                    (s.rate, s.steps_per_beat) = (rate, steps_per_beat);
                    (s.points, s.swing) = (points.clone(), 0.5);
                }));
            }
        }
    }
    for step in [0, 93, 94, 95, 251, 252, 253, 1_000] {
        scores.push(with(note(step, 40, 440.0, 0.8), |s| {
            s.points = ritardando(1, 1, 180.0, 45.0);
        }));
    }
    scores
}

/// The cases and their answers: start, end, gain, length and sounded frames.
pub fn all() -> Vec<(String, String)> {
    let scores = [slowing(), steps(), ends(), maps()].concat();
    scores.iter().map(|s| (line(s), answer(s))).collect()
}

fn line(score: &Score) -> String {
    let [step, len, kind, pitch, gain] = score.words[..] else {
        panic!("one note");
    };
    let points: String = score.points.iter().map(|w| format!(" {w:x}")).collect();
    format!(
        "mapped {:x} {:x} {:08x} {:08x} {:x} {step:x} {len:x} {kind:x} {pitch:08x} {gain:08x} {:x}{points}",
        score.rate,
        score.steps_per_beat,
        score.swing.to_bits(),
        score.humanize.to_bits(),
        score.out,
        score.points.len()
    )
}

fn answer(score: &Score) -> String {
    let (grid, note) = (Grid::of(&score.call()), bare(&score.words));
    let (start, end, gain) = grid.mapped(&note);
    let sounded = grid.place(&note).map_or(0, |frames| frames.len());
    format!(
        "{start:016x} {end:016x} {:08x} {:016x} {sounded:016x}",
        gain.to_bits(),
        grid.length(&score.words)
    )
}
