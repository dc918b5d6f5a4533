//! The example of docs/scores.md, a score that slows down, by the original.

use crate::grid::{bare, Grid};
use crate::score::Score;
use crate::score_cases::{note, usual};
use crate::tempo_points::{points_of, words_of, Point};

/// Four beats of 120, then slower.
const POINTS: [(i64, u32, f32); 6] = [
    (0, 1, 120.0),
    (4, 1, 108.0),
    (5, 1, 96.0),
    (6, 1, 80.0),
    (7, 1, 66.0),
    (15, 2, 50.0),
];
const STEPS_PER_BEAT: u32 = 4;
/// A note of a beat at each beat.
const BEATS: u32 = 8;

pub fn score() -> Score {
    let points = POINTS.map(|(num, den, bpm)| Point { num, den, bpm });
    let words = (0..BEATS).flat_map(|beat| note(4 * beat, 4, 440.0, 0.8));
    Score {
        rate: 48_000,
        tempo: 120.0,
        steps_per_beat: STEPS_PER_BEAT,
        points: words_of(&points),
        swing: 0.0,
        humanize: 0.0,
        words: words.collect(),
        out: 288_000,
        note_buf: 288_000,
        ..usual()
    }
}

/// Prints the points, and where the notes stand with them and without, as tables in Markdown.
pub fn run() {
    let score = score();
    println!(
        "| point | beat | `at.num` | `at.den` | `bpm` |\n{}|",
        "|---".repeat(5)
    );
    for (i, p) in points_of(&score.points).iter().enumerate() {
        let (beat, num, den, bpm) = (p.as_f64(), p.num, p.den, p.bpm);
        println!("| {i} | {beat} | {num} | {den} | {bpm} |");
    }
    let straight = Score {
        points: Vec::new(),
        ..score.clone()
    };
    let [mapped, straight] = [&score, &straight].map(|s| Grid::of(&s.call()));
    println!(
        "| step | beat | start frame | frames | start without points |\n{}|",
        "|---".repeat(5)
    );
    for words in score.words.chunks_exact(5) {
        let (step, note) = (words[0], bare(words));
        let [ours, other] = [&mapped, &straight].map(|grid| grid.place(&note));
        let (ours, other) = (ours.expect("it sounds"), other.expect("it sounds"));
        let (beat, frames) = (step / STEPS_PER_BEAT, ours.len());
        println!(
            "| {step} | {beat} | {} | {frames} | {} |",
            ours.start, other.start
        );
    }
}
