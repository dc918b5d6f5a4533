//! The mapped scores of crates/score_vectors: what a map does to notes, each limit of its points on both
//! sides, and a list of calls.

use crate::grid::Grid;
use crate::long_scores::ritardando;
use crate::mapped_random::just_after;
use crate::score::Score;
use crate::score_cases::{curve, note, tone, usual, ABOVE_1, ABOVE_1000, BELOW_1};
use crate::tempo_points::{words_of, Point};

/// Points at these fractions of beats, with their tempi.
fn map(points: &[(i64, u32, f32)]) -> Vec<u32> {
    let point = |&(num, den, bpm): &(i64, u32, f32)| Point { num, den, bpm };
    words_of(&points.iter().map(point).collect::<Vec<_>>())
}

/// Points at steps 0, 3 and 5: 7.5, 10 and 12 frames a step. Notes before, at and after the second
/// point, one that ends on it, and one that spans both.
pub fn slowing() -> Score {
    let words = [
        note(0, 1, 440.0, 0.8),
        curve(1, 2, 1, 0.5),
        note(2, 4, 300.0, 0.6),
        note(3, 1, 900.0, 0.7),
    ];
    Score {
        points: map(&[(0, 1, 1000.0), (3, 64, 750.0), (5, 64, 625.0)]),
        words: words.concat(),
        lane: (0..62).map(|i| 200.0 + 10.0 * i as f32).collect(),
        out: 60,
        note_buf: 60,
        ..usual()
    }
}

fn with(change: impl FnOnce(&mut Score)) -> Score {
    let mut score = slowing();
    change(&mut score);
    score
}

fn with_map(points: &[(i64, u32, f32)]) -> Score {
    with(|s| s.points = map(points))
}

fn with_words(words: &[[u32; 5]]) -> Score {
    with(|s| s.words = words.concat())
}

/// What is played.
fn maps() -> Vec<Score> {
    let [(a, b), third] = [(1, 21), (3, 64)].map(just_after);
    vec![
        slowing(),
        with(|s| s.points.clear()),
        // one point is not the straight tempo
        with_map(&[(0, 1, 1000.0)]),
        with_map(&[(0, u32::MAX, 1000.0)]),
        // not in lowest terms
        with_map(&[(0, 7, 1000.0), (6, 128, 750.0), (500, 6400, 625.0)]),
        // a point at a step, and just after it
        with_map(&[(0, 1, 1000.0), (3, 64, 400.0), (third.0, third.1, 1000.0)]),
        // two points at one f64
        with_map(&[(0, 1, 900.0), (1, 21, 500.0), (a, b, 1000.0)]),
        // both ends of tempi and beats
        with_map(&[(0, 1, 1000.0), (2, 64, 1.0)]),
        with_map(&[(0, 1, 1.0), (1, u32::MAX, 1000.0), (1_000_000_000, 1, 1.0)]),
        with_map(&[(0, 1, 1000.0), (999_999_999, u32::MAX, 500.0)]),
        with(|s| s.points = ritardando(1, 64, 1000.0, 500.0)),
        with(|s| s.points = ritardando(1, 700, 1000.0, 500.0)),
        with(|s| s.points = ritardando(1, u32::MAX, 1000.0, 500.0)),
        // the straight tempo is judged, and not played
        with(|s| s.tempo = 1.0),
    ]
}

/// How notes stand under the map.
fn notes() -> Vec<Score> {
    let swung = [(0, 1, 1000.0), (1, 64, 400.0), (9, 512, 1000.0)];
    vec![
        with(|s| (s.swing, s.humanize) = (0.0, 0.0)),
        with(|s| (s.swing, s.humanize) = (1.0, 0.0)),
        with(|s| (s.swing, s.humanize) = (0.0, 1.0)),
        with(|s| (s.swing, s.humanize) = (1.0, 1.0)),
        with_words(&[note(0, 1_048_575, 440.0, 0.8), note(3, 0, 300.0, 0.6)]),
        // quarter tones, humanized by their numbers in the table, and a q that has none
        with(|s| {
            s.words = [tone(0, 2, 120, 0.8), tone(3, 1, 255, 0.6)].concat();
            s.humanize = 1.0;
        }),
        with_words(&[tone(2, 4, 256, 0.6)]),
        // past the last point, and past the frames
        with_words(&[
            note(6, 1, 440.0, 0.8),
            note(1_048_575, 1_048_575, 300.0, 0.6),
        ]),
        // a swung start after the end: one frame
        with(|s| {
            (s.points, s.swing, s.humanize) = (map(&swung), 1.0, 0.0);
            s.words = note(1, 1, 440.0, 0.8).to_vec();
        }),
        with(|s| (s.out, s.note_buf) = (0, 0)),
        with(|s| (s.out, s.note_buf) = (1, 1)),
        with(|s| (s.out, s.note_buf) = (21, 21)),
    ]
}

/// 12 by the mapped length, with the lane just long enough and one value short; with no frames it is one.
fn lanes() -> Vec<Score> {
    let mut scores = Vec::new();
    for (step, swing, humanize) in [(2, 0.0, 0.0), (1, 1.0, 0.0), (4, 0.0, 1.0), (500, 0.0, 0.0)] {
        let mut score = with_words(&[curve(step, 2, 3, 0.5)]);
        (score.swing, score.humanize) = (swing, humanize);
        let reach = 3 + Grid::of(&score.call()).length(&score.words);
        for lane in [reach, reach - 1] {
            score.lane.truncate(lane);
            scores.push(score.clone());
        }
    }
    for lane in [4, 3] {
        scores.push(with(|s| {
            (s.out, s.note_buf, s.words) = (0, 0, curve(2, 2, 3, 0.5).to_vec());
            s.lane.truncate(lane);
        }));
    }
    scores
}

/// 31, and the last that passes it.
fn domain() -> Vec<Score> {
    let point = |num, den, bpm| with_map(&[(0, 1, 1000.0), (num, den, bpm)]);
    let mut scores: Vec<Score> = [
        1_000_000_000,
        1_000_000_001,
        -1_000_000_001,
        i64::MAX,
        i64::MIN,
        1 << 32,
    ]
    .map(|num| point(num, 64, 500.0))
    .to_vec();
    scores.push(point(2_000_000_002, 2, 500.0));
    scores.push(point(3, 0, 500.0));
    scores.push(with_map(&[(0, 0, 1000.0)]));
    for bpm in [1.0, BELOW_1, 1000.0, ABOVE_1000, f32::NAN, 0.0, -500.0] {
        scores.push(point(3, 64, bpm));
    }
    for (num, den, bpm) in [(64, 64, 500.0), (0, 0, 0.0)] {
        scores.push(with(|s| {
            s.points = ritardando(1, 64, 1000.0, 500.0);
            s.points.extend(map(&[(num, den, bpm)]));
        }));
    }
    scores
}

/// 32, and its neighbours.
fn order() -> Vec<Score> {
    let then = |num, den| with_map(&[(0, 1, 1000.0), (1, 32, 900.0), (num, den, 500.0)]);
    vec![
        with_map(&[(1, u32::MAX, 1000.0)]),
        with_map(&[(-1, 64, 1000.0), (3, 64, 500.0)]),
        then(2, 64),
        then(1_000_000_000, 4_294_967_295),
        then(134_217_727, 4_294_967_295),
        then(134_217_728, 4_294_967_295),
        then(0, 1),
        then(-1_000_000_000, 1),
        with_map(&[(0, 1, 1000.0), (0, 2, 500.0)]),
    ]
}

/// Two faults at once, for refusals that follow each other, and what makes no call.
fn orders() -> Vec<Score> {
    let late = |s: &mut Score| s.points = map(&[(1, 1, 1000.0), (3, 64, 500.0)]);
    let outside = |s: &mut Score| s.points = map(&[(1, 1, 1000.0), (0, 1, 500.0), (2, 1, 0.0)]);
    let mut scores = vec![
        with(|s| (s.tempo, s.points) = (ABOVE_1000, map(&[(0, 0, 0.0)]))),
        with(|s| (s.steps_per_beat, s.points) = (65, map(&[(0, 0, 0.0)]))),
        with(outside),
        with(|s| {
            late(s);
            s.swing = ABOVE_1;
        }),
        with(|s| {
            outside(s);
            s.humanize = ABOVE_1;
        }),
    ];
    for words in [1, 2, 3, 11] {
        scores.push(with(|s| {
            s.points.truncate(words);
            s.rate = 7999;
        }));
    }
    scores
}

/// Scores that are each played on a session of its own.
pub fn edges() -> Vec<Score> {
    [maps(), notes(), lanes(), domain(), order(), orders()].concat()
}

/// Calls on one session: every wave with a map, and with none or refused calls between them.
pub fn list() -> Vec<Score> {
    let mut scores = Vec::new();
    for wave in 0..18 {
        scores.push(with(|s| s.wave = wave));
        if wave % 4 == 0 {
            scores.push(with(|s| (s.wave, s.points) = (wave, Vec::new())));
            scores.push(with(|s| (s.wave, s.points[2]) = (wave, 0)));
        }
    }
    scores
}
