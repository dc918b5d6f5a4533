//! The scores at hops of crates/score_vectors: lanes that just hold their curves and lanes one value short, the
//! limits of the hop, what comes before 35 and after it, and a list of calls.

use crate::grid::Grid;
use crate::mapped_cases::slowing;
use crate::score::Score;
use crate::score_cases::{curve, note, tone, usual, ABOVE_1};

/// 7.5 frames a step and four frames a value: a curve through all 40 frames, one of 15 frames, and a number.
/// The first curve needs the lane's last value.
fn slow() -> Score {
    Score {
        hop: 4,
        words: [
            curve(0, 1_048_575, 2, 0.6),
            curve(1, 2, 1, 0.5),
            note(2, 1, 440.0, 0.8),
        ]
        .concat(),
        lane: lane(12),
        out: 40,
        note_buf: 40,
        ..usual()
    }
}

fn lane(values: usize) -> Vec<f32> {
    (0..values).map(|i| 200.0 + 90.0 * i as f32).collect()
}

fn with(change: impl FnOnce(&mut Score)) -> Score {
    let mut score = slow();
    change(&mut score);
    score
}

/// This score with a lane that just holds its curves, and with one that is a value short.
fn just_and_short(score: Score) -> [Score; 2] {
    let grid = Grid::of(&score.call());
    let reach = score.curves(&grid).map(|curve| curve.reach).max();
    let reach = reach.expect("there is a curve") as usize;
    [reach, reach - 1].map(|values| Score {
        lane: lane(values),
        ..score.clone()
    })
}

/// Of 40 frames and of 1, which have a value's last frame at some hops and the next one's first at others.
fn held() -> Vec<Score> {
    let hops = [1, 2, 3, 4, 5, 13, 20, 38, 39, 40, 41, 64, 4095, 4096];
    let mut scores: Vec<Score> = hops
        .iter()
        .flat_map(|&hop| just_and_short(with(|s| s.hop = hop)))
        .collect();
    scores.extend(just_and_short(with(|s| (s.out, s.note_buf) = (1, 1))));
    scores.extend(just_and_short(with(|s| (s.out, s.note_buf) = (0, 0))));
    // a skipped note's curve has to reach as far
    scores.extend(just_and_short(with(|s| {
        s.words = [note(0, 1, 440.0, 0.8), curve(500, 4, 3, 0.5)].concat();
    })));
    scores
}

/// Places about 2^32, at which a lane of few values ends too early; modulo 2^32 it would not.
fn far() -> Vec<Score> {
    let mut scores = Vec::new();
    for hop in [1, 39, 40, 4096] {
        for offset in [u32::MAX, u32::MAX - 1] {
            scores.push(with(|s| {
                (s.hop, s.lane) = (hop, lane(60));
                s.words = curve(0, 1_048_575, offset, 0.6).to_vec();
            }));
        }
    }
    scores
}

/// A lane with no values, with a curve and with none.
fn empty() -> Vec<Score> {
    let words = [
        curve(0, 0, 0, 0.6).to_vec(),
        note(0, 1, 440.0, 0.8).to_vec(),
        Vec::new(),
    ];
    words
        .map(|words| with(|s| (s.hop, s.lane, s.words) = (4096, Vec::new(), words)))
        .to_vec()
}

/// 35, with curves, with numbers alone, with no notes and with no frames.
fn outside() -> Vec<Score> {
    let mut scores: Vec<Score> = [0, 4097, 8192, 65_537, 1 << 31, u32::MAX]
        .map(|hop| with(|s| s.hop = hop))
        .to_vec();
    for hop in [0, 4097] {
        scores.push(with(|s| {
            (s.hop, s.words) = (hop, note(0, 1, 440.0, 0.8).to_vec());
        }));
        scores.push(with(|s| (s.hop, s.words) = (hop, Vec::new())));
        scores.push(with(|s| (s.hop, s.out, s.note_buf) = (hop, 0, 0)));
    }
    scores
}

/// 35 with each fault that comes before it or after it, and what makes no call.
fn orders() -> Vec<Score> {
    let faults: [fn(&mut Score); 17] = [
        |s| s.rate = 7999,
        |s| s.tempo = 0.0,
        |s| s.steps_per_beat = 65,
        |s| s.points = vec![0; 4],
        |s| s.points = vec![1, 0, 1, 500f32.to_bits()],
        |s| s.swing = ABOVE_1,
        |s| s.knobs[21] = f32::NAN,
        |s| s.note_buf = 39,
        |s| s.string = 9599,
        |s| s.words.push(0),
        |s| s.lane[11] = f32::NAN,
        |s| s.words[2] = 3,
        |s| s.words[0] = 1_048_576,
        |s| s.words[4] = f32::NAN.to_bits(),
        |s| s.words.extend(tone(0, 1, 256, 0.5)),
        |s| s.lane.clear(),
        |s| s.wave = 18,
    ];
    let mut scores = Vec::new();
    for (i, fault) in faults.iter().enumerate() {
        scores.push(with(|s| {
            s.hop = [0, 4097][i % 2];
            fault(s);
        }));
    }
    scores
}

/// Under a tempo map.
fn mapped() -> Vec<Score> {
    let hops = [2, 3, 59, 4096].iter();
    hops.flat_map(|&hop| just_and_short(Score { hop, ..slowing() }))
        .collect()
}

/// Scores that are each played on a session of its own.
pub fn edges() -> Vec<Score> {
    [held(), far(), empty(), outside(), orders(), mapped()].concat()
}

/// Calls on one session: every wave with curves at a hop, and refused calls between them.
pub fn list() -> Vec<Score> {
    let mut scores = Vec::new();
    for wave in 0..18 {
        scores.push(with(|s| s.wave = wave));
        if wave % 4 == 0 {
            scores.push(with(|s| (s.wave, s.hop) = (wave, 0)));
        }
        if wave % 4 == 2 {
            scores.push(with(|s| (s.wave, s.hop) = (wave, 3)));
        }
    }
    scores
}
