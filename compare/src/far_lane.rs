//! Curves in a lane of more than 2^32 values. It takes 16 GiB of addresses; memory only where its values are
//! not 0.

use crate::engine::{same_values, Count};
use crate::harness::{tono_render_seq, ScoreArgs};
use crate::reference::{self, ScoreCall, Session};
use crate::score::Score;
use crate::score_cases::{curve, usual};

/// The lane's last place is 2^32 + 23.
const VALUES: usize = (1 << 32) + 24;
/// How many values at its end are not 0.
const LAST: usize = 64;

/// Offset, hop and frames of a curve. All but the last end at the lane's last place or at the one after it.
const CURVES: [(u32, u32, usize); 6] = [
    (u32::MAX, 1, 25),
    (u32::MAX, 1, 26),
    (u32::MAX - 7, 2, 64),
    (u32::MAX, 3, 75),
    (u32::MAX, 3, 76),
    (u32::MAX, 4096, 100),
];

fn score((offset, hop, frames): (u32, u32, usize), wave: u32) -> Score {
    Score {
        hop,
        wave,
        words: curve(0, 1_048_575, offset, 0.8).to_vec(),
        out: frames,
        note_buf: frames,
        ..usual()
    }
}

/// The number that the library gives, and its frames.
fn ours(score: &Score, lane: &[f32]) -> (u32, Vec<f32>) {
    let mut out = vec![1.0; score.out];
    let number = tono_render_seq(ScoreArgs {
        seeds: &mut [1, 0, 0, 0, 0, 0, 0, 0],
        counts: &mut [0; 8],
        draws: &mut 0,
        station: score.station,
        rate: score.rate,
        tempo: score.tempo,
        steps_per_beat: score.steps_per_beat,
        points: &score.points,
        swing: score.swing,
        humanize: score.humanize,
        hop: score.hop,
        wave: score.wave,
        style: score.style,
        duty: score.duty,
        knobs: &score.knobs,
        bars: &score.bars,
        env: &score.env,
        notes: &score.words,
        lane,
        out: &mut out,
        note_buf: &mut vec![1.0; score.note_buf],
        string: &mut vec![1.0; score.string],
    });
    (number, out)
}

/// Compares a sawtooth and a pluck of each curve.
pub fn run() -> Count {
    let mut lane = vec![0.0; VALUES];
    for (i, x) in lane[VALUES - LAST..].iter_mut().enumerate() {
        *x = 200.0 + 60.0 * i as f32;
    }
    let mut count = Count::default();
    for (case, wave) in CURVES.iter().flat_map(|&case| [(case, 2), (case, 6)]) {
        let score = score(case, wave);
        let (number, frames) = ours(&score, &lane);
        let mut session = Session::open(1, 0);
        let called = session.score_call(&ScoreCall {
            lane: &lane,
            ..score.call()
        });
        let untouched = vec![1.0; score.out];
        let wanted = reference::frames(&called).unwrap_or(&untouched);
        let same = number == reference::number(&called) && same_values(&frames, wanted).is_ok();
        let (offset, hop, n) = case;
        println!("offset {offset}, hop {hop}, {n} frames, wave {wave}: {number}");
        count.cases += 1;
        count.differ += !same as u64;
    }
    count.printed()
}
