//! Scores that are longer than the random ones.

use crate::reference::STATIONS;
use crate::score::Score;
use crate::score_cases::{curve, note};
use crate::tempo_points::{words_of, Point};
use crate::voice_vectors::USUAL;
use crate::waves::BARS;

/// "n at most 16,777,216"
const LONGEST: usize = 16_777_216;
/// Some 22 seconds at the rate below.
const LONG: usize = 1 << 20;

/// Scores as long as the domain goes: empty, and with noise all through and at the very end.
pub fn longest() -> [Score; 2] {
    // at 180 frames a step
    let all = note(0, 1_048_575, 0.0, 1.0);
    let last = note(93_206, 1, 0.0, 1.0);
    [vec![], [all, last].concat()].map(|words| Score {
        seeds: STATIONS,
        counts: STATIONS,
        station: 0,
        rate: 192_000,
        tempo: 1000.0,
        steps_per_beat: 64,
        points: Vec::new(),
        swing: 0.0,
        humanize: 0.0,
        hop: 1,
        wave: 4,
        style: 0,
        duty: 0.5,
        knobs: vec![0.5; 22],
        bars: BARS.to_vec(),
        env: vec![0.0, 0.0, 1.0, 0.0, 0.0],
        words,
        lane: Vec::new(),
        out: LONGEST,
        note_buf: LONGEST,
        string: 9600,
    })
}

/// A wave all through, a glide over it, and a note that is cut at the end. 6,000 frames a step.
pub fn long(wave: u32) -> Score {
    let all = note(0, 1_048_575, 110.0, 0.8);
    let glide = curve(1, 100, 5, 0.5);
    let last = note(174, 4, 1500.0, 1.0);
    Score {
        seeds: STATIONS,
        counts: STATIONS,
        station: 0,
        rate: 48_000,
        tempo: 120.0,
        steps_per_beat: 4,
        points: Vec::new(),
        swing: 0.5,
        humanize: 0.25,
        hop: 1,
        wave,
        style: 0,
        duty: 0.4,
        knobs: USUAL.to_vec(),
        bars: BARS.to_vec(),
        env: vec![0.01, 0.1, 0.6, 0.2, 0.3],
        words: [all, glide, last].concat(),
        lane: (0..700_000).map(|i| 30.0 + i as f32 / 300.0).collect(),
        out: LONG,
        note_buf: LONG,
        string: 9600,
    }
}

/// Curves all through and over a part, and a note that is cut at the end, with a lane that just reaches.
pub fn long_hopped(wave: u32, hop: u32) -> Score {
    let score = Score {
        hop,
        words: [
            curve(0, 1_048_575, 7, 0.8),
            curve(1, 100, 5, 0.5),
            note(174, 4, 1500.0, 1.0),
        ]
        .concat(),
        ..long(wave)
    };
    let values = 8 + (LONG - 1) / hop as usize;
    Score {
        lane: glide(values),
        ..score
    }
}

/// As long as the domain goes: a sawtooth whose curve has its last value in the lane's last place. A value
/// that is read a frame too early or too late changes the phase of all frames after it.
pub fn longest_hopped(hop: u32) -> Score {
    let [empty, _] = longest();
    Score {
        hop,
        wave: 2,
        words: curve(0, 1_048_575, 1, 0.8).to_vec(),
        lane: glide(2 + (LONGEST - 1) / hop as usize),
        ..empty
    }
}

/// From 30 hertz up to 3,000 and down again, over and over.
fn glide(values: usize) -> Vec<f32> {
    let up = |i: usize| (i * 37 % 6000).abs_diff(3000) as f32;
    (0..values).map(|i| 30.0 + 0.99 * up(i)).collect()
}

/// 64 points, each a fraction of a beat after the one before, from one tempo evenly to another.
pub fn ritardando(num: i64, den: u32, from: f32, to: f32) -> Vec<u32> {
    let points: Vec<Point> = (0..64)
        .map(|i| Point {
            num: num * i,
            den,
            bpm: from + (to - from) * i as f32 / 63.0,
        })
        .collect();
    words_of(&points)
}

/// The same under a map from 132 beats a minute down, with a point at each 7/3 of a beat, of which twenty
/// lie within the frames. Step 28 stands on a point, and the last note is cut.
pub fn long_mapped(wave: u32) -> Score {
    Score {
        points: ritardando(7, 3, 132.0, 66.0),
        words: [
            note(0, 1_048_575, 110.0, 0.8),
            curve(1, 40, 5, 0.5),
            curve(28, 3, 100, 0.7),
            note(100, 4, 1500.0, 1.0),
            note(139, 0, 300.0, 1.0),
            note(175, 8, 300.0, 1.0),
        ]
        .concat(),
        ..long(wave)
    }
}

/// As long as the domain goes, with the most beats: a beat is 480 frames at first, and the last point
/// stands at beat 34,671. Notes on points, across one, past the last, and past the frames.
pub fn longest_mapped() -> Score {
    let [_, straight] = longest();
    let steps = [
        0, 16_510, 17_051, 33_020, 34_120, 34_671, 34_700, 34_777, 34_800,
    ];
    let words = steps.map(|step| note(step, 1 + step % 7, 0.0, 1.0));
    Score {
        rate: 8000,
        steps_per_beat: 1,
        points: ritardando(1651, 3, 1000.0, 990.0),
        swing: 0.5,
        humanize: 0.5,
        words: words.concat(),
        ..straight
    }
}
