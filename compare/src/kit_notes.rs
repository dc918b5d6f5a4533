//! The frames of the drum kit's hits against the original's `kit_drum`, through the note call of wave 16, and the
//! generator after each.

use crate::engine::{in_threads, threads, Count, SHOWN};
use crate::harness::{tono_note, NoteArgs};
use crate::kits::{borders, pitch_of, LOWEST_RATE, NUMBERS, RATES, USUAL};
use crate::progress::Progress;
use crate::random::{draw, Source};
use crate::voice_vectors::USUAL as KNOBS;
use crate::voices::first_difference;
use crate::waves::{BARS, KIT, STYLES};
use std::time::Instant;
use tono::dsp::Rng;
use tono::render::seq::shim::hit;

/// How many random hits are tried where no number is given.
pub const COUNT: u64 = 1_000_000;
/// How many patterns are tried on each side of a rounding border.
const BESIDE: u64 = 2;
/// First pitches that no drum is named for: the ends of what is sized, and about the least that is told apart.
const ODD: [f32; 12] = [
    0.0,
    -0.0,
    -1.0,
    -65536.0,
    65536.0,
    1e-40,
    7.999_999_5,
    8.0,
    8.000_001,
    8.175_799,
    13_289.75,
    20_000.0,
];

/// A test of time in render/kit.rs: the style, the drum, the milliseconds at which it turns, and one rate in how
/// many is tried. Those that a draw depends on are tried at every rate.
struct TimeTest {
    style: u32,
    midi: u32,
    ms: u64,
    every: u64,
}

const fn time_test(style: u32, midi: u32, ms: u64, every: u64) -> TimeTest {
    TimeTest {
        style,
        midi,
        ms,
        every,
    }
}

const TIME_TESTS: [TimeTest; 17] = [
    // draws: the kicks' clicks, and the snap of the 808's rim
    time_test(0, 36, 2, 1),
    time_test(1, 35, 18, 1),
    time_test(2, 36, 3, 1),
    time_test(3, 36, 4, 1),
    time_test(3, 37, 3, 1),
    // claps: the bursts, and the remainder by 0.01
    time_test(1, 39, 9, 4),
    time_test(1, 39, 18, 8),
    time_test(1, 39, 27, 16),
    time_test(2, 39, 10, 4),
    time_test(2, 39, 20, 8),
    time_test(2, 39, 30, 16),
    time_test(3, 39, 10, 4),
    time_test(3, 39, 20, 8),
    time_test(3, 39, 30, 16),
    // the gate of the electronic snare, and where toms stop falling
    time_test(2, 38, 130, 128),
    time_test(0, 45, 200, 256),
    time_test(1, 45, 250, 256),
];

/// One hit: what is handed to both sides. Only the first pitch is read.
struct KitNote {
    style: u32,
    rate: u32,
    gain: f32,
    state: u64,
    pitch: Vec<f32>,
}

impl KitNote {
    fn new(style: u32, first: f32, rate: u32, frames: usize, state: u64) -> KitNote {
        let mut pitch = vec![123.0; frames];
        pitch[0] = first;
        KitNote {
            style,
            rate,
            gain: 1.0,
            state,
            pitch,
        }
    }

    fn random(seed: u64) -> KitNote {
        let mut s = Source::new(seed);
        let frames = match s.below(8) {
            0 => 1 + s.below(8),
            1 => 1 + s.below(4000),
            _ => 1 + s.below(500),
        } as usize;
        let mut pitch = s.curve(frames, 20.0, 5000.0);
        pitch[0] = s.pitch(KIT);
        KitNote {
            style: s.below(4) as u32,
            rate: s.rate(),
            gain: s.sized(0.0, 1.0),
            state: s.number(),
            pitch,
        }
    }

    /// The library's samples and the draw that its generator would make next.
    fn ours(&self, string: &mut [f32]) -> (Vec<f32>, u64) {
        let mut out = vec![f32::from_bits(0x7f12_3456); self.pitch.len()];
        let (mut state, mut draws) = (self.state, 0);
        tono_note(NoteArgs {
            rate: self.rate,
            wave: KIT,
            style: self.style,
            knobs: &KNOBS,
            bars: &BARS,
            gain: self.gain,
            state: &mut state,
            draws: &mut draws,
            pitch: &self.pitch,
            duty: &self.pitch,
            out: &mut out,
            string,
        });
        (out, draw(state))
    }

    /// The original's.
    fn theirs(&self) -> (Vec<f32>, u64) {
        let mut rng = Rng::new(self.state);
        let style = STYLES[self.style as usize];
        let out = hit(&self.pitch, self.rate, &mut rng, style);
        (out, rng.next_u64())
    }
}

/// Compares `count` hits, of which `case` makes each from its number.
fn hits(name: &str, count: u64, case: impl Fn(u64) -> KitNote + Sync) -> Count {
    let (begun, progress) = (Instant::now(), Progress::new(name, count));
    let shares = in_threads(|thread| {
        let mut string = vec![0.0; 9600];
        let mut differ = Vec::new();
        for i in (thread..count).step_by(threads()) {
            let note = case(i);
            let at = first_difference(&note.ours(&mut string), &note.theirs());
            differ.extend(at.map(|at| (i, at)));
            progress.add(1);
        }
        differ
    });
    drop(progress);
    let seconds = begun.elapsed().as_secs_f64();
    let all = shares.concat();
    let differ = all.len() as u64;
    println!("{name:20} {count:>8} hits, {differ} differ, {seconds:.1} s");
    for (i, at) in all.iter().take(SHOWN) {
        println!("  {name}: hit {i}, from frame {at}");
    }
    let cases = count;
    Count { cases, differ }
}

/// Every number of every style at every usual rate.
fn numbers() -> Count {
    let rates = USUAL.len() as u64;
    hits("numbers", 4 * NUMBERS * rates, |i| {
        let (rate, i) = (USUAL[(i % rates) as usize], i / rates);
        let (style, midi) = ((i / NUMBERS) as u32, (i % NUMBERS) as u32);
        KitNote::new(style, pitch_of(midi), rate, 2048, i)
    })
}

/// The pitches on both sides of each border between two numbers.
fn beside_borders() -> Count {
    let borders = borders();
    let each = 2 * BESIDE;
    hits("rounding borders", 4 * each * borders.len() as u64, |i| {
        let (style, i) = ((i % 4) as u32, i / 4);
        let pattern = borders[(i / each) as usize] - BESIDE + i % each;
        KitNote::new(style, f32::from_bits(pattern as u32), 48_000, 256, i)
    })
}

/// Hits that end in the frame before a test of time turns, in that frame, and after it.
fn time_tests(scale: u64) -> Count {
    let each = TIME_TESTS.iter().map(|test| {
        let TimeTest {
            style, midi, ms, ..
        } = *test;
        let every = test.every * scale;
        let name = format!("style {style}, {midi}, {ms} ms");
        hits(&name, RATES.div_ceil(every), |i| {
            let rate = LOWEST_RATE + i * every;
            let turns = (ms * rate).div_ceil(1000);
            let frames = match test.every {
                1 => turns + 2,
                _ => turns + i % 3,
            };
            KitNote::new(style, pitch_of(midi), rate as u32, frames as usize, i)
        })
    });
    each.sum()
}

/// The frames about the last draw of those that draw for a while, one less, just so many, and one more.
fn last_draws() -> Count {
    let (tests, rates) = (&TIME_TESTS[..5], USUAL.len() as u64);
    hits("last draws", 5 * rates * 3, |i| {
        let (test, rate) = (&tests[(i % 5) as usize], USUAL[(i / 15) as usize]);
        let drawn = (test.ms * rate as u64).div_ceil(1000);
        let frames = drawn - 1 + i / 5 % 3;
        KitNote::new(test.style, pitch_of(test.midi), rate, frames as usize, i)
    })
}

/// Pitches that no drum is named for.
fn odd_pitches() -> Count {
    let count = ODD.len() as u64;
    hits("odd pitches", 4 * count, |i| {
        let first = ODD[(i % count) as usize];
        KitNote::new((i / count) as u32, first, 44_100, 500, i)
    })
}

/// All of these, at one rate in as many as `count` goes into the usual number of hits, and `count` random hits.
pub fn run(count: u64) -> Count {
    let scale = COUNT.div_ceil(count.max(1)).max(1);
    let all = numbers()
        + beside_borders()
        + last_draws()
        + odd_pitches()
        + time_tests(scale)
        + hits("random", count, KitNote::random);
    all.printed()
}
