//! The drum kit's numbers against the original: the number of a hit's drum, and how many draws the hit makes.

use crate::engine::{compare, Answer, Cases, Count};
use crate::harness::*;
use crate::kit_draws::midi;
use crate::random::{draw, draw_at, state_at};
use crate::waves::STYLES;
use tono::dsp::{self, Rng};
use tono::render::seq::shim::hit;

/// The patterns from 8 Hz up to but not at 16,384 Hz: every pitch from MIDI 0 to 127 is among them.
const PITCHES: u64 = 11 << 23;
const LOWEST: u64 = 0x4100_0000;
/// How many f32 patterns there are.
const PATTERNS: u64 = 1 << 32;
/// How many patterns are tried on each side of a rounding border: more than one, since the logarithm may
/// go down by a unit as the pitch goes up.
const BESIDE: u64 = 64;
/// The styles and drums that draw for a while.
pub const EARLY: [(u32, u32); 5] = [(0, 36), (1, 35), (2, 36), (3, 36), (3, 37)];
pub const LOWEST_RATE: u64 = 8_000;
pub const RATES: u64 = 184_001;
pub const USUAL: [u32; 8] = [
    8_000, 11_025, 16_000, 22_050, 44_100, 48_000, 96_000, 192_000,
];
const FRAMES: [usize; 5] = [1, 2, 40, 400, 4_000];
pub const NUMBERS: u64 = 128;

pub fn pitch_of(midi: u32) -> f32 {
    440.0 * 2f32.powf((midi as f32 - 69.0) / 12.0)
}

/// Each pattern of a pitch whose number is the first above m, for m from 0 on, found by halving.
pub fn borders() -> Vec<u64> {
    let number = |pattern: u64| midi(f32::from_bits(pattern as u32));
    (0..NUMBERS as i32)
        .map(|m| {
            let (mut low, mut high) = (LOWEST, LOWEST + PITCHES);
            while high - low > 1 {
                let middle = (low + high) / 2;
                if number(middle) <= m {
                    low = middle;
                } else {
                    high = middle;
                }
            }
            high
        })
        .collect()
}

/// A hit: the place of its style, its first pitch, its rate and its frames.
#[derive(Clone, Copy)]
struct Hit {
    style: u32,
    first: f32,
    rate: u32,
    frames: usize,
    state: u64,
}

impl Answer for Hit {
    fn same(self, _: Hit) -> bool {
        true
    }
    fn show(self) -> String {
        let Hit {
            style,
            first,
            rate,
            frames,
            ..
        } = self;
        format!(
            "style {style}, first {:08x}, rate {rate}, {frames} frames",
            first.to_bits()
        )
    }
}

impl Hit {
    fn count(self) -> usize {
        h_kit_draws(self.style, h_midi(self.first), self.rate, self.frames)
    }

    /// The draw after the hit, by the library's count.
    fn ours(self) -> u64 {
        draw(state_at(self.state, self.count() as u64))
    }

    /// The draw after the original's hit. The pitches after the first are others.
    fn theirs(self) -> u64 {
        let mut pitch = vec![123.0; self.frames];
        pitch[0] = self.first;
        let mut rng = Rng::new(self.state);
        hit(&pitch, self.rate, &mut rng, STYLES[self.style as usize]);
        rng.next_u64()
    }
}

/// A kick, or the 808's rim, at each rate, two frames longer than it draws.
fn early(i: u64) -> Hit {
    let (style, number) = EARLY[(i / RATES) as usize];
    let rate = (LOWEST_RATE + i % RATES) as u32;
    let whole = Hit {
        style,
        first: pitch_of(number),
        rate,
        frames: 10_000,
        state: draw_at(8, i),
    };
    Hit {
        frames: whole.count() + 2,
        ..whole
    }
}

/// Every number, style, usual rate and length.
fn any(i: u64) -> Hit {
    let (frames, i) = (FRAMES[i as usize % FRAMES.len()], i / FRAMES.len() as u64);
    let (rate, i) = (USUAL[i as usize % USUAL.len()], i / USUAL.len() as u64);
    Hit {
        style: (i / NUMBERS) as u32,
        first: pitch_of((i % NUMBERS) as u32),
        rate,
        frames,
        state: draw_at(9, i),
    }
}

/// Compares one in `scale` of the patterns and of the rates, and the rest in full.
pub fn run(scale: u64) -> Count {
    let pitches = Cases {
        count: PITCHES.div_ceil(scale),
        case: |i| f32::from_bits((LOWEST + i * scale) as u32),
    };
    let patterns = Cases {
        count: PATTERNS.div_ceil(64 * scale),
        case: |i| f32::from_bits((i * 64 * scale + 1) as u32),
    };
    let numbers = Cases {
        count: NUMBERS,
        case: |i| pitch_of(i as u32),
    };
    let found = borders();
    let beside = Cases {
        count: NUMBERS * 2 * BESIDE,
        case: |i| {
            f32::from_bits((found[(i / (2 * BESIDE)) as usize] - BESIDE + i % (2 * BESIDE)) as u32)
        },
    };
    let early = Cases {
        count: (EARLY.len() as u64 * RATES).div_ceil(scale),
        case: |i| early(i * scale),
    };
    let any = Cases {
        count: STYLES.len() as u64 * NUMBERS * (USUAL.len() * FRAMES.len()) as u64,
        case: any,
    };
    let log2 = |x: f32| tono::det::lnf(x) / tono::det::lnf(2.0);
    let count = compare("log2", &patterns, |x| h_log2(x), log2)
        + compare("to midi", &patterns, |x| h_hz_to_midi(x), dsp::hz_to_midi)
        + compare("midi", &pitches, |x| h_midi(x), midi)
        + compare("any", &patterns, |x| h_midi(x), midi)
        + compare("numbers", &numbers, |x| h_midi(x), midi)
        + compare("borders", &beside, |x| h_midi(x), midi)
        + compare("early", &early, Hit::ours, Hit::theirs)
        + compare("hits", &any, Hit::ours, Hit::theirs);
    count.printed()
}
