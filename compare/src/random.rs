//! SplitMix64 in plain Rust, for cases to try and as the reference of the library's generator.

use crate::waves::KIT;
use std::sync::atomic::{AtomicU64, Ordering};

const GOLDEN_GAMMA: u64 = 0x9E37_79B9_7F4A_7C15;

/// The state of `seed`'s generator after `count` draws.
pub fn state_at(seed: u64, count: u64) -> u64 {
    seed.wrapping_add(count.wrapping_mul(GOLDEN_GAMMA))
}

/// The draw from a state.
pub fn draw(state: u64) -> u64 {
    let mut z = state.wrapping_add(GOLDEN_GAMMA);
    z = (z ^ (z >> 30)).wrapping_mul(0xBF58_476D_1CE4_E5B9);
    z = (z ^ (z >> 27)).wrapping_mul(0x94D0_49BB_1331_11EB);
    z ^ (z >> 31)
}

/// What is added to the seeds of all cases: 0, or what a run was told.
static RUN: AtomicU64 = AtomicU64::new(0);

/// Has the run try other cases than the usual ones, where `seed` is not 0.
pub fn set_run(seed: u64) {
    let added = if seed == 0 { 0 } else { draw(seed) };
    RUN.store(added, Ordering::Relaxed);
}

/// Draw number `index` of `seed`, counted from 0, so that every case can be made again from its
/// number and the run's seed alone.
pub fn draw_at(seed: u64, index: u64) -> u64 {
    let seed = seed.wrapping_add(RUN.load(Ordering::Relaxed));
    draw(state_at(seed, index))
}

/// From 0 up to but not at 1.
pub fn unit(seed: u64, index: u64) -> f64 {
    (draw_at(seed, index) >> 11) as f64 / (1u64 << 53) as f64
}

/// A stream of numbers for one case, made from the case's number alone.
pub struct Source {
    seed: u64,
    next: u64,
}

impl Source {
    pub fn new(seed: u64) -> Source {
        Source { seed, next: 0 }
    }

    pub fn number(&mut self) -> u64 {
        self.next += 1;
        draw_at(self.seed, self.next)
    }

    pub fn below(&mut self, n: u64) -> u64 {
        self.number() % n
    }

    pub fn pick<T: Copy>(&mut self, from: &[T]) -> T {
        from[self.below(from.len() as u64) as usize]
    }

    pub fn unit(&mut self) -> f32 {
        (self.number() >> 40) as f32 / 16777216.0
    }

    pub fn between(&mut self, low: f32, high: f32) -> f32 {
        low + (high - low) * self.unit()
    }

    /// Of the domain: often a usual rate, otherwise any.
    pub fn rate(&mut self) -> u32 {
        match self.below(3) {
            0 => 8000 + self.below(184_001) as u32,
            _ => self.pick(&[8000, 22050, 44100, 48000, 96000, 192000]),
        }
    }

    /// A sized number: often an odd one, otherwise from `low` to `high`.
    pub fn sized(&mut self, low: f32, high: f32) -> f32 {
        match self.below(8) {
            0 => self.odd(),
            1 => self.between(-65536.0, 65536.0),
            _ => self.between(low, high),
        }
    }

    /// Zeros, ones, the ends of what is sized, subnormals and small numbers.
    fn odd(&mut self) -> f32 {
        let tiny = f32::from_bits(self.below(0x0080_0000) as u32);
        let small = self.between(-0.01, 0.01);
        self.pick(&[0.0, -0.0, 1.0, -1.0, 65536.0, -65536.0, tiny, -tiny, small])
    }

    /// A number that isn't sized: NaNs, the infinities, the next above 65,536, the largest, any.
    pub fn not_sized(&mut self) -> f32 {
        let above = 0x4780_0001 + self.below(0x387f_ffff) as u32;
        let sign = (self.below(2) as u32) << 31;
        let nan = 0x7f80_0001 + self.below(0x007f_ffff) as u32;
        let patterns = [
            0x7f80_0000,
            0x7fc0_0000,
            nan,
            0x4780_0001,
            0x7f7f_ffff,
            above,
        ];
        f32::from_bits(self.pick(&patterns) | sign)
    }

    /// Makes one of the values, if there are any, a number that isn't sized.
    pub fn spoil_one(&mut self, values: &mut [f32]) {
        if !values.is_empty() {
            let place = self.below(values.len() as u64) as usize;
            values[place] = self.not_sized();
        }
    }

    /// 22 sized knobs; those of the bass that are in hertz reach higher.
    pub fn knobs(&mut self) -> [f32; 22] {
        let mut knobs = [0.0; 22];
        for knob in knobs.iter_mut() {
            *knob = self.sized(0.0, 2.0);
        }
        for k in [12, 13, 14, 16] {
            knobs[k] = self.sized(0.0, 3000.0);
        }
        knobs
    }

    /// A style of the drum kit for a voice of this wave; for other waves mostly the first.
    pub fn style(&mut self, wave: u32) -> u32 {
        match self.below(4) {
            0 => self.below(4) as u32,
            _ if wave == KIT => self.below(4) as u32,
            _ => 0,
        }
    }

    /// One that is none.
    pub fn no_style(&mut self) -> u32 {
        self.pick(&[4, 4, 5, 8, 255, 256, 65_536, 1 << 31, u32::MAX, u32::MAX])
    }

    /// A drum's pitch: of three of four one that kit.rs names, or beside those; within a quarter tone, at times
    /// just at the border to the next.
    pub fn drum_pitch(&mut self) -> f32 {
        let midi = match self.below(4) {
            0 => self.below(128),
            _ => 33 + self.below(29),
        };
        let cents = match self.below(8) {
            0 => self.pick(&[-50.0, 50.0]),
            _ => self.between(-50.0, 50.0),
        };
        440.0 * 2f32.powf((midi as f32 - 69.0 + cents / 100.0) / 12.0)
    }

    /// A pitch for a note of this wave.
    pub fn pitch(&mut self, wave: u32) -> f32 {
        match self.below(4) {
            1.. if wave == KIT => self.drum_pitch(),
            _ => self.sized(20.0, 5000.0),
        }
    }

    /// A number at every frame, a glide, or anything.
    pub fn curve(&mut self, n: usize, low: f32, high: f32) -> Vec<f32> {
        let (from, to) = (self.sized(low, high), self.sized(low, high));
        match self.below(4) {
            0 => (0..n)
                .map(|i| from + (to - from) * (i as f32 / n as f32))
                .collect(),
            1 => (0..n).map(|_| self.sized(low, high)).collect(),
            _ => vec![from; n],
        }
    }
}
