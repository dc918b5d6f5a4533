//! Drawbars to try, and the comparisons of organs that have them.

use crate::engine::Count;
use crate::random::Source;
use crate::waves::{voice_of, BARS};
use crate::{note_calls, texts};
use tono::dsl::SeqWave;
use tono::dsp::Rng;
use tono::render::seq::shim;
use tono::voice::note_with_pairs;

/// How many note calls are tried where no number is given; and a tenth as many texts.
pub const COUNT: u64 = 1_000_000;

/// Drawbars of the vectors: docs/voices.md's registrations, then each kind of number.
pub const REGISTRATIONS: [[f32; 10]; 14] = [
    [1.0, 0.0, 2.0, 1.0, 4.0, 0.0, 6.0, 0.0, 8.0, 0.0], // flute 8'
    [1.0, 0.0, 2.0, 1.0, 4.0, 0.7, 6.0, 0.0, 8.0, 0.5], // principal 8', 4', 2'
    [1.0, 1.0, 2.0, 1.0, 4.0, 1.0, 6.0, 1.0, 8.0, 1.0], // full
    [0.45, 1.0, 1.0, 2.0, 0.45, 4.0, 0.3, 6.0, 0.22, 8.0], // `BARS` with level before ratio
    [8.0, 0.22, 6.0, 0.3, 4.0, 0.45, 2.0, 1.0, 1.0, 0.45], // `BARS` from the last on
    [1.0, 0.1, 2.0, 1e-8, 4.0, 1e-8, 6.0, 1e-8, 8.0, 1e-8], // its sum depends on the order
    [1.0, 0.45, 2.0, 1.0, 4.0, 0.45, 5.0, 0.3, 8.0, 0.22], // the fourth ratio isn't 6
    [1.0, 0.0, 2.0, 0.0, 4.0, 0.0, 6.000_000_5, 1.0, 8.0, 0.0], // just above 6
    [1.5, -0.5, 2.25, 0.3, -3.0, 0.8, 0.1, -0.9, 16.5, 0.7], // fractions and negative numbers
    [1.0, 0.5, 2.0, -0.5, 3.0, 0.25, 4.0, -0.25, 5.0, 0.0], // levels that cancel
    [1.0, 0.0, 2.0, 0.0, 4.0, 0.0, 6.0, 0.0, 8.0, 0.0], // levels of 0
    [1.0, -0.0, 2.0, -0.0, 4.0, -0.0, 6.0, -0.0, 8.0, -0.0], // levels of -0
    [0.0, 1.0, -0.0, 1.0, 0.0, 0.5, 0.0, 0.25, -0.0, 0.125], // ratios of 0
    [
        65536.0, 65536.0, -65536.0, 65536.0, 65535.0, 65536.0, 1e-40, 1.0, 6.0, -65536.0,
    ],
];

fn bits(bars: &[f32]) -> Vec<u32> {
    bars.iter().map(|x| x.to_bits()).collect()
}

pub fn is_bars(bars: &[f32]) -> bool {
    bits(bars) == bits(&BARS)
}

impl Source {
    /// Ten sized numbers of drawbars, ratio before level: `BARS`, some of the registrations, and levels that
    /// are usual, equal, zeros, cancel or are huge.
    pub fn bars(&mut self) -> [f32; 10] {
        let mut bars = match self.below(5) {
            0 => return BARS,
            1 => return self.pick(&REGISTRATIONS),
            _ => BARS,
        };
        let levels = self.levels();
        let kept = self.below(3) == 0;
        for (pair, level) in bars.chunks_exact_mut(2).zip(levels) {
            if !kept {
                pair[0] = self.ratio();
            }
            pair[1] = level;
        }
        bars
    }

    fn ratio(&mut self) -> f32 {
        match self.below(4) {
            0 => self.pick(&[0.0, -0.0, 6.0, -6.0, 5.999_999_5, 6.000_000_5]),
            1 => self.below(17) as f32,
            2 => self.below(64) as f32 / 8.0,
            _ => self.sized(0.0, 16.0),
        }
    }

    fn levels(&mut self) -> [f32; 5] {
        let usual = [(); 5].map(|_| self.sized(-1.0, 1.0));
        let [a, b, ..] = usual;
        match self.below(8) {
            0 => [a; 5],
            1 => [(); 5].map(|_| self.pick(&[0.0, -0.0])),
            2 => [-0.0; 5],
            3 => [a, -a, b, -b, 0.0],
            4 => [a, b, -a, -b, self.pick(&[0.0, -0.0, 1e-30])],
            5 => [(); 5].map(|_| self.pick(&[65536.0, -65536.0, 65535.5])),
            _ => usual,
        }
    }
}

/// What drawbars are, so that a run can say how often each kind was tried.
pub fn bar_kinds(bars: &[f32]) -> [(&'static str, bool); 10] {
    let ratios: Vec<f32> = bars.iter().copied().step_by(2).collect();
    let levels: Vec<f32> = bars.iter().copied().skip(1).step_by(2).collect();
    let sum = levels[0] + levels[1] + levels[2] + levels[3] + levels[4];
    let zeros = levels.iter().all(|&g| g == 0.0);
    [
        ("with `BARS`, by the original unaltered", is_bars(bars)),
        ("with a negative level", levels.iter().any(|&g| g < 0.0)),
        (
            "with a level of magnitude above 60,000",
            levels.iter().any(|g| g.abs() > 60_000.0),
        ),
        (
            "with equal levels",
            !zeros && levels.iter().all(|&g| g == levels[0]),
        ),
        ("with levels of zero alone", zeros),
        (
            "with levels of minus zero alone",
            zeros && sum.is_sign_negative(),
        ),
        ("with levels that cancel", !zeros && sum == 0.0),
        ("with a ratio of zero", ratios.contains(&0.0)),
        (
            "with a fractional ratio",
            ratios.iter().any(|k| k.fract() != 0.0),
        ),
        (
            "with the fourth ratio 6 and others than in `BARS`",
            ratios[3] == 6.0 && !is_bars(bars),
        ),
    ]
}

/// The copy of `organ_note` with its own pairs set again is the original.
fn check_copy() {
    let mut s = Source::new(0);
    for _ in 0..1000 {
        let voice = voice_of(SeqWave::Organ, &s.knobs(), &BARS);
        let n = 1 + s.below(300) as usize;
        let (rate, f) = (s.rate(), s.curve(n, 20.0, 5000.0));
        let own = shim::note_signal(&voice, 1.0, &f, &f, rate, &mut Rng::new(1));
        let copy = note_with_pairs(&voice, 1.0, &f, &f, rate, &mut Rng::new(1));
        assert_eq!(bits(&own), bits(&copy), "the copy is not the original");
    }
    println!("1000 notes with `BARS` are the same by the original and by its copy");
}

/// Compares `count` note calls of the organ, and a tenth as many texts.
pub fn run(count: u64) -> Count {
    check_copy();
    note_calls::run_organ(count) + texts::run_organ(count.div_ceil(10))
}
