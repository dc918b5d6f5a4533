//! Scores with tempo maps to try, and faults in their points.

use crate::grid::Grid;
use crate::random::Source;
use crate::score::Score;
use crate::score_random::{steps, LONG};
use crate::tempo_points::{points_of, words_of, Point};

const MOST_BEATS: i64 = 1_000_000_000;
const MOST_STEPS: u64 = 1_048_575;
/// The numbers next to 1 and to 1,000.
const BELOW_1: f32 = 1.0 - f32::EPSILON / 2.0;
const ABOVE_1: f32 = 1.0 + f32::EPSILON;
const BELOW_1000: f32 = f32::from_bits(0x4479_ffff);
const ABOVE_1000: f32 = f32::from_bits(0x447a_0001);

impl Score {
    /// A score of the domain with a tempo map, or with none, and then up to three faults.
    pub fn mapped(s: &mut Source) -> Score {
        let mut score = Score::played(s);
        if s.below(2) == 0 {
            score.rate = 8000;
        }
        let within = score.steps_within();
        let on = score.add_map(within, s);
        let grid = Grid::of(&score.call());
        for _ in 0..s.pick(&[0, 1, 2, 3, 4, 5, 5, 12]) {
            let span = score.mapped_span(&on, within, s);
            score.add_pitched(&grid, span, s);
        }
        for _ in 0..s.pick(&[0, 0, 0, 0, 1, 1, 2, 3]) {
            match s.below(2) {
                0 => score.spoil_points(s),
                _ => score.spoil(s),
            }
        }
        if s.below(LONG) == 0 {
            score.out = 16_777_217;
        }
        score
    }

    /// A tempo map, or none, for notes of about so many steps; and the steps that stand on a point's beat.
    pub fn add_map(&mut self, within: u64, s: &mut Source) -> Vec<u32> {
        let count = match s.below(8) {
            0 => s.below(3) as usize,
            1 | 2 => 64,
            _ => 1 + s.below(64) as usize,
        };
        // in half of them notes can pass the last point
        let beats = Beats {
            within: within >> s.pick(&[0, 0, 1, 2]),
            steps_per_beat: self.steps_per_beat,
            kinds: s.pick(&[8, 7]),
        };
        let points = beats.map(count, s);
        self.points = words_of(&points);
        on_steps(&points, self.steps_per_beat)
    }

    /// How many steps of a middling tempo there are in the frames.
    pub fn steps_within(&self) -> u64 {
        let step = self.rate as f32 / 10.0 / self.steps_per_beat as f32;
        (self.out as f32 / step) as u64
    }

    /// Step and len of a note: often one that starts or ends on a point, or at the step of the last.
    pub fn mapped_span(&self, on: &[u32], within: u64, s: &mut Source) -> [u32; 2] {
        let len = steps(s, 6);
        let step = match s.below(8) {
            0 if !self.words.is_empty() => self.words[self.words.len() - 5],
            1 | 2 if !on.is_empty() => s.pick(on),
            3 if !on.is_empty() => s.pick(on).saturating_sub(len),
            _ => steps(s, within + 2),
        };
        [step, len]
    }

    /// One fault of the points, or what looks like one.
    pub fn spoil_points(&mut self, s: &mut Source) {
        let mut points = points_of(&self.points);
        match s.below(8) {
            0 => {
                fill(&mut points, s);
                self.points = words_of(&points);
            }
            1 => match s.below(2) {
                0 => self.points.extend(vec![1; 1 + s.below(3) as usize]),
                _ => self.points.truncate(self.points.len().saturating_sub(1)),
            },
            _ if !points.is_empty() => {
                spoil_one(&mut points, s);
                self.points = words_of(&points);
            }
            _ => {}
        }
    }
}

type Fraction = (i64, u32);

fn cross(a: Fraction, b: Fraction) -> i128 {
    a.0 as i128 * b.1 as i128
}

/// What beats a map has: mostly among so many steps. Of the eight kinds of beats the last are far out.
struct Beats {
    within: u64,
    steps_per_beat: u32,
    kinds: u64,
}

impl Beats {
    /// Points from beat 0 on, at rising beats; as many as asked for, but where too many fall together.
    fn map(&self, count: usize, s: &mut Source) -> Vec<Point> {
        if count == 0 {
            return Vec::new();
        }
        let mut beats = Vec::new();
        for _ in 0..count + count / 2 {
            let beat = match beats.last() {
                Some(&last) if s.below(8) == 0 => just_after(last),
                _ => self.beat(s),
            };
            beats.push(beat);
        }
        beats.sort_by(|&a, &b| cross(a, b).cmp(&cross(b, a)));
        beats.dedup_by(|a, b| cross(*a, *b) == cross(*b, *a));
        while beats.len() > count - 1 {
            beats.remove(s.below(beats.len() as u64) as usize);
        }
        beats.insert(0, (0, s.pick(&[1, 1, 4, 1000, u32::MAX])));
        let tempi = tempi(beats.len(), s);
        let points = beats.into_iter().zip(tempi);
        let points = points.map(|((num, den), bpm)| Point { num, den, bpm });
        points.collect()
    }

    /// After 0: on a step, between steps, as near to 0 as the domain goes, or as far.
    fn beat(&self, s: &mut Source) -> Fraction {
        let any = 1 + s.below(u32::MAX as u64) as u32;
        let far = 1 + s.below(MOST_BEATS as u64);
        let (num, den) = match s.below(self.kinds) {
            0..=2 => {
                let (step, times) = (1 + s.below(self.within + 2), s.pick(&[1, 1, 2, 3, 1000]));
                (times * step, times as u32 * self.steps_per_beat)
            }
            3..=5 => {
                let den = s.pick(&[3, 5, 7, 24, 480, 44_100, any, any]);
                let most = (self.within + 1) * den as u64 / self.steps_per_beat as u64;
                (1 + s.below(most + 1), den)
            }
            6 => (1 + s.below(3), s.pick(&[u32::MAX, u32::MAX - 1, any])),
            _ => (
                s.pick(&[1_000_000_000, 999_999_999, far]),
                s.pick(&[1, 2, 7, 1000, any]),
            ),
        };
        (num.min(MOST_BEATS as u64) as i64, den)
    }
}

/// The least fraction above this one that is its neighbour among those of the largest denominators
/// that 31 passes: as f64 the two are often one.
pub fn just_after((num, den): Fraction) -> Fraction {
    let g = gcd(num, den as i64);
    let (a, b) = (num / g, den as i64 / g);
    // c × b − a × d = 1, with d below b
    let d = (b - inverse(a, b)) % b;
    let c = (1 + a * d) / b;
    let times = ((u32::MAX as i64 - d) / b).min((MOST_BEATS - c) / a);
    let (c, d) = (c + times * a, d + times * b);
    match d {
        0 => (num, den),
        _ => (c, d as u32),
    }
}

fn gcd(a: i64, b: i64) -> i64 {
    match b {
        0 => a,
        _ => gcd(b, a % b),
    }
}

/// x with a × x = 1 modulo b.
fn inverse(a: i64, b: i64) -> i64 {
    let (mut r, mut x) = ((b, a % b), (0, 1));
    while r.1 != 0 {
        let q = r.0 / r.1;
        r = (r.1, r.0 - q * r.1);
        x = (x.1, x.0 - q * x.1);
    }
    x.0.rem_euclid(b)
}

/// Tempi that go evenly from one to another, that change at will, or of the domain's ends.
fn tempi(count: usize, s: &mut Source) -> Vec<f32> {
    let (from, to) = (s.between(300.0, 1000.0), s.between(1.0, 1000.0));
    let kind = s.below(5);
    let tempo = |i: usize| match kind {
        0 => from + (to - from) * (i as f32 / count as f32),
        1 => s.between(1.0, 1000.0),
        2 => s.pick(&[1.0, 1000.0, 120.0, ABOVE_1, BELOW_1000]),
        _ => s.between(300.0, 1000.0),
    };
    (0..count)
        .map(tempo)
        .map(|x| x.clamp(1.0, 1000.0))
        .collect()
}

/// The steps that stand on a point's beat.
fn on_steps(points: &[Point], steps_per_beat: u32) -> Vec<u32> {
    let step = |p: &Point| {
        let (steps, den) = (p.num as u64 * steps_per_beat as u64, p.den as u64);
        let step = steps / den;
        (steps % den == 0 && step <= MOST_STEPS).then_some(step as u32)
    };
    points.iter().filter_map(step).collect()
}

/// More than 64 points: at rising beats, or zeros.
fn fill(points: &mut Vec<Point>, s: &mut Source) {
    let count = s.pick(&[65, 65, 66, 100]);
    let rising = s.below(2) == 0;
    while points.len() < count {
        let (num, den, bpm) = match (rising, points.last()) {
            (true, Some(p)) => (p.num.saturating_add(1).min(MOST_BEATS), p.den, 500.0),
            (true, None) => (0, 1, 500.0),
            (false, _) => (0, 0, 0.0),
        };
        points.push(Point { num, den, bpm });
    }
}

/// A fault of one point; some are none at some places.
fn spoil_one(points: &mut [Point], s: &mut Source) {
    let i = s.below(points.len() as u64) as usize;
    let before = points[i.saturating_sub(1)];
    let p = &mut points[i];
    match s.below(9) {
        0 => p.den = 0,
        1 => p.num = s.pick(&[MOST_BEATS + 1, -MOST_BEATS - 1, i64::MAX, i64::MIN]),
        2 => p.num = s.pick(&[MOST_BEATS, -MOST_BEATS, 1 << 32, -(1 << 32)]),
        3 => (p.num, p.den) = (2_000_000_002, 2),
        4 => p.bpm = s.pick(&[BELOW_1, ABOVE_1000, f32::NAN]),
        5 => p.bpm = s.pick(&[0.0, -120.0, f32::INFINITY, f32::NEG_INFINITY]),
        6 => p.num = -p.num.max(1),
        // equal beats, in other terms
        7 if before.den < 1 << 31 => {
            (p.num, p.den) = (before.num.saturating_mul(2), 2 * before.den);
        }
        _ => {
            let other = s.below(points.len() as u64) as usize;
            points.swap(i, other);
        }
    }
    if s.below(6) == 0 {
        let (num, den) = s.pick(&[(1, 1), (-1, 1), (1, u32::MAX), (MOST_BEATS, 1)]);
        (points[0].num, points[0].den) = (num, den);
    }
}
