//! Tempo points as they are handed in, and what request 2 asks of them. Words in quotes are 02's.

use tono::dsl::TempoPoint;
use tono::units::Beat;

/// "more than 64 points"
const MOST_POINTS: usize = 64;
/// "a numerator of magnitude above 1,000,000,000"
const MOST_BEATS: u64 = 1_000_000_000;

/// A beat as it was handed in, not in lowest terms, and the tempo from there on.
#[derive(Clone, Copy, Debug)]
pub struct Point {
    pub num: i64,
    pub den: u32,
    pub bpm: f32,
}

impl Point {
    /// The numerator's low and high word, the denominator, the tempo's bits.
    pub fn words(&self) -> [u32; 4] {
        let num = self.num as u64;
        [num as u32, (num >> 32) as u32, self.den, self.bpm.to_bits()]
    }

    fn of(words: &[u32]) -> Point {
        Point {
            num: ((words[1] as u64) << 32 | words[0] as u64) as i64,
            den: words[2],
            bpm: f32::from_bits(words[3]),
        }
    }

    /// The original's, whose beat is in lowest terms.
    pub fn original(&self) -> TempoPoint {
        TempoPoint {
            at: Beat::new(self.num, self.den),
            bpm: self.bpm,
        }
    }

    /// Its beat by the original.
    pub fn as_f64(&self) -> f64 {
        self.original().at.to_f64()
    }

    /// Whether its beat comes before the other's, "as fractions".
    pub fn is_before(&self, other: &Point) -> bool {
        let cross = |a: &Point, b: &Point| a.num as i128 * b.den as i128;
        cross(self, other) < cross(other, self)
    }

    /// "a zero denominator, a numerator of magnitude above 1,000,000,000 or a tempo outside 1 to
    /// 1,000"; a NaN is in no range.
    fn is_outside(&self) -> bool {
        let timed = (1.0..=1000.0).contains(&self.bpm);
        self.den == 0 || self.num.unsigned_abs() > MOST_BEATS || !timed
    }
}

pub fn points_of(words: &[u32]) -> Vec<Point> {
    words.chunks_exact(4).map(Point::of).collect()
}

pub fn words_of(points: &[Point]) -> Vec<u32> {
    points.iter().flat_map(Point::words).collect()
}

/// What 31 is for.
pub fn are_outside(points: &[Point]) -> bool {
    points.len() > MOST_POINTS || points.iter().any(Point::is_outside)
}

/// What 32 is for, of points that 31 passes: "a first point not at beat 0 or beats that, as
/// fractions, don't strictly rise".
pub fn are_unordered(points: &[Point]) -> bool {
    let begins_later = points.first().is_some_and(|p| p.num != 0);
    begins_later || !points.windows(2).all(|w| w[0].is_before(&w[1]))
}
