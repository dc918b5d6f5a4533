//! What a mapped score has in it, so that a run can say how often each of these was tried.

use crate::grid::{bare, Grid};
use crate::score::Score;
use crate::score_kinds::Kind;
use crate::tempo_points::{points_of, Point};
use tono::units::Beat;

/// A note that sounds, and the beats that it starts and ends at.
struct Sounded<'a> {
    words: &'a [u32],
    from: Point,
    to: Point,
    /// Whether its end stands before its start.
    turned: bool,
}

impl Sounded<'_> {
    fn spans(&self, points: &[Point]) -> usize {
        let inside = |p: &&Point| self.from.is_before(p) && p.is_before(&self.to);
        points.iter().filter(inside).count()
    }
}

fn same(a: &Point, b: &Point) -> bool {
    !a.is_before(b) && !b.is_before(a)
}

fn on(beat: &Point, points: &[Point]) -> bool {
    points[1..].iter().any(|p| same(p, beat))
}

impl Score {
    fn sounded_mapped(&self, grid: &Grid) -> Vec<Sounded<'_>> {
        let notes = self.words.chunks_exact(5);
        let beat = |step: u32| Point {
            num: step as i64,
            den: self.steps_per_beat,
            bpm: 0.0,
        };
        let sounds = notes.filter_map(|words| {
            let note = bare(words);
            grid.place(&note)?;
            let (start, end, _) = grid.mapped(&note);
            Some(Sounded {
                words,
                from: beat(words[0]),
                to: beat(words[0] + words[1].max(1)),
                turned: end < start,
            })
        });
        sounds.collect()
    }

    /// Of an accepted score.
    pub fn map_kinds(&self) -> Vec<Kind> {
        let points = points_of(&self.points);
        if points.is_empty() {
            return vec![("accepted with no points", true)];
        }
        let sounded = self.sounded_mapped(&Grid::of(&self.call()));
        let mut kinds = of_points(&points).to_vec();
        kinds.extend(of_notes(&sounded, &points));
        kinds.push((
            "accepted with points, notes and no frames",
            self.out == 0 && !self.words.is_empty(),
        ));
        kinds
    }

    /// Of a score that is refused with 31 or 32.
    pub fn map_faults(&self, number: u32) -> Vec<Kind> {
        let points = points_of(&self.points);
        match number {
            31 => faults_31(&points).to_vec(),
            32 => faults_32(&points).to_vec(),
            _ => Vec::new(),
        }
    }
}

fn of_points(points: &[Point]) -> [Kind; 9] {
    let some = |is: fn(&Point) -> bool| points[1..].iter().any(is);
    let tempo = |bpm: f32| points.iter().any(|p| p.bpm == bpm);
    let reduced = |p: &Point| Beat::new(p.num, p.den).den == p.den;
    let one_f64 = |w: &[Point]| w[0].as_f64() == w[1].as_f64();
    [
        ("accepted with 1 point", points.len() == 1),
        ("accepted with 64 points", points.len() == 64),
        (
            "accepted with a point between beats",
            some(|p| p.num % p.den as i64 != 0),
        ),
        (
            "accepted with a point at beat 1,000 or later",
            some(|p| p.num >= 1000 * p.den as i64),
        ),
        (
            "accepted with a numerator of 1,000,000,000",
            some(|p| p.num == 1_000_000_000),
        ),
        (
            "accepted with a fraction not in lowest terms",
            points.iter().any(|p| !reduced(p)),
        ),
        (
            "accepted with two points at one f64",
            points.windows(2).any(one_f64),
        ),
        ("accepted with tempo 1", tempo(1.0)),
        ("accepted with tempo 1,000", tempo(1000.0)),
    ]
}

/// Of notes that sound.
fn of_notes(sounded: &[Sounded], points: &[Point]) -> [Kind; 8] {
    let some = |is: &dyn Fn(&Sounded) -> bool| sounded.iter().any(is);
    let last = points.last().expect("there are points");
    [
        (
            "accepted with a note that starts on a later point's beat",
            some(&|a| on(&a.from, points)),
        ),
        (
            "accepted with a note that ends on a point's beat",
            some(&|a| on(&a.to, points)),
        ),
        (
            "accepted with a note that spans two points or more",
            some(&|a| a.spans(points) > 1),
        ),
        (
            "accepted with a note that spans ten points or more",
            some(&|a| a.spans(points) > 9),
        ),
        (
            "accepted with a note past the last of several points",
            points.len() > 1 && some(&|a| last.is_before(&a.from)),
        ),
        (
            "accepted with a mapped note of len 0",
            some(&|a| a.words[1] == 0),
        ),
        (
            "accepted with a mapped note of len 1,048,575",
            some(&|a| a.words[1] == 1_048_575),
        ),
        (
            "accepted with a mapped note that ends before it starts",
            some(&|a| a.turned),
        ),
    ]
}

fn faults_31(points: &[Point]) -> [Kind; 4] {
    let some = |is: fn(&Point) -> bool| points.iter().any(is);
    [
        ("refused with 31 and more than 64 points", points.len() > 64),
        (
            "refused with 31 and a zero denominator",
            some(|p| p.den == 0),
        ),
        (
            "refused with 31 and a numerator above 1,000,000,000",
            some(|p| p.num.unsigned_abs() > 1_000_000_000),
        ),
        (
            "refused with 31 and a tempo outside 1 to 1,000",
            some(|p| !(1.0..=1000.0).contains(&p.bpm)),
        ),
    ]
}

fn faults_32(points: &[Point]) -> [Kind; 4] {
    let some = |is: fn(&[Point]) -> bool| points.windows(2).any(is);
    [
        (
            "refused with 32 and a first point after beat 0",
            points[0].num > 0,
        ),
        (
            "refused with 32 and a negative beat",
            points.iter().any(|p| p.num < 0),
        ),
        (
            "refused with 32 and equal beats",
            some(|w| same(&w[0], &w[1])),
        ),
        (
            "refused with 32 and a beat before the one before",
            some(|w| w[1].is_before(&w[0])),
        ),
    ]
}
