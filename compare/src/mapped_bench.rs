//! Nanoseconds of scores under a ritardando of 64 points, library and original, and what the walk of a map
//! costs a note.

use crate::bench::{chord, their_score, Bench, Timing};
use crate::harness::Library;
use crate::long_scores::ritardando;
use crate::tempo_points::{points_of, Point};
use crate::turns::{fastest, Table, Times};
use crate::waves::WAVES;
use std::time::Instant;
use tono::dsl::{SeqNote, SeqWave, TempoPoint};

const RATE: u32 = 48_000;
const FRAMES: usize = 48_000;
const CHORD: usize = 16;
/// A step is 45 frames at first and 90 at last, and a point stands at each tenth step.
const STEPS_PER_BEAT: u32 = 64;
const TEMPI: (f32, f32) = (1000.0, 500.0);
/// As many chords as make 10^4 notes, one at each step.
const STEPS: u32 = 625;
/// Rounds of each side in turn, of which the fastest counts: more where a round is short.
const ROUNDS: [usize; 2] = [3, 200];
/// How long all rounds of one score take, about, in nanoseconds.
const BUDGET: u128 = 1_000_000_000;

fn map_of(points: &[u32]) -> Vec<TempoPoint> {
    points_of(points).iter().map(Point::original).collect()
}

/// A chord at each of these steps.
fn chords(steps: impl Iterator<Item = u32>, len: u32) -> (Vec<u32>, Vec<SeqNote>) {
    let (mut words, mut notes) = (Vec::new(), Vec::new());
    for step in steps {
        let (more_words, more_notes) = chord(CHORD, step, len);
        words.extend(more_words);
        notes.extend(more_notes);
    }
    (words, notes)
}

/// Nanoseconds a note of a score: library and original.
struct Scored<'a> {
    points: &'a [u32],
    frames: usize,
}

impl Scored<'_> {
    fn time(&self, wave: (u32, SeqWave), (words, notes): (Vec<u32>, Vec<SeqNote>)) -> Times {
        let bench = Bench::new(self.frames).at(TEMPI.0, STEPS_PER_BEAT);
        let mut bench = bench.under(self.points);
        let map = map_of(self.points);
        let timing = Timing {
            rate: RATE,
            tempo: TEMPI.0,
            steps_per_beat: STEPS_PER_BEAT,
            map: &map,
        };
        let begun = Instant::now();
        let number = bench.our_score(Library::Own, wave.0, &words);
        assert_eq!(number, 0, "the score is accepted");
        let rounds = BUDGET / (2 * begun.elapsed().as_nanos());
        fastest(
            (rounds as usize).clamp(ROUNDS[0], ROUNDS[1]),
            notes.len(),
            |library| bench.our_score(library, wave.0, &words),
            || their_score(wave.1, &notes, self.frames, timing),
        )
    }
}

/// A chord through all frames, and 10^4 notes of one step and of eight.
fn row(points: &[u32], place: u32, wave: SeqWave) -> Vec<Times> {
    let scored = Scored {
        points,
        frames: FRAMES,
    };
    vec![
        scored.time((place, wave), chords(0..1, STEPS)),
        scored.time((place, wave), chords(0..STEPS, 1)),
        scored.time((place, wave), chords(0..STEPS, 8)),
    ]
}

fn waves() {
    println!(
        "Microseconds a note under 64 points: a chord of 16, 10^4 notes of one step, and of eight."
    );
    let mut table = Table::new(&["wave"], &["chord", "one step", "eight steps"], 1e3);
    let points = ritardando(10, STEPS_PER_BEAT, TEMPI.0, TEMPI.1);
    for (place, name, wave) in WAVES {
        table.row(name, row(&points, place, wave));
    }
    table.means();
    table.against_old();
}

/// 10^4 notes past the last point and past the frames, so that nothing sounds.
fn walks() {
    println!("Nanoseconds a note that is skipped, by the points that its walk passes.");
    let mut table = Table::new(&["points"], &["library"], 1.0);
    let points = ritardando(10, STEPS_PER_BEAT, TEMPI.0, TEMPI.1);
    for count in [0, 1, 16, 64] {
        let scored = Scored {
            points: &points[..4 * count],
            frames: 1,
        };
        let time = scored.time((3, SeqWave::Sine), chords(1000..1000 + STEPS, 1));
        table.row(&count.to_string(), vec![time]);
    }
    table.against_old();
}

/// Prints tables in Markdown.
pub fn run() {
    waves();
    walks();
}
