//! Nanoseconds a sample of each drum of each style as a note call, library and original.

use crate::bench::{Bench, FRAMES};
use crate::kits::pitch_of;
use crate::turns::{has_old, mean, print_against_old, print_head, Times};
use crate::waves::{KIT, STYLES};
use std::hint::black_box;
use tono::dsl::SeqWave;

/// One of each kind that kit.rs has.
pub const DRUMS: [(u32, &str); 11] = [
    (36, "kick"),
    (38, "snare"),
    (37, "rim"),
    (39, "clap"),
    (42, "closed hat"),
    (46, "open hat"),
    (45, "tom"),
    (56, "cowbell"),
    (49, "crash"),
    (51, "ride"),
    (60, "any other"),
];
/// A twentieth of a second beside a whole one.
const SHORT: usize = 2_400;
const RUNS: usize = 3;
/// Passes over all drums in a run. A drum's rounds are as far apart as the passes are, so that what else the
/// machine does for a while covers few of them.
const PASSES: usize = 12;
/// Rounds of a second of sound in a pass.
const ROUNDS: usize = 3;
/// Bytes that are taken and given back before the first round. The original takes a buffer in each of its calls; the
/// allocator then keeps what is given back, so that no round waits for the system's pages.
const KEPT: usize = 16 << 20;

/// A hit of some drum for all sides, and the fastest of its rounds so far.
struct Hit {
    ours: Bench,
    theirs: Bench,
    frames: usize,
    best: Times,
}

impl Hit {
    fn new(style: u32, midi: u32, frames: usize) -> Hit {
        let [ours, theirs] = [(); 2].map(|_| Bench::new(frames).hit(style, pitch_of(midi)));
        Hit {
            ours,
            theirs,
            frames,
            best: Times::none(),
        }
    }

    /// The rounds of a pass, each side in turn.
    fn rounds(&mut self) {
        for _ in 0..ROUNDS * (FRAMES / self.frames) {
            let (ours, theirs) = (&mut self.ours, &self.theirs);
            self.best.round(
                |library| ours.our_note(library, KIT),
                || theirs.their_note(SeqWave::Kit),
            );
        }
    }
}

/// A run: each drum of each style as a hit of a second and of a twentieth.
fn run_once() -> Vec<[Times; 2]> {
    let mut hits: Vec<[Hit; 2]> = drums()
        .map(|(style, midi, _)| [FRAMES, SHORT].map(|frames| Hit::new(style, midi, frames)))
        .collect();
    for _ in 0..PASSES {
        for hit in hits.iter_mut().flatten() {
            hit.rounds();
        }
    }
    let times = |[long, short]: &[Hit; 2]| [long, short].map(|hit| hit.best.per(hit.frames));
    hits.iter().map(times).collect()
}

pub fn drums() -> impl Iterator<Item = (u32, u32, &'static str)> {
    let styles = 0..STYLES.len() as u32;
    styles.flat_map(|style| DRUMS.map(|(midi, name)| (style, midi, name)))
}

/// The ratios of three runs in a cell.
fn said(times: &[Times], ratio: impl Fn(&Times) -> String) -> String {
    let ratios: Vec<String> = times.iter().map(ratio).collect();
    ratios.join(", ")
}

/// Prints a table in Markdown: of a note of one second, in the first run, nanoseconds a sample of library and
/// original; then the ratio of each run, and that of each run of a note of a twentieth of a second. Where there is an
/// earlier library, the ratios to it follow.
pub fn run() {
    let mut cells = vec!["note call", "original", "ratio of three runs", "of 50 ms"];
    if has_old() {
        cells.extend(["to the old", "of 50 ms"]);
    }
    let cells: Vec<String> = cells.into_iter().map(String::from).collect();
    print_head(&["style", "drum"], &cells);
    drop(black_box(vec![1u8; KEPT]));
    let runs = [(); RUNS].map(|_| run_once());
    let (mut ratios, mut least) = (Vec::new(), Vec::new());
    for (place, (style, _, name)) in drums().enumerate() {
        let name = format!("{:?} | {name}", STYLES[style as usize]);
        let lengths =
            [0, 1].map(|length: usize| [0, 1, 2].map(|run: usize| runs[run][place][length]));
        let Times { ours, theirs, .. } = lengths[0][0];
        print!("| {name} | {ours:.2} | {theirs:.2} |");
        for times in &lengths {
            print!(
                " {} |",
                said(times, |times| format!("{:.2}", times.ratio()))
            );
            ratios.extend(times.iter().map(Times::ratio));
        }
        for (times, length) in lengths.iter().zip(["a second", "50 ms"]) {
            if has_old() {
                let to_old = |times: &Times| format!("{:.3}", times.to_old().unwrap_or(1.0));
                print!(" {} |", said(times, to_old));
            }
            let best = times.iter().copied().fold(Times::none(), Times::least);
            least.push((format!("{name}, {length}"), best));
        }
        println!();
    }
    let worst = ratios.iter().copied().fold(0.0, f64::max);
    println!("| geometric mean | | | | {:.2} | |", mean(ratios));
    println!("| largest | | | | {worst:.2} | |");
    print_against_old(&least);
}
