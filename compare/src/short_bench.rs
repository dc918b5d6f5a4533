//! Nanoseconds of notes of a few frames, of each voice and of each drum of each style: as a note call, and as a note in a
//! score of 10^4, library and original.

use crate::bench::{their_hits, Bench, Timing, GAIN};
use crate::harness::Library;
use crate::kit_bench::drums;
use crate::kits::pitch_of;
use crate::turns::{fastest, Table, Times};
use crate::waves::{KIT, STYLES, WAVES};
use std::hint::black_box;
use std::time::Instant;
use tono::dsl::{SeqNote, SeqWave, Value};

/// The rate of the scores. A step at 48 kHz has 45 frames at least; at this one it can have 16.
const RATE: u32 = 16_000;
const NOTES: u32 = 10_000;
/// Rounds of each side in turn, of which the fastest counts.
const ROUNDS: usize = 100;
/// About as many frames as the note calls of a round have together, so that a round of few frames is not too short.
const ROUND: usize = 2_048;
/// Fewest and most rounds of a score, and how long those of the library take, about, in nanoseconds.
const SCORES: [usize; 2] = [4, 60];
const BUDGET: u128 = 60_000_000;

/// A number of frames, and how a score's note comes to have it: the tempo, the steps per beat, and the steps of a note.
struct Length {
    frames: usize,
    name: &'static str,
    tempo: f32,
    steps_per_beat: u32,
    len: u32,
}

const LENGTHS: [Length; 4] = [
    Length {
        frames: 1,
        name: "1 frame",
        tempo: 1000.0,
        steps_per_beat: 60,
        len: 0,
    },
    Length {
        frames: 16,
        name: "16 frames",
        tempo: 1000.0,
        steps_per_beat: 60,
        len: 1,
    },
    Length {
        frames: 40,
        name: "40 frames",
        tempo: 1000.0,
        steps_per_beat: 24,
        len: 1,
    },
    Length {
        frames: 63,
        name: "63 frames",
        tempo: 237.0,
        steps_per_beat: 64,
        len: 1,
    },
];

impl Length {
    /// Frames of a step, as render_seq has them.
    fn step(&self) -> f32 {
        RATE as f32 * 60.0 / self.tempo / self.steps_per_beat as f32
    }

    fn timing(&self) -> Timing<'static> {
        Timing {
            rate: RATE,
            tempo: self.tempo,
            steps_per_beat: self.steps_per_beat,
            map: &[],
        }
    }
}

/// A voice, or a drum of a style.
struct Sound {
    name: String,
    place: u32,
    wave: SeqWave,
    style: u32,
    pitch: f32,
}

/// Every voice but the drum kit, then every drum.
fn sounds() -> impl Iterator<Item = Sound> {
    let voices = WAVES.into_iter().filter(|wave| wave.0 != KIT);
    let voices = voices.map(|(place, name, wave)| Sound {
        name: name.to_string(),
        place,
        wave,
        style: 0,
        pitch: 440.0,
    });
    let hits = drums().map(|(style, midi, name)| Sound {
        name: format!("{:?} {name}", STYLES[style as usize]),
        place: KIT,
        wave: SeqWave::Kit,
        style,
        pitch: pitch_of(midi),
    });
    voices.chain(hits)
}

impl Sound {
    fn bench(&self, frames: usize) -> Bench {
        Bench::new(frames).hit(self.style, self.pitch)
    }

    /// Nanoseconds a note call.
    fn note_call(&self, length: &Length) -> Times {
        let (mut bench, shared) = (self.bench(length.frames), self.bench(length.frames));
        let number = bench.our_note(Library::Own, self.place);
        assert_eq!(number, 0, "the note is accepted");
        let calls = ROUND / length.frames;
        fastest(
            ROUNDS,
            calls,
            |library| {
                for _ in 0..calls {
                    black_box(bench.our_note(library, self.place));
                }
            },
            || {
                for _ in 0..calls {
                    black_box(shared.their_note(self.wave));
                }
            },
        )
    }

    /// A note at each step: the library's words, and the original's notes.
    fn notes(&self, len: u32) -> (Vec<u32>, Vec<SeqNote>) {
        let words = |step| [step, len, 0, self.pitch.to_bits(), GAIN.to_bits()];
        let note = |step| SeqNote {
            step,
            len,
            pitch: Value::Const(self.pitch),
            gain: GAIN,
        };
        (
            (0..NOTES).flat_map(words).collect(),
            (0..NOTES).map(note).collect(),
        )
    }

    /// Nanoseconds a note of a score that has one at each step.
    fn score(&self, length: &Length) -> Times {
        let sounded = ((length.len as f32 * length.step()) as usize).max(1);
        assert_eq!(sounded, length.frames, "a note has so many frames");
        let frames = NOTES as usize * length.step().ceil() as usize;
        let bench = self.bench(frames).at_rate(RATE);
        let mut bench = bench.at(length.tempo, length.steps_per_beat);
        let (words, notes) = self.notes(length.len);
        let begun = Instant::now();
        let number = bench.our_score(Library::Own, self.place, &words);
        assert_eq!(number, 0, "the score is accepted");
        let rounds = BUDGET / begun.elapsed().as_nanos();
        let style = STYLES[self.style as usize];
        fastest(
            (rounds as usize).clamp(SCORES[0], SCORES[1]),
            notes.len(),
            |library| bench.our_score(library, self.place, &words),
            || their_hits(self.wave, style, &notes, frames, length.timing()),
        )
    }
}

fn print(time: impl Fn(&Sound, &Length) -> Times) {
    let columns = LENGTHS.map(|length| length.name);
    let mut table = Table::new(&["sound"], &columns, 1.0);
    for sound in sounds() {
        let times = LENGTHS.iter().map(|length| time(&sound, length));
        table.row(&sound.name, times.collect());
    }
    table.means();
    table.largest();
    table.against_old();
}

/// Prints tables in Markdown.
pub fn run() {
    println!("Nanoseconds a note call.");
    print(Sound::note_call);
    println!("Nanoseconds a note of a score of 10^4.");
    print(Sound::score);
}
