//! Where the notes of a score stand: by module 4 of 01, or by request 2 of 02 where it has tempo points,
//! with the original's groove. Words in quotes are theirs.

use crate::reference::ScoreCall;
use crate::tempo_points::{points_of, Point};
use crate::tones::quarter_tone;
use crate::waves::{voice_of, BARS};
use std::ops::Range;
use tono::dsl::{SeqNote, SeqWave, TempoPoint, Value};
use tono::render::seq::shim::{groove, groove_mapped};
use tono::voice::Voice;

pub struct Grid {
    rate: u32,
    tempo: f32,
    steps_per_beat: u32,
    /// Of which the groove reads swing and humanize alone.
    voice: Voice,
    pub map: Vec<TempoPoint>,
    n: usize,
}

impl Grid {
    pub fn of(call: &ScoreCall) -> Grid {
        Grid {
            rate: call.rate,
            tempo: call.tempo,
            steps_per_beat: call.steps_per_beat,
            voice: Voice {
                swing: call.swing,
                humanize: call.humanize,
                ..voice_of(SeqWave::Sine, &[0.0; 22], &BARS)
            },
            map: points_of(call.points).iter().map(Point::original).collect(),
            n: call.out,
        }
    }

    /// "Samples per step = rate × 60 / tempo / steps per beat, in f32."
    pub fn samples_per_step(&self) -> f32 {
        self.rate as f32 * 60.0 / self.tempo / self.steps_per_beat as f32
    }

    /// "Length = (len × samples per step, at most n) cut, at least 1."
    fn straight_length(&self, len: u32) -> usize {
        let frames = len as f32 * self.samples_per_step();
        (frames.min(self.n as f32) as usize).max(1)
    }

    /// The start, the end and the gain under the map.
    pub fn mapped(&self, note: &SeqNote) -> (usize, usize, f32) {
        let (voice, map) = (&self.voice, &self.map);
        groove_mapped(voice, map, note, self.steps_per_beat, self.rate)
    }

    /// A note's start and its length, sounded or not. Under a map "length is end minus start (0 if
    /// negative), cut to n, then raised to at least 1".
    fn span(&self, note: &SeqNote) -> (usize, usize) {
        if self.map.is_empty() {
            let (start, _) = groove(&self.voice, note, self.samples_per_step());
            return (start, self.straight_length(note.len));
        }
        let (start, end, _) = self.mapped(note);
        (start, end.saturating_sub(start).min(self.n).max(1))
    }

    pub fn start(&self, note: &SeqNote) -> usize {
        self.span(note).0
    }

    /// The length of the note of these words.
    pub fn length(&self, words: &[u32]) -> usize {
        self.span(&bare(words)).1
    }

    /// The frames that a note sounds in. "A note with start ≥ n is skipped, any other is sounded";
    /// "Sounded frames = min(n − start, length)".
    pub fn place(&self, note: &SeqNote) -> Option<Range<usize>> {
        let (start, length) = self.span(note);
        let left = self.n.checked_sub(start).filter(|&left| left > 0)?;
        Some(start..start + left.min(length))
    }
}

/// The note of five words, a curve without its values: the groove reads none of them.
pub fn bare(w: &[u32]) -> SeqNote {
    SeqNote {
        step: w[0],
        len: w[1],
        pitch: match w[2] {
            0 => Value::Const(f32::from_bits(w[3])),
            2 => Value::Const(quarter_tone(w[3]).expect("30 is judged before")),
            _ => Value::Modulated(Vec::new()),
        },
        gain: f32::from_bits(w[4]),
    }
}
