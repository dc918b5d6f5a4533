//! What a score has in it, so that a run can say how often each wave was tried with each of these.

use crate::grid::{bare, Grid};
use crate::reference::all_sized;
use crate::score::Score;
use crate::waves::{own_knobs, ORGAN};
use std::ops::Range;

/// What it is, and whether a score is of that kind.
pub type Kind = (&'static str, bool);

/// A note that sounds: its five words, the frames that it sounds in, and the length before the cut.
struct Sounded<'a> {
    words: &'a [u32],
    frames: Range<usize>,
    length: usize,
}

impl Sounded<'_> {
    fn overlaps(&self, other: &Sounded) -> bool {
        self.frames.start < other.frames.end && other.frames.start < self.frames.end
    }

    fn gain(&self) -> f32 {
        f32::from_bits(self.words[4])
    }
}

impl Score {
    fn sounded(&self) -> Vec<Sounded<'_>> {
        let grid = Grid::of(&self.call());
        let notes = self.words.chunks_exact(5);
        let sounds = notes.filter_map(|words| {
            grid.place(&bare(words)).map(|frames| Sounded {
                words,
                frames,
                length: grid.length(words),
            })
        });
        sounds.collect()
    }

    /// Of an accepted score.
    pub fn kinds(&self) -> Vec<Kind> {
        let sounded = self.sounded();
        let mut kinds = self.whole(&sounded).to_vec();
        kinds.extend(single(&sounded));
        kinds.extend(paired(&sounded));
        kinds
    }

    fn whole(&self, sounded: &[Sounded]) -> [Kind; 5] {
        let (notes, sounds) = (self.words.len() / 5, sounded.len());
        let own = own_knobs(self.wave);
        let unread = |k: &usize| !own.contains(k) && self.knobs[*k] != 0.0;
        let odd = sounded.iter().any(|a| a.words[0] % 2 == 1);
        [
            (
                "accepted with notes and no frames",
                notes > 0 && self.out == 0,
            ),
            (
                "accepted with a skipped note beside others",
                sounds > 0 && sounds < notes,
            ),
            ("accepted with swing", odd && self.swing > 0.0),
            ("accepted with humanize", sounds > 0 && self.humanize > 0.0),
            (
                "accepted with knobs that the wave doesn't read",
                sounds > 0 && (0..22).any(|k| unread(&k)),
            ),
        ]
    }

    /// Of a score that is refused with 6: whether only a knob or a drawbar that the wave doesn't read is at
    /// fault.
    pub fn unread_knob(&self) -> bool {
        let own = own_knobs(self.wave);
        let bars = self.wave != ORGAN || all_sized(&self.bars);
        bars && all_sized(&self.knobs[own]) && all_sized(&self.env) && all_sized(&[self.duty])
    }
}

fn single(sounded: &[Sounded]) -> [Kind; 4] {
    let some = |is: fn(&Sounded) -> bool| sounded.iter().any(is);
    [
        ("accepted with a curve", some(|a| a.words[2] == 1)),
        ("accepted with a quarter tone", some(|a| a.words[2] == 2)),
        (
            "accepted with a note cut at the end",
            some(|a| a.frames.len() < a.length),
        ),
        ("accepted with a negative gain", some(|a| a.gain() < 0.0)),
    ]
}

/// Of two notes, a before b in the list.
fn paired(sounded: &[Sounded]) -> [Kind; 3] {
    let some = |are: fn(&Sounded, &Sounded) -> bool| {
        let mut ends = 1..=sounded.len();
        ends.any(|end| {
            let (b, before) = sounded[..end].split_last().expect("a note");
            before.iter().any(|a| are(a, b))
        })
    };
    [
        (
            "accepted with a chord on one step",
            some(|a, b| a.words[0] == b.words[0]),
        ),
        (
            "accepted with notes that overlap",
            some(|a, b| a.overlaps(b)),
        ),
        (
            "accepted with notes that overlap and are not listed by their starts",
            some(|a, b| a.overlaps(b) && b.frames.start < a.frames.start),
        ),
    ]
}
