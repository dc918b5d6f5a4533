//! Scores whose curves have a value each so many frames, lanes that just hold them or just don't, and faults.

use crate::grid::Grid;
use crate::random::Source;
use crate::reference::place_read;
use crate::score::Score;
use crate::score_random::LONG;

const MOST_HOP: u32 = 4096;
/// One score in so many is longer, so that a value of a curve is read for hundreds of frames or more.
const SLOW: u64 = 24;

impl Score {
    /// A score of the domain with curves at a hop, with a tempo map or with none, but that a curve may pass its
    /// lane's end, and then up to three faults.
    pub fn hopped(s: &mut Source) -> Score {
        let mut score = Score::played(s);
        score.hop = hop(s);
        score.set_frames(s);
        let mapped = s.below(3) == 0;
        let within = score.steps_within();
        let on = match mapped {
            true => score.add_map(within, s),
            false => Vec::new(),
        };
        let grid = Grid::of(&score.call());
        for _ in 0..s.pick(&[0, 1, 1, 2, 3, 4]) {
            let span = match mapped {
                true => score.mapped_span(&on, within, s),
                false => score.span(s),
            };
            score.add_hopped(&grid, span, s);
        }
        score.set_lane(&grid, s);
        for _ in 0..s.pick(&[0, 0, 0, 0, 0, 1, 1, 2, 3]) {
            match s.below(3) {
                0 => score.hop = odd_hop(s),
                1 if mapped => score.spoil_points(s),
                _ => score.spoil(s),
            }
        }
        if s.below(LONG) == 0 {
            score.out = 16_777_217;
        }
        score
    }

    /// As many frames as there were, or a multiple of the hop or a neighbour of one: a note through all of them
    /// then ends with the last frame of a value, or just before it or after it.
    fn set_frames(&mut self, s: &mut Source) {
        let (hop, room) = (self.hop as usize, self.note_buf - self.out);
        let most = match s.below(SLOW) {
            0 => 5 * MOST_HOP as usize,
            _ => 600,
        };
        if hop <= most && s.below(4) != 0 {
            let times = 1 + s.below((most / hop) as u64) as usize;
            self.out = times * hop + s.pick(&[0, 1, 2]) - 1;
        }
        self.note_buf = self.out + room;
    }

    /// A note of this step and len, mostly a curve and often through all frames.
    fn add_hopped(&mut self, grid: &Grid, [step, len]: [u32; 2], s: &mut Source) {
        let step = if s.below(3) == 0 { 0 } else { step };
        let len = if s.below(3) == 0 { 1_048_575 } else { len };
        if s.below(4) == 0 {
            return self.add_pitched(grid, [step, len], s);
        }
        let offset = match s.below(60) {
            0 => u32::MAX - s.below(2 * MOST_HOP as u64) as u32,
            1 => u32::MAX,
            2..20 => 0,
            20..25 => s.below(1600) as u32,
            _ => s.below(40) as u32,
        };
        let gain = s.sized(0.0, 1.0).to_bits();
        self.words.extend([step, len, 1, offset, gain]);
    }

    /// A lane mostly just as long as the curves need, often one value shorter. Its values differ from one
    /// another. Curves that start near place 2^32 reach past it.
    fn set_lane(&mut self, grid: &Grid, s: &mut Source) {
        let near = self.curves(grid).filter(|curve| curve.reach <= 1 << 20);
        let reach = near.map(|curve| curve.reach as usize).max().unwrap_or(0);
        let values = match s.below(16) {
            0..3 => reach.saturating_sub(1),
            3 => reach + s.below(40) as usize,
            4 => s.below(reach as u64 + 1) as usize,
            5 => s.pick(&[0, 1]),
            _ => reach,
        };
        let (from, by) = (s.between(20.0, 2000.0), s.between(-0.05, 3.0));
        self.lane = match s.below(2) {
            0 => (0..values).map(|i| from + by * i as f32).collect(),
            _ => (0..values).map(|_| s.sized(20.0, 5000.0)).collect(),
        };
    }

    /// The curves among the notes.
    pub fn curves<'a>(&'a self, grid: &'a Grid) -> impl Iterator<Item = Curve<'a>> {
        let notes = self.words.chunks_exact(5).filter(|w| w[2] == 1);
        notes.map(|words| {
            let length = grid.length(words);
            Curve {
                words,
                length,
                reach: place_read(words, length - 1, self.hop) + 1,
            }
        })
    }
}

/// A note with a curve: its five words, its length, and how many values its lane has to have.
pub struct Curve<'a> {
    pub words: &'a [u32],
    pub length: usize,
    pub reach: u64,
}

/// Of the domain.
fn hop(s: &mut Source) -> u32 {
    match s.below(4) {
        0 => s.pick(&[1, 2, 3, 64, 4095, 4096]),
        1 => 1 + s.below(16) as u32,
        2 => 1 + s.below(600) as u32,
        _ => 1 + s.below(MOST_HOP as u64) as u32,
    }
}

/// Outside the domain.
fn odd_hop(s: &mut Source) -> u32 {
    let above = MOST_HOP + 1 + s.below((u32::MAX - MOST_HOP) as u64) as u32;
    s.pick(&[
        0,
        0,
        4097,
        4097,
        8192,
        65_536,
        65_537,
        1 << 31,
        u32::MAX,
        above,
    ])
}
