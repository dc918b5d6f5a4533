//! Scores to try: short ones of any kind, and faults in them.

use crate::grid::Grid;
use crate::random::Source;
use crate::reference::STATIONS;
use crate::score::Score;
use crate::score_cases::note;
use crate::tones::TONES;
use crate::waves::{KIT, WAVES};

/// The next number above 1.
const ABOVE_1: f32 = 1.0 + f32::EPSILON;
/// One score in so many has an output past the limit of the frames: 64 MiB, which take time to check.
pub const LONG: u64 = 20_000;

impl Score {
    /// A score of the domain, but that a curve may reach past its lane, and then up to three faults.
    /// Half of them have a wave that draws.
    pub fn random(s: &mut Source) -> Score {
        let mut score = Score::played(s);
        let notes = match s.below(16) {
            0 => s.below(40),
            _ => s.below(6),
        };
        for _ in 0..notes {
            score.add_note(s);
        }
        for _ in 0..s.pick(&[0, 0, 0, 0, 1, 1, 2, 3]) {
            score.spoil(s);
        }
        if s.below(LONG) == 0 {
            score.out = 16_777_217;
        }
        score
    }

    /// With no notes yet, and as many frames as a few steps, where they are not too many.
    pub fn played(s: &mut Source) -> Score {
        let rate = s.rate();
        let tempo = match s.below(4) {
            0 => s.between(1.0, 1000.0),
            1 => s.pick(&[1.0, 120.0, 1000.0]),
            _ => s.between(300.0, 1000.0),
        };
        let steps_per_beat = match s.below(3) {
            0 => 1 + s.below(64) as u32,
            _ => s.pick(&[1, 4, 32, 63, 64]),
        };
        let steps = rate as f32 * 60.0 / tempo / steps_per_beat as f32 * s.between(0.0, 10.0);
        let out = match s.below(8) {
            0 => 0,
            1 => 1 + s.below(1500) as usize,
            _ => 1 + steps.min(500.0) as usize,
        };
        let lane = s.pick(&[0, 1, 64, 600, 1600, 1600]);
        let wave = match s.below(2) {
            0 => s.pick(&WAVES).0,
            _ => s.pick(&[4, 6, 7, 12, KIT]),
        };
        Score {
            seeds: STATIONS,
            counts: STATIONS,
            station: 0,
            rate,
            tempo,
            steps_per_beat,
            points: Vec::new(),
            swing: part(s),
            humanize: part(s),
            hop: 1,
            wave,
            style: s.style(wave),
            duty: s.sized(0.0, 1.0),
            knobs: s.knobs().to_vec(),
            bars: s.bars().to_vec(),
            env: (0..5).map(|_| s.sized(0.0, 0.02)).collect(),
            words: Vec::new(),
            lane: s.curve(lane, 20.0, 5000.0),
            out,
            note_buf: out + s.pick(&[0, 0, 1, 37]),
            string: s.pick(&[9600, 9600, 9601, 9637]),
        }
    }

    /// Step and len of a note: mostly at a step that starts within the frames or just after them, often
    /// at one that has a note.
    pub fn span(&self, s: &mut Source) -> [u32; 2] {
        let within = self.out as f32 / Grid::of(&self.call()).samples_per_step();
        let step = match s.below(5) {
            0 if !self.words.is_empty() => self.words[self.words.len() - 5],
            _ => steps(s, within as u64 + 2),
        };
        [step, steps(s, 6)]
    }

    fn add_note(&mut self, s: &mut Source) {
        let span = self.span(s);
        self.add_pitched(&Grid::of(&self.call()), span, s);
    }

    /// A note of this step and len, whose pitch is a number or a curve.
    pub fn add_pitched(&mut self, grid: &Grid, [step, len]: [u32; 2], s: &mut Source) {
        let length = grid.length(&[step, len, 1, 0, 0]);
        let fits = length <= self.lane.len();
        let curve = s.below(if fits { 2 } else { 40 }) == 0;
        let (kind, pitch) = match (curve, s.below(3)) {
            (true, _) => (1, self.offset(length, s)),
            (false, 0) => (2, s.below(TONES as u64) as u32),
            (false, _) => (0, s.pitch(self.wave).to_bits()),
        };
        let gain = s.sized(0.0, 1.0).to_bits();
        self.words.extend([step, len, kind, pitch, gain]);
    }

    /// A note whose pitch is a number.
    pub fn add_number(&mut self, s: &mut Source) {
        let [step, len] = self.span(s);
        let (pitch, gain) = (s.pitch(self.wave), s.sized(0.0, 1.0));
        self.words.extend(note(step, len, pitch, gain));
    }

    /// Where a curve starts: mostly so that it fits its lane, and often so that it just does or just
    /// doesn't.
    fn offset(&self, length: usize, s: &mut Source) -> u32 {
        let room = self.lane.len().saturating_sub(length) as u32;
        match s.below(30) {
            0 => room + 1,
            1..10 => room,
            _ => s.below(room as u64 + 1) as u32,
        }
    }

    /// One fault of any kind.
    pub fn spoil(&mut self, s: &mut Source) {
        match s.below(4) {
            0 => self.spoil_numbers(s),
            1 => self.spoil_voice(s),
            2 => self.spoil_note(s),
            _ => self.spoil_lengths(s),
        }
    }

    fn spoil_numbers(&mut self, s: &mut Source) {
        match s.below(4) {
            0 => self.rate = s.pick(&[0, 7999, 192_001, u32::MAX]),
            1 => {
                let below = 1.0 - f32::EPSILON / 2.0;
                let above = f32::from_bits(1000f32.to_bits() + 1);
                let odd = [below, above, 0.0, -120.0, f32::NAN, f32::INFINITY];
                self.tempo = s.pick(&odd);
            }
            2 => self.steps_per_beat = s.pick(&[0, 65, u32::MAX]),
            _ => {
                let odd = [-f32::from_bits(1), ABOVE_1, -1.0, f32::NAN, f32::INFINITY];
                let value = s.pick(&odd);
                match s.below(2) {
                    0 => self.swing = value,
                    _ => self.humanize = value,
                }
            }
        }
    }

    fn spoil_voice(&mut self, s: &mut Source) {
        match s.below(7) {
            0 => s.spoil_one(&mut self.knobs),
            5 => self.style = s.no_style(),
            4 => s.spoil_one(&mut self.bars),
            1 => s.spoil_one(&mut self.env),
            2 => self.duty = s.not_sized(),
            3 => s.spoil_one(&mut self.lane),
            _ => self.wave = s.pick(&[18, 18, 19, 255, 65_536, u32::MAX]),
        }
    }

    /// A word of some note, if there is one.
    fn spoil_note(&mut self, s: &mut Source) {
        let notes = self.words.len() / 5;
        if notes == 0 {
            return;
        }
        let at = 5 * s.below(notes as u64) as usize;
        let note = &mut self.words[at..at + 5];
        match s.below(6) {
            0 => note[0] = s.pick(&[1_048_576, u32::MAX]),
            1 => note[1] = s.pick(&[1_048_576, u32::MAX]),
            2 => note[2] = s.pick(&[3, 4, 256, u32::MAX]),
            3 => note[3] = s.not_sized().to_bits(),
            4 => (note[2], note[3]) = (2, s.pick(&[TONES, TONES + 1, u32::MAX])),
            _ => note[4] = s.not_sized().to_bits(),
        }
    }

    fn spoil_lengths(&mut self, s: &mut Source) {
        match s.below(6) {
            0 => self.note_buf = s.pick(&[0, self.out.saturating_sub(1)]),
            1 => self.string = s.pick(&[0, 1, 9599]),
            2 => self.words.extend(vec![0; 1 + s.below(4) as usize]),
            3 => self.knobs.resize(s.pick(&[0, 21, 23, 44]), 0.5),
            4 => self.bars.resize(s.pick(&[0, 1, 9, 11, 20]), 0.5),
            _ => self.env.resize(s.pick(&[0, 4, 6]), 0.5),
        }
    }
}

/// Swing or humanize.
fn part(s: &mut Source) -> f32 {
    match s.below(2) {
        0 => s.unit(),
        _ => s.pick(&[0.0, -0.0, 1.0, f32::from_bits(1)]),
    }
}

/// A step or a length in steps: mostly below `few`, otherwise up to the domain's end.
pub fn steps(s: &mut Source, few: u64) -> u32 {
    match s.below(10) {
        0 => 1_048_575,
        1 => s.below(1_048_576) as u32,
        _ => s.below(few) as u32,
    }
}
