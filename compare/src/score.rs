//! A score call's input, held by value.

use crate::reference::ScoreCall;

#[derive(Clone)]
pub struct Score {
    /// How many seeds and counts its session is handed as.
    pub seeds: usize,
    pub counts: usize,
    pub station: u32,
    pub rate: u32,
    pub tempo: f32,
    pub steps_per_beat: u32,
    /// Four words a tempo point.
    pub points: Vec<u32>,
    pub swing: f32,
    pub humanize: f32,
    /// How many frames a value of a curve is read for.
    pub hop: u32,
    pub wave: u32,
    /// The drum kit's style, which other waves do not read.
    pub style: u32,
    pub duty: f32,
    pub knobs: Vec<f32>,
    pub bars: Vec<f32>,
    pub env: Vec<f32>,
    pub words: Vec<u32>,
    pub lane: Vec<f32>,
    pub out: usize,
    pub note_buf: usize,
    pub string: usize,
}

impl Score {
    pub fn call(&self) -> ScoreCall<'_> {
        ScoreCall {
            seeds: self.seeds,
            counts: self.counts,
            station: self.station,
            rate: self.rate,
            tempo: self.tempo,
            steps_per_beat: self.steps_per_beat,
            points: &self.points,
            swing: self.swing,
            humanize: self.humanize,
            hop: self.hop,
            wave: self.wave,
            style: self.style,
            duty: self.duty,
            knobs: &self.knobs,
            bars: &self.bars,
            env: &self.env,
            words: &self.words,
            lane: &self.lane,
            out: self.out,
            note_buf: self.note_buf,
            string: self.string,
        }
    }
}
