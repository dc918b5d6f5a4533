//! A text score as lines of fields, so that each can be changed on its own.

use crate::drawbars::is_bars;
use crate::score::Score;
use crate::waves::{own_knobs, KIT, ORGAN};

#[derive(Clone)]
pub struct Text {
    pub lines: Vec<Vec<Vec<u8>>>,
}

/// What a field of a line holds.
#[derive(Clone, Copy, PartialEq)]
pub enum Kind {
    Letter,
    Decimal,
    Hex,
}

impl Text {
    /// A score call's text. Its knobs that the wave doesn't read are not written, nor drawbars that are
    /// `BARS`, nor the style of a voice that is not a drum kit, and its pitches are numbers.
    pub fn of(score: &Score, seed: u64, draw: u64) -> Text {
        let float = |x: &f32| format!("{:08x}", x.to_bits());
        let mut s = line("S", [score.rate.to_string(), score.out.to_string()]);
        s.push(float(&score.tempo).into());
        s.push(score.steps_per_beat.to_string().into());
        s.extend([&score.swing, &score.humanize].map(|x| float(x).into()));
        let mut v = line("V", [score.wave.to_string(), float(&score.duty)]);
        let knobs = &score.knobs[own_knobs(score.wave)];
        v.extend(knobs.iter().map(|x| float(x).into()));
        if score.wave == KIT {
            v.push(score.style.to_string().into());
        }
        if score.wave == ORGAN && !is_bars(&score.bars) {
            v.extend(score.bars.iter().map(|x| float(x).into()));
        }
        let g = line("G", [format!("{seed:016x}"), draw.to_string()]);
        let e = line("E", score.env.iter().map(float));
        let mut lines = vec![s, g, e, v];
        for w in score.words.chunks_exact(5) {
            let (step, len) = (w[0].to_string(), w[1].to_string());
            let (pitch, gain) = (format!("{:08x}", w[3]), format!("{:08x}", w[4]));
            lines.push(line("N", [step, len, pitch, gain]));
        }
        Text { lines }
    }

    pub fn bytes(&self) -> Vec<u8> {
        let lines = self.lines.iter().map(|line| line.join(&b'\t'));
        lines
            .flat_map(|line| [line, vec![b'\n']].concat())
            .collect()
    }

    pub fn set(&mut self, line: usize, field: usize, value: &str) {
        self.lines[line][field] = value.into();
    }

    /// What the field of this number should hold.
    pub fn kind(&self, line: usize, field: usize) -> Kind {
        let letter: &[u8] = &self.lines[line][0];
        match (letter, field) {
            (_, 0) => Kind::Letter,
            (b"S", 1 | 2 | 4) | (b"G", 2) | (b"V", 1) | (b"N", 1 | 2) => Kind::Decimal,
            (b"V", 3) if self.lines[line][1] == KIT.to_string().as_bytes() => Kind::Decimal,
            _ => Kind::Hex,
        }
    }
}

fn line(letter: &str, fields: impl IntoIterator<Item = String>) -> Vec<Vec<u8>> {
    let fields = fields.into_iter().map(String::into_bytes);
    [letter.into()].into_iter().chain(fields).collect()
}
