//! The original's answers to calls that a C program prints, one a line. Fields are hexadecimal: `open` has a seed and a draw
//! count of each station, `score` is a call on that session in the form of score_vectors, and `note` has rate, wave,
//! style, gain, state, the lengths of output and string buffer, how many knobs, drawbars' numbers, pitches and duties
//! there are, and these. Each call's answer is a line: its number, its draws, and the sum of its frames.

use crate::reference::{self, note_call, Called, NoteCall, Session, STATIONS};
use crate::score::Score;
use crate::vectors::pattern;
use std::io::{self, Write};

/// The fields of a line that are not read yet.
struct Fields<'a>(std::str::SplitWhitespace<'a>);

impl Fields<'_> {
    fn long(&mut self) -> u64 {
        let field = self.0.next().expect("a line has all its fields");
        u64::from_str_radix(field, 16).expect("a field is hexadecimal")
    }

    fn word(&mut self) -> u32 {
        self.long().try_into().expect("a word has 32 bits")
    }

    fn size(&mut self) -> usize {
        self.long() as usize
    }

    fn float(&mut self) -> f32 {
        f32::from_bits(self.word())
    }

    fn words(&mut self, count: usize) -> Vec<u32> {
        (0..count).map(|_| self.word()).collect()
    }

    fn floats(&mut self, count: usize) -> Vec<f32> {
        (0..count).map(|_| self.float()).collect()
    }

    fn session(&mut self) -> Session {
        let mut session = Session::open(0, 0);
        for tally in &mut session.stations {
            tally.seed = self.long();
            tally.draw = self.long();
        }
        session
    }

    fn score(&mut self) -> Score {
        let (rate, tempo, steps_per_beat) = (self.word(), self.float(), self.word());
        let (swing, humanize) = (self.float(), self.float());
        let (wave, duty) = (self.word(), self.float());
        let (out, note_buf, string) = (self.size(), self.size(), self.size());
        let (knobs, env, words) = (self.size(), self.size(), self.size());
        let (lane, points) = (self.size(), self.size());
        let (hop, station, bars, style) = (self.word(), self.word(), self.size(), self.word());
        let (knobs, bars, env) = (self.floats(knobs), self.floats(bars), self.floats(env));
        let (words, lane, points) = (self.words(words), self.floats(lane), self.words(points));
        Score {
            seeds: STATIONS,
            counts: STATIONS,
            station,
            rate,
            tempo,
            steps_per_beat,
            points,
            swing,
            humanize,
            hop,
            wave,
            style,
            duty,
            knobs,
            bars,
            env,
            words,
            lane,
            out,
            note_buf,
            string,
        }
    }

    fn note(&mut self) -> Called {
        let (rate, wave, style) = (self.word(), self.word(), self.word());
        let (gain, state) = (self.float(), self.long());
        let (out, string) = (self.size(), self.size());
        let (knobs, bars) = (self.size(), self.size());
        let (pitch, duty) = (self.size(), self.size());
        let (knobs, bars) = (self.floats(knobs), self.floats(bars));
        let (pitch, duty) = (self.floats(pitch), self.floats(duty));
        note_call(&NoteCall {
            rate,
            wave,
            style,
            knobs: &knobs,
            bars: &bars,
            gain,
            state,
            pitch: &pitch,
            duty: &duty,
            out,
            string,
        })
    }
}

/// FNV-1a of the frames' patterns, low byte first, a NaN as 7fc00000; 0 where there are none.
fn sum(called: &Called) -> u64 {
    let Some(frames) = reference::frames(called) else {
        return 0;
    };
    let bytes = frames.iter().flat_map(|x| pattern(*x).to_le_bytes());
    bytes.fold(0xcbf2_9ce4_8422_2325, |sum, byte| {
        (sum ^ byte as u64).wrapping_mul(0x0100_0000_01b3)
    })
}

/// Answers every line of standard input.
pub fn run() -> io::Result<()> {
    let mut out = io::BufWriter::new(io::stdout().lock());
    let mut session = Session::open(0, 0);
    for line in io::stdin().lines() {
        let line = line?;
        let mut fields = Fields(line.split_whitespace());
        let called = match fields.0.next() {
            Some("open") => {
                session = fields.session();
                continue;
            }
            Some("score") => session.score_call(&fields.score().call()),
            Some("note") => fields.note(),
            other => panic!("{other:?} is no call"),
        };
        let (number, draws) = (reference::number(&called), reference::made(&called));
        writeln!(out, "{number:x} {draws:x} {:x}", sum(&called))?;
    }
    out.flush()
}
