//! Note calls of every outcome, through `tono_note` and by the reference.

use crate::drawbars::bar_kinds;
use crate::engine::{threads, Count};
use crate::harness::{tono_note, NoteArgs};
use crate::lent::{Lent, LentNumber};
use crate::progress::Progress;
use crate::random::{state_at, Source};
use crate::reference::{self, NoteCall};
use crate::tried::{self, first_of, Tried};
use crate::waves::{BARS, KIT, ORGAN, WAVES};

/// How many calls are tried where no number is given.
pub const COUNT: u64 = 1_000_000;
/// One call in so many has an output past the limit of the frames: 64 MiB, which take time to check.
const LONG: u64 = 20_000;

pub struct Case {
    rate: u32,
    wave: u32,
    style: u32,
    knobs: Vec<f32>,
    bars: Vec<f32>,
    gain: f32,
    state: u64,
    draws: u64,
    pitch: Vec<f32>,
    duty: Vec<f32>,
    out: usize,
    string: usize,
}

impl Case {
    pub fn random(seed: u64) -> Case {
        let mut s = Source::new(seed);
        let wave = s.pick(&WAVES).0;
        Case::of_wave(wave, &mut s)
    }

    fn of_wave(wave: u32, s: &mut Source) -> Case {
        let n = match s.below(8) {
            0 => 1,
            1 => 1 + s.below(1500),
            _ => 1 + s.below(150),
        } as usize;
        let mut case = Case {
            rate: s.rate(),
            wave,
            style: s.style(wave),
            knobs: s.knobs().to_vec(),
            bars: s.bars().to_vec(),
            gain: s.sized(0.0, 1.0),
            state: s.number(),
            draws: s.number(),
            pitch: s.curve(n, 20.0, 5000.0),
            duty: s.curve(n, 0.0, 1.0),
            out: n,
            string: s.pick(&[9600, 9600, 9601, 9637]),
        };
        if wave == KIT {
            case.pitch[0] = s.pitch(KIT);
        }
        let faults = s.pick(&[0, 0, 0, 1, 1, 2, 3]);
        for _ in 0..faults {
            case.spoil(s);
        }
        if s.below(LONG) == 0 {
            case.out = 16_777_217;
        }
        case
    }

    /// One fault of any kind.
    fn spoil(&mut self, s: &mut Source) {
        match s.below(15) {
            0 => self.rate = s.pick(&[0, 7999, 192_001, u32::MAX]),
            1 => s.spoil_one(&mut self.knobs),
            2 => self.string = s.pick(&[0, 1, 9599]),
            3 => self.gain = s.not_sized(),
            4 => s.spoil_one(&mut self.pitch),
            5 => s.spoil_one(&mut self.duty),
            6 => self.pitch.clear(),
            7 => {
                self.pitch.clear();
                self.duty.clear();
                self.out = 0;
            }
            8 => self.out = s.pick(&[0, self.out + 1, self.out.saturating_sub(1)]),
            9 => self.duty.resize(s.pick(&[0, 1, self.out + 1]), 0.5),
            10 => self.wave = s.pick(&[18, 18, 19, 255, 65_536, u32::MAX]),
            11 => s.spoil_one(&mut self.bars),
            12 => self.bars.resize(s.pick(&[0, 1, 9, 11, 20]), 0.5),
            13 => self.style = s.no_style(),
            _ => self.knobs.resize(s.pick(&[0, 1, 21, 23, 44]), 0.5),
        }
    }

    pub fn call(&self) -> NoteCall<'_> {
        NoteCall {
            rate: self.rate,
            wave: self.wave,
            style: self.style,
            knobs: &self.knobs,
            bars: &self.bars,
            gain: self.gain,
            state: self.state,
            pitch: &self.pitch,
            duty: &self.duty,
            out: self.out,
            string: self.string,
        }
    }

    /// The number that the reference gives, and what of the library's answer is another.
    fn tried(&self) -> (u32, Option<String>) {
        let (knobs, bars, pitch, duty) = (
            Lent::of(&self.knobs),
            Lent::of(&self.bars),
            Lent::of(&self.pitch),
            Lent::of(&self.duty),
        );
        let (mut out, mut string) = (Lent::any(self.out), Lent::any(self.string));
        let (mut state, mut draws) = (LentNumber::of(self.state), LentNumber::of(self.draws));
        let number = tono_note(NoteArgs {
            rate: self.rate,
            wave: self.wave,
            style: self.style,
            knobs: knobs.part(),
            bars: bars.part(),
            gain: self.gain,
            state: state.place(),
            draws: draws.place(),
            pitch: pitch.part(),
            duty: duty.part(),
            out: out.part_mut(),
            string: string.part_mut(),
        });
        let called = reference::note_call(&self.call());
        let frames = reference::frames(&called);
        let made = reference::made(&called);
        let told = if called.is_none() { self.draws } else { made };
        let free = if frames.is_some() { 9600 } else { 0 };
        let differs = first_of(&[
            ("number", number != reference::number(&called)),
            ("draws", !draws.holds(told)),
            ("state", !state.holds(state_at(self.state, made))),
            ("output", !out.holds(frames)),
            ("string", !string.stays_but(free)),
            ("knobs", !(knobs.stays() && bars.stays())),
            ("input", !(pitch.stays() && duty.stays())),
        ]);
        (reference::number(&called), differs)
    }

    /// The number that the reference gives.
    fn add_to(&self, name: &str, tried: &mut Tried) -> u32 {
        let (number, differs) = self.tried();
        tried.add(number, differs.map(|what| format!("{name}: {what}")));
        number
    }
}

/// A note as long as the domain goes.
fn longest() -> Case {
    let mut case = Case::random(0);
    (case.rate, case.wave, case.gain) = (192_000, 4, 1.0);
    (case.knobs, case.bars, case.string) = (vec![0.5; 22], BARS.to_vec(), 9600);
    (case.pitch, case.duty) = (vec![440.0; 16_777_216], vec![0.5; 16_777_216]);
    case.out = 16_777_216;
    case
}

fn share(first: u64, count: u64, progress: &Progress) -> Tried {
    let mut tried = Tried::default();
    let mut add = |name: String, case: Case| {
        case.add_to(&name, &mut tried);
    };
    if first == 0 {
        add("the longest note".to_string(), longest());
    }
    for i in (first..count).step_by(threads()) {
        add(format!("call {i}"), Case::random(i));
        progress.add(1);
    }
    tried
}

/// Compares `count` calls.
pub fn run(count: u64) -> Count {
    tried::run("note calls", count, |thread, progress| {
        share(thread, count, progress)
    })
}

/// Organs with drawbars of every kind.
fn organ_share(first: u64, count: u64, progress: &Progress) -> Tried {
    let mut tried = Tried::default();
    for i in (first..count).step_by(threads()) {
        let case = Case::of_wave(ORGAN, &mut Source::new(i));
        let number = case.add_to(&format!("organ call {i}"), &mut tried);
        if number == 0 {
            for (kind, is) in bar_kinds(&case.bars) {
                tried.mark_if(kind, is);
            }
        }
        progress.add(1);
    }
    tried
}

/// Compares `count` calls of the organ.
pub fn run_organ(count: u64) -> Count {
    tried::run("note calls of the organ", count, |thread, progress| {
        organ_share(thread, count, progress)
    })
}
