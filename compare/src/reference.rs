//! What document 01, and 02 of tempo maps, of hops, of stations, of drawbars and of the drum kit, ask of a note call and of a list of score calls, with
//! the original's voices, groove and mix for the sound. Nothing here comes from the library. Words in quotes
//! are theirs.

use crate::grid::{bare, Grid};
use crate::kit_draws::hit_draws;
use crate::random::{draw, state_at};
use crate::tempo_points::{are_outside, are_unordered, points_of};
use crate::tones::quarter_tone;
use crate::waves::{envelope, style_at, voice_of, wave_at};
use std::iter::repeat_n;
use tono::dsl::{SeqNote, SeqWave, TempoPoint, Value};
use tono::dsp::Rng;
use tono::voice::{note_signal, render, Voice};

/// "n at most 16,777,216; 0 is accepted."
const MOST_FRAMES: usize = 16_777_216;
/// "string buffer shorter than 9,600 values"
const STRING: usize = 9600;
/// "a hop h from 1 to 4,096"
const MOST_HOP: u32 = 4096;
/// "eight headphone stations"
pub const STATIONS: usize = 8;
/// C's answer where no call is made: there are not 8 seeds and 8 counts, or not 22 knobs, or not 10 numbers of
/// drawbars, or not 5 of an envelope, or not four words for each tempo point, or the wave is not one of the 18, or the
/// style is above 3.
pub const NO_CALL: u32 = u32::MAX;

/// What a call comes to. "A refusal returns its number and 0 draws and changes nothing."
pub enum Outcome {
    Refused(u32),
    Accepted { draws: u64, frames: Vec<f32> },
}

/// A call from C: `None` where none is made.
pub type Called = Option<Outcome>;

/// A refusal's number, 0 for an accepted call.
pub fn number(called: &Called) -> u32 {
    match called {
        None => NO_CALL,
        Some(Outcome::Refused(number)) => *number,
        Some(Outcome::Accepted { .. }) => 0,
    }
}

/// The draws of an accepted call, otherwise 0.
pub fn made(called: &Called) -> u64 {
    match called {
        Some(Outcome::Accepted { draws, .. }) => *draws,
        _ => 0,
    }
}

/// The frames of an accepted call.
pub fn frames(called: &Called) -> Option<&[f32]> {
    match called {
        Some(Outcome::Accepted { frames, .. }) => Some(frames),
        _ => None,
    }
}

/// A note call: its numbers and values, and how long the output and the string buffer are.
pub struct NoteCall<'a> {
    pub rate: u32,
    pub wave: u32,
    pub style: u32,
    pub knobs: &'a [f32],
    pub bars: &'a [f32],
    pub gain: f32,
    pub state: u64,
    pub pitch: &'a [f32],
    pub duty: &'a [f32],
    pub out: usize,
    pub string: usize,
}

pub fn note_call(call: &NoteCall) -> Called {
    let knobs = call.knobs.try_into().ok()?;
    let bars = call.bars.try_into().ok()?;
    let voice = Voice {
        kit: style_at(call.style)?,
        ..voice_of(wave_at(call.wave)?, knobs, bars)
    };
    Some(match note_refusal(call) {
        Some(number) => Outcome::Refused(number),
        None => note_played(call, &voice),
    })
}

/// "note call only, in the order 1, 2, 6, 21, 10, 13, 14: 10 gain, or a pitch or duty value, not
/// sized; 13 pitch empty; 14 pitch, duty and output differ in length; 2 judges the output's length";
/// 6 "in a note call: a knob only", and 02, Card 14: "ten sized numbers, judged by 6 as knobs are"
fn note_refusal(call: &NoteCall) -> Option<u32> {
    let (pitch, duty) = (call.pitch, call.duty);
    first(&[
        (1, !is_rate(call.rate)),
        (2, call.out > MOST_FRAMES),
        (6, !all_sized(call.knobs) || !all_sized(call.bars)),
        (21, call.string < STRING),
        (
            10,
            !is_sized(call.gain) || !all_sized(pitch) || !all_sized(duty),
        ),
        (13, pitch.is_empty()),
        (14, pitch.len() != duty.len() || pitch.len() != call.out),
    ])
}

/// "An accepted note call reports e, demand 3's draws with every frame of its output sounded, and
/// hands back its state + e × G modulo 2^64."
fn note_played(call: &NoteCall, voice: &Voice) -> Outcome {
    let mut rng = Rng::new(call.state);
    let frames = note_signal(voice, call.gain, call.pitch, call.duty, call.rate, &mut rng);
    let draws = draws_of(voice, call.rate, call.pitch[0], call.out);
    moved(rng, call.state, draws);
    Outcome::Accepted { draws, frames }
}

/// The original's generator has gone as far as the count says: no two states have one next draw.
fn moved(mut rng: Rng, state: u64, draws: u64) {
    let next = draw(state_at(state, draws));
    assert_eq!(
        rng.next_u64(),
        next,
        "the original did not make {draws} draws from {state:016x}"
    );
}

/// The first refusal that applies.
fn first(tests: &[(u32, bool)]) -> Option<u32> {
    tests.iter().find(|t| t.1).map(|t| t.0)
}

/// "Rate 8,000 to 192,000."
fn is_rate(rate: u32) -> bool {
    (8000..=192_000).contains(&rate)
}

/// ""Sized" means finite and of magnitude at most 65,536"
fn is_sized(x: f32) -> bool {
    x.is_finite() && x.abs() <= 65536.0
}

pub fn all_sized(values: &[f32]) -> bool {
    values.iter().all(|&x| is_sized(x))
}

/// Demand 3's draws of a note: noise and flute one a frame, pluck one for each value of its string,
/// piano in the frames before 0.006 seconds, which are 3 / 500 of the rate, rounded up; the drum kit by style and drum.
fn draws_of(voice: &Voice, rate: u32, first_pitch: f32, frames: usize) -> u64 {
    match voice.wave {
        SeqWave::Noise | SeqWave::Flute => frames as u64,
        SeqWave::Pluck => string_period(rate, first_pitch),
        SeqWave::Piano => (frames as u64).min((3 * rate as u64).div_ceil(500)),
        SeqWave::Kit => hit_draws(voice.kit, rate, first_pitch, frames),
        _ => 0,
    }
}

/// "The string period is rate / clamp(first pitch, 20, rate / 2), divided in f32, rounded half away
/// from zero, at least 2."
fn string_period(rate: u32, first_pitch: f32) -> u64 {
    let rate = rate as f32;
    let period = (rate / first_pitch.clamp(20.0, rate / 2.0)).round();
    (period as u64).max(2)
}

/// A score call: its numbers and values, how many seeds and counts there are, and how long the output, the
/// note buffer and the string buffer are.
pub struct ScoreCall<'a> {
    pub seeds: usize,
    pub counts: usize,
    pub station: u32,
    pub rate: u32,
    pub tempo: f32,
    pub steps_per_beat: u32,
    pub points: &'a [u32],
    pub swing: f32,
    pub humanize: f32,
    pub hop: u32,
    pub wave: u32,
    pub style: u32,
    pub duty: f32,
    pub knobs: &'a [f32],
    pub bars: &'a [f32],
    pub env: &'a [f32],
    pub words: &'a [u32],
    pub lane: &'a [f32],
    pub out: usize,
    pub note_buf: usize,
    pub string: usize,
}

/// "The tally holds s and a count d, at first c." Each station has one.
#[derive(Clone, Copy, Default)]
pub struct Tally {
    pub seed: u64,
    pub draw: u64,
}

/// A call that is accepted: its draws, the count after it, and its notes.
pub struct Accepted {
    draws: u64,
    after: u64,
    pub notes: Vec<SeqNote>,
}

impl Tally {
    /// "its generator stands at s + d × G modulo 2^64"
    pub fn state(&self) -> u64 {
        state_at(self.seed, self.draw)
    }

    /// "Refused: the first refusal that applies gives the number."
    pub fn judged(&self, call: &ScoreCall, voice: &Voice, grid: &Grid) -> Result<Accepted, u32> {
        if let Some(number) = refusal(call, grid) {
            return Err(number);
        }
        let notes = call.words.chunks_exact(5);
        let notes: Vec<SeqNote> = notes.map(|w| call.note(grid, w)).collect();
        // "22 applies exactly when none before it does and d + D passes 2^64 − 1"
        let draws = notes.iter().map(|note| call.draws(voice, grid, note));
        let draws: u128 = draws.sum();
        let after = u64::try_from(self.draw as u128 + draws).map_err(|_| 22u32)?;
        Ok(Accepted {
            draws: draws as u64,
            after,
            notes,
        })
    }

    /// The draws of a call that is accepted, else the refusal's number, with no sound made.
    pub fn planned(&self, call: &ScoreCall) -> Option<Result<u64, u32>> {
        let voice = score_voice(call)?;
        let judged = self.judged(call, &voice, &Grid::of(call));
        Some(judged.map(|accepted| accepted.draws))
    }

    /// The number that refuses a call before its draws are looked at.
    pub fn refused(&self, call: &ScoreCall) -> Option<u32> {
        refusal(call, &Grid::of(call))
    }

    /// The planning screen's total, or the refusal's number: "It is refused as the score call is but for 20 and
    /// 21, else reports the total". What is added goes on from the count, down the sorted list, until it passes
    /// 2^64 − 1.
    pub fn screen(&self, call: &ScoreCall) -> Option<Result<u64, u32>> {
        score_voice(call)?;
        let unlent = ScoreCall {
            note_buf: call.out,
            string: STRING,
            ..*call
        };
        let grid = Grid::of(&unlent);
        if let Some(number) = refusal(&unlent, &grid) {
            return Some(Err(number));
        }
        let mut count = self.draw;
        for one in unlent.listed(&grid) {
            match count.checked_add(one.draws) {
                None => return Some(Err(22)),
                Some(more) => count = more,
            }
        }
        Some(Ok(count - self.draw))
    }

    /// "It reports 0 draws and d stays" .. "Accepted: it reports D .. d + D, becomes the new d."
    fn score_call(&mut self, call: &ScoreCall, voice: &Voice) -> Outcome {
        let grid = Grid::of(call);
        let accepted = match self.judged(call, voice, &grid) {
            Err(number) => return Outcome::Refused(number),
            Ok(accepted) => accepted,
        };
        let (draws, notes) = (accepted.draws, &accepted.notes);
        let frames = score_frames(call, voice, &grid.map, notes, self.state(), draws);
        self.draw = accepted.after;
        Outcome::Accepted { draws, frames }
    }
}

/// "The session becomes a record of eight seeds with eight counts, in place of one count for all."
#[derive(Clone, Copy)]
pub struct Session {
    pub stations: [Tally; STATIONS],
}

impl Session {
    /// Station 0 of this seed and count, the others of seed 0, before their first draw.
    pub fn open(seed: u64, draw: u64) -> Session {
        let mut stations = [Tally::default(); STATIONS];
        stations[0] = Tally { seed, draw };
        Session { stations }
    }

    pub fn seeds(&self) -> [u64; STATIONS] {
        self.stations.map(|tally| tally.seed)
    }

    pub fn counts(&self) -> [u64; STATIONS] {
        self.stations.map(|tally| tally.draw)
    }

    /// The tally that a call names.
    pub fn named(&self, station: u32) -> Option<&Tally> {
        self.stations.get(station as usize)
    }

    /// "A score call names its station, and 22 looks at that station's count." "It refuses a station above 7
    /// with 33, before 1."
    pub fn score_call(&mut self, call: &ScoreCall) -> Called {
        let voice = score_voice(call)?;
        Some(match self.stations.get_mut(call.station as usize) {
            None => Outcome::Refused(33),
            Some(tally) => tally.score_call(call, &voice),
        })
    }
}

impl Session {
    /// A planning call, which "leaves the session as it was".
    pub fn plan_call(&self, call: &ScoreCall) -> Called {
        score_voice(call)?;
        let Some(tally) = self.named(call.station) else {
            return Some(Outcome::Refused(33));
        };
        Some(match tally.screen(call)? {
            Err(number) => Outcome::Refused(number),
            Ok(draws) => Outcome::Accepted {
                draws,
                frames: Vec::new(),
            },
        })
    }
}

/// A line of the planning screen. Lines are in order by start, then by list place.
#[derive(PartialEq, Eq, PartialOrd, Ord)]
pub struct Listed {
    pub start: usize,
    pub place: usize,
    pub draws: u64,
}

/// "1 rate; 2 n; 3 tempo; 4 steps per beat; 5 swing or humanize: outside the domain"; "6 a knob of any
/// of the four sets .. the duty or an envelope number isn't sized", and the drawbars; "20 and 21 after 6"; "7 note words
/// not a multiple of five"; "11 a lane value, used or not, isn't sized"; 31 and 32 "both after 4 and in
/// that order"; "a hop outside 1 to 4,096 with 35, directly before 7". A NaN is in no range.
fn score_refusal(call: &ScoreCall) -> Option<u32> {
    let part = 0.0..=1.0;
    let points = points_of(call.points);
    let set = all_sized(call.knobs) && all_sized(call.bars);
    let voiced = set && is_sized(call.duty) && all_sized(call.env);
    first(&[
        (1, !is_rate(call.rate)),
        (2, call.out > MOST_FRAMES),
        (3, !(1.0..=1000.0).contains(&call.tempo)),
        (4, !(1..=64).contains(&call.steps_per_beat)),
        (31, are_outside(&points)),
        (32, are_unordered(&points)),
        (
            5,
            !part.contains(&call.swing) || !part.contains(&call.humanize),
        ),
        (6, !voiced),
        (20, call.note_buf < call.out),
        (21, call.string < STRING),
        (35, !(1..=MOST_HOP).contains(&call.hop)),
        (7, call.words.len() % 5 != 0),
        (11, !all_sized(call.lane)),
    ])
}

/// "then note by note: 8 kind above 1; 9 step or len; 10 gain or constant pitch not sized"; 12 "looks at
/// offset + (length − 1) / h, cut, against the lane's last place; an empty lane has none", with the length of
/// "skipped notes too"; a mapped note has its mapped length; "It refuses a q above 255 with 30, in the place
/// of 12 for that note, and 8 now means a kind above 2."
fn notes_refusal(call: &ScoreCall, grid: &Grid) -> Option<u32> {
    let mut notes = call.words.chunks_exact(5);
    notes.find_map(|w| {
        let (curve, tone) = (w[2] == 1, w[2] == 2);
        let pitched = curve || tone || is_sized(f32::from_bits(w[3]));
        let passes = || place_read(w, grid.length(w) - 1, call.hop) >= call.lane.len() as u64;
        first(&[
            (8, w[2] > 2),
            (9, w[0].max(w[1]) > 1_048_575),
            (10, !is_sized(f32::from_bits(w[4])) || !pitched),
            (30, tone && quarter_tone(w[3]).is_none()),
            (12, curve && passes()),
        ])
    })
}

/// The first refusal of a call but 22, for which its draws are needed.
pub fn refusal(call: &ScoreCall, grid: &Grid) -> Option<u32> {
    score_refusal(call).or_else(|| notes_refusal(call, grid))
}

/// The lane's place that frame i of a curve reads: "offset + i / h, cut", without bound.
pub fn place_read(w: &[u32], i: usize, hop: u32) -> u64 {
    w[3] as u64 + i as u64 / hop as u64
}

/// The voice with the score's own settings; none where no call is made.
pub fn score_voice(call: &ScoreCall) -> Option<Voice> {
    let knobs = call.knobs.try_into().ok()?;
    let bars = call.bars.try_into().ok()?;
    let env = <[f32; 5]>::try_from(call.env).ok()?;
    let counted = [call.seeds, call.counts] == [STATIONS; 2] && call.points.len() % 4 == 0;
    let wave = wave_at(call.wave).filter(|_| counted)?;
    Some(Voice {
        kit: style_at(call.style)?,
        duty: call.duty,
        swing: call.swing,
        humanize: call.humanize,
        env: envelope(env),
        ..voice_of(wave, knobs, bars)
    })
}

impl ScoreCall<'_> {
    /// "The planning screen lists notes by start frame, ties by list place": of a call that is not refused.
    pub fn listed(&self, grid: &Grid) -> Vec<Listed> {
        let voice = score_voice(self).expect("the call is made");
        let notes = self.words.chunks_exact(5).enumerate();
        let mut lines: Vec<Listed> = notes
            .map(|(place, w)| {
                let note = bare(w);
                let frames = grid.place(&note).map_or(0, |frames| frames.len());
                let first_pitch = match note.pitch {
                    Value::Const(pitch) => pitch,
                    _ => self.lane[w[3] as usize],
                };
                Listed {
                    start: grid.start(&note),
                    place,
                    draws: match frames {
                        0 => 0,
                        _ => draws_of(&voice, self.rate, first_pitch, frames),
                    },
                }
            })
            .collect();
        lines.sort();
        lines
    }

    /// A note of five words, whose curve is widened: from the offset on each value of the lane h times, as
    /// many as the note is long. "For other h the Rust is given the widened curve."
    fn note(&self, grid: &Grid, w: &[u32]) -> SeqNote {
        let bare = bare(w);
        if w[2] != 1 {
            return bare;
        }
        let values = self.lane[w[3] as usize..].iter();
        let widened = values.flat_map(|&x| repeat_n(x, self.hop as usize));
        SeqNote {
            pitch: Value::Modulated(widened.take(grid.length(w)).collect()),
            ..bare
        }
    }

    pub fn draws(&self, voice: &Voice, grid: &Grid, note: &SeqNote) -> u128 {
        let Some(frames) = grid.place(note) else {
            return 0;
        };
        let first_pitch = match &note.pitch {
            Value::Const(pitch) => *pitch,
            Value::Modulated(curve) => curve[0],
            Value::Note(_) => panic!("no note names"),
        };
        draws_of(voice, self.rate, first_pitch, frames.len()) as u128
    }
}

/// The original's frames from a state, which it leaves after so many draws.
fn score_frames(
    call: &ScoreCall,
    voice: &Voice,
    map: &[TempoPoint],
    notes: &[SeqNote],
    state: u64,
    draws: u64,
) -> Vec<f32> {
    let mut rng = Rng::new(state);
    let (tempo, steps) = (call.tempo, call.steps_per_beat);
    let (n, rate) = (call.out, call.rate);
    let frames = render(voice, map, tempo, steps, notes, n, rate, &mut rng);
    moved(rng, state, draws);
    frames
}
