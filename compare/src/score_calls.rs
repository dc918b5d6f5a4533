//! Lists of score calls on one session, through a call from C and by the tallies of its stations.

use crate::engine::{threads, Count};
use crate::harness::{tono_render_seq, ScoreArgs};
use crate::lent::{Lent, LentNumber, LentNumbers};
use crate::long_scores::{long, longest};
use crate::progress::Progress;
use crate::random::Source;
use crate::reference::{self, Session, Tally, STATIONS};
use crate::score::Score;
use crate::tried::{self, first_of, Tried};
use crate::waves::WAVES;

/// How many calls are tried where no number is given.
pub const COUNT: u64 = 1_000_000;
/// How many calls a list on one station has at most.
pub const CALLS: u64 = 8;

/// What a run of lists tries: how many calls a list has at most, how a call is made and the session of a list,
/// the longer calls that stand beside, each list on a session of its own, and what is worth a line of a call.
pub struct Lists {
    pub what: &'static str,
    pub most: u64,
    pub random: fn(&mut Source) -> Score,
    pub session: fn(&[Score], &mut Source) -> Session,
    pub long: fn() -> Vec<(String, Vec<Score>)>,
    pub mark: fn(&Played, &mut Tried),
}

/// A call that was made of both, and the session before it and after it.
pub struct Played<'a> {
    pub score: &'a Score,
    pub number: u32,
    pub before: &'a Session,
    pub after: &'a Session,
}

/// The number that the tally gives, and what of the library's answer is another.
fn play(session: &mut Session, score: &Score, draws_before: u64) -> (u32, Option<String>) {
    let mut draws = LentNumber::of(draws_before);
    let mut buffers = Buffers::of(score, session);
    let number = buffers.play(score, &mut draws);
    let called = session.score_call(&score.call());
    let told = match called {
        None => draws_before,
        _ => reference::made(&called),
    };
    let differs = first_of(&[
        ("number", number != reference::number(&called)),
        ("draws", !draws.holds(told)),
    ]);
    let frames = reference::frames(&called);
    let differs = differs.or_else(|| buffers.differ(score, session, frames));
    (reference::number(&called), differs)
}

/// As many of these as are lent; past the eighth there is nothing of a session.
pub fn resized(numbers: [u64; STATIONS], len: usize) -> Vec<u64> {
    let mut numbers = numbers.to_vec();
    numbers.resize(len, 1);
    numbers
}

/// What a call is lent.
struct Buffers {
    seeds: LentNumbers,
    counts: LentNumbers,
    knobs: Lent<f32>,
    bars: Lent<f32>,
    env: Lent<f32>,
    words: Lent<u32>,
    points: Lent<u32>,
    lane: Lent<f32>,
    out: Lent<f32>,
    note_buf: Lent<f32>,
    string: Lent<f32>,
}

impl Buffers {
    fn of(score: &Score, session: &Session) -> Buffers {
        Buffers {
            seeds: LentNumbers::of(&resized(session.seeds(), score.seeds)),
            counts: LentNumbers::of(&resized(session.counts(), score.counts)),
            knobs: Lent::of(&score.knobs),
            bars: Lent::of(&score.bars),
            env: Lent::of(&score.env),
            words: Lent::of(&score.words),
            points: Lent::of(&score.points),
            lane: Lent::of(&score.lane),
            out: Lent::any(score.out),
            note_buf: Lent::any(score.note_buf),
            string: Lent::any(score.string),
        }
    }

    fn play(&mut self, score: &Score, draws: &mut LentNumber) -> u32 {
        tono_render_seq(ScoreArgs {
            seeds: self.seeds.part_mut(),
            counts: self.counts.part_mut(),
            draws: draws.place(),
            station: score.station,
            rate: score.rate,
            tempo: score.tempo,
            steps_per_beat: score.steps_per_beat,
            points: self.points.part(),
            swing: score.swing,
            humanize: score.humanize,
            hop: score.hop,
            wave: score.wave,
            style: score.style,
            duty: score.duty,
            knobs: self.knobs.part(),
            bars: self.bars.part(),
            env: self.env.part(),
            notes: self.words.part(),
            lane: self.lane.part(),
            out: self.out.part_mut(),
            note_buf: self.note_buf.part_mut(),
            string: self.string.part_mut(),
        })
    }

    /// What of them is not as it should be after the call: `session` is the one of the tallies, `frames` are those
    /// of an accepted call.
    fn differ(&self, score: &Score, session: &Session, frames: Option<&[f32]>) -> Option<String> {
        let free = |m: usize| if frames.is_some() { m } else { 0 };
        let seeds = resized(session.seeds(), score.seeds);
        let counts = resized(session.counts(), score.counts);
        first_of(&[
            ("seeds", !self.seeds.hold(&seeds)),
            ("counts", !self.counts.hold(&counts)),
            ("output", !self.out.holds(frames)),
            ("note buffer", !self.note_buf.stays_but(free(score.out))),
            ("string", !self.string.stays_but(free(9600))),
            ("knobs", !self.knobs.stays()),
            ("drawbars", !self.bars.stays()),
            ("envelope", !self.env.stays()),
            ("notes", !self.words.stays()),
            ("points", !self.points.stays()),
            ("lane", !self.lane.stays()),
        ])
    }
}

/// A count of a station from which some call of the list ends at the last draw, or passes it.
fn near_the_end(scores: &[Score], station: u32, s: &mut Source) -> u64 {
    let begun = &scores[..1 + s.below(scores.len() as u64) as usize];
    let named = begun.iter().filter(|score| score.station == station);
    let planned = named.filter_map(|score| Tally::default().planned(&score.call()));
    let last = u64::MAX - planned.filter_map(Result::ok).sum::<u64>();
    s.pick(&[
        last,
        last,
        last.saturating_add(1),
        last.saturating_add(2),
        last - 1,
    ])
}

/// The count that a station is opened at.
pub fn opened_at(scores: &[Score], station: u32, s: &mut Source) -> u64 {
    match s.below(4) {
        0 => 0,
        1 => s.number(),
        2 => u64::MAX - s.below(1000),
        _ => near_the_end(scores, station, s),
    }
}

/// A session of which only station 0 is used.
pub fn on_station_0(scores: &[Score], s: &mut Source) -> Session {
    let draw = opened_at(scores, 0, s);
    Session::open(s.number(), draw)
}

/// The list of this number: its session and its calls, one after the other, up to the first fault.
fn try_list(lists: &Lists, list: u64, calls: u64, tried: &mut Tried) {
    let mut s = Source::new(list);
    let scores: Vec<Score> = (0..calls).map(|_| (lists.random)(&mut s)).collect();
    let mut session = (lists.session)(&scores, &mut s);
    let opened = session.counts();
    for (i, score) in scores.iter().enumerate() {
        let before = session;
        let (number, differs) = play(&mut session, score, s.number());
        let faulty = differs.is_some();
        tried.add(
            number,
            differs.map(|what| format!("list {list}, call {i}: {what}")),
        );
        if faulty {
            return;
        }
        if number == 0 && session.counts()[score.station as usize] == u64::MAX {
            tried.mark("accepted and at draw 2^64 - 1 after it");
        }
        let played = Played {
            score,
            number,
            before: &before,
            after: &session,
        };
        (lists.mark)(&played, tried);
    }
    let counts = session.counts();
    let drew = counts.iter().zip(opened).filter(|(a, b)| **a != *b);
    if drew.count() > 1 {
        tried.mark("lists in which two stations or more drew");
    }
}

pub fn mark_kinds(played: &Played, tried: &mut Tried) {
    let (score, number) = (played.score, played.number);
    if number == 0 {
        for (kind, is) in score.kinds() {
            tried.mark_wave(score.wave, kind, is);
        }
    }
    if number == 6 {
        let kind = "refused with 6 for a knob that the wave doesn't read";
        tried.mark_wave(score.wave, kind, score.unread_knob());
    }
}

/// These scores on one session.
fn try_long(name: &str, scores: &[Score], tried: &mut Tried) {
    let mut session = Session::open(1, 2);
    for score in scores {
        let (number, differs) = play(&mut session, score, 3);
        tried.add(number, differs.map(|what| format!("{name}: {what}")));
    }
}

/// Lists of 1 to `most` calls in turn.
fn calls_before(list: u64, most: u64) -> u64 {
    let (rounds, rest) = (list / most, list % most);
    rounds * most * (most + 1) / 2 + rest * (rest + 1) / 2
}

fn share(lists: &Lists, first: u64, count: u64, progress: &Progress) -> Tried {
    let mut tried = Tried::default();
    let long = (lists.long)();
    for (name, scores) in long.iter().skip(first as usize).step_by(threads()) {
        try_long(name, scores, &mut tried);
    }
    for list in (first..).step_by(threads()) {
        let before = calls_before(list, lists.most);
        if before >= count {
            break;
        }
        let calls = (1 + list % lists.most).min(count - before);
        try_list(lists, list, calls, &mut tried);
        progress.add(calls);
    }
    tried
}

/// Compares `count` calls of these lists.
pub fn run_lists(lists: &Lists, count: u64) -> Count {
    tried::run(lists.what, count, |thread, progress| {
        share(lists, thread, count, progress)
    })
}

/// The longest scores, and a long one of each wave.
fn long_ones() -> Vec<(String, Vec<Score>)> {
    let mut all = vec![("the longest score".to_string(), longest().to_vec())];
    all.extend(WAVES.map(|(place, name, _)| (format!("a long {name}"), vec![long(place)])));
    all
}

const STRAIGHT: Lists = Lists {
    what: "score calls",
    most: CALLS,
    random: Score::random,
    session: on_station_0,
    long: long_ones,
    mark: mark_kinds,
};

/// Compares `count` calls.
pub fn run(count: u64) -> Count {
    run_lists(&STRAIGHT, count)
}
